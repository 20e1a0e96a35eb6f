//! Sequences survive their text form, and are the same for a seed every time.

use generator::{replay, Chooser, Duel, Sequence, Step, World};

/// A sequence from a seed, about a hundred calls long, and the world it ends
/// in.
fn some_sequence(seed: u64) -> (Sequence, World) {
    let (mut left, mut right) = (reference::call, reference::call);
    let mut duel = Duel::new(seed, &mut left, &mut right);
    let (mut chooser, mut steps) = Chooser::new(seed);
    for _ in 0..80 {
        for step in &steps {
            duel.step(step).expect("no difference");
        }
        steps = chooser.next(duel.world());
    }
    (duel.sequence().clone(), duel.world().clone())
}

#[test]
fn a_seed_gives_one_sequence() {
    assert!(some_sequence(5) == some_sequence(5));
    assert!(some_sequence(5).0 != some_sequence(6).0);
}

#[test]
fn sequences_are_read_back_and_replayed() {
    for seed in 0..20 {
        let (sequence, _) = some_sequence(seed);
        let again: Sequence = sequence.to_string().parse().expect("a sequence");
        assert_eq!(again, sequence);
        let answers = replay(&again, &mut reference::call, &mut reference::call);
        let calls = |step: &&Step| matches!(step, Step::Call(_));
        assert_eq!(
            answers.expect("no difference").len(),
            sequence.steps.iter().filter(calls).count()
        );
    }
}

/// A world can be written down as the steps that lead to it.
#[test]
fn worlds_are_rebuilt_from_their_steps() {
    for seed in 0..20 {
        let (sequence, world) = some_sequence(seed);
        let mut rebuilt = World::new(sequence.seed);
        for step in world.steps() {
            rebuilt.prepare(&step);
        }
        assert!(rebuilt == world);
    }
}
