//! Runs two implementations side by side on the same steps.

use crate::sequence::{Sequence, Step};
use crate::world::{Implementation, World, FCBS};
use reference::Answer;
use std::fmt::Write;
use std::panic::{catch_unwind, AssertUnwindSafe};

/// Two implementations, a world for each, and what happened so far.
pub struct Duel<'a> {
    left: &'a mut dyn Implementation,
    right: &'a mut dyn Implementation,
    left_world: World,
    right_world: World,
    sequence: Sequence,
}

impl<'a> Duel<'a> {
    /// Both worlds start from a seed.
    pub fn new(
        seed: u64,
        left: &'a mut dyn Implementation,
        right: &'a mut dyn Implementation,
    ) -> Self {
        let world = World::new(seed);
        Self {
            left,
            right,
            left_world: world.clone(),
            right_world: world,
            sequence: Sequence {
                seed,
                steps: Vec::new(),
            },
        }
    }

    /// The left world. While nothing differs it is the right one as well.
    pub fn world(&self) -> &World {
        &self.left_world
    }

    /// All steps so far.
    pub fn sequence(&self) -> &Sequence {
        &self.sequence
    }

    /// Does a step in both worlds. A call's answer comes back, or what differs
    /// after it, or after the write protection was lifted or set.
    pub fn step(&mut self, step: &Step) -> Result<Option<Answer>, String> {
        self.sequence.steps.push(step.clone());
        let left = take(self.left, &mut self.left_world, step, "left")?;
        let right = take(self.right, &mut self.right_world, step, "right")?;
        if !matches!(step, Step::Call(_) | Step::Lift | Step::Protect) {
            return Ok(None);
        }
        let mut text = String::new();
        if left != right {
            let _ = writeln!(text, "answers: {left:?} and {right:?}");
        } else if self.left_world.session != self.right_world.session {
            let [left, right] = [&self.left_world, &self.right_world].map(|world| world.session);
            let _ = writeln!(text, "sessions: {left:?} and {right:?}");
        }
        differences(&self.left_world, &self.right_world, &mut text);
        for (side, world) in [("left", &self.left_world), ("right", &self.right_world)] {
            if !world.guards_stand() {
                let _ = writeln!(text, "{side}: something was written around a buffer");
            }
        }
        if text.is_empty() {
            Ok(left)
        } else {
            Err(format!("after `{step}`:\n{text}"))
        }
    }
}

/// Does a step; a panic is a difference like any other.
fn take(
    implementation: &mut dyn Implementation,
    world: &mut World,
    step: &Step,
    side: &str,
) -> Result<Option<Answer>, String> {
    catch_unwind(AssertUnwindSafe(|| world.take(implementation, step)))
        .map_err(|_| format!("{side}: a panic in `{step}`"))
}

/// Tells what differs, the first cell of each buffer.
pub(crate) fn differences(left: &World, right: &World, text: &mut String) {
    fn first<T: PartialEq + std::fmt::Debug>(
        what: &str,
        left: &[T],
        right: &[T],
        text: &mut String,
    ) {
        if left == right {
            return;
        }
        let mut pairs = left.iter().zip(right).enumerate();
        if let Some((at, (left, right))) = pairs.find(|(_, (left, right))| left != right) {
            let _ = writeln!(text, "{what} at {at}: {left:?} and {right:?}");
        }
    }
    first("image", left.image.cells(), right.image.cells(), text);
    first("map", left.map.cells(), right.map.cells(), text);
    for which in 0..FCBS {
        let what = format_args!("FCB {which}").to_string();
        let (left, right) = (left.fcbs[which].cells(), right.fcbs[which].cells());
        first(&what, left, right, text);
    }
    first("buffer", left.buffer.cells(), right.buffer.cells(), text);
}

/// A sequence whose last step, a call or a lift or protect, showed a difference.
#[derive(Debug)]
pub struct Failure {
    /// What differs.
    pub difference: String,
    /// The whole sequence, up to the failing step.
    pub sequence: Sequence,
    /// The world just before that step as a sequence of its own, and the step.
    pub last_call: Sequence,
}

impl Failure {
    /// For a sequence that just failed. The steps before the failing one are
    /// made once more, on the reference, to get at the world before it.
    pub fn new(difference: String, sequence: Sequence) -> Self {
        let mut world = World::new(sequence.seed);
        let (last, before) = match sequence.steps.split_last() {
            Some((last, before)) => (Some(last), before),
            None => (None, &[][..]),
        };
        for step in before {
            world.take(&mut reference::call, step);
        }
        let mut steps = world.steps();
        steps.extend(last.cloned());
        let seed = sequence.seed;
        Self {
            difference,
            sequence,
            last_call: Sequence { seed, steps },
        }
    }
}

/// Runs a sequence again; the answers come back, or what differs.
pub fn replay(
    sequence: &Sequence,
    left: &mut dyn Implementation,
    right: &mut dyn Implementation,
) -> Result<Vec<Answer>, String> {
    let mut duel = Duel::new(sequence.seed, left, right);
    let mut answers = Vec::new();
    for step in &sequence.steps {
        answers.extend(duel.step(step)?);
    }
    Ok(answers)
}
