//! Random call sequences, and two implementations run side by side on them.
//!
//! [`run`] makes so many calls from a seed, on worlds whose disks are of every
//! fullness, with date entries and labels or without, by steps that a
//! [`Chooser`] steers so that every cause of the table comes up. After every
//! call all of A, H, image, map, FCBs, transfer buffer and session are compared,
//! and the guards around the buffers looked at. Lifting and setting the write
//! protection are steps of their own, compared too. The left implementation has
//! to keep the [`Laws`] as well, and [`Counts`] tells what came up.
//!
//! Anything with the signature of [`reference::call`] is an
//! [`Implementation`], which lifts and sets the write protection as the
//! reference does; a library behind a foreign interface needs a small type
//! around it that does that by the library too. The reference beside itself:
//!
//! ```
//! use generator::{run, Counts};
//!
//! let mut counts = Counts::default();
//! run(1, 500, &mut reference::call, &mut reference::call, &mut counts).unwrap();
//! assert!(counts.calls >= 500);
//! ```
//!
//! Word pickers are run side by side by [`picking`].
//!
//! A run that fails gives its [`Failure`], with the sequence as a text that
//! [`replay`] runs again.

#![forbid(unsafe_code)]
#![warn(missing_docs)]

mod chooser;
pub mod counts;
pub mod disks;
mod duel;
pub mod faults;
mod laws;
pub mod picking;
pub mod random;
pub mod sequence;
mod world;

pub use chooser::Chooser;
pub use counts::Counts;
pub use duel::{replay, Duel, Failure};
pub use laws::{at_another_time, Laws};
pub use sequence::{Ask, Sequence, Step, Time};
pub use world::{asks, Guarded, Implementation, World, FCBS, MOST_OVER, RIGHT_LENGTHS};

use random::Random;

/// Calls made on one disk, about.
const CALLS_ON_A_DISK: usize = 100;

/// Runs two implementations side by side for at least `calls` calls.
pub fn run(
    seed: u64,
    calls: usize,
    left: &mut dyn Implementation,
    right: &mut dyn Implementation,
    counts: &mut Counts,
) -> Result<(), Box<Failure>> {
    let mut seeds = Random::new(seed);
    let until = counts.calls + calls;
    while counts.calls < until {
        run_sequence(seeds.number(), left, right, counts)?;
    }
    Ok(())
}

/// Runs one sequence from its seed.
fn run_sequence(
    seed: u64,
    left: &mut dyn Implementation,
    right: &mut dyn Implementation,
    counts: &mut Counts,
) -> Result<(), Box<Failure>> {
    let mut duel = Duel::new(seed, left, right);
    let mut laws = Laws::new(duel.world());
    let (mut chooser, mut steps) = Chooser::new(seed);
    let until = counts.calls + CALLS_ON_A_DISK;
    loop {
        for step in &steps {
            if let Err(difference) = take_step(&mut duel, &mut laws, counts, step) {
                let sequence = duel.sequence().clone();
                return Err(Box::new(Failure::new(difference, sequence)));
            }
        }
        if counts.calls >= until {
            return Ok(());
        }
        steps = chooser.next(duel.world());
    }
}

/// Does one step: the duel, the laws, the counts.
fn take_step(
    duel: &mut Duel,
    laws: &mut Laws,
    counts: &mut Counts,
    step: &Step,
) -> Result<(), String> {
    let Step::Call(ask) = step else {
        counts.add_step(duel.world(), step);
        duel.step(step)?;
        return laws
            .follow(duel.world(), step)
            .map_err(|law| format!("after `{step}`: {law}"));
    };
    let cause = duel.world().refusal(ask);
    let Some(answer) = duel.step(step)? else {
        return Ok(());
    };
    counts.add(laws.before(), duel.world(), ask, answer, cause);
    laws.check(duel.world(), ask, answer, cause)
        .map_err(|law| format!("after `{step}`: {law}"))
}
