//! Pickers side by side: random books and logs, all bytes compared, and what
//! has to hold of every run.
//!
//! [`run`] makes so many runs from a seed. Each is a case of its own, which
//! [`case`] gives from its seed, so a failing one is made again from that number
//! alone. [`ByCalls`] is the picker as a sequence of calls.

mod by_calls;
mod cases;
mod counts;
mod laws;

pub use by_calls::{ByCalls, Slip};
pub use cases::case;
pub use counts::{enough, Counts, Event};
pub use laws::check;

use crate::duel::differences;
use crate::random::Random;
use crate::sequence::Lengths;
use crate::world::{Implementation, World};
use reference::{Picked, Session, Time, Wanted};
use std::panic::{catch_unwind, AssertUnwindSafe};

/// Something that picks words. Every function with the signature of
/// [`reference::pick`] is one.
pub trait Picker {
    /// Picks a word.
    fn pick(
        &mut self,
        wanted: Wanted,
        time: Time,
        image: &mut [u8],
        map: &mut [u16],
        word: &mut [u8],
        session: Session,
    ) -> Picked;
}

impl<F> Picker for F
where
    F: FnMut(Wanted, Time, &mut [u8], &mut [u16], &mut [u8], Session) -> Picked,
{
    fn pick(
        &mut self,
        wanted: Wanted,
        time: Time,
        image: &mut [u8],
        map: &mut [u16],
        word: &mut [u8],
        session: Session,
    ) -> Picked {
        self(wanted, time, image, map, word, session)
    }
}

impl Picker for ByCalls<'_> {
    fn pick(
        &mut self,
        wanted: Wanted,
        time: Time,
        image: &mut [u8],
        map: &mut [u16],
        word: &mut [u8],
        session: Session,
    ) -> Picked {
        ByCalls::pick(self, wanted, time, image, map, word, session)
    }
}

/// A right picker that makes the reference's calls.
pub fn by_calls(calls: &mut dyn Implementation) -> ByCalls<'_> {
    ByCalls { calls, slip: None }
}

/// What is asked of a picker. The transfer buffer's length is the word's.
#[derive(Clone, Copy, Debug, PartialEq, Eq)]
pub struct Run {
    /// What is wanted.
    pub wanted: Wanted,
    /// The lengths that are lent; there is no FCB.
    pub lengths: Lengths,
}

impl World {
    /// Picks a word into the transfer buffer, and keeps the session.
    pub fn pick(&mut self, picker: &mut dyn Picker, run: &Run) -> Picked {
        let crate::Time { day, hour, minute } = self.time;
        let picked = picker.pick(
            run.wanted,
            Time { day, hour, minute },
            self.image.lent_mut(run.lengths.image),
            self.map.lent_mut(run.lengths.map),
            self.buffer.lent_mut(run.lengths.buffer),
            self.session,
        );
        self.session = picked.session;
        picked
    }
}

/// A run that failed.
#[derive(Debug)]
pub struct Failed {
    /// The case's own seed.
    pub seed: u64,
    /// What is wrong.
    pub what: String,
}

/// Makes runs of two pickers side by side, from the cases of a seed. The left one
/// has to keep the laws too, and runs a second time: it is the one that is tried.
pub fn run(
    seed: u64,
    runs: usize,
    left: &mut dyn Picker,
    right: &mut dyn Picker,
    counts: &mut Counts,
) -> Result<(), Failed> {
    let mut seeds = Random::new(seed);
    for _ in 0..runs {
        let seed = seeds.number();
        one(seed, left, right, counts).map_err(|what| Failed { seed, what })?;
    }
    Ok(())
}

/// Makes one run, and the one after it where that has to answer again.
pub fn one(
    seed: u64,
    left: &mut dyn Picker,
    right: &mut dyn Picker,
    counts: &mut Counts,
) -> Result<(), String> {
    let (before, run) = case(seed);
    let (mut ours, mut theirs) = (before.clone(), before.clone());
    let picked = picked_by(left, &mut ours, &run, "left")?;
    let other = picked_by(right, &mut theirs, &run, "right")?;
    let mut text = String::new();
    if picked != other {
        text = format!("told: {picked:?} and {other:?}\n");
    }
    differences(&ours, &theirs, &mut text);
    for (side, world) in [("left", &ours), ("right", &theirs)] {
        if !world.guards_stand() {
            text += &format!("{side}: something was written around a buffer\n");
        }
    }
    if !text.is_empty() {
        return Err(format!("{run:?}, {:?}:\n{text}", before.session));
    }
    counts.add(&before, &ours, &run, picked);
    let broken = check(&before, &ours, &run, picked)
        .and_then(|()| laws::check_next(seed, &ours, &run, picked, left));
    broken.map_err(|law| format!("{run:?}, {picked:?}: {law}"))
}

/// A run; a panic is a difference like any other.
fn picked_by(
    picker: &mut dyn Picker,
    world: &mut World,
    run: &Run,
    side: &str,
) -> Result<Picked, String> {
    catch_unwind(AssertUnwindSafe(|| world.pick(picker, run)))
        .map_err(|_| format!("{side}: a panic in {run:?}"))
}
