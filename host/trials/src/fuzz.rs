//! Random sequences from new seeds, for as long as it is let; failing ones are
//! kept in files and can be run again.

use generator::{run, Counts, Duel, Failure, Implementation, Sequence, Step};
use std::fs;
use std::io::{self, Write};
use std::path::{Path, PathBuf};
use std::time::{SystemTime, UNIX_EPOCH};

/// Calls made from one seed.
pub const CALLS_OF_A_SEED: usize = 20_000;

/// A seed that no earlier run had, as far as the clock goes.
pub fn new_seed() -> u64 {
    let since = SystemTime::now().duration_since(UNIX_EPOCH);
    since.map_or(1, |since| since.as_nanos() as u64)
}

/// Runs two implementations from a seed on and the seeds after it, until so
/// many calls are made, or for ever. Says after each seed how far it is.
pub fn search(
    seed: u64,
    calls: Option<usize>,
    left: &mut dyn Implementation,
    right: &mut dyn Implementation,
    out: &mut dyn Write,
) -> io::Result<Result<Counts, Box<Failure>>> {
    let mut counts = Counts::default();
    let mut seed = seed;
    while calls.is_none_or(|calls| counts.calls < calls) {
        let left_over = calls.map_or(CALLS_OF_A_SEED, |calls| calls - counts.calls);
        let next = left_over.min(CALLS_OF_A_SEED);
        if let Err(failure) = run(seed, next, left, right, &mut counts) {
            writeln!(out, "seed {seed}: {}", failure.difference.trim_end())?;
            return Ok(Err(failure));
        }
        writeln!(
            out,
            "seed {seed}: no difference, {} calls in all",
            counts.calls
        )?;
        seed = seed.wrapping_add(1);
    }
    Ok(Ok(counts))
}

/// Writes a failing sequence to a file, and its last call, with the world just
/// before it, to another.
pub fn keep(failure: &Failure, folder: &Path) -> io::Result<[PathBuf; 2]> {
    fs::create_dir_all(folder)?;
    let seed = failure.sequence.seed;
    let why = format!(
        "# {}\n",
        failure.difference.trim_end().replace('\n', "\n# ")
    );
    let [sequence, last_call] =
        ["sequence", "last-call"].map(|which| folder.join(format!("failing-{seed}-{which}.txt")));
    fs::write(&sequence, format!("{why}{}", failure.sequence))?;
    fs::write(&last_call, format!("{why}{}", failure.last_call))?;
    Ok([sequence, last_call])
}

/// Runs a kept sequence again and prints what each call was answered, and why.
/// Gives what differs, if anything still does.
pub fn again(
    sequence: &Sequence,
    left: &mut dyn Implementation,
    right: &mut dyn Implementation,
    out: &mut dyn Write,
) -> io::Result<Result<(), String>> {
    let mut duel = Duel::new(sequence.seed, left, right);
    for step in &sequence.steps {
        let cause = match step {
            Step::Call(ask) => duel.world().refusal(ask),
            _ => None,
        };
        match duel.step(step) {
            Ok(None) => {}
            Ok(Some(answer)) => {
                let why = cause.map_or("accepted".into(), |cause| format!("{cause:?}"));
                writeln!(out, "{step}: {}, {} {why}", answer.a, answer.h)?;
            }
            Err(difference) => {
                writeln!(out, "{}", difference.trim_end())?;
                return Ok(Err(difference));
            }
        }
    }
    writeln!(out, "no difference")?;
    Ok(Ok(()))
}
