//! `fuzz [--seed SEED] [--calls CALLS] [--folder FOLDER]` runs the proved
//! library beside the reference on random calls from new seeds, until it is
//! stopped or has made so many calls. A failing sequence is written to the
//! folder, and `fuzz --replay FILE` runs it again.
//!
//! `fuzz --picks RUNS [--seed SEED]` runs the proved word picker beside the
//! reference's so many times, and `fuzz --case NUMBER` makes a failing run again.
//!
//! Exit status: 0 no difference; 1 a difference; 2 wrong usage.

use generator::picking;
use std::collections::HashMap;
use std::io::{self, Write};
use std::path::{Path, PathBuf};
use std::process::ExitCode;
use trials::fuzz::{again, keep, new_seed, search};
use trials::Proved;

/// What the words ask for.
enum Job {
    Search {
        seed: u64,
        calls: Option<usize>,
        folder: PathBuf,
    },
    Replay(PathBuf),
    Picks {
        seed: u64,
        runs: usize,
    },
    Case(u64),
}

const USAGE: &str = "usage: fuzz [--seed SEED] [--calls CALLS] [--folder FOLDER] | --replay FILE | --picks RUNS [--seed SEED] | --case NUMBER";

/// The options that say which job it is, each with those that it takes beside it.
const JOBS: [(&str, &[&str]); 3] = [("--replay", &[]), ("--picks", &["--seed"]), ("--case", &[])];

/// The options of a search.
const SEARCH: [&str; 3] = ["--seed", "--calls", "--folder"];

fn main() -> ExitCode {
    let job = match job(std::env::args().skip(1)) {
        Ok(job) => job,
        Err(wrong) => {
            eprintln!("fuzz: {wrong}\n{USAGE}");
            return ExitCode::from(2);
        }
    };
    let out = &mut io::stdout();
    let done = match job {
        Job::Search {
            seed,
            calls,
            folder,
        } => searched(seed, calls, &folder, out),
        Job::Replay(file) => replayed(&file, out),
        Job::Picks { seed, runs } => picked(seed, runs, out),
        Job::Case(case) => picked_again(case, out),
    };
    match done {
        Ok(true) => ExitCode::SUCCESS,
        Ok(false) => ExitCode::FAILURE,
        Err(error) => {
            eprintln!("fuzz: {error}");
            ExitCode::from(2)
        }
    }
}

/// Reads the words. What has no meaning beside the others is refused, so that
/// nobody takes it for done.
fn job(mut words: impl Iterator<Item = String>) -> Result<Job, String> {
    let mut given: HashMap<String, String> = HashMap::new();
    while let Some(word) = words.next() {
        let known = SEARCH.contains(&&*word) || JOBS.iter().any(|(job, _)| *job == word);
        if !known {
            return Err(format!("there is no option {word}"));
        }
        let value = words.next().ok_or(format!("{word} lacks its value"))?;
        given.insert(word, value);
    }
    if let Some((job, beside)) = JOBS.iter().find(|(job, _)| given.contains_key(*job)) {
        let mut others = given.keys().filter(|word| word != job);
        if let Some(other) = others.find(|word| !beside.contains(&&***word)) {
            return Err(format!("{other} does not go together with {job}"));
        }
    }
    let number = |option: &str| {
        let read = |value: &String| value.parse::<u64>().ok();
        let value = given.get(option);
        let number = value.map(|value| read(value).ok_or(format!("{value} is no number")));
        number.transpose()
    };
    let seed = number("--seed")?.unwrap_or_else(new_seed);
    if let Some(file) = given.get("--replay") {
        return Ok(Job::Replay(file.into()));
    }
    Ok(match (number("--picks")?, number("--case")?) {
        (Some(runs), _) => Job::Picks {
            seed,
            runs: runs as usize,
        },
        (_, Some(case)) => Job::Case(case),
        _ => Job::Search {
            seed,
            calls: number("--calls")?.map(|calls| calls as usize),
            folder: given.get("--folder").map_or(".", String::as_str).into(),
        },
    })
}

/// Whether no difference was found.
fn searched(
    seed: u64,
    calls: Option<usize>,
    folder: &Path,
    out: &mut dyn Write,
) -> io::Result<bool> {
    let (mut left, mut right) = (reference::call, Proved);
    match search(seed, calls, &mut left, &mut right, out)? {
        Ok(counts) => {
            // The table says how often things come up in 300,000 calls.
            if counts.calls >= 300_000 {
                writeln!(out, "{counts}")?;
            }
            Ok(true)
        }
        Err(failure) => {
            for file in keep(&failure, folder)? {
                writeln!(
                    out,
                    "run it again with `make fuzz REPLAY={}`",
                    file.display()
                )?;
            }
            Ok(false)
        }
    }
}

/// Whether a kept sequence shows no difference any more.
fn replayed(file: &Path, out: &mut dyn Write) -> io::Result<bool> {
    let text = std::fs::read_to_string(file)?;
    let sequence = text.parse().map_err(io::Error::other)?;
    let (mut left, mut right) = (reference::call, Proved);
    Ok(again(&sequence, &mut left, &mut right, out)?.is_ok())
}

/// Whether the two pickers showed no difference, and kept the laws.
fn picked(seed: u64, runs: usize, out: &mut dyn Write) -> io::Result<bool> {
    let mut counts = picking::Counts::default();
    let mut right = reference::pick;
    match picking::run(seed, runs, &mut Proved, &mut right, &mut counts) {
        Ok(()) => {
            writeln!(out, "seed {seed}: no difference\n{counts}")?;
            Ok(true)
        }
        Err(failed) => {
            writeln!(out, "{}", failed.what.trim_end())?;
            writeln!(out, "make it again with `make fuzz CASE={}`", failed.seed)?;
            Ok(false)
        }
    }
}

/// Whether a run that failed shows no difference any more.
fn picked_again(case: u64, out: &mut dyn Write) -> io::Result<bool> {
    let mut counts = picking::Counts::default();
    let mut right = reference::pick;
    let again = picking::one(case, &mut Proved, &mut right, &mut counts);
    let said = again.as_ref().err().map_or("no difference", |what| what);
    writeln!(out, "{}", said.trim_end())?;
    Ok(again.is_ok())
}
