//! `bench` prints what calls and the job take, the proved library beside the
//! reference: nanoseconds, and instructions where valgrind is there.
//!
//! `bench --once SIDE FULLNESS CASE` makes one call, or does the job once, and
//! `bench --pick SIDE RUN` picks one word; that is what runs under valgrind.
//! `bench --picker` prints the picker's table alone.

use std::process::{Command, ExitCode};
use trials::bench::{
    time_case, time_job, time_picking, Bench, ByCalls, Desk, Fullness, Library, Measured,
    PickBench, Picking, Reference, Side, CASES, JOB, PICKINGS,
};

/// The sides' names, in the order they are measured.
const SIDES: [&str; 2] = ["library", "reference"];

fn main() -> ExitCode {
    let words: Vec<String> = std::env::args().skip(1).collect();
    let words: Vec<&str> = words.iter().map(String::as_str).collect();
    let done = match words[..] {
        [] => {
            both_tables();
            picker_table();
            Some(())
        }
        ["--picker"] => {
            picker_table();
            Some(())
        }
        ["--once", "library", fullness, case] => once::<Library>(fullness, case),
        ["--once", "reference", fullness, case] => once::<Reference>(fullness, case),
        ["--pick", "library", run] => pick_once::<Library>(run),
        ["--pick", "by calls", run] => pick_once::<ByCalls>(run),
        ["--pick", "reference", run] => pick_once::<Reference>(run),
        _ => None,
    };
    match done {
        Some(()) => ExitCode::SUCCESS,
        None => {
            eprintln!("usage: bench [--once SIDE FULLNESS CASE | --pick SIDE RUN | --picker]");
            ExitCode::from(2)
        }
    }
}

/// Makes a call or does the job once.
fn once<S: Side>(fullness: &str, case: &str) -> Option<()> {
    let mut all = Fullness::ALL.into_iter();
    let fullness = all.find(|one| one.name() == fullness)?;
    if case == JOB {
        Desk::<S>::new(fullness).do_job();
        return Some(());
    }
    let case = CASES.into_iter().find(|one| one.name == case)?;
    Bench::<S>::new(fullness, case).once();
    Some(())
}

/// Picks a word once.
fn pick_once<S: Side>(run: &str) -> Option<()> {
    let picking = PICKINGS.into_iter().find(|one| one.name == run)?;
    PickBench::<S>::new(picking).once();
    Some(())
}

fn has_valgrind() -> bool {
    let valgrind = Command::new("valgrind").arg("--version").output();
    valgrind.is_ok_and(|output| output.status.success())
}

fn both_tables() {
    println!("Nanoseconds; the job in microseconds.\n");
    table(timed);
    if has_valgrind() {
        println!("\nInstructions; the job in thousands.\n");
        table(counted);
    } else {
        println!("\nskipped: valgrind is not there, so instructions are not counted");
    }
}

/// Prints a table, a line as soon as it is measured.
fn table(measure: fn(&str, Fullness) -> Option<Measured>) {
    print!("| call |");
    for fullness in Fullness::ALL {
        let [library, reference] = SIDES;
        print!(" {}: {library} | {reference} | ratio |", fullness.name());
    }
    println!("\n|---|{}", "---:|".repeat(3 * Fullness::ALL.len()));
    let cases = CASES.iter().map(|case| case.name);
    let mut refused_any = false;
    for name in std::iter::once(JOB).chain(cases) {
        print!("| {name} |");
        for fullness in Fullness::ALL {
            match measure(name, fullness) {
                Some(Measured { took, refused }) => {
                    refused_any |= refused;
                    let star = if refused { "*" } else { "" };
                    let [library, reference] = took;
                    let ratio = library / reference;
                    print!(" {library:.0}{star} | {reference:.0}{star} | {ratio:.2} |");
                }
                None => print!(" - | - | - |"),
            }
        }
        println!();
    }
    if refused_any {
        println!("\n\\* refused: a full directory has no entry left");
    }
}

/// Nanoseconds of both sides.
fn timed(name: &str, fullness: Fullness) -> Option<Measured> {
    if let Some(&case) = CASES.iter().find(|case| case.name == name) {
        return Some(time_case(fullness, case));
    }
    let Measured { took, refused } = time_job(fullness);
    let took = took.map(|took| took / 1_000.0);
    Some(Measured { took, refused })
}

/// Instructions of both sides, as callgrind counts them.
fn counted(name: &str, fullness: Fullness) -> Option<Measured> {
    let mut took = [0.0; 2];
    for (side, took) in SIDES.iter().zip(&mut took) {
        let count = instructions(&["--once", side, fullness.name(), name])?;
        *took = if name == JOB { count / 1_000.0 } else { count };
    }
    // What is refused was marked in the table of times.
    let refused = false;
    Some(Measured { took, refused })
}

/// Instructions of what is measured in a run of this program with these words.
fn instructions(words: &[&str]) -> Option<f64> {
    let program = std::env::current_exe().ok()?;
    let output = Command::new("valgrind")
        .args(["--tool=callgrind", "--callgrind-out-file=/dev/null"])
        .arg("--toggle-collect=*bench*measured*")
        .arg(&program)
        .args(words)
        .output()
        .ok()?;
    let said = String::from_utf8_lossy(&output.stderr).into_owned();
    let line = said.lines().find(|line| line.contains("Collected"))?;
    line.split_whitespace().last()?.parse().ok()
}

/// Prints what runs of the picker take, in microseconds and in thousands of
/// instructions.
fn picker_table() {
    println!("\nThe picker, microseconds.\n");
    picker_rows(|picking| Some(time_picking(picking)));
    if has_valgrind() {
        println!("\nThe picker, thousands of instructions.\n");
        picker_rows(|picking| {
            let count = |side| instructions(&["--pick", side, picking.name]);
            Some([count("library")?, count("by calls")?, count("reference")?])
        });
    }
}

fn picker_rows(measure: fn(Picking) -> Option<[f64; 3]>) {
    println!("| run | library | reference, by calls | ratio | reference | ratio |");
    println!("|---|---:|---:|---:|---:|---:|");
    for picking in PICKINGS {
        match measure(picking).map(|took| took.map(|took| took / 1_000.0)) {
            Some([library, calls, own]) => println!(
                "| {} | {library:.1} | {calls:.1} | {:.2} | {own:.1} | {:.1} |",
                picking.name,
                library / calls,
                library / own
            ),
            None => println!("| {} | - | - | - | - | - |", picking.name),
        }
    }
}
