//! Runs a sequence from a file again, the reference beside itself, and prints
//! what each call was answered and why.
//!
//! `replay FILE`

use generator::{Duel, Sequence, Step};
use std::process::ExitCode;

fn main() -> ExitCode {
    let file = std::env::args().nth(1).expect("the name of a file");
    let text = std::fs::read_to_string(file).expect("a file that can be read");
    let sequence: Sequence = match text.parse() {
        Ok(sequence) => sequence,
        Err(bad) => {
            eprintln!("{bad}");
            return ExitCode::FAILURE;
        }
    };
    let (mut left, mut right) = (reference::call, reference::call);
    let mut duel = Duel::new(sequence.seed, &mut left, &mut right);
    for step in &sequence.steps {
        let cause = match step {
            Step::Call(ask) => duel.world().refusal(ask),
            _ => None,
        };
        match duel.step(step) {
            Ok(None) => {}
            Ok(Some(answer)) => {
                let why = cause.map_or("accepted".into(), |cause| format!("{cause:?}"));
                println!("{step}: {}, {} {why}", answer.a, answer.h);
            }
            Err(difference) => {
                println!("{difference}");
                return ExitCode::FAILURE;
            }
        }
    }
    ExitCode::SUCCESS
}
