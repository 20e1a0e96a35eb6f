//! Help, for the program and for each verb.

use crate::trouble::Trouble;
use crate::{verbs, Desk, Verb};
use benzokamuri::{Code, Pick};
use std::ffi::OsString;
use std::io::Write;

/// About names, which several verbs take.
const NAMES: &str = "\
Names are those of CP/M: up to eight characters, a dot, and a type of up to
three. Small letters are made capitals. Characters that CP/M gives a meaning,
< > . , ; : = ? * [ ] |, those that have one here, / and %, spaces and small
letters are written as % and two hexadecimal digits: %61.TXT is the file whose
name is a small a, I%2FO.ASM has a / in it, and % itself is %25. `ls` shows
names so, and `get` gives the files that it writes such names.

In a pattern ? stands for any character or none at the end, and * fills up the
name or the type with ?: *.TXT is every file of type TXT, *.* is every file, and
* alone is every file without a type. Quote patterns, or the shell takes them.
";

/// Where to read more, behind a wrong command line.
pub fn hint(verb: Option<&Verb>) -> String {
    match verb {
        Some(verb) => format!(
            "usage: benzokamuri {} {}\n`benzokamuri help {}` says more",
            verb.name, verb.usage, verb.name
        ),
        None => "`benzokamuri help` says more".into(),
    }
}

/// Help for the program.
pub fn all(desk: &mut Desk) -> Result<(), Trouble> {
    let out = &mut desk.out;
    writeln!(
        out,
        "benzokamuri: files on images of CP/M's 8-inch diskette\n"
    )?;
    for verb in verbs::ALL {
        let line = format!("{} {}", verb.name, verb.usage);
        writeln!(out, "  benzokamuri {line}\n      {}", verb.purpose)?;
    }
    writeln!(
        out,
        "\n  -u USER is a user number from 0 to 15, and 0 where it is left out."
    )?;
    writeln!(
        out,
        "  --time \"2026-11-15 06:00\" is the time that calls are handed, from 1978-01-01\n  to 2157-06-05, and the local time where it is left out. Disks with date entries\n  are stamped with it.\n"
    )?;
    writeln!(
        out,
        "`benzokamuri help VERB` says more about a verb, `help names` about names and\npatterns, `help codes` about what calls answer."
    )?;
    writeln!(
        out,
        "Exit status: 0 done; 1 refused, and why is on standard error; 2 wrong usage."
    )?;
    Ok(())
}

/// Help for a verb.
pub fn verb(verb: &Verb, desk: &mut Desk) -> Result<(), Trouble> {
    let out = &mut desk.out;
    writeln!(out, "usage: benzokamuri {} {}\n", verb.name, verb.usage)?;
    writeln!(out, "{}\n\n{}", verb.purpose, verb.help.trim_end())?;
    Ok(())
}

/// `help`, with what it is asked about.
pub fn about(words: &[OsString], desk: &mut Desk) -> Result<(), Trouble> {
    let [topic] = words else {
        return match words {
            [] => all(desk),
            _ => Err(Trouble::usage("help is about one verb at a time")),
        };
    };
    if let Some(found) = verbs::ALL.iter().find(|found| topic == found.name) {
        return verb(found, desk);
    }
    match topic.to_str() {
        Some("names") => Ok(desk.out.write_all(NAMES.as_bytes())?),
        Some("codes") => codes(desk),
        _ => {
            let topic = topic.display();
            Err(Trouble::usage(format!("there is no help about {topic}")))
        }
    }
}

/// The help card.
fn codes(desk: &mut Desk) -> Result<(), Trouble> {
    writeln!(desk.out, "A, H        calls                    meaning")?;
    for code in Code::ALL {
        let (a, h) = code.numbers();
        let numbers: Vec<String> = code.calls().iter().map(u8::to_string).collect();
        let calls = match &numbers[..] {
            [] => "every call".into(),
            _ => numbers.join(" "),
        };
        writeln!(desk.out, "{:<10}  {calls:<23}  {code}", format!("{a}, {h}"))?;
    }
    for remark in Code::REMARKS {
        write!(desk.out, "\n{remark}")?;
    }
    answers(desk)
}

/// The help card's part about the word picker.
fn answers(desk: &mut Desk) -> Result<(), Trouble> {
    writeln!(desk.out, "\n{}\nNumber  word    meaning", Pick::ABOUT)?;
    for pick in Pick::NAMED {
        let word = if pick.gives() == Some(true) {
            "yes"
        } else {
            "no"
        };
        writeln!(desk.out, "{:>6}  {word:<6}  {pick}", pick.number())?;
    }
    writeln!(desk.out, "{:>6}  either  {}", Pick::OTHER, Pick::REFUSED)?;
    Ok(())
}
