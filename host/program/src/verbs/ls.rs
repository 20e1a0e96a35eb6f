//! `ls`: the files of a user.

use super::{image, logged_in, named};
use crate::files::{self, File, LAST_USER};
use crate::layout::Row;
use crate::looking::Looking;
use crate::trouble::{Doing, Trouble};
use crate::words::{Shape, Words};
use crate::{Desk, Verb};
use benzokamuri::{Code, Pattern, Stamps, Time};
use std::fmt::Write as _;
use std::io::Write as _;

pub const VERB: Verb = Verb {
    name: "ls",
    purpose: "List files: user, name, attributes, records and size in bytes.",
    usage: "[-u USER | -a] [-l] IMAGE [PATTERN...]",
    help: "\
Attributes are ro (read-only), sys (system), arc (archived) and f1 to f8. A
record is 128 bytes. Where an entry says how many bytes of the last record are
used (its byte s1, as CP/M Plus and cpmtools keep it), the size counts those.

  -u USER   the files of this user; 0 where it is left out
  -a        the files of all users
  -l        also stamps, where the disk has date entries, and each extent: its
            entry, records (rc, which counts as 128 where it is more) and blocks

The column create/access is one of the two: the disk's label asks for either,
and `check` shows what it asks for. Each entry has stamps of its own. The file's
line has those of its first entry; the lines of further extents have theirs,
create/access first. - is no stamp, a day 0 is from a call that was handed no
day, and hours and minutes are shown as they are stored, 99:99 too.

Files that match one of the patterns are listed; see `benzokamuri help names`.",
    shape: Shape {
        flags: &["-l", "-a"],
        valued: &[],
    },
    run,
};

fn run(mut words: Words, desk: &mut Desk) -> Result<(), Trouble> {
    let file = image(&mut words)?;
    let given = words.rest();
    let mut patterns: Vec<Pattern> = given
        .iter()
        .map(|word| named(word))
        .collect::<Result<_, _>>()?;
    if given.is_empty() {
        patterns.push(Pattern::EVERY);
    }
    let users = match (words.has("-a"), words.user()) {
        (true, _) => 0..=LAST_USER,
        (false, user) => user..=user,
    };
    let mut disk = logged_in(&file, &words, desk)?;
    let mut listed = Vec::new();
    for user in users {
        listed.extend(listed_for(&mut disk, user, &patterns).doing(file.name())?);
    }
    if listed.is_empty() && !given.is_empty() {
        return Err(Code::NothingMatches).doing(file.name());
    }
    let free = disk.space().doing(file.name())?;
    let mut text = table(&listed, words.has("-l"));
    let records: u32 = listed.iter().map(|file| file.records).sum();
    let _ = writeln!(
        text,
        "{}, {}; {free} records are free",
        counted(listed.len(), "file"),
        counted(records as usize, "record")
    );
    Ok(desk.out.write_all(text.as_bytes())?)
}

/// A heading and a line for each file, with its stamps and extents or without.
fn table(listed: &[File], long: bool) -> String {
    let columns = Columns::of(listed, long);
    let heading = ["user", "name", "attributes", "records", "size"];
    let stamped = ["create/access", "update"];
    let mut text = columns.line(heading.map(String::from), stamped.map(String::from));
    for file in listed {
        let cells = [
            file.user.to_string(),
            file.name.to_string(),
            file.attributes().join(" "),
            file.records.to_string(),
            file.bytes().to_string(),
        ];
        text.push_str(&columns.line(cells, shown(file.stamps())));
        if long {
            text.push_str(&extents(file));
        }
    }
    text
}

/// How wide columns are that may have to be wider than usual, and whether there
/// are those of the stamps.
struct Columns {
    name: usize,
    attributes: usize,
    stamps: bool,
}

impl Columns {
    fn of(listed: &[File], long: bool) -> Columns {
        let names = listed.iter().map(|file| file.name.to_string().len());
        let attributes = listed.iter().map(|file| file.attributes().join(" ").len());
        Columns {
            name: names.fold(12, usize::max),
            attributes: attributes.fold(10, usize::max),
            stamps: long && listed.iter().any(|file| file.stamps().is_some()),
        }
    }

    fn line(&self, cells: [String; 5], [first, update]: [String; 2]) -> String {
        let [user, name, attributes, records, size] = cells;
        let (names, marks) = (self.name, self.attributes);
        let mut line =
            format!("{user:>4}  {name:<names$}  {attributes:<marks$}  {records:>7}  {size:>8}");
        if self.stamps {
            let _ = write!(line, "  {first:<16}  {update}");
        }
        line.push('\n');
        line
    }
}

/// The two stamps of an entry as they are shown.
pub fn shown(stamps: Option<Stamps>) -> [String; 2] {
    let [first, update] = stamps.map_or([Time::ZERO; 2], |both| [both.first, both.update]);
    [first, update].map(|stamp| match stamp {
        Time::ZERO => "-".into(),
        _ => stamp.to_string(),
    })
}

/// A number of things.
fn counted(count: usize, what: &str) -> String {
    match count {
        1 => format!("1 {what}"),
        _ => format!("{count} {what}s"),
    }
}

/// A user's files that match one of some patterns, each once.
fn listed_for(disk: &mut Looking, user: u8, patterns: &[Pattern]) -> Result<Vec<File>, Code> {
    let mut listed = Vec::new();
    for &pattern in patterns {
        listed.extend(files::matching(disk, user, pattern)?);
    }
    listed.sort_by_key(|file| file.name);
    listed.dedup_by_key(|file| file.name);
    Ok(listed)
}

/// A line for each extent of a file.
fn extents(file: &File) -> String {
    let mut text = String::new();
    for (number, found) in file.entries.iter().enumerate() {
        let row = Row(&found.entry);
        let _ = write!(
            text,
            "      entry {:>2}, extent {:>4}: rc {:>3}, ",
            found.number,
            row.extent(),
            row.rc()
        );
        if row.rc() != row.count() {
            let _ = write!(text, "which counts as {}, ", row.count());
        }
        if row.s1() != 0 {
            let _ = write!(text, "s1 {:>3}, ", row.s1());
        }
        // Those of the first stand in the file's own line.
        if number > 0 && found.stamps.is_some() {
            let [first, update] = shown(found.stamps);
            let _ = write!(text, "stamps {first} and {update}, ");
        }
        let blocks = runs(row.blocks());
        let _ = match blocks.is_empty() {
            true => writeln!(text, "no blocks"),
            false => writeln!(text, "blocks {blocks}"),
        };
    }
    text
}

/// Numbers with neighbours drawn together: 2-5 9 11-12.
fn runs(numbers: impl Iterator<Item = u8>) -> String {
    let mut runs: Vec<(u8, u8)> = Vec::new();
    for number in numbers {
        match runs.last_mut() {
            Some((_, last)) if last.checked_add(1) == Some(number) => *last = number,
            _ => runs.push((number, number)),
        }
    }
    let written = |&(first, last): &(u8, u8)| match first == last {
        true => first.to_string(),
        false => format!("{first}-{last}"),
    };
    let written: Vec<String> = runs.iter().map(written).collect();
    written.join(" ")
}

#[cfg(test)]
mod tests {
    use super::*;

    #[test]
    fn neighbours_are_drawn_together() {
        assert_eq!(runs([2, 3, 4, 9, 11, 12, 7].into_iter()), "2-4 9 11-12 7");
        assert_eq!(runs([254, 255, 0].into_iter()), "254-255 0");
        assert_eq!(runs([].into_iter()), "");
    }
}
