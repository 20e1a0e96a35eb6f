//! The time zone: what is added to UTC, which is all that the standard library
//! knows.
//!
//! The C library knows zones too, but it reads the environment for them, which
//! is not safe beside a thread that changes it. So the system's files are read
//! here: TZif (RFC 9636), and rules as POSIX has them in `TZ`.

use crate::time::{days_of, is_leap, Date};
use std::path::Path;

/// Where zones are kept by their names.
const ZONES: &str = "/usr/share/zoneinfo";

/// The zone of this machine.
const OF_THE_SYSTEM: &str = "/etc/localtime";

/// Seconds of a day, and of an hour.
pub const DAY: i64 = 86_400;
const HOUR: i64 = 3_600;

/// Days from 1 January 1970 to the day before day 1.
pub const TO_DAY_0: i64 = 2_921;

/// Moments, and what is added to UTC from each on, in seconds.
type Since = Vec<(i64, i64)>;

/// What is added to UTC, in seconds.
pub struct Zone {
    since: Since,
    /// What is added after the last moment.
    rule: Option<Rule>,
}

impl Zone {
    /// The zone that the environment variable `TZ` names, or this machine's;
    /// UTC where there is none.
    pub fn of_the_system() -> Zone {
        let zone = match std::env::var("TZ") {
            Ok(name) => Zone::named(&name),
            Err(_) => Zone::of_file(OF_THE_SYSTEM.as_ref()),
        };
        zone.unwrap_or(Zone {
            since: Vec::new(),
            rule: None,
        })
    }

    /// A zone by what may stand in `TZ`: the name of a file, or a rule.
    pub fn named(name: &str) -> Option<Zone> {
        let name = name.strip_prefix(':').unwrap_or(name);
        Zone::of_file(&Path::new(ZONES).join(name)).or_else(|| {
            let rule = Some(Rule::read(name)?);
            let since = Vec::new();
            Some(Zone { since, rule })
        })
    }

    fn of_file(path: &Path) -> Option<Zone> {
        // A device may have no end.
        let file = path.metadata().is_ok_and(|file| file.is_file());
        Zone::read(&file.then(|| std::fs::read(path).ok())??)
    }

    /// Reads a TZif file. All but the oldest have a second block, of moments in
    /// 64 bits, and a rule behind it.
    fn read(bytes: &[u8]) -> Option<Zone> {
        let (since, rest) = read_block(bytes, 4)?;
        if bytes[4] < b'2' {
            return Some(Zone { since, rule: None });
        }
        let (since, rest) = read_block(rest, 8)?;
        let rule = std::str::from_utf8(rest).ok()?.trim_matches('\n');
        let rule = Rule::read(rule);
        Some(Zone { since, rule })
    }

    /// What is added to UTC at so many seconds after 1 January 1970.
    pub fn offset(&self, seconds: i64) -> i64 {
        let past = self.since.iter().rfind(|(from, _)| *from <= seconds);
        let by_rule = match self.since.last() {
            Some((last, _)) if *last > seconds => None,
            _ => self.rule.as_ref(),
        };
        match (by_rule, past) {
            (Some(rule), _) => rule.offset(seconds),
            (None, Some(&(_, offset))) => offset,
            (None, None) => 0,
        }
    }
}

/// Reads a block of a TZif file, with moments of so many bytes: what is added
/// from each moment on, and the bytes behind the block.
fn read_block(bytes: &[u8], width: usize) -> Option<(Since, &[u8])> {
    let (head, rest) = bytes.split_at_checked(44)?;
    let (counts, _) = head.strip_prefix(b"TZif")?[16..].as_chunks();
    let counts: Vec<usize> = counts
        .iter()
        .map(|&n| u32::from_be_bytes(n) as usize)
        .collect();
    let [utc, standard, leaps, moments, kinds, letters] = counts[..] else {
        return None;
    };
    let (times, rest) = rest.split_at_checked(moments.checked_mul(width)?)?;
    let (which, rest) = rest.split_at_checked(moments)?;
    let (kinds, rest) = rest.split_at_checked(kinds.checked_mul(6)?)?;
    let leaps = leaps.checked_mul(width + 4)?;
    let (_, rest) = rest.split_at_checked(letters)?;
    let (_, rest) = rest.split_at_checked(leaps)?;
    let (_, rest) = rest.split_at_checked(standard)?;
    let (_, rest) = rest.split_at_checked(utc)?;
    let offset = |kind: usize| Some(signed(kinds.chunks_exact(6).nth(kind)?.get(..4)?));
    // The first kind holds before the first moment. A first block that nobody
    // reads may have none.
    let mut since = Since::from_iter(offset(0).map(|offset| (i64::MIN, offset)));
    for (time, &kind) in times.chunks_exact(width).zip(which) {
        since.push((signed(time), offset(usize::from(kind))?));
    }
    Some((since, rest))
}

/// A signed number, highest byte first.
fn signed(bytes: &[u8]) -> i64 {
    let start = match bytes.first() {
        Some(0x80..) => -1,
        _ => 0,
    };
    let more = |number: i64, &byte: &u8| number << 8 | i64::from(byte);
    bytes.iter().fold(start, more)
}

/// When summer time begins and ends by a rule that does not say, as
/// `CET-1CEST`: the days that C libraries take, of the United States.
const UNSAID_TURNS: &str = ",M3.2.0,M11.1.0";

/// A rule as `CET-1CEST,M3.5.0,M10.5.0/3`.
struct Rule {
    standard: i64,
    summer: Option<Summer>,
}

struct Summer {
    offset: i64,
    /// When summer time begins, and when it ends.
    turns: [Turn; 2],
}

/// A day, and seconds after its beginning, by the clock that is changed then.
struct Turn {
    day: Day,
    time: i64,
}

enum Day {
    /// 1 to 365; 29 February is not counted.
    Julian(i64),
    /// 0 to 365.
    OfYear(i64),
    /// Month, week (5 is the last) and day of the week (0 is Sunday).
    OfWeek(u8, i64, i64),
}

impl Rule {
    fn read(text: &str) -> Option<Rule> {
        let mut words = Words(text);
        words.name()?;
        let standard = -words.time()?;
        let mut summer = None;
        if !words.0.is_empty() {
            words.name()?;
            let offset = match words.0.chars().next() {
                None | Some(',') => standard + HOUR,
                Some(_) => -words.time()?,
            };
            if matches!(words.0, "" | ",") {
                words.0 = UNSAID_TURNS;
            }
            let turns = [words.turn()?, words.turn()?];
            summer = Some(Summer { offset, turns });
        }
        let rule = Rule { standard, summer };
        words.0.is_empty().then_some(rule)
    }

    fn offset(&self, seconds: i64) -> i64 {
        let Rule { standard, summer } = self;
        summer
            .as_ref()
            .filter(|summer| summer.is_on(seconds, *standard).unwrap_or(false))
            .map_or(*standard, |summer| summer.offset)
    }
}

impl Summer {
    /// Whether it is summer, in the years that days are numbered in.
    fn is_on(&self, seconds: i64, standard: i64) -> Option<bool> {
        let day = seconds.saturating_add(standard).div_euclid(DAY) - TO_DAY_0;
        let year = Date::of_day(u16::try_from(day).ok()?)?.year;
        let [begin, end] = &self.turns;
        let begin = begin.seconds(year)? - standard;
        let end = end.seconds(year)? - self.offset;
        Some(match begin < end {
            true => (begin..end).contains(&seconds),
            // South of the equator.
            false => !(end..begin).contains(&seconds),
        })
    }
}

impl Turn {
    /// The moment in a year, in seconds of its own clock.
    fn seconds(&self, year: u16) -> Option<i64> {
        let first = Date {
            year,
            month: 1,
            day: 1,
        };
        let first = i64::from(first.days()?);
        let day = match self.day {
            Day::Julian(day) => day - 1 + i64::from(is_leap(year) && day > 59),
            Day::OfYear(day) => day,
            Day::OfWeek(month, week, weekday) => {
                let before: i64 = (1..month).map(|m| i64::from(days_of(year, m))).sum();
                // Day 1 was a Sunday.
                let to_weekday = (weekday - (first + before - 1)).rem_euclid(7);
                let in_month = to_weekday + 7 * (week - 1);
                let too_far = in_month >= i64::from(days_of(year, month));
                before + in_month - 7 * i64::from(too_far)
            }
        };
        Some((first + day + TO_DAY_0) * DAY + self.time)
    }
}

/// What is left of a rule's text.
struct Words<'a>(&'a str);

impl Words<'_> {
    /// Passes over a mark, if it comes next.
    fn mark(&mut self, mark: char) -> Option<()> {
        self.0 = self.0.strip_prefix(mark)?;
        Some(())
    }

    /// Passes over the name of a zone: letters, or anything in brackets.
    fn name(&mut self) -> Option<()> {
        let bracketed = self.mark('<').is_some();
        let end = match bracketed {
            true => self.0.find('>')?,
            false => {
                let end = self.0.find(|c: char| !c.is_ascii_alphabetic());
                end.unwrap_or(self.0.len())
            }
        };
        self.0 = &self.0[end + usize::from(bracketed)..];
        (end >= 3).then_some(())
    }

    fn number(&mut self) -> Option<i64> {
        let end = self.0.find(|c: char| !c.is_ascii_digit());
        let (number, rest) = self.0.split_at(end.unwrap_or(self.0.len()));
        self.0 = rest;
        // Three digits at most.
        number
            .parse::<u16>()
            .ok()
            .filter(|n| *n < 1_000)
            .map(i64::from)
    }

    /// Hours, minutes and seconds, of which the last two may be missing.
    fn time(&mut self) -> Option<i64> {
        let minus = self.mark('-').is_some();
        if !minus {
            self.mark('+');
        }
        let mut seconds = HOUR * self.number()?;
        for unit in [60, 1] {
            if self.mark(':').is_some() {
                seconds += unit * self.number()?;
            }
        }
        Some(if minus { -seconds } else { seconds })
    }

    /// A day, and a time of 02:00 where none is given.
    fn turn(&mut self) -> Option<Turn> {
        self.mark(',')?;
        let day = if self.mark('M').is_some() {
            self.day_of_week()?
        } else if self.mark('J').is_some() {
            Day::Julian(self.number().filter(|n| (1..=365).contains(n))?)
        } else {
            Day::OfYear(self.number().filter(|n| *n <= 365)?)
        };
        let time = match self.mark('/') {
            Some(()) => self.time()?,
            None => 2 * HOUR,
        };
        Some(Turn { day, time })
    }

    fn day_of_week(&mut self) -> Option<Day> {
        let month = self.number().filter(|n| (1..=12).contains(n))?;
        self.mark('.')?;
        let week = self.number().filter(|n| (1..=5).contains(n))?;
        self.mark('.')?;
        let weekday = self.number().filter(|n| *n <= 6)?;
        Some(Day::OfWeek(month as u8, week, weekday))
    }
}

#[cfg(test)]
mod tests {
    use super::*;
    use crate::Time;

    /// Seconds after 1 January 1970 of a time in UTC.
    fn utc(time: &str) -> i64 {
        let [low, high, hour, minute] = time.parse::<Time>().expect(time).stamp();
        let number = |bcd: u8| i64::from(bcd / 16 * 10 + bcd % 16);
        let day = i64::from(u16::from_le_bytes([low, high])) + TO_DAY_0;
        day * DAY + number(hour) * HOUR + number(minute) * 60
    }

    /// The minutes that a rule adds.
    fn minutes(rule: &str, time: &str) -> i64 {
        let rule = Rule::read(rule).expect(rule);
        rule.offset(utc(time)) / 60
    }

    #[test]
    fn rules_north_and_south() {
        const NORTH: &str = "CET-1CEST,M3.5.0,M10.5.0/3";
        const SOUTH: &str = "AEST-10AEDT,M10.1.0,M4.1.0/3";
        for (rule, time, due) in [
            (NORTH, "2026-01-01 00:00", 60),
            (NORTH, "2026-03-29 00:59", 60),
            (NORTH, "2026-03-29 01:00", 120),
            (NORTH, "2026-10-25 00:59", 120),
            (NORTH, "2026-10-25 01:00", 60),
            (SOUTH, "2026-01-01 00:00", 660),
            (SOUTH, "2026-04-04 15:59", 660),
            (SOUTH, "2026-04-04 16:00", 600),
            (SOUTH, "2026-10-03 15:59", 600),
            (SOUTH, "2026-10-03 16:00", 660),
            (SOUTH, "2026-12-31 23:59", 660),
        ] {
            assert_eq!(minutes(rule, time), due, "{rule}, {time}");
        }
    }

    #[test]
    fn rules_of_other_forms() {
        const JULIAN: &str = "AAA0BBB,J60/0,J61/0";
        const OF_YEAR: &str = "AAA0BBB,59/0,60/0";
        for (rule, time, due) in [
            ("<-03>3", "2026-07-01 00:00", -180),
            ("IST-5:30", "2026-07-01 00:00", 330),
            ("AAA+1BBB-2,0/0,365/25", "2026-07-01 00:00", 120),
            ("<-02>2<-01>,M3.5.0/-1,M10.5.0/0", "2026-03-29 00:59", -120),
            ("<-02>2<-01>,M3.5.0/-1,M10.5.0/0", "2026-03-29 01:00", -60),
            (JULIAN, "2028-02-29 12:00", 0),
            (JULIAN, "2028-03-01 12:00", 60),
            (JULIAN, "2027-03-01 12:00", 60),
            (OF_YEAR, "2028-02-29 12:00", 60),
            (OF_YEAR, "2028-03-01 12:00", 0),
            (OF_YEAR, "2027-03-01 12:00", 60),
        ] {
            assert_eq!(minutes(rule, time), due, "{rule}, {time}");
        }
    }

    /// From the second Sunday in March to the first in November, at 02:00.
    #[test]
    fn rules_that_do_not_say_when_summer_is() {
        for (rule, standard, summer) in [
            ("CET-1CEST", 60, 120),
            ("CET-1CEST,", 60, 120),
            ("ABC5DEF", -300, -240),
            ("ABC5DEF3", -300, -180),
            ("<-05>5<-03>3", -300, -180),
            ("<-05>5<-04>", -300, -240),
        ] {
            let local = |time: &str, minutes: i64| utc(time) - 60 * minutes;
            let (begin, end) = (
                local("2026-03-08 02:00", standard),
                local("2026-11-01 02:00", summer),
            );
            let read = Rule::read(rule).expect(rule);
            let told = [begin - 1, begin, end - 1, end].map(|at| read.offset(at) / 60);
            assert_eq!(told, [standard, summer, summer, standard], "{rule}");
        }
    }

    #[test]
    fn what_is_no_rule() {
        for text in [
            "",
            "UTC",
            "AB1",
            "<AB1",
            "CET-",
            "CET-1x",
            "CET-1000",
            "CET",
            "CET-1CE",
            "CET-1<CEST",
            "CET-1CEST-",
            "CET-1CEST,M3.5.0",
            "CET-1CEST,M13.5.0,M10.5.0",
            "CET-1CEST,M3.6.0,M10.5.0",
            "CET-1CEST,M3.5.7,M10.5.0",
            "CET-1CEST,J0,J365",
            "CET-1CEST,0,366",
            "CET-1CEST,M3.5.0,M10.5.0/3/4",
        ] {
            assert!(Rule::read(text).is_none(), "{text}");
        }
    }

    /// A TZif file of a version: 7 minutes, 8 from a moment on and 9 from
    /// another, in both blocks, and a rule.
    fn file(version: u8, moments: [i32; 2]) -> Vec<u8> {
        let mut bytes = Vec::new();
        for width in [4, 8] {
            bytes.extend(b"TZif");
            bytes.push(version);
            bytes.extend([0; 15]);
            for count in [1u32, 1, 1, 2, 3, 4] {
                bytes.extend(count.to_be_bytes());
            }
            for moment in moments {
                bytes.extend(&i64::from(moment).to_be_bytes()[8 - width..]);
            }
            bytes.extend([1, 2]);
            for minutes in [7, 8, 9i32] {
                bytes.extend((60 * minutes).to_be_bytes());
                bytes.extend([0, 0]);
            }
            bytes.extend(vec![0; 4 + width + 4 + 1 + 1]);
        }
        bytes.extend(b"\nXYZ-1\n");
        bytes
    }

    #[test]
    fn files_have_moments_and_a_rule_after_the_last() {
        let zone = Zone::read(&file(b'2', [-5, 1_000])).expect("a zone");
        let minutes = |seconds: i64| zone.offset(seconds) / 60;
        assert_eq!([i64::MIN, -6].map(minutes), [7, 7]);
        assert_eq!([-5, 999].map(minutes), [8, 8]);
        assert_eq!([1_000, i64::MAX].map(minutes), [60, 60], "by the rule");
        let old = Zone::read(&file(0, [-5, 1_000])).expect("a zone");
        assert_eq!(old.offset(1_000) / 60, 9, "the oldest files have no rule");
    }

    /// A file that is cut off is none, and neither is one with counts of bytes
    /// that are not there.
    #[test]
    fn what_is_no_file() {
        let whole = file(b'2', [-5, 1_000]);
        for len in 0..whole.len() - 7 {
            assert!(Zone::read(&whole[..len]).is_none(), "{len}");
        }
        for at in 20..44 {
            let mut wrong = whole.clone();
            wrong[at] = 0xFF;
            assert!(Zone::read(&wrong).is_none(), "{at}");
        }
        assert!(Zone::read(&[b'x'; 200]).is_none());
    }
}
