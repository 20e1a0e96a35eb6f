//! The time that calls are handed, which is also what a stamp holds.

use crate::zone::{Zone, DAY, TO_DAY_0};
use std::fmt;
use std::str::FromStr;

/// A day, where 1 January 1978 is 1, an hour and a minute. Both are kept in
/// BCD, two decimal digits a byte, as calls and stamps have them, so a `Time`
/// is never refused with 255, 4. Hours over 23 and minutes over 59 are stored as
/// they are given.
#[derive(Clone, Copy, Default, PartialEq, Eq)]
pub struct Time {
    day: u16,
    hour: u8,
    minute: u8,
}

/// A day of the calendar.
#[derive(Clone, Copy, Debug, PartialEq, Eq, PartialOrd, Ord)]
pub struct Date {
    /// 1978 to 2157, where it comes from a [`Time`].
    pub year: u16,
    /// 1 to 12.
    pub month: u8,
    /// 1 to 31.
    pub day: u8,
}

/// The first day is 1 January of this year.
const FIRST_YEAR: u16 = 1978;

/// Two decimal digits in a byte.
const fn to_bcd(number: u8) -> Option<u8> {
    if number > 99 {
        return None;
    }
    Some(number / 10 * 16 + number % 10)
}

/// The number that two decimal digits are, or nothing where one is over 9.
const fn from_bcd(byte: u8) -> Option<u8> {
    if byte % 16 > 9 || byte / 16 > 9 {
        return None;
    }
    Some(byte / 16 * 10 + byte % 16)
}

impl Time {
    /// Day 0, 00:00: what a new entry's stamps start at, and what a
    /// [`Disk`](crate::Disk) hands in until it is told another time.
    pub const ZERO: Time = Time {
        day: 0,
        hour: 0,
        minute: 0,
    };

    /// A time from numbers; hour and minute have to be at most 99.
    pub const fn new(day: u16, hour: u8, minute: u8) -> Option<Time> {
        match (to_bcd(hour), to_bcd(minute)) {
            (Some(hour), Some(minute)) => Some(Time { day, hour, minute }),
            _ => None,
        }
    }

    /// A time whose hour and minute are in BCD already.
    pub const fn from_bcd(day: u16, hour: u8, minute: u8) -> Option<Time> {
        match (from_bcd(hour), from_bcd(minute)) {
            (Some(_), Some(_)) => Some(Time { day, hour, minute }),
            _ => None,
        }
    }

    /// A time from a stamp's four bytes: the day, low byte first, hour and
    /// minute.
    pub const fn from_stamp(stamp: [u8; 4]) -> Option<Time> {
        let [low, high, hour, minute] = stamp;
        Time::from_bcd(u16::from_le_bytes([low, high]), hour, minute)
    }

    /// A time of the calendar, from 1 January 1978 to 5 June 2157.
    pub fn on(date: Date, hour: u8, minute: u8) -> Result<Time, BadTime> {
        if !date.is_one() || hour > 23 || minute > 59 {
            return Err(BadTime::NoSuchTime);
        }
        let day = date.days().ok_or(BadTime::NoSuchDay)?;
        Time::new(day, hour, minute).ok_or(BadTime::NoSuchTime)
    }

    /// The system's clock, in the local time.
    pub fn now() -> Result<Time, BadTime> {
        let clock = std::time::SystemTime::now();
        let seconds = match clock.duration_since(std::time::UNIX_EPOCH) {
            Ok(since) => i64::try_from(since.as_secs()).unwrap_or(i64::MAX),
            Err(before) => i64::try_from(before.duration().as_secs()).map_or(i64::MIN, |s| -s - 1),
        };
        Time::local(seconds)
    }

    /// The local time at so many seconds after 1 January 1970, 00:00 UTC. The
    /// zone is the system's, or the one that the environment variable `TZ`
    /// names.
    pub fn local(seconds: i64) -> Result<Time, BadTime> {
        Time::in_zone(&Zone::of_the_system(), seconds)
    }

    /// The time in a zone.
    fn in_zone(zone: &Zone, seconds: i64) -> Result<Time, BadTime> {
        let local = seconds.saturating_add(zone.offset(seconds));
        let day = u16::try_from(local.div_euclid(DAY) - TO_DAY_0).unwrap_or(0);
        if day == 0 {
            return Err(BadTime::NoSuchDay);
        }
        let minutes = local.rem_euclid(DAY) / 60;
        let (hour, minute) = (minutes / 60, minutes % 60);
        Time::new(day, hour as u8, minute as u8).ok_or(BadTime::NoSuchTime)
    }

    /// The day, where 1 January 1978 is 1.
    pub const fn day(self) -> u16 {
        self.day
    }

    /// The day of the calendar; day 0 is none.
    pub fn date(self) -> Option<Date> {
        Date::of_day(self.day)
    }

    /// The hour in BCD.
    pub const fn hour_bcd(self) -> u8 {
        self.hour
    }

    /// The minute in BCD.
    pub const fn minute_bcd(self) -> u8 {
        self.minute
    }

    /// The four bytes of a stamp.
    pub const fn stamp(self) -> [u8; 4] {
        let [low, high] = self.day.to_le_bytes();
        [low, high, self.hour, self.minute]
    }
}

/// As `2026-11-15 06:00`; day 0 as `day 0 06:00`.
impl fmt::Display for Time {
    fn fmt(&self, f: &mut fmt::Formatter) -> fmt::Result {
        match self.date() {
            Some(date) => write!(f, "{date}")?,
            None => f.write_str("day 0")?,
        }
        // BCD in hexadecimal is the number in decimal.
        write!(f, " {:02x}:{:02x}", self.hour, self.minute)
    }
}

impl fmt::Debug for Time {
    fn fmt(&self, f: &mut fmt::Formatter) -> fmt::Result {
        write!(f, "Time({self})")
    }
}

impl Date {
    /// Whether the calendar has it: the year may be any.
    fn is_one(self) -> bool {
        (1..=12).contains(&self.month) && (1..=days_of(self.year, self.month)).contains(&self.day)
    }

    /// Its number, where 1 January 1978 is 1, if there is one in 16 bits.
    pub(crate) fn days(self) -> Option<u16> {
        let years: u32 = (FIRST_YEAR..self.year).map(days_of_year).sum();
        let months: u32 = (1..self.month)
            .map(|month| u32::from(days_of(self.year, month)))
            .sum();
        let day = years + months + u32::from(self.day);
        (self.year >= FIRST_YEAR)
            .then_some(day)
            .and_then(|day| u16::try_from(day).ok())
    }

    /// The day of its year, counted from 0: 0 is 1 January, and 31 December 364,
    /// or 365 in a leap year.
    pub fn day_of_year(self) -> u16 {
        let months = (1..self.month).map(|month| u16::from(days_of(self.year, month)));
        (months.sum::<u16>() + u16::from(self.day)).saturating_sub(1)
    }

    /// The date of a day's number; 0 has none.
    pub(crate) fn of_day(number: u16) -> Option<Date> {
        let mut left = u32::from(number).checked_sub(1)?;
        let mut year = FIRST_YEAR;
        while left >= days_of_year(year) {
            left -= days_of_year(year);
            year += 1;
        }
        let mut month = 1;
        while left >= u32::from(days_of(year, month)) {
            left -= u32::from(days_of(year, month));
            month += 1;
        }
        let day = left as u8 + 1;
        Some(Date { year, month, day })
    }
}

impl fmt::Display for Date {
    fn fmt(&self, f: &mut fmt::Formatter) -> fmt::Result {
        write!(f, "{:04}-{:02}-{:02}", self.year, self.month, self.day)
    }
}

pub(crate) const fn is_leap(year: u16) -> bool {
    year.is_multiple_of(4) && (!year.is_multiple_of(100) || year.is_multiple_of(400))
}

const fn days_of_year(year: u16) -> u32 {
    365 + is_leap(year) as u32
}

/// The days of a month, 1 to 12.
pub(crate) const fn days_of(year: u16, month: u8) -> u8 {
    match month {
        2 => 28 + is_leap(year) as u8,
        4 | 6 | 9 | 11 => 30,
        _ => 31,
    }
}

/// Why something is no time.
#[derive(Clone, Copy, Debug, PartialEq, Eq)]
pub enum BadTime {
    /// It is not written as `2026-11-15 06:00`.
    Malformed,
    /// The calendar or the clock does not have it.
    NoSuchTime,
    /// Its day has no number from 1 to 65,535.
    NoSuchDay,
}

impl fmt::Display for BadTime {
    fn fmt(&self, f: &mut fmt::Formatter) -> fmt::Result {
        f.write_str(match self {
            BadTime::Malformed => "a time is written as 2026-11-15 06:00",
            BadTime::NoSuchTime => "there is no such day, hour or minute",
            BadTime::NoSuchDay => "days are those from 1978-01-01 to 2157-06-05",
        })
    }
}

impl std::error::Error for BadTime {}

/// Reads `2026-11-15 06:00`.
impl FromStr for Time {
    type Err = BadTime;

    fn from_str(text: &str) -> Result<Time, BadTime> {
        const FORM: &[u8; 16] = b"0000-00-00 00:00";
        let bytes: &[u8; 16] = text.as_bytes().try_into().map_err(|_| BadTime::Malformed)?;
        let fits = |(&byte, &form): (&u8, &u8)| match form {
            b'0' => byte.is_ascii_digit(),
            _ => byte == form,
        };
        if !bytes.iter().zip(FORM).all(fits) {
            return Err(BadTime::Malformed);
        }
        let number = |digits: &[u8]| {
            let more = |number: u16, digit: &u8| 10 * number + u16::from(digit - b'0');
            digits.iter().fold(0, more)
        };
        let two = |at: usize| number(&bytes[at..at + 2]) as u8;
        let date = Date {
            year: number(&bytes[..4]),
            month: two(5),
            day: two(8),
        };
        Time::on(date, two(11), two(14))
    }
}

#[cfg(test)]
mod tests {
    use super::*;

    const fn date(year: u16, month: u8, day: u8) -> Date {
        Date { year, month, day }
    }

    /// Days whose numbers are known: by the calendar of `date(1)`.
    const KNOWN: [(u16, Date); 14] = [
        (1, date(1978, 1, 1)),
        (31, date(1978, 1, 31)),
        (32, date(1978, 2, 1)),
        (59, date(1978, 2, 28)),
        (60, date(1978, 3, 1)),
        (365, date(1978, 12, 31)),
        (366, date(1979, 1, 1)),
        (790, date(1980, 2, 29)),
        (791, date(1980, 3, 1)),
        (8_095, date(2000, 2, 29)),
        (17_851, date(2026, 11, 15)),
        (44_619, date(2100, 2, 28)),
        (44_620, date(2100, 3, 1)),
        (65_535, date(2157, 6, 5)),
    ];

    #[test]
    fn known_days() {
        for (number, date) in KNOWN {
            assert_eq!(date.days(), Some(number), "{date}");
            assert_eq!(Date::of_day(number), Some(date), "{number}");
        }
        assert_eq!(Date::of_day(0), None);
    }

    #[test]
    fn days_of_a_year_count_from_0() {
        for (day, date) in [
            (0, date(2026, 1, 1)),
            (58, date(2026, 2, 28)),
            (59, date(2026, 3, 1)),
            (59, date(2024, 2, 29)),
            (297, date(2026, 10, 25)),
            (364, date(2026, 12, 31)),
            (365, date(2024, 12, 31)),
        ] {
            assert_eq!(date.day_of_year(), day, "{date}");
        }
    }

    #[test]
    fn every_day_comes_after_the_one_before() {
        let mut before = date(1977, 12, 31);
        for number in 1..=u16::MAX {
            let date = Date::of_day(number).expect("a date");
            let next = before.day + 1 == date.day && before.month == date.month;
            assert!(next || date.day == 1 && !date_after(before).is_one());
            assert!(date > before && date.is_one());
            assert_eq!(date.days(), Some(number));
            before = date;
        }
        assert_eq!(date_after(before).days(), None, "no number in 16 bits");
    }

    fn date_after(before: Date) -> Date {
        let day = before.day + 1;
        Date { day, ..before }
    }

    #[test]
    fn times_are_written_and_read() {
        let time: Time = "2026-11-15 06:00".parse().expect("a time");
        assert_eq!(time, Time::new(17_851, 6, 0).unwrap());
        assert_eq!(time.stamp(), [0xBB, 0x45, 0x06, 0x00]);
        assert_eq!(time.to_string(), "2026-11-15 06:00");
        assert_eq!(Time::from_stamp(time.stamp()), Some(time));
        assert_eq!("1978-01-01 00:00".parse(), Ok(Time::new(1, 0, 0).unwrap()));
        let last = Time::new(65_535, 23, 59).unwrap();
        assert_eq!("2157-06-05 23:59".parse(), Ok(last));
        let odd = Time::from_bcd(1, 0x99, 0x60).unwrap();
        assert_eq!(odd.to_string(), "1978-01-01 99:60");
        assert_eq!(Time::ZERO.to_string(), "day 0 00:00");
        assert_eq!(format!("{time:?}"), "Time(2026-11-15 06:00)");
    }

    #[test]
    fn what_is_no_time_is_refused() {
        let read = |text: &str| text.parse::<Time>().unwrap_err();
        for text in [
            "",
            "now",
            "2026-11-15",
            "2026-11-15T06:00",
            "2026-11-15 6:00",
            "2026-11-15 06:00:00",
            "+026-11-15 06:00",
            "2026-1é-15 06:0",
            " 2026-11-15 06:0",
        ] {
            assert_eq!(read(text), BadTime::Malformed, "{text}");
        }
        for text in [
            "2026-00-15 06:00",
            "2026-13-15 06:00",
            "2026-11-00 06:00",
            "2026-11-31 06:00",
            "2026-02-29 06:00",
            "2100-02-29 06:00",
            "2026-11-15 24:00",
            "2026-11-15 06:60",
        ] {
            assert_eq!(read(text), BadTime::NoSuchTime, "{text}");
        }
        for text in ["1977-12-31 23:59", "2157-06-06 00:00", "9999-12-31 23:59"] {
            assert_eq!(read(text), BadTime::NoSuchDay, "{text}");
        }
    }

    #[test]
    fn seconds_become_local_times() {
        let zone = Zone::named("CET-1CEST,M3.5.0,M10.5.0/3").expect("a zone");
        let local = |seconds: i64| Time::in_zone(&zone, seconds).map(|time| time.to_string());
        let is = |text: &str| Ok(text.to_string());
        // 15 November 2026, 05:00 UTC, and the same day in July.
        assert_eq!(local(1_794_718_800), is("2026-11-15 06:00"));
        assert_eq!(local(1_784_091_659), is("2026-07-15 07:00"));
        // Day 1 begins an hour before UTC's.
        assert_eq!(local(252_457_200), is("1978-01-01 00:00"));
        assert_eq!(local(252_457_199), Err(BadTime::NoSuchDay));
        for seconds in [i64::MIN, -1, 0, i64::MAX] {
            assert_eq!(local(seconds), Err(BadTime::NoSuchDay));
            assert_eq!(Time::local(seconds), Err(BadTime::NoSuchDay));
        }
    }

    #[test]
    fn bcd_both_ways() {
        for byte in 0..=255u8 {
            let is = byte & 0x0F <= 9 && byte >> 4 <= 9;
            assert_eq!(Time::from_bcd(7, byte, 0).is_some(), is, "{byte:02X}");
            assert_eq!(Time::from_bcd(7, 0, byte).is_some(), is, "{byte:02X}");
            let two = Time::new(7, byte, 0);
            assert_eq!(two.is_some(), byte < 100);
            assert_eq!(Time::new(7, 0, byte).is_some(), byte < 100);
            if let Some(time) = two {
                assert_eq!(format!("{:02x}", time.hour_bcd()), format!("{byte:02}"));
            }
        }
    }
}
