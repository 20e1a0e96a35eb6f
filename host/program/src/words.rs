//! The command line: options, and the words that are none.

use crate::trouble::Trouble;
use benzokamuri::Time;
use std::collections::VecDeque;
use std::ffi::{OsStr, OsString};

/// Options with a value that every verb knows. They may stand before the verb
/// too.
pub const ANYWHERE: [&str; 3] = ["-u", "--user", "--time"];

/// What options a verb knows beside those and `-h`.
#[derive(Clone, Copy)]
pub struct Shape {
    /// Those that stand alone, as `-l`.
    pub flags: &'static [&'static str],
    /// Those with a value, as `--svg FILE`.
    pub valued: &'static [&'static str],
}

/// The words of a command line behind the verb.
#[derive(Debug)]
pub struct Words {
    plain: VecDeque<OsString>,
    flags: Vec<&'static str>,
    values: Vec<(&'static str, OsString)>,
    user: Option<u8>,
    time: Option<Time>,
    help: bool,
}

impl Words {
    /// Sorts the words behind a verb.
    pub fn sorted(words: &[OsString], shape: Shape) -> Result<Words, Trouble> {
        let mut sorted = Words {
            plain: VecDeque::new(),
            flags: Vec::new(),
            values: Vec::new(),
            user: None,
            time: None,
            help: false,
        };
        let mut rest = words.iter();
        while let Some(word) = rest.next() {
            let Some(text) = word.to_str().filter(|text| is_option(text)) else {
                sorted.plain.push_back(word.clone());
                continue;
            };
            if text == "--" {
                sorted.plain.extend(rest.cloned());
                break;
            }
            sorted.take_option(text, shape, &mut rest)?;
        }
        Ok(sorted)
    }

    fn take_option<'a>(
        &mut self,
        text: &str,
        shape: Shape,
        rest: &mut impl Iterator<Item = &'a OsString>,
    ) -> Result<(), Trouble> {
        if matches!(text, "-h" | "--help") {
            self.help = true;
            return Ok(());
        }
        if let Some(flag) = shape.flags.iter().find(|&&flag| flag == text) {
            self.flags.push(flag);
            return Ok(());
        }
        let valued = ANYWHERE.iter().chain(shape.valued);
        for &name in valued {
            let Some(value) = value_in(text, name, rest)? else {
                continue;
            };
            match name {
                "-u" | "--user" => self.user = Some(user(&value)?),
                "--time" => self.time = Some(time(&value)?),
                _ => self.values.push((name, value)),
            }
            return Ok(());
        }
        match joined(text, shape) {
            Some(flags) => self.flags.extend(flags),
            None => return Err(Trouble::usage(format!("there is no option {text} here"))),
        }
        Ok(())
    }

    /// Whether help is asked for.
    pub fn help(&self) -> bool {
        self.help
    }

    /// Whether a flag was given.
    pub fn has(&self, flag: &str) -> bool {
        self.flags.contains(&flag)
    }

    /// The value of an option, the last where it was given twice.
    pub fn value(&self, name: &str) -> Option<&OsStr> {
        let mut values = self.values.iter().rev();
        let (_, value) = values.find(|(given, _)| *given == name)?;
        Some(value)
    }

    /// All values of an option, in the order they were given.
    pub fn values<'a>(&'a self, name: &'a str) -> impl Iterator<Item = &'a OsStr> {
        let values = self.values.iter().filter(move |(given, _)| *given == name);
        values.map(|(_, value)| value.as_os_str())
    }

    /// The value of an option as text.
    pub fn text(&self, name: &str) -> Result<Option<&str>, Trouble> {
        let value = self.value(name);
        let wrong = || Trouble::usage(format!("the value of {name} is no text"));
        value
            .map(|value| value.to_str().ok_or_else(wrong))
            .transpose()
    }

    /// The user that was given.
    pub fn given_user(&self) -> Option<u8> {
        self.user
    }

    /// The user that was given, or 0.
    pub fn user(&self) -> u8 {
        self.user.unwrap_or(0)
    }

    /// The time that was given.
    pub fn given_time(&self) -> Option<Time> {
        self.time
    }

    /// Takes user and time from the words before the verb, where none were
    /// given behind it.
    pub fn after(mut self, before_verb: &Words) -> Words {
        self.user = self.user.or(before_verb.user);
        self.time = self.time.or(before_verb.time);
        self
    }

    /// The next word that is no option, which must be there.
    pub fn next(&mut self, what: &str) -> Result<OsString, Trouble> {
        let word = self.plain.pop_front();
        word.ok_or_else(|| Trouble::usage(format!("{what} is missing")))
    }

    /// The next word that is no option, if there is one.
    pub fn next_if_any(&mut self) -> Option<OsString> {
        self.plain.pop_front()
    }

    /// All words that are left.
    pub fn rest(&mut self) -> Vec<OsString> {
        self.plain.drain(..).collect()
    }

    /// No word may be left.
    pub fn end(&self) -> Result<(), Trouble> {
        match self.plain.front() {
            None => Ok(()),
            Some(word) => Err(Trouble::usage(format!(
                "{} is one word too many",
                word.display()
            ))),
        }
    }
}

/// A lone `-` is a word like others: the standard streams.
fn is_option(text: &str) -> bool {
    text.starts_with('-') && text != "-"
}

/// The value of an option in a word that begins with its name, or behind it:
/// `-u 3`, `-u3`, `--svg FILE`, `--svg=FILE`.
fn value_in<'a>(
    text: &str,
    name: &str,
    rest: &mut impl Iterator<Item = &'a OsString>,
) -> Result<Option<OsString>, Trouble> {
    let Some(behind) = text.strip_prefix(name) else {
        return Ok(None);
    };
    let long = name.starts_with("--");
    match behind.strip_prefix('=') {
        _ if behind.is_empty() => match rest.next() {
            Some(value) => Ok(Some(value.clone())),
            None => Err(Trouble::usage(format!("{name} lacks its value"))),
        },
        Some(value) if long => Ok(Some(value.into())),
        None if !long => Ok(Some(behind.into())),
        _ => Ok(None),
    }
}

/// Several letters behind one dash, as `-la`, each of which is an option that
/// stands alone.
fn joined(text: &str, shape: Shape) -> Option<Vec<&'static str>> {
    let letters = text.strip_prefix('-')?.chars();
    let flag = |letter| {
        let mut flags = shape.flags.iter();
        flags.find(|flag| {
            flag.strip_prefix('-')
                .is_some_and(|name| name.chars().eq([letter]))
        })
    };
    letters.map(|letter| flag(letter).copied()).collect()
}

fn user(value: &OsStr) -> Result<u8, Trouble> {
    let number = value.to_str().and_then(|text| text.parse().ok());
    number
        .filter(|user| *user <= 15)
        .ok_or_else(|| Trouble::usage(format!("{} is no user: 0 to 15", value.display())))
}

fn time(value: &OsStr) -> Result<Time, Trouble> {
    let wrong = |why: &dyn std::fmt::Display| {
        let shown = value.display();
        Trouble::usage(format!("{shown:?} is no time to hand in: {why}"))
    };
    let text = value.to_str().ok_or_else(|| wrong(&"it is no text"))?;
    text.parse().map_err(|bad| wrong(&bad))
}

#[cfg(test)]
mod tests {
    use super::*;

    const SHAPE: Shape = Shape {
        flags: &["-l", "-f"],
        valued: &["--svg", "-a"],
    };

    fn sorted(line: &str) -> Result<Words, Trouble> {
        let words: Vec<OsString> = line.split(' ').map(OsString::from).collect();
        Words::sorted(&words, SHAPE)
    }

    #[test]
    fn options_may_stand_anywhere() {
        for line in [
            "-u 3 a -l b --svg f",
            "a b -l --svg=f -u3",
            "--svg f -l -u3 -- a b",
            "--user=3 a b --svg f -l",
        ] {
            let mut words = sorted(line).unwrap();
            assert_eq!(words.user(), 3, "{line}");
            assert!(words.has("-l") && !words.has("-f"));
            assert_eq!(words.text("--svg").unwrap(), Some("f"));
            assert_eq!(words.value("-a"), None);
            assert_eq!(words.next("one").unwrap(), "a");
            assert!(words.end().is_err());
            assert_eq!(words.rest(), ["b"]);
            assert!(words.end().is_ok());
            assert!(words.next("another").is_err());
        }
    }

    #[test]
    fn what_is_wrong_is_said() {
        for line in [
            "-x", "-u", "-u 16", "-u x", "--svg", "-lx", "-lu3", "-la", "--lf", "--svgf", "-u -1",
        ] {
            let wrong = sorted(line).unwrap_err();
            assert_eq!(wrong.status(), crate::trouble::USAGE, "{line}");
        }
    }

    #[test]
    fn options_that_are_given_again() {
        let words = sorted("--svg a --svg=b x --svg c").unwrap();
        assert!(words.values("--svg").eq(["a", "b", "c"]));
        assert_eq!(words.value("--svg"), Some(OsStr::new("c")), "the last");
        assert_eq!(words.values("-a").count(), 0);
    }

    #[test]
    fn what_stands_before_the_verb_gives_way() {
        let before = [OsString::from("--time=2000-01-02 03:04"), "-u5".into()];
        let before = Words::sorted(&before, SHAPE).unwrap();
        let words = sorted("a").unwrap().after(&before);
        assert_eq!((words.user(), words.given_time()), (5, before.time));
        assert_eq!(before.time, "2000-01-02 03:04".parse().ok());
        assert_eq!(sorted("-u 3").unwrap().after(&before).user(), 3);
        assert_eq!(sorted("-u 3").unwrap().given_time(), None);
    }

    #[test]
    fn letters_may_be_joined() {
        for line in ["-lf a", "a -fl", "-l -f a", "-ll -ff a"] {
            let words = sorted(line).unwrap();
            assert!(words.has("-l") && words.has("-f"), "{line}");
        }
        // What has a value takes what is behind it.
        let words = sorted("-alf").unwrap();
        assert_eq!(words.text("-a").unwrap(), Some("lf"));
        assert!(!words.has("-l"));
    }

    #[test]
    fn a_lone_dash_and_what_follows_two_are_words() {
        assert_eq!(sorted("-").unwrap().rest(), ["-"]);
        assert_eq!(sorted("-- -l -- -u").unwrap().rest(), ["-l", "--", "-u"]);
        assert!(sorted("--help a").unwrap().help());
    }
}
