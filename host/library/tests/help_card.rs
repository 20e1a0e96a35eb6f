//! The help card's sentences are the same wherever they stand.

mod common;

use benzokamuri::{Call, Code, Pick};

/// A text with every run of white space, and what C comments add, as one
/// space.
fn flat(text: &str) -> String {
    let words = text.split_whitespace().filter(|&word| word != "*");
    words.collect::<Vec<_>>().join(" ")
}

fn read(path: &str) -> String {
    let path = common::repository().join(path);
    std::fs::read_to_string(&path).unwrap_or_else(|e| panic!("{}: {e}", path.display()))
}

/// Where the word picker begins, in the card and in the header.
const PICKER: [(&str, &str); 2] = [
    ("docs/HELP-CARD.md", "\n## The word picker\n"),
    ("include/benzokamuri.h", "/* The word picker.\n"),
];

/// A page up to the word picker, and from there on.
fn parts(path: &str) -> [String; 2] {
    let (_, begins) = PICKER
        .into_iter()
        .find(|(page, _)| *page == path)
        .expect("a page");
    let page = read(path);
    let (before, from) = page.split_once(begins).expect("a part about the picker");
    [before.to_string(), from.to_string()]
}

fn calls(code: Code, between: &str) -> String {
    let calls: Vec<String> = code.calls().iter().map(u8::to_string).collect();
    calls.join(between)
}

#[test]
fn the_header_has_every_case_in_order_and_no_other() {
    let [header, _] = parts("include/benzokamuri.h");
    let begins_a_case = |line: &&str| {
        let text = line.strip_prefix(" *   ").unwrap_or("");
        text.starts_with(|first: char| first.is_ascii_digit())
    };
    let cases = header.lines().filter(begins_a_case).count();
    assert_eq!(cases, Code::ALL.len());
    let header = flat(&header);
    let mut rest = header.as_str();
    for &code in Code::ALL {
        let (a, h) = code.numbers();
        let line = flat(&format!("{a}, {h} {} {code}", calls(code, " ")));
        let (_, behind) = rest
            .split_once(&line)
            .unwrap_or_else(|| panic!("not in the header, or out of order: {line}"));
        rest = behind;
    }
}

#[test]
fn the_help_card_has_every_case_in_order() {
    let [card, _] = parts("docs/HELP-CARD.md");
    let rows: Vec<&str> = card
        .lines()
        .filter(|line| line.starts_with("| ") && line.contains(", "))
        .filter(|line| !line.starts_with("| A, H"))
        .collect();
    let expected: Vec<String> = Code::ALL
        .iter()
        .map(|&code| {
            let (a, h) = code.numbers();
            let calls = match code.calls() {
                [] => "every call".to_string(),
                _ => calls(code, ", "),
            };
            format!("| {a}, {h} | {calls} | {code} |")
        })
        .collect();
    assert_eq!(rows, expected);
}

#[test]
fn header_and_help_card_say_the_same_beside_the_table() {
    for path in ["include/benzokamuri.h", "docs/HELP-CARD.md"] {
        for said in Code::REMARKS {
            assert!(flat(&read(path)).contains(&flat(said)), "{path}: {said}");
            assert!(said.ends_with('\n') && said.lines().all(|line| line.len() <= 80));
        }
    }
}

/// The program prints the table and the remarks; what the card has beside them
/// is where to read on, and its headings.
#[test]
fn the_help_card_says_nothing_else_below_the_table() {
    let [card, _] = parts("docs/HELP-CARD.md");
    let (_, below) = card.rsplit_once("|\n").expect("a table");
    let text: Vec<&str> = below.lines().filter(|l| !l.starts_with('#')).collect();
    let mut rest = flat(&text.join("\n"));
    let mut at = 0;
    for said in Code::REMARKS.map(flat) {
        let place = rest.find(&said).expect("a remark");
        assert!(place >= at, "out of order: {said}");
        at = place;
        rest.replace_range(place..place + said.len(), "");
    }
    assert_eq!(
        flat(&rest),
        "The manual's code 3 of 33 and 34 is never given; \
         [changes/07-code-3.md](changes/07-code-3.md) says why. \
         `benzokamuri help codes` prints this card too, and `benzokamuri check` says where a \
         directory is not consistent."
    );
}

/// Number, word and sentence of every answer of the picker.
fn answers() -> Vec<[String; 3]> {
    let named = Pick::NAMED.iter().map(|pick| {
        let word = if pick.gives() == Some(true) {
            "yes"
        } else {
            "no"
        };
        [pick.number().to_string(), word.into(), pick.to_string()]
    });
    let refused = [
        Pick::OTHER.to_string(),
        "either".into(),
        Pick::REFUSED.into(),
    ];
    named.chain([refused]).collect()
}

#[test]
fn the_help_card_has_every_answer_of_the_picker_and_no_other() {
    let [_, card] = parts("docs/HELP-CARD.md");
    let rows: Vec<&str> = card.lines().filter(|line| line.starts_with("| ")).collect();
    let expected = answers()
        .into_iter()
        .map(|answer| format!("| {} |", answer.join(" | ")));
    assert_eq!(rows[0], "| Number | Word | Meaning |");
    assert!(rows[1..].iter().copied().eq(expected));
    let text: Vec<&str> = card.lines().filter(|line| !line.starts_with('|')).collect();
    let expected = format!(
        "{} [PICKER.md](PICKER.md) says what to do about each.",
        Pick::ABOUT
    );
    assert_eq!(flat(&text.join("\n")), flat(&expected));
    assert!(Pick::ABOUT.lines().all(|line| line.len() <= 80));
}

#[test]
fn the_header_has_every_answer_of_the_picker_and_no_other() {
    let [_, header] = parts("include/benzokamuri.h");
    let table: Vec<&str> = header
        .lines()
        .skip_while(|line| !line.ends_with("number  word    meaning"))
        .skip(1)
        .take_while(|line| *line != " */")
        .collect();
    let expected = answers().concat().join(" ");
    assert_eq!(flat(&table.join("\n")), flat(&expected));
    assert!(flat(&header).contains(&flat(Pick::ABOUT)));
    let defined = header
        .lines()
        .filter(|line| line.starts_with("#define BENZO_PICK_"));
    let other = Pick::Other(Code::BadCall);
    let answers = Pick::NAMED.iter().chain([&other]).map(|pick| {
        let name = as_a_constant(&format!("{pick:?}"));
        format!("#define BENZO_PICK_{name} {}", pick.number())
    });
    assert_eq!(defined.collect::<Vec<_>>(), answers.collect::<Vec<_>>());
}

/// The name of a variant as C writes constants: `NoBook` is `NO_BOOK`.
fn as_a_constant(variant: &str) -> String {
    let name = variant.split('(').next().unwrap_or_default();
    let mut constant = String::new();
    for letter in name.chars() {
        if letter.is_ascii_uppercase() && !constant.is_empty() {
            constant.push('_');
        }
        constant.push(letter.to_ascii_uppercase());
    }
    constant
}

/// What to do about each trouble stands in the workshop's page.
#[test]
fn the_workshops_page_has_every_remedy() {
    let page = flat(&read("docs/PICKER.md"));
    for pick in Pick::NAMED {
        assert!(page.contains(pick.sentence()), "{pick}");
        assert!(page.contains(pick.remedy()), "{}", pick.remedy());
    }
    assert!(page.contains(Pick::REFUSED));
    for code in [Code::BadDisk, Code::BadName, Code::BadCall] {
        let (a, h) = code.numbers();
        let (_, of_it) = page.split_once(&format!("{a}, {h}")).expect("it is told");
        let of_it = of_it.split(" 255, ").next().unwrap_or_default();
        let remedy = Pick::Other(code).remedy();
        assert!(of_it.contains(remedy), "{remedy}");
    }
    assert!(page.contains(Pick::Unknown(12).remedy()));
}

#[test]
fn the_header_has_every_call() {
    let header = read("include/benzokamuri.h");
    for &call in Call::ALL {
        let number = format!(" {}", call.number());
        let defined = |line: &&str| {
            let line = line.split("/*").next().unwrap_or("").trim_end();
            let a_call = line.starts_with("#define BENZO_") && !line.contains("_LEN ");
            a_call && line.ends_with(&number)
        };
        assert_eq!(header.lines().filter(defined).count(), 1, "{call}");
    }
}
