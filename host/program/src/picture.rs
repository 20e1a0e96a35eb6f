//! The map as a picture: what each of the 243 blocks is to whom, as text for a
//! terminal and as SVG.

use crate::files::{self, File};
use crate::layout::{Note, AREA, BLOCKS};
use crate::looking::Looking;
use benzokamuri::Code;
use std::fmt::Write;

/// Blocks in a row; 243 is 9 rows of 27.
const COLUMNS: usize = 27;

/// A sign for each file that a directory of 64 entries can hold.
const SIGNS: &[u8; 64] = b"ABCDEFGHIJKLMNOPQRSTUVWXYZabcdefghijklmnopqrstuvwxyz0123456789@&";

/// What a block is.
#[derive(Clone, Copy, Debug, PartialEq, Eq)]
enum Cell {
    Free,
    Directory,
    /// Listed by an entry of the file with this number.
    Recorded(usize),
    /// Held for an entry of the file with this number.
    Pending(usize),
}

/// The picture of a disk.
pub struct Picture {
    cells: [Cell; BLOCKS],
    files: Vec<File>,
}

impl Picture {
    /// What a disk looks like. The calls that find it out end a search, so a
    /// disk that is worked on afterwards has to be copied for this.
    pub fn of(mut disk: Looking) -> Result<Picture, Code> {
        let files = files::all(&mut disk)?;
        let mut cells = [Cell::Free; BLOCKS];
        cells[..AREA].fill(Cell::Directory);
        for (number, file) in files.iter().enumerate() {
            for block in file.blocks() {
                cells[usize::from(block)] = Cell::Recorded(number);
            }
        }
        let owner = |entry: usize| {
            let owns = |file: &File| file.entries.iter().any(|found| found.number == entry);
            files.iter().position(owns)
        };
        for (cell, &note) in cells.iter_mut().zip(disk.map()) {
            if let Note::Pending { entry, .. } = Note::read(note) {
                *cell = Cell::Pending(owner(entry).ok_or(Code::BadDisk)?);
            }
        }
        Ok(Picture { cells, files })
    }

    /// How many blocks are so.
    fn count(&self, cell: Cell) -> usize {
        self.cells.iter().filter(|&&other| other == cell).count()
    }

    // -- For a terminal -----------------------------------------------------

    /// The picture as text, in colours or without.
    pub fn text(&self, colours: bool) -> String {
        let mut text = String::new();
        for (row, cells) in self.cells.chunks(COLUMNS).enumerate() {
            let _ = write!(text, "{:>5} ", row * COLUMNS);
            for &cell in cells {
                text.push_str(&drawn(cell, colours));
            }
            text.push('\n');
        }
        text.push('\n');
        for (number, file) in self.files.iter().enumerate() {
            let cells = [Cell::Recorded(number), Cell::Pending(number)];
            let [recorded, pending] = cells.map(|cell| self.count(cell));
            let sign = drawn(Cell::Recorded(number), colours);
            let File { user, name, .. } = file;
            let _ = write!(text, "   {sign} {name}, user {user}: {}", blocks(recorded));
            if pending > 0 {
                let sign = drawn(Cell::Pending(number), colours);
                let _ = write!(text, ", and {sign} {pending} pending");
            }
            text.push('\n');
        }
        for (cell, what) in [(Cell::Directory, "directory"), (Cell::Free, "free")] {
            let count = blocks(self.count(cell));
            let _ = writeln!(text, "   {} {what}: {count}", drawn(cell, colours));
        }
        text
    }

    // -- As SVG -------------------------------------------------------------

    /// The picture as an SVG file.
    pub fn svg(&self, title: &str) -> String {
        const SIDE: usize = 28;
        const LEFT: usize = 48;
        const TOP: usize = 44;
        const LINE: usize = 22;
        let rows = BLOCKS.div_ceil(COLUMNS);
        let legend_top = TOP + rows * SIDE + 24;
        let width = LEFT + COLUMNS * SIDE + 16;
        let height = legend_top + (self.files.len() + 2) * LINE + 8;
        let mut svg = format!(
            "<svg xmlns=\"http://www.w3.org/2000/svg\" width=\"{width}\" height=\"{height}\" viewBox=\"0 0 {width} {height}\" font-family=\"monospace\" font-size=\"14\">\n"
        );
        svg.push_str("<rect width=\"100%\" height=\"100%\" fill=\"#ffffff\"/>\n");
        self.hatchings(&mut svg);
        let _ = writeln!(
            svg,
            "<text x=\"{LEFT}\" y=\"26\" font-size=\"16\">{}</text>",
            escaped(title)
        );
        for (block, &cell) in self.cells.iter().enumerate() {
            let (x, y) = (LEFT + block % COLUMNS * SIDE, TOP + block / COLUMNS * SIDE);
            if block % COLUMNS == 0 {
                let _ = writeln!(
                    svg,
                    "<text x=\"{}\" y=\"{}\" text-anchor=\"end\" fill=\"#666666\">{block}</text>",
                    LEFT - 8,
                    y + 19
                );
            }
            let what = escaped(&format!("block {block}: {}", self.said(cell)));
            self.square(&mut svg, cell, (x, y), SIDE - 2, &what);
        }
        let mut legend: Vec<Cell> = Vec::new();
        for number in 0..self.files.len() {
            legend.push(Cell::Recorded(number));
        }
        legend.extend([Cell::Directory, Cell::Free]);
        for (line, &cell) in legend.iter().enumerate() {
            let y = legend_top + line * LINE;
            let what = escaped(&self.said(cell));
            self.square(&mut svg, cell, (LEFT, y), LINE - 4, &what);
            let mut text = format!("{}: {}", self.said(cell), blocks(self.count(cell)));
            if let Cell::Recorded(number) = cell {
                let pending = self.count(Cell::Pending(number));
                if pending > 0 {
                    let _ = write!(text, ", and {pending} pending (hatched)");
                }
            }
            let _ = writeln!(
                svg,
                "<text x=\"{}\" y=\"{}\">{}</text>",
                LEFT + LINE + 6,
                y + 14,
                escaped(&text)
            );
        }
        svg.push_str("</svg>\n");
        svg
    }

    /// A hatching in the colour of each file that blocks are pending for.
    fn hatchings(&self, svg: &mut String) {
        svg.push_str("<defs>\n");
        for number in 0..self.files.len() {
            if self.count(Cell::Pending(number)) > 0 {
                let _ = writeln!(
                    svg,
                    "<pattern id=\"pending{number}\" width=\"6\" height=\"6\" patternUnits=\"userSpaceOnUse\" patternTransform=\"rotate(45)\"><rect width=\"3\" height=\"6\" fill=\"{}\"/></pattern>",
                    hue(number)
                );
            }
        }
        svg.push_str("</defs>\n");
    }

    /// One block.
    fn square(
        &self,
        svg: &mut String,
        cell: Cell,
        (x, y): (usize, usize),
        side: usize,
        what: &str,
    ) {
        let (fill, sign) = match cell {
            Cell::Free => ("#ffffff".into(), None),
            Cell::Directory => ("#555555".into(), None),
            Cell::Recorded(number) => (hue(number), Some(sign(number))),
            Cell::Pending(number) => (format!("url(#pending{number})"), None),
        };
        let _ = write!(
            svg,
            "<g><title>{what}</title><rect x=\"{x}\" y=\"{y}\" width=\"{side}\" height=\"{side}\" fill=\"{fill}\" stroke=\"#999999\"/>"
        );
        if let Some(sign) = sign {
            let _ = write!(
                svg,
                "<text x=\"{}\" y=\"{}\" text-anchor=\"middle\">{}</text>",
                x + side / 2,
                y + side / 2 + 5,
                escaped(&sign.to_string())
            );
        }
        svg.push_str("</g>\n");
    }

    /// What a block is, in words.
    fn said(&self, cell: Cell) -> String {
        let of = |number: usize| {
            let File { user, name, .. } = &self.files[number];
            format!("{name}, user {user}")
        };
        match cell {
            Cell::Free => "free".into(),
            Cell::Directory => "directory".into(),
            Cell::Recorded(number) => of(number),
            Cell::Pending(number) => format!("pending for {}", of(number)),
        }
    }
}

/// A block as two characters, which say enough without colours.
fn drawn(cell: Cell, colours: bool) -> String {
    let (plain, look) = match cell {
        Cell::Free => (" .".into(), "2".into()),
        Cell::Directory => (" #".into(), "7".into()),
        Cell::Recorded(number) => (
            format!(" {}", sign(number)),
            format!("30;48;5;{}", colour(number)),
        ),
        Cell::Pending(number) => (
            format!("~{}", sign(number)),
            format!("1;38;5;{}", colour(number)),
        ),
    };
    match colours {
        true => format!("\x1B[{look}m{plain}\x1B[0m"),
        false => plain,
    }
}

fn sign(number: usize) -> char {
    char::from(SIGNS[number % SIGNS.len()])
}

/// A colour of a terminal's 256, light enough to be written on.
fn colour(number: usize) -> u8 {
    const COLOURS: [u8; 14] = [
        114, 179, 75, 211, 150, 215, 111, 176, 80, 222, 147, 203, 121, 186,
    ];
    COLOURS[number % COLOURS.len()]
}

/// A colour of SVG. Steps of the golden angle keep neighbours apart.
fn hue(number: usize) -> String {
    format!("hsl({}, 65%, 72%)", 137 * number % 360)
}

fn blocks(count: usize) -> String {
    match count {
        1 => "1 block".into(),
        _ => format!("{count} blocks"),
    }
}

/// A text with what SVG would take for its own written out.
fn escaped(text: &str) -> String {
    let mut escaped = String::new();
    for character in text.chars() {
        match character {
            '&' => escaped.push_str("&amp;"),
            '<' => escaped.push_str("&lt;"),
            '>' => escaped.push_str("&gt;"),
            '"' => escaped.push_str("&quot;"),
            _ if character.is_control() => escaped.push('\u{FFFD}'),
            _ => escaped.push(character),
        }
    }
    escaped
}

#[cfg(test)]
mod tests {
    use super::*;
    use benzokamuri::{Disk, Fcb};

    /// Two files, one of them with a pending block.
    fn disk() -> Looking {
        let mut disk = Disk::erased();
        disk.lift();
        files::write(&mut disk, "A&B.TXT".parse().unwrap(), &[1; 3_000]).unwrap();
        disk.set_user(4).unwrap();
        let mut fcb = Fcb::named("WAITS".parse().unwrap());
        disk.make(&mut fcb).unwrap();
        disk.write_next(&mut fcb).unwrap();
        Looking::at(disk)
    }

    #[test]
    fn the_picture_as_text() {
        let picture = Picture::of(disk()).unwrap();
        let free = " .".repeat(27);
        let mut expected = format!("    0  # # A A A~B{}\n", " .".repeat(21));
        for row in 1..9 {
            expected.push_str(&format!("{:>5} {free}\n", 27 * row));
        }
        expected.push_str(
            "\n    A A&B.TXT, user 0: 3 blocks\n    B WAITS, user 4: 0 blocks, and ~B 1 pending\n    # directory: 2 blocks\n    . free: 237 blocks\n",
        );
        assert_eq!(picture.text(false), expected);
        let coloured = picture.text(true);
        assert!(coloured.contains("\x1B[30;48;5;114m A\x1B[0m"));
        assert!(coloured.contains("\x1B[1;38;5;179m~B\x1B[0m"));
    }

    #[test]
    fn the_picture_as_svg() {
        let svg = Picture::of(disk()).unwrap().svg("<disk>");
        assert!(svg.starts_with("<svg ") && svg.ends_with("</svg>\n"));
        assert_eq!(svg.matches("<title>block ").count(), 243);
        assert_eq!(svg.matches("<pattern ").count(), 1);
        assert!(svg.contains(">&lt;disk&gt;<"));
        assert!(svg.contains("<title>block 4: A&amp;B.TXT, user 0</title>"));
        assert!(svg.contains("<title>block 5: pending for WAITS, user 4</title>"));
        let opened = svg.matches('<').count() - svg.matches("</").count();
        let closed = svg.matches("/>").count() + svg.matches("</").count();
        assert_eq!(opened, closed);
    }

    #[test]
    fn every_file_has_a_sign_of_its_own() {
        let mut signs = SIGNS.to_vec();
        signs.sort_unstable();
        signs.dedup();
        assert_eq!(signs.len(), 64);
        assert!(signs.iter().all(|sign| !b".#~ ".contains(sign)));
    }
}
