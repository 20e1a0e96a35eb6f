//! Rough time of a call, in nanoseconds, on disks of three fullnesses.
//!
//! Every call checks the whole directory and map first; call 46 does little
//! else, so its column is about what that check costs.

use reference::{call, diskette, lift, Answer, Asked, Session};
use std::hint::black_box;
use std::time::{Duration, Instant};

/// Calls made between two looks at the clock.
const BATCH: u32 = 2_000;

/// How long each call is repeated; the quickest batch counts.
const SPAN: Duration = Duration::from_millis(400);

struct Disk {
    image: Vec<u8>,
    map: Vec<u16>,
    fcb: Vec<u8>,
    buffer: Vec<u8>,
    session: Session,
}

impl Disk {
    /// A disk with `entries` entries that share `blocks` blocks among them.
    fn new(entries: usize, blocks: usize) -> Self {
        let mut disk = Disk {
            image: vec![0xE5; diskette::IMAGE_BYTES],
            map: vec![0; diskette::BLOCKS],
            fcb: vec![0; 36],
            buffer: vec![0; 128],
            session: lift(Session::default()),
        };
        let mut next = 2..2 + blocks as u8;
        for entry in 0..entries {
            let place = diskette::place(entry as u8 / 32, entry as u8 / 4 % 8) + 32 * (entry % 4);
            let row = &mut disk.image[place..place + 32];
            row.fill(0);
            row[1..12].copy_from_slice(b"FILE    DAT");
            row[5] = b'A' + entry as u8 / 8;
            row[12] = entry as u8 % 8;
            let share = blocks / entries + usize::from(entry < blocks % entries);
            for slot in &mut row[16..16 + share] {
                *slot = next.next().expect("as many blocks as shares");
            }
            row[15] = 8 * share as u8;
        }
        disk.ask(13, 0);
        disk
    }

    fn ask(&mut self, number: u8, argument: u8) -> Answer {
        let asked = Asked {
            number,
            argument,
            ..Asked::default()
        };
        let answer = call(
            asked,
            &mut self.image,
            &mut self.map,
            &mut self.fcb,
            &mut self.buffer,
            self.session,
        );
        self.session = answer.session;
        answer
    }

    /// Opens the last file's first extent.
    fn open(&mut self, letter: u8) {
        self.fcb.fill(0);
        self.fcb[1..12].copy_from_slice(b"FILE    DAT");
        self.fcb[5] = letter;
        assert_eq!(self.ask(15, 0).h, 0);
    }

    /// The quickest nanoseconds a call, each after `ready`.
    fn time(&mut self, number: u8, ready: impl Fn(&mut Disk)) -> f64 {
        let mut best = f64::INFINITY;
        let until = Instant::now() + SPAN;
        while Instant::now() < until {
            let start = Instant::now();
            for _ in 0..BATCH {
                ready(self);
                black_box(self.ask(black_box(number), 255));
            }
            best = best.min(start.elapsed().as_nanos() as f64 / f64::from(BATCH));
        }
        best
    }
}

fn main() {
    println!("ns a call        empty  1 file, 8 extents  64 entries, 241 blocks");
    type Ready = fn(&mut Disk);
    let rows: [(&str, u8, bool, Ready); 13] = [
        ("13 log in", 13, false, |_| ()),
        ("32 user", 32, false, |_| ()),
        ("46 space", 46, false, |_| ()),
        ("98 free blocks", 98, false, |_| ()),
        ("15 open", 15, true, |disk| disk.fcb[12] = 0),
        ("16 close", 16, true, |_| ()),
        ("17 search first", 17, true, |_| ()),
        ("20 read", 20, true, |disk| disk.fcb[32] = 1),
        ("21 write", 21, true, |disk| disk.fcb[32] = 1),
        ("33 read random", 33, true, |_| ()),
        ("34 write random", 34, true, |_| ()),
        ("35 size", 35, true, |disk| disk.fcb[33..].fill(0)),
        ("36 record", 36, true, |disk| disk.fcb[33..].fill(0)),
    ];
    let mut disks = [Disk::new(0, 0), Disk::new(8, 100), Disk::new(64, 241)];
    for (name, number, needs_file, ready) in rows {
        print!("{name:16}");
        for (disk, width) in disks.iter_mut().zip([6, 19, 25]) {
            let empty = disk.image[diskette::place(0, 0)] == 0xE5;
            if needs_file && empty {
                print!(" {:>width$}", "-");
                continue;
            }
            if needs_file {
                disk.open(b'A');
            }
            assert_eq!(disk.ask(number, 255).h, 0);
            print!(" {:>width$.0}", disk.time(number, ready));
        }
        println!();
    }
}
