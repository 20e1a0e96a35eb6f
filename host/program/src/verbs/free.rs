//! `free`: what is left.

use super::{image, logged_in};
use crate::files;
use crate::layout::{Row, AREA, BLOCKS, BLOCK_RECORDS};
use crate::trouble::{Doing, Trouble};
use crate::words::{Shape, Words};
use crate::{Desk, Verb};
use benzokamuri::{BUFFER_LEN, ENTRIES};
use std::io::Write;

pub const VERB: Verb = Verb {
    name: "free",
    purpose: "Say how many records, blocks, bytes and entries are free.",
    usage: "IMAGE",
    help: "\
A record is 128 bytes, a block 1,024 bytes, and an entry stands for up to 16,384
bytes of a file. Labels and date entries are no entries for files, and are not
counted. -u and --time make no difference here.",
    shape: Shape {
        flags: &[],
        valued: &[],
    },
    run,
};

/// Records of the blocks behind the directory.
const ALL_RECORDS: usize = BLOCK_RECORDS * (BLOCKS - AREA);

fn run(mut words: Words, desk: &mut Desk) -> Result<(), Trouble> {
    let image = image(&mut words)?;
    words.end()?;
    let mut disk = logged_in(&image, &words, desk)?;
    let records = disk.space().doing(image.name())?;
    let files = files::all(&mut disk).doing(image.name())?;
    let used: usize = files.iter().map(|file| file.entries.len()).sum();
    // Labels and date entries are neither, and no call tells of them.
    let empty = |&entry: &usize| Row::of(disk.image(), entry).is_empty();
    let empty = (0..ENTRIES).filter(empty).count();
    let records = records as usize;
    for (what, free, all) in [
        ("records", records, ALL_RECORDS),
        (
            "blocks",
            records / BLOCK_RECORDS,
            ALL_RECORDS / BLOCK_RECORDS,
        ),
        ("bytes", records * BUFFER_LEN, ALL_RECORDS * BUFFER_LEN),
        ("entries", empty, empty + used),
    ] {
        writeln!(desk.out, "{what:<8}{free:>6} of {all}")?;
    }
    Ok(())
}
