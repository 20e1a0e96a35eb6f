//! Images as files: read whole, and checked for their length.

use crate::dates::fill_blank_stamps;
use crate::layout::{place, Row, AREA, BLOCKS, BLOCK_RECORDS, ERASED};
use crate::looking::Looking;
use crate::saving::{self, Held, Ready};
use crate::trouble::Trouble;
use crate::Desk;
use benzokamuri::{Code, Disk, Image, NoDisk, Time, WrongLength, BUFFER_LEN, ENTRIES, IMAGE_LEN};
use std::ffi::OsStr;
use std::fmt;
use std::fs::File;
use std::io;
use std::path::{Path, PathBuf};

/// An image file, with what was read from it.
pub struct ImageFile {
    path: PathBuf,
    /// For calls to be made on.
    image: Box<Image>,
    /// How long the file is; less than an image where sectors at its end were
    /// never written.
    length: usize,
    /// How many stamps were never written, and are zeros in the image.
    blank_stamps: usize,
}

impl ImageFile {
    /// Reads an image file to look at it, as it stands there but for sectors
    /// that it lacks. What is neither an image nor the beginning of one is
    /// refused.
    pub fn read(path: &OsStr) -> Result<ImageFile, Trouble> {
        let path = Path::new(path);
        let file = saving::open(path).map_err(|error| Trouble::file(path.display(), &error))?;
        ImageFile::of(path, &file)
    }

    /// Reads an image file to change it. Nobody else can until what is held
    /// is let go.
    pub fn hold(path: &OsStr) -> Result<(ImageFile, Held), Trouble> {
        let path = Path::new(path);
        let held = Held::of(path).map_err(|error| Trouble::file(path.display(), &error))?;
        let image = ImageFile::of(path, held.file())?;
        Ok((image, held))
    }

    fn of(path: &Path, file: &File) -> Result<ImageFile, Trouble> {
        let path = path.to_path_buf();
        let bytes = read(file).map_err(|error| Trouble::file(path.display(), &error))?;
        match bytes.and_then(|bytes| Ok((bytes.len(), filled_up(bytes)?))) {
            Ok((length, image)) => Ok(ImageFile {
                path,
                image,
                length,
                blank_stamps: 0,
            }),
            Err(wrong) => Err(Trouble::Refused {
                doing: format!("{}: {wrong}", path.display()),
                code: Code::BadCall,
            }),
        }
    }

    /// The same with zeros for stamps that were never written, so that calls
    /// take it.
    pub fn with_blank_stamps_read(mut self) -> ImageFile {
        self.blank_stamps = fill_blank_stamps(&mut self.image);
        self
    }

    /// The name of the file as it was given.
    pub fn name(&self) -> String {
        self.path.display().to_string()
    }

    /// The image as it was read, for calls to be made on.
    pub fn image(&self) -> &Image {
        &self.image
    }

    /// A copy of it, for calls to change.
    pub fn copy(&self) -> Box<Image> {
        self.image.clone()
    }

    /// Bytes of the image that the file lacks at its end.
    pub fn lacks(&self) -> usize {
        IMAGE_LEN - self.length
    }

    /// Logs in, as a user and at a time, to look at the disk.
    pub fn log_in(&self, user: u8, time: Time) -> Result<Looking, Trouble> {
        let refused = |code| Trouble::Refused {
            doing: self.name(),
            code,
        };
        let mut disk = Disk::new(self.image.to_vec()).map_err(|no_disk| match no_disk {
            NoDisk::Refused(code) => refused(code),
            NoDisk::WrongLength(wrong) => Trouble::failed(format!("{}: {wrong}", self.name())),
        })?;
        disk.set_time(time);
        disk.set_user(user).map_err(refused)?;
        Ok(Looking::at(disk))
    }

    /// Saves a disk's image, and what goes with it, where there is such a
    /// thing. An image that is still the one that was read is left alone.
    pub fn save(
        &self,
        held: &Held,
        disk: &Disk,
        beside: Option<(&Path, &str)>,
        desk: &mut Desk,
    ) -> Result<(), Trouble> {
        let image = self.ready(held, disk)?;
        let beside = beside.map(|(path, text)| Ready::at(path, text.as_bytes(), true));
        // Whatever can fail has been done for both by now, but for the renames.
        let beside = beside.transpose()?;
        self.take_place(image, desk)?;
        beside.map_or(Ok(()), |ready| ready.take_place(desk))
    }

    /// A disk's image, ready to be saved, unless it is still the one that was
    /// read.
    pub fn ready(&self, held: &Held, disk: &Disk) -> Result<Option<Ready>, Trouble> {
        let changed = disk.image() != self.image();
        changed.then(|| held.ready(disk.image())).transpose()
    }

    /// Saves what is ready, and says what else becomes of the file by that.
    pub fn take_place(&self, ready: Option<Ready>, desk: &mut Desk) -> Result<(), Trouble> {
        let Some(ready) = ready else {
            return Ok(());
        };
        ready.take_place(desk)?;
        let (name, lacks, blank) = (self.name(), self.lacks(), self.blank_stamps);
        if lacks > 0 {
            desk.tell_done(format_args!(
                "{name}: saved at its full length, {lacks} bytes more than it had"
            ));
        }
        if blank > 0 {
            desk.tell_done(format_args!(
                "{name}: saved with zeros in {blank} stamps that were E5H, never written"
            ));
        }
        Ok(())
    }
}

/// Why a file's bytes are no image.
#[derive(Debug, PartialEq, Eq)]
struct NoImage {
    length: WrongLength,
    /// Whether whole sectors are missing, but entries count on them.
    torn: bool,
}

impl NoImage {
    fn with(found: usize) -> NoImage {
        NoImage {
            length: WrongLength { found },
            torn: false,
        }
    }
}

impl fmt::Display for NoImage {
    fn fmt(&self, f: &mut fmt::Formatter) -> fmt::Result {
        self.length.fmt(f)?;
        match self.torn {
            true => f.write_str(", and entries list records behind its end"),
            false => Ok(()),
        }
    }
}

/// A file's bytes, unless there are too many for an image.
fn read(file: &File) -> io::Result<Result<Vec<u8>, NoImage>> {
    let length = file.metadata()?.len();
    if length > IMAGE_LEN as u64 {
        let found = usize::try_from(length).unwrap_or(usize::MAX);
        return Ok(Err(NoImage::with(found)));
    }
    // Not all that a system shows as files have a length that can be trusted.
    saving::read_at_most(file, IMAGE_LEN + 1).map(Ok)
}

/// An image from a file's bytes. Tools that write a sector at a time leave
/// those out at the end that they never wrote; these are erased ones. Files
/// that end inside a sector, inside the directory, or before something that it
/// lists, are none of theirs.
fn filled_up(bytes: Vec<u8>) -> Result<Box<Image>, NoImage> {
    let found = bytes.len();
    let mut image = bytes;
    let short = found < IMAGE_LEN;
    if short && (!found.is_multiple_of(BUFFER_LEN) || found < directory_end()) {
        return Err(NoImage::with(found));
    }
    if short {
        image.resize(IMAGE_LEN, ERASED);
    }
    let image: Result<Box<Image>, _> = image.into_boxed_slice().try_into();
    let image = image.map_err(|_| NoImage::with(found))?;
    if short && listed_end(&image) > found {
        return Err(NoImage {
            torn: true,
            ..NoImage::with(found)
        });
    }
    Ok(image)
}

/// Past which byte a record of a block ends.
fn end(block: usize, record: usize) -> usize {
    place(block, record) + BUFFER_LEN
}

/// Past which byte the directory ends.
fn directory_end() -> usize {
    let records = 0..AREA * BLOCK_RECORDS;
    let ends = records.map(|d| end(d / BLOCK_RECORDS, d % BLOCK_RECORDS));
    ends.max().unwrap_or(0)
}

/// Past which byte the records end that entries count in the blocks they list.
fn listed_end(image: &Image) -> usize {
    let counted = (0..ENTRIES).flat_map(|entry| {
        let row = Row::of(image, entry);
        let count = if row.is_used() { row.count() } else { 0 };
        (0..usize::from(count)).filter_map(move |record| {
            let block = usize::from(row.slots()[record / BLOCK_RECORDS]);
            let listed = (AREA..BLOCKS).contains(&block);
            listed.then(|| end(block, record % BLOCK_RECORDS))
        })
    });
    counted.max().unwrap_or(0)
}

#[cfg(test)]
mod tests {
    use super::*;
    use crate::files;
    use benzokamuri::Name;

    fn disk_with(records: usize) -> Disk {
        let mut disk = Disk::erased();
        disk.lift();
        let name: Name = "FILE".parse().unwrap();
        files::write(&mut disk, name, &vec![1; 128 * records]).unwrap();
        disk
    }

    #[test]
    fn whole_images_are_taken_as_they_are() {
        let disk = disk_with(9);
        let image = filled_up(disk.image().to_vec()).unwrap();
        assert!(*image == *disk.image());
        for length in [IMAGE_LEN + 1, IMAGE_LEN + 128, 2 * IMAGE_LEN] {
            let mut long = disk.image().to_vec();
            long.resize(length, ERASED);
            assert_eq!(filled_up(long), Err(NoImage::with(length)));
        }
    }

    #[test]
    fn sectors_never_written_may_be_left_out() {
        for records in [0, 1, 8, 9, 100] {
            let disk = disk_with(records);
            let needed = listed_end(disk.image()).max(directory_end());
            for length in (0..=IMAGE_LEN).step_by(64) {
                let short = disk.image()[..length].to_vec();
                let fine = length >= needed && length.is_multiple_of(128);
                match filled_up(short) {
                    Ok(image) => assert!(fine && *image == *disk.image(), "{length}"),
                    Err(wrong) => assert!(!fine && wrong.length.found == length, "{length}"),
                }
            }
        }
        // The directory's last sector is physical sector 25 of track 2.
        assert_eq!(directory_end(), (26 * 2 + 25) * 128);
        assert_eq!(listed_end(disk_with(0).image()), 0);
    }
}
