//! A disk that is only looked at.

use crate::Desk;
use benzokamuri::{Buffer, Code, Disk, Fcb, Found, Image, Map, Name, Picked, Session, Time};

/// A disk that stays write-protected for as long as it is looked at. It has the
/// calls that look, and none of the others. Files are found and read on no other
/// kind of disk, so a verb has to let go of this one, by [`Looking::lifted`] or
/// [`Looking::picked`], to change anything.
pub struct Looking(Disk);

impl Looking {
    /// A disk, protected whatever it was before.
    pub fn at(mut disk: Disk) -> Looking {
        disk.protect();
        Looking(disk)
    }

    /// A disk with a map and a session from earlier, protected whatever the
    /// session says.
    pub fn resumed(image: Box<Image>, map: Box<Map>, session: Session, time: Time) -> Looking {
        let mut disk = Disk::resumed(image, map, session);
        disk.set_time(time);
        Looking::at(disk)
    }

    /// The disk, to be changed. Nothing else in the program lifts what was
    /// looked at.
    pub fn lifted(mut self, desk: &mut Desk) -> Disk {
        desk.lift(&mut self.0);
        self.0
    }

    /// The disk after a run of the word picker, and what that came to. The
    /// picker lifts the protection for its log alone, and sets it again, so it
    /// stamps no access.
    pub fn picked(mut self, (year, day): (u16, u16), [book, log]: [Name; 2]) -> (Disk, Picked) {
        let picked = self.0.pick(year, day, book, log);
        (self.0, picked)
    }

    /// The image.
    pub fn image(&self) -> &Image {
        self.0.image()
    }

    /// The map.
    pub fn map(&self) -> &Map {
        self.0.map()
    }

    /// Call 13.
    pub fn log_in(&mut self) -> Result<(), Code> {
        self.0.log_in()
    }

    /// Call 15, which stamps nothing here.
    pub fn open(&mut self, fcb: &mut Fcb) -> Result<u8, Code> {
        self.0.open(fcb)
    }

    /// Call 17.
    pub fn search_first(&mut self, fcb: &mut Fcb) -> Result<Found, Code> {
        self.0.search_first(fcb)
    }

    /// Call 18.
    pub fn search_next(&mut self) -> Result<Found, Code> {
        self.0.search_next()
    }

    /// Call 32 that asks.
    pub fn user(&mut self) -> Result<u8, Code> {
        self.0.user()
    }

    /// Call 32 that sets.
    pub fn set_user(&mut self, user: u8) -> Result<(), Code> {
        self.0.set_user(user)
    }

    /// Call 33: the record.
    pub fn read_random(&mut self, fcb: &mut Fcb) -> Result<Buffer, Code> {
        self.0.read_random(fcb)?;
        Ok(self.0.buffer)
    }

    /// Call 35.
    pub fn size(&mut self, fcb: &mut Fcb) -> Result<u32, Code> {
        self.0.size(fcb)
    }

    /// Call 46.
    pub fn space(&mut self) -> Result<u32, Code> {
        self.0.space()
    }
}

#[cfg(test)]
mod tests {
    use super::*;

    /// As `map` has it from a state that is lifted, and `demo` from its disk.
    #[test]
    fn what_is_looked_at_is_protected_whatever_it_was() {
        for lifted in [0, 1, 2, 255] {
            let disk = Disk::erased();
            let session = Session {
                lifted,
                ..disk.session()
            };
            let parts = || (Box::new(*disk.image()), Box::new(*disk.map()));
            let (image, map) = parts();
            let kept = Looking::resumed(image, map, session, Time::ZERO);
            assert!(kept.0.is_protected(), "{lifted}");
            let (image, map) = parts();
            let given = Looking::at(Disk::resumed(image, map, session));
            assert!(given.0.is_protected(), "{lifted}");
        }
    }

    #[test]
    fn a_disk_to_be_changed_is_lifted_and_counted() {
        let (mut out, mut err) = (Vec::new(), Vec::new());
        let mut desk = Desk::new(&mut out, &mut err);
        let disk = Looking::at(Disk::erased()).lifted(&mut desk);
        assert!(!disk.is_protected());
        assert_eq!(desk.lifts, 1);
    }
}
