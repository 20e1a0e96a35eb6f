//! The four buffers a call is lent, once their lengths are known to be right.

use crate::diskette::{Image, Record};
use crate::fcb::Fcb;
use crate::map::{Map, Note};
use crate::table::Cause;

/// The buffers to be read. The transfer buffer is never read to decide.
#[derive(Clone, Copy)]
pub struct Lent<'a> {
    /// The image.
    pub image: &'a Image,
    /// The map.
    pub map: &'a Map,
    /// The FCB.
    pub fcb: &'a Fcb,
}

/// The buffers to be changed.
pub struct LentMut<'a> {
    /// The image.
    pub image: &'a mut Image,
    /// The map.
    pub map: &'a mut Map,
    /// The FCB.
    pub fcb: &'a mut Fcb,
    /// The transfer buffer.
    pub buffer: &'a mut Record,
}

impl<'a> Lent<'a> {
    /// "A length is wrong" is asked of all four, used or not.
    pub fn new(
        image: &'a [u8],
        map: &'a [Note],
        fcb: &'a [u8],
        buffer: &'a [u8],
    ) -> Result<Self, Cause> {
        let lent = Self {
            image: image.try_into().map_err(|_| Cause::ImageLength)?,
            map: map.try_into().map_err(|_| Cause::MapLength)?,
            fcb: fcb.try_into().map_err(|_| Cause::FcbLength)?,
        };
        <&Record>::try_from(buffer).map_err(|_| Cause::BufferLength)?;
        Ok(lent)
    }
}

impl<'a> LentMut<'a> {
    /// The same for buffers to be changed.
    pub fn new(
        image: &'a mut [u8],
        map: &'a mut [Note],
        fcb: &'a mut [u8],
        buffer: &'a mut [u8],
    ) -> Result<Self, Cause> {
        Ok(Self {
            image: image.try_into().map_err(|_| Cause::ImageLength)?,
            map: map.try_into().map_err(|_| Cause::MapLength)?,
            fcb: fcb.try_into().map_err(|_| Cause::FcbLength)?,
            buffer: buffer.try_into().map_err(|_| Cause::BufferLength)?,
        })
    }

    /// To be read for a while.
    pub fn view(&self) -> Lent<'_> {
        Lent {
            image: self.image,
            map: self.map,
            fcb: self.fcb,
        }
    }

    /// To be lent on for a while.
    pub fn again(&mut self) -> LentMut<'_> {
        LentMut {
            image: self.image,
            map: self.map,
            fcb: self.fcb,
            buffer: self.buffer,
        }
    }
}
