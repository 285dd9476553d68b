//! The reasons for which a call is refused.

use std::fmt;

#[derive(Clone, Copy, Debug, PartialEq, Eq)]
#[repr(u32)]
pub enum Refusal {
    /// A buffer, payload or image has the wrong length, or an image flag is above 1.
    Length = 1,
    /// N, S or the tag is out of range.
    Shape = 2,
    /// An address, the first of a stretch or its end is beyond the array.
    Address = 3,
    /// A slot, block, byte index, byte mask, tear length, stray target or stripe count is out of range.
    Place = 4,
    /// A write names owner 0.
    NoOwner = 5,
    /// The slot's state does not allow the event.
    SlotState = 6,
    /// The fault table is full.
    TableFull = 7,
    /// The block is lost.
    Lost = 8,
    /// A read meets another stored owner.
    OtherOwner = 9,
    /// A write would raise the greatest version.
    VersionLimit = 10,
}

impl Refusal {
    pub fn number(self) -> u32 {
        self as u32
    }
}

impl fmt::Display for Refusal {
    fn fmt(&self, f: &mut fmt::Formatter<'_>) -> fmt::Result {
        write!(f, "refused by {}", self.number())
    }
}

impl std::error::Error for Refusal {}
