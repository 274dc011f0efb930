//! A note: the quality, reason and description that a record gives to intervals or to a read.

use crate::fields::Quality;

/// Stands as the reason where none is given.
pub const NO_REASON: u16 = 65535;

#[derive(Clone, Copy, Debug)]
pub struct Note<'a> {
    pub quality: Quality,
    /// 0 to 999, or NO_REASON.
    pub reason: u16,
    pub description: &'a [u8],
    /// Where the description starts, in the file or in a lent text.
    pub description_start: usize,
}

impl Note<'_> {
    /// S and F need a reason; reason 0 needs a description; V has neither. They hold for N as for A.
    pub fn keeps_rules_across(&self) -> bool {
        let has_reason = self.reason != NO_REASON;
        let has_description = !self.description.is_empty();
        match self.quality.flag {
            b'V' if has_reason || has_description => false,
            b'S' | b'F' if !has_reason => false,
            _ => self.reason != 0 || has_description,
        }
    }

    /// Whether two notes say the same. A description counts by its bytes, wherever they stand.
    pub fn says_same_as(&self, other: &Note) -> bool {
        self.quality == other.quality && self.reason == other.reason && self.description == other.description
    }
}
