//! The whole file: its length, its records, and nothing behind its 900.

use crate::refusal::{Refusal, BYTES_AFTER_END, FILE_TOO_LONG};
use crate::walk::{MeterFile, Walk};

pub const LONGEST_FILE: usize = 1_048_576;

/// What `check` answers of an accepted file.
#[derive(Clone, Copy, Debug, PartialEq, Eq)]
pub struct Summary {
    pub version: u64,
    pub channels: usize,
    pub days: usize,
}

pub fn check(file: &[u8]) -> Result<Summary, Refusal> {
    let content = read_file(file)?;
    Ok(Summary { version: content.version, channels: content.channels.len(), days: content.days.len() })
}

/// Reads a whole file, or gives its refusal.
pub fn read_file(file: &[u8]) -> Result<MeterFile<'_>, Refusal> {
    if file.len() > LONGEST_FILE {
        return Err(Refusal::without_place(FILE_TOO_LONG));
    }
    let mut walk = Walk::at_start_of_file();
    while !walk.is_at_end_of_file() {
        walk.step(file)?;
    }
    if walk.start < file.len() {
        return Err(Refusal { number: BYTES_AFTER_END, place: walk.start, record: walk.records, field: 0 });
    }
    Ok(walk.content)
}
