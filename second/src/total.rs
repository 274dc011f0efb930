//! Totalling one channel.

use crate::check::read_file;
use crate::refusal::{Refusal, NO_SUCH_NUMBER};

/// The exact total, held wider than any total is: that it is below 2^64 is not taken for granted here.
pub fn total(file: &[u8], channel: usize) -> Result<u128, Refusal> {
    let content = read_file(file)?;
    let channel = content.channels.get(channel).ok_or(Refusal::without_place(NO_SUCH_NUMBER))?;
    Ok(channel.total)
}
