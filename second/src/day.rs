//! Reading one day into lent lists, of a NEM12 file or of any other bytes that have its block.

use crate::check::read_file;
use crate::refusal::{Refusal, LENT_TOO_SHORT};
use crate::walk::Day;
use std::ops::Range;

/// The six lists that a reader lends. Each has a place for each interval.
pub struct LentLists<'a> {
    pub values: &'a mut [u64],
    pub flags: &'a mut [u8],
    pub methods: &'a mut [u8],
    pub reasons: &'a mut [u16],
    pub starts: &'a mut [usize],
    pub lengths: &'a mut [usize],
}

impl LentLists<'_> {
    /// How many places every one of them has.
    pub fn shortest(&self) -> usize {
        let lengths = [
            self.values.len(),
            self.flags.len(),
            self.methods.len(),
            self.reasons.len(),
            self.starts.len(),
            self.lengths.len(),
        ];
        lengths.into_iter().min().unwrap_or(0)
    }

    /// These places of each of them, to be lent on.
    pub fn stretch(&mut self, places: Range<usize>) -> LentLists<'_> {
        LentLists {
            values: &mut self.values[places.clone()],
            flags: &mut self.flags[places.clone()],
            methods: &mut self.methods[places.clone()],
            reasons: &mut self.reasons[places.clone()],
            starts: &mut self.starts[places.clone()],
            lengths: &mut self.lengths[places],
        }
    }

    fn fill(&mut self, day: &Day, before: usize) {
        for (index, (value, note)) in day.values.iter().zip(&day.notes).enumerate() {
            let length = note.description.len();
            self.values[index] = *value;
            self.flags[index] = note.quality.flag;
            self.methods[index] = note.quality.method;
            self.reasons[index] = note.reason;
            self.starts[index] = if length == 0 { 0 } else { before + note.description_start };
            self.lengths[index] = length;
        }
    }
}

#[derive(Clone, Copy, Debug, PartialEq, Eq)]
pub struct DayRead {
    pub date: u32,
    pub n: usize,
    pub update: u64,
    pub load: u64,
    /// The number of its channel's unit.
    pub unit: u8,
}

impl DayRead {
    pub fn of(day: &Day) -> DayRead {
        DayRead { date: day.date, n: day.values.len(), update: day.update, load: day.load, unit: day.unit.number() }
    }
}

pub fn read_day(file: &[u8], number: usize, lists: LentLists) -> Result<DayRead, Refusal> {
    let content = read_file(file)?;
    hand_out(content.day(number)?, 0, lists)
}

/// Hands out a day that was read. Its descriptions' places are moved on by so many bytes, which stand before those that
/// it was read from.
pub fn hand_out(day: &Day, before: usize, mut lists: LentLists) -> Result<DayRead, Refusal> {
    if lists.shortest() < day.values.len() {
        return Err(Refusal::without_place(LENT_TOO_SHORT));
    }
    lists.fill(day, before);
    Ok(DayRead::of(day))
}
