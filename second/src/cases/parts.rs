//! For tests: cases taken apart.

use super::requests::words_and_bytes;
use super::words::NoteWords;
use crate::block::check_block;
use crate::check::check;
use crate::fields::intervals_in_day;
use crate::probe;
use crate::records::Record;
use crate::refusal::Refusal;
use crate::write::{compose, DayHead, DayLists};

pub fn answer(case: &[u8]) -> Vec<u8> {
    let mut answer = Vec::new();
    probe::run(case, &mut answer).expect("an answer");
    answer
}

pub fn number<T: std::str::FromStr>(word: &str) -> T {
    word.parse().unwrap_or_else(|_| panic!("{word} is no such number"))
}

pub fn numbers<T: std::str::FromStr>(line: Option<&[u8]>) -> Vec<T> {
    let line = std::str::from_utf8(line.expect("a line")).expect("numbers");
    line.split_terminator(' ').map(number).collect()
}

// --- Files and blocks ---

/// The file or block of a case, and its refusal if it has one.
pub struct Checked<'a> {
    pub bytes: &'a [u8],
    /// The interval length and the unit's number behind which a block stands. A file has none.
    pub block: Option<(u32, u8)>,
    pub refusal: Option<Refusal>,
}

impl<'a> Checked<'a> {
    /// A day to be written has neither a file nor a block.
    pub fn of_case(case: &'a [u8]) -> Option<Checked<'a>> {
        let (words, bytes) = words_and_bytes(case);
        match words[..] {
            ["write", ..] => None,
            ["block", minutes, unit, _] => {
                let (minutes, unit) = (number(minutes), number(unit));
                let refusal = check_block(bytes, minutes, unit).err();
                Some(Checked { bytes, block: Some((minutes, unit)), refusal })
            }
            _ => Some(Checked { bytes, block: None, refusal: check(bytes).err() }),
        }
    }
}

/// The records from the first on, up to bytes that aren't one.
pub fn records_of(bytes: &[u8]) -> Vec<Record<'_>> {
    let mut records: Vec<Record> = Vec::new();
    let mut start = 0;
    while let Ok(record) = Record::read(bytes, start, records.len()) {
        start = record.end;
        records.push(record);
    }
    records
}

/// The note whose quality field has this number.
pub fn note_of(record: &Record, quality: usize) -> NoteWords {
    let [quality, reason, description] = [0, 1, 2].map(|further| record.bytes(quality + further).to_vec());
    NoteWords { quality, reason, description }
}

// --- Days to be written ---

#[derive(Clone)]
pub struct DayToWrite {
    pub head: DayHead,
    pub room: usize,
    pub values: Vec<u64>,
    pub flags: Vec<u8>,
    pub methods: Vec<u8>,
    pub reasons: Vec<u16>,
    pub starts: Vec<usize>,
    pub lengths: Vec<usize>,
    pub text: Vec<u8>,
}

/// What a fault of an interval is called, whether an interval has it, and how it is mended.
pub type Fault = (&'static str, fn(&DayToWrite, usize) -> bool, fn(&mut DayToWrite, usize));

impl DayToWrite {
    pub fn of_case(case: &[u8]) -> Option<DayToWrite> {
        let (words, bytes) = words_and_bytes(case);
        let ["write", date, length, update, load, unit, room, ..] = words[..] else { return None };
        let mut lines = bytes.splitn(7, |byte| *byte == b'\n');
        Some(DayToWrite {
            head: DayHead {
                date: number(date),
                length: number(length),
                update: number(update),
                load: number(load),
                unit: number(unit),
            },
            room: number(room),
            values: numbers(lines.next()),
            flags: numbers(lines.next()),
            methods: numbers(lines.next()),
            reasons: numbers(lines.next()),
            starts: numbers(lines.next()),
            lengths: numbers(lines.next()),
            text: lines.next().expect("a text").to_vec(),
        })
    }

    /// Its block, or the number of its refusal, room being plenty.
    pub fn written(&self) -> Result<Vec<u8>, u64> {
        let lists = DayLists {
            values: &self.values,
            flags: &self.flags,
            methods: &self.methods,
            reasons: &self.reasons,
            starts: &self.starts,
            lengths: &self.lengths,
            text: &self.text,
        };
        compose(self.head, lists).map(|(block, _)| block).map_err(|refusal| refusal.number)
    }

    /// Whether it is unfit by intervals with this fault alone.
    pub fn is_unfit_by(&self, (_, has_fault, mend): Fault) -> bool {
        let Some(n) = intervals_in_day(u64::from(self.head.length)) else { return false };
        let is_unfit = self.written() == Err(16);
        let mut mended = self.clone();
        for index in (0..n).filter(|index| is_unfit && has_fault(self, *index)) {
            mend(&mut mended, index);
        }
        is_unfit && mended.written().is_ok()
    }
}
