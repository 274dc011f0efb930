//! For tests: the calls of a run, each with what its file holds, what it answers and what it leaves in the lists.

use super::super::parts::number;
use super::super::requests::words_and_bytes;
use super::asked::{days_there, Asked};
use super::case;
use crate::check::read_file;
use crate::month::worked::OwnMonth;
use crate::month::DaysRead;
use crate::refusal::Refusal;
use std::ops::Range;

/// A day of an accepted file.
pub struct DayOfFile {
    pub n: usize,
    /// Where its block lies in the file.
    pub block: Range<usize>,
    pub channel: usize,
}

pub struct Called {
    pub file: Vec<u8>,
    pub asked: Asked,
    /// The days of the file, or the number of its refusal.
    pub days: Result<Vec<DayOfFile>, u64>,
    pub answer: Result<DaysRead, Refusal>,
    /// The lists behind the call.
    pub month: OwnMonth,
}

impl Called {
    fn of(case: &[u8]) -> Called {
        let (words, file) = words_and_bytes(case);
        let ["month", first, last, places, heads, _] = words[..] else { panic!("{words:?}") };
        let asked = Asked { first: number(first), last: number(last), places: number(places), heads: number(heads) };
        let mut month = OwnMonth::of(asked.places, asked.heads);
        let answer = month.read(file, asked.first, asked.last);
        Called { file: file.to_vec(), asked, days: days_of(file), answer, month }
    }

    pub fn is_accepted(&self) -> bool {
        self.answer.is_ok()
    }

    /// Whether the file is accepted, and the call is refused by this number.
    pub fn is_refused(&self, number: u64) -> bool {
        self.days.is_ok() && self.answer == Err(Refusal::without_place(number))
    }

    /// How many days the file has, if it is accepted.
    pub fn days_in_file(&self) -> Option<usize> {
        self.days.as_ref().map(Vec::len).ok()
    }

    /// The intervals of each day that is asked for and there.
    pub fn there(&self) -> Vec<usize> {
        let counts: Vec<usize> = self.days.iter().flatten().map(|day| day.n).collect();
        days_there(&counts, self.asked.first, self.asked.last).to_vec()
    }

    /// The days that were read, and none of a refused call.
    pub fn read(&self) -> &[DayOfFile] {
        match (&self.days, self.answer) {
            (Ok(days), Ok(DaysRead { days: count @ 1.., .. })) => &days[self.asked.first..][..count],
            _ => &[],
        }
    }

    /// The places of the long lists that the day with this place among those read has filled.
    pub fn stretch(&self, place: usize) -> Range<usize> {
        let start = self.month.counts[..place].iter().sum();
        start..start + self.month.counts[place]
    }
}

fn days_of(file: &[u8]) -> Result<Vec<DayOfFile>, u64> {
    let content = read_file(file).map_err(|refusal| refusal.number)?;
    let days = content.days.iter();
    Ok(days.map(|day| DayOfFile { n: day.values.len(), block: day.start..day.end, channel: day.channel }).collect())
}

/// The calls of the first cases of a seed.
pub fn calls_of_run(seed: u64, cases: u64) -> impl Iterator<Item = Called> {
    (0..cases).map(move |number| Called::of(&case(seed, number)))
}
