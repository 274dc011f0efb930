//! Reading several days of a NEM12 file in one call: each into a stretch of its own of the six long lists, one behind the
//! other, and into its own place of lists that have one place a day. A refused call changes nothing.

#[cfg(test)]
pub mod worked;

use crate::check::read_file;
use crate::day::{hand_out, DayRead, LentLists};
use crate::refusal::{Refusal, LENT_TOO_SHORT};
use crate::walk::{Day, MeterFile};

/// The five lists that have a place for each day.
pub struct LentHeads<'a> {
    pub dates: &'a mut [u32],
    /// How many intervals each day has.
    pub counts: &'a mut [usize],
    pub updates: &'a mut [u64],
    pub loads: &'a mut [u64],
    pub units: &'a mut [u8],
}

impl LentHeads<'_> {
    fn shortest(&self) -> usize {
        let lengths = [self.dates.len(), self.counts.len(), self.updates.len(), self.loads.len(), self.units.len()];
        lengths.into_iter().min().unwrap_or(0)
    }

    fn set(&mut self, place: usize, day: DayRead) {
        self.dates[place] = day.date;
        self.counts[place] = day.n;
        self.updates[place] = day.update;
        self.loads[place] = day.load;
        self.units[place] = day.unit;
    }
}

#[derive(Clone, Copy, Debug, PartialEq, Eq)]
pub struct DaysRead {
    pub days: usize,
    /// Of all these days together.
    pub intervals: usize,
}

/// Reads the days from the first number to the last, both included. If the first is above the last, these are none.
pub fn read_days(
    file: &[u8],
    first: usize,
    last: usize,
    mut lists: LentLists,
    mut heads: LentHeads,
) -> Result<DaysRead, Refusal> {
    let content = read_file(file)?;
    // Nothing is written before every day is known to be there and to have its places.
    let days = days_with_places(&content, first, last, lists.shortest(), heads.shortest())?;
    let mut filled = 0;
    for (place, day) in days.iter().enumerate() {
        let end = filled + day.values.len();
        heads.set(place, hand_out(day, 0, lists.stretch(filled..end))?);
        filled = end;
    }
    Ok(DaysRead { days: days.len(), intervals: filled })
}

/// The days of these numbers, for which so many places of the long lists and so many of the others are lent. Else the
/// refusal of the lowest day that isn't there, or that the ones before it have left too few places. There are fewer days
/// than numbers may name, so the first that isn't there ends the search.
fn days_with_places<'a, 'b>(
    content: &'b MeterFile<'a>,
    first: usize,
    last: usize,
    places: usize,
    heads: usize,
) -> Result<Vec<&'b Day<'a>>, Refusal> {
    let mut days = Vec::new();
    let mut places_left = places;
    for number in first..=last {
        let day = content.day(number)?;
        let n = day.values.len();
        if places_left < n || days.len() == heads {
            return Err(Refusal::without_place(LENT_TOO_SHORT));
        }
        places_left -= n;
        days.push(day);
    }
    Ok(days)
}
