//! Days for stores. Most are small, so that a store of some hundred bytes holds a few.

use super::super::chance::Chance;
use super::super::files::Channel;
use super::super::words::{self, NoteWords};
use super::super::writes::{self, Draft};

// --- Days ---

/// A channel for a day of few bytes, mostly of half hours.
pub fn some_channel(chance: &mut Chance) -> Channel {
    let minutes = match chance.below(40) {
        0 => 5,
        1..=4 => 15,
        _ => 30,
    };
    Channel::of(minutes, words::unit(chance))
}

/// A fit day of this date.
pub fn day(chance: &mut Chance, date: u32) -> Draft {
    let channel = some_channel(chance);
    day_in(chance, channel, date)
}

pub fn day_in(chance: &mut Chance, channel: Channel, date: u32) -> Draft {
    let notes = some_notes(chance);
    let mut draft = writes::draft_with(chance, channel, &notes);
    draft.head.date = date;
    draft.values = values(chance, channel);
    draft
}

/// A day with as few bytes as one of half hours can have, but for its unit and its time.
pub fn shortest_day(chance: &mut Chance, date: u32) -> Draft {
    let channel = Channel::half_hours(chance);
    let actual = NoteWords::of(["A", "", ""]);
    let mut draft = writes::draft_with(chance, channel, &[actual]);
    draft.head.date = date;
    draft.head.load = 0;
    draft.values = (0..channel.n).map(|_| chance.below(10) as u64 * 1_000_000).collect();
    draft
}

/// A day whose block is longer than this one's, with the same head.
pub fn longer_day(chance: &mut Chance, than: &Draft) -> Draft {
    let mut longer = than.clone();
    let place = chance.below(longer.values.len());
    let more = chance.between(1, 6) as u32;
    // The whole of a value fits into any unit.
    for value in &mut longer.values[place..] {
        *value = (*value / 1_000_000 % 10 + 10u64.pow(more)) * 1_000_000;
    }
    longer
}

/// One note, or several for the stretches of the day.
fn some_notes(chance: &mut Chance) -> Vec<NoteWords> {
    let mut notes = vec![words::note(chance)];
    for _ in 0..chance.pick(&[0, 0, 1, 2]) {
        let last = notes[notes.len() - 1].clone();
        notes.push(words::other_note(chance, &last));
    }
    notes
}

/// Short values that can be written in the channel's unit.
fn values(chance: &mut Chance, channel: Channel) -> Vec<u64> {
    let step = channel.unit.smallest_step();
    let (n, style) = (channel.n, chance.below(6));
    let one = chance.below(10) as u64 * 1_000_000;
    let value = |chance: &mut Chance| match style {
        0 => one,
        1..=3 => chance.below(10) as u64 * 1_000_000,
        4 => chance.below(100) as u64 * step,
        _ => chance.below(10_000) as u64 * step,
    };
    (0..n).map(|_| value(chance)).collect()
}

// --- Update times ---

/// How an update time is to stand to that of the day that is held.
#[derive(Clone, Copy, Debug, PartialEq, Eq)]
pub enum Than {
    Later,
    Equal,
    Earlier,
}

/// An update time that stands so to this one, often next to it. If there is none, it is this one.
pub fn update_than(chance: &mut Chance, than: Than, held: u64) -> u64 {
    for _ in 0..40 {
        let time = match chance.below(3) {
            0 => held + 1,
            1 => held - 1,
            _ => words::time(chance),
        };
        let stands_so = match than {
            Than::Later => time > held,
            Than::Equal => break,
            Than::Earlier => time < held,
        };
        if stands_so && crate::fields::is_time(time.to_string().as_bytes()) {
            return time;
        }
    }
    held
}
