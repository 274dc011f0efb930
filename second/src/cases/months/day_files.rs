//! Files to read several days of: ones whose days have different numbers of intervals, one behind the other, and ones of
//! many days.

use super::super::chance::Chance;
use super::super::files::{self, Channel, Draft, Row};
use super::super::words::{self, number_word};
use crate::write::record_bytes;

const END: &[u8] = b"900\r\n";

/// A file of several channels, each of another interval length than the one before it.
pub fn mixed(chance: &mut Chance) -> Draft {
    let mut rows = vec![files::header(chance, b"NEM12")];
    let mut minutes = 0;
    for _ in 0..chance.between(2, 5) {
        minutes = other_minutes(chance, minutes);
        let most_days = match minutes {
            5 => 2,
            15 => 4,
            _ => 8,
        };
        let days = chance.between(1, most_days);
        rows.extend(channel(chance, minutes, days));
    }
    rows.push(vec![b"900".to_vec()]);
    Draft { rows }
}

/// An interval length that isn't this one. Days of 5 minutes are large, and so they are fewer.
fn other_minutes(chance: &mut Chance, than: u32) -> u32 {
    loop {
        let minutes = chance.pick(&[5, 15, 15, 30, 30]);
        if minutes != than {
            return minutes;
        }
    }
}

/// A 200 of any unit with so many days, or fewer where the calendar ends.
fn channel(chance: &mut Chance, minutes: u32, days: usize) -> Vec<Row> {
    let channel = Channel::of(minutes, words::unit(chance));
    let mut rows = vec![files::channel_head(chance, channel)];
    for date in words::rising_dates(chance, days) {
        rows.extend(files::day_block(chance, channel, date));
    }
    rows
}

/// A file of so many bytes, or of a channel more, with many days of one interval length behind the other.
pub fn long(chance: &mut Chance, length: usize) -> Vec<u8> {
    let mut bytes = record_bytes(&files::header(chance, b"NEM12"));
    while bytes.len() + END.len() < length {
        let (minutes, days) = chance.pick(&[(5, 12), (15, 30), (30, 60), (30, 150)]);
        bytes.extend(bytes_of(&channel(chance, minutes, days)));
    }
    bytes.extend(END);
    bytes
}

/// A file with these channels, each an interval length and a number of days, of dates on end.
pub fn of_days(chance: &mut Chance, channels: &[(u32, usize)]) -> Vec<u8> {
    let mut bytes = record_bytes(&files::header(chance, b"NEM12"));
    for (minutes, days) in channels {
        bytes.extend(bytes_of(&short_days(chance, *minutes, *days)));
    }
    bytes.extend(END);
    bytes
}

/// A 200 with so many days on end, whose values have one digit each. They are fewer than those of ten years.
fn short_days(chance: &mut Chance, minutes: u32, days: usize) -> Vec<Row> {
    let channel = Channel::of(minutes, words::unit(chance));
    let mut rows = vec![files::channel_head(chance, channel)];
    let mut date = chance.between(1900, 2189) as u32 * 10_000 + 101;
    for _ in 0..days {
        let mut block = files::day_block(chance, channel, date);
        block[0][2..channel.n + 2].fill_with(|| number_word(chance.below(10)));
        rows.extend(block);
        date = words::next_date(date).expect("the calendar goes on");
    }
    rows
}

fn bytes_of(rows: &[Row]) -> Vec<u8> {
    rows.iter().flat_map(|row| record_bytes(row)).collect()
}
