//! Whole files and single day blocks that are accepted, and large ones at the limit of length.

use super::chance::Chance;
use super::words::{self, number_word, NoteWords, Word};
use crate::check::LONGEST_FILE;
use crate::fields::{intervals_in_day, Rule};
use crate::records::{kind_of, layout, Kind};
use crate::units::Unit;
use crate::write::record_bytes;

/// A record's fields.
pub type Row = Vec<Word>;

/// A file or a block as rows of fields, before it is bytes.
#[derive(Clone, Debug)]
pub struct Draft {
    pub rows: Vec<Row>,
}

impl Draft {
    pub fn bytes(&self) -> Vec<u8> {
        self.rows.iter().flat_map(|row| record_bytes(row)).collect()
    }

    /// The places of all rows of a kind.
    pub fn places_of(&self, kind: Kind) -> Vec<usize> {
        (0..self.rows.len()).filter(|place| kind_of(&self.rows[*place][0]) == Some(kind)).collect()
    }

    /// The date of the last day that begins before this place.
    pub fn date_before(&self, place: usize) -> Option<&Word> {
        self.rows[..place].iter().rev().find(|row| row[0] == b"300").map(|row| &row[1])
    }
}

/// The rules of a row's fields, as far as its indicator is one and it is long enough.
pub fn rules_of(row: &Row) -> Vec<Rule> {
    match kind_of(&row[0]) {
        Some(kind) => layout(kind, row.len().saturating_sub(7)),
        None => vec![Rule::Indicator],
    }
}

/// A row of a kind, each field of which keeps its rule. Its values have few enough decimals for any unit.
pub fn row(chance: &mut Chance, kind: Kind, n: usize) -> Row {
    let mut row: Row = layout(kind, n).into_iter().map(|rule| words::keeping(chance, rule)).collect();
    row[0] = indicator(kind).as_bytes().to_vec();
    row
}

fn indicator(kind: Kind) -> &'static str {
    match kind {
        Kind::R100 => "100",
        Kind::R200 => "200",
        Kind::R300 => "300",
        Kind::R400 => "400",
        Kind::R500 => "500",
        Kind::R250 => "250",
        Kind::R550 => "550",
        Kind::R900 => "900",
    }
}

pub fn accepted(chance: &mut Chance) -> Draft {
    if chance.one_in(3) {
        nem13(chance)
    } else {
        nem12(chance)
    }
}

/// Makes an accepted draft, of a file or of a block.
pub type Make<'a> = &'a dyn Fn(&mut Chance) -> Draft;

/// An accepted draft that has what is asked for.
pub fn made_with(chance: &mut Chance, make: Make, has: impl Fn(&Draft) -> bool) -> Draft {
    loop {
        let draft = make(chance);
        if has(&draft) {
            return draft;
        }
    }
}

// --- NEM12 ---

pub fn nem12(chance: &mut Chance) -> Draft {
    let mut rows = vec![header(chance, b"NEM12")];
    let channels = if chance.one_in(12) { chance.between(4, 9) } else { chance.between(1, 2) };
    for _ in 0..channels {
        rows.extend(channel(chance));
    }
    rows.push(vec![b"900".to_vec()]);
    Draft { rows }
}

pub fn header(chance: &mut Chance, version: &[u8]) -> Row {
    let mut header = row(chance, Kind::R100, 0);
    header[1] = version.to_vec();
    header
}

/// What a 200 says of the days under it.
#[derive(Clone, Copy, Debug)]
pub struct Channel {
    /// Interval length.
    pub minutes: u32,
    /// Intervals in a day.
    pub n: usize,
    pub unit: Unit,
}

impl Channel {
    pub fn of(minutes: u32, unit: Unit) -> Channel {
        let n = intervals_in_day(u64::from(minutes)).expect("one of the three lengths");
        Channel { minutes, n, unit }
    }

    /// One of half hours, of any unit.
    pub fn half_hours(chance: &mut Chance) -> Channel {
        Channel::of(30, words::unit(chance))
    }
}

/// A 200 with its days. Days of 5 minutes are large, and so they are few.
pub fn channel(chance: &mut Chance) -> Vec<Row> {
    let minutes = match chance.below(16) {
        0 => 5,
        1..=3 => 15,
        _ => 30,
    };
    let channel = Channel::of(minutes, words::unit(chance));
    channel_of(chance, channel)
}

pub fn channel_of(chance: &mut Chance, channel: Channel) -> Vec<Row> {
    let days = if channel.n == 48 && chance.one_in(12) { chance.between(3, 9) } else { chance.between(1, 2) };
    let mut rows = vec![channel_head(chance, channel)];
    for date in words::rising_dates(chance, days) {
        rows.extend(day_block(chance, channel, date));
    }
    rows
}

pub fn channel_head(chance: &mut Chance, channel: Channel) -> Row {
    let mut head = row(chance, Kind::R200, 0);
    head[UNIT_IN_200] = words::unit_word(chance, channel.unit);
    head[8] = number_word(channel.minutes);
    head
}

/// The place of a 200's unit among its fields, and those of a 250's quantity and unit.
pub const UNIT_IN_200: usize = 7;
pub const QUANTITY_IN_250: usize = 18;
pub const UNIT_IN_250: usize = 19;

/// A day block on its own, of a date in any year that may stand.
pub fn block(chance: &mut Chance, channel: Channel) -> Draft {
    let date = words::date(chance);
    Draft { rows: day_block(chance, channel, date) }
}

pub fn day_block(chance: &mut Chance, channel: Channel, date: u32) -> Vec<Row> {
    let mut rows = if chance.one_in(2) {
        let note = words::note(chance);
        vec![day(chance, channel, date, &note.fields())]
    } else {
        let mut rows = vec![day(chance, channel, date, &v_note())];
        rows.extend(cover(chance, channel.n));
        rows
    };
    if chance.one_in(3) {
        for _ in 0..chance.between(1, 3) {
            rows.push(order(chance, date));
        }
    }
    rows
}

pub fn day(chance: &mut Chance, channel: Channel, date: u32, note: &[Word; 3]) -> Row {
    let n = channel.n;
    let mut day = row(chance, Kind::R300, n);
    day[1] = number_word(date);
    for (field, value) in day[2..n + 2].iter_mut().zip(words::values(chance, n, channel.unit)) {
        *field = value;
    }
    day[n + 2..n + 5].clone_from_slice(note);
    day
}

/// Quality, reason and description in the 300 of a V day.
pub fn v_note() -> [Word; 3] {
    [b"V".to_vec(), Vec::new(), Vec::new()]
}

pub fn cover_row(start: usize, end: usize, note: &NoteWords) -> Row {
    let mut row = vec![b"400".to_vec(), number_word(start), number_word(end)];
    row.extend(note.fields());
    row
}

/// 400s that cover the day and don't all say the same. Neighbours may.
pub fn cover(chance: &mut Chance, n: usize) -> Vec<Row> {
    let ends = stretch_ends(chance, n, 2);
    let first = words::note(chance);
    let second = words::other_note(chance, &first);
    let third = words::other_note(chance, &second);
    let mut notes: Vec<&NoteWords> = ends.iter().map(|_| [&first, &second, &third][chance.below(3)]).collect();
    if notes.iter().all(|note| *note == notes[0]) {
        let place = chance.below(notes.len());
        notes[place] = if notes[place] == &first { &second } else { &first };
    }
    rows_of_cover(&ends, &notes)
}

/// 400s that cover the day and all say the same.
pub fn cover_all_alike(chance: &mut Chance, n: usize) -> Vec<Row> {
    let ends = stretch_ends(chance, n, 1);
    let note = words::note(chance);
    rows_of_cover(&ends, &vec![&note; ends.len()])
}

/// 400s that cover the day and carry these notes, as they lie in its stretches.
pub fn cover_with(chance: &mut Chance, n: usize, notes: &[NoteWords]) -> Vec<Row> {
    let (ends, notes): (Vec<usize>, Vec<&NoteWords>) =
        stretches_with(chance, n, notes.len()).into_iter().map(|(end, note)| (end, &notes[note])).unzip();
    rows_of_cover(&ends, &notes)
}

/// Stretches into which a day is cut, each with its last interval and the place of its note among so many. The first of
/// the notes lies first, the last one last, and any of them between. One note alone has one stretch.
pub fn stretches_with(chance: &mut Chance, n: usize, notes: usize) -> Vec<(usize, usize)> {
    if notes == 1 {
        return vec![(n, 0)];
    }
    let ends = stretch_ends(chance, n, 2);
    let mut stretches: Vec<(usize, usize)> = ends.into_iter().map(|end| (end, chance.below(notes))).collect();
    let last = stretches.len() - 1;
    stretches[0].1 = 0;
    stretches[last].1 = notes - 1;
    stretches
}

fn rows_of_cover(ends: &[usize], notes: &[&NoteWords]) -> Vec<Row> {
    let mut start = 1;
    let mut rows = Vec::new();
    for (end, note) in ends.iter().zip(notes) {
        rows.push(cover_row(start, *end, note));
        start = end + 1;
    }
    rows
}

/// The last intervals of the stretches into which a day is cut, n being the last of them.
fn stretch_ends(chance: &mut Chance, n: usize, fewest: usize) -> Vec<usize> {
    if n == 48 && chance.one_in(16) {
        return (1..=n).collect();
    }
    let count = chance.between(fewest, 4);
    let mut ends = vec![n];
    while ends.len() < count {
        let end = if chance.one_in(6) { chance.pick(&[1, n - 1]) } else { chance.between(1, n - 1) };
        if !ends.contains(&end) {
            ends.push(end);
        }
    }
    ends.sort_unstable();
    ends
}

/// A 500 whose read time, if it has one, belongs to the day of this date.
fn order(chance: &mut Chance, date: u32) -> Row {
    let mut order = row(chance, Kind::R500, 0);
    order[3] = if chance.one_in(3) { Vec::new() } else { number_word(words::read_time(chance, date)) };
    order
}

// --- NEM13 ---

pub fn nem13(chance: &mut Chance) -> Draft {
    let mut rows = vec![header(chance, b"NEM13")];
    let channels = if chance.one_in(8) { chance.between(5, 12) } else { chance.between(1, 4) };
    for _ in 0..channels {
        rows.push(accumulation(chance));
        if chance.one_in(2) {
            rows.push(row(chance, Kind::R550, 0));
        }
    }
    rows.push(vec![b"900".to_vec()]);
    Draft { rows }
}

pub fn accumulation(chance: &mut Chance) -> Row {
    let unit = words::unit(chance);
    accumulation_in(chance, unit)
}

/// A 250 whose quantity is of this unit.
pub fn accumulation_in(chance: &mut Chance, unit: Unit) -> Row {
    let mut accumulation = row(chance, Kind::R250, 0);
    accumulation[QUANTITY_IN_250] = words::value_in(chance, unit);
    accumulation[UNIT_IN_250] = words::unit_word(chance, unit);
    for quality in [10, 15] {
        let note = words::note_with(chance, Rule::ReadQuality);
        accumulation[quality..quality + 3].clone_from_slice(&note.fields());
    }
    accumulation
}

// --- Large files and blocks ---

/// A file of the largest length, of one byte more, or of many bytes more. Only its length is against it.
pub fn large(chance: &mut Chance, which: usize) -> Vec<u8> {
    let length = match which {
        0 => LONGEST_FILE,
        1 => LONGEST_FILE + 1,
        _ => chance.between(LONGEST_FILE + 2, 1_100_000),
    };
    file_of_length(chance, length)
}

/// An accepted file of one channel and this length, but for a length that is over the limit.
pub fn file_of_length(chance: &mut Chance, length: usize) -> Vec<u8> {
    let channel = Channel::half_hours(chance);
    full_file(chance, length, channel, 2_000, |chance, date| {
        let note = words::note(chance);
        day(chance, channel, date, &note.fields())
    })
}

/// A file of the largest length with one channel, whose values are the largest that eight bytes hold with their comma:
/// none of another shape adds up to more for its bytes. Some 2,500 bytes at the most are left to orders.
pub fn largest_total(chance: &mut Chance) -> Vec<u8> {
    let channel = Channel::of(5, words::unit(chance));
    full_file(chance, LONGEST_FILE, channel, 2_500, |chance, date| {
        let mut row = day(chance, channel, date, &[b"A".to_vec(), Vec::new(), Vec::new()]);
        row[2..290].fill(b"9999999".to_vec());
        row
    })
}

/// A file of one channel, filled with days that are no longer than `most_bytes`, and to its length with orders.
fn full_file(
    chance: &mut Chance,
    length: usize,
    channel: Channel,
    most_bytes: usize,
    day_on: impl Fn(&mut Chance, u32) -> Row,
) -> Vec<u8> {
    const END: &[u8] = b"900\r\n";
    let mut bytes = record_bytes(&header(chance, b"NEM12"));
    bytes.extend(record_bytes(&channel_head(chance, channel)));
    let mut date = 19_000_101;
    while bytes.len() + most_bytes < length {
        bytes.extend(record_bytes(&day_on(chance, date)));
        date = words::next_date(date).expect("the file is full before the calendar ends");
    }
    fill_with_orders(&mut bytes, length - END.len());
    bytes.extend(END);
    bytes
}

/// A block that is longer than any file may be.
pub fn large_block(chance: &mut Chance, channel: Channel) -> Vec<u8> {
    let length = chance.between(LONGEST_FILE + 1, 1_100_000);
    let mut bytes = block(chance, channel).bytes();
    fill_with_orders(&mut bytes, length);
    bytes
}

/// Puts 500s behind the bytes till they have this length, which is 10 bytes more at least. With a service order of 0 to
/// 15 bytes one has 10 to 25 bytes.
pub fn fill_with_orders(bytes: &mut Vec<u8>, length: usize) {
    while bytes.len() < length {
        let record = match length - bytes.len() {
            left @ 10..=25 => left,
            26..=35 => 10,
            _ => 25,
        };
        let order = vec![b'X'; record - 10];
        bytes.extend(record_bytes(&[b"500".to_vec(), b"A".to_vec(), order, Vec::new(), Vec::new()]));
    }
}

#[cfg(test)]
mod tests {
    use super::*;
    use crate::check::check;
    use crate::refusal::FILE_TOO_LONG;
    use crate::total::total;

    #[test]
    fn files_meant_to_be_accepted_are_accepted() {
        for index in 0..400 {
            let chance = &mut Chance::for_case(5, index);
            let bytes = accepted(chance).bytes();
            assert!(check(&bytes).is_ok(), "{:?}\n{}", check(&bytes), String::from_utf8_lossy(&bytes));
        }
    }

    #[test]
    fn large_files_stand_at_the_limit() {
        let chance = &mut Chance::for_case(5, 0);
        let at_limit = large(chance, 0);
        assert_eq!(at_limit.len(), LONGEST_FILE);
        assert!(check(&at_limit).is_ok());
        let above = large(chance, 1);
        assert_eq!(above.len(), LONGEST_FILE + 1);
        assert_eq!(check(&above).map_err(|refusal| refusal.number), Err(FILE_TOO_LONG));
    }

    #[test]
    fn the_largest_total_is_below_2_to_the_64() {
        let file = largest_total(&mut Chance::for_case(5, 0));
        assert_eq!(file.len(), LONGEST_FILE);
        let days = check(&file).expect("it is accepted").days as u128;
        let total = total(&file, 0).expect("it has a channel");
        assert_eq!(total, days * 288 * 9_999_999_000_000);
        assert!(1 << 60 < total && total < 1 << 64);
    }
}
