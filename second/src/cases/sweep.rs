//! Sweeps: every field with every content that is interesting there, every kind of record at every place in the order
//! of records, every date at an edge with every read time near to it, and every kind of null data alone and beside every
//! other, one after another, in files and in blocks on their own. A long run leaves none of them out.

use super::chance::Chance;
use super::damage;
use super::files::{self, Channel, Draft, Make, Row};
use super::words::{self, NoteWords, Word};
use crate::fields::{decimal, Rule};
use crate::records::{layout, Kind};
use crate::write::record_bytes;

pub const KINDS: [Kind; 8] =
    [Kind::R100, Kind::R200, Kind::R300, Kind::R400, Kind::R500, Kind::R250, Kind::R550, Kind::R900];

/// The kinds of record that a block has.
const KINDS_OF_BLOCK: [Kind; 3] = [Kind::R300, Kind::R400, Kind::R500];

/// A step that shares no divisor with the number of things swept, so that a short run is spread over them too.
const STEP: u64 = 367;

/// Which of so many things has its turn.
pub fn which(turn: u64, count: usize) -> usize {
    (turn.wrapping_mul(STEP) % count as u64) as usize
}

// --- Fields ---

/// A field of a record and a content for it.
struct Target {
    kind: Kind,
    /// The field's place in the layout of this kind, where a 300 has one value.
    place: usize,
    content: Word,
}

fn targets(kinds: &[Kind]) -> Vec<Target> {
    let mut targets = Vec::new();
    for &kind in kinds {
        // Indicators are swept with the order of records.
        for (place, rule) in layout(kind, 1).into_iter().enumerate().skip(1) {
            let contents = words::edges(rule).into_iter();
            targets.extend(contents.map(|content| Target { kind, place, content }));
        }
    }
    targets
}

/// A file that is accepted but for one field, if that field's content isn't.
pub fn file_with_field(chance: &mut Chance, turn: u64) -> Vec<u8> {
    with_field(chance, &files::accepted, &KINDS, turn)
}

/// A block that is accepted but for one field, if that field's content isn't.
pub fn block_with_field(chance: &mut Chance, channel: Channel, turn: u64) -> Vec<u8> {
    with_field(chance, &|chance| files::block(chance, channel), &KINDS_OF_BLOCK, turn)
}

fn with_field(chance: &mut Chance, make: Make, kinds: &[Kind], turn: u64) -> Vec<u8> {
    let mut targets = targets(kinds);
    let target = targets.swap_remove(which(turn, targets.len()));
    let mut draft = files::made_with(chance, make, |draft| !draft.places_of(target.kind).is_empty());
    let rows = draft.places_of(target.kind);
    let row = &mut draft.rows[chance.pick(&rows)];
    let field = place_in_row(chance, &target, row);
    row[field] = target.content;
    draft.bytes()
}

fn place_in_row(chance: &mut Chance, target: &Target, row: &Row) -> usize {
    let rules = layout(target.kind, 1);
    let further_fields = row.len() - rules.len();
    match rules[..=target.place] {
        [.., Rule::Value] if target.kind == Kind::R300 => target.place + chance.between(0, further_fields),
        [Rule::Indicator, _] => target.place,
        // Only a 300 has more fields than its layout with one value, and they stand before these.
        _ => target.place + further_fields,
    }
}

// --- Order of records ---

/// The records that lead to each place in the order of a file's records. The days are half-hour days.
fn leads(chance: &mut Chance) -> Vec<Vec<Row>> {
    let [header_12, header_13] = [b"NEM12", b"NEM13"].map(|version| {
        let mut header = files::row(chance, Kind::R100, 0);
        header[1] = version.to_vec();
        header
    });
    let half_hours = Channel::half_hours(chance);
    let channel = files::channel_head(chance, half_hours);
    let accumulation = files::accumulation(chance);
    let order_13 = files::row(chance, Kind::R550, 0);
    let end = files::row(chance, Kind::R900, 0);

    let start_12 = vec![header_12, channel];
    let start_13 = vec![header_13, accumulation];
    let in_channel: Vec<Vec<Row>> =
        leads_of_block(chance, half_hours).into_iter().map(|lead| [start_12.clone(), lead].concat()).collect();
    let complete_12 = [start_12.clone(), vec![plain_day(chance, half_hours), end.clone()]].concat();
    let mut leads = vec![
        Vec::new(),
        start_12[..1].to_vec(),
        complete_12,
        start_13[..1].to_vec(),
        [start_13.clone(), vec![order_13]].concat(),
        [start_13.clone(), vec![end]].concat(),
        start_13,
    ];
    leads.extend(in_channel);
    leads
}

/// The records that lead to each place in the order of a block's records, the block's start being the first.
fn leads_of_block(chance: &mut Chance, channel: Channel) -> Vec<Vec<Row>> {
    let cover = files::cover(chance, channel.n);
    let mut order = files::row(chance, Kind::R500, 0);
    order[3] = Vec::new();

    let in_v_day = vec![files::day(chance, channel, DATE, &files::v_note())];
    let covered = [in_v_day.clone(), cover.clone()].concat();
    let in_plain_day = vec![plain_day(chance, channel)];
    vec![
        Vec::new(),
        [in_v_day.clone(), cover[..1].to_vec()].concat(),
        in_v_day,
        [covered.clone(), vec![order.clone()]].concat(),
        covered,
        [in_plain_day.clone(), vec![order]].concat(),
        in_plain_day,
    ]
}

/// The date of the days in whose order records are swept.
const DATE: u32 = 20_030_501;

fn plain_day(chance: &mut Chance, channel: Channel) -> Row {
    let note = words::note(chance);
    files::day(chance, channel, DATE, &note.fields())
}

/// A record of each kind, and ones that are of no kind.
fn next_rows(chance: &mut Chance, n: usize) -> Vec<Row> {
    let mut rows: Vec<Row> = KINDS.into_iter().map(|kind| files::row(chance, kind, n)).collect();
    rows.push(vec![Vec::new()]);
    rows.push(vec![words::breaking_indicator(chance)]);
    rows
}

/// A file with one kind of record at one place in the order, and a 900 behind it.
pub fn file_with_order(chance: &mut Chance, turn: u64) -> Vec<u8> {
    let (leads, next_rows) = (leads(chance), next_rows(chance, 48));
    let which = which(turn, leads.len() * next_rows.len());
    let mut rows = leads[which / next_rows.len()].clone();
    rows.push(next_rows[which % next_rows.len()].clone());
    rows.push(files::row(chance, Kind::R900, 0));
    Draft { rows }.bytes()
}

/// What a block may end with: nothing, a record of each kind or of none, one with a byte outside, one without its end.
fn block_ends(chance: &mut Chance, n: usize) -> Vec<Vec<u8>> {
    let mut ends: Vec<Vec<u8>> = next_rows(chance, n).iter().map(|row| record_bytes(row)).collect();
    let [mut outside, mut cut] = [0, 1].map(|_| ends[chance.below(KINDS.len())].clone());
    // Before the record's CR at the latest, so that the record still ends.
    let place = chance.below(outside.len() - 1);
    outside.insert(place, chance.pick(damage::BYTES_OUTSIDE));
    cut.truncate(cut.len() - chance.between(1, 2));
    ends.extend([Vec::new(), outside, cut]);
    ends
}

/// A block that has one thing behind one place in the order, and ends there.
pub fn block_with_order(chance: &mut Chance, channel: Channel, turn: u64) -> Vec<u8> {
    let (leads, ends) = (leads_of_block(chance, channel), block_ends(chance, channel.n));
    let which = which(turn, leads.len() * ends.len());
    let mut bytes = Draft { rows: leads[which / ends.len()].clone() }.bytes();
    bytes.extend(&ends[which % ends.len()]);
    bytes
}

// --- Read times ---

/// Each date at an edge with each read time near to it.
fn dates_with_read_times() -> Vec<(u32, u64)> {
    let near = |date: u32| words::read_times_near(date).into_iter().map(move |time| (date, time));
    let mut pairs: Vec<(u32, u64)> = words::EDGE_DATES.into_iter().flat_map(near).collect();
    for date in [words::LAST_DATE - 1, words::LAST_DATE] {
        pairs.extend(words::TIMES_AROUND_CALENDAR_END.map(|time| (date, decimal(time.as_bytes()))));
    }
    pairs.sort_unstable();
    pairs.dedup();
    pairs
}

/// A day block that is accepted but for the read time of its last 500, if that isn't.
pub fn rows_with_read_time(chance: &mut Chance, channel: Channel, turn: u64) -> Vec<Row> {
    let pairs = dates_with_read_times();
    let (date, read_time) = pairs[which(turn, pairs.len())];
    let mut rows = files::day_block(chance, channel, date);
    let mut order = files::row(chance, Kind::R500, 0);
    order[3] = words::number_word(read_time);
    rows.push(order);
    rows
}

pub fn block_with_read_time(chance: &mut Chance, channel: Channel, turn: u64) -> Vec<u8> {
    Draft { rows: rows_with_read_time(chance, channel, turn) }.bytes()
}

/// A file that has such a block as its last day, under a 200 of its own.
pub fn file_with_read_time(chance: &mut Chance, turn: u64) -> Vec<u8> {
    let mut draft = files::nem12(chance);
    let channel = Channel::half_hours(chance);
    let mut rows = vec![files::channel_head(chance, channel)];
    rows.extend(rows_with_read_time(chance, channel, turn));
    let end = draft.rows.len() - 1;
    draft.rows.splice(end..end, rows);
    draft.bytes()
}

// --- Null data ---

/// The notes of a day that has null data or nearly has.
pub struct NullDay {
    /// From its first interval to its last.
    pub notes: Vec<NoteWords>,
    /// Whether 400s carry them. Otherwise the 300 has its one note itself.
    in_cover: bool,
}

/// Each kind of null data, kept or broken, for a whole day; and in V days each that is kept alone, beside each other and
/// beside actual data that is else alike, an estimate beside the first, and those that are broken beside it.
fn null_days() -> Vec<NullDay> {
    let nulls = words::NULL_NOTES;
    let broken = [&[words::UNEXPLAINED_NULL], &words::NEARLY_NULL[..]].concat();
    let in_turn = |note, other| [vec![note, other], vec![other, note]];

    let mut covers: Vec<Vec<[&str; 3]>> = Vec::new();
    for null in nulls {
        let [_, reason, description] = null;
        covers.push(vec![null]);
        covers.extend(nulls.map(|other| vec![null, other]));
        covers.extend(in_turn(null, ["A", reason, description]));
    }
    for other in [&broken[..], &[["E52", "", ""]]].concat() {
        covers.extend(in_turn(nulls[0], other));
    }
    let of_notes = |notes: Vec<[&str; 3]>, in_cover| {
        let notes = notes.into_iter().map(NoteWords::of).collect();
        NullDay { notes, in_cover }
    };
    let whole_days = nulls.into_iter().chain(broken).map(|note| of_notes(vec![note], false));
    whole_days.chain(covers.into_iter().map(|notes| of_notes(notes, true))).collect()
}

pub fn null_day(turn: u64) -> NullDay {
    let mut days = null_days();
    days.swap_remove(which(turn, days.len()))
}

/// Null data as the note of each read of a 250, by the place of the read's quality: a 250 may have none.
fn null_reads() -> Vec<(usize, NoteWords)> {
    let notes = [&words::NULL_NOTES[..], &[words::UNEXPLAINED_NULL]].concat();
    [10, 15].into_iter().flat_map(|quality| notes.iter().map(move |note| (quality, NoteWords::of(*note)))).collect()
}

fn rows_of_null_day(chance: &mut Chance, channel: Channel, day: &NullDay) -> Vec<Row> {
    let date = words::date(chance);
    if !day.in_cover {
        return vec![files::day(chance, channel, date, &day.notes[0].fields())];
    }
    let mut rows = vec![files::day(chance, channel, date, &files::v_note())];
    rows.extend(files::cover_with(chance, channel.n, &day.notes));
    rows
}

pub fn block_with_null_data(chance: &mut Chance, channel: Channel, turn: u64) -> Vec<u8> {
    Draft { rows: rows_of_null_day(chance, channel, &null_day(turn)) }.bytes()
}

/// A file of one such day, or of one 250.
pub fn file_with_null_data(chance: &mut Chance, turn: u64) -> Vec<u8> {
    let (days, reads) = (null_days(), null_reads());
    let which = which(turn, days.len() + reads.len());
    let mut rows = Vec::new();
    if let Some(day) = days.get(which) {
        let channel = Channel::half_hours(chance);
        rows.extend([files::header(chance, b"NEM12"), files::channel_head(chance, channel)]);
        rows.extend(rows_of_null_day(chance, channel, day));
    } else {
        let (quality, note) = &reads[which - days.len()];
        let mut accumulation = files::accumulation(chance);
        accumulation[*quality..quality + 3].clone_from_slice(&note.fields());
        rows.extend([files::header(chance, b"NEM13"), accumulation]);
    }
    rows.push(files::row(chance, Kind::R900, 0));
    Draft { rows }.bytes()
}

/// Holds a run of 5,000 cases to sweeping so many things, of which each round has so many.
#[cfg(test)]
pub fn assert_swept(what: &str, count: usize, per_round: u64) {
    fn share_no_divisor(number: u64, other: u64) -> bool {
        if other == 0 {
            number == 1
        } else {
            share_no_divisor(other, number % other)
        }
    }
    let rounds = 5000 / super::ROUND;
    assert!(count as u64 <= rounds * per_round, "{count} {what} to sweep");
    assert!(share_no_divisor(count as u64, STEP), "{count} {what}");
}

#[cfg(test)]
mod tests {
    use super::*;
    use crate::cases::{READ_TIMES_PER_ROUND, SWEPT_BLOCKS_PER_ROUND, SWEPT_ORDERS_PER_ROUND, SWEPT_PER_ROUND};

    #[test]
    fn a_run_of_5000_leaves_nothing_out() {
        let chance = &mut Chance::for_case(1, 1);
        let half_hours = Channel::half_hours(chance);
        let orders = leads(chance).len() * next_rows(chance, 48).len();
        let orders_of_block = leads_of_block(chance, half_hours).len() * block_ends(chance, 48).len();
        assert_swept("fields", targets(&KINDS).len(), SWEPT_PER_ROUND);
        assert_swept("orders", orders, SWEPT_ORDERS_PER_ROUND);
        assert_swept("fields of blocks", targets(&KINDS_OF_BLOCK).len(), SWEPT_BLOCKS_PER_ROUND);
        assert_swept("orders of blocks", orders_of_block, SWEPT_ORDERS_PER_ROUND);
        assert_swept("read times", dates_with_read_times().len(), READ_TIMES_PER_ROUND);
        assert_swept("days with null data", null_days().len(), 1);
        assert_swept("days and reads with null data", null_days().len() + null_reads().len(), 1);
    }
}
