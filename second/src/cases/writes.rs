//! Cases that write a day: fit ones, unfit ones, ones with null data, ones of each unit, and ones with several faults
//! at once.

use super::chance::Chance;
use super::files::{self, Channel};
use super::sweep;
use super::unit_sweep::{self, WriteUnit};
use super::words::{self, NoteWords};
use crate::fields::{decimal, END_OF_LAST_DAY, NO_METHOD, VALUE_LIMIT};
use crate::notes::NO_REASON;
use crate::units::Unit;
use crate::write::{compose, DayHead, DayLists};

const LONGEST_LIST: usize = 300;
const LONGEST_TEXT: usize = 4_096;
const LARGEST_ROOM: usize = 131_072;

/// A day to be written or put, with its lent text.
#[derive(Clone)]
pub struct Draft {
    pub head: DayHead,
    pub values: Vec<u64>,
    pub flags: Vec<u8>,
    pub methods: Vec<u8>,
    pub reasons: Vec<u16>,
    pub starts: Vec<usize>,
    pub lengths: Vec<usize>,
    pub text: Vec<u8>,
}

/// What is said of one interval.
#[derive(Clone, Copy)]
struct Saying {
    flag: u8,
    method: u8,
    reason: u16,
    start: usize,
    length: usize,
}

/// A fit day, in any room.
pub fn fit(chance: &mut Chance) -> Vec<u8> {
    let mut draft = fit_draft(chance);
    if chance.one_in(3) {
        lengthen_lists(chance, &mut draft);
    }
    case(chance, &draft)
}

/// A day with one fault.
pub fn unfit(chance: &mut Chance) -> Vec<u8> {
    let mut draft = fit_draft(chance);
    match chance.below(12) {
        0 => spoil_interval_length(chance, &mut draft),
        1 => shorten_list(chance, &mut draft),
        2..=5 => spoil_head(chance, &mut draft),
        _ => spoil_interval(chance, &mut draft),
    }
    case(chance, &draft)
}

/// A day with each kind of null data in turn.
pub fn with_null_data(chance: &mut Chance, turn: u64) -> Vec<u8> {
    let channel = some_channel(chance);
    let draft = draft_with(chance, channel, &sweep::null_day(turn).notes);
    case(chance, &draft)
}

/// A day of each unit with a value that is exact in it or isn't, in turn, and ones of numbers that are no unit's.
pub fn with_unit(chance: &mut Chance, turn: u64) -> Vec<u8> {
    let (unit, has_short_list) = unit_sweep::unit_and_short_list(turn);
    let mut draft = match unit {
        WriteUnit::Full(unit) | WriteUnit::Past(unit, _) => {
            let channel = Channel { unit, ..some_channel(chance) };
            fit_draft_in(chance, channel)
        }
        WriteUnit::None(_) => fit_draft(chance),
    };
    let place = chance.place_among(draft.values.len());
    match unit {
        WriteUnit::Full(unit) => draft.values[place] = value_of_all_decimals(chance, unit),
        WriteUnit::Past(unit, millionths) => draft.values[place] = value_of_all_decimals(chance, unit) + millionths,
        WriteUnit::None(number) => draft.head.unit = number,
    }
    if has_short_list {
        shorten_list(chance, &mut draft);
    }
    case(chance, &draft)
}

/// A day with several faults, so that the order of refusals counts.
pub fn with_several_faults(chance: &mut Chance) -> Vec<u8> {
    let mut draft = fit_draft(chance);
    spoil_by_several_faults(chance, &mut draft);
    case(chance, &draft)
}

/// Mostly by several, sometimes by one or none.
pub fn spoil_by_several_faults(chance: &mut Chance, draft: &mut Draft) {
    if chance.one_in(2) {
        spoil_head(chance, draft);
    }
    if chance.one_in(2) {
        spoil_interval(chance, draft);
    }
    if chance.one_in(2) {
        shorten_list(chance, draft);
    }
    if chance.one_in(3) {
        spoil_interval_length(chance, draft);
    }
}

// --- Fit days ---

fn fit_draft(chance: &mut Chance) -> Draft {
    let channel = some_channel(chance);
    fit_draft_in(chance, channel)
}

fn fit_draft_in(chance: &mut Chance, channel: Channel) -> Draft {
    let mut text = Vec::new();
    let sayings = sayings(chance, channel.n, &mut text);
    draft(chance, channel, &sayings, text)
}

/// A fit day whose stretches carry these notes.
pub fn draft_with(chance: &mut Chance, channel: Channel, notes: &[NoteWords]) -> Draft {
    let mut text = Vec::new();
    let sayings = sayings_with(chance, channel.n, notes, &mut text);
    draft(chance, channel, &sayings, text)
}

fn some_channel(chance: &mut Chance) -> Channel {
    let minutes = match chance.below(8) {
        0 => 5,
        1 | 2 => 15,
        _ => 30,
    };
    Channel::of(minutes, words::unit(chance))
}

/// A day of which this is said, fit but for that.
fn draft(chance: &mut Chance, channel: Channel, sayings: &[Saying], text: Vec<u8>) -> Draft {
    let date = words::date(chance);
    Draft {
        head: DayHead {
            date,
            length: channel.minutes,
            update: words::time(chance),
            load: if chance.one_in(2) { 0 } else { words::time(chance) },
            unit: channel.unit.number(),
        },
        values: values(chance, channel),
        flags: sayings.iter().map(|saying| saying.flag).collect(),
        methods: sayings.iter().map(|saying| saying.method).collect(),
        reasons: sayings.iter().map(|saying| saying.reason).collect(),
        starts: sayings.iter().map(|saying| saying.start).collect(),
        lengths: sayings.iter().map(|saying| saying.length).collect(),
        text,
    }
}

/// Values that can be written in the channel's unit.
fn values(chance: &mut Chance, channel: Channel) -> Vec<u64> {
    let n = channel.n;
    let small = chance.below(1000) as u64;
    let mut values: Vec<u64> = match chance.below(6) {
        0 => vec![VALUE_LIMIT - 1; n],
        1 => vec![small * 1_000_000; n],
        2 => (0..n).map(|_| any_value(chance)).collect(),
        _ => (0..n).map(|_| chance.below(100_000) as u64 * 1_000).collect(),
    };
    for value in &mut values {
        *value -= *value % channel.unit.smallest_step();
    }
    values
}

/// A value that has a digit in the unit's last decimal, and none behind it.
fn value_of_all_decimals(chance: &mut Chance, unit: Unit) -> u64 {
    let step = unit.smallest_step();
    let tenfold = any_value(chance) / (10 * step) * (10 * step);
    tenfold + step * chance.between(1, 9) as u64
}

fn any_value(chance: &mut Chance) -> u64 {
    match chance.below(5) {
        0 => chance.pick(&[0, 1, 10, 999_999, 1_000_000, 1_000_001, 1_100_000, VALUE_LIMIT - 1, VALUE_LIMIT / 10]),
        // Zeros at the end, which aren't to be written.
        1 => chance.below(1_000_000) as u64 * 10u64.pow(chance.between(0, 7) as u32),
        2 => chance.below(1_000_000) as u64,
        _ => chance.next() % VALUE_LIMIT,
    }
}

/// What is said of each interval, the descriptions being laid into the text.
fn sayings(chance: &mut Chance, n: usize, text: &mut Vec<u8>) -> Vec<Saying> {
    if chance.one_in(60) {
        return sayings_that_fill_most_room(chance, n, text);
    }
    let first = words::note(chance);
    let second = words::other_note(chance, &first);
    let third = words::other_note(chance, &second);
    let laid = lay_twice(chance, &[first, second, third], text);
    let notes = chance.between(1, 3);
    let (mut note, mut copy) = (chance.below(notes), 0);
    let new_note_in = chance.pick(&[1, 2, 8, 24]);
    let mut sayings = Vec::new();
    for _ in 0..n {
        if chance.one_in(new_note_in) {
            note = chance.below(notes);
        }
        if chance.one_in(3) {
            copy = chance.below(2);
        }
        let mut saying = laid[note][copy];
        if saying.length == 0 {
            saying.start = wild_start(chance, text.len());
        }
        sayings.push(saying);
    }
    add_filler(chance, text);
    sayings
}

/// What is said of each interval of a day whose stretches carry these notes.
fn sayings_with(chance: &mut Chance, n: usize, notes: &[NoteWords], text: &mut Vec<u8>) -> Vec<Saying> {
    let laid = lay_twice(chance, notes, text);
    let mut sayings = Vec::new();
    for (end, note) in files::stretches_with(chance, n, notes.len()) {
        while sayings.len() < end {
            sayings.push(chance.pick(&laid[note]));
        }
    }
    sayings
}

/// Lays each note twice, so that equal bytes stand at different places.
fn lay_twice(chance: &mut Chance, notes: &[NoteWords], text: &mut Vec<u8>) -> Vec<[Saying; 2]> {
    notes.iter().map(|note| [lay(chance, note, text), lay(chance, note, text)]).collect()
}

/// Lays a note's description into the text and gives what an interval says by it.
fn lay(chance: &mut Chance, note: &NoteWords, text: &mut Vec<u8>) -> Saying {
    add_filler(chance, text);
    let start = text.len();
    text.extend(&note.description);
    let (flag, method) = (note.quality[0], &note.quality[1..]);
    Saying {
        flag,
        method: if method.is_empty() { NO_METHOD } else { decimal(method) as u8 },
        reason: if note.reason.is_empty() { NO_REASON } else { decimal(&note.reason) as u16 },
        start,
        length: note.description.len(),
    }
}

/// Bytes between descriptions, which may be any.
fn add_filler(chance: &mut Chance, text: &mut Vec<u8>) {
    for _ in 0..chance.below(4) {
        text.push(chance.pick(b" ,\r\n\x00\x7f\xffx"));
    }
}

/// A start for an empty description: any will do.
fn wild_start(chance: &mut Chance, text_length: usize) -> usize {
    match chance.below(8) {
        0 => usize::MAX,
        1 => text_length + 1,
        2 => chance.next() as usize,
        _ => 0,
    }
}

/// Every interval has a description of 240 bytes of its own, all overlapping in the text.
fn sayings_that_fill_most_room(chance: &mut Chance, n: usize, text: &mut Vec<u8>) -> Vec<Saying> {
    *text = words::text(chance, 240 + n);
    for byte in text.iter_mut().filter(|byte| **byte == b' ') {
        *byte = b'_';
    }
    let flag = chance.pick(b"EFS");
    (0..n).map(|start| Saying { flag, method: 99, reason: 999, start, length: 240 }).collect()
}

// --- Lists longer or shorter than n ---

/// Lengthens some lists. What stands behind the n intervals counts for nothing, fit or not.
pub fn lengthen_lists(chance: &mut Chance, draft: &mut Draft) {
    let more = |chance: &mut Chance, length: usize| chance.between(0, LONGEST_LIST - length);
    for _ in 0..more(chance, draft.values.len()) {
        draft.values.push(chance.next());
    }
    for _ in 0..more(chance, draft.flags.len()) {
        draft.flags.push(chance.next() as u8);
    }
    for _ in 0..more(chance, draft.methods.len()) {
        draft.methods.push(chance.next() as u8);
    }
    for _ in 0..more(chance, draft.reasons.len()) {
        draft.reasons.push(chance.next() as u16);
    }
    for _ in 0..more(chance, draft.starts.len()) {
        draft.starts.push(chance.next() as usize);
    }
    for _ in 0..more(chance, draft.lengths.len()) {
        draft.lengths.push(chance.next() as usize);
    }
}

pub fn shorten_list(chance: &mut Chance, draft: &mut Draft) {
    let n = draft.values.len();
    let keep = if chance.one_in(3) { chance.below(n) } else { n - 1 };
    match chance.below(6) {
        0 => draft.values.truncate(keep),
        1 => draft.flags.truncate(keep),
        2 => draft.methods.truncate(keep),
        3 => draft.reasons.truncate(keep),
        4 => draft.starts.truncate(keep),
        _ => draft.lengths.truncate(keep),
    }
}

// --- Faults ---

pub fn spoil_interval_length(chance: &mut Chance, draft: &mut Draft) {
    draft.head.length = words::no_interval_length(chance);
}

pub fn spoil_head(chance: &mut Chance, draft: &mut Draft) {
    let head = &mut draft.head;
    match chance.below(7) {
        0..=1 => head.date = spoilt_date(chance),
        2..=3 => head.update = if chance.one_in(5) { 0 } else { spoilt_time(chance) },
        4..=5 => head.load = spoilt_time(chance),
        _ => head.unit = spoilt_unit(chance),
    }
}

/// Mostly no unit's number, else one in which the values may be exact or not.
fn spoilt_unit(chance: &mut Chance) -> u8 {
    if chance.one_in(3) {
        words::unit(chance).number()
    } else {
        words::no_unit_number(chance)
    }
}

/// Mostly no date, though some are, at the edges.
pub fn spoilt_date(chance: &mut Chance) -> u32 {
    chance.pick(&[
        0, 1, 18991231, 19000229, 19000101, 19001301, 20000229, 20030001, 20030100, 20030132, 20030229, 20030431,
        20030631, 20030931, 20031131, 20040229, 21000229, 21991231, 22000101, 2003043, 200304300, 99991231, 4294967295,
    ])
}

fn spoilt_time(chance: &mut Chance) -> u64 {
    match chance.below(6) {
        0 => u64::from(spoilt_date(chance)) * 1_000_000 + 120_000,
        1 => 20030922 * 1_000_000 + chance.pick(&[240_000, 236_000, 235_960, 999_999, 126_060, 235_959]),
        2 => chance.pick(&[1, 20030922, 200309220922, 200309220922310, 2003092209223, u64::MAX, u64::MAX / 10]),
        // A read may be taken then, but no day is updated or loaded then.
        3 => decimal(END_OF_LAST_DAY),
        4 => decimal(chance.pick(&words::TIMES_AROUND_CALENDAR_END).as_bytes()),
        _ => chance.next(),
    }
}

/// Spoils what is said of one interval, by what is named or by any change near to it.
pub fn spoil_interval(chance: &mut Chance, draft: &mut Draft) {
    let place = chance.place_among(draft.values.len());
    match chance.below(13) {
        0 => draft.values[place] = chance.pick(&[VALUE_LIMIT, VALUE_LIMIT + 1, u64::MAX, VALUE_LIMIT - 1]),
        1 => draft.flags[place] = chance.pick(b"AEFNSVaefnsv \x00\x7f\xff0,"),
        2 => draft.methods[place] = chance.pick(&[0, 14, 99, 100, 101, 254, 255]),
        3 => draft.reasons[place] = chance.pick(&[0, 1, 999, 1000, 1001, 65534, 65535]),
        4 => set_saying(draft, place, chance.pick(b"AN"), chance.pick(&[0, 14, 99, 254]), NO_REASON),
        5 => set_saying(draft, place, chance.pick(b"EFS"), NO_METHOD, 79),
        6 => set_saying(draft, place, chance.pick(b"EFS"), chance.pick(&[100, 200, 254]), 79),
        7 => {
            set_saying(draft, place, chance.pick(b"SF"), 14, chance.pick(&[NO_REASON, 0]));
            draft.lengths[place] = 0;
        }
        8 => {
            let (flag, reason) = chance.pick(&[(b'A', 0), (b'N', 0), (b'V', NO_REASON)]);
            set_saying(draft, place, flag, NO_METHOD, reason);
            draft.lengths[place] = 0;
        }
        9 => set_place_outside(chance, draft, place),
        // Exact in some units, and not in others.
        10 => draft.values[place] = chance.pick(&[1, 10, 100, 1_000, 10_000, 100_000]) * chance.between(1, 99) as u64,
        _ => lay_bad_description(chance, draft, place),
    }
}

fn set_saying(draft: &mut Draft, place: usize, flag: u8, method: u8, reason: u16) {
    draft.flags[place] = flag;
    draft.methods[place] = method;
    draft.reasons[place] = reason;
}

/// A description that doesn't lie inside the text, or only just does.
fn set_place_outside(chance: &mut Chance, draft: &mut Draft, place: usize) {
    let end = draft.text.len();
    let (start, length) = chance.pick(&[
        (end, 1),
        (end.saturating_sub(1), 2),
        (end.saturating_sub(1), 1),
        (end + 1, 1),
        (usize::MAX, 1),
        (usize::MAX, 2),
        (usize::MAX - 4, 5),
        (usize::MAX - 4, 6),
        (1, usize::MAX),
        (usize::MAX, usize::MAX),
        (0, end + 1),
        (0, usize::MAX),
    ]);
    draft.starts[place] = start;
    draft.lengths[place] = length;
}

/// Lays a description into the text that no field may hold, or only just may.
fn lay_bad_description(chance: &mut Chance, draft: &mut Draft, place: usize) {
    let long = words::text(chance, 241);
    let description: &[u8] = match chance.below(12) {
        0 => b"a,b",
        1 => b",",
        2 => b" a",
        3 => b"a ",
        4 => b" ",
        5 => b"a\r\nb",
        6 => b"a\x1fb",
        7 => b"a\x7f",
        8 => b"\x80",
        9 => b"a~ !b",
        10 => &long[..240],
        _ => &long,
    };
    draft.starts[place] = draft.text.len();
    draft.lengths[place] = description.len();
    draft.text.extend(description);
}

// --- The case ---

fn case(chance: &mut Chance, draft: &Draft) -> Vec<u8> {
    let DayHead { date, length, update, load, unit } = draft.head;
    let line = format!("write {date} {length} {update} {load} {unit} {}{}\n", room(chance, draft), draft.counts());
    [line.as_bytes(), &draft.lists_and_text(), b"\n"].concat()
}

impl Draft {
    /// The lengths of the lists and of the text, as they stand in a case's line with a space before each.
    pub fn counts(&self) -> String {
        assert!(self.text.len() <= LONGEST_TEXT, "a text that the probe takes");
        let counts = [
            self.values.len(),
            self.flags.len(),
            self.methods.len(),
            self.reasons.len(),
            self.starts.len(),
            self.lengths.len(),
            self.text.len(),
        ];
        counts.iter().map(|count| format!(" {count}")).collect()
    }

    /// The bytes that a case has for its lists and its text.
    pub fn lists_and_text(&self) -> Vec<u8> {
        let lists = [
            list_line(&self.values),
            list_line(&self.flags),
            list_line(&self.methods),
            list_line(&self.reasons),
            list_line(&self.starts),
            list_line(&self.lengths),
        ];
        [lists.concat().as_bytes(), &self.text].concat()
    }

    pub fn lists(&self) -> DayLists<'_> {
        DayLists {
            values: &self.values,
            flags: &self.flags,
            methods: &self.methods,
            reasons: &self.reasons,
            starts: &self.starts,
            lengths: &self.lengths,
            text: &self.text,
        }
    }

    /// Its block, if it is fit.
    pub fn block(&self) -> Option<Vec<u8>> {
        compose(self.head, self.lists()).ok().map(|(block, _)| block)
    }
}

fn list_line<T: ToString>(numbers: &[T]) -> String {
    let mut line: String = numbers.iter().map(|number| number.to_string() + " ").collect();
    line.push('\n');
    line
}

/// Room by the block's own length: enough, just enough, or a byte too little.
fn room(chance: &mut Chance, draft: &Draft) -> usize {
    let block = draft.block().map_or(200, |block| block.len());
    match chance.below(8) {
        0 => block - 1,
        1 => 0,
        2 => chance.below(block),
        3 => LARGEST_ROOM,
        4 => block + chance.between(1, 2_000),
        _ => block,
    }
}

#[cfg(test)]
mod tests {
    use super::*;
    use crate::check::read_file;

    /// The description of an interval of the draft.
    fn description(draft: &Draft, index: usize) -> &[u8] {
        match draft.lengths[index] {
            0 => &[],
            length => &draft.text[draft.starts[index]..draft.starts[index] + length],
        }
    }

    #[test]
    fn a_written_day_is_read_back_as_the_same_day() {
        for index in 0..300 {
            let draft = fit_draft(&mut Chance::for_case(3, index));
            let (block, records) = compose(draft.head, draft.lists()).expect("a fit day");
            let mut file = b"100,NEM12,200301011534,MDP1,Ret1\r\n".to_vec();
            let unit = Unit::numbered(draft.head.unit).expect("a unit");
            file.extend(format!("200,VABD000163,E1,,E1,,,{},{},\r\n", unit.name(), draft.head.length).bytes());
            file.extend(&block);
            file.extend(b"900\r\n");
            let content = read_file(&file).unwrap_or_else(|refusal| panic!("{refusal:?}"));
            let day = &content.days[0];
            assert_eq!((day.date, day.update, day.load), (draft.head.date, draft.head.update, draft.head.load));
            assert_eq!(day.unit, unit);
            assert_eq!(day.values, draft.values);
            for (index, note) in day.notes.iter().enumerate() {
                assert_eq!(note.quality.flag, draft.flags[index]);
                assert_eq!(note.quality.method, draft.methods[index]);
                assert_eq!(note.reason, draft.reasons[index]);
                assert_eq!(note.description, description(&draft, index));
            }
            assert_eq!(records, block.iter().filter(|byte| **byte == b'\n').count());
        }
    }
}
