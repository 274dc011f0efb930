//! Tests: a run has texts and reads of every length around steps of eight bytes, passed and refused, files and blocks
//! that end right behind one, and values of every shape beside each other.

use super::case;
use super::parts::{records_of, Checked};
use crate::fields::{decimals_of, intervals_for_field};
use crate::records::{kind_of, layout, Record};
use crate::refusal::Refusal;
use std::collections::BTreeSet;
use std::ops::RangeInclusive;

/// A text or read by its record and the number of fields behind it, the lengths that it may have, and whether the field
/// behind it may be empty.
type Text = (&'static str, usize, RangeInclusive<usize>, bool);

const TEXTS: [Text; 18] = [
    ("100", 1, 1..=10, false),
    ("100", 0, 1..=10, false),
    ("200", 7, 1..=240, true),
    ("200", 6, 0..=10, false),
    ("200", 3, 0..=12, false),
    ("300", 2, 0..=240, false),
    ("400", 0, 0..=240, false),
    ("500", 2, 0..=15, true),
    ("500", 0, 0..=15, false),
    ("250", 20, 1..=240, true),
    ("250", 19, 0..=10, false),
    ("250", 16, 0..=12, false),
    ("250", 14, 1..=15, false),
    ("250", 10, 0..=240, false),
    ("250", 9, 1..=15, false),
    ("250", 5, 0..=240, false),
    ("550", 2, 0..=15, false),
    ("550", 0, 0..=15, false),
];

fn is_text(indicator: &[u8], fields_behind: usize) -> bool {
    TEXTS.iter().any(|text| (text.0.as_bytes(), text.1) == (indicator, fields_behind))
}

const SHORT_LENGTHS: RangeInclusive<usize> = 0..=17;
const LONG_LENGTHS: [usize; 15] = [23, 24, 25, 31, 32, 33, 63, 64, 65, 199, 200, 201, 239, 240, 241];

/// What stands behind a text that passed, or that it was refused.
#[derive(Clone, Copy, Debug, PartialEq, Eq, PartialOrd, Ord)]
enum Answer {
    /// Before an empty field.
    BeforeEmpty,
    /// Before a field that isn't empty, or as the last of its record.
    BeforeOther,
    Refused,
}

#[derive(Default)]
struct Found {
    /// By record, fields behind and length.
    texts: BTreeSet<(Vec<u8>, usize, usize, Answer)>,
    /// Of refused files that end behind a text: its length, whether a comma follows, and what follows then.
    cut_files: BTreeSet<(usize, bool, &'static str)>,
    /// Lengths of the texts behind which accepted blocks end.
    block_ends: BTreeSet<usize>,
    /// The most shapes of value in an accepted 300, in a file and in a block.
    shapes: [usize; 2],
}

impl Found {
    fn take(&mut self, case: &[u8]) {
        let Some(Checked { bytes, block, refusal }) = Checked::of_case(case) else { return };
        let records = records_of(bytes);
        match refusal {
            None => records.iter().for_each(|record| self.take_accepted(record, block.is_some())),
            Some(refusal) => self.take_refused(&records, refusal),
        }
        match (block, refusal) {
            (None, Some(refusal)) => self.cut_files.extend(cuts_of(bytes, &records, refusal)),
            (Some(_), None) => self.block_ends.extend(records.last().and_then(last_text).map(<[u8]>::len)),
            _ => (),
        }
    }

    fn take_accepted(&mut self, record: &Record, in_block: bool) {
        for (fields_behind, field) in record.fields.iter().rev().enumerate() {
            let is_before_empty =
                fields_behind > 0 && record.fields[record.fields.len() - fields_behind].bytes.is_empty();
            let answer = if is_before_empty { Answer::BeforeEmpty } else { Answer::BeforeOther };
            self.take_text(record, fields_behind, field.bytes.len(), answer);
        }
        if record.bytes(1) == b"300" {
            let most = &mut self.shapes[usize::from(in_block)];
            *most = shapes_in(record).max(*most);
        }
    }

    fn take_refused(&mut self, records: &[Record], refusal: Refusal) {
        if refusal.number == 6 {
            let record = &records[refusal.record];
            let fields_behind = record.fields.len() - refusal.field;
            self.take_text(record, fields_behind, record.bytes(refusal.field).len(), Answer::Refused);
        }
    }

    fn take_text(&mut self, record: &Record, fields_behind: usize, length: usize, answer: Answer) {
        let indicator = record.bytes(1);
        if is_text(indicator, fields_behind) {
            self.texts.insert((indicator.to_vec(), fields_behind, length, answer));
        }
    }
}

/// The last field of a record, or the last that isn't empty, if it is a text.
fn last_text<'a>(record: &Record<'a>) -> Option<&'a [u8]> {
    let (fields_behind, last) = record.fields.iter().rev().enumerate().find(|(_, field)| !field.bytes.is_empty())?;
    if is_text(record.bytes(1), fields_behind) {
        return Some(last.bytes);
    }
    is_text(record.bytes(1), 0).then_some(b"")
}

// --- Files that end behind a text ---

/// The texts behind which a file ends, each with whether its comma follows and what follows then. There can be two: a
/// comma stands behind one field and before another, which is empty.
fn cuts_of(bytes: &[u8], records: &[Record], refusal: Refusal) -> Vec<(usize, bool, &'static str)> {
    let Some(last) = LastRecord::of(bytes, records) else { return Vec::new() };
    let mut cuts = Vec::new();
    if last.is_refused_without_comma(refusal) {
        cuts.extend(last.text(0).map(|text| (text.len(), false, last.end)));
    }
    if last.is_refused_with_comma(refusal) && last.fields.last().is_some_and(|field| field.is_empty()) {
        cuts.extend(last.text(1).map(|text| (text.len(), true, last.end)));
    }
    cuts
}

/// The last bytes of a file from a record's start on, be they a record or not.
struct LastRecord<'a> {
    start: usize,
    number: usize,
    fields: Vec<&'a [u8]>,
    /// What they end with of a record's end.
    end: &'static str,
    /// How many fields a record of this kind has here.
    whole: usize,
    file_length: usize,
}

impl<'a> LastRecord<'a> {
    fn of(bytes: &'a [u8], records: &[Record]) -> Option<LastRecord<'a>> {
        let (records, end) = match records {
            [before @ .., last] if last.end == bytes.len() => (before, "\r\n"),
            _ if bytes.ends_with(b"\r") => (records, "\r"),
            _ => (records, ""),
        };
        let start = records.last().map_or(0, |record| record.end);
        let fields: Vec<&[u8]> = bytes[start..bytes.len() - end.len()].split(|byte| *byte == b',').collect();
        let channel = records.iter().rev().find(|record| record.bytes(1) == b"200");
        let n = channel.and_then(|channel| intervals_for_field(channel.fields.get(8)?.bytes)).unwrap_or(0);
        let whole = layout(kind_of(fields[0])?, n).len();
        Some(LastRecord { start, number: records.len(), fields, end, whole, file_length: bytes.len() })
    }

    /// The field with so many fields behind it that are there, if it is a text.
    fn text(&self, present_behind: usize) -> Option<&'a [u8]> {
        let number = self.fields.len().checked_sub(present_behind)?;
        let fields_behind = self.whole.checked_sub(number)?;
        is_text(self.fields[0], fields_behind).then(|| self.fields[number - 1])
    }

    fn is_refused_for_its_end(&self, refusal: Refusal) -> bool {
        refusal == Refusal { number: 2, place: self.start, record: self.number, field: 0 }
    }

    /// Whether it has no end, or is complete and has nothing behind it, or its last field breaks its rule.
    fn is_refused_without_comma(&self, refusal: Refusal) -> bool {
        if self.end != "\r\n" {
            return self.is_refused_for_its_end(refusal);
        }
        let nothing_behind = Refusal { number: 2, place: self.file_length, record: self.number + 1, field: 0 };
        let last_field = (6, self.number, self.whole);
        self.fields.len() == self.whole
            && (refusal == nothing_behind || (refusal.number, refusal.record, refusal.field) == last_field)
    }

    /// Whether it has no end, or has one field too many.
    fn is_refused_with_comma(&self, refusal: Refusal) -> bool {
        if self.end != "\r\n" {
            return self.is_refused_for_its_end(refusal);
        }
        let too_many = Refusal { number: 5, place: self.start, record: self.number, field: 0 };
        self.fields.len() == self.whole + 1 && refusal == too_many
    }
}

// --- Values ---

/// How many shapes the values of a 300 have: digits before the point, and digits behind it.
fn shapes_in(record: &Record) -> usize {
    let shape = |value: &[u8]| (value.iter().take_while(|byte| **byte != b'.').count(), decimals_of(value));
    let values = 3..=record.fields.len() - 5;
    values.map(|number| shape(record.bytes(number))).collect::<BTreeSet<(usize, usize)>>().len()
}

// --- What a run has ---

fn look_for_texts(found: &Found) {
    for (indicator, fields_behind, may_have, may_be_before_empty) in TEXTS {
        let long = if *may_have.end() == 240 { &LONG_LENGTHS[..] } else { &[] };
        for length in SHORT_LENGTHS.chain(long.iter().copied()) {
            let answers: &[Answer] = match (may_have.contains(&length), may_be_before_empty) {
                (true, true) => &[Answer::BeforeEmpty, Answer::BeforeOther],
                (true, false) => &[Answer::BeforeOther],
                (false, _) => &[Answer::Refused],
            };
            for answer in answers {
                let text = (indicator.as_bytes().to_vec(), fields_behind, length, *answer);
                assert!(found.texts.contains(&text), "{indicator}, {fields_behind} behind, {length} bytes, {answer:?}");
            }
        }
    }
}

fn look_for_ends(found: &Found) {
    for length in SHORT_LENGTHS {
        for has_comma in [false, true] {
            for end in ["", "\r", "\r\n"] {
                let is_there = found.cut_files.contains(&(length, has_comma, end));
                assert!(is_there, "a file that ends behind {length} bytes, comma: {has_comma}, {end:?}");
            }
        }
        assert!(found.block_ends.contains(&length), "a block that ends behind {length} bytes");
    }
}

#[test]
fn a_run_has_every_length() {
    for seed in [1, 2, 3] {
        let mut found = Found::default();
        (0..5000).for_each(|index| found.take(&case(seed, index)));
        look_for_texts(&found);
        look_for_ends(&found);
        assert_eq!(found.shapes, [49; 2], "shapes of value in one 300, of a file and of a block");
    }
}
