//! Tests: a run has null data of every kind that the rules tell apart, passed and refused, in files, in blocks on their
//! own and in days to be written.

use super::case;
use super::parts::{answer, note_of, number, records_of, Checked, DayToWrite, Fault};
use super::requests::words_and_bytes;
use super::words::NoteWords;
use crate::fields::NO_METHOD;
use crate::notes::NO_REASON;
use crate::records::Record;
use crate::refusal::Refusal;

/// The notes and covers of files and blocks.
#[derive(Default)]
struct Found {
    notes: Vec<Noted>,
    covers: Vec<Cover>,
}

/// A note of an accepted file or block, or one at whose quality it was refused.
struct Noted {
    in_block: bool,
    indicator: Vec<u8>,
    /// Number of the quality field, 0 for a 300's.
    field: usize,
    note: NoteWords,
    refusal: Option<u64>,
}

/// What the 400s of one V day say, in an accepted file or block, or in one that was refused for it (11).
struct Cover {
    in_block: bool,
    notes: Vec<NoteWords>,
    is_refused: bool,
}

impl Found {
    /// Takes what a case's file or block has.
    fn take(&mut self, case: &[u8]) {
        if let Some(checked) = Checked::of_case(case) {
            self.take_records(checked.bytes, checked.block.is_some(), checked.refusal);
        }
    }

    fn take_records(&mut self, bytes: &[u8], in_block: bool, refusal: Option<Refusal>) {
        let mut cover = Vec::new();
        let records = records_of(bytes);
        for (number, record) in records.iter().enumerate() {
            let indicator = record.bytes(1);
            let refused_here = refusal.filter(|refusal| refusal.record == number);
            for quality in quality_fields(record) {
                let note = note_of(record, quality);
                if indicator == b"400" {
                    cover.push(note.clone());
                }
                if refusal.is_none() || refused_here.is_some_and(|refusal| refusal.field == quality) {
                    let field = if indicator == b"300" { 0 } else { quality };
                    let refusal = refusal.map(|refusal| refusal.number);
                    self.notes.push(Noted { in_block, indicator: indicator.to_vec(), field, note, refusal });
                }
            }
            let goes_on = records.get(number + 1).is_some_and(|next| next.bytes(1) == b"400");
            let is_refused = refused_here.is_some_and(|refusal| refusal.number == 11);
            if is_refused || !goes_on {
                let notes = std::mem::take(&mut cover);
                if is_refused || refusal.is_none() && !notes.is_empty() {
                    self.covers.push(Cover { in_block, notes, is_refused });
                }
            }
            if refused_here.is_some() {
                break;
            }
        }
    }
}

/// The numbers of a record's quality fields, if it has as many fields as it should.
fn quality_fields(record: &Record) -> Vec<usize> {
    match (record.bytes(1), record.fields.len()) {
        (b"300", fields @ (55 | 103 | 295)) => vec![fields - 4],
        (b"400", 6) => vec![4],
        (b"250", 23) => vec![11, 16],
        _ => Vec::new(),
    }
}

// --- Notes ---

/// What a kind of null data is called, the number of its refusal in a 300 or a 400 if it has one, and whether a note is
/// one. In a 250 each of them is refused by its quality (6).
type NoteKind = (&'static str, Option<u64>, fn(&NoteWords) -> bool);

const NOTE_KINDS: [NoteKind; 9] = [
    ("null alone", None, |note| has(note, b"N", b"") && note.description.is_empty()),
    ("null with a description", None, |note| has(note, b"N", b"") && !note.description.is_empty()),
    ("null with a reason", None, |note| note.quality == b"N" && ![b"", &b"0"[..]].contains(&&note.reason[..])),
    ("null with reason 0 and a description", None, |note| has(note, b"N", b"0") && !note.description.is_empty()),
    ("null with reason 0 and no description", Some(7), |note| has(note, b"N", b"0") && note.description.is_empty()),
    ("null with a method", Some(6), |note| note.quality.len() == 3 && note.quality[0] == b'N'),
    ("null as a small letter", Some(6), |note| note.quality == b"n"),
    ("null with a space before it", Some(6), |note| note.quality == b" N"),
    ("null with a space behind it", Some(6), |note| note.quality == b"N "),
];

fn has(note: &NoteWords, quality: &[u8], reason: &[u8]) -> bool {
    note.quality == quality && note.reason == reason
}

fn look_for_notes(notes: &[Noted]) {
    for (name, in_day, is_of_kind) in NOTE_KINDS {
        for (in_block, indicator, field, refusal) in [
            (false, "300", 0, in_day),
            (false, "400", 4, in_day),
            (true, "300", 0, in_day),
            (true, "400", 4, in_day),
            (false, "250", 11, Some(6)),
            (false, "250", 16, Some(6)),
        ] {
            let is_there = notes.iter().any(|noted| {
                (noted.in_block, &noted.indicator[..], noted.field) == (in_block, indicator.as_bytes(), field)
                    && noted.refusal == refusal
                    && is_of_kind(&noted.note)
            });
            assert!(is_there, "{name}, {refusal:?}, field {field} of a {indicator}, of block: {in_block}");
        }
    }
}

// --- Covers ---

/// What a kind of cover is called, whether it is refused (11), and whether a cover is one.
type CoverKind = (&'static str, bool, fn(&Cover) -> bool);

const COVER_KINDS: [CoverKind; 11] = [
    ("null behind actual, else alike", false, |cover| cover.has(|first, next| else_alike(first, next, "AN"))),
    ("actual behind null, else alike", false, |cover| cover.has(|first, next| else_alike(first, next, "NA"))),
    ("null behind actual of the same reason", false, |cover| {
        cover.has(|first, next| else_alike(first, next, "AN") && !first.reason.is_empty())
    }),
    ("actual and null all day, else alike", false, |cover| {
        cover.has_only(b"AN") && cover.notes.iter().all(|note| says_same_why(note, &cover.notes[0]))
    }),
    ("estimate behind null", false, |cover| cover.has(|first, next| first.quality == b"N" && next.quality[0] == b'E')),
    ("null behind equal null", false, |cover| cover.has(|first, next| else_alike(first, next, "NN"))),
    ("null all day, of two reasons", false, |cover| {
        cover.has_only(b"N") && cover.has(|first, next| first.reason != next.reason)
    }),
    ("null all day, of two descriptions", false, |cover| {
        cover.has_only(b"N") && cover.has(|first, next| first.description != next.description)
    }),
    ("one 400 of null", true, |cover| cover.has_only(b"N") && cover.notes.len() == 1),
    ("several 400s of equal null", true, |cover| cover.has_only(b"N") && cover.notes.len() > 1),
    ("400s of equal null with a reason", true, |cover| cover.has_only(b"N") && !cover.notes[0].reason.is_empty()),
];

impl Cover {
    /// Whether two neighbours are so.
    fn has(&self, are_so: fn(&NoteWords, &NoteWords) -> bool) -> bool {
        self.notes.windows(2).any(|pair| are_so(&pair[0], &pair[1]))
    }

    /// Whether it has no other flags.
    fn has_only(&self, flags: &[u8]) -> bool {
        self.notes.iter().all(|note| flags.contains(&note.quality[0]))
    }
}

/// Whether neighbours have these two letters as their qualities, and agree in all else.
fn else_alike(first: &NoteWords, next: &NoteWords, letters: &str) -> bool {
    [&first.quality[..], &next.quality].concat() == letters.as_bytes() && says_same_why(first, next)
}

fn says_same_why(note: &NoteWords, other: &NoteWords) -> bool {
    (&note.reason, &note.description) == (&other.reason, &other.description)
}

fn look_for_covers(covers: &[Cover]) {
    for in_block in [false, true] {
        for (name, is_refused, is_of_kind) in COVER_KINDS {
            let is_here = |cover: &&Cover| (cover.in_block, cover.is_refused) == (in_block, is_refused);
            assert!(covers.iter().filter(is_here).any(is_of_kind), "{name}, of block: {in_block}");
        }
    }
}

// --- Days read and channels totalled ---

/// How many intervals of null data and of actual data the day has that a case reads, if it reads one.
fn intervals_read(case: &[u8]) -> Option<(usize, usize)> {
    if !case.starts_with(b"day ") {
        return None;
    }
    let answer = answer(case);
    let count = |quality: &[u8]| answer.windows(quality.len()).filter(|bytes| *bytes == quality).count();
    Some((count(b"/78/255/"), count(b"/65/255/")))
}

/// Whether a case totals a channel that has null data for whole days and nothing else, and finds more than 0.
fn totals_null_data(case: &[u8]) -> bool {
    let (words, bytes) = words_and_bytes(case);
    let ["total", channel, _] = words[..] else { return false };
    let answer = answer(case);
    if !bytes.starts_with(b"100,NEM12,") || !answer.starts_with(b"accepted ") || answer == b"accepted 0\n" {
        return false;
    }
    let records = records_of(bytes);
    let mut channels = records.split(|record| record.bytes(1) == b"200").skip(1);
    let mut under = channels.nth(number(channel)).expect("a channel").iter();
    under.all(|record| quality_fields(record).iter().all(|quality| record.bytes(*quality) == b"N"))
}

fn look_for_answers(cases: &[Vec<u8>]) {
    let read: Vec<(usize, usize)> = cases.iter().filter_map(|case| intervals_read(case)).collect();
    assert!(read.iter().any(|(null, actual)| *null >= 48 && *actual == 0), "a day of null data, read");
    assert!(read.iter().any(|(null, actual)| *null > 0 && *actual > 0), "a day of null and actual data, read");
    assert!(cases.iter().any(|case| totals_null_data(case)), "a channel of null data, totalled");
}

// --- Days to be written ---

impl DayToWrite {
    /// Whether it is fit and has neighbours of null data that are alike, but for the place of their description.
    fn has_null_described_twice(&self) -> bool {
        let description = |index: usize| self.text.get(self.starts[index]..)?.get(..self.lengths[index]);
        self.written().is_ok()
            && (1..48).any(|index| {
                self.flags[index - 1..=index] == [b'N'; 2]
                    && self.reasons[index - 1] == self.reasons[index]
                    && self.starts[index - 1] != self.starts[index]
                    && self.lengths[index] > 0
                    && description(index - 1) == description(index)
            })
    }
}

const FAULTS: [Fault; 3] = [
    (
        "null with a method",
        |day, index| day.flags[index] == b'N' && day.methods[index] != NO_METHOD,
        |day, index| day.methods[index] = NO_METHOD,
    ),
    ("null as a small letter", |day, index| day.flags[index] == b'n', |day, index| day.flags[index] = b'N'),
    (
        "null with reason 0 and no description",
        |day, index| day.flags[index] == b'N' && day.reasons[index] == 0 && day.lengths[index] == 0,
        |day, index| day.reasons[index] = NO_REASON,
    ),
];

/// What a kind of block is called that is written, and whether the notes and covers of one make it such.
type BlockKind = (&'static str, fn(&Found) -> bool);

const BLOCK_KINDS: [BlockKind; 5] = [
    ("null in the 300", |found| found.notes[0].note.quality == b"N"),
    ("null behind actual, else alike", |found| {
        found.covers.iter().any(|cover| cover.has(|first, next| else_alike(first, next, "AN")))
    }),
    ("actual behind null, else alike", |found| {
        found.covers.iter().any(|cover| cover.has(|first, next| else_alike(first, next, "NA")))
    }),
    ("null of two reasons", |found| {
        found.covers.iter().any(|cover| cover.has_only(b"N") && cover.has(|first, next| first.reason != next.reason))
    }),
    ("null of two descriptions", |found| {
        found
            .covers
            .iter()
            .any(|cover| cover.has_only(b"N") && cover.has(|first, next| first.description != next.description))
    }),
];

fn look_for_written_days(cases: &[Vec<u8>]) {
    let days: Vec<DayToWrite> = cases.iter().filter_map(|case| DayToWrite::of_case(case)).collect();
    for fault in FAULTS {
        assert!(days.iter().any(|day| day.is_unfit_by(fault)), "{}, to be written", fault.0);
    }
    let found_in = |block: Vec<u8>| {
        let mut found = Found::default();
        found.take_records(&block, true, None);
        found
    };
    let blocks: Vec<Found> = days.iter().filter_map(|day| day.written().ok()).map(found_in).collect();
    for (name, is_of_kind) in BLOCK_KINDS {
        assert!(blocks.iter().any(is_of_kind), "{name}, written");
    }
    assert!(days.iter().any(DayToWrite::has_null_described_twice), "equal null described at two places");
}

#[test]
fn a_run_has_every_kind_of_null_data() {
    for seed in [1, 2, 3] {
        let cases: Vec<Vec<u8>> = (0..5000).map(|index| case(seed, index)).collect();
        let mut found = Found::default();
        cases.iter().for_each(|case| found.take(case));
        look_for_notes(&found.notes);
        look_for_covers(&found.covers);
        look_for_answers(&cases);
        look_for_written_days(&cases);
    }
}
