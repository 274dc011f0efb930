//! Tests: a run of files to be written as tables has every kind of row that the tables tell apart, and refused files
//! among the accepted ones.

use super::file;
use super::parts::{note_of, records_of};
use super::units::look_for_spellings;
use super::words::{time_at, NoteWords, EDGE_DATES};
use crate::check::{check, read_file, LONGEST_FILE};
use crate::fields::{decimals_of, value, LONGEST_DESCRIPTION, MOST_DECIMALS, VALUE_LIMIT};
use crate::records::Record;
use crate::refusal::FILE_TOO_LONG;
use std::collections::BTreeSet;

/// The records of each accepted file.
type Files<'a> = [Vec<Record<'a>>];

fn records_with<'a>(files: &'a Files<'a>, indicator: &'a str) -> impl Iterator<Item = &'a Record<'a>> {
    files.iter().flatten().filter(move |record| record.bytes(1) == indicator.as_bytes())
}

/// The number of values in a 300.
fn intervals(day: &Record) -> usize {
    day.fields.len() - 7
}

// --- Units, dates and times ---

fn look_for_units(files: &Files) {
    for (indicator, field) in [("200", 8), ("250", 20)] {
        let words = records_with(files, indicator).map(|record| record.bytes(field).to_vec()).collect();
        look_for_spellings(&words, indicator);
    }
}

fn look_for_dates(files: &Files) {
    let days: BTreeSet<(usize, u64)> = records_with(files, "300").map(|day| (intervals(day), day.decimal(2))).collect();
    for n in [48, 96, 288] {
        for date in EDGE_DATES {
            assert!(days.contains(&(n, u64::from(date))), "a day of {n} intervals on {date}");
        }
    }
}

fn look_for_read_times(files: &Files) {
    for field in [10, 15] {
        let times: Vec<u64> = records_with(files, "250").map(|record| record.decimal(field)).collect();
        let has = |is_so: fn(u64) -> bool| times.iter().any(|time| is_so(*time));
        assert!(has(|time| time % 100 > 0), "seconds in field {field}");
        assert!(has(|time| time % 1_000_000 == 0), "midnight in field {field}");
        assert!(has(|time| time % 1_000_000 == 235_959), "the last second of a day in field {field}");
        assert!(EDGE_DATES.iter().any(|date| times.contains(&time_at(*date, 0))), "an edge in field {field}");
    }
}

// --- Notes ---

/// What a kind of note is called, and whether a note is one.
type NoteKind = (&'static str, fn(&NoteWords) -> bool);

const NOTE_KINDS: [NoteKind; 23] = [
    ("actual", |note| note.quality == b"A"),
    ("estimated", |note| note.quality[0] == b'E'),
    ("final substituted", |note| note.quality[0] == b'F'),
    ("substituted", |note| note.quality[0] == b'S'),
    ("a method that begins with 0", |note| note.quality.get(1) == Some(&b'0')),
    ("no reason", |note| note.reason.is_empty()),
    ("reason 0", |note| note.reason == b"0"),
    ("a reason of one digit", |note| note.reason.len() == 1 && note.reason != b"0"),
    ("a reason of two digits", |note| note.reason.len() == 2),
    ("a reason of three digits", |note| note.reason.len() == 3),
    ("no description", |note| note.description.is_empty()),
    ("a description without quotes", |note| !note.description.is_empty() && quotes_in(note) == 0),
    ("a description without a reason", |note| !note.description.is_empty() && note.reason.is_empty()),
    ("one quote inside", |note| quotes_in(note) == 1 && ends_in_quotes(note) == [false, false]),
    ("several quotes inside", |note| quotes_in(note) > 1 && ends_in_quotes(note) == [false, false]),
    ("two quotes beside each other, inside", |note| {
        note.description.windows(4).any(|bytes| bytes[0] != b'"' && bytes[1..3] == *b"\"\"" && bytes[3] != b'"')
    }),
    ("quotes and spaces", |note| quotes_in(note) > 0 && note.description.contains(&b' ')),
    ("a quote at the start", |note| ends_in_quotes(note) == [true, false]),
    ("a quote at the end", |note| ends_in_quotes(note) == [false, true]),
    ("a quote at both ends", |note| ends_in_quotes(note) == [true, true] && quotes_in(note) < note.description.len()),
    ("a quote alone", |note| note.description == b"\""),
    ("several quotes alone", |note| (2..9).contains(&quotes_in(note)) && quotes_in(note) == note.description.len()),
    ("as many quotes as can be", |note| quotes_in(note) == LONGEST_DESCRIPTION),
];

fn quotes_in(note: &NoteWords) -> usize {
    note.description.iter().filter(|byte| **byte == b'"').count()
}

/// Whether a quote stands first, and whether one stands last.
fn ends_in_quotes(note: &NoteWords) -> [bool; 2] {
    [note.description.first(), note.description.last()].map(|end| end == Some(&b'"'))
}

/// The notes that come into a table from records of this kind: not those of V days, nor of previous reads.
fn notes_in(files: &Files, indicator: &str) -> Vec<NoteWords> {
    let note = |record: &Record| match indicator {
        "300" => note_of(record, intervals(record) + 3),
        "400" => note_of(record, 4),
        _ => note_of(record, 16),
    };
    records_with(files, indicator).map(note).filter(|note| note.quality != b"V").collect()
}

fn look_for_notes(files: &Files) {
    for indicator in ["300", "400", "250"] {
        let notes = notes_in(files, indicator);
        for (name, is_of_kind) in NOTE_KINDS {
            assert!(notes.iter().any(is_of_kind), "{name} in a {indicator}");
        }
        let has_null_data = notes.iter().any(|note| note.quality == b"N");
        assert_eq!(has_null_data, indicator != "250", "null data in a {indicator}");
    }
}

// --- Values ---

/// What a kind of value is called, and whether a field with so many millionths is one.
type ValueKind = (&'static str, fn(&[u8], u64) -> bool);

const VALUE_KINDS: [ValueKind; 10] = [
    ("0", |field, _| field == b"0"),
    ("0 with decimals", |field, millionths| millionths == 0 && decimals_of(field) > 0),
    ("less than 1", |_, millionths| (1..1_000_000).contains(&millionths)),
    ("a whole number with decimals", |field, millionths| {
        millionths > 0 && millionths % 1_000_000 == 0 && decimals_of(field) > 0
    }),
    ("a whole number that ends in 0", |field, millionths| {
        millionths > 0 && millionths % 10_000_000 == 0 && decimals_of(field) == 0
    }),
    ("zeros before it", |field, millionths| field[0] == b'0' && millionths >= 1_000_000),
    ("zeros behind it", |field, millionths| millionths % 1_000_000 > 0 && field.last() == Some(&b'0')),
    ("zeros behind its point", |_, millionths| (1..100_000).contains(&(millionths % 1_000_000))),
    ("seven digits before its point", |_, millionths| millionths >= VALUE_LIMIT / 10),
    ("six decimals", |field, millionths| decimals_of(field) == MOST_DECIMALS && millionths % 10 > 0),
];

fn look_for_values(files: &Files) {
    let in_days = records_with(files, "300").flat_map(|day| (3..intervals(day) + 3).map(|field| day.bytes(field)));
    let in_accumulations = records_with(files, "250").map(|record| record.bytes(19));
    for (indicator, fields) in [("300", in_days.collect::<Vec<&[u8]>>()), ("250", in_accumulations.collect())] {
        for (name, is_of_kind) in VALUE_KINDS {
            let is_there = |field: &&[u8]| is_of_kind(field, value(field).expect("a value that keeps its rule"));
            assert!(fields.iter().any(is_there), "{name} in a {indicator}");
        }
    }
}

fn look_for_sums(accepted: &[Vec<u8>]) {
    let mut sums: Vec<u64> = Vec::new();
    for file in accepted {
        let content = read_file(file).expect("an accepted file");
        sums.extend(content.days.iter().map(|day| day.values.iter().sum::<u64>()));
    }
    let has = |is_so: fn(u64) -> bool| sums.iter().any(|sum| is_so(*sum));
    assert!(has(|sum| sum == 0), "a day that adds up to 0");
    assert!(has(|sum| sum % 1_000_000 > 0), "a day that adds up to no whole number");
    assert!(has(|sum| sum >= VALUE_LIMIT), "a day that adds up to more than one value can be");
}

// --- Records beside each other ---

/// A record, another kind that stands behind it, and how many of these may stand before the next such record.
const COUNTS: [(&str, &str, &[usize]); 6] = [
    ("100", "200", &[1, 2, 3]),
    ("200", "300", &[1, 2, 3]),
    ("300", "400", &[0, 2, 3, 48]),
    ("300", "500", &[0, 1, 2, 3]),
    ("100", "250", &[2, 3, 4]),
    ("250", "550", &[0, 1]),
];

fn look_for_counts(files: &Files) {
    let has_indicator = |record: &Record, indicator: &str| record.bytes(1) == indicator.as_bytes();
    for (indicator, behind, counts) in COUNTS {
        let parts = files.iter().flat_map(|file| file.split(|record| has_indicator(record, indicator)).skip(1));
        let found: BTreeSet<usize> =
            parts.map(|part| part.iter().filter(|record| has_indicator(record, behind)).count()).collect();
        for count in counts {
            assert!(found.contains(count), "a {indicator} with {count} of {behind}");
        }
    }
}

// --- Refused files ---

fn look_for_refused(refused: &[Vec<u8>]) {
    let has_row_before_refusal = |file: &&Vec<u8>| {
        let refusal = check(file).expect_err("a refused file");
        records_of(file).iter().take(refusal.record).any(|record| [&b"300"[..], b"250"].contains(&record.bytes(1)))
    };
    assert!(refused.iter().filter(has_row_before_refusal).count() > 4, "refused behind a day or a 250");
    let is_too_long = |file: &Vec<u8>| check(file).is_err_and(|refusal| refusal.number == FILE_TOO_LONG);
    assert!(refused.iter().any(is_too_long), "refused for its length");
}

#[test]
fn a_run_has_every_kind_of_row() {
    for seed in [1, 2, 3] {
        let (accepted, refused): (Vec<Vec<u8>>, Vec<Vec<u8>>) =
            (0..200).map(|index| file(seed, index)).partition(|file| check(file).is_ok());
        assert!((10..=20).contains(&refused.len()), "{} refused", refused.len());
        look_for_refused(&refused);
        assert!(accepted.iter().any(|file| file.len() == LONGEST_FILE), "a file of the largest length");
        look_for_sums(&accepted);

        let files: Vec<Vec<Record>> = accepted.iter().map(|file| records_of(file)).collect();
        look_for_units(&files);
        look_for_dates(&files);
        look_for_read_times(&files);
        look_for_notes(&files);
        look_for_values(&files);
        look_for_counts(&files);
    }
}

#[test]
fn a_file_depends_on_seed_and_number_alone() {
    assert_eq!(file(7, 33), file(7, 33));
    assert_ne!(file(7, 33), file(8, 33));
}
