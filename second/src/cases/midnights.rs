//! Tests: a run has read times of every kind that the rules tell apart at midnight, passed and refused, in files and in
//! blocks on their own, and it has the end of the last day as every other time.

use super::case;
use super::parts::{answer, records_of, Checked};
use super::requests::words_and_bytes;
use super::words::{time_at, LAST_DATE};
use crate::fields::{day_after, decimal, is_real_date, END_OF_LAST_DAY};

/// What a kind of read time is called, the number of its refusal if it has one, and whether a time under a date is one.
type ReadKind = (&'static str, Option<u64>, fn(u32, u64) -> bool);

const READ_KINDS: [ReadKind; 28] = [
    ("first second", None, |date, time| time == time_at(date, 1)),
    ("last second", None, |date, time| time == time_at(date, 235_959)),
    ("end inside a month", None, |date, time| date % 100 < 28 && time == time_at(date + 1, 0)),
    ("end of a month of 30 days", None, |date, time| date % 100 == 30 && time == next_month(date)),
    ("end of a month of 31 days", None, |date, time| date % 100 == 31 && time == next_month(date)),
    ("end of 28 February, common year", None, |date, time| is_28_february(date) && time == next_month(date)),
    ("end of 28 February, leap year", None, |date, time| is_28_february(date) && time == time_at(date + 1, 0)),
    ("end of 29 February", None, |date, time| date % 10_000 == 229 && time == next_month(date)),
    ("end of 28 February 1900", None, |date, time| (date, time) == (19000228, 19000301000000)),
    ("end of 28 February 2000", None, |date, time| (date, time) == (20000228, 20000229000000)),
    ("end of 28 February 2100", None, |date, time| (date, time) == (21000228, 21000301000000)),
    ("end of a year", None, |date, time| date % 10_000 == 1231 && time == next_year(date)),
    ("end of the last day", None, |date, time| (date, time) == (LAST_DATE, 22000101000000)),
    ("own midnight", Some(12), |date, time| time == time_at(date, 0)),
    ("own midnight of the last day", Some(12), |date, time| (date, time) == (LAST_DATE, 21991231000000)),
    ("a second behind the end", Some(12), |date, time| time == time_at(day_after(date), 1)),
    ("last second of the day before", Some(12), |date, time| time == time_at(date - 1, 235_959)),
    ("end of the day after", Some(12), |date, time| time == time_at(day_after(day_after(date)), 0)),
    ("1 March for 29 February", Some(12), |date, time| {
        is_28_february(date) && is_real_date(date + 1) && time == next_month(date)
    }),
    ("end of the last day, a day early", Some(12), |date, time| (date, time) == (21991230, 22000101000000)),
    ("end of the last day, earlier", Some(12), |date, time| date < 21991230 && time == 22000101000000),
    ("29 February for 1 March", Some(6), |date, time| is_28_february(date) && time == time_at(date + 1, 0)),
    ("31st of a month of 30 days", Some(6), |date, time| date % 100 == 30 && time == time_at(date + 1, 0)),
    ("a second behind the last day", Some(6), |date, time| (date, time) == (LAST_DATE, 22000101000001)),
    ("a second behind it, earlier", Some(6), |date, time| date < LAST_DATE && time == 22000101000001),
    ("a day behind the last day", Some(6), |date, time| (date, time) == (LAST_DATE, 22000102000000)),
    ("a day behind it, earlier", Some(6), |date, time| date < LAST_DATE && time == 22000102000000),
    ("day 0 behind the last day", Some(6), |date, time| (date, time) == (LAST_DATE, 22000100000000)),
];

fn is_28_february(date: u32) -> bool {
    date % 10_000 == 228
}

/// Midnight of the first day of the month after.
fn next_month(date: u32) -> u64 {
    time_at(date / 100 * 100 + 101, 0)
}

/// Midnight of the first day of the year after.
fn next_year(date: u32) -> u64 {
    time_at(date / 10_000 * 10_000 + 10_101, 0)
}

/// The times that are no read times, each by its record and the number of fields behind it.
const OTHER_TIMES: [(&str, usize); 7] =
    [("100", 2), ("300", 1), ("300", 0), ("250", 13), ("250", 8), ("250", 1), ("250", 0)];

/// A field that was refused, or the read time of a 500 that passed.
struct Judged {
    in_block: bool,
    refusal: Option<u64>,
    indicator: Vec<u8>,
    fields_behind: usize,
    content: Vec<u8>,
    /// Of the last day that begins before its record, 0 if none does.
    date: u32,
}

impl Judged {
    fn is_read_time(&self, (_, refusal, is_of_kind): ReadKind) -> bool {
        let is_time = self.content.len() == 14 && self.content.iter().all(u8::is_ascii_digit);
        self.indicator == b"500"
            && self.fields_behind == 1
            && self.refusal == refusal
            && is_time
            && is_of_kind(self.date, decimal(&self.content))
    }

    /// Whether this is the end of the last day, with its seconds or without, refused as one of the other times.
    fn is_other_time(&self, indicator: &str, fields_behind: usize) -> bool {
        self.indicator == indicator.as_bytes()
            && self.fields_behind == fields_behind
            && self.refusal == Some(6)
            && [END_OF_LAST_DAY, &END_OF_LAST_DAY[..12]].contains(&&self.content[..])
    }
}

/// The fields judged in a case's file or block. A day to be written has none.
fn judged_in(case: &[u8]) -> Vec<Judged> {
    let Some(checked) = Checked::of_case(case) else { return Vec::new() };
    let in_block = checked.block.is_some();
    let mut judged = Vec::new();
    let mut date = 0;
    for record in records_of(checked.bytes) {
        let refusal = checked.refusal.filter(|refusal| refusal.record == record.number);
        let read_time = if record.bytes(1) == b"500" { 4 } else { 0 };
        let field = refusal.map_or(read_time, |refusal| refusal.field);
        if field > 0 {
            judged.push(Judged {
                in_block,
                refusal: refusal.map(|refusal| refusal.number),
                indicator: record.bytes(1).to_vec(),
                fields_behind: record.fields.len() - field,
                content: record.bytes(field).to_vec(),
                date,
            });
        }
        if refusal.is_some() {
            break;
        }
        if record.bytes(1) == b"300" {
            date = record.decimal(2) as u32;
        }
    }
    judged
}

/// Whether a case is a day to be written that is unfit and has the end of the last day at this place of its line.
fn writes_end_of_last_day(case: &[u8], place: usize) -> bool {
    let (words, _) = words_and_bytes(case);
    if words[0] != "write" || words[place].as_bytes() != END_OF_LAST_DAY {
        return false;
    }
    answer(case).starts_with(b"refused 16 ")
}

#[test]
fn a_run_has_every_kind_of_midnight() {
    for seed in [1, 2] {
        let cases: Vec<Vec<u8>> = (0..5000).map(|index| case(seed, index)).collect();
        let judged: Vec<Judged> = cases.iter().flat_map(|case| judged_in(case)).collect();
        for in_block in [false, true] {
            let here = || judged.iter().filter(|field| field.in_block == in_block);
            for kind in READ_KINDS {
                assert!(here().any(|field| field.is_read_time(kind)), "{} of block: {in_block}", kind.0);
            }
            for (indicator, fields_behind) in OTHER_TIMES {
                let stands_here = !in_block || indicator == "300";
                let is_there = here().any(|field| field.is_other_time(indicator, fields_behind));
                assert_eq!(is_there, stands_here, "{indicator}, {fields_behind} behind, of block: {in_block}");
            }
        }
        for (name, place) in [("update", 3), ("load", 4)] {
            assert!(cases.iter().any(|case| writes_end_of_last_day(case, place)), "{name} time of a day to be written");
        }
    }
}
