//! Tests: a run has every unit, in every spelling and with values on both sides of its decimals, passed and refused,
//! and words and numbers that are no unit, in files, in blocks on their own and in days to be written.

use super::case;
use super::parts::{answer, records_of, Checked, DayToWrite, Fault};
use super::requests::words_and_bytes;
use super::words::{self, Fit};
use crate::block::check_block;
use crate::fields::{decimals_of, intervals_in_day, Rule, MOST_DECIMALS};
use crate::records::{layout, quality_fields, Kind, Record};
use crate::units::Unit;
use std::collections::BTreeSet;
use std::ops::RangeInclusive;

/// Where a value stands.
#[derive(Clone, Copy, Debug, PartialEq, Eq)]
enum Place {
    Day,
    Block,
    Quantity,
}

/// A value that passed, or one at which its file or block was refused.
struct Judged {
    place: Place,
    unit: Unit,
    /// The unit of the 200 or 250 before this one, if there is one.
    unit_before: Option<Unit>,
    decimals: usize,
    fit: Fit,
}

/// A unit's word that passed, or one at which its file was refused, or at whose quantity it was.
struct Named {
    indicator: Vec<u8>,
    word: Vec<u8>,
    /// Decimals of the quantity before it, if there is one.
    decimals: usize,
    /// The field that was refused, if one was.
    refused_field: Option<usize>,
}

/// What else is wrong with a record that has a value of too many decimals, and is asked before it or behind it.
#[derive(Clone, Copy, Debug, PartialEq, Eq)]
enum OtherFault {
    FieldBefore,
    FieldBehind,
    RuleAcross,
}

#[derive(Default)]
struct Found {
    values: Vec<Judged>,
    names: Vec<Named>,
    /// The faults beside values of too many decimals, the leftmost field at fault being refused.
    beside: Vec<(Place, OtherFault)>,
}

impl Found {
    fn take(&mut self, case: &[u8]) {
        let Some(Checked { bytes, block, refusal }) = Checked::of_case(case) else { return };
        let place = if block.is_some() { Place::Block } else { Place::Day };
        let mut unit = block.and_then(|(_, number)| Unit::numbered(number));
        let mut unit_before = None;
        for record in records_of(bytes) {
            let refused_here = refusal.filter(|refusal| refusal.record == record.number);
            let refused_field = refused_here.filter(|refusal| refusal.number == 6).map(|refusal| refusal.field);
            if refused_here.is_some() && refused_field.is_none() {
                break;
            }
            match record.bytes(1) {
                b"200" => {
                    self.take_name(&record, 8, refused_field);
                    (unit_before, unit) = (unit, Unit::named(record.bytes(8)));
                }
                b"250" => {
                    self.take_name(&record, 20, refused_field);
                    (unit_before, unit) = (unit, Unit::named(record.bytes(20)));
                    self.take_values(&record, 19..=19, Place::Quantity, [unit, unit_before], refused_field);
                }
                b"300" => {
                    let last = record.fields.len() - 5;
                    self.take_values(&record, 3..=last, place, [unit, unit_before], refused_field);
                }
                _ => (),
            }
            if let Some(refused_field) = refused_field {
                self.take_beside(&record, place, unit, refused_field);
                break;
            }
        }
    }

    /// Takes what stands beside a value of too many decimals in the record that was refused at this field.
    fn take_beside(&mut self, record: &Record, place: Place, unit: Option<Unit>, refused_field: usize) {
        let (place, kind) = match record.bytes(1) {
            b"300" => (place, Kind::R300),
            b"250" => (Place::Quantity, Kind::R250),
            _ => return,
        };
        let rules = layout(kind, record.fields.len().saturating_sub(7));
        let has_too_many = |field: &usize| {
            let value = record.bytes(*field);
            rules[field - 1] == Rule::Value
                && Rule::Value.allows(value)
                && unit.is_some_and(|unit| decimals_of(value) > unit.decimals())
        };
        let Some(value) = (1..=rules.len()).find(has_too_many) else { return };
        let broken: Vec<usize> =
            (1..=rules.len()).filter(|field| !rules[field - 1].allows(record.bytes(*field))).collect();
        let breaks_rule_across =
            || quality_fields(&rules).iter().any(|field| !record.note(*field).keeps_rules_across());
        let other_fault = match broken[..] {
            [first, ..] if first < value && first == refused_field => OtherFault::FieldBefore,
            [first, ..] if first > value && value == refused_field => OtherFault::FieldBehind,
            [] if breaks_rule_across() && value == refused_field => OtherFault::RuleAcross,
            _ => return,
        };
        self.beside.push((place, other_fault));
    }

    fn take_name(&mut self, record: &Record, field: usize, refused_field: Option<usize>) {
        self.names.push(Named {
            indicator: record.bytes(1).to_vec(),
            word: record.bytes(field).to_vec(),
            decimals: decimals_of(record.bytes(field - 1)),
            refused_field,
        });
    }

    /// Takes the values in these fields. Behind the one that is refused, if one is, none was looked at.
    fn take_values(
        &mut self,
        record: &Record,
        fields: RangeInclusive<usize>,
        place: Place,
        [unit, unit_before]: [Option<Unit>; 2],
        refused_field: Option<usize>,
    ) {
        let Some(unit) = unit else { return };
        for field in fields.filter(|field| refused_field.is_none_or(|refused| *field <= refused)) {
            let value = record.bytes(field);
            let is_refused = refused_field == Some(field);
            if let Some(fit) = fit_of(value, unit).filter(|fit| (*fit != Fit::Full) == is_refused) {
                self.values.push(Judged { place, unit, unit_before, decimals: decimals_of(value), fit });
            }
        }
    }
}

/// How a value stands to its unit's decimals, if it stands so that a test asks for it.
fn fit_of(value: &[u8], unit: Unit) -> Option<Fit> {
    let (has, may_have) = (decimals_of(value), unit.decimals());
    let (up_to_limit, past) = value.split_at(value.len() - has.saturating_sub(may_have));
    let ends_in_zero = |digits: &[u8]| digits.last() == Some(&b'0');
    match past {
        [] if has == may_have && !ends_in_zero(up_to_limit) => Some(Fit::Full),
        [digit] if *digit != b'0' => Some(Fit::OnePast),
        [_, ..] if past.iter().all(|digit| *digit == b'0') => Some(Fit::ZerosPast),
        _ => None,
    }
}

// --- Values ---

fn look_for_values(values: &[Judged]) {
    for unit in Unit::all() {
        for place in [Place::Day, Place::Block, Place::Quantity] {
            let here = || values.iter().filter(|value| (value.place, value.unit) == (place, unit));
            for fit in [Fit::Full, Fit::OnePast, Fit::ZerosPast] {
                assert!(here().any(|value| value.fit == fit), "{fit:?} in {}, {place:?}", unit.name());
            }
            if place != Place::Block {
                look_for_neighbours(unit, &here().collect::<Vec<&Judged>>());
            }
        }
    }
}

/// Looks for values that show whether the unit before was kept: ones that it would refuse, and refused ones that it
/// would take.
fn look_for_neighbours(unit: Unit, values: &[&Judged]) {
    let decimals_before = |value: &Judged| value.unit_before.map(Unit::decimals);
    if unit.decimals() > 1 {
        let would_be_refused = |value: &&Judged| decimals_before(value).is_some_and(|before| before < value.decimals);
        let passed = values.iter().filter(|value| value.fit == Fit::Full);
        assert!(passed.copied().any(|value| would_be_refused(&value)), "{} behind fewer decimals", unit.name());
    }
    for fit in [Fit::OnePast, Fit::ZerosPast] {
        if unit.decimals() < MOST_DECIMALS {
            let would_pass = |value: &&Judged| decimals_before(value).is_some_and(|before| before >= value.decimals);
            let refused = values.iter().filter(|value| value.fit == fit);
            assert!(refused.copied().any(|value| would_pass(&value)), "{fit:?} in {} behind more", unit.name());
        }
    }
}

fn look_for_faults_beside(beside: &[(Place, OtherFault)]) {
    for place in [Place::Day, Place::Quantity] {
        for fault in [OtherFault::FieldBefore, OtherFault::FieldBehind, OtherFault::RuleAcross] {
            assert!(beside.contains(&(place, fault)), "too many decimals beside {fault:?}, {place:?}");
        }
    }
}

// --- Names ---

fn look_for_names(names: &[Named]) {
    for (indicator, field) in [("200", 8), ("250", 20)] {
        let here = || names.iter().filter(|named| named.indicator == indicator.as_bytes());
        let passed = here().filter(|named| named.refused_field.is_none()).map(|named| named.word.clone());
        look_for_spellings(&passed.collect(), indicator);
        for word in words::NEARLY_UNITS {
            let is_refused = |named: &Named| named.refused_field == Some(field) && named.word == word.as_bytes();
            assert!(here().any(is_refused), "{word:?} in a {indicator}");
        }
    }
}

/// Looks for every unit as the table spells it, in small letters, in capitals and mixed.
pub fn look_for_spellings(words: &BTreeSet<Vec<u8>>, indicator: &str) {
    for unit in Unit::all() {
        let name = unit.name().as_bytes();
        let told = [name.to_vec(), name.to_ascii_lowercase(), name.to_ascii_uppercase()];
        for spelling in &told {
            assert!(words.contains(spelling), "{spelling:?} in a {indicator}");
        }
        let is_mixed = |word: &Vec<u8>| Unit::named(word) == Some(unit) && !told.contains(word);
        assert_eq!(words.iter().any(is_mixed), name.len() > 1, "{} mixed in a {indicator}", unit.name());
    }
}

/// Looks for quantities before words that are no unit: 01's rule alone holds for them.
fn look_for_quantities_without_unit(names: &[Named]) {
    for word in words::NEARLY_UNITS {
        let is_there = |decimals: usize, refused_field: usize| {
            names.iter().any(|named| {
                (&named.indicator[..], &named.word[..]) == (b"250", word.as_bytes())
                    && (named.decimals, named.refused_field) == (decimals, Some(refused_field))
            })
        };
        assert!(is_there(MOST_DECIMALS, 20), "six decimals before {word:?}");
        assert!(is_there(MOST_DECIMALS + 1, 19), "seven decimals before {word:?}");
    }
    let is_without_fault = |named: &Named| named.decimals <= 1 && named.refused_field == Some(20);
    assert!(names.iter().any(is_without_fault), "a quantity that any unit allows before none");
}

// --- Days read ---

/// The unit's number in the answer to a case that reads a day.
fn unit_read(case: &[u8]) -> Option<u8> {
    let answer = answer(case);
    let words: Vec<&[u8]> = answer.split(|byte| *byte == b' ').collect();
    match (case.starts_with(b"day "), &words[..]) {
        (true, [b"accepted", _date, _n, _update, _load, unit, ..]) => std::str::from_utf8(unit).ok()?.parse().ok(),
        _ => None,
    }
}

/// The unit of the last 200 in a case's file.
fn last_unit(case: &[u8]) -> Option<Unit> {
    let (_, bytes) = words_and_bytes(case);
    let records = records_of(bytes);
    let last = records.iter().rev().find(|record| record.bytes(1) == b"200")?;
    Unit::named(last.bytes(8))
}

fn look_for_days_read(cases: &[Vec<u8>]) {
    let read: Vec<(u8, Option<Unit>)> =
        cases.iter().filter_map(|case| unit_read(case).map(|unit| (unit, last_unit(case)))).collect();
    for unit in Unit::all() {
        assert!(read.iter().any(|(number, _)| *number == unit.number()), "a day in {}, read", unit.name());
    }
    let is_of_earlier_unit = |(number, last): &(u8, Option<Unit>)| last.is_some_and(|last| last.number() != *number);
    assert!(read.iter().any(is_of_earlier_unit), "a day before a channel of another unit, read");
}

// --- Blocks behind no unit ---

fn look_for_blocks_without_unit(cases: &[Vec<u8>]) {
    const MEGAWATT_HOURS: u8 = 0;
    let blocks: Vec<Checked> = cases.iter().filter_map(|case| Checked::of_case(case)).collect();
    for number in [Unit::COUNT, u8::MAX] {
        let here = || {
            blocks.iter().filter_map(|checked| {
                let (minutes, _) = checked.block.filter(|(_, unit)| *unit == number)?;
                assert_eq!(checked.refusal.map(|refusal| refusal.number), Some(16));
                Some(check_block(checked.bytes, minutes, MEGAWATT_HOURS).map_err(|refusal| refusal.number))
            })
        };
        assert!(here().any(|else_answered| else_answered.is_ok()), "unit {number} alone at fault");
    }
    let with_other_fault = |checked: &Checked| {
        let behind_unit = |(minutes, _)| check_block(checked.bytes, minutes, MEGAWATT_HOURS);
        let is_behind_none = checked.block.filter(|(_, unit)| Unit::numbered(*unit).is_none());
        is_behind_none.is_some_and(|block| behind_unit(block).is_err_and(|refusal| refusal.number != 16))
    };
    assert!(blocks.iter().any(with_other_fault), "no unit, and a block that is refused behind any");
}

// --- Days to be written ---

/// The millionths that a value has behind its unit's last decimal.
fn millionths_past(day: &DayToWrite, index: usize) -> u64 {
    let unit = Unit::numbered(day.head.unit);
    unit.map_or(0, |unit| day.values[index] % unit.smallest_step())
}

fn cut_to_unit(day: &mut DayToWrite, index: usize) {
    day.values[index] -= millionths_past(day, index);
}

/// Ways in which a value can't be written in its unit.
const INEXACT: [Fault; 2] = [
    (
        "a digit in the first decimal past the unit's",
        |day, index| {
            let first_past = Unit::numbered(day.head.unit).map_or(1, Unit::smallest_step) / 10;
            let past = millionths_past(day, index);
            past > 0 && past % first_past == 0
        },
        cut_to_unit,
    ),
    ("a digit in the last decimal of all", |day, index| millionths_past(day, index) % 10 > 0, cut_to_unit),
];

impl DayToWrite {
    /// Whether it is fit and has a value with a digit in the unit's last decimal.
    fn uses_all_decimals_of(&self, unit: Unit) -> bool {
        let in_last_decimal = |value: &u64| value % (10 * unit.smallest_step()) > 0;
        self.head.unit == unit.number() && self.written().is_ok() && self.values.iter().any(in_last_decimal)
    }

    /// Whether its unit's number is none's, and nothing else is against it.
    fn is_unfit_by_unit_alone(&self) -> bool {
        let in_first_unit = |mut day: DayToWrite| {
            day.head.unit = 0;
            day
        };
        Unit::numbered(self.head.unit).is_none() && in_first_unit(self.clone()).written().is_ok()
    }

    /// Whether a list is shorter than its day.
    fn has_short_list(&self) -> bool {
        self.written() == Err(15)
    }

    fn has_inexact_value(&self) -> bool {
        let n = intervals_in_day(u64::from(self.head.length)).unwrap_or(0);
        (0..n.min(self.values.len())).any(|index| millionths_past(self, index) > 0)
    }
}

fn look_for_written_days(cases: &[Vec<u8>]) {
    let days: Vec<DayToWrite> = cases.iter().filter_map(|case| DayToWrite::of_case(case)).collect();
    for unit in Unit::all() {
        let name = unit.name();
        assert!(days.iter().any(|day| day.uses_all_decimals_of(unit)), "all decimals of {name}, written");
        for fault in INEXACT {
            let is_unfit = days.iter().any(|day| day.head.unit == unit.number() && day.is_unfit_by(fault));
            assert_eq!(is_unfit, unit.decimals() < MOST_DECIMALS, "{} in {name}, to be written", fault.0);
        }
    }
    for number in [Unit::COUNT, u8::MAX] {
        let is_there = |day: &DayToWrite| day.head.unit == number && day.is_unfit_by_unit_alone();
        assert!(days.iter().any(is_there), "unit {number}, to be written");
    }
    look_for_order_of_written_days(&days);
}

/// Looks for days in which a unit or a value that is at fault meets what is asked before it or behind it.
fn look_for_order_of_written_days(days: &[DayToWrite]) {
    let has_no_unit = |day: &DayToWrite| Unit::numbered(day.head.unit).is_none();
    assert!(days.iter().any(|day| day.has_short_list() && has_no_unit(day)), "no unit and a short list");
    assert!(days.iter().any(|day| day.has_short_list() && day.has_inexact_value()), "inexact and a short list");

    let is_unfit_alone =
        |day: &DayToWrite| day.is_unfit_by_unit_alone() || INEXACT.into_iter().any(|fault| day.is_unfit_by(fault));
    assert!(days.iter().any(|day| day.room == 0 && is_unfit_alone(day)), "unfit by its unit and without room");
}

#[test]
fn a_run_has_every_kind_of_unit() {
    for seed in [1, 2, 3] {
        let cases: Vec<Vec<u8>> = (0..5000).map(|index| case(seed, index)).collect();
        let mut found = Found::default();
        cases.iter().for_each(|case| found.take(case));
        look_for_values(&found.values);
        look_for_faults_beside(&found.beside);
        look_for_names(&found.names);
        look_for_quantities_without_unit(&found.names);
        look_for_days_read(&cases);
        look_for_blocks_without_unit(&cases);
        look_for_written_days(&cases);
    }
}
