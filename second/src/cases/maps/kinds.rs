//! Tests: a run has calls of every kind that the rules tell apart, and two refusals at once wherever their order counts.

use super::called::{calls_of_run, is_taken, Accepted, Call, Called};
use super::versions::{day_before, Told};
use super::{sequence, ROUND};
use crate::fields::{day_after, is_real_date};
use crate::probe;
use crate::refusal::of_maps;
use crate::tenants::layout::{place_of_version, Entry, Version, KEY_LENGTH, MAP_LENGTH, MOST_VERSIONS, NO_KEY};
use std::collections::HashSet;

/// What a kind of call is called, and whether one is of this kind.
type AddingKind = (&'static str, fn(&Adding) -> bool);
type GoingKind = (&'static str, fn(&Going) -> bool);
type QuestionKind = (&'static str, fn(&Question) -> bool);
type OtherKind = (&'static str, fn(&Called) -> bool);

// --- First dates ---

/// A map's versions and the first date under which another one is to be added.
struct Dated<'a> {
    versions: &'a [Version],
    first: u32,
}

impl Dated<'_> {
    fn last(&self) -> Option<u32> {
        self.versions.last().map(|version| version.first)
    }

    fn is_none(&self) -> bool {
        !is_real_date(self.first)
    }

    fn falls(&self) -> bool {
        !self.is_none() && self.last().is_some_and(|last| self.first < last)
    }

    fn falls_by_a_day(&self) -> bool {
        self.last().is_some_and(|last| day_before(last) == Some(self.first))
    }

    fn is_bad(&self) -> bool {
        self.is_none() || self.falls()
    }

    fn is_equal(&self) -> bool {
        self.last() == Some(self.first)
    }

    fn is_next_day(&self) -> bool {
        self.last().is_some_and(|last| day_after(last) == self.first)
    }

    fn is_later(&self) -> bool {
        self.last().is_some_and(|last| last < self.first)
    }

    fn is_full(&self) -> bool {
        self.versions.len() == MOST_VERSIONS
    }
}

// --- Addings to a map ---

struct Adding<'a> {
    called: &'a Called,
    told: &'a Told,
    date: Dated<'a>,
    /// Those of the outputs, so far as they are told.
    entries: Vec<Entry>,
}

impl<'a> Adding<'a> {
    fn of(called: &'a Called) -> Option<Adding<'a>> {
        let Call::Add(told) = &called.call else { return None };
        let date = Dated { versions: called.versions.as_ref()?, first: told.first };
        Some(Adding { called, told, date, entries: told.entries() })
    }

    fn is_refused(&self, number: u64) -> bool {
        self.called.is_refused(number)
    }

    fn lengths(&self) -> (usize, usize) {
        (self.told.keys.len(), self.told.shares.len())
    }

    fn has(&self, is_so: impl Fn(&Entry) -> bool) -> bool {
        self.entries.iter().any(is_so)
    }

    fn has_bad_entry(&self) -> bool {
        self.has(|entry| !is_taken(entry))
    }

    /// Whether it is refused as the entry of this output alone is bad, and is so.
    fn is_bad_at(&self, output: usize, is_so: fn(&Entry) -> bool) -> bool {
        let others = self.entries.iter().enumerate().filter(|(place, _)| *place != output);
        self.is_refused(25) && is_so(&self.entries[output]) && others.into_iter().all(|(_, entry)| is_taken(entry))
    }

    /// Likewise, whichever output has it.
    fn is_bad_by(&self, is_so: fn(&Entry) -> bool) -> bool {
        self.is_refused(25) && self.entries.iter().filter(|entry| !is_taken(entry)).all(is_so)
    }

    /// Whether the entries have two keys that are so to each other.
    fn has_keys(&self, are_so: fn(&[u8], &[u8]) -> bool) -> bool {
        let keys: Vec<&[u8; KEY_LENGTH]> =
            self.entries.iter().map(|entry| &entry.key).filter(|key| **key != NO_KEY).collect();
        keys.windows(2).any(|pair| are_so(pair[0], pair[1]))
    }

    /// What is told behind the outputs.
    fn keys_behind(&self) -> &[u8] {
        self.told.keys.get(1536..).unwrap_or_default()
    }

    fn shares_behind(&self) -> &[u16] {
        self.told.shares.get(128..).unwrap_or_default()
    }
}

fn is_small(entry: &Entry) -> bool {
    entry.key.iter().any(u8::is_ascii_lowercase) && !entry.key.iter().any(u8::is_ascii_uppercase)
}

fn is_mixed(entry: &Entry) -> bool {
    entry.key.iter().any(u8::is_ascii_lowercase) && entry.key.iter().any(u8::is_ascii_uppercase)
}

fn is_used(entry: &Entry) -> bool {
    entry.key != NO_KEY
}

fn has_good_key(entry: &Entry) -> bool {
    entry.key.iter().all(u8::is_ascii_alphanumeric)
}

/// Whether only bytes of the NMI, or only ones of the suffix, are against a key.
fn is_bad_in(entry: &Entry, in_nmi: bool) -> bool {
    let (nmi, suffix) = entry.key.split_at(10);
    let (bad, good) = if in_nmi { (nmi, suffix) } else { (suffix, nmi) };
    !bad.iter().all(u8::is_ascii_alphanumeric) && good.iter().all(u8::is_ascii_alphanumeric)
}

const ACCEPTED_ADDINGS: [AddingKind; 31] = [
    ("the first version", |adding| adding.date.versions.is_empty()),
    ("a further version", |adding| !adding.date.versions.is_empty()),
    ("the last version", |adding| adding.date.versions.len() == MOST_VERSIONS - 1),
    ("under the same date", |adding| adding.date.is_equal()),
    ("under the next date", |adding| adding.date.is_next_day()),
    ("under a much later date", |adding| adding.date.last().is_some_and(|last| last + 10_000 < adding.told.first)),
    ("under the first of all dates", |adding| adding.told.first == 19000101),
    ("under the last of all dates", |adding| adding.told.first == 21991231),
    ("under a 29 February", |adding| adding.told.first % 10_000 == 229),
    ("in capitals", |adding| adding.has(is_used) && !adding.has(|entry| is_small(entry) || is_mixed(entry))),
    ("in small letters", |adding| adding.has(is_small) && !adding.has(is_mixed)),
    ("in letters of either case", |adding| adding.has(is_mixed)),
    ("a key with a share of 0", |adding| adding.has(|entry| is_used(entry) && entry.share == 0)),
    ("a share of 1", |adding| adding.has(|entry| entry.share == 1)),
    ("a share of 999", |adding| adding.has(|entry| entry.share == 999)),
    ("a share of 1000", |adding| adding.has(|entry| entry.share == 1000)),
    ("a share of 1000 at the last output", |adding| adding.entries[127].share == 1000),
    ("no output used", |adding| !adding.has(is_used)),
    ("every output used", |adding| !adding.has(|entry| !is_used(entry))),
    ("the first output unused", |adding| !is_used(&adding.entries[0]) && adding.has(is_used)),
    ("the last output unused", |adding| !is_used(&adding.entries[127]) && adding.has(is_used)),
    ("one key at several outputs", |adding| adding.has_keys(|a, b| a == b)),
    ("one key in two spellings", |adding| adding.has_keys(|a, b| a != b && a.eq_ignore_ascii_case(b))),
    ("two keys that differ in a byte", |adding| {
        adding.has_keys(|a, b| a.iter().zip(b).filter(|(a, b)| !a.eq_ignore_ascii_case(b)).count() == 1)
    }),
    ("just enough told", |adding| adding.lengths() == (1536, 128)),
    ("a byte of a key more", |adding| adding.lengths() == (1537, 128)),
    ("a share more", |adding| adding.lengths() == (1536, 129)),
    ("as much told as can be", |adding| adding.lengths() == (2000, 300)),
    ("a bad key behind the outputs", |adding| {
        adding.keys_behind().chunks_exact(KEY_LENGTH).any(|key| !key.iter().all(u8::is_ascii_alphanumeric))
    }),
    ("a share above 1000 behind the outputs", |adding| adding.shares_behind().iter().any(|share| *share > 1000)),
    ("in a memory longer than a map", |adding| adding.called.memory.len() > MAP_LENGTH),
];

const REFUSED_ADDINGS: [AddingKind; 49] = [
    ("15: a byte of a key too few", |adding| adding.is_refused(15) && adding.lengths() == (1535, 128)),
    ("15: a share too few", |adding| adding.is_refused(15) && adding.lengths() == (1536, 127)),
    ("15: no keys", |adding| adding.is_refused(15) && adding.lengths() == (0, 128)),
    ("15: no shares", |adding| adding.is_refused(15) && adding.lengths() == (1536, 0)),
    ("15: too few of both", |adding| {
        adding.is_refused(15) && adding.told.keys.len() < 1536 && adding.told.shares.len() < 128
    }),
    ("15: nothing else", |adding| {
        adding.is_refused(15) && !adding.has_bad_entry() && !adding.date.is_bad() && !adding.date.is_full()
    }),
    ("15: and a bad entry", |adding| adding.is_refused(15) && adding.has_bad_entry() && !adding.date.is_bad()),
    ("15: and a bad date", |adding| adding.is_refused(15) && adding.date.is_bad() && !adding.has_bad_entry()),
    ("15: and full", |adding| adding.is_refused(15) && adding.date.is_full() && !adding.date.is_bad()),
    ("15: and all else", |adding| {
        adding.is_refused(15) && adding.has_bad_entry() && adding.date.is_bad() && adding.date.is_full()
    }),
    ("25: 1001 at the first output", |adding| adding.is_bad_at(0, |entry| has_good_key(entry) && entry.share == 1001)),
    ("25: 1001 at the last output", |adding| adding.is_bad_at(127, |entry| has_good_key(entry) && entry.share == 1001)),
    ("25: 1001 at another output", |adding| {
        (1..127).any(|output| adding.is_bad_at(output, |entry| has_good_key(entry) && entry.share == 1001))
    }),
    ("25: a share of 65535", |adding| adding.is_bad_by(|entry| has_good_key(entry) && entry.share == 65535)),
    ("25: another byte in an NMI", |adding| adding.is_bad_by(|entry| is_bad_in(entry, true))),
    ("25: another byte in a suffix", |adding| adding.is_bad_by(|entry| is_bad_in(entry, false))),
    ("25: a bad key at the first output", |adding| adding.is_bad_at(0, |entry| !has_good_key(entry))),
    ("25: a bad key at the last output", |adding| adding.is_bad_at(127, |entry| !has_good_key(entry))),
    ("25: a bad key with a share of 0", |adding| {
        adding.is_bad_by(|entry| is_used(entry) && !has_good_key(entry) && entry.share == 0)
    }),
    ("25: a 0 byte in a key", |adding| {
        adding.is_bad_by(|entry| entry.key.iter().filter(|byte| **byte == 0).count() == 1)
    }),
    ("25: an NMI alone, no share", |adding| {
        adding.is_bad_by(|entry| entry.key[10..] == [0; 2] && entry.key[9] != 0 && entry.share == 0)
    }),
    ("25: an NMI alone with a share", |adding| {
        adding.is_bad_by(|entry| entry.key[10..] == [0; 2] && entry.key[9] != 0 && (1..=1000).contains(&entry.share))
    }),
    ("25: a suffix alone, no share", |adding| {
        adding.is_bad_by(|entry| entry.key[..10] == [0; 10] && entry.key[10] != 0 && entry.share == 0)
    }),
    ("25: a suffix alone with a share", |adding| {
        adding.is_bad_by(|entry| entry.key[..10] == [0; 10] && entry.key[10] != 0 && (1..=1000).contains(&entry.share))
    }),
    ("25: a share of 1 without a key", |adding| adding.is_bad_by(|entry| !is_used(entry) && entry.share == 1)),
    ("25: a share without a key, first", |adding| adding.is_bad_at(0, |entry| !is_used(entry) && entry.share <= 1000)),
    ("25: a share without a key, last", |adding| adding.is_bad_at(127, |entry| !is_used(entry) && entry.share <= 1000)),
    ("25: nothing else", |adding| adding.is_refused(25) && !adding.date.is_bad() && !adding.date.is_full()),
    ("25: and a date that is none", |adding| adding.is_refused(25) && adding.date.is_none() && !adding.date.is_full()),
    ("25: and a date that falls", |adding| adding.is_refused(25) && adding.date.falls() && !adding.date.is_full()),
    ("25: and full", |adding| adding.is_refused(25) && !adding.date.is_bad() && adding.date.is_full()),
    ("25: and a bad date, and full", |adding| adding.is_refused(25) && adding.date.is_bad() && adding.date.is_full()),
    ("25: before there is a version", |adding| adding.is_refused(25) && adding.date.versions.is_empty()),
    ("24: 0", |adding| adding.is_refused(24) && adding.told.first == 0),
    ("24: 20030229", |adding| adding.is_refused(24) && adding.told.first == 20030229),
    ("24: 22000101", |adding| adding.is_refused(24) && adding.told.first == 22000101),
    ("24: 99999999", |adding| adding.is_refused(24) && adding.told.first == 99999999),
    ("24: 4294967295", |adding| adding.is_refused(24) && adding.told.first == u32::MAX),
    ("24: none, before there is a version", |adding| adding.is_refused(24) && adding.date.versions.is_empty()),
    ("24: none, though it does not fall", |adding| {
        adding.is_refused(24) && adding.date.is_none() && adding.date.is_later()
    }),
    ("24: none, and it would fall", |adding| {
        adding.is_refused(24)
            && adding.date.is_none()
            && adding.date.last().is_some_and(|last| adding.told.first < last)
    }),
    ("24: falls by a day", |adding| adding.is_refused(24) && adding.date.falls_by_a_day()),
    ("24: falls by far", |adding| {
        adding.is_refused(24)
            && adding.date.falls()
            && adding.date.last().is_some_and(|last| adding.told.first + 10_000 < last)
    }),
    ("24: falls below the last, not the first", |adding| {
        adding.is_refused(24) && !adding.date.is_none() && adding.date.versions[0].first < adding.told.first
    }),
    ("24: none, and full", |adding| adding.is_refused(24) && adding.date.is_none() && adding.date.is_full()),
    ("24: falls, and full", |adding| adding.is_refused(24) && adding.date.falls() && adding.date.is_full()),
    ("24: nothing else", |adding| adding.is_refused(24) && !adding.date.is_full()),
    ("23: under the same date", |adding| adding.is_refused(23) && adding.date.is_equal()),
    ("23: under a later date", |adding| adding.is_refused(23) && adding.date.is_later()),
];

// --- Goings back in a map ---

struct Going<'a> {
    called: &'a Called,
    version: usize,
    date: Dated<'a>,
}

impl<'a> Going<'a> {
    fn of(called: &'a Called) -> Option<Going<'a>> {
        let Call::Back { version, first } = called.call else { return None };
        let date = Dated { versions: called.versions.as_ref()?, first };
        Some(Going { called, version, date })
    }

    fn count(&self) -> usize {
        self.date.versions.len()
    }

    fn is_accepted(&self) -> bool {
        self.called.answer.is_ok()
    }

    fn is_refused(&self, number: u64) -> bool {
        self.called.is_refused(number)
    }
}

const GOINGS: [GoingKind; 27] = [
    ("to the only version", |going| going.is_accepted() && going.count() == 1),
    ("to the first of several", |going| going.is_accepted() && going.version == 1 && going.count() > 1),
    ("to a middle one", |going| going.is_accepted() && going.version > 1 && going.version < going.count()),
    ("to the last of several", |going| going.is_accepted() && going.version == going.count() && going.count() > 1),
    ("the last version", |going| going.is_accepted() && going.count() == MOST_VERSIONS - 1),
    ("under the same date", |going| going.is_accepted() && going.date.is_equal()),
    ("under the next date", |going| going.is_accepted() && going.date.is_next_day()),
    ("under a 29 February", |going| going.is_accepted() && going.date.first % 10_000 == 229),
    ("under the last of all dates", |going| going.is_accepted() && going.date.first == 21991231),
    ("in a memory longer than a map", |going| going.is_accepted() && going.called.memory.len() > MAP_LENGTH),
    ("14: 0", |going| going.is_refused(14) && going.version == 0 && going.count() > 0),
    ("14: just past the last", |going| going.is_refused(14) && going.version == going.count() + 1 && going.count() > 0),
    ("14: 32, and 31 are held", |going| going.is_refused(14) && going.version == 32 && going.count() == 31),
    ("14: 33, and 32 are held", |going| going.is_refused(14) && going.version == 33 && going.count() == 32),
    ("14: as many and 256", |going| going.is_refused(14) && going.version == going.count() + 256 && going.count() > 0),
    ("14: 1 and 2^32", |going| going.is_refused(14) && going.version == (1 << 32) + 1 && going.count() > 0),
    ("14: the largest number", |going| going.is_refused(14) && going.version == usize::MAX),
    ("14: none held", |going| going.is_refused(14) && going.version == 1 && going.count() == 0),
    ("14: and a bad date", |going| going.is_refused(14) && going.date.is_bad() && !going.date.is_full()),
    ("14: and full", |going| going.is_refused(14) && !going.date.is_bad() && going.date.is_full()),
    ("14: and a bad date, and full", |going| going.is_refused(14) && going.date.is_bad() && going.date.is_full()),
    ("24: none", |going| going.is_refused(24) && going.date.is_none() && !going.date.is_full()),
    ("24: falls by a day", |going| going.is_refused(24) && going.date.falls_by_a_day() && !going.date.is_full()),
    ("24: none, and full", |going| going.is_refused(24) && going.date.is_none() && going.date.is_full()),
    ("24: falls, and full", |going| going.is_refused(24) && going.date.falls() && going.date.is_full()),
    ("23: under the same date", |going| going.is_refused(23) && going.date.is_equal()),
    ("23: under a later date", |going| going.is_refused(23) && going.date.is_later()),
];

// --- Questions to a map ---

struct Question<'a> {
    called: &'a Called,
    versions: &'a [Version],
    date: u32,
    lengths: (usize, usize),
    /// The place of the version that answers.
    answered_by: Option<usize>,
}

impl<'a> Question<'a> {
    fn of(called: &'a Called) -> Option<Question<'a>> {
        let Call::Ask { date, key_bytes, shares } = called.call else { return None };
        let answered_by = match &called.answer {
            Ok(Accepted::Outputs(version, _)) => Some(version - 1),
            _ => None,
        };
        let versions = called.versions.as_ref()?;
        Some(Question { called, versions, date, lengths: (key_bytes, shares), answered_by })
    }

    fn is_refused(&self, number: u64) -> bool {
        self.called.is_refused(number)
    }

    /// The first date of the version so many places behind the one that answers.
    fn first_behind(&self, places: usize) -> Option<u32> {
        self.versions.get(self.answered_by? + places).map(|version| version.first)
    }

    fn is_answered_by(&self, is_so: fn(&Version) -> bool) -> bool {
        self.answered_by.is_some_and(|place| is_so(&self.versions[place]))
    }

    fn is_short(&self) -> bool {
        self.lengths.0 < 1536 || self.lengths.1 < 128
    }

    fn last_first(&self) -> Option<u32> {
        self.versions.last().map(|version| version.first)
    }
}

const QUESTIONS: [QuestionKind; 30] = [
    ("answered by the only version", |question| question.answered_by == Some(0) && question.versions.len() == 1),
    ("by the first of several", |question| question.answered_by == Some(0) && question.versions.len() > 1),
    ("by a middle one", |question| {
        question.answered_by.is_some_and(|place| place > 0 && place + 1 < question.versions.len())
    }),
    ("by the last of several", |question| {
        question.answered_by.is_some_and(|place| place > 0 && place + 1 == question.versions.len())
    }),
    ("by the last that there can be", |question| question.answered_by == Some(MOST_VERSIONS - 1)),
    ("on a first date", |question| question.first_behind(0) == Some(question.date)),
    ("behind a first date", |question| question.first_behind(0).is_some_and(|first| first < question.date)),
    ("the day before the next version", |question| {
        question.first_behind(1).is_some_and(|next| day_before(next) == Some(question.date))
    }),
    ("on a first date of several", |question| {
        let place = question.answered_by.unwrap_or(0);
        place > 0 && question.versions[place - 1].first == question.date
    }),
    ("behind a first date of several", |question| {
        let place = question.answered_by.unwrap_or(0);
        place > 0
            && question.versions[place - 1].first == question.versions[place].first
            && question.date > question.versions[place].first
    }),
    ("on the last of all dates", |question| question.answered_by.is_some() && question.date == 21991231),
    ("on the first of all dates", |question| question.answered_by.is_some() && question.date == 19000101),
    ("no output used", |question| question.is_answered_by(|version| !version.entries.iter().any(is_used))),
    ("every output used", |question| question.is_answered_by(|version| version.entries.iter().all(is_used))),
    ("just enough lent", |question| question.answered_by.is_some() && question.lengths == (1536, 128)),
    ("a byte more lent", |question| question.answered_by.is_some() && question.lengths == (1537, 128)),
    ("a share more lent", |question| question.answered_by.is_some() && question.lengths == (1536, 129)),
    ("as much lent as can be", |question| question.answered_by.is_some() && question.lengths == (2000, 300)),
    ("14: the day before the first", |question| {
        question.is_refused(14)
            && question.versions.first().is_some_and(|first| day_before(first.first) == Some(question.date))
    }),
    ("14: no versions", |question| {
        question.is_refused(14) && question.versions.is_empty() && is_real_date(question.date) && !question.is_short()
    }),
    ("14: none, behind a first date", |question| {
        let is_none = question.is_refused(14) && !is_real_date(question.date);
        is_none && question.versions.first().is_some_and(|first| first.first < question.date)
    }),
    ("14: none, behind all first dates", |question| {
        let is_none = question.is_refused(14) && !is_real_date(question.date);
        is_none && question.last_first().is_some_and(|last| last < question.date)
    }),
    ("14: 0", |question| question.is_refused(14) && question.date == 0 && !question.versions.is_empty()),
    ("14: the largest number", |question| question.is_refused(14) && question.date == u32::MAX),
    ("14: none, and too little lent", |question| {
        question.is_refused(14) && !is_real_date(question.date) && question.is_short()
    }),
    ("14: before the first, and too little lent", |question| {
        question.is_refused(14) && is_real_date(question.date) && question.is_short() && !question.versions.is_empty()
    }),
    ("15: a byte too few", |question| question.is_refused(15) && question.lengths == (1535, 128)),
    ("15: a share too few", |question| question.is_refused(15) && question.lengths == (1536, 127)),
    ("15: no keys", |question| question.is_refused(15) && question.lengths == (0, 128)),
    ("15: no shares", |question| question.is_refused(15) && question.lengths == (1536, 0)),
];

// --- Makings, and calls on what is no map ---

fn is_making(called: &Called) -> bool {
    matches!(called.call, Call::Make)
}

/// How many versions the map has of which a map is made.
fn made_over(called: &Called) -> Option<usize> {
    called.versions.as_ref().filter(|_| is_making(called) && called.answer.is_ok()).map(Vec::len)
}

fn told(called: &Called) -> Option<&Told> {
    match &called.call {
        Call::Add(told) if called.is_refused(21) => Some(told),
        _ => None,
    }
}

fn gone(called: &Called) -> Option<(usize, u32)> {
    match called.call {
        Call::Back { version, first } if called.is_refused(21) => Some((version, first)),
        _ => None,
    }
}

fn asked(called: &Called) -> Option<(u32, usize, usize)> {
    match called.call {
        Call::Ask { date, key_bytes, shares } if called.is_refused(21) => Some((date, key_bytes, shares)),
        _ => None,
    }
}

const OTHERS: [OtherKind; 19] = [
    ("made over what was no map", |called| is_making(called) && called.answer.is_ok() && called.versions.is_none()),
    ("made over a map without versions", |called| made_over(called) == Some(0)),
    ("made over a map", |called| made_over(called).is_some_and(|count| count > 0)),
    ("made over a full map", |called| made_over(called) == Some(MOST_VERSIONS)),
    ("made in just enough bytes", |called| {
        is_making(called) && called.answer.is_ok() && called.memory.len() == MAP_LENGTH
    }),
    ("made in a byte more", |called| {
        is_making(called) && called.answer.is_ok() && called.memory.len() == MAP_LENGTH + 1
    }),
    ("making, 15: a byte too few", |called| called.is_refused(15) && called.memory.len() == MAP_LENGTH - 1),
    ("making, 15: no bytes", |called| is_making(called) && called.is_refused(15) && called.memory.is_empty()),
    ("making, 15: a count's bytes", |called| is_making(called) && called.is_refused(15) && called.memory.len() == 4),
    ("adding, 21: nothing else", |called| {
        told(called).is_some_and(|told| told.entries().len() == 128 && told.entries().iter().all(is_taken))
    }),
    ("adding, 21: and too little told", |called| told(called).is_some_and(|told| told.keys.len() < 1536)),
    ("adding, 21: and a bad entry", |called| told(called).is_some_and(|told| !told.entries().iter().all(is_taken))),
    ("adding, 21: and no date", |called| told(called).is_some_and(|told| !is_real_date(told.first))),
    ("going back, 21: nothing else", |called| gone(called).is_some_and(|gone| gone.0 == 1 && is_real_date(gone.1))),
    ("going back, 21: and no such version", |called| gone(called).is_some_and(|gone| gone.0 == 0)),
    ("going back, 21: and no date", |called| gone(called).is_some_and(|gone| !is_real_date(gone.1))),
    ("question, 21: nothing else", |called| {
        asked(called).is_some_and(|(date, key_bytes, shares)| is_real_date(date) && (key_bytes, shares) == (1536, 128))
    }),
    ("question, 21: and no date", |called| asked(called).is_some_and(|(date, ..)| !is_real_date(date))),
    ("question, 21: and too little lent", |called| asked(called).is_some_and(|(_, key_bytes, _)| key_bytes < 1536)),
];

// --- What a run has ---

/// A kind's list, and its name there.
type Name = (&'static str, &'static str);

fn names<T>(list: &'static str, kinds: &[(&'static str, T)]) -> Vec<Name> {
    kinds.iter().map(|(name, _)| (list, *name)).collect()
}

/// The kinds of which a call is.
fn kinds_of(called: &Called) -> Vec<Name> {
    let mut found: Vec<Name> = Vec::new();
    if let Some(adding) = Adding::of(called) {
        let (list, kinds) =
            if called.answer.is_ok() { ("added", &ACCEPTED_ADDINGS[..]) } else { ("not added", &REFUSED_ADDINGS[..]) };
        found.extend(kinds.iter().filter(|(_, is_of_kind)| is_of_kind(&adding)).map(|(name, _)| (list, *name)));
    }
    if let Some(going) = Going::of(called) {
        let kinds = GOINGS.iter().filter(|(_, is_of_kind)| is_of_kind(&going));
        found.extend(kinds.map(|(name, _)| ("going back", *name)));
    }
    if let Some(question) = Question::of(called) {
        let kinds = QUESTIONS.iter().filter(|(_, is_of_kind)| is_of_kind(&question));
        found.extend(kinds.map(|(name, _)| ("question", *name)));
    }
    found.extend(OTHERS.iter().filter(|(_, is_of_kind)| is_of_kind(called)).map(|(name, _)| ("other", *name)));
    found
}

#[test]
fn a_run_has_every_kind_of_call() {
    let all = [
        names("added", &ACCEPTED_ADDINGS),
        names("not added", &REFUSED_ADDINGS),
        names("going back", &GOINGS),
        names("question", &QUESTIONS),
        names("other", &OTHERS),
    ]
    .concat();
    for seed in [1, 2, 3] {
        let found: HashSet<Name> = calls_of_run(seed, 500).flat_map(|called| kinds_of(&called)).collect();
        let missing: Vec<&Name> = all.iter().filter(|name| !found.contains(name)).collect();
        assert_eq!(missing, Vec::<&Name>::new(), "seed {seed}");
    }
}

/// The place of the only byte of a key that is no letter or digit.
fn bad_place(entry: &Entry) -> Option<usize> {
    let mut bad = (0..KEY_LENGTH).filter(|place| !entry.key[*place].is_ascii_alphanumeric());
    bad.next().filter(|_| bad.next().is_none())
}

#[test]
fn a_run_has_a_bad_byte_at_each_place_of_a_key() {
    let mut places = HashSet::new();
    for called in calls_of_run(1, 2 * ROUND) {
        let Some(adding) = Adding::of(&called).filter(|adding| adding.is_refused(25)) else { continue };
        let bad: Vec<&Entry> = adding.entries.iter().filter(|entry| !is_taken(entry)).collect();
        if let [alone] = bad[..] {
            places.extend(bad_place(alone));
        }
    }
    assert_eq!(places.len(), KEY_LENGTH, "{places:?}");
}

/// The bytes that an accepted call may change: the count, and those of the version that it adds.
fn may_change(called: &Called, place: usize) -> bool {
    let added = match called.call {
        Call::Add(_) | Call::Back { .. } => called.versions.as_ref().map(Vec::len),
        _ => None,
    };
    place < 4 || added.is_some_and(|count| (place_of_version(count)..place_of_version(count + 1)).contains(&place))
}

#[test]
fn a_call_changes_nothing_but_what_it_adds() {
    for called in calls_of_run(3, 250) {
        let changed = || (0..called.memory.len()).filter(|place| called.memory[*place] != called.left[*place]);
        match called.answer {
            Err(_) => assert!(called.memory == called.left),
            Ok(_) => assert!(changed().all(|place| may_change(&called, place))),
        }
    }
}

#[test]
fn every_seed_gives_every_refusal_and_no_bad_case() {
    for seed in [0, 1, 2, u64::MAX] {
        let input: Vec<u8> = (0..500).flat_map(|number| sequence(seed, number).concat()).collect();
        let mut output = Vec::new();
        let tally = probe::run(&input, &mut output).unwrap();
        let lines = tally.lines();
        let bytes = input.len() + output.len();
        assert!(bytes < 50_000_000, "{bytes} bytes");
        assert!(!lines.contains("bad case"), "{lines}");
        assert!(!output.windows(9).any(|bytes| bytes == b" changed\n"));
        for (name, counts, refusals) in [
            ("makemap", &tally.map_makes, &[15][..]),
            ("add", &tally.adds, &[15, 21, 23, 24, 25]),
            ("back", &tally.backs, &[14, 21, 23, 24]),
            ("on", &tally.questions, &[14, 15, 21]),
        ] {
            assert!(counts.accepted > 0, "{name}\n{lines}");
            for number in of_maps() {
                assert_eq!(counts.refusals(number) > 0, refusals.contains(&number), "{name} {number}\n{lines}");
            }
        }
    }
}

#[test]
fn a_sequence_depends_on_seed_and_number_alone() {
    for number in 0..2 * ROUND {
        assert_eq!(sequence(7, number), sequence(7, number));
        assert_ne!(sequence(7, number), sequence(8, number));
        // Whatever the memory was before, the sequence lends its own.
        assert!(sequence(7, number)[0].starts_with(b"memory "));
    }
}
