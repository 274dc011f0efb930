//! Tests: from a making on, addings, goings back and questions answer as a plain list of versions would.

use super::super::chance::Chance;
use super::called::{calls_of, calls_of_run, is_taken, Accepted, Call, Called};
use super::versions::Told;
use super::{made, some_call};
use crate::fields::is_real_date;
use crate::tenants::layout::Entry;

/// The first date of each version, and its entries.
#[derive(Default)]
struct PlainList {
    versions: Vec<(u32, Vec<Entry>)>,
}

impl PlainList {
    /// One step. None is no call of the list's.
    fn step(&mut self, call: &Call) -> Option<Result<Accepted, u64>> {
        match call {
            Call::Add(told) => Some(self.add(told)),
            Call::Back { version, first } => Some(self.back(*version, *first)),
            Call::Ask { date, key_bytes, shares } => Some(self.ask(*date, *key_bytes, *shares)),
            Call::Lend | Call::Make => None,
        }
    }

    fn add(&mut self, told: &Told) -> Result<Accepted, u64> {
        if told.keys.len() < 1536 || told.shares.len() < 128 {
            return Err(15);
        }
        let mut entries = told.entries();
        if !entries.iter().all(is_taken) {
            return Err(25);
        }
        entries.iter_mut().for_each(|entry| entry.key.make_ascii_uppercase());
        self.append(told.first, entries)
    }

    fn back(&mut self, version: usize, first: u32) -> Result<Accepted, u64> {
        if version == 0 || version > self.versions.len() {
            return Err(14);
        }
        self.append(first, self.versions[version - 1].1.clone())
    }

    fn append(&mut self, first: u32, entries: Vec<Entry>) -> Result<Accepted, u64> {
        if !is_real_date(first) || self.versions.iter().any(|version| version.0 > first) {
            return Err(24);
        }
        if self.versions.len() == 32 {
            return Err(23);
        }
        self.versions.push((first, entries));
        Ok(Accepted::Number(self.versions.len()))
    }

    fn ask(&self, date: u32, key_bytes: usize, shares: usize) -> Result<Accepted, u64> {
        let started = self.versions.iter().filter(|version| is_real_date(date) && version.0 <= date).count();
        if started == 0 {
            return Err(14);
        }
        if key_bytes < 1536 || shares < 128 {
            return Err(15);
        }
        Ok(Accepted::Outputs(started, self.versions[started - 1].1.clone()))
    }
}

/// Holds the calls against a list from each accepted making on, till other bytes are lent. Gives how many were held so.
fn hold_to_list(calls: impl IntoIterator<Item = Called>) -> usize {
    let mut list = None;
    let mut compared = 0;
    for called in calls {
        match called.call {
            Call::Lend => list = None,
            Call::Make if called.answer.is_ok() => list = Some(PlainList::default()),
            _ => {
                if let Some(expected) = list.as_mut().and_then(|list: &mut PlainList| list.step(&called.call)) {
                    assert!(called.answer == expected, "{:?} and not {expected:?}", called.answer);
                    compared += 1;
                }
            }
        }
    }
    compared
}

#[test]
fn a_run_answers_as_plain_lists_do() {
    for seed in [1, 2] {
        let compared = hold_to_list(calls_of_run(seed, 500));
        assert!(compared > 3_000, "only {compared} calls, seed {seed}");
    }
}

#[test]
fn long_sequences_answer_as_plain_lists_do() {
    for index in 0..20 {
        let chance = &mut Chance::for_map_sequence(9, index);
        let mut scene = made(chance);
        for _ in 0..80 {
            some_call(chance, &mut scene);
        }
        let compared = hold_to_list(calls_of(&scene.cases));
        assert!(compared > 50, "only {compared} calls, {index}");
    }
}
