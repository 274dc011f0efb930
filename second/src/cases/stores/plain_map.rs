//! Tests: from a making on, puts, gets and deletes answer as a plain map from key to day would that knows its number of
//! slots and the bytes of its room.

use super::super::chance::Chance;
use super::super::keys::ToldKey;
use super::super::writes::Draft;
use super::called::{calls_of, calls_of_run, Accepted, Call, Called, Interval};
use super::{made, some_call};
use crate::day::DayRead;
use crate::keys::Key;
use crate::write::compose;
use std::collections::HashMap;

struct PlainMap {
    slots: usize,
    room: usize,
    days: HashMap<Key, PlainDay>,
}

#[derive(Clone)]
struct PlainDay {
    read: DayRead,
    intervals: Vec<Interval>,
    /// Of its shortest block.
    bytes: usize,
}

impl PlainDay {
    fn of(day: &Draft) -> Result<PlainDay, u64> {
        let (block, _) = compose(day.head, day.lists()).map_err(|refusal| refusal.number)?;
        let n = 1440 / day.head.length as usize;
        let head = day.head;
        Ok(PlainDay {
            read: DayRead { date: head.date, n, update: head.update, load: head.load, unit: head.unit },
            intervals: (0..n).map(|index| interval_of(day, index)).collect(),
            bytes: block.len(),
        })
    }
}

fn interval_of(day: &Draft, index: usize) -> Interval {
    let (start, length) = (day.starts[index], day.lengths[index]);
    Interval {
        value: day.values[index],
        flag: day.flags[index],
        method: day.methods[index],
        reason: day.reasons[index],
        description: if length == 0 { Vec::new() } else { day.text[start..start + length].to_vec() },
    }
}

impl PlainMap {
    fn made(lent: usize, slots: u32) -> PlainMap {
        let slots = slots as usize;
        PlainMap { slots, room: (lent - 32 - 26 * slots).min(1_048_576), days: HashMap::new() }
    }

    /// One step. None is no call of the map's.
    fn step(&mut self, call: &Call) -> Option<Result<Accepted, u64>> {
        match call {
            Call::Put { key, day } => Some(self.put(key.key(), day)),
            Call::Get { key, places } => Some(self.get(key.key(), *places)),
            Call::Delete { key } => Some(self.delete(key.key())),
            _ => None,
        }
    }

    fn put(&mut self, key: Option<Key>, day: &Draft) -> Result<Accepted, u64> {
        let key = key.ok_or(16u64)?;
        let day = PlainDay::of(day)?;
        let old = self.days.get(&key);
        if old.is_some_and(|old| day.read.update <= old.read.update) {
            return Err(18);
        }
        if old.is_none() && self.days.len() == self.slots {
            return Err(19);
        }
        let mut days = self.days.clone();
        days.insert(key, day);
        if days.values().map(|day| day.bytes).sum::<usize>() > self.room {
            return Err(20);
        }
        self.days = days;
        Ok(Accepted::Number(self.days.len()))
    }

    fn get(&self, key: Option<Key>, places: usize) -> Result<Accepted, u64> {
        let day = key.and_then(|key| self.days.get(&key)).ok_or(14u64)?;
        if places < day.read.n {
            return Err(15);
        }
        Ok(Accepted::Day(day.read, day.intervals.clone()))
    }

    fn delete(&mut self, key: Option<Key>) -> Result<Accepted, u64> {
        key.and_then(|key| self.days.remove(&key)).ok_or(14u64)?;
        Ok(Accepted::Number(self.days.len()))
    }
}

/// Holds the calls against a map from each accepted making on, till other bytes are lent. Gives how many were held so.
fn hold_to_map(calls: impl IntoIterator<Item = Called>) -> usize {
    let mut map = None;
    let mut compared = 0;
    for called in calls {
        match called.call {
            Call::Lend => map = None,
            Call::Make { slots } if called.answer.is_ok() => map = Some(PlainMap::made(called.memory.len(), slots)),
            _ => {
                if let Some(expected) = map.as_mut().and_then(|map: &mut PlainMap| map.step(&called.call)) {
                    assert!(called.answer == expected, "{:?} and not {expected:?}", called.answer);
                    compared += 1;
                }
            }
        }
    }
    compared
}

#[test]
fn a_run_answers_as_plain_maps_do() {
    for seed in [1, 2, 3] {
        let compared = hold_to_map(calls_of_run(seed, 2_000));
        assert!(compared > 5_000, "only {compared} calls, seed {seed}");
    }
}

#[test]
fn long_sequences_answer_as_plain_maps_do() {
    for index in 0..150 {
        let chance = &mut Chance::for_sequence(9, index);
        let slots = chance.between(1, 8);
        let room = slots * chance.between(60, 400);
        let mut scene = made(chance, slots, room);
        let keys = ToldKey::several(chance, slots + 2);
        for _ in 0..80 {
            some_call(chance, &mut scene, &keys);
        }
        hold_to_map(calls_of(&scene.end()));
    }
}
