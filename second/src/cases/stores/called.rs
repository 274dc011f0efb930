//! For tests: the calls of a run, each with the memory before it, its answer, and the memory that it leaves.

use super::super::keys::ToldKey;
use super::super::parts::{number, numbers};
use super::super::requests::words_and_bytes;
use super::super::writes::Draft;
use super::sequence;
use crate::day::{DayRead, LentLists};
use crate::keys::Key;
use crate::refusal::Refusal;
use crate::store::reading::{read_store, Store};
use crate::store::{delete_day, get_day, make_store, put_day, read_slot, SlotRead};
use crate::write::DayHead;

pub enum Call {
    /// No call: this memory is lent from here on.
    Lend,
    Make {
        slots: u32,
    },
    Put {
        key: ToldKey,
        day: Box<Draft>,
    },
    Get {
        key: ToldKey,
        places: usize,
    },
    Delete {
        key: ToldKey,
    },
    Slot {
        number: usize,
    },
}

/// What a call answers if it is accepted.
#[derive(Clone, Debug, PartialEq, Eq)]
pub enum Accepted {
    /// Bytes of room, or days held.
    Number(usize),
    Day(DayRead, Vec<Interval>),
    Slot(SlotRead),
    Nothing,
}

/// An interval that was read.
#[derive(Clone, Debug, PartialEq, Eq)]
pub struct Interval {
    pub value: u64,
    pub flag: u8,
    pub method: u8,
    pub reason: u16,
    pub description: Vec<u8>,
}

pub struct Called {
    pub memory: Vec<u8>,
    pub call: Call,
    /// The number of the refusal, if it is refused.
    pub answer: Result<Accepted, u64>,
    pub left: Vec<u8>,
}

impl Called {
    pub fn store(&self) -> Option<Store<'_>> {
        read_store(&self.memory).ok()
    }

    pub fn is_refused(&self, number: u64) -> bool {
        self.answer == Err(number)
    }

    /// The key that is told, if the call has one.
    pub fn told_key(&self) -> Option<&ToldKey> {
        match &self.call {
            Call::Put { key, .. } | Call::Get { key, .. } | Call::Delete { key } => Some(key),
            _ => None,
        }
    }

    /// That key, if it is a good one.
    pub fn key(&self) -> Option<Key> {
        self.told_key().and_then(ToldKey::key)
    }
}

/// The calls of the first sequences of a seed.
pub fn calls_of_run(seed: u64, sequences: u64) -> impl Iterator<Item = Called> {
    (0..sequences).flat_map(move |number| calls_of(&sequence(seed, number)))
}

/// The calls of a sequence, which lends a memory before it needs one.
pub fn calls_of(sequence: &[Vec<u8>]) -> Vec<Called> {
    let mut memory = Vec::new();
    sequence.iter().filter_map(|case| called(case, &mut memory)).collect()
}

/// A case's call. Asking for the bytes is none.
pub fn called(case: &[u8], memory: &mut Vec<u8>) -> Option<Called> {
    let call = call_of(case)?;
    if matches!(call, Call::Lend) {
        *memory = words_and_bytes(case).1.to_vec();
    }
    let before = memory.clone();
    let answer = answer(&call, memory).map_err(|refusal| refusal.number);
    Some(Called { memory: before, call, answer, left: memory.clone() })
}

fn call_of(case: &[u8]) -> Option<Call> {
    let (words, bytes) = words_and_bytes(case);
    Some(match words[..] {
        ["memory", _] => Call::Lend,
        ["bytes"] => return None,
        ["make", slots] => Call::Make { slots: number(slots) },
        ["slot", slot] => Call::Slot { number: number(slot) },
        ["get", nmi, suffix, date, places] => {
            Call::Get { key: told_key(nmi, suffix, date, bytes), places: number(places) }
        }
        ["delete", nmi, suffix, date] => Call::Delete { key: told_key(nmi, suffix, date, bytes) },
        ["put", nmi, suffix, date, length, update, load, unit, ..] => {
            let key = told_key(nmi, suffix, date, bytes);
            let head = DayHead {
                date: key.date,
                length: number(length),
                update: number(update),
                load: number(load),
                unit: number(unit),
            };
            let behind_key = &bytes[key.nmi.len() + key.suffix.len() + 1..];
            let day = Box::new(day_of(head, behind_key));
            Call::Put { key, day }
        }
        _ => panic!("{words:?} is no case about a store"),
    })
}

fn told_key(nmi: &str, suffix: &str, date: &str, bytes: &[u8]) -> ToldKey {
    let (nmi_end, suffix_length): (usize, usize) = (number(nmi), number(suffix));
    let suffix = bytes[nmi_end..nmi_end + suffix_length].to_vec();
    ToldKey { nmi: bytes[..nmi_end].to_vec(), suffix, date: number(date) }
}

fn day_of(head: DayHead, lists_and_text: &[u8]) -> Draft {
    let mut lines = lists_and_text.splitn(7, |byte| *byte == b'\n');
    Draft {
        head,
        values: numbers(lines.next()),
        flags: numbers(lines.next()),
        methods: numbers(lines.next()),
        reasons: numbers(lines.next()),
        starts: numbers(lines.next()),
        lengths: numbers(lines.next()),
        text: lines.next().expect("a text").to_vec(),
    }
}

fn answer(call: &Call, memory: &mut [u8]) -> Result<Accepted, Refusal> {
    match call {
        Call::Lend => Ok(Accepted::Nothing),
        Call::Make { slots } => make_store(memory, *slots).map(Accepted::Number),
        Call::Put { key, day } => put_day(memory, &key.nmi, &key.suffix, day.head, day.lists()).map(Accepted::Number),
        Call::Get { key, places } => get(memory, key, *places),
        Call::Delete { key } => delete_day(memory, &key.nmi, &key.suffix, key.date).map(Accepted::Number),
        Call::Slot { number } => read_slot(memory, *number).map(Accepted::Slot),
    }
}

fn get(memory: &[u8], key: &ToldKey, places: usize) -> Result<Accepted, Refusal> {
    let (mut values, mut flags, mut methods) = (vec![0; places], vec![0; places], vec![0; places]);
    let (mut reasons, mut starts, mut lengths) = (vec![0; places], vec![0; places], vec![0; places]);
    let lists = LentLists {
        values: &mut values,
        flags: &mut flags,
        methods: &mut methods,
        reasons: &mut reasons,
        starts: &mut starts,
        lengths: &mut lengths,
    };
    let read = get_day(memory, &key.nmi, &key.suffix, key.date, lists)?;
    let interval = |index: usize| Interval {
        value: values[index],
        flag: flags[index],
        method: methods[index],
        reason: reasons[index],
        description: memory[starts[index]..starts[index] + lengths[index]].to_vec(),
    };
    Ok(Accepted::Day(read, (0..read.n).map(interval).collect()))
}
