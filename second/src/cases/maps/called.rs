//! For tests: the calls of a run, each with the memory before it, its answer, and the memory that it leaves.

use super::super::parts::{number, numbers};
use super::super::requests::words_and_bytes;
use super::sequence;
use super::versions::Told;
use crate::refusal::Refusal;
use crate::tenants::layout::{Entry, Version};
use crate::tenants::{add_version, back_to, make_map, map_on, read_map};

pub enum Call {
    /// No call: this memory is lent from here on.
    Lend,
    Make,
    Add(Told),
    Back {
        version: usize,
        first: u32,
    },
    Ask {
        date: u32,
        key_bytes: usize,
        shares: usize,
    },
}

/// What a call answers if it is accepted.
#[derive(Clone, Debug, PartialEq, Eq)]
pub enum Accepted {
    /// The number of a version, or of no version.
    Number(usize),
    /// The number of a version, and its entries.
    Outputs(usize, Vec<Entry>),
    Nothing,
}

pub struct Called {
    pub memory: Vec<u8>,
    /// The versions of the map that the memory is, if it is one.
    pub versions: Option<Vec<Version>>,
    pub call: Call,
    /// The number of the refusal, if it is refused.
    pub answer: Result<Accepted, u64>,
    pub left: Vec<u8>,
}

impl Called {
    pub fn is_refused(&self, number: u64) -> bool {
        self.answer == Err(number)
    }
}

/// Whether adding takes an entry, in letters of either case.
pub fn is_taken(entry: &Entry) -> bool {
    let has_good_key = entry.key.iter().all(u8::is_ascii_alphanumeric);
    *entry == Entry::UNUSED || has_good_key && entry.share <= 1000
}

/// The calls of the first sequences of a seed.
pub fn calls_of_run(seed: u64, sequences: u64) -> impl Iterator<Item = Called> {
    (0..sequences).flat_map(move |number| calls_of(&sequence(seed, number)))
}

/// The calls of a sequence, which lends a memory before it needs one.
pub fn calls_of(sequence: &[Vec<u8>]) -> Vec<Called> {
    let mut memory = Vec::new();
    sequence.iter().filter_map(|case| called(case, &mut memory)).collect()
}

/// A case's call. Asking for the bytes is none.
pub fn called(case: &[u8], memory: &mut Vec<u8>) -> Option<Called> {
    let call = call_of(case)?;
    if matches!(call, Call::Lend) {
        *memory = words_and_bytes(case).1.to_vec();
    }
    let before = memory.clone();
    let versions = read_map(&before).ok();
    let answer = answer(&call, memory).map_err(|refusal| refusal.number);
    Some(Called { memory: before, versions, call, answer, left: memory.clone() })
}

fn call_of(case: &[u8]) -> Option<Call> {
    let (words, bytes) = words_and_bytes(case);
    Some(match words[..] {
        ["memory", _] => Call::Lend,
        ["bytes"] => return None,
        ["makemap"] => Call::Make,
        ["add", first, keys, _] => {
            let (keys, behind) = bytes.split_at(number(keys));
            let shares = numbers(behind.strip_prefix(b"\n").and_then(|line| line.strip_suffix(b"\n")));
            Call::Add(Told { first: number(first), keys: keys.to_vec(), shares })
        }
        ["back", version, first] => Call::Back { version: number(version), first: number(first) },
        ["on", date, keys, shares] => Call::Ask { date: number(date), key_bytes: number(keys), shares: number(shares) },
        _ => panic!("{words:?} is no case about a map"),
    })
}

fn answer(call: &Call, memory: &mut [u8]) -> Result<Accepted, Refusal> {
    match call {
        Call::Lend => Ok(Accepted::Nothing),
        Call::Make => make_map(memory).map(Accepted::Number),
        Call::Add(told) => add_version(memory, told.first, &told.keys, &told.shares).map(Accepted::Number),
        Call::Back { version, first } => back_to(memory, *version, *first).map(Accepted::Number),
        Call::Ask { date, key_bytes, shares } => {
            let mut filled = Told { first: *date, keys: vec![b'?'; *key_bytes], shares: vec![u16::MAX; *shares] };
            let version = map_on(memory, *date, &mut filled.keys, &mut filled.shares)?;
            Ok(Accepted::Outputs(version, filled.entries()))
        }
    }
}
