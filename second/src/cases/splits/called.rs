//! For tests: the splits of a run, each with the memory that it is called with, and its answer.

use super::super::keys::ToldKey;
use super::super::maps::called as maps;
use super::super::maps::versions::Told;
use super::super::parts::{number, numbers};
use super::super::requests::words_and_bytes;
use super::super::stores::called as stores;
use super::boards::Task;
use super::sequence;
use crate::split::{split, split_day, split_stored};

pub enum Call {
    Total(Task),
    Day { number: usize, file: Vec<u8> },
    Stored { key: ToldKey, map: Vec<u8> },
}

pub struct Called {
    pub memory: Vec<u8>,
    pub call: Call,
    /// So many parts are lent.
    pub places: usize,
    /// How many outputs are on the channel, and the part of each output. Else the number of the refusal.
    pub answer: Result<(usize, Vec<u64>), u64>,
}

impl Called {
    pub fn is_refused(&self, number: u64) -> bool {
        self.answer == Err(number)
    }
}

/// The splits of the first sequences of a seed.
pub fn splits_of_run(seed: u64, sequences: u64) -> impl Iterator<Item = Called> {
    (0..sequences).flat_map(move |number| splits_of(&sequence(seed, number)))
}

/// The splits of a sequence, which lends a memory before it needs one.
fn splits_of(sequence: &[Vec<u8>]) -> Vec<Called> {
    let mut memory = Vec::new();
    let mut splits = Vec::new();
    for case in sequence {
        match split_in(case) {
            Some((call, places)) => splits.push(called(call, places, &memory)),
            None => change(case, &mut memory),
        }
    }
    splits
}

/// Lets a case that is no split change the memory.
fn change(case: &[u8], memory: &mut Vec<u8>) {
    match words_and_bytes(case).0[0] {
        "makemap" | "add" => drop(maps::called(case, memory)),
        _ => drop(stores::called(case, memory)),
    }
}

fn called(call: Call, places: usize, memory: &[u8]) -> Called {
    let mut parts = vec![0; places];
    let answer = match &call {
        Call::Total(Task { total, channel, board, .. }) => {
            split(*total, &channel.nmi, &channel.suffix, &board.keys, &board.shares, &mut parts)
        }
        Call::Day { number, file } => split_day(file, *number, memory, &mut parts),
        Call::Stored { key, map } => split_stored(memory, &key.nmi, &key.suffix, key.date, map, &mut parts),
    };
    parts.truncate(128);
    let answer = answer.map(|outputs| (outputs, parts)).map_err(|refusal| refusal.number);
    Called { memory: memory.to_vec(), call, places, answer }
}

/// The split of a case and how many parts it is lent, if it is one.
fn split_in(case: &[u8]) -> Option<(Call, usize)> {
    let (words, bytes) = words_and_bytes(case);
    match words[..] {
        ["split", total, nmi, suffix, keys, _, parts] => {
            let (channel, behind) = key_before(bytes, nmi, suffix, "0");
            let (keys, behind) = behind.split_at(number(keys));
            let shares = numbers(behind.strip_prefix(b"\n").and_then(|line| line.strip_suffix(b"\n")));
            let board = Told { first: 0, keys: keys.to_vec(), shares };
            let places = number(parts);
            Some((Call::Total(Task { total: number(total), channel, board, parts: places }), places))
        }
        ["splitday", day, parts, _] => Some((Call::Day { number: number(day), file: bytes.to_vec() }, number(parts))),
        ["splitstored", nmi, suffix, date, parts, _] => {
            let (key, map) = key_before(bytes, nmi, suffix, date);
            Some((Call::Stored { key, map: map.to_vec() }, number(parts)))
        }
        _ => None,
    }
}

/// A key of as many bytes as the words say, and what stands behind it.
fn key_before<'a>(bytes: &'a [u8], nmi: &str, suffix: &str, date: &str) -> (ToldKey, &'a [u8]) {
    let (nmi, behind) = bytes.split_at(number(nmi));
    let (suffix, behind) = behind.split_at(number(suffix));
    (ToldKey { nmi: nmi.to_vec(), suffix: suffix.to_vec(), date: number(date) }, behind)
}
