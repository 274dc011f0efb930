//! Tests: what is said to be no store is none, what is said to be one is one, and a run breaks each condition alone.

use super::super::chance::Chance;
use super::broken::{self, AT_THE_EDGE, BROKEN};
use super::called::calls_of_run;
use super::{AT_THE_EDGE_PER_ROUND, BAD_KEYS_PER_ROUND, BROKEN_PER_ROUND, LARGE, ROUND};
use crate::block::{check_block, read_block};
use crate::cases::keys::BAD_KEYS;
use crate::fields::is_real_date;
use crate::store::layout::{Header, Slot, SLOT_LENGTH};
use crate::store::reading::read_store;
use std::collections::HashSet;

#[test]
fn broken_stores_are_none_and_those_at_the_edge_are_some() {
    for index in 0..60 {
        for lent in BROKEN {
            let (memory, _) = broken::memory(&mut Chance::for_sequence(3, index), lent);
            assert!(read_store(&memory).is_err(), "{} is a store, {index}", lent.0);
        }
        for lent in AT_THE_EDGE {
            let (memory, held) = broken::memory(&mut Chance::for_sequence(4, index), lent);
            let store = read_store(&memory).unwrap_or_else(|_| panic!("{} is no store, {index}", lent.0));
            assert_eq!(store.days.len(), held.len(), "{}", lent.0);
        }
    }
}

#[test]
fn every_turn_of_each_sweep_comes_in_a_run() {
    let rounds = 2_000 / ROUND;
    for (per_round, turns) in [
        (BROKEN_PER_ROUND, BROKEN.len()),
        (AT_THE_EDGE_PER_ROUND, AT_THE_EDGE.len()),
        (BAD_KEYS_PER_ROUND, BAD_KEYS.len()),
    ] {
        assert!(turns as u64 <= rounds * per_round);
    }
    for number in LARGE {
        assert!(matches!(number % ROUND, 1..=26), "sequence {number}");
    }
}

// --- The conditions, each asked apart from the others ---

/// The names of the conditions that these bytes break. Of what can't be read nothing is said. Fewer bytes than a header
/// break nothing else.
fn broken_conditions(memory: &[u8]) -> Vec<&'static str> {
    let Some(header) = Header::read(memory) else { return vec!["32 bytes"] };
    let lent = memory.len() as u64;
    let used_slots: Vec<u64> = (0..64).filter(|slot| header.used_map >> slot & 1 == 1).collect();
    let there = used_slots.iter().filter(|slot| **slot < header.slots);
    let slots: Vec<Slot> = there.filter_map(|slot| readable_slot(memory, &header, *slot)).collect();
    let ranges_overlap = |a: &Slot, b: &Slot| a.offset < b.block_end() && b.offset < a.block_end();
    let block_of = |slot: &Slot| {
        let start = (header.room + slot.offset) as usize;
        memory.get(start..start + slot.block_length as usize).map(<[u8]>::to_vec)
    };
    let is_accepted =
        |slot: &Slot| block_of(slot).is_none_or(|block| check_block(&block, u32::from(slot.length), slot.unit).is_ok());
    let has_date = |slot: &Slot| {
        let block = block_of(slot).unwrap_or_default();
        read_block(&block, u32::from(slot.length), slot.unit).map_or(true, |day| day.date == slot.date)
    };
    let pairs = || slots.iter().enumerate().flat_map(|(place, a)| slots[..place].iter().map(move |b| (a, b)));
    let conditions = [
        ("1 to 64 slots", (1..=64).contains(&header.slots)),
        ("days held", header.days_held == used_slots.len() as u64),
        ("no bit past the slots", used_slots.iter().all(|slot| *slot < header.slots)),
        ("list behind the header", header.list >= 32),
        ("list before the room", header.list + 26 * header.slots <= header.room),
        ("room in the bytes lent", header.room + header.room_length <= lent),
        ("used bytes in the room", header.bytes_used <= header.room_length),
        ("good keys", slots.iter().all(is_good_key)),
        ("keys of their own", pairs().all(|(a, b)| (&a.nmi, &a.suffix, a.date) != (&b.nmi, &b.suffix, b.date))),
        ("ranges in the used bytes", slots.iter().all(|slot| slot.block_end() <= header.bytes_used)),
        ("ranges of their own", pairs().all(|(a, b)| !ranges_overlap(a, b))),
        ("accepted blocks", slots.iter().all(is_accepted)),
        ("blocks of the slot's date", slots.iter().all(has_date)),
    ];
    conditions.into_iter().filter(|(_, holds)| !holds).map(|(name, _)| name).collect()
}

fn readable_slot(memory: &[u8], header: &Header, slot: u64) -> Option<Slot> {
    let place = (header.list + slot * SLOT_LENGTH as u64) as usize;
    (place + SLOT_LENGTH <= memory.len()).then(|| Slot::read(memory, place))
}

fn is_good_key(slot: &Slot) -> bool {
    let is_kept = |byte: &u8| byte.is_ascii_uppercase() || byte.is_ascii_digit();
    slot.nmi.iter().chain(&slot.suffix).all(is_kept) && is_real_date(slot.date)
}

#[test]
fn a_run_breaks_each_condition_alone() {
    for seed in [1, 2] {
        let mut broken_alone = HashSet::new();
        for called in calls_of_run(seed, 2_000) {
            let broken = broken_conditions(&called.memory);
            assert_eq!(broken.is_empty(), called.store().is_some(), "{broken:?}");
            if let [alone] = broken[..] {
                broken_alone.insert(alone);
            }
        }
        assert_eq!(broken_alone.len(), 14, "{broken_alone:?}, seed {seed}");
    }
}

/// What a way to break a store is called, and the condition that it breaks alone.
const ALONE: [(&str, &str); 32] = [
    ("a byte less than a header lent", "32 bytes"),
    ("no slots", "1 to 64 slots"),
    ("65 slots", "1 to 64 slots"),
    ("a day held too many", "days held"),
    ("a day held too few", "days held"),
    ("many days held too many", "days held"),
    ("a bit just past the slots", "no bit past the slots"),
    ("the last bit, past the slots", "no bit past the slots"),
    ("a used slot past the slots", "no bit past the slots"),
    ("a list that starts in the header", "list behind the header"),
    ("a list that starts with the header", "list behind the header"),
    ("a list that ends in the room", "list before the room"),
    ("a list behind the room", "list before the room"),
    ("a list whose end wraps", "list before the room"),
    ("a room that ends behind the bytes lent", "room in the bytes lent"),
    ("a room much longer than the bytes lent", "room in the bytes lent"),
    ("a room whose end wraps", "room in the bytes lent"),
    ("a room so far behind that its end wraps", "room in the bytes lent"),
    ("a room of no bytes behind the bytes lent", "room in the bytes lent"),
    ("more bytes used than the room has", "used bytes in the room"),
    ("a byte more used than the room has", "used bytes in the room"),
    ("a small letter in an NMI", "good keys"),
    ("another byte in a suffix", "good keys"),
    ("two days of one key", "keys of their own"),
    ("a block that ends behind the used bytes", "ranges in the used bytes"),
    ("a block behind the used bytes", "ranges in the used bytes"),
    ("two days in one range", "ranges of their own"),
    ("a day in the range of another, which has a 500 more", "ranges of their own"),
    ("a block that is refused", "accepted blocks"),
    ("a block of no bytes", "accepted blocks"),
    ("a unit of fewer decimals", "accepted blocks"),
    ("a block of another date", "blocks of the slot's date"),
];

#[test]
fn ways_to_break_a_store_break_the_condition_that_they_mean() {
    for (name, condition) in ALONE {
        let lent = *BROKEN.iter().find(|lent| lent.0 == name).unwrap_or_else(|| panic!("no {name}"));
        let alone = (0..40).filter(|index| {
            let (memory, _) = broken::memory(&mut Chance::for_sequence(5, *index), lent);
            broken_conditions(&memory) == [condition]
        });
        let alone = alone.count();
        assert!(alone >= 36, "{name} breaks {condition} alone in {alone} of 40");
    }
}
