//! Tests: what is said to be no map is none, what is said to be one is one, and a run breaks each condition alone.

use super::super::chance::Chance;
use super::called::calls_of_run;
use super::hand::{at_the_edge, broken, broken_ways, edge_ways};
use super::versions::BAD_ENTRIES;
use super::{swept_way, AT_THE_EDGE_PER_ROUND, BAD_ENTRIES_AT_A_TIME, BAD_ENTRIES_PER_ROUND, BROKEN_PER_ROUND, ROUND};
use crate::cases::sweep::which;
use crate::fields::is_real_date;
use crate::tenants::read_map;
use std::collections::HashSet;

#[test]
fn broken_maps_are_none_and_those_at_the_edge_are_some() {
    for index in 0..10 {
        for way in 0..broken_ways() {
            let (name, hand) = broken(&mut Chance::for_map_sequence(3, index), way);
            assert!(read_map(&hand.bytes()).is_err(), "{name} is a map, {index}");
        }
        for way in 0..edge_ways() {
            let (name, hand) = at_the_edge(&mut Chance::for_map_sequence(4, index), way);
            let versions = read_map(&hand.bytes()).unwrap_or_else(|_| panic!("{name} is no map, {index}"));
            assert_eq!(versions.len(), hand.count as usize, "{name}");
        }
    }
}

#[test]
fn every_turn_of_each_sweep_comes_in_a_run() {
    let rounds = 500 / ROUND;
    for seed in [0, 1, 7, u64::MAX] {
        for (per_round, ways) in [(BROKEN_PER_ROUND, broken_ways()), (AT_THE_EDGE_PER_ROUND, edge_ways())] {
            let turns = (0..rounds * per_round).map(|turn| which(seed.wrapping_add(turn), ways));
            assert_eq!(turns.collect::<HashSet<usize>>().len(), ways, "seed {seed}");
        }
        let turns = (0..rounds * BAD_ENTRIES_PER_ROUND)
            .flat_map(|turn| (0..BAD_ENTRIES_AT_A_TIME).map(move |place| swept_way(seed.wrapping_add(turn), place).0));
        assert_eq!(turns.collect::<HashSet<&str>>().len(), BAD_ENTRIES.len(), "seed {seed}");
    }
}

// --- The conditions, each asked apart from the others ---

/// The names of the conditions that these bytes break. Too few bytes, and a count that is none, break nothing else.
fn broken_conditions(memory: &[u8]) -> Vec<&'static str> {
    if memory.len() < 57_476 {
        return vec!["57,476 bytes"];
    }
    let count = u32::from_le_bytes([memory[0], memory[1], memory[2], memory[3]]);
    if count > 32 {
        return vec!["at most 32 versions"];
    }
    let versions: Vec<&[u8]> = memory[4..].chunks(1_796).take(count as usize).collect();
    let firsts: Vec<u32> =
        versions.iter().map(|bytes| u32::from_le_bytes([bytes[0], bytes[1], bytes[2], bytes[3]])).collect();
    let entries = || versions.iter().flat_map(|bytes| bytes[4..].chunks(14));
    let share = |entry: &[u8]| u16::from_le_bytes([entry[12], entry[13]]);
    let has_no_key = |entry: &[u8]| entry[..12] == [0; 12];
    let has_good_key = |entry: &[u8]| entry[..12].iter().all(|byte| byte.is_ascii_uppercase() || byte.is_ascii_digit());
    let conditions = [
        ("real first dates", firsts.iter().all(|first| is_real_date(*first))),
        ("first dates that do not fall", firsts.is_sorted()),
        ("shares up to 1000", entries().all(|entry| share(entry) <= 1000)),
        ("good keys", entries().all(|entry| has_no_key(entry) || has_good_key(entry))),
        ("no share without a key", entries().all(|entry| !has_no_key(entry) || share(entry) == 0)),
    ];
    conditions.into_iter().filter(|(_, holds)| !holds).map(|(name, _)| name).collect()
}

#[test]
fn a_run_breaks_each_condition_alone() {
    for seed in [1, 2] {
        let mut broken_alone = HashSet::new();
        for called in calls_of_run(seed, 500) {
            let broken = broken_conditions(&called.memory);
            assert_eq!(broken.is_empty(), called.versions.is_some(), "{broken:?}");
            if let [alone] = broken[..] {
                broken_alone.insert(alone);
            }
        }
        assert_eq!(broken_alone.len(), 7, "{broken_alone:?}, seed {seed}");
    }
}

/// Parts of the names of ways to break a map, and the condition that these break alone.
const ALONE: [(&str, &str); 13] = [
    ("lent", "57,476 bytes"),
    ("33 versions", "at most 32 versions"),
    ("many versions", "at most 32 versions"),
    ("number of versions", "at most 32 versions"),
    ("a first date that is none", "real first dates"),
    ("no first date, of the first", "real first dates"),
    ("a first date behind all dates", "real first dates"),
    ("date falls", "first dates that do not fall"),
    ("a share of 1001", "shares up to 1000"),
    ("a share far above 1000", "shares up to 1000"),
    ("the largest number as a share", "shares up to 1000"),
    ("a share of 1 without a key", "no share without a key"),
    ("a share without a key", "no share without a key"),
];

/// What else is against an entry is against its key.
fn condition_meant(name: &str) -> &'static str {
    ALONE.iter().find(|(part, _)| name.contains(part)).map_or("good keys", |(_, condition)| condition)
}

#[test]
fn ways_to_break_a_map_break_the_condition_that_they_mean() {
    for way in 0..broken_ways() {
        for index in 0..5 {
            let (name, hand) = broken(&mut Chance::for_map_sequence(5, index), way);
            let broken = broken_conditions(&hand.bytes());
            match name.as_str() {
                "a first date that is none, of any version" => assert!(broken.contains(&"real first dates")),
                _ if name.starts_with("a share above 1000 without a key") => assert_eq!(broken.len(), 2, "{name}"),
                _ => assert_eq!(broken, [condition_meant(&name)], "{name}"),
            }
        }
    }
}
