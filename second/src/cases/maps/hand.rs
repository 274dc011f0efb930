//! Maps made by hand and not by calls, and bytes that are no map, each in one way.

use super::super::chance::Chance;
use super::super::keys::NO_DATES;
use super::super::scene::background;
use super::super::words::{EDGE_DATES, LAST_DATE};
use super::versions::{bad_entry, entries, next_first, used_entry, BadEntry, BAD_ENTRIES};
use crate::fields::day_after;
use crate::tenants::layout::{
    place_of_version, Entry, Version, COUNT_LENGTH, MAP_LENGTH, MOST_VERSIONS, NMI_LENGTH, OUTPUTS, VERSION_LENGTH,
};

/// A map in its parts, which may be changed before it is bytes.
#[derive(Clone)]
pub struct Hand {
    /// What stands as the number of versions.
    pub count: u32,
    /// What stands as versions, from the first on: those in use, and by chance more.
    pub versions: Vec<Version>,
    /// All bytes lent, as they are where nothing else stands.
    pub background: Vec<u8>,
}

impl Hand {
    /// A map of some versions, so many at least and at most.
    pub fn any(chance: &mut Chance, fewest: usize, most: usize) -> Hand {
        let count = match chance.below(6) {
            0 => most,
            1 => chance.between(fewest, most),
            _ => chance.between(fewest, most.min(fewest + 4)),
        };
        Hand::of(chance, count)
    }

    pub fn of(chance: &mut Chance, count: usize) -> Hand {
        let mut versions: Vec<Version> = Vec::new();
        for _ in 0..count {
            let first = next_first(chance, versions.last().map(|last| last.first));
            versions.push(Version { first, entries: entries(chance) });
        }
        Hand { count: count as u32, versions, background: background(chance, MAP_LENGTH) }
    }

    /// What lies outside the bytes lent is left out.
    pub fn bytes(&self) -> Vec<u8> {
        let versions = self.versions.iter().flat_map(Version::bytes);
        let mut memory = self.background.clone();
        for (byte, written) in memory.iter_mut().zip(self.count.to_le_bytes().into_iter().chain(versions)) {
            *byte = written;
        }
        memory
    }

    /// Lets a further version stand behind those in use, one that could be added.
    fn put_behind(&mut self, chance: &mut Chance) -> &mut Version {
        let first = next_first(chance, self.versions.last().map(|last| last.first));
        self.versions.push(Version { first, entries: entries(chance) });
        self.versions.last_mut().expect("it was put there")
    }

    /// Lets every output of every version have such an entry.
    fn set_entries(&mut self, mut entry: impl FnMut(Entry) -> Entry) {
        for old in self.versions.iter_mut().flat_map(|version| &mut version.entries) {
            *old = entry(*old);
        }
    }
}

/// One way to lend bytes: what it is called, the fewest and the most versions in use, and what is changed in a map.
pub type Lent = (&'static str, usize, usize, fn(&mut Chance, &mut Hand));

/// The most versions in use behind which another one may stand.
const NOT_FULL: usize = MOST_VERSIONS - 1;

/// 1,796 times this is 0 in 32 bits.
const WRAPPING_COUNT: u32 = 1 << 30;

/// Bytes that are no map, but for what is against single entries.
pub const BROKEN: [Lent; 20] = [
    ("no bytes lent", 0, NOT_FULL, |_, hand| hand.background.clear()),
    ("less than a count lent", 0, 0, |_, hand| hand.background.truncate(COUNT_LENGTH - 1)),
    ("a count alone lent", 0, 0, |_, hand| hand.background.truncate(COUNT_LENGTH)),
    ("a byte less than a map lent", 0, NOT_FULL, |_, hand| hand.background.truncate(MAP_LENGTH - 1)),
    ("a byte less than a full map lent", MOST_VERSIONS, MOST_VERSIONS, |_, hand| {
        hand.background.truncate(MAP_LENGTH - 1);
    }),
    ("the versions in use alone lent", 1, NOT_FULL, |_, hand| {
        hand.background.truncate(place_of_version(hand.versions.len()));
    }),
    ("33 versions", MOST_VERSIONS, MOST_VERSIONS, |_, hand| hand.count += 1),
    ("33 versions in bytes for as many", MOST_VERSIONS, MOST_VERSIONS, |chance, hand| {
        hand.put_behind(chance);
        hand.count += 1;
        hand.background.resize(MAP_LENGTH + VERSION_LENGTH, 0);
    }),
    ("many versions", 0, MOST_VERSIONS, |chance, hand| {
        hand.count |= chance.pick(&[1 << 6, 1 << 7, 1 << 8, 1 << 16, 1 << 24, 1 << 31]);
    }),
    ("the largest number of versions", 0, MOST_VERSIONS, |_, hand| hand.count = u32::MAX),
    ("so many versions that their length wraps", 0, MOST_VERSIONS, |chance, hand| {
        hand.count += WRAPPING_COUNT * chance.between(1, 3) as u32;
    }),
    ("a first date that is none, of the first version", 1, MOST_VERSIONS, |chance, hand| no_date_at(chance, hand, 0)),
    ("a first date that is none, of a middle version", 3, MOST_VERSIONS, |chance, hand| {
        let middle = middle(chance, hand);
        no_date_at(chance, hand, middle);
    }),
    ("a first date that is none, of the last version", 1, MOST_VERSIONS, |chance, hand| {
        no_date_at(chance, hand, hand.versions.len() - 1);
    }),
    ("no first date, of the first version", 1, MOST_VERSIONS, |chance, hand| {
        hand.versions[0].first = chance.pick(&[0, 1, 18991231]);
    }),
    ("a first date behind all dates, of the last version", 1, MOST_VERSIONS, |chance, hand| {
        let last = hand.versions.len() - 1;
        hand.versions[last].first = chance.pick(&[22000101, 99991231, u32::MAX]);
    }),
    ("a first date that is none, of any version", 1, MOST_VERSIONS, |chance, hand| {
        let place = chance.below(hand.versions.len());
        hand.versions[place].first = chance.pick(&NO_DATES);
    }),
    ("the second first date falls", 2, MOST_VERSIONS, |_, hand| fall_at(hand, 1)),
    ("a middle first date falls", 4, MOST_VERSIONS, |chance, hand| {
        let middle = chance.between(2, hand.versions.len() - 2);
        fall_at(hand, middle);
    }),
    ("the last first date falls", 2, MOST_VERSIONS, |_, hand| fall_at(hand, hand.versions.len() - 1)),
];

/// Bytes that are a map only just, but for entries behind the versions in use.
pub const AT_THE_EDGE: [Lent; 15] = [
    ("no versions", 0, 0, |_, _| ()),
    ("no versions, and only high bytes", 0, 0, |_, hand| hand.background.fill(0xff)),
    ("32 versions", MOST_VERSIONS, MOST_VERSIONS, |_, _| ()),
    ("a byte behind a full map", MOST_VERSIONS, MOST_VERSIONS, |chance, hand| more_bytes(chance, hand, 1)),
    ("bytes for a version behind a full map", MOST_VERSIONS, MOST_VERSIONS, |chance, hand| {
        more_bytes(chance, hand, VERSION_LENGTH);
    }),
    ("many bytes behind a map", 0, NOT_FULL, |chance, hand| {
        let more = chance.between(2, 4_000);
        more_bytes(chance, hand, more);
    }),
    ("one first date of all versions", 2, MOST_VERSIONS, |_, hand| {
        let first = hand.versions[0].first;
        hand.versions.iter_mut().for_each(|version| version.first = first);
    }),
    ("the first date and the last", 2, MOST_VERSIONS, |chance, hand| {
        let place = chance.between(1, hand.versions.len() - 1);
        for (number, version) in hand.versions.iter_mut().enumerate() {
            version.first = if number < place { EDGE_DATES[0] } else { LAST_DATE };
        }
    }),
    ("a share of 1000 at every output", 1, NOT_FULL, |chance, hand| {
        hand.set_entries(|_| Entry { share: 1000, ..used_entry(chance) });
    }),
    ("keys without shares", 1, NOT_FULL, |_, hand| hand.set_entries(|entry| Entry { share: 0, ..entry })),
    ("one key at every output", 1, NOT_FULL, |chance, hand| {
        let entry = used_entry(chance);
        hand.set_entries(|_| entry);
    }),
    ("no output used", 1, NOT_FULL, |_, hand| hand.set_entries(|_| Entry::UNUSED)),
    ("behind those in use, a first date that is none", 0, NOT_FULL, |chance, hand| {
        let first = chance.pick(&NO_DATES);
        hand.put_behind(chance).first = first;
    }),
    ("behind those in use, a first date that falls", 1, NOT_FULL, |chance, hand| {
        hand.put_behind(chance);
        fall_at(hand, hand.versions.len() - 1);
    }),
    ("behind those in use, one that could be added", 0, NOT_FULL, |chance, hand| {
        hand.put_behind(chance);
    }),
];

/// How an entry is none that adding keeps, though it may take it.
const NOT_KEPT: [BadEntry; 3] = [
    ("a small letter in an NMI", |chance, entry| {
        let place = chance.place_among(NMI_LENGTH);
        entry.key[place] = chance.pick(b"az");
    }),
    ("a small letter in a suffix", |chance, entry| {
        entry.key[NMI_LENGTH + chance.below(2)] = chance.pick(b"ekz");
    }),
    ("a key in small letters", |_, entry| entry.key.make_ascii_lowercase()),
];

fn entry_faults() -> Vec<BadEntry> {
    [&BAD_ENTRIES[..], &NOT_KEPT].concat()
}

// --- Sweeps ---

/// Ways to lend bytes that are no map: each kind of bad entry is in the first version, a middle one, and the last.
pub fn broken_ways() -> usize {
    BROKEN.len() + 3 * entry_faults().len()
}

/// Bytes that are no map in the way of this number, and what that is called.
pub fn broken(chance: &mut Chance, way: usize) -> (String, Hand) {
    if let Some(lent) = BROKEN.get(way) {
        return (lent.0.to_string(), laid(chance, *lent));
    }
    let (which, kind) = ((way - BROKEN.len()) % 3, (way - BROKEN.len()) / 3);
    let fault = entry_faults()[kind];
    let mut hand = Hand::any(chance, 3, MOST_VERSIONS);
    let (place, name) = match which {
        0 => (0, "the first version"),
        1 => (middle(chance, &hand), "a middle version"),
        _ => (hand.versions.len() - 1, "the last version"),
    };
    // So each kind comes at the first output, at the last and at another.
    let output = match (which + kind) % 3 {
        0 => 0,
        1 => OUTPUTS - 1,
        _ => chance.between(1, OUTPUTS - 2),
    };
    spoil_version(chance, &mut hand.versions[place], output, fault);
    (format!("{}, in {name} at output {output}", fault.0), hand)
}

/// Ways to lend bytes that are a map only just: each kind of bad entry is in the version behind those in use.
pub fn edge_ways() -> usize {
    AT_THE_EDGE.len() + entry_faults().len()
}

/// Bytes that are a map in the way of this number, and what that is called.
pub fn at_the_edge(chance: &mut Chance, way: usize) -> (String, Hand) {
    if let Some(lent) = AT_THE_EDGE.get(way) {
        return (lent.0.to_string(), laid(chance, *lent));
    }
    let fault = entry_faults()[way - AT_THE_EDGE.len()];
    let mut hand = Hand::any(chance, 0, NOT_FULL);
    let mut behind = hand.put_behind(chance).clone();
    let output = chance.place_among(OUTPUTS);
    spoil_version(chance, &mut behind, output, fault);
    *hand.versions.last_mut().expect("it was put there") = behind;
    (format!("behind those in use, {}", fault.0), hand)
}

fn laid(chance: &mut Chance, (_, fewest, most, change): Lent) -> Hand {
    let mut hand = Hand::any(chance, fewest, most);
    change(chance, &mut hand);
    hand
}

// --- Single changes ---

/// Lets an output of a version have a bad entry.
fn spoil_version(chance: &mut Chance, version: &mut Version, output: usize, fault: BadEntry) {
    version.entries[output] = bad_entry(chance, fault);
}

/// A version that is neither the first nor the last.
fn middle(chance: &mut Chance, hand: &Hand) -> usize {
    chance.between(1, hand.versions.len() - 2)
}

/// Lets the first date of one version be none, though it stands between those before it and those behind.
fn no_date_at(chance: &mut Chance, hand: &mut Hand, place: usize) {
    let none = chance.pick(&[20030229, 20030230, 20030231, 20030299, 20030300]);
    for (number, version) in hand.versions.iter_mut().enumerate() {
        version.first = match number {
            _ if number < place => 20030228,
            _ if number == place => none,
            _ => 20030301,
        };
    }
}

/// Lets the first date of one version be earlier by a day than the one before it, and no other one fall.
fn fall_at(hand: &mut Hand, place: usize) {
    let first = hand.versions[place].first.min(LAST_DATE - 1);
    hand.versions[place].first = first;
    hand.versions[place - 1].first = day_after(first);
}

fn more_bytes(chance: &mut Chance, hand: &mut Hand, more: usize) {
    let behind = background(chance, more);
    hand.background.extend(behind);
}
