//! Versions for maps: entries, first dates and lists that adding takes, and ones that it doesn't.

use super::super::chance::Chance;
use super::super::keys::{ToldKey, NO_DATES, OTHER_BYTES};
use super::super::scene::background;
use super::super::words;
use crate::fields::is_real_date;
use crate::tenants::layout::{Entry, KEY_LENGTH, NMI_LENGTH, NO_KEY, OUTPUTS};
use crate::tenants::KEYS_LENGTH;

/// The most that the probe takes of keys and of shares.
pub const LONGEST_KEYS: usize = 2_000;
pub const LONGEST_SHARES: usize = 300;

// --- What an adding tells ---

#[derive(Clone)]
pub struct Told {
    pub first: u32,
    pub keys: Vec<u8>,
    pub shares: Vec<u16>,
}

impl Told {
    pub fn of(first: u32, entries: &[Entry]) -> Told {
        Told {
            first,
            keys: entries.iter().flat_map(|entry| entry.key).collect(),
            shares: entries.iter().map(|entry| entry.share).collect(),
        }
    }

    /// Any version that adding takes, its letters of either case.
    pub fn any(chance: &mut Chance, first: u32) -> Told {
        Told::of(first, &entries(chance)).spelled(chance)
    }

    /// The same with letters of either case.
    pub fn spelled(mut self, chance: &mut Chance) -> Told {
        let small_of_4 = chance.pick(&[0, 2, 4]);
        for byte in &mut self.keys {
            if chance.below(4) < small_of_4 {
                byte.make_ascii_lowercase();
            }
        }
        self
    }

    /// Keys and shares as a case tells them, each ended by LF.
    pub fn keys_and_shares(&self) -> Vec<u8> {
        let numbers: String = self.shares.iter().map(|share| format!("{share} ")).collect();
        [&self.keys[..], b"\n", numbers.as_bytes(), b"\n"].concat()
    }

    /// The entries of the outputs, as they are told.
    #[cfg(test)]
    pub fn entries(&self) -> Vec<Entry> {
        let keys = self.keys.chunks_exact(KEY_LENGTH).map(|key| key.try_into().expect("a key's bytes"));
        keys.zip(&self.shares).take(OUTPUTS).map(|(key, share)| Entry { key, share: *share }).collect()
    }

    pub fn set(&mut self, output: usize, entry: Entry) {
        self.keys[output * KEY_LENGTH..][..KEY_LENGTH].copy_from_slice(&entry.key);
        self.shares[output] = entry.share;
    }

    pub fn shorten_lists(&mut self, chance: &mut Chance) {
        let (key_bytes, shares) = short_lists(chance);
        self.keys.truncate(key_bytes);
        self.shares.truncate(shares);
    }

    /// Tells more than there are outputs. What is more may be anything.
    pub fn lengthen_lists(&mut self, chance: &mut Chance) {
        let (key_bytes, shares) = long_lists(chance);
        self.keys.extend(background(chance, key_bytes - KEYS_LENGTH));
        self.shares.resize_with(shares, || chance.pick(&[0, 1, 1001, u16::MAX]));
    }
}

/// Lengths of keys and shares of which one or both are too short, often by one alone.
pub fn short_lists(chance: &mut Chance) -> (usize, usize) {
    let key_bytes = chance.pick(&[KEYS_LENGTH - 1, KEYS_LENGTH - 1, KEYS_LENGTH - KEY_LENGTH, 12, 1, 0]);
    let shares = chance.pick(&[OUTPUTS - 1, OUTPUTS - 1, 1, 0]);
    match chance.below(5) {
        0..=1 => (key_bytes, OUTPUTS),
        2..=3 => (KEYS_LENGTH, shares),
        _ => (key_bytes, shares),
    }
}

/// Lengths of keys and shares of which one or both are longer than needed.
pub fn long_lists(chance: &mut Chance) -> (usize, usize) {
    let key_bytes = chance.pick(&[KEYS_LENGTH + 1, KEYS_LENGTH + KEY_LENGTH, LONGEST_KEYS]);
    let shares = chance.pick(&[OUTPUTS + 1, LONGEST_SHARES]);
    match chance.below(4) {
        0 => (key_bytes, OUTPUTS),
        1 => (KEYS_LENGTH, shares),
        2 => (key_bytes, shares),
        _ => (LONGEST_KEYS, LONGEST_SHARES),
    }
}

// --- Entries ---

/// An entry for each output as adding keeps them: few keys at several outputs each, or many; some outputs unused, or
/// none, or all.
pub fn entries(chance: &mut Chance) -> Vec<Entry> {
    let count = chance.pick(&[1, 2, 5, OUTPUTS]);
    let keys = ToldKey::several(chance, count);
    let unused_of_8 = chance.pick(&[0, 1, 2, 4, 7, 8]);
    let mut entry = |_| match chance.below(8) {
        place if place < unused_of_8 => Entry::UNUSED,
        _ => Entry { key: key_bytes(&keys[chance.below(count)]), share: share(chance) },
    };
    (0..OUTPUTS).map(&mut entry).collect()
}

/// An entry of an output that is used.
pub fn used_entry(chance: &mut Chance) -> Entry {
    Entry { key: key_bytes(&ToldKey::any(chance)), share: share(chance) }
}

pub fn key_bytes(key: &ToldKey) -> [u8; KEY_LENGTH] {
    [&key.nmi[..], &key.suffix].concat().try_into().expect("a good key")
}

pub fn share(chance: &mut Chance) -> u16 {
    match chance.below(3) {
        0 => chance.pick(&[0, 1, 999, 1000]),
        _ => chance.between(0, 1000) as u16,
    }
}

/// How the entry of a used output is made one that adding doesn't take, and what that is called.
pub type BadEntry = (&'static str, fn(&mut Chance, &mut Entry));

/// An entry that is bad in this way.
pub fn bad_entry(chance: &mut Chance, (_, spoil): BadEntry) -> Entry {
    let mut entry = used_entry(chance);
    spoil(chance, &mut entry);
    entry
}

pub const BAD_ENTRIES: [BadEntry; 16] = [
    ("a share of 1001", |_, entry| entry.share = 1001),
    ("a share far above 1000", |chance, entry| entry.share = chance.pick(&[1024, 1256, 2000, 32_768, 65_280])),
    ("the largest number as a share", |_, entry| entry.share = u16::MAX),
    ("another byte in an NMI", |chance, entry| entry.key[chance.below(NMI_LENGTH)] = chance.pick(OTHER_BYTES)),
    ("another byte in a suffix", |chance, entry| {
        entry.key[chance.between(NMI_LENGTH, KEY_LENGTH - 1)] = chance.pick(OTHER_BYTES);
    }),
    ("a 0 byte in an NMI", |chance, entry| entry.key[chance.place_among(NMI_LENGTH)] = 0),
    ("a 0 byte in a suffix", |chance, entry| entry.key[chance.between(NMI_LENGTH, KEY_LENGTH - 1)] = 0),
    ("an NMI without a suffix", |_, entry| entry.key[NMI_LENGTH..].fill(0)),
    ("an NMI without a suffix, and no share", |_, entry| {
        entry.key[NMI_LENGTH..].fill(0);
        entry.share = 0;
    }),
    ("a suffix without an NMI", |_, entry| entry.key[..NMI_LENGTH].fill(0)),
    ("a suffix without an NMI, and no share", |_, entry| {
        entry.key[..NMI_LENGTH].fill(0);
        entry.share = 0;
    }),
    ("a single byte for a key, and no share", |chance, entry| {
        let place = chance.place_among(KEY_LENGTH);
        let byte = entry.key[place];
        *entry = Entry::UNUSED;
        entry.key[place] = byte;
    }),
    ("spaces for a key, and no share", |_, entry| *entry = Entry { key: [b' '; KEY_LENGTH], share: 0 }),
    ("a share of 1 without a key", |_, entry| *entry = Entry { key: NO_KEY, share: 1 }),
    ("a share without a key", |chance, entry| *entry = Entry { key: NO_KEY, share: chance.between(1, 1000) as u16 }),
    ("a share above 1000 without a key", |_, entry| *entry = Entry { key: NO_KEY, share: 1001 }),
];

// --- First dates ---

/// A first date that may stand behind this one, often the same or that of the next day.
pub fn next_first(chance: &mut Chance, last: Option<u32>) -> u32 {
    let Some(last) = last else { return words::date(chance) };
    let count = chance.between(1, 3);
    words::rising_dates_from(chance, last, count).pop().unwrap_or(last)
}

/// A first date that falls behind this one, if there is such a date, or is none.
pub fn bad_first(chance: &mut Chance, last: Option<u32>) -> u32 {
    let earlier = last.and_then(day_before).filter(|_| chance.one_in(2));
    let Some(earlier) = earlier else { return chance.pick(&NO_DATES) };
    let much_earlier = words::date(chance);
    if much_earlier < earlier && chance.one_in(2) {
        much_earlier
    } else {
        earlier
    }
}

/// The date of the day before this one. None if it is no date that a file may hold.
pub fn day_before(date: u32) -> Option<u32> {
    // From the last day of a year to the first of the next is the farthest.
    (date - 8_870..date).rev().find(|earlier| is_real_date(*earlier))
}
