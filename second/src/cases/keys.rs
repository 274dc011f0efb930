//! Keys for calls on stores and maps: good ones as they are kept and as they are told, and ones that are none.

use super::chance::Chance;
use super::words::{self, Word};
use crate::fields::{day_after, is_real_date};
use crate::keys::Key;

const CAPITALS_AND_DIGITS: &[u8] = b"ABCDEFGHIJKLMNOPQRSTUVWXYZ0123456789";

/// What a call tells as a key, be it a good one or none.
#[derive(Clone, Debug, PartialEq, Eq)]
pub struct ToldKey {
    pub nmi: Word,
    pub suffix: Word,
    pub date: u32,
}

impl ToldKey {
    /// A good key as it is kept. It has letters in both parts.
    pub fn any(chance: &mut Chance) -> ToldKey {
        let mut nmi: Word = (0..10).map(|_| chance.pick(CAPITALS_AND_DIGITS)).collect();
        let letter = chance.below(10);
        nmi[letter] = chance.pick(b"AEMNZ");
        let suffix = vec![chance.pick(b"BEKQZ"), chance.pick(b"0123459A")];
        ToldKey { nmi, suffix, date: words::date(chance) }
    }

    /// A key that differs from this one, mostly in one part alone and there by little.
    pub fn other(&self, chance: &mut Chance) -> ToldKey {
        loop {
            let mut other = self.clone();
            match chance.below(6) {
                0 => replace_byte(chance, &mut other.nmi, CAPITALS_AND_DIGITS),
                1 => replace_byte(chance, &mut other.suffix, CAPITALS_AND_DIGITS),
                2 => other.date = other_date(chance, self.date),
                3..=4 => other.date = words::date(chance),
                _ => other = ToldKey::any(chance),
            }
            if other != *self {
                return other;
            }
        }
    }

    /// Some keys, no two alike.
    pub fn several(chance: &mut Chance, count: usize) -> Vec<ToldKey> {
        let mut keys = vec![ToldKey::any(chance)];
        while keys.len() < count {
            let near = chance.below(keys.len());
            let key = keys[near].other(chance);
            if !keys.contains(&key) {
                keys.push(key);
            }
        }
        keys
    }

    /// The same key with letters of either case.
    pub fn spelled(&self, chance: &mut Chance) -> ToldKey {
        let style = chance.below(5);
        let mut spell = |letters: &Word| match style {
            0 => letters.to_ascii_lowercase(),
            1 => letters.iter().map(|letter| chance.pick(&[letter.to_ascii_lowercase(), *letter])).collect(),
            _ => letters.clone(),
        };
        ToldKey { nmi: spell(&self.nmi), suffix: spell(&self.suffix), date: self.date }
    }

    /// How many bytes NMI and suffix have, as a case's line tells it.
    pub fn lengths(&self) -> String {
        format!("{} {}", self.nmi.len(), self.suffix.len())
    }

    pub fn key(&self) -> Option<Key> {
        Key::named(&self.nmi, &self.suffix, self.date)
    }
}

fn replace_byte(chance: &mut Chance, bytes: &mut Word, by: &[u8]) {
    let place = chance.place_among(bytes.len());
    bytes[place] = chance.pick(by);
}

/// The date of the day before or after, or one that differs in its year alone.
pub fn other_date(chance: &mut Chance, date: u32) -> u32 {
    let near = [date - 1, day_after(date), date + 10_000, date - 10_000];
    let dates: Vec<u32> = near.into_iter().filter(|date| is_real_date(*date)).collect();
    chance.pick(&dates)
}

// --- Bad keys ---

/// Bytes that are neither letters nor digits: their neighbours, ones that stand in files, and others.
pub const OTHER_BYTES: &[u8] = b"/:@[`{-_ ,.\x00\n\r\x1f\x7f\x80\xc1\xe1\xff";

/// Dates that are none.
pub const NO_DATES: [u32; 17] = [
    0,
    1,
    18991231,
    19000229,
    20030001,
    20031301,
    20030100,
    20030132,
    20030229,
    20030431,
    21000229,
    22000101,
    2003043,
    200304300,
    99991231,
    99999999,
    u32::MAX,
];

/// How a good key is made a bad one, and what that is called.
pub type BadKey = (&'static str, fn(&mut Chance, &mut ToldKey));

pub const BAD_KEYS: [BadKey; 20] = [
    ("no NMI", |_, key| key.nmi.clear()),
    ("an NMI without its last byte", |_, key| key.nmi.truncate(9)),
    ("an NMI without its first byte", |_, key| key.nmi = key.nmi[1..].to_vec()),
    ("an NMI with a letter behind it", |chance, key| key.nmi.push(chance.pick(CAPITALS_AND_DIGITS))),
    ("an NMI with a space at an end", |chance, key| key.nmi.insert(chance.below(2) * 10, b' ')),
    ("the longest NMI", |_, key| key.nmi = key.nmi.iter().copied().cycle().take(64).collect()),
    ("an NMI that begins with another byte", |chance, key| key.nmi[0] = chance.pick(OTHER_BYTES)),
    ("an NMI with another byte in it", |chance, key| key.nmi[chance.between(1, 8)] = chance.pick(OTHER_BYTES)),
    ("an NMI that ends with another byte", |chance, key| key.nmi[9] = chance.pick(OTHER_BYTES)),
    ("no suffix", |_, key| key.suffix.clear()),
    ("a suffix of one byte", |_, key| key.suffix.truncate(1)),
    ("a suffix of three bytes", |chance, key| key.suffix.push(chance.pick(CAPITALS_AND_DIGITS))),
    ("the longest suffix", |_, key| key.suffix = key.suffix.iter().copied().cycle().take(64).collect()),
    ("a suffix that begins with another byte", |chance, key| key.suffix[0] = chance.pick(OTHER_BYTES)),
    ("a suffix that ends with another byte", |chance, key| key.suffix[1] = chance.pick(OTHER_BYTES)),
    ("the last byte of the NMI in the suffix", |_, key| {
        let last = key.nmi.pop();
        key.suffix.splice(..0, last);
    }),
    ("the first byte of the suffix in the NMI", |_, key| key.nmi.push(key.suffix.remove(0))),
    ("NMI and suffix for each other", |_, key| std::mem::swap(&mut key.nmi, &mut key.suffix)),
    ("no date", |chance, key| key.date = chance.pick(&NO_DATES)),
    ("no date, and no NMI either", |chance, key| {
        key.date = chance.pick(&NO_DATES);
        key.nmi.truncate(chance.below(10));
    }),
];

/// This key made a bad one, in any way.
pub fn bad_key(chance: &mut Chance, key: &ToldKey) -> ToldKey {
    let (_, spoil) = chance.pick(&BAD_KEYS);
    let mut bad = key.clone();
    spoil(chance, &mut bad);
    bad
}
