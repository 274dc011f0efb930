//! Tests: maps written out by hand, byte by byte; which version answers a date; the order of refusals.

use super::*;

/// What stands in memory before it is lent.
const OLD_BYTE: u8 = 0xAA;
const OLD_SHARE: u16 = 0xAAAA;

// --- Calls ---

/// The number of a refusal, which has no place.
fn number_of(refusal: Refusal) -> u64 {
    assert_eq!(refusal, Refusal::without_place(refusal.number));
    refusal.number
}

fn make(memory: &mut [u8]) -> Result<usize, u64> {
    make_map(memory).map_err(number_of)
}

/// A version as a caller has it.
#[derive(Clone)]
pub struct OwnVersion {
    pub keys: Vec<u8>,
    pub shares: Vec<u16>,
}

impl OwnVersion {
    /// One of which no output is used.
    pub fn unused() -> OwnVersion {
        OwnVersion { keys: vec![0; 1536], shares: vec![0; 128] }
    }

    /// The same with this key and this share at an output.
    pub fn with(&self, output: usize, key: &[u8; 12], share: u16) -> OwnVersion {
        let mut version = self.clone();
        version.keys[output * 12..output * 12 + 12].copy_from_slice(key);
        version.shares[output] = share;
        version
    }

    pub fn add(&self, memory: &mut [u8], first: u32) -> Result<usize, u64> {
        add_version(memory, first, &self.keys, &self.shares).map_err(number_of)
    }
}

pub fn back(memory: &mut [u8], version: usize, first: u32) -> Result<usize, u64> {
    back_to(memory, version, first).map_err(number_of)
}

/// The version on a date, and what it says, which is asked with so many bytes of keys and so many shares.
pub fn on(memory: &[u8], date: u32, key_bytes: usize, shares: usize) -> Result<(usize, OwnVersion), u64> {
    let mut filled = OwnVersion { keys: vec![OLD_BYTE; key_bytes], shares: vec![OLD_SHARE; shares] };
    let answer = map_on(memory, date, &mut filled.keys, &mut filled.shares).map_err(number_of);
    let (kept_keys, kept_shares) = if answer.is_ok() { (1536, 128) } else { (0, 0) };
    assert!(filled.keys[kept_keys..].iter().all(|byte| *byte == OLD_BYTE), "bytes that are to stay");
    assert!(filled.shares[kept_shares..].iter().all(|share| *share == OLD_SHARE), "shares that are to stay");
    filled.keys.truncate(1536);
    filled.shares.truncate(128);
    answer.map(|version| (version, filled))
}

/// Which version answers a date.
fn version_on(memory: &[u8], date: u32) -> Result<usize, u64> {
    on(memory, date, 1536, 128).map(|(version, _)| version)
}

/// A map that was just made.
pub fn made() -> Vec<u8> {
    let mut memory = vec![OLD_BYTE; 57_476];
    assert_eq!(make(&mut memory), Ok(0));
    memory
}

const KEY: &[u8; 12] = b"VABD000163E1";
const OTHER_KEY: &[u8; 12] = b"VABD000164B2";

/// The first output has all of one channel, the last a part of another.
fn two_tenants() -> OwnVersion {
    OwnVersion::unused().with(0, KEY, 1000).with(127, OTHER_KEY, 258)
}

/// A map with versions of these first dates.
fn map_of(firsts: &[u32]) -> Vec<u8> {
    let mut memory = made();
    for (number, first) in firsts.iter().enumerate() {
        assert_eq!(two_tenants().add(&mut memory, *first), Ok(number + 1));
    }
    memory
}

/// The call changes nothing, and is refused by this number.
fn refuses<T: std::fmt::Debug>(memory: &[u8], number: u64, call: impl Fn(&mut [u8]) -> Result<T, u64>) {
    let mut left = memory.to_vec();
    let answer = call(&mut left);
    assert_eq!(answer.err(), Some(number));
    assert!(left == memory);
}

// --- Bytes ---

#[test]
fn a_map_is_made_of_57_476_bytes() {
    let mut memory = vec![OLD_BYTE; 57_476];
    assert_eq!(make(&mut memory), Ok(0));
    assert_eq!(memory[..4], [0, 0, 0, 0]);
    assert!(memory[4..].iter().all(|byte| *byte == OLD_BYTE));
    for length in [0, 3, 4, 1_800, 57_475] {
        refuses(&vec![OLD_BYTE; length], 15, make);
    }
    let mut longer = vec![OLD_BYTE; 60_000];
    assert_eq!(make(&mut longer), Ok(0));
    assert!(longer[4..].iter().all(|byte| *byte == OLD_BYTE));
}

/// The bytes of the version that two tenants give. 20030501 is 131a425 in hexadecimal, and 258 is 0102.
fn bytes_of_two_tenants() -> Vec<u8> {
    let first = [0x25, 0xa4, 0x31, 0x01];
    let unused = [0; 14 * 126];
    [&first[..], b"VABD000163E1\xe8\x03", &unused, b"VABD000164B2\x02\x01"].concat()
}

#[test]
fn a_version_is_added_as_1_796_bytes() {
    let mut memory = made();
    assert_eq!(two_tenants().add(&mut memory, 20030501), Ok(1));
    assert_eq!(memory[..4], [1, 0, 0, 0]);
    assert!(memory[4..1_800] == bytes_of_two_tenants());
    assert!(memory[1_800..].iter().all(|byte| *byte == OLD_BYTE));
    // The second stands behind the first, which stays.
    assert_eq!(OwnVersion::unused().add(&mut memory, 20030502), Ok(2));
    assert_eq!(memory[..4], [2, 0, 0, 0]);
    assert!(memory[4..1_800] == bytes_of_two_tenants());
    assert_eq!(memory[1_800..1_804], [0x26, 0xa4, 0x31, 0x01]);
    assert!(memory[1_804..3_596].iter().all(|byte| *byte == 0));
    assert!(memory[3_596..].iter().all(|byte| *byte == OLD_BYTE));
    // Going back to the first writes it behind the second, under its own date.
    assert_eq!(back(&mut memory, 1, 20030502), Ok(3));
    assert_eq!(memory[..4], [3, 0, 0, 0]);
    assert!(memory[4..1_800] == bytes_of_two_tenants());
    assert_eq!(memory[3_596..3_600], [0x26, 0xa4, 0x31, 0x01]);
    assert!(memory[3_600..5_392] == bytes_of_two_tenants()[4..]);
    assert!(memory[5_392..].iter().all(|byte| *byte == OLD_BYTE));
}

#[test]
fn the_last_version_ends_with_the_map() {
    let mut memory = map_of(&[20030501]);
    memory.extend([OLD_BYTE; 9]);
    for version in 2..=32 {
        assert_eq!(back(&mut memory, 1, 20030501), Ok(version));
    }
    assert_eq!(memory[..4], [32, 0, 0, 0]);
    assert!(memory[55_680..57_476] == bytes_of_two_tenants());
    assert_eq!(memory[57_476..], [OLD_BYTE; 9]);
}

#[test]
fn letters_are_kept_as_capitals() {
    let (mut memory, mut small) = (made(), made());
    let version = OwnVersion::unused().with(0, b"vabd000163e1", 1000).with(127, b"vAbD000164B2", 258);
    assert_eq!(two_tenants().add(&mut memory, 20030501), Ok(1));
    assert_eq!(version.add(&mut small, 20030501), Ok(1));
    assert!(memory == small);
    let (_, filled) = on(&small, 20030501, 1536, 128).expect("it has a version");
    assert_eq!((&filled.keys[..12], &filled.keys[1524..]), (&KEY[..], &OTHER_KEY[..]));
}

// --- What adding takes ---

#[test]
fn shares_go_up_to_1000_and_need_a_key() {
    let mut memory = made();
    for share in [0, 1, 999, 1000] {
        assert!(OwnVersion::unused().with(5, KEY, share).add(&mut memory, 20030501).is_ok(), "{share}");
    }
    for output in [0, 64, 127] {
        for share in [1001, 1024, u16::MAX] {
            let version = two_tenants().with(output, KEY, share);
            refuses(&memory, 25, |memory| version.add(memory, 20030501));
        }
        for share in [1, 1000, 1001] {
            let version = two_tenants().with(output, &[0; 12], share);
            refuses(&memory, 25, |memory| version.add(memory, 20030501));
        }
    }
}

#[test]
fn one_key_may_stand_at_every_output() {
    let mut memory = made();
    let version = OwnVersion { keys: KEY.repeat(128), shares: vec![1000; 128] };
    assert_eq!(version.add(&mut memory, 20030501), Ok(1));
    let (_, filled) = on(&memory, 20030501, 1536, 128).expect("it has a version");
    assert!(filled.keys == version.keys && filled.shares == version.shares);
}

#[test]
fn a_key_is_an_nmi_and_a_suffix_or_nothing() {
    let memory = made();
    for place in 0..12 {
        for byte in *b"/:@[`{-_, \0\x1f\x7f\x80\xc1\xe1\xff" {
            let mut key = *KEY;
            key[place] = byte;
            for share in [0, 1] {
                let version = OwnVersion::unused().with(127, &key, share);
                refuses(&memory, 25, |memory| version.add(memory, 20030501));
            }
        }
    }
    for key in [b"VABD000163\0\0", b"\0\0\0\0\0\0\0\0\0\0E1", b"\0\0\0\0\0\0\0\0\0\0\x001", b"            "] {
        let version = OwnVersion::unused().with(0, key, 0);
        refuses(&memory, 25, |memory| version.add(memory, 20030501));
    }
}

#[test]
fn lists_may_be_longer_and_not_shorter() {
    let mut longer = two_tenants();
    longer.keys.extend(b"no key of an output");
    longer.shares.push(1001);
    let mut memory = made();
    assert_eq!(longer.add(&mut memory, 20030501), Ok(1));
    assert!(memory == map_of(&[20030501]));
    for (key_bytes, shares) in [(1535, 128), (1536, 127), (1524, 127), (0, 0), (1535, 129), (1537, 127)] {
        let mut version = longer.clone();
        version.keys.truncate(key_bytes);
        version.shares.truncate(shares);
        refuses(&memory, 15, |memory| version.add(memory, 20030501));
        assert_eq!(on(&memory, 20030501, key_bytes, shares).err(), Some(15));
    }
    assert!(on(&memory, 20030501, 1537, 129).is_ok());
}

#[test]
fn a_first_date_is_a_date_and_does_not_fall() {
    let mut memory = map_of(&[19000101, 19000101, 20040229, 21991231, 21991231]);
    for first in [0, 1, 19000100, 20030229, 22000101, 99999999, u32::MAX, 21991230, 19000101] {
        refuses(&memory, 24, |memory| two_tenants().add(memory, first));
        refuses(&memory, 24, |memory| back(memory, 1, first));
    }
    assert_eq!(back(&mut memory, 3, 21991231), Ok(6));
    // Before there is a version no date falls.
    assert_eq!(two_tenants().add(&mut made(), 19000101), Ok(1));
    refuses(&made(), 24, |memory| two_tenants().add(memory, 18991231));
}

// --- Answers ---

#[test]
fn a_date_is_answered_by_the_highest_version_whose_first_date_is_not_later() {
    let memory = map_of(&[20030301, 20030501, 20030501, 20030501, 20031231]);
    for (date, version) in [
        (20030301, 1),
        (20030430, 1),
        (20030501, 4),
        (20030502, 4),
        (20031230, 4),
        (20031231, 5),
        (20040101, 5),
        (21991231, 5),
    ] {
        assert_eq!(version_on(&memory, date), Ok(version), "{date}");
    }
    for date in [20030228, 19000101, 0, 20030229, 20030431, 20030532, 22000101, 99999999, u32::MAX] {
        assert_eq!(version_on(&memory, date), Err(14), "{date}");
    }
    assert_eq!(version_on(&made(), 20030501), Err(14));
}

#[test]
fn what_is_answered_is_what_was_told() {
    let mut memory = map_of(&[20030501]);
    let other = OwnVersion::unused().with(64, OTHER_KEY, 0);
    assert_eq!(other.add(&mut memory, 20030601), Ok(2));
    for (date, version) in [(20030531, two_tenants()), (20030601, other)] {
        let (_, filled) = on(&memory, date, 2000, 300).expect("it has a version");
        assert!(filled.keys == version.keys && filled.shares == version.shares, "{date}");
    }
}

#[test]
fn going_back_needs_a_version_of_that_number() {
    let memory = map_of(&[20030501, 20030502]);
    for version in [0, 3, 32, 33, 257, 1 << 32, usize::MAX] {
        refuses(&memory, 14, |memory| back(memory, version, 20030502));
    }
    refuses(&made(), 14, |memory| back(memory, 1, 20030502));
    assert_eq!(back(&mut memory.clone(), 2, 20030502), Ok(3));
}

// --- The order of refusals ---

#[test]
fn adding_is_refused_by_21_15_25_24_and_23_in_this_order() {
    let full = map_of(&[20030501; 32]);
    let mut no_map = full.clone();
    no_map[0] = 33;
    let bad_entry = two_tenants().with(127, KEY, 1001);
    let mut short = bad_entry.clone();
    short.keys.pop();
    refuses(&no_map, 21, |memory| short.add(memory, 0));
    refuses(&full, 15, |memory| short.add(memory, 0));
    refuses(&full, 25, |memory| bad_entry.add(memory, 0));
    refuses(&full, 24, |memory| two_tenants().add(memory, 0));
    refuses(&full, 24, |memory| two_tenants().add(memory, 20030430));
    refuses(&full, 23, |memory| two_tenants().add(memory, 20030501));
}

#[test]
fn going_back_is_refused_by_21_14_24_and_23_in_this_order() {
    let full = map_of(&[20030501; 32]);
    let mut no_map = full.clone();
    no_map[0] = 33;
    refuses(&no_map, 21, |memory| back(memory, 33, 0));
    refuses(&full, 14, |memory| back(memory, 33, 0));
    refuses(&full, 14, |memory| back(memory, 33, 20030501));
    refuses(&full, 24, |memory| back(memory, 32, 0));
    refuses(&full, 24, |memory| back(memory, 32, 20030430));
    refuses(&full, 23, |memory| back(memory, 32, 20030501));
}

#[test]
fn a_question_is_refused_by_21_14_and_15_in_this_order() {
    let map = map_of(&[20030501]);
    let mut no_map = map.clone();
    no_map[0] = 33;
    assert_eq!(on(&no_map, 0, 0, 0).err(), Some(21));
    assert_eq!(on(&map, 0, 0, 0).err(), Some(14));
    assert_eq!(on(&map, 20030430, 0, 0).err(), Some(14));
    assert_eq!(on(&map, 20030501, 0, 0).err(), Some(15));
}
