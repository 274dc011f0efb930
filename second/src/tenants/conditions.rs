//! Tests: each condition of a map, broken alone and only just kept, in bytes that no call has written.

use super::worked::{back, on, OwnVersion};

/// A full map by hand: the versions have first dates from 20030501 to 20030531 and then that one again, and at each
/// output a key with the version's number as its share.
fn full_map() -> Vec<u8> {
    let mut memory = vec![32, 0, 0, 0];
    for version in 1..=32u16 {
        memory.extend((20030500 + u32::from(version.min(31))).to_le_bytes());
        for _ in 0..128 {
            memory.extend(b"VABD000163E1");
            memory.extend(version.to_le_bytes());
        }
    }
    assert_eq!(memory.len(), 57_476);
    memory
}

/// Where the entry of an output starts in a version, which is counted from 1.
fn place_of_entry(version: usize, output: usize) -> usize {
    4 + (version - 1) * 1_796 + 4 + output * 14
}

fn write(memory: &mut [u8], place: usize, bytes: &[u8]) {
    memory[place..place + bytes.len()].copy_from_slice(bytes);
}

fn write_first(memory: &mut [u8], version: usize, first: u32) {
    write(memory, 4 + (version - 1) * 1_796, &first.to_le_bytes());
}

/// Every call says that it is no map, and changes nothing.
fn assert_none(memory: &[u8], what: &str) {
    let mut left = memory.to_vec();
    assert_eq!(OwnVersion::unused().add(&mut left, 20030601), Err(21), "{what}");
    assert_eq!(back(&mut left, 1, 20030601), Err(21), "{what}");
    assert_eq!(back(&mut left, 0, 0), Err(21), "{what}");
    assert_eq!(on(&left, 20030601, 1536, 128).err(), Some(21), "{what}");
    assert_eq!(on(&left, 0, 0, 0).err(), Some(21), "{what}");
    assert!(left == memory, "{what}");
}

/// The bytes are a map of so many versions.
fn assert_map(memory: &[u8], versions: usize, what: &str) {
    let answer = on(memory, 21991231, 1536, 128).map(|(version, _)| version);
    assert_eq!(answer, if versions == 0 { Err(14) } else { Ok(versions) }, "{what}");
}

#[test]
fn it_is_a_map() {
    let memory = full_map();
    assert_map(&memory, 32, "as it is");
    let (version, filled) = on(&memory, 20030515, 1536, 128).expect("it has a version");
    assert_eq!(version, 15);
    assert_eq!((&filled.keys[1_524..], filled.shares[127]), (&b"VABD000163E1"[..], 15));
}

#[test]
fn a_map_has_57_476_bytes_or_more() {
    let mut memory = full_map();
    memory.push(0xff);
    assert_map(&memory, 32, "a byte more");
    memory.truncate(57_475);
    assert_none(&memory, "a byte less");
    // However few versions are in use.
    memory[0] = 1;
    assert_none(&memory, "a byte less, and one version");
    for length in [0, 3, 4, 1_799, 1_800, 1_801] {
        assert_none(&memory[..length], "few bytes");
    }
    memory[0] = 0;
    assert_none(&memory[..4], "a count alone");
}

#[test]
fn a_map_has_at_most_32_versions() {
    for count in 0..=32u8 {
        let mut memory = full_map();
        memory[0] = count;
        assert_map(&memory, usize::from(count), "a count");
    }
    // 2^30 times 1,796 is 0 in 32 bits.
    for count in [33, 64, 255, 256, 288, 1 << 16, 1 << 30, (1 << 30) + 1, 1 << 31, (3 << 30) + 32, u32::MAX] {
        let mut memory = full_map();
        write(&mut memory, 0, &count.to_le_bytes());
        assert_none(&memory, "a count");
        // Be it that there are bytes for one more.
        let last = memory[55_680..].to_vec();
        memory.extend(last);
        assert_none(&memory, "a count, and more bytes");
    }
}

#[test]
fn every_first_date_is_a_date() {
    for (version, first) in [(1, 0), (1, 20030431), (2, 20030500), (31, 20030600), (32, 20030532), (32, u32::MAX)] {
        let mut memory = full_map();
        write_first(&mut memory, version, first);
        assert_none(&memory, &format!("{first}"));
        memory[0] = version as u8 - 1;
        assert_map(&memory, version - 1, "behind those in use");
    }
}

#[test]
fn first_dates_do_not_fall() {
    for version in [2, 16, 31, 32] {
        let mut memory = full_map();
        let same = 20030500 + (version as u32 - 1);
        write_first(&mut memory, version, same);
        assert_map(&memory, 32, "the date before it");
        let earlier = if same == 20030501 { 20030430 } else { same - 1 };
        write_first(&mut memory, version, earlier);
        assert_none(&memory, &format!("version {version} falls"));
        memory[0] = version as u8 - 1;
        assert_map(&memory, version - 1, "behind those in use");
    }
}

/// Entries that adding doesn't take, or keeps in another form.
const BAD_ENTRIES: [&[u8; 14]; 14] = [
    b"VABD000163E1\xe9\x03",
    b"VABD000163E1\xff\xff",
    b"VABD000163E1\x00\x04",
    b"vABD000163E1\x01\x00",
    b"VABD00016zE1\x01\x00",
    b"VABD000163e1\x01\x00",
    b"VABD000163Ea\x00\x00",
    b"VABD 00163E1\x01\x00",
    b"VABD000163E-\x01\x00",
    b"VABD\x0000163E1\x00\x00",
    b"VABD000163\x00\x00\x00\x00",
    b"\x00\x00\x00\x00\x00\x00\x00\x00\x00\x00E1\x00\x00",
    b"\x00\x00\x00\x00\x00\x00\x00\x00\x00\x00\x00\x00\x01\x00",
    b"\x00\x00\x00\x00\x00\x00\x00\x00\x00\x00\x00\x00\x00\x01",
];

#[test]
fn every_entry_is_one_that_adding_keeps() {
    for bad in BAD_ENTRIES {
        for version in [1, 16, 32] {
            for output in [0, 63, 127] {
                let mut memory = full_map();
                write(&mut memory, place_of_entry(version, output), bad);
                assert_none(&memory, &format!("{bad:?} in version {version} at output {output}"));
                memory[0] = version as u8 - 1;
                assert_map(&memory, version - 1, "behind those in use");
            }
        }
    }
    for good in
        [b"VABD000163E1\xe8\x03", b"ZZZZZZZZZZ99\x00\x00", b"\x00\x00\x00\x00\x00\x00\x00\x00\x00\x00\x00\x00\x00\x00"]
    {
        let mut memory = full_map();
        write(&mut memory, place_of_entry(16, 63), good);
        assert_map(&memory, 32, &format!("{good:?}"));
    }
}
