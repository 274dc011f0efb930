//! Tests: each condition of a store, broken and only just kept, on a store that no call has made: with gaps between its
//! parts, holes between its blocks, and blocks that no put writes.

use super::layout::{Header, Slot, SLOT_LENGTH};
use super::worked::{delete, get, slot, OwnDay};
use super::SlotRead;

/// A store in its parts.
#[derive(Clone)]
struct Parts {
    header: Header,
    slots: Vec<Slot>,
    /// Where in the room each block lies.
    blocks: Vec<(u64, String)>,
    lent: usize,
}

const NMI: &[u8] = b"VABD000163";
const LIST: usize = 40;
const ROOM: usize = 150;
const MWH: u8 = 0;

/// A half-hour block that is not the shortest one of its day, with a 500.
fn first_block() -> String {
    let values = "007.50,".repeat(48);
    format!("300,20030501,{values}V,,,20030502153445,\r\n400,1,20,A,,\r\n400,21,40,A,,\r\n400,41,48,E52,,late\r\n500,S,,,\r\n")
}

fn second_block() -> String {
    format!("300,20030502,{}A,,,20030502153446,\r\n", "1,".repeat(96))
}

fn slot_for(suffix: &[u8], date: u32, length: u8, offset: u64, block: &str) -> Slot {
    let block_length = block.len() as u64;
    Slot { nmi: NMI.to_vec(), suffix: suffix.to_vec(), date, length, unit: MWH, offset, block_length }
}

/// Four slots, of which the third has the first block and the first has the second.
fn parts() -> Parts {
    let (first, second) = (first_block(), second_block());
    let first_offset = 5;
    let second_offset = first_offset + first.len() as u64 + 3;
    let used = second_offset + second.len() as u64 + 4;
    let wild = Slot::read(&[0xff; SLOT_LENGTH], 0);
    let of_second = slot_for(b"E1", 20030502, 15, second_offset, &second);
    let of_first = slot_for(b"E1", 20030501, 30, first_offset, &first);
    let header = Header {
        slots: 4,
        days_held: 2,
        used_map: 0b0101,
        list: LIST as u64,
        room: ROOM as u64,
        room_length: used + 300,
        bytes_used: used,
    };
    Parts {
        lent: header.room_end() as usize + 6,
        // A free slot may hold the key and the range of a used one.
        slots: vec![of_second.clone(), of_second, of_first, wild],
        blocks: vec![(first_offset, first), (second_offset, second)],
        header,
    }
}

impl Parts {
    fn bytes(&self) -> Vec<u8> {
        let mut memory: Vec<u8> = (0..self.lent).map(|place| (place % 251) as u8).collect();
        for (number, slot) in self.slots.iter().enumerate() {
            write(&mut memory, self.header.list + (number * SLOT_LENGTH) as u64, &slot.bytes());
        }
        for (offset, block) in &self.blocks {
            write(&mut memory, self.header.room + offset, block.as_bytes());
        }
        write(&mut memory, 0, &self.header.bytes());
        memory
    }
}

/// Writes what lies inside the memory.
fn write(memory: &mut [u8], place: u64, bytes: &[u8]) {
    for (index, byte) in bytes.iter().enumerate() {
        if let Some(old) = memory.get_mut(place as usize + index) {
            *old = *byte;
        }
    }
}

fn changed(change: impl FnOnce(&mut Parts)) -> Vec<u8> {
    let mut parts = parts();
    change(&mut parts);
    parts.bytes()
}

/// Every call says that it is no store, and changes nothing.
fn assert_none(memory: Vec<u8>, what: &str) {
    let mut left = memory.clone();
    let day = OwnDay::plain(20030501, 1, 20030601000000);
    assert_eq!(day.put(&mut left, NMI, b"E1"), Err(21), "{what}");
    assert_eq!(day.put(&mut left, b"", b""), Err(21), "{what}");
    assert_eq!(get(&left, NMI, b"E1", 20030501, 48), Err(21), "{what}");
    assert_eq!(get(&left, NMI, b"E9", 20030501, 0), Err(21), "{what}");
    assert_eq!(delete(&mut left, NMI, b"E1", 20030501), Err(21), "{what}");
    assert_eq!(slot(&left, 0), Err(21), "{what}");
    assert_eq!(slot(&left, usize::MAX), Err(21), "{what}");
    assert!(left == memory, "{what}");
}

fn assert_store(memory: Vec<u8>, what: &str) {
    assert!(slot(&memory, 0).is_ok(), "{what}");
}

fn none(what: &str, change: impl FnOnce(&mut Parts)) {
    assert_none(changed(change), what);
}

fn store(what: &str, change: impl FnOnce(&mut Parts)) {
    assert_store(changed(change), what);
}

const TWO_TO_THE_32: u64 = 1 << 32;

#[test]
fn it_is_a_store() {
    let memory = parts().bytes();
    let place = |slot: usize| LIST + slot * SLOT_LENGTH;
    let start = ROOM + 5;
    let end = start + first_block().len();
    let (nmi, suffix) = (place(2), place(2) + 10);
    let first =
        SlotRead::Used { nmi, suffix, date: 20030501, length: 30, unit: MWH, update: 20030502153445, start, end };
    assert_eq!(slot(&memory, 2), Ok(first));
    let (nmi, suffix) = (place(0), place(0) + 10);
    let (start, end) = (end + 3, end + 3 + second_block().len());
    let second =
        SlotRead::Used { nmi, suffix, date: 20030502, length: 15, unit: MWH, update: 20030502153446, start, end };
    assert_eq!(slot(&memory, 0), Ok(second));
    assert_eq!((slot(&memory, 1), slot(&memory, 3)), (Ok(SlotRead::Free), Ok(SlotRead::Free)));
    let (read, intervals) = get(&memory, NMI, b"e1", 20030501, 48).expect("it is held");
    assert_eq!((read.n, read.unit), (48, MWH));
    let (value, flag, method, _, start, length) = intervals[47];
    assert_eq!((value, flag, method), (7_500_000, b'E', 52));
    assert_eq!(&memory[start..start + length], b"late");
}

/// The bytes as they were, but for the header, the slots and the blocks that the parts have then.
fn rewritten(before: &[u8], after: &Parts, blocks: &str) -> Vec<u8> {
    let mut memory = before.to_vec();
    write(&mut memory, 0, &after.header.bytes());
    for (number, slot) in after.slots.iter().enumerate() {
        write(&mut memory, (LIST + number * SLOT_LENGTH) as u64, &slot.bytes());
    }
    write(&mut memory, ROOM as u64, blocks.as_bytes());
    memory
}

#[test]
fn a_put_moves_blocks_down_and_lies_behind_them() {
    let before = parts().bytes();
    let (first, second) = (first_block(), second_block());
    let new = OwnDay::plain(20030503, 1, 20030601000000);
    let block = String::from_utf8(new.block()).expect("letters");
    let mut memory = before.clone();
    assert_eq!(new.put(&mut memory, NMI, b"e1"), Ok(3));
    // The new day takes the second slot.
    let mut after = parts();
    let offset = (first.len() + second.len()) as u64;
    (after.header.days_held, after.header.used_map) = (3, 0b0111);
    after.header.bytes_used = offset + block.len() as u64;
    after.slots[2].offset = 0;
    after.slots[0].offset = first.len() as u64;
    after.slots[1] = Slot { unit: 1, ..slot_for(b"E1", 20030503, 30, offset, &block) };
    assert!(memory == rewritten(&before, &after, &format!("{first}{second}{block}")));
}

#[test]
fn a_replaced_block_is_left_out() {
    let before = parts().bytes();
    let new = OwnDay::plain(20030501, 1, 20030601000000);
    let block = String::from_utf8(new.block()).expect("letters");
    let mut memory = before.clone();
    assert_eq!(new.put(&mut memory, NMI, b"E1"), Ok(2));
    // It keeps the third slot, and its 500 and its unit are gone.
    let mut after = parts();
    let offset = second_block().len() as u64;
    after.header.bytes_used = offset + block.len() as u64;
    after.slots[0].offset = 0;
    after.slots[2] = Slot { unit: 1, ..slot_for(b"E1", 20030501, 30, offset, &block) };
    assert!(memory == rewritten(&before, &after, &format!("{}{block}", second_block())));
}

#[test]
fn a_delete_moves_blocks_down_too() {
    let before = parts().bytes();
    let mut memory = before.clone();
    assert_eq!(delete(&mut memory, NMI, b"E1", 20030501), Ok(1));
    // The freed slot keeps its bytes, and so does the room behind the bytes that are used then.
    let mut after = parts();
    (after.header.days_held, after.header.used_map) = (1, 0b0001);
    after.header.bytes_used = second_block().len() as u64;
    after.slots[0].offset = 0;
    assert!(memory == rewritten(&before, &after, &second_block()));
}

#[test]
fn a_put_fits_when_blocks_move_down_over_holes() {
    let new = OwnDay::plain(20030503, 1, 20030601000000);
    let live = (first_block().len() + second_block().len()) as u64;
    let needed = live + new.block().len() as u64;
    for (short, answer) in [(0, Ok(3)), (1, Err(20))] {
        let mut memory = changed(|parts| parts.header.room_length = needed - short);
        assert_eq!(new.put(&mut memory, NMI, b"E1"), answer);
    }
}

// --- The header ---

#[test]
fn at_least_32_bytes_are_lent() {
    for lent in [0, 1, 31, 32, 57] {
        none("few bytes", |parts| parts.lent = lent);
    }
    // The shortest store of all.
    store("one free slot and no room", |parts| {
        parts.header =
            Header { slots: 1, days_held: 0, used_map: 0, list: 32, room: 58, room_length: 0, bytes_used: 0 };
        parts.lent = 58;
    });
}

/// Nothing held.
fn emptied(parts: &mut Parts) {
    (parts.header.days_held, parts.header.used_map) = (0, 0);
}

#[test]
fn slots_are_1_to_64() {
    for slots in [0, 65, 68, 128, 4 + (1 << 8), 4 + (1 << 16), 4 + (1 << 24), TWO_TO_THE_32 - 1] {
        none("slots", |parts| {
            emptied(parts);
            parts.header.slots = slots;
            // So that 65 slots would lie before the room.
            parts.header.room = 2_000;
            parts.lent = 4_000;
        });
    }
    for slots in [1, 4, 64] {
        store("slots", |parts| {
            emptied(parts);
            parts.header.slots = slots;
            parts.header.room = 2_000;
            parts.lent = 4_000;
        });
    }
    // 26 times this is 4 more than 2^32.
    none("slots", |parts| parts.header.slots = 165_191_050);
}

#[test]
fn days_held_are_the_maps_count() {
    for held in [0, 1, 3, 4, 2 + (1 << 8), 2 + (1 << 16), 2 + (1 << 24)] {
        none("days held", |parts| parts.header.days_held = held);
    }
    for map in [0, 0b0001, 0b0111, 0b1101] {
        none("map", |parts| parts.header.used_map = map);
    }
}

#[test]
fn no_bit_is_set_past_the_slots() {
    for bit in [4, 5, 31, 32, 63] {
        none("a bit past the slots", |parts| {
            parts.header.used_map |= 1 << bit;
            parts.header.days_held = 3;
        });
        none("a bit past the slots, for another", |parts| {
            parts.header.used_map = 0b0001 | 1 << bit;
        });
    }
    for slots in [3, 4] {
        let days = |parts: &mut Parts| parts.header.slots = slots;
        store("the last bit may be set", days);
    }
    none("the third slot is past two", |parts| parts.header.slots = 2);
}

#[test]
fn the_list_lies_behind_the_header() {
    // The first slot is free, so it may lie over the header as far as its own bytes go.
    for list in [6, 16, 30, 31, 32, 33] {
        let memory = changed(|parts| {
            parts.header.list = list;
            parts.slots.rotate_right(1);
            parts.header.used_map = 0b1010;
        });
        if list < 32 {
            assert_none(memory, "a list in the header");
        } else {
            assert_store(memory, "a list behind the header");
        }
    }
}

#[test]
fn the_list_lies_before_the_room() {
    // The last slot is free, so the room may lie over it as far as its own bytes go.
    for room in [118, 119, 130, 143, 144, 145] {
        let memory = changed(|parts| parts.header.room = room);
        if room < 144 {
            assert_none(memory, "a list that ends in the room");
        } else {
            assert_store(memory, "a list before the room");
        }
    }
    none("a list behind the room", |parts| {
        parts.header.room = 32;
        parts.header.list = parts.header.room_end();
        parts.lent = parts.header.list_end() as usize;
    });
    for wrapped_to in [0, 4, 103] {
        none("a list whose end wraps", |parts| {
            emptied(parts);
            parts.header.list = TWO_TO_THE_32 - 104 + wrapped_to;
        });
    }
}

#[test]
fn the_room_lies_inside_the_bytes_lent() {
    let end = parts().header.room_end() as usize;
    store("a room to the last byte", |parts| parts.lent = end);
    none("a room that ends a byte later", |parts| parts.lent = end - 1);
    for wrapped_to in [0, 1, 149] {
        none("a room whose end wraps", |parts| parts.header.room_length = TWO_TO_THE_32 - 150 + wrapped_to);
    }
    for (room, length) in [(TWO_TO_THE_32 - 1, 1), (TWO_TO_THE_32 - 1, 2), (TWO_TO_THE_32 - 9, 40)] {
        none("a room far behind", |parts| {
            emptied(parts);
            (parts.header.room, parts.header.room_length, parts.header.bytes_used) = (room, length, 0);
        });
    }
    for (behind, is_store) in [(0, true), (1, false)] {
        let memory = changed(|parts| {
            emptied(parts);
            parts.header.room = (parts.lent + behind) as u64;
            (parts.header.room_length, parts.header.bytes_used) = (0, 0);
        });
        if is_store {
            assert_store(memory, "a room of no bytes at the end");
        } else {
            assert_none(memory, "a room of no bytes behind the end");
        }
    }
}

#[test]
fn used_bytes_fit_the_room() {
    store("all used", |parts| parts.header.room_length = parts.header.bytes_used);
    none("one more", |parts| parts.header.room_length = parts.header.bytes_used - 1);
    none("all", |parts| parts.header.bytes_used = TWO_TO_THE_32 - 1);
    store("used, and nothing held", |parts| {
        emptied(parts);
        parts.header.bytes_used = parts.header.room_length;
    });
}

// --- Slots ---

#[test]
fn a_used_slot_has_a_good_key_in_capitals() {
    for nmi in [&b"vABD000163"[..], b"VABD00016a", b"VABD-00163", b"VABD 00163", b"\0ABD000163", b"VABD00016\xff"] {
        none("an NMI", |parts| parts.slots[2].nmi = nmi.to_vec());
        store("an NMI in a free slot", |parts| parts.slots[1].nmi = nmi.to_vec());
    }
    for suffix in [b"e1", b"Ee", b"E ", b" 1", b"E{", b"\0\0"] {
        none("a suffix", |parts| parts.slots[2].suffix = suffix.to_vec());
    }
    for date in [0, 20030431, 22000101, u32::MAX] {
        none("a date", |parts| parts.slots[2].date = date);
    }
}

#[test]
fn no_two_used_slots_have_one_key() {
    let same_key = |parts: &mut Parts| {
        parts.slots[0].date = 20030501;
        parts.blocks[1].1 = second_block().replacen("20030502", "20030501", 1);
    };
    none("one key", same_key);
    store("another suffix", |parts| {
        same_key(parts);
        parts.slots[0].suffix = b"E2".to_vec();
    });
    store("another NMI", |parts| {
        same_key(parts);
        parts.slots[0].nmi = b"VABD000164".to_vec();
    });
}

#[test]
fn a_range_lies_within_the_used_bytes() {
    let end = parts().slots[0].block_end();
    store("to the last used byte", |parts| parts.header.bytes_used = end);
    for used in [end - 1, end - second_block().len() as u64, 0] {
        none("past the used bytes", |parts| parts.header.bytes_used = used);
    }
    let length = second_block().len() as u64;
    for (offset, length) in [
        (TWO_TO_THE_32 - 1, 2),
        (TWO_TO_THE_32 - 1, length),
        (TWO_TO_THE_32 - length, length),
        (TWO_TO_THE_32 - length + 9, length),
        (5, TWO_TO_THE_32 - 5),
        (5, TWO_TO_THE_32 - 1),
        (TWO_TO_THE_32 - 1, TWO_TO_THE_32 - 1),
        (TWO_TO_THE_32 - ROOM as u64, length),
    ] {
        none("far away", |parts| (parts.slots[0].offset, parts.slots[0].block_length) = (offset, length));
    }
}

#[test]
fn no_two_ranges_overlap() {
    // A block is accepted without its 500 too, and may be held so, but not twice.
    let shorter = |parts: &mut Parts| parts.slots[2].block_length -= "500,S,,,\r\n".len() as u64;
    store("without its 500", shorter);
    let first = parts().slots[2].clone();
    let another = |parts: &mut Parts| parts.slots[0] = Slot { suffix: b"E2".to_vec(), ..first.clone() };
    none("the same range", another);
    none("a range inside it", |parts| {
        another(parts);
        shorter(parts);
    });
    none("a range around it", |parts| {
        another(parts);
        parts.slots[0].block_length -= "500,S,,,\r\n".len() as u64;
    });
    store("ranges that touch", |parts| {
        parts.slots[0].offset -= 3;
        parts.blocks[1].0 -= 3;
    });
    none("by a byte", |parts| {
        parts.slots[0].offset -= 4;
        parts.blocks[1].0 -= 4;
    });
}

#[test]
fn a_range_has_a_block_that_is_accepted() {
    for (from, to) in
        [("E52", "E5x"), ("400,21", "400,22"), ("500,S,,,", "500,S,,"), ("007.50,", "007,50,"), ("\r\n", "\n\n")]
    {
        none("a spoilt block", |parts| parts.blocks[0].1 = first_block().replacen(from, to, 1));
    }
    for (start, end) in [(0, 1), (1, 0), (0, first_block().len() as u64)] {
        none("a part of a block", |parts| {
            parts.slots[2].offset += start;
            parts.slots[2].block_length -= start + end;
        });
    }
    for offset in [0, 5, parts().header.bytes_used] {
        none("no bytes", |parts| (parts.slots[2].offset, parts.slots[2].block_length) = (offset, 0));
    }
    none("a byte more", |parts| parts.slots[2].block_length += 1);
    none("two blocks", |parts| parts.blocks[0].1 = "300,20030501,1,A,,,20030502153445,\r\n".repeat(12));
}

#[test]
fn a_block_has_the_slots_date() {
    for date in [20030430, 20030502, 20040501, 21991231] {
        none("another date", |parts| {
            parts.slots[2].date = date;
            parts.slots[2].suffix = b"E2".to_vec();
        });
    }
}

#[test]
fn a_block_is_accepted_behind_the_slots_interval_length_and_unit() {
    for length in [0, 1, 5, 15, 29, 31, 60, 255] {
        none("an interval length", |parts| parts.slots[2].length = length);
    }
    for unit in [23, 24, 128, 255] {
        none("no unit", |parts| parts.slots[2].unit = unit);
    }
    // Its values have two decimals: pf and kWh take them, Wh does not.
    for unit in [1, 22] {
        store("a unit of two decimals", |parts| parts.slots[2].unit = unit);
    }
    none("a unit of one decimal", |parts| parts.slots[2].unit = 2);
}
