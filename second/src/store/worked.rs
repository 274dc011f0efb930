//! Tests: stores written out by hand, byte by byte; where blocks lie behind a put and a delete; the order of refusals.

use super::*;
use crate::check::LONGEST_FILE;
use crate::fields::NO_METHOD;
use crate::notes::NO_REASON;

const NMI: &[u8] = b"VABD000163";
const SUFFIX: &[u8] = b"E1";
const KWH: u8 = 1;
/// What stands in memory before it is lent.
const OLD_BYTE: u8 = 0xAA;

// --- Days and calls ---

/// A day as a caller has it.
#[derive(Clone)]
pub struct OwnDay {
    pub head: DayHead,
    pub values: Vec<u64>,
    flags: Vec<u8>,
    methods: Vec<u8>,
    reasons: Vec<u16>,
    starts: Vec<usize>,
    lengths: Vec<usize>,
    text: Vec<u8>,
}

impl OwnDay {
    /// A half-hour day of actual data whose values are all this many units.
    pub fn plain(date: u32, units: u64, update: u64) -> OwnDay {
        OwnDay {
            head: DayHead { date, length: 30, update, load: 0, unit: KWH },
            values: vec![units * 1_000_000; 48],
            flags: vec![b'A'; 48],
            methods: vec![NO_METHOD; 48],
            reasons: vec![NO_REASON; 48],
            starts: vec![0; 48],
            lengths: vec![0; 48],
            text: Vec::new(),
        }
    }

    fn lists(&self) -> DayLists<'_> {
        DayLists {
            values: &self.values,
            flags: &self.flags,
            methods: &self.methods,
            reasons: &self.reasons,
            starts: &self.starts,
            lengths: &self.lengths,
            text: &self.text,
        }
    }

    pub fn block(&self) -> Vec<u8> {
        compose(self.head, self.lists()).expect("a fit day").0
    }

    pub fn put(&self, memory: &mut [u8], nmi: &[u8], suffix: &[u8]) -> Result<usize, u64> {
        put_day(memory, nmi, suffix, self.head, self.lists()).map_err(number_of)
    }

    fn put_into(&self, memory: &mut [u8]) -> Result<usize, u64> {
        self.put(memory, NMI, SUFFIX)
    }
}

/// The number of a refusal, which has no place.
fn number_of(refusal: Refusal) -> u64 {
    assert_eq!(refusal, Refusal::without_place(refusal.number));
    refusal.number
}

/// What a get reads of a day, each interval as value, flag, method, reason, start and length.
type Got = (DayRead, Vec<(u64, u8, u8, u16, usize, usize)>);

pub fn get(memory: &[u8], nmi: &[u8], suffix: &[u8], date: u32, places: usize) -> Result<Got, u64> {
    let (mut values, mut flags, mut methods) = (vec![7; places], vec![7; places], vec![7; places]);
    let (mut reasons, mut starts, mut lengths) = (vec![7; places], vec![7; places], vec![7; places]);
    let lists = LentLists {
        values: &mut values,
        flags: &mut flags,
        methods: &mut methods,
        reasons: &mut reasons,
        starts: &mut starts,
        lengths: &mut lengths,
    };
    let answer = get_day(memory, nmi, suffix, date, lists).map_err(number_of);
    let interval = |i: usize| (values[i], flags[i], methods[i], reasons[i], starts[i], lengths[i]);
    let filled = answer.as_ref().map_or(0, |read| read.n);
    assert!((filled..places).all(|index| interval(index) == (7, 7, 7, 7, 7, 7)), "places that are to stay");
    answer.map(|read| (read, (0..read.n).map(interval).collect()))
}

pub fn delete(memory: &mut [u8], nmi: &[u8], suffix: &[u8], date: u32) -> Result<usize, u64> {
    delete_day(memory, nmi, suffix, date).map_err(number_of)
}

pub fn slot(memory: &[u8], slot: usize) -> Result<SlotRead, u64> {
    read_slot(memory, slot).map_err(number_of)
}

fn make(memory: &mut [u8], slots: u32) -> Result<usize, u64> {
    make_store(memory, slots).map_err(number_of)
}

/// A store that was just made, with so many slots and bytes of room.
pub fn made(slots: usize, room: usize) -> Vec<u8> {
    let mut memory = vec![OLD_BYTE; 32 + 26 * slots + room];
    assert_eq!(make(&mut memory, slots as u32), Ok(room));
    memory
}

/// Bytes as pairs of hexadecimal digits, spaces between them where one likes.
fn hex(digits: &str) -> Vec<u8> {
    let digits: Vec<u8> = digits.bytes().filter(|byte| !byte.is_ascii_whitespace()).collect();
    let byte = |pair: &[u8]| u8::from_str_radix(std::str::from_utf8(pair).expect("digits"), 16).expect("digits");
    digits.chunks(2).map(byte).collect()
}

fn little_endian(number: usize) -> [u8; 4] {
    (number as u32).to_le_bytes()
}

// --- Made ---

#[test]
fn a_store_of_8_slots_is_made() {
    let mut memory = vec![OLD_BYTE; 400];
    assert_eq!(make(&mut memory, 8), Ok(160));
    // 8 slots, 0 days, no bit, list at 32, room at 240, of 160 bytes, 0 of them used.
    let header = hex("08000000 00000000 0000000000000000 20000000 f0000000 a0000000 00000000");
    assert_eq!(memory[..32], header);
    assert_eq!(memory[32..], [OLD_BYTE; 368]);
}

#[test]
fn a_store_of_1_or_64_slots_is_made_in_just_enough_bytes() {
    let mut memory = vec![OLD_BYTE; 58];
    assert_eq!(make(&mut memory, 1), Ok(0));
    assert_eq!(memory[..32], hex("01000000 00000000 0000000000000000 20000000 3a000000 00000000 00000000"));
    assert_eq!(memory[32..], [OLD_BYTE; 26]);
    let mut memory = vec![OLD_BYTE; 1697];
    assert_eq!(make(&mut memory, 64), Ok(1));
    assert_eq!(memory[..32], hex("40000000 00000000 0000000000000000 20000000 a0060000 01000000 00000000"));
}

#[test]
fn a_room_that_is_made_is_at_most_1_048_576_bytes_long() {
    for (left, room) in [(1_048_575, 1_048_575), (1_048_576, 1_048_576), (1_048_577, 1_048_576), (1_100_000, 1_048_576)]
    {
        let mut memory = vec![OLD_BYTE; 84 + left];
        assert_eq!(make(&mut memory, 2), Ok(room), "{left}");
        assert_eq!(memory[24..28], little_endian(room));
    }
}

#[test]
fn making_answers_21_before_15_and_changes_nothing_then() {
    for length in [0, 31, 57, 58, 400, 3_000] {
        for slots in [0, 65, 66, 256, 1 << 16, u32::MAX] {
            let mut memory = vec![OLD_BYTE; length];
            assert_eq!(make(&mut memory, slots), Err(21), "{slots} in {length}");
            assert_eq!(memory, vec![OLD_BYTE; length]);
        }
    }
    for (length, slots) in [(0, 1), (32, 1), (57, 1), (83, 2), (58, 2), (1695, 64)] {
        let mut memory = vec![OLD_BYTE; length];
        assert_eq!(make(&mut memory, slots), Err(15), "{slots} in {length}");
        assert_eq!(memory, vec![OLD_BYTE; length]);
    }
}

#[test]
fn making_anew_forgets_the_days_and_keeps_their_bytes() {
    let mut memory = made(2, 300);
    OwnDay::plain(20030501, 1, 20030502000000).put_into(&mut memory).expect("it is put");
    let behind_header = memory[32..].to_vec();
    assert_eq!(make(&mut memory, 2), Ok(300));
    assert_eq!(memory[32..], behind_header);
    assert_eq!(get(&memory, NMI, SUFFIX, 20030501, 48), Err(14));
    assert_eq!(slot(&memory, 0), Ok(SlotRead::Free));
}

// --- Put ---

/// The day that the documents write whole, in 161 bytes.
fn settled_day() -> OwnDay {
    let mut day = OwnDay::plain(20030922, 3, 20030922092231);
    day.values[20..].fill(4_000_000);
    day.flags[20..].fill(b'E');
    day.methods[20..].fill(52);
    day
}

fn settled_block() -> Vec<u8> {
    let values = "3,".repeat(20) + &"4,".repeat(28);
    format!("300,20030922,{values}V,,,20030922092231,\r\n400,1,20,A,,\r\n400,21,48,E52,,\r\n").into_bytes()
}

#[test]
fn a_put_day_stands_in_the_first_slot_as_its_shortest_block() {
    let mut memory = made(2, 200);
    assert_eq!(settled_day().put(&mut memory, b"vabd000163", b"e1"), Ok(1));
    // 2 slots, 1 day, bit 0, list at 32, room at 84, of 200 bytes, 161 of them used.
    let header = hex("02000000 01000000 0100000000000000 20000000 54000000 c8000000 a1000000");
    // VABD000163, E1, 20030922, 30, kWh, offset 0, 161 bytes.
    let first_slot = hex("56414244303030313633 4531 caa53101 1e 01 00000000 a1000000");
    let expected = [header, first_slot, vec![OLD_BYTE; 26], settled_block(), vec![OLD_BYTE; 39]].concat();
    assert_eq!(memory, expected);
}

#[test]
fn the_put_day_is_read_from_its_slot_and_by_its_key() {
    let mut memory = made(2, 200);
    settled_day().put_into(&mut memory).expect("it is put");
    let used = SlotRead::Used {
        nmi: 32,
        suffix: 42,
        date: 20030922,
        length: 30,
        unit: KWH,
        update: 20030922092231,
        start: 84,
        end: 245,
    };
    assert_eq!(slot(&memory, 0), Ok(used));
    assert_eq!(slot(&memory, 1), Ok(SlotRead::Free));
    let (read, intervals) = get(&memory, b"VaBd000163", b"e1", 20030922, 50).expect("it is held");
    assert_eq!(read, DayRead { date: 20030922, n: 48, update: 20030922092231, load: 0, unit: KWH });
    assert_eq!(intervals[..20], [(3_000_000, b'A', NO_METHOD, NO_REASON, 0, 0); 20]);
    assert_eq!(intervals[20..], [(4_000_000, b'E', 52, NO_REASON, 0, 0); 28]);
}

#[test]
fn description_places_are_places_in_the_memory() {
    let mut memory = made(1, 400);
    let mut day = OwnDay::plain(20030501, 1, 20030502000000);
    day.text = b"..late read..".to_vec();
    day.starts[47] = 2;
    day.lengths[47] = 9;
    day.put_into(&mut memory).expect("it is put");
    let (_, intervals) = get(&memory, NMI, SUFFIX, 20030501, 48).expect("it is held");
    let (_, _, _, _, start, length) = intervals[47];
    assert_eq!(&memory[start..start + length], b"late read");
    assert_eq!((intervals[0].4, intervals[0].5), (0, 0));
    assert!(start > 58 + day.block().len() - 20);
}

/// Three days whose blocks differ in length, and the memory of a store with one slot more that holds them.
fn three_days() -> ([OwnDay; 3], Vec<u8>) {
    let days = [1, 10, 100].map(|units| OwnDay::plain(20030500 + units as u32 % 7, units, 20030601000000));
    let mut memory = made(4, 900);
    for (day, held) in days.iter().zip(1..) {
        assert_eq!(day.put_into(&mut memory), Ok(held));
    }
    (days, memory)
}

/// Where the room of these starts.
const ROOM: usize = 32 + 4 * 26;

/// A slot of one of these days.
fn slot_bytes(day: &OwnDay, offset: usize) -> Vec<u8> {
    let parts = [NMI, SUFFIX, &day.head.date.to_le_bytes(), &[30, KWH]];
    [&parts.concat()[..], &little_endian(offset), &little_endian(day.block().len())].concat()
}

/// The header of these: days held, map and bytes used.
fn header_bytes(held: u8, map: u8, used: usize) -> Vec<u8> {
    let start = [&[4, 0, 0, 0, held, 0, 0, 0, map, 0, 0, 0, 0, 0, 0, 0][..], &little_endian(32), &little_endian(ROOM)];
    [&start.concat()[..], &little_endian(900), &little_endian(used)].concat()
}

#[test]
fn puts_take_the_lowest_slots_and_lay_blocks_behind_each_other() {
    let (days, memory) = three_days();
    let [a, b, c] = days.each_ref().map(OwnDay::block);
    assert_eq!(memory[..32], header_bytes(3, 0b111, a.len() + b.len() + c.len()));
    let slots = [slot_bytes(&days[0], 0), slot_bytes(&days[1], a.len()), slot_bytes(&days[2], a.len() + b.len())];
    assert_eq!(memory[32..32 + 78], slots.concat());
    assert_eq!(memory[32 + 78..ROOM], [OLD_BYTE; 26]);
    let blocks = [a, b, c].concat();
    assert_eq!(memory[ROOM..ROOM + blocks.len()], blocks);
    assert!(memory[ROOM + blocks.len()..].iter().all(|byte| *byte == OLD_BYTE));
}

#[test]
fn a_later_day_keeps_its_slot_and_its_block_lies_last() {
    let (days, mut memory) = three_days();
    let before = memory.clone();
    let mut later = days[0].clone();
    later.head.update += 1;
    later.values.fill(5_000_000);
    assert_eq!(later.put_into(&mut memory), Ok(3));
    let [a, b, c] = [&later, &days[1], &days[2]].map(OwnDay::block);
    let slots = [slot_bytes(&later, b.len() + c.len()), slot_bytes(&days[1], 0), slot_bytes(&days[2], b.len())];
    let blocks = [b, c, a].concat();
    let used = blocks.len();
    let expected =
        [header_bytes(3, 0b111, used), slots.concat(), vec![OLD_BYTE; 26], blocks, before[ROOM + used..].to_vec()];
    assert_eq!(memory, expected.concat());
}

#[test]
fn a_shorter_day_leaves_the_old_bytes_behind_the_used_ones() {
    let (days, mut memory) = three_days();
    let before = memory.clone();
    let mut later = days[2].clone();
    later.head.update += 1;
    later.values.fill(0);
    assert_eq!(later.put_into(&mut memory), Ok(3));
    let used = days[0].block().len() + days[1].block().len() + later.block().len();
    assert_eq!(memory[28..32], little_endian(used));
    assert_eq!(memory[ROOM + used..], before[ROOM + used..]);
    assert_ne!(memory[ROOM + used], OLD_BYTE);
}

// --- Deleted ---

#[test]
fn a_deleted_days_slot_keeps_its_bytes_and_blocks_move_down() {
    let (days, before) = three_days();
    let [a, b, c] = days.each_ref().map(OwnDay::block);
    // Which day goes; the map then; where the blocks of the three lie then.
    for (gone, map, offsets) in
        [(0, 0b110, [0, 0, b.len()]), (1, 0b101, [0, a.len(), a.len()]), (2, 0b011, [0, a.len(), a.len() + b.len()])]
    {
        let mut memory = before.clone();
        assert_eq!(delete(&mut memory, NMI, SUFFIX, days[gone].head.date), Ok(2), "{gone}");
        let slots: Vec<u8> = (0..3).flat_map(|number| slot_bytes(&days[number], offsets[number])).collect();
        let blocks: Vec<u8> = [&a, &b, &c]
            .iter()
            .enumerate()
            .filter(|(number, _)| *number != gone)
            .flat_map(|(_, block)| block.to_vec())
            .collect();
        let used = blocks.len();
        let expected =
            [header_bytes(2, map, used), slots, vec![OLD_BYTE; 26], blocks, before[ROOM + used..].to_vec()].concat();
        assert!(memory == expected, "{gone}");
        assert_eq!(slot(&memory, gone), Ok(SlotRead::Free));
        assert_eq!(delete(&mut memory, NMI, SUFFIX, days[gone].head.date), Err(14));
        assert!(memory == expected, "{gone}");
        // The freed slot is the lowest, and is taken again.
        assert_eq!(days[gone].put_into(&mut memory), Ok(3));
        assert!(matches!(slot(&memory, gone), Ok(SlotRead::Used { .. })));
    }
}

#[test]
fn the_last_day_goes_and_the_store_is_empty() {
    let mut memory = made(1, 300);
    let day = OwnDay::plain(20030501, 1, 20030502000000);
    day.put_into(&mut memory).expect("it is put");
    assert_eq!(delete(&mut memory, NMI, SUFFIX, 20030501), Ok(0));
    assert_eq!(memory[..32], hex("01000000 00000000 0000000000000000 20000000 3a000000 2c010000 00000000"));
    assert_eq!(day.put_into(&mut memory), Ok(1));
}

// --- Letter case ---

#[test]
fn letters_of_a_key_compare_without_case() {
    let mut memory = made(2, 600);
    let day = OwnDay::plain(20030501, 1, 20030502000000);
    assert_eq!(day.put(&mut memory, b"vabd000163", b"e1"), Ok(1));
    assert_eq!(&memory[32..44], b"VABD000163E1");
    assert_eq!(day.put(&mut memory, b"VABD000163", b"E1"), Err(18));
    assert_eq!(day.put(&mut memory, b"vaBD000163", b"E1"), Err(18));
    assert!(get(&memory, b"VABD000163", b"e1", 20030501, 48).is_ok());
    assert_eq!(day.put(&mut memory, b"vabd000163", b"e2"), Ok(2));
    assert_eq!(delete(&mut memory, b"VABd000163", b"E1", 20030501), Ok(1));
    assert_eq!(get(&memory, b"vabd000163", b"e1", 20030501, 48), Err(14));
}

// --- The order of refusals ---

const BAD_KEYS: [(&[u8], &[u8]); 4] =
    [(b"VABD00016", b"E1"), (b"VABD000163", b"E"), (b"VABD-00163", b"E1"), (b"VABD0001633", b"1")];

/// A store of one slot and one day, without a byte left in its room.
fn full_store() -> (OwnDay, Vec<u8>) {
    let day = OwnDay::plain(20030501, 1, 20030502000000);
    let mut memory = made(1, day.block().len());
    assert_eq!(day.put_into(&mut memory), Ok(1));
    (day, memory)
}

/// The number of a put's refusal. It changes nothing.
fn refused(memory: &mut [u8], day: &OwnDay, nmi: &[u8], suffix: &[u8]) -> u64 {
    let before = memory.to_vec();
    let number = day.put(memory, nmi, suffix).expect_err("a put to be refused");
    assert!(memory == before, "a refusal changes nothing");
    number
}

#[test]
fn a_put_asks_in_its_order() {
    let (held, mut memory) = full_store();
    // Each is wrong in all that comes behind: the lists, the day, an older update time, slots and room.
    let mut day = held.clone();
    day.values.fill(1_000_000_000_001);
    day.values.truncate(47);
    day.head.length = 31;
    for (nmi, suffix) in BAD_KEYS {
        assert_eq!(refused(&mut memory, &day, nmi, suffix), 16);
    }
    for date in [0, 20030229, 22000101, u32::MAX] {
        day.head.date = date;
        assert_eq!(refused(&mut memory, &day, NMI, SUFFIX), 16, "{date}");
    }
    day.head.date = 20030501;
    assert_eq!(refused(&mut memory, &day, NMI, SUFFIX), 16, "no interval length");
    day.head.length = 30;
    for update in [held.head.update, held.head.update + 1, 0] {
        day.head.update = update;
        assert_eq!(refused(&mut memory, &day, NMI, SUFFIX), 15, "a short list");
    }
    day.values.push(0);
    day.head.update = held.head.update;
    assert_eq!(refused(&mut memory, &day, NMI, SUFFIX), 16, "unfit values");
    day.values.fill(1_234_567_000_000);
    assert_eq!(refused(&mut memory, &day, NMI, SUFFIX), 18, "as old, and too long");
    day.head.update -= 1_000_000;
    assert_eq!(refused(&mut memory, &day, NMI, SUFFIX), 18, "older, and too long");
    assert_eq!(refused(&mut memory, &day, NMI, b"E2"), 19, "no slot, and too long");
    day.head.update = held.head.update + 1;
    assert_eq!(refused(&mut memory, &day, NMI, SUFFIX), 20, "too long");
    day.values.fill(9_000_000);
    assert_eq!(refused(&mut memory, &day, NMI, b"E2"), 19);
    assert_eq!(day.put_into(&mut memory), Ok(1));
}

#[test]
fn a_bad_key_is_16_before_a_short_list_is_15() {
    let mut memory = made(1, 300);
    let mut day = OwnDay::plain(20030501, 1, 20030502000000);
    day.lengths.clear();
    assert_eq!(refused(&mut memory, &day, NMI, SUFFIX), 15);
    assert_eq!(refused(&mut memory, &day, b"", SUFFIX), 16);
    day.head.date = 20030431;
    assert_eq!(refused(&mut memory, &day, NMI, SUFFIX), 16);
}

#[test]
fn what_is_no_store_is_21_before_all_else() {
    let mut memory = vec![OLD_BYTE; 500];
    let mut day = OwnDay::plain(20030501, 1, 20030502000000);
    assert_eq!(refused(&mut memory, &day, NMI, SUFFIX), 21);
    day.values.clear();
    day.head.length = 7;
    assert_eq!(refused(&mut memory, &day, b"", b""), 21);
    assert_eq!(get(&memory, b"", b"", 0, 0), Err(21));
    assert_eq!(delete(&mut memory, b"", b"", 0), Err(21));
    assert_eq!(slot(&memory, usize::MAX), Err(21));
}

#[test]
fn a_get_asks_for_the_key_and_then_for_the_lists() {
    let (day, memory) = full_store();
    assert_eq!(get(&memory, NMI, SUFFIX, 20030501, 47), Err(15));
    assert_eq!(get(&memory, NMI, SUFFIX, 20030501, 0), Err(15));
    assert_eq!(get(&memory, NMI, SUFFIX, 20030502, 0), Err(14));
    assert_eq!(get(&memory, NMI, b"E2", 20030501, 0), Err(14));
    for (nmi, suffix) in BAD_KEYS {
        assert_eq!(get(&memory, nmi, suffix, 20030501, 0), Err(14));
    }
    assert_eq!(get(&memory, NMI, SUFFIX, 0, 48), Err(14));
    assert_eq!(get(&memory, NMI, SUFFIX, 20030501, 300).map(|(read, _)| read.update), Ok(day.head.update));
}

#[test]
fn a_key_that_is_absent_or_bad_is_14_to_delete() {
    let (_, mut memory) = full_store();
    let before = memory.clone();
    for (nmi, suffix) in BAD_KEYS.into_iter().chain([(NMI, &b"E2"[..]), (b"VABD000164", SUFFIX), (b"", b"")]) {
        assert_eq!(delete(&mut memory, nmi, suffix, 20030501), Err(14));
    }
    for date in [0, 20030500, 20030502, u32::MAX] {
        assert_eq!(delete(&mut memory, NMI, SUFFIX, date), Err(14));
    }
    assert_eq!(memory, before);
}

#[test]
fn a_slot_past_the_count_is_14() {
    let (_, memory) = three_days();
    assert_eq!(slot(&memory, 3), Ok(SlotRead::Free));
    for number in [4, 5, 63, 64, 256, u32::MAX as usize + 1, usize::MAX] {
        assert_eq!(slot(&memory, number), Err(14), "{number}");
    }
}

// --- Room ---

#[test]
fn a_room_may_be_filled_to_its_last_byte() {
    let days = [20030501, 20030502].map(|date| OwnDay::plain(date, 1, 20030601000000));
    let both = days[0].block().len() + days[1].block().len();
    for (room, second) in [(both, Ok(2)), (both - 1, Err(20))] {
        let mut memory = made(2, room);
        assert_eq!(days[0].put_into(&mut memory), Ok(1));
        assert_eq!(days[1].put_into(&mut memory), second, "{room}");
    }
}

#[test]
fn the_replaced_days_bytes_are_left_out() {
    let (held, _) = full_store();
    let mut longer = held.clone();
    longer.values[0] = 10_000_000;
    longer.head.update += 1;
    for (more, answer) in [(1, Ok(1)), (0, Err(20))] {
        let mut memory = made(1, held.block().len() + more);
        assert_eq!(held.put_into(&mut memory), Ok(1));
        assert_eq!(longer.put_into(&mut memory), answer);
    }
}

#[test]
fn a_put_that_is_repeated_is_18() {
    let (day, mut memory) = full_store();
    assert_eq!(refused(&mut memory, &day, NMI, SUFFIX), 18);
    assert_eq!(delete(&mut memory, NMI, SUFFIX, 20030501), Ok(0));
    assert_eq!(day.put_into(&mut memory), Ok(1));
}

#[test]
fn a_lent_room_may_be_longer_than_one_that_is_made() {
    let mut memory = made(2, 500);
    let room = LONGEST_FILE + 500;
    memory.resize(84 + room, OLD_BYTE);
    memory[24..28].copy_from_slice(&little_endian(room));
    let day = OwnDay::plain(20030501, 1, 20030502000000);
    assert_eq!(day.put_into(&mut memory), Ok(1));
    // The same block at the room's very end, and all of the room used.
    let block = day.block();
    let start = memory.len() - block.len();
    memory.copy_within(84..84 + block.len(), start);
    memory[32 + 18..32 + 22].copy_from_slice(&little_endian(room - block.len()));
    memory[28..32].copy_from_slice(&little_endian(room));
    assert!(matches!(slot(&memory, 0), Ok(SlotRead::Used { start: at, .. }) if at == start));
    let mut other = day.clone();
    other.head.date = 20030502;
    assert_eq!(other.put_into(&mut memory), Ok(2));
    assert_eq!(memory[84..84 + 2 * block.len()], [day.block(), other.block()].concat());
    assert_eq!(memory[28..32], little_endian(2 * block.len()));
}
