//! Lent bytes at the edge of what makes a store: with one condition broken, or with each of them only just kept.

use super::super::blocks;
use super::super::chance::Chance;
use super::super::files::{self, Channel, Draft};
use super::super::keys::{self, ToldKey};
use super::super::words;
use super::hand::{self, Hand, Plan};
use crate::block::check_block;
use crate::store::layout::{Slot, HEADER_LENGTH, SLOT_LENGTH};
use crate::units::Unit;

/// One way to lend bytes: what it is called, the days that are held at least, what the store has to be planned like,
/// and what is changed then in what was laid.
pub type Lent = (&'static str, usize, fn(&mut Chance, &mut Plan), fn(&mut Chance, &mut Hand));

/// The bytes that are lent so, and the keys that were planned to be held.
pub fn memory(chance: &mut Chance, (_, fewest_days, plan_it, change): Lent) -> (Vec<u8>, Vec<ToldKey>) {
    let mut plan = Plan::any(chance, fewest_days);
    plan_it(chance, &mut plan);
    let mut hand = plan.lay(chance);
    change(chance, &mut hand);
    (hand.bytes(), plan.keys())
}

const AS_IT_IS: fn(&mut Chance, &mut Plan) = |_, _| ();
const NOTHING_CHANGED: fn(&mut Chance, &mut Hand) = |_, _| ();

const TWO_TO_THE_32: u64 = 1 << 32;

/// A few bytes, often one.
fn a_few(chance: &mut Chance, most: usize) -> usize {
    if chance.one_in(2) {
        1
    } else {
        chance.between(1, most)
    }
}

/// Bytes that are no store, in this way alone where that can be.
pub const BROKEN: [Lent; 62] = [
    // --- The header ---
    ("no bytes lent", 0, AS_IT_IS, |_, hand| hand.background.clear()),
    ("a byte less than a header lent", 0, AS_IT_IS, |_, hand| hand.background.truncate(31)),
    ("less than a header lent", 0, AS_IT_IS, |chance, hand| hand.background.truncate(chance.below(32))),
    ("a header alone lent", 0, AS_IT_IS, |_, hand| hand.background.truncate(32)),
    ("no slots", 0, |_, plan| plan.days.clear(), |_, hand| hand.header.slots = 0),
    ("no slots, and days held", 1, AS_IT_IS, |_, hand| hand.header.slots = 0),
    ("65 slots", 0, with_64_slots, |_, hand| hand.header.slots = 65),
    ("many slots", 0, AS_IT_IS, |chance, hand| {
        hand.header.slots |= chance.pick(&[1 << 7, 1 << 8, 1 << 16, 1 << 24, 1 << 31, TWO_TO_THE_32 - 1]);
    }),
    // 26 times this is 4 more than 2^32.
    ("so many slots that their length wraps", 0, AS_IT_IS, |_, hand| hand.header.slots = 165_191_050),
    ("a day held too many", 0, AS_IT_IS, |_, hand| hand.header.days_held += 1),
    ("a day held too few", 1, AS_IT_IS, |_, hand| hand.header.days_held -= 1),
    ("many days held too many", 0, AS_IT_IS, |chance, hand| {
        hand.header.days_held += chance.pick(&[1 << 8, 1 << 16, 1 << 24, 1 << 31]);
    }),
    ("a bit just past the slots", 0, AS_IT_IS, |_, hand| {
        hand.header.used_map |= 1 << hand.header.slots;
        hand.header.days_held += 1;
    }),
    ("the last bit, past the slots", 0, AS_IT_IS, |_, hand| {
        hand.header.used_map |= 1 << 63;
        hand.header.days_held += 1;
    }),
    (
        "a used slot past the slots",
        2,
        |_, plan| plan.slots = plan.days.iter().map(|day| day.slot + 1).max().unwrap_or(0),
        |_, hand| hand.header.slots -= 1,
    ),
    (
        "a free slot said to be used",
        0,
        |_, plan| plan.slots += 1,
        |_, hand| {
            hand.header.used_map |= 1 << hand.header.used_map.trailing_ones();
            hand.header.days_held += 1;
        },
    ),
    (
        "a list that starts in the header",
        0,
        |chance, plan| {
            plan.slots += 2;
            plan.set_free(0);
            plan.list = HEADER_LENGTH - a_few(chance, SLOT_LENGTH);
        },
        NOTHING_CHANGED,
    ),
    (
        "a list that starts with the header",
        0,
        |_, plan| {
            plan.slots += 2;
            plan.set_free(0);
            plan.set_free(1);
            plan.list = 0;
        },
        NOTHING_CHANGED,
    ),
    (
        "a list that ends in the room",
        0,
        |_, plan| {
            plan.slots += 1;
            plan.set_free(plan.slots - 1);
        },
        |chance, hand| {
            hand.header.room = hand.header.list_end() - a_few(chance, SLOT_LENGTH) as u64;
        },
    ),
    ("a list behind the room", 0, AS_IT_IS, |_, hand| {
        hand.header.room = hand.header.list;
        hand.header.list = hand.header.room_end();
        let list_end = hand.header.list_end() as usize;
        hand.background.resize(list_end.max(hand.background.len()), 0);
    }),
    (
        "a list whose end wraps",
        0,
        |_, plan| plan.days.clear(),
        |chance, hand| {
            hand.header.list = TWO_TO_THE_32 - hand.header.slots * SLOT_LENGTH as u64 + chance.below(26) as u64;
        },
    ),
    ("a list whose end wraps, and days held", 1, AS_IT_IS, |chance, hand| {
        hand.header.list = TWO_TO_THE_32 - hand.header.slots * SLOT_LENGTH as u64 + chance.below(26) as u64;
    }),
    ("a list behind the bytes lent", 1, AS_IT_IS, |chance, hand| {
        let lent = hand.background.len() as u64;
        hand.header.list = chance.pick(&[lent, lent + 1, TWO_TO_THE_32 - 1]);
    }),
    (
        "a room that ends behind the bytes lent",
        0,
        |chance, plan| {
            plan.behind = 0;
            plan.free = a_few(chance, 30);
        },
        |chance, hand| {
            let free = (hand.header.room_length - hand.header.bytes_used) as usize;
            let lent = hand.background.len() - chance.between(1, free);
            hand.background.truncate(lent);
        },
    ),
    ("a room much longer than the bytes lent", 0, AS_IT_IS, |chance, hand| {
        hand.header.room_length += chance.pick(&[1 << 16, 1 << 24, 1 << 31]);
    }),
    ("a room whose end wraps", 0, AS_IT_IS, |chance, hand| {
        let wrapped_to = chance.below(hand.header.room as usize) as u64;
        hand.header.room_length = TWO_TO_THE_32 - hand.header.room + wrapped_to;
    }),
    (
        "a room so far behind that its end wraps",
        0,
        |_, plan| plan.days.clear(),
        |chance, hand| {
            hand.header.room_length += 2;
            hand.header.room = TWO_TO_THE_32 - hand.header.room_length + chance.below(2) as u64;
        },
    ),
    ("a room so far behind, and days held", 1, AS_IT_IS, |_, hand| {
        hand.header.room = TWO_TO_THE_32 - hand.header.room_length;
    }),
    (
        "a room of no bytes behind the bytes lent",
        0,
        |_, plan| plan.days.clear(),
        |chance, hand| {
            hand.header.room = hand.background.len() as u64 + a_few(chance, 9) as u64;
            (hand.header.room_length, hand.header.bytes_used) = (0, 0);
        },
    ),
    (
        "more bytes used than the room has",
        0,
        |chance, plan| plan.last_hole = a_few(chance, 30),
        |_, hand| {
            hand.header.room_length = hand.header.bytes_used - 1;
        },
    ),
    (
        "a byte more used than the room has",
        0,
        |_, plan| plan.free = 0,
        |_, hand| {
            hand.header.bytes_used += 1;
        },
    ),
    ("all bytes that there are used", 0, AS_IT_IS, |_, hand| hand.header.bytes_used = TWO_TO_THE_32 - 1),
    // --- Keys ---
    ("a small letter in an NMI", 1, AS_IT_IS, |chance, hand| {
        let slot = hand.any_used_slot(chance);
        let letters: Vec<usize> = (0..10).filter(|place| slot.nmi[*place].is_ascii_uppercase()).collect();
        slot.nmi[chance.pick(&letters)].make_ascii_lowercase();
    }),
    ("a small letter in a suffix", 1, AS_IT_IS, |chance, hand| {
        hand.any_used_slot(chance).suffix[0].make_ascii_lowercase();
    }),
    ("another byte in an NMI", 1, AS_IT_IS, |chance, hand| {
        let place = chance.place_among(10);
        let byte = chance.pick(b"/:@[`{-_ ,.\x00\n\x7f\x80\xc1\xff");
        hand.any_used_slot(chance).nmi[place] = byte;
    }),
    ("another byte in a suffix", 1, AS_IT_IS, |chance, hand| {
        let byte = chance.pick(b"/:@[`{-_ ,.\x00\n\x7f\x80\xc1\xff");
        hand.any_used_slot(chance).suffix[chance.below(2)] = byte;
    }),
    ("no date", 1, AS_IT_IS, |chance, hand| {
        hand.any_used_slot(chance).date = chance.pick(&[0, 1, 18991231, 20030229, 20030431, 22000101, u32::MAX]);
    }),
    ("a date with a high byte more", 1, AS_IT_IS, |_, hand| hand.used_slot(0).date |= 1 << 31),
    (
        "two days of one key",
        2,
        |chance, plan| {
            plan.days[1].key = plan.days[0].key.clone();
            plan.days[1].block = hand::block_in(chance, plan.days[1].channel, plan.days[0].key.date);
        },
        NOTHING_CHANGED,
    ),
    (
        "two days of one key that are the same",
        2,
        |_, plan| {
            let (slot, hole) = (plan.days[1].slot, plan.days[1].hole);
            plan.days[1] = hand::PlannedDay { slot, hole, ..plan.days[0].clone() };
        },
        NOTHING_CHANGED,
    ),
    // --- Ranges ---
    (
        "a block that ends behind the used bytes",
        1,
        |_, plan| plan.last_hole = 0,
        |chance, hand| {
            let (_, last) = &hand.blocks[hand.blocks.len() - 1];
            hand.header.bytes_used -= a_few(chance, last.len() - 1) as u64;
        },
    ),
    (
        "a block behind the used bytes",
        1,
        |_, plan| plan.last_hole = 0,
        |_, hand| {
            hand.header.bytes_used = hand.blocks[hand.blocks.len() - 1].0;
        },
    ),
    ("a block that starts at the used bytes' end", 1, AS_IT_IS, |chance, hand| {
        let used = hand.header.bytes_used;
        hand.any_used_slot(chance).offset = used;
    }),
    ("a block behind the room", 1, AS_IT_IS, |chance, hand| {
        let room_length = hand.header.room_length;
        hand.any_used_slot(chance).offset = room_length + chance.below(2) as u64 * 100_000;
    }),
    ("a block behind all bytes", 1, AS_IT_IS, |chance, hand| {
        let slot = hand.any_used_slot(chance);
        (slot.offset, slot.block_length) = chance.pick(&[
            (TWO_TO_THE_32 - 1, 1),
            (TWO_TO_THE_32 - 1, 2),
            (TWO_TO_THE_32 - 1, 40),
            (TWO_TO_THE_32 - 1, TWO_TO_THE_32 - 1),
            (0, TWO_TO_THE_32 - 1),
            (1, TWO_TO_THE_32 - 1),
        ]);
    }),
    ("a block whose end wraps", 1, AS_IT_IS, |chance, hand| {
        let slot = hand.any_used_slot(chance);
        slot.offset = TWO_TO_THE_32 - chance.between(1, slot.block_length as usize) as u64;
    }),
    ("a block of a length that wraps", 1, AS_IT_IS, |_, hand| {
        let last = hand.used.len() - 1;
        let used = hand.header.bytes_used;
        let slot = hand.used_slot(last);
        slot.offset += 1;
        slot.block_length = TWO_TO_THE_32 - slot.offset + used.min(slot.offset - 1);
    }),
    ("two days in one range", 2, of_one_date_and_block, |_, hand| share_range(hand, 0)),
    (
        "a day in the range of another, which has a 500 more",
        2,
        |chance, plan| {
            of_one_date_and_block(chance, plan);
            plan.days[0].block.extend(b"500,S,,,\r\n");
        },
        |_, hand| share_range(hand, b"500,S,,,\r\n".len() as u64),
    ),
    ("two ranges that overlap by a byte", 2, AS_IT_IS, |_, hand| {
        let end = hand.used_slot(0).block_end();
        hand.used_slot(1).offset = end - 1;
    }),
    (
        "a range that ends a byte behind the next one's start",
        2,
        |_, plan| plan.days[1].hole = 0,
        |_, hand| {
            hand.used_slot(0).block_length += 1;
        },
    ),
    // --- Blocks ---
    (
        "a block that is refused",
        1,
        |chance, plan| {
            let place = chance.place_among(plan.days.len());
            let aim = chance.pick(&[2, 3, 4, 5, 6, 7, 9, 10, 11, 12]);
            let (channel, date) = (plan.days[place].channel, plan.days[place].key.date);
            plan.days[place].block = refused_block(chance, channel, date, aim);
        },
        NOTHING_CHANGED,
    ),
    (
        "a block that is damaged",
        1,
        |chance, plan| {
            let place = chance.place_among(plan.days.len());
            let (channel, date) = (plan.days[place].channel, plan.days[place].key.date);
            plan.days[place].block = damaged_block(chance, channel, date);
        },
        NOTHING_CHANGED,
    ),
    ("a block without its last byte", 1, AS_IT_IS, |chance, hand| {
        hand.any_used_slot(chance).block_length -= 1;
    }),
    (
        "a block with a byte more",
        1,
        |_, plan| plan.last_hole += 1,
        |_, hand| {
            let last = hand.used.len() - 1;
            hand.used_slot(last).block_length += 1;
        },
    ),
    ("a block that starts a byte later", 1, AS_IT_IS, |chance, hand| {
        let slot = hand.any_used_slot(chance);
        slot.offset += 1;
        slot.block_length -= 1;
    }),
    ("a block of no bytes", 1, AS_IT_IS, |chance, hand| {
        let used = hand.header.bytes_used;
        let slot = hand.any_used_slot(chance);
        slot.block_length = 0;
        slot.offset = chance.pick(&[0, slot.offset, slot.offset, used]);
    }),
    ("a block of another date", 1, AS_IT_IS, |chance, hand| {
        let keys: Vec<u32> = hand.used.iter().map(|slot| hand.slots[*slot].date).collect();
        let slot = hand.any_used_slot(chance);
        slot.date = loop {
            let date = if chance.one_in(2) { words::date(chance) } else { keys::other_date(chance, slot.date) };
            if !keys.contains(&date) {
                break date;
            }
        };
    }),
    ("an interval length that is none", 1, AS_IT_IS, |chance, hand| {
        hand.any_used_slot(chance).length = chance.pick(&[0, 1, 4, 6, 10, 14, 16, 29, 31, 60, 128, 255]);
    }),
    ("another interval length", 1, AS_IT_IS, |chance, hand| {
        let slot = hand.any_used_slot(chance);
        slot.length = chance.pick(if slot.length == 30 { &[5, 15] } else { &[30] });
    }),
    ("a unit that is none", 1, AS_IT_IS, |chance, hand| {
        hand.any_used_slot(chance).unit = words::no_unit_number(chance);
    }),
    (
        "a unit of fewer decimals",
        1,
        |chance, plan| {
            let (finer, date) = (unit(chance, |unit| unit.decimals() >= 4), plan.days[0].key.date);
            plan.days[0].channel = Channel::of(30, finer);
            plan.days[0].block = block_of_full_decimals(chance, plan.days[0].channel, date);
        },
        |chance, hand| hand.used_slot(0).unit = unit(chance, |unit| unit.decimals() < 4).number(),
    ),
];

/// Stores all the same.
pub const AT_THE_EDGE: [Lent; 20] = [
    ("no byte between the parts, none behind them", 1, |_, plan| plan.close(), NOTHING_CHANGED),
    (
        "one slot, which is used",
        1,
        |_, plan| {
            plan.slots = 1;
            plan.days.truncate(1);
            plan.days[0].slot = 0;
        },
        NOTHING_CHANGED,
    ),
    (
        "64 slots, the last of them used",
        1,
        |_, plan| {
            plan.slots = 64;
            plan.days[0].slot = 63;
        },
        NOTHING_CHANGED,
    ),
    (
        "all slots used",
        1,
        |_, plan| {
            plan.slots = plan.days.len();
            for (slot, day) in plan.days.iter_mut().rev().enumerate() {
                day.slot = slot;
            }
        },
        NOTHING_CHANGED,
    ),
    (
        "nothing held, but bytes used",
        0,
        |chance, plan| {
            plan.days.clear();
            plan.last_hole = chance.between(1, 200);
        },
        NOTHING_CHANGED,
    ),
    (
        "a room of no bytes where the bytes lent end",
        0,
        |_, plan| {
            plan.days.clear();
            (plan.last_hole, plan.free, plan.behind) = (0, 0, 0);
        },
        NOTHING_CHANGED,
    ),
    ("all of the room used", 1, |_, plan| (plan.last_hole, plan.free) = (0, 0), NOTHING_CHANGED),
    (
        "parts far from each other",
        0,
        |chance, plan| {
            plan.list = chance.between(100, 400);
            (plan.gap, plan.behind) = (chance.between(100, 400), chance.between(100, 400));
        },
        NOTHING_CHANGED,
    ),
    (
        "a list a byte behind the header, a room a byte behind the list",
        0,
        |_, plan| {
            (plan.list, plan.gap, plan.behind) = (HEADER_LENGTH + 1, 1, 1);
        },
        NOTHING_CHANGED,
    ),
    ("blocks that touch", 2, |_, plan| plan.days.iter_mut().for_each(|day| day.hole = 0), NOTHING_CHANGED),
    (
        "a hole before every block and behind the last",
        2,
        |chance, plan| {
            plan.days.iter_mut().for_each(|day| day.hole = a_few(chance, 40));
            plan.last_hole = a_few(chance, 40);
        },
        NOTHING_CHANGED,
    ),
    (
        "free slots like a used one",
        1,
        |_, plan| plan.slots += 2,
        |chance, hand| {
            let used = hand.any_used_slot(chance).clone();
            set_free_slots(hand, &used);
        },
    ),
    (
        "free slots past all bounds",
        0,
        |_, plan| plan.slots += 2,
        |_, hand| {
            set_free_slots(hand, &Slot::read(&[0xff; SLOT_LENGTH], 0));
        },
    ),
    (
        "keys that differ in a byte of the NMI",
        2,
        |chance, plan| {
            two_days(chance, plan, |key, other| ToldKey { nmi: other.nmi, ..key });
        },
        NOTHING_CHANGED,
    ),
    (
        "keys that differ in a byte of the suffix",
        2,
        |chance, plan| {
            two_days(chance, plan, |key, other| ToldKey { suffix: other.suffix, ..key });
        },
        NOTHING_CHANGED,
    ),
    (
        "keys that differ in the date",
        2,
        |chance, plan| {
            two_days(chance, plan, |key, other| ToldKey { date: other.date, ..key });
        },
        NOTHING_CHANGED,
    ),
    (
        "the first and the last letters, digits and dates",
        2,
        |chance, plan| {
            plan.days.truncate(2);
            let first = ToldKey { nmi: b"A0Z9A0Z9AZ".to_vec(), suffix: b"09".to_vec(), date: 19000101 };
            let last = ToldKey { nmi: b"9ZA0000000".to_vec(), suffix: b"ZA".to_vec(), date: words::LAST_DATE };
            plan.set_key(chance, 0, first);
            plan.set_key(chance, 1, last);
        },
        NOTHING_CHANGED,
    ),
    (
        "500s under every day",
        1,
        |_, plan| {
            plan.days.iter_mut().for_each(|day| day.block.extend(b"500,S,,,\r\n"));
        },
        NOTHING_CHANGED,
    ),
    ("a unit of more decimals", 1, AS_IT_IS, |chance, hand| {
        hand.any_used_slot(chance).unit = unit(chance, |unit| unit.decimals() == 6).number();
    }),
    (
        "days of each interval length",
        3,
        |chance, plan| {
            for (day, minutes) in plan.days.iter_mut().zip([5, 15, 30]) {
                day.channel = Channel::of(minutes, day.channel.unit);
                day.block = hand::block_in(chance, day.channel, day.key.date);
            }
        },
        NOTHING_CHANGED,
    ),
];

fn set_free_slots(hand: &mut Hand, content: &Slot) {
    for number in 0..hand.slots.len() {
        if !hand.used.contains(&number) {
            hand.slots[number] = content.clone();
        }
    }
}

/// Leaves two days, and gives the second the key of the first but for what is taken from another.
fn two_days(chance: &mut Chance, plan: &mut Plan, but_for: fn(ToldKey, ToldKey) -> ToldKey) {
    plan.days.truncate(2);
    let key = plan.days[0].key.clone();
    let near = loop {
        let near = but_for(key.clone(), key.other(chance));
        if near != key {
            break near;
        }
    };
    plan.set_key(chance, 1, near);
}

/// 64 slots, with room for a slot behind them.
fn with_64_slots(_: &mut Chance, plan: &mut Plan) {
    plan.slots = 64;
    plan.gap = SLOT_LENGTH;
}

fn unit(chance: &mut Chance, is_wanted: fn(Unit) -> bool) -> Unit {
    let units: Vec<Unit> = Unit::all().filter(|unit| is_wanted(*unit)).collect();
    chance.pick(&units)
}

/// Gives the first two days one date, and the same block.
fn of_one_date_and_block(chance: &mut Chance, plan: &mut Plan) {
    let first = plan.days[0].clone();
    let second = &mut plan.days[1];
    (second.channel, second.block) = (first.channel, first.block);
    second.key = loop {
        let key = ToldKey { date: first.key.date, ..first.key.other(chance) };
        if key != first.key {
            break key;
        }
    };
}

/// Lets the second used slot have the range of the first, but for so many bytes at its end.
fn share_range(hand: &mut Hand, shorter_by: u64) {
    let first = hand.used_slot(0).clone();
    let second = hand.used_slot(1);
    (second.offset, second.block_length) = (first.offset, first.block_length - shorter_by);
}

/// A block of this date whose first value has every decimal that the unit allows.
fn block_of_full_decimals(chance: &mut Chance, channel: Channel, date: u32) -> Vec<u8> {
    let mut rows = files::day_block(chance, channel, date);
    rows[0][2] = words::value_of_fit(chance, channel.unit.decimals(), words::Fit::Full);
    Draft { rows }.bytes()
}

fn refused_block(chance: &mut Chance, channel: Channel, date: u32, aim: u64) -> Vec<u8> {
    let make = |chance: &mut Chance| Draft { rows: files::day_block(chance, channel, date) };
    refused(channel, || blocks::aimed_bytes(chance, channel, &make, aim))
}

fn damaged_block(chance: &mut Chance, channel: Channel, date: u32) -> Vec<u8> {
    let make = |chance: &mut Chance| Draft { rows: files::day_block(chance, channel, date) };
    refused(channel, || blocks::damaged_bytes(chance, &make))
}

/// The first block that is refused behind such a channel.
fn refused(channel: Channel, mut make: impl FnMut() -> Vec<u8>) -> Vec<u8> {
    loop {
        let block = make();
        if check_block(&block, channel.minutes, channel.unit.number()).is_err() {
            return block;
        }
    }
}
