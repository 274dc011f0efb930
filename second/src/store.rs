//! A store for days in lent memory: making one, putting, getting and deleting a day, and reading a slot. Each but the
//! first asks before all else whether the memory is a store. A refused call changes nothing.

#[cfg(test)]
mod conditions;
pub mod layout;
pub mod reading;
#[cfg(test)]
pub mod worked;

use crate::day::{hand_out, DayRead, LentLists};
use crate::keys::Key;
use crate::refusal::{
    Refusal, DAY_NOT_NEWER, DAY_UNFIT, LENT_TOO_SHORT, NO_STORE, NO_SUCH_NUMBER, ROOM_EXCEEDED, SLOTS_ALL_USED,
};
use crate::write::{compose, DayHead, DayLists};
use layout::{Header, Slot, MOST_SLOTS, SLOT_LENGTH};
use reading::{read_store, HeldDay};

pub use layout::HEADER_LENGTH;

/// The longest room that is made. One that is lent may be longer.
const LONGEST_ROOM: u64 = 1_048_576;

/// Makes an empty store of the memory, and gives the length of its room. Only the header is written.
pub fn make_store(memory: &mut [u8], slots: u32) -> Result<usize, Refusal> {
    let slots = u64::from(slots);
    if !(1..=MOST_SLOTS).contains(&slots) {
        return Err(Refusal::without_place(NO_STORE));
    }
    let list = HEADER_LENGTH as u64;
    let room = list + slots * SLOT_LENGTH as u64;
    let left = (memory.len() as u64).checked_sub(room).ok_or(Refusal::without_place(LENT_TOO_SHORT))?;
    let room_length = left.min(LONGEST_ROOM);
    let header = Header { slots, days_held: 0, used_map: 0, list, room, room_length, bytes_used: 0 };
    write_at(memory, 0, &header.bytes());
    Ok(room_length as usize)
}

/// Puts a day, new or later than the one of its key that is held, and gives how many are held then.
pub fn put_day(memory: &mut [u8], nmi: &[u8], suffix: &[u8], head: DayHead, lists: DayLists) -> Result<usize, Refusal> {
    let store = read_store(memory)?;
    let key = Key::named(nmi, suffix, head.date).ok_or(Refusal::without_place(DAY_UNFIT))?;
    let (block, _) = compose(head, lists)?;
    let replaced = store.day_of(&key);
    if replaced.is_some_and(|held| held.day.update >= head.update) {
        return Err(Refusal::without_place(DAY_NOT_NEWER));
    }
    let number = match replaced {
        Some(held) => held.number,
        None => store.lowest_free_slot().ok_or(Refusal::without_place(SLOTS_ALL_USED))?,
    };
    let mut blocks = blocks_but_for(&store.days, number);
    blocks.push((number, block.clone()));
    if length_of(&blocks) > store.header.room_length {
        return Err(Refusal::without_place(ROOM_EXCEEDED));
    }
    let header = store.header;
    let slot = Slot {
        nmi: key.nmi().to_vec(),
        suffix: key.suffix().to_vec(),
        date: key.date(),
        length: head.length as u8,
        unit: head.unit,
        // Laying the blocks says where this one lies.
        offset: 0,
        block_length: block.len() as u64,
    };
    write_at(memory, header.place_of(number), &slot.bytes());
    lay(memory, header, &blocks);
    Ok(blocks.len())
}

/// Reads a day into the lists. Its descriptions' places are places in the memory.
pub fn get_day(memory: &[u8], nmi: &[u8], suffix: &[u8], date: u32, lists: LentLists) -> Result<DayRead, Refusal> {
    let store = read_store(memory)?;
    let key = Key::named(nmi, suffix, date).ok_or(NOT_HELD)?;
    let held = store.day_of(&key).ok_or(NOT_HELD)?;
    hand_out(&held.day, held.start, lists)
}

/// Deletes a day, and gives how many are held then. Its slot keeps its bytes.
pub fn delete_day(memory: &mut [u8], nmi: &[u8], suffix: &[u8], date: u32) -> Result<usize, Refusal> {
    let store = read_store(memory)?;
    let key = Key::named(nmi, suffix, date).ok_or(NOT_HELD)?;
    let number = store.day_of(&key).ok_or(NOT_HELD)?.number;
    let blocks = blocks_but_for(&store.days, number);
    let header = store.header;
    lay(memory, header, &blocks);
    Ok(blocks.len())
}

/// A slot's content. Places are places in the memory.
#[derive(Clone, Copy, Debug, PartialEq, Eq)]
pub enum SlotRead {
    Free,
    Used {
        nmi: usize,
        suffix: usize,
        date: u32,
        /// Interval length in minutes.
        length: u32,
        unit: u8,
        update: u64,
        /// Where the block starts, and where it ends.
        start: usize,
        end: usize,
    },
}

/// Reads the slot of this number, counted from 0.
pub fn read_slot(memory: &[u8], slot: usize) -> Result<SlotRead, Refusal> {
    let store = read_store(memory)?;
    let number = slot as u64;
    if number >= store.header.slots {
        return Err(NOT_HELD);
    }
    let Some(held) = store.days.iter().find(|day| day.number == number) else {
        return Ok(SlotRead::Free);
    };
    let nmi = store.header.place_of(number);
    Ok(SlotRead::Used {
        nmi,
        suffix: nmi + Slot::NMI_LENGTH,
        date: held.slot.date,
        length: u32::from(held.slot.length),
        unit: held.slot.unit,
        update: held.day.update,
        start: held.start,
        end: held.start + held.block.len(),
    })
}

/// Where in a store's memory the used bytes of its room end.
pub fn end_of_blocks(store: &[u8]) -> usize {
    Header::read(store).map_or(0, |header| header.room + header.bytes_used) as usize
}

/// The refusal of a key that is not held, be it that it is no good one, and of a slot that there is not.
const NOT_HELD: Refusal = Refusal { number: NO_SUCH_NUMBER, place: 0, record: 0, field: 0 };

// --- Blocks ---

/// A slot's number, and the block of the day in it.
type SlotAndBlock = (u64, Vec<u8>);

/// The blocks of all days but that in one slot, in the order in which they lie.
fn blocks_but_for(days: &[HeldDay], slot: u64) -> Vec<SlotAndBlock> {
    days.iter().filter(|day| day.number != slot).map(|day| (day.number, day.block.to_vec())).collect()
}

fn length_of(blocks: &[SlotAndBlock]) -> u64 {
    blocks.iter().map(|(_, block)| block.len() as u64).sum()
}

/// Lays blocks one behind the other from the room's start, which fit there, and says in their slots and in the header
/// where they lie and that no others are held. The room behind them keeps its bytes.
fn lay(memory: &mut [u8], header: Header, blocks: &[SlotAndBlock]) {
    let (mut used_map, mut offset) = (0, 0);
    for (number, block) in blocks {
        let place = header.place_of(*number);
        let slot = Slot { offset, ..Slot::read(memory, place) };
        write_at(memory, place, &slot.bytes());
        write_at(memory, (header.room + offset) as usize, block);
        used_map |= 1 << number;
        offset += block.len() as u64;
    }
    let header = Header { days_held: blocks.len() as u64, used_map, bytes_used: offset, ..header };
    write_at(memory, 0, &header.bytes());
}

fn write_at(memory: &mut [u8], place: usize, bytes: &[u8]) {
    memory[place..place + bytes.len()].copy_from_slice(bytes);
}
