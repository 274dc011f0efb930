//! What makes lent bytes a store, and the days that one holds.

use super::layout::{Header, Slot, HEADER_LENGTH, MOST_SLOTS};
use crate::block::read_block;
use crate::keys::Key;
use crate::refusal::{Refusal, NO_STORE};
use crate::walk::Day;
use std::collections::HashSet;

pub struct Store<'a> {
    pub header: Header,
    /// The days that are held, in the order in which their blocks lie in the room.
    pub days: Vec<HeldDay<'a>>,
}

/// A day in a used slot.
pub struct HeldDay<'a> {
    /// The slot's number, from 0.
    pub number: u64,
    pub slot: Slot,
    pub key: Key,
    /// Where in the memory the block starts.
    pub start: usize,
    pub block: &'a [u8],
    /// Read from the block.
    pub day: Day<'a>,
}

impl<'a> Store<'a> {
    pub fn day_of(&self, key: &Key) -> Option<&HeldDay<'a>> {
        self.days.iter().find(|day| day.key == *key)
    }

    pub fn lowest_free_slot(&self) -> Option<u64> {
        (0..self.header.slots).find(|slot| !self.header.is_used(*slot))
    }
}

/// The store that the memory is, or the refusal of what is none.
pub fn read_store(memory: &[u8]) -> Result<Store<'_>, Refusal> {
    store_in(memory).ok_or(Refusal::without_place(NO_STORE))
}

fn store_in(memory: &[u8]) -> Option<Store<'_>> {
    let header = Header::read(memory)?;
    if !counts_agree(&header) || !parts_lie_in_order(&header, memory.len() as u64) {
        return None;
    }
    let used_slots = (0..header.slots).filter(|slot| header.is_used(*slot));
    let mut days: Vec<HeldDay> = used_slots.map(|slot| held_day(memory, &header, slot)).collect::<Option<_>>()?;
    days.sort_by_key(|day| day.start);
    (all_keys_differ(&days) && none_overlap(&days)).then_some(Store { header, days })
}

/// The slots are as many as may be, and the map has a bit for each day held and none past the slots.
fn counts_agree(header: &Header) -> bool {
    (1..=MOST_SLOTS).contains(&header.slots)
        && header.days_held == u64::from(header.used_map.count_ones())
        && (header.slots..MOST_SLOTS).all(|past| !header.is_used(past))
}

/// Header, list and room lie one behind the other inside the bytes lent. There may be gaps between them.
fn parts_lie_in_order(header: &Header, bytes_lent: u64) -> bool {
    header.list >= HEADER_LENGTH as u64
        && header.room >= header.list_end()
        && header.room_end() <= bytes_lent
        && header.bytes_used <= header.room_length
}

/// The day of a used slot, if the slot has a good key and the range of a block of its date.
fn held_day<'a>(memory: &'a [u8], header: &Header, number: u64) -> Option<HeldDay<'a>> {
    let slot = Slot::read(memory, header.place_of(number));
    let key = Key::kept(&slot.nmi, &slot.suffix, slot.date)?;
    if slot.block_end() > header.bytes_used {
        return None;
    }
    let start = (header.room + slot.offset) as usize;
    let block = &memory[start..start + slot.block_length as usize];
    let day = read_block(block, u32::from(slot.length), slot.unit).ok()?;
    (day.date == slot.date).then_some(HeldDay { number, slot, key, start, block, day })
}

fn all_keys_differ(days: &[HeldDay]) -> bool {
    let keys: HashSet<&Key> = days.iter().map(|day| &day.key).collect();
    keys.len() == days.len()
}

/// Whether each block ends where the next one starts, or before. No block that is accepted is empty.
fn none_overlap(days_by_start: &[HeldDay]) -> bool {
    days_by_start.windows(2).all(|pair| pair[0].start + pair[0].block.len() <= pair[1].start)
}
