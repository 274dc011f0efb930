//! Stores made by hand and not by `make`: with gaps between their parts, holes between their blocks, free slots that
//! hold anything, and blocks that no put writes.

use super::super::chance::Chance;
use super::super::files::{self, Channel, Draft};
use super::super::keys::ToldKey;
use super::super::scene::background;
use super::days;
use crate::store::layout::{Header, Slot, HEADER_LENGTH, SLOT_LENGTH};
use crate::units::Unit;

/// A day that a store is to hold.
#[derive(Clone)]
pub struct PlannedDay {
    pub slot: usize,
    pub key: ToldKey,
    pub channel: Channel,
    pub block: Vec<u8>,
    /// Bytes before the block that are no block's.
    pub hole: usize,
}

/// Where everything is to lie in a store.
#[derive(Clone)]
pub struct Plan {
    pub slots: usize,
    /// In the order in which their blocks lie.
    pub days: Vec<PlannedDay>,
    pub list: usize,
    /// Bytes between list and room.
    pub gap: usize,
    /// Bytes behind the last block that count as used.
    pub last_hole: usize,
    /// Bytes of the room behind the used ones.
    pub free: usize,
    /// Bytes behind the room.
    pub behind: usize,
}

impl Plan {
    /// A store of some slots that holds so many days at least.
    pub fn any(chance: &mut Chance, fewest_days: usize) -> Plan {
        let slots = chance.between(fewest_days.max(1), 6.max(fewest_days));
        let days = chance.between(fewest_days, slots);
        Plan::of(chance, slots, days)
    }

    pub fn of(chance: &mut Chance, slots: usize, days: usize) -> Plan {
        let keys = if days == 0 { Vec::new() } else { ToldKey::several(chance, days) };
        let mut numbers: Vec<usize> = (0..slots).collect();
        chance.shuffle(&mut numbers);
        let days = keys.into_iter().zip(numbers).map(|(key, slot)| planned_day(chance, slot, key)).collect();
        Plan {
            slots,
            days,
            list: HEADER_LENGTH + some_gap(chance),
            gap: some_gap(chance),
            last_hole: some_gap(chance),
            free: chance.pick(&[0, 1, 100, 200, 400]) + some_gap(chance),
            behind: some_gap(chance),
        }
    }

    /// Holds days of these keys, each with the shortest block that a half-hour day can have, without holes.
    pub fn hold(&mut self, chance: &mut Chance, keys: &[ToldKey]) {
        let mut numbers: Vec<usize> = (0..self.slots).collect();
        chance.shuffle(&mut numbers);
        for (key, slot) in keys.iter().zip(numbers) {
            let day = days::shortest_day(chance, key.date);
            let block = day.block().expect("a fit day");
            let unit = Unit::numbered(day.head.unit).expect("a fit day");
            self.days.push(PlannedDay { slot, key: key.clone(), channel: Channel::of(30, unit), block, hole: 0 });
        }
    }

    /// Leaves no byte between the parts and between the blocks, and none behind them.
    pub fn close(&mut self) {
        self.list = HEADER_LENGTH;
        (self.gap, self.last_hole, self.free, self.behind) = (0, 0, 0, 0);
        for day in &mut self.days {
            day.hole = 0;
        }
    }

    /// Lets no day have this slot: whoever has it takes another, of which there is one.
    pub fn set_free(&mut self, slot: usize) {
        let other = (0..self.slots).rev().find(|other| *other != slot && !self.is_used(*other));
        if let Some(day) = self.days.iter_mut().find(|day| day.slot == slot) {
            day.slot = other.expect("a free slot");
        }
    }

    /// Gives a day another key, and a block of its date.
    pub fn set_key(&mut self, chance: &mut Chance, place: usize, key: ToldKey) {
        let day = &mut self.days[place];
        day.block = block_in(chance, day.channel, key.date);
        day.key = key;
    }

    pub fn keys(&self) -> Vec<ToldKey> {
        self.days.iter().map(|day| day.key.clone()).collect()
    }

    fn is_used(&self, slot: usize) -> bool {
        self.days.iter().any(|day| day.slot == slot)
    }

    /// What the blocks of its days come to.
    pub fn live_bytes(&self) -> usize {
        self.days.iter().map(|day| day.block.len()).sum()
    }

    pub fn used_bytes(&self) -> usize {
        self.live_bytes() + self.days.iter().map(|day| day.hole).sum::<usize>() + self.last_hole
    }

    /// Where the room starts.
    fn room(&self) -> usize {
        self.list + self.slots * SLOT_LENGTH + self.gap
    }

    pub fn bytes_lent(&self) -> usize {
        self.room() + self.used_bytes() + self.free + self.behind
    }

    /// The store, with any bytes where nothing is said of them.
    pub fn lay(&self, chance: &mut Chance) -> Hand {
        let room_length = self.used_bytes() + self.free;
        let mut hand = Hand {
            header: Header {
                slots: self.slots as u64,
                days_held: self.days.len() as u64,
                used_map: self.days.iter().map(|day| 1 << day.slot).sum(),
                list: self.list as u64,
                room: self.room() as u64,
                room_length: room_length as u64,
                bytes_used: self.used_bytes() as u64,
            },
            slots: Vec::new(),
            used: self.days.iter().map(|day| day.slot).collect(),
            blocks: Vec::new(),
            background: background(chance, self.bytes_lent()),
        };
        let mut offset = 0;
        let mut slots_of_days = Vec::new();
        for day in &self.days {
            offset += day.hole as u64;
            slots_of_days.push((day.slot, slot_of(day, offset)));
            hand.blocks.push((offset, day.block.clone()));
            offset += day.block.len() as u64;
        }
        for number in 0..self.slots {
            let of_day = slots_of_days.iter().find(|(slot, _)| *slot == number).map(|(_, slot)| slot.clone());
            hand.slots.push(of_day.unwrap_or_else(|| free_slot(chance, &slots_of_days)));
        }
        hand
    }
}

/// A gap or a hole, often none.
pub fn some_gap(chance: &mut Chance) -> usize {
    match chance.below(4) {
        0..=1 => 0,
        2 => chance.between(1, 3),
        _ => chance.between(4, 60),
    }
}

fn planned_day(chance: &mut Chance, slot: usize, key: ToldKey) -> PlannedDay {
    let channel = days::some_channel(chance);
    let block = block_in(chance, channel, key.date);
    PlannedDay { slot, key, channel, block, hole: some_gap(chance) }
}

/// A block of this date: the shortest one of its day, as a put writes it, or any other, with 500s too.
pub fn block_in(chance: &mut Chance, channel: Channel, date: u32) -> Vec<u8> {
    if chance.one_in(2) {
        days::day_in(chance, channel, date).block().expect("a fit day")
    } else {
        Draft { rows: files::day_block(chance, channel, date) }.bytes()
    }
}

fn slot_of(day: &PlannedDay, offset: u64) -> Slot {
    Slot {
        nmi: day.key.nmi.clone(),
        suffix: day.key.suffix.clone(),
        date: day.key.date,
        length: day.channel.minutes as u8,
        unit: day.channel.unit.number(),
        offset,
        block_length: day.block.len() as u64,
    }
}

/// A free slot may hold anything: also a key that is held, the range of a block, or numbers past all bounds.
fn free_slot(chance: &mut Chance, slots_of_days: &[(usize, Slot)]) -> Slot {
    match chance.below(4) {
        0 if !slots_of_days.is_empty() => slots_of_days[chance.below(slots_of_days.len())].1.clone(),
        1 => Slot::read(&[chance.pick(b"\x00\xff"); SLOT_LENGTH], 0),
        _ => Slot::read(&background(chance, SLOT_LENGTH), 0),
    }
}

/// A store as its parts, which may be changed before it is bytes.
#[derive(Clone)]
pub struct Hand {
    pub header: Header,
    pub slots: Vec<Slot>,
    /// The numbers of the used slots, in the order in which their blocks lie.
    pub used: Vec<usize>,
    /// Where each block lies in the room.
    pub blocks: Vec<(u64, Vec<u8>)>,
    /// All bytes lent, as they are where nothing else lies.
    pub background: Vec<u8>,
}

impl Hand {
    /// The used slot whose block lies at this place among the blocks.
    pub fn used_slot(&mut self, place: usize) -> &mut Slot {
        &mut self.slots[self.used[place]]
    }

    /// One of the used slots.
    pub fn any_used_slot(&mut self, chance: &mut Chance) -> &mut Slot {
        let place = chance.place_among(self.used.len());
        self.used_slot(place)
    }

    /// What is written later lies over what was written before. What lies outside the bytes lent is left out.
    pub fn bytes(&self) -> Vec<u8> {
        let mut memory = self.background.clone();
        for (number, slot) in (0..).zip(&self.slots) {
            write_inside(&mut memory, self.header.list + number * SLOT_LENGTH as u64, &slot.bytes());
        }
        for (offset, block) in &self.blocks {
            write_inside(&mut memory, self.header.room + offset, block);
        }
        write_inside(&mut memory, 0, &self.header.bytes());
        memory
    }
}

fn write_inside(memory: &mut [u8], place: u64, bytes: &[u8]) {
    let start = memory.len().min(place as usize);
    for (byte, written) in memory[start..].iter_mut().zip(bytes) {
        *byte = *written;
    }
}
