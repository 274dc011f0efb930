//! A store as bytes: its header and its slots, numbers being little-endian.

pub const HEADER_LENGTH: usize = 32;
pub const SLOT_LENGTH: usize = 26;
pub const MOST_SLOTS: u64 = 64;

/// The numbers of the header. They are held wider than they stand there, so that no sum of them wraps.
#[derive(Clone, Debug, PartialEq, Eq)]
pub struct Header {
    pub slots: u64,
    pub days_held: u64,
    /// Bit s is set if slot s is used.
    pub used_map: u64,
    /// Where the slot list starts.
    pub list: u64,
    /// Where the block room starts.
    pub room: u64,
    pub room_length: u64,
    /// The bytes of the room, from its start, in which blocks lie.
    pub bytes_used: u64,
}

impl Header {
    /// The first bytes of the memory as a header, if it has as many.
    pub fn read(memory: &[u8]) -> Option<Header> {
        let mut bytes = memory.get(..HEADER_LENGTH)?;
        Some(Header {
            slots: take_number(&mut bytes, 4),
            days_held: take_number(&mut bytes, 4),
            used_map: take_number(&mut bytes, 8),
            list: take_number(&mut bytes, 4),
            room: take_number(&mut bytes, 4),
            room_length: take_number(&mut bytes, 4),
            bytes_used: take_number(&mut bytes, 4),
        })
    }

    pub fn bytes(&self) -> Vec<u8> {
        let parts = [
            (self.slots, 4),
            (self.days_held, 4),
            (self.used_map, 8),
            (self.list, 4),
            (self.room, 4),
            (self.room_length, 4),
            (self.bytes_used, 4),
        ];
        parts.into_iter().flat_map(|(number, length)| number_bytes(number, length)).collect()
    }

    pub fn list_end(&self) -> u64 {
        self.list + self.slots * SLOT_LENGTH as u64
    }

    pub fn room_end(&self) -> u64 {
        self.room + self.room_length
    }

    /// Whether the map has the bit of this slot, which is below 64.
    pub fn is_used(&self, slot: u64) -> bool {
        self.used_map >> slot & 1 == 1
    }

    /// Where in the memory this slot starts.
    pub fn place_of(&self, slot: u64) -> usize {
        self.list as usize + slot as usize * SLOT_LENGTH
    }
}

/// What a slot says of the day that it holds.
#[derive(Clone, Debug, PartialEq, Eq)]
pub struct Slot {
    pub nmi: Vec<u8>,
    pub suffix: Vec<u8>,
    pub date: u32,
    /// Interval length in minutes.
    pub length: u8,
    pub unit: u8,
    /// Where the block starts, counted from the room's start.
    pub offset: u64,
    pub block_length: u64,
}

impl Slot {
    pub const NMI_LENGTH: usize = 10;
    pub const SUFFIX_LENGTH: usize = 2;

    /// The slot that starts here in the memory, which has all of it.
    pub fn read(memory: &[u8], place: usize) -> Slot {
        let mut bytes = &memory[place..place + SLOT_LENGTH];
        Slot {
            nmi: take(&mut bytes, Slot::NMI_LENGTH).to_vec(),
            suffix: take(&mut bytes, Slot::SUFFIX_LENGTH).to_vec(),
            date: take_number(&mut bytes, 4) as u32,
            length: take_number(&mut bytes, 1) as u8,
            unit: take_number(&mut bytes, 1) as u8,
            offset: take_number(&mut bytes, 4),
            block_length: take_number(&mut bytes, 4),
        }
    }

    pub fn bytes(&self) -> Vec<u8> {
        [
            self.nmi.clone(),
            self.suffix.clone(),
            number_bytes(u64::from(self.date), 4),
            vec![self.length, self.unit],
            number_bytes(self.offset, 4),
            number_bytes(self.block_length, 4),
        ]
        .concat()
    }

    pub fn block_end(&self) -> u64 {
        self.offset + self.block_length
    }
}

fn take<'a>(bytes: &mut &'a [u8], length: usize) -> &'a [u8] {
    let (taken, rest) = bytes.split_at(length);
    *bytes = rest;
    taken
}

fn take_number(bytes: &mut &[u8], length: usize) -> u64 {
    take(bytes, length).iter().rev().fold(0, |number, byte| number * 256 + u64::from(*byte))
}

/// The lowest bytes of a number, the lowest first.
fn number_bytes(number: u64, length: usize) -> Vec<u8> {
    number.to_le_bytes()[..length].to_vec()
}
