//! A tenant map as bytes: how many versions it holds, and then room for 32 of them, numbers being little-endian.

/// The outputs of a board. A version has an entry for each.
pub const OUTPUTS: usize = 128;
pub const MOST_VERSIONS: usize = 32;

pub const COUNT_LENGTH: usize = 4;
const FIRST_LENGTH: usize = 4;
pub const NMI_LENGTH: usize = 10;
/// Of an NMI and a suffix.
pub const KEY_LENGTH: usize = 12;
const SHARE_LENGTH: usize = 2;
pub const ENTRY_LENGTH: usize = KEY_LENGTH + SHARE_LENGTH;
pub const VERSION_LENGTH: usize = FIRST_LENGTH + OUTPUTS * ENTRY_LENGTH;
pub const MAP_LENGTH: usize = COUNT_LENGTH + MOST_VERSIONS * VERSION_LENGTH;

/// Stands for the key of an output that is not used.
pub const NO_KEY: [u8; KEY_LENGTH] = [0; KEY_LENGTH];

/// What stands for one output: whose it is, and its share.
#[derive(Clone, Copy, Debug, PartialEq, Eq)]
pub struct Entry {
    pub key: [u8; KEY_LENGTH],
    pub share: u16,
}

impl Entry {
    pub const UNUSED: Entry = Entry { key: NO_KEY, share: 0 };

    fn read(bytes: &[u8]) -> Entry {
        let (key, share) = bytes.split_at(KEY_LENGTH);
        Entry { key: key.try_into().expect("a key's bytes"), share: u16::from_le_bytes([share[0], share[1]]) }
    }

    fn bytes(&self) -> Vec<u8> {
        [&self.key[..], &self.share.to_le_bytes()].concat()
    }
}

/// What stands for one version, be it one that adding gives or not.
#[derive(Clone, Debug, PartialEq, Eq)]
pub struct Version {
    /// The first date that it answers.
    pub first: u32,
    /// One for each output.
    pub entries: Vec<Entry>,
}

impl Version {
    /// The version that has this place among them, counted from 0, in a memory which has all of it.
    pub fn read(memory: &[u8], place: usize) -> Version {
        let start = place_of_version(place);
        let (first, entries) = memory[start..start + VERSION_LENGTH].split_at(FIRST_LENGTH);
        Version {
            first: u32::from_le_bytes(first.try_into().expect("a date's bytes")),
            entries: entries.chunks(ENTRY_LENGTH).map(Entry::read).collect(),
        }
    }

    pub fn bytes(&self) -> Vec<u8> {
        let entries = self.entries.iter().flat_map(Entry::bytes);
        self.first.to_le_bytes().into_iter().chain(entries).collect()
    }
}

/// Where in the memory a version starts, they being counted from 0. Where the last one ends, the next one would start.
pub fn place_of_version(place: usize) -> usize {
    COUNT_LENGTH + place * VERSION_LENGTH
}

/// How many versions the memory says that it holds, if it has the bytes to say so.
pub fn read_count(memory: &[u8]) -> Option<u32> {
    let bytes = memory.get(..COUNT_LENGTH)?;
    Some(u32::from_le_bytes(bytes.try_into().expect("a count's bytes")))
}
