//! A tenant map with its history in lent memory: making one, adding a version, going back to one, and what a date's
//! version says. Each but the first asks before all else whether the memory is a map. A refused call changes nothing.

#[cfg(test)]
mod conditions;
pub mod layout;
#[cfg(test)]
pub mod worked;

use crate::fields::is_real_date;
use crate::keys::names_channel;
use crate::refusal::{Refusal, DATE_FALLS, ENTRY_UNFIT, LENT_TOO_SHORT, NO_STORE, NO_SUCH_NUMBER, VERSIONS_ALL_USED};
use layout::{
    place_of_version, read_count, Entry, Version, COUNT_LENGTH, KEY_LENGTH, MAP_LENGTH, MOST_VERSIONS, NMI_LENGTH,
    NO_KEY, OUTPUTS,
};

/// The bytes of all keys of a version.
pub const KEYS_LENGTH: usize = OUTPUTS * KEY_LENGTH;

const LARGEST_SHARE: u16 = 1000;

/// Makes a map without versions of the memory, and gives 0, the number of them. Only that number is written.
pub fn make_map(memory: &mut [u8]) -> Result<usize, Refusal> {
    if memory.len() < MAP_LENGTH {
        return Err(Refusal::without_place(LENT_TOO_SHORT));
    }
    write_count(memory, 0);
    Ok(0)
}

/// Adds a version that is told by keys of twelve bytes and by shares, and gives its number, counted from 1.
pub fn add_version(memory: &mut [u8], first: u32, keys: &[u8], shares: &[u16]) -> Result<usize, Refusal> {
    let versions = read_map(memory)?;
    let entries = told_entries(keys, shares)?;
    append(memory, &versions, Version { first, entries })
}

/// The entries that these keys and shares tell, one for each output, as adding keeps them. What is told behind the
/// outputs may be anything.
pub fn told_entries(keys: &[u8], shares: &[u16]) -> Result<Vec<Entry>, Refusal> {
    if keys.len() < KEYS_LENGTH || shares.len() < OUTPUTS {
        return Err(Refusal::without_place(LENT_TOO_SHORT));
    }
    let told = keys[..KEYS_LENGTH].chunks(KEY_LENGTH).zip(shares);
    let entries: Option<Vec<Entry>> = told.map(|(key, share)| kept_form(key, *share)).collect();
    entries.ok_or(Refusal::without_place(ENTRY_UNFIT))
}

/// Adds a version equal to the one of this number under a new first date, and gives its number.
pub fn back_to(memory: &mut [u8], version: usize, first: u32) -> Result<usize, Refusal> {
    let versions = read_map(memory)?;
    let place = version.checked_sub(1).ok_or(NO_VERSION)?;
    let old = versions.get(place).ok_or(NO_VERSION)?;
    append(memory, &versions, Version { first, entries: old.entries.clone() })
}

/// Fills keys and shares by the version of this date, and gives its number. More places keep what they held.
pub fn map_on(memory: &[u8], date: u32, keys: &mut [u8], shares: &mut [u16]) -> Result<usize, Refusal> {
    let versions = read_map(memory)?;
    if !is_real_date(date) {
        return Err(NO_VERSION);
    }
    let place = versions.iter().rposition(|version| version.first <= date).ok_or(NO_VERSION)?;
    if keys.len() < KEYS_LENGTH || shares.len() < OUTPUTS {
        return Err(Refusal::without_place(LENT_TOO_SHORT));
    }
    for ((key, share), entry) in keys.chunks_mut(KEY_LENGTH).zip(shares).zip(&versions[place].entries) {
        key.copy_from_slice(&entry.key);
        *share = entry.share;
    }
    Ok(place + 1)
}

/// The refusal of a number or a date that no version has.
const NO_VERSION: Refusal = Refusal { number: NO_SUCH_NUMBER, place: 0, record: 0, field: 0 };

// --- What makes bytes a map ---

/// The versions of the map that the memory is, or the refusal of what is none.
pub fn read_map(memory: &[u8]) -> Result<Vec<Version>, Refusal> {
    versions_in(memory).ok_or(Refusal::without_place(NO_STORE))
}

fn versions_in(memory: &[u8]) -> Option<Vec<Version>> {
    let count = read_count(memory)? as usize;
    if memory.len() < MAP_LENGTH || count > MOST_VERSIONS {
        return None;
    }
    let versions: Vec<Version> = (0..count).map(|place| Version::read(memory, place)).collect();
    let is_map = versions.iter().all(could_be_added) && versions.windows(2).all(|pair| pair[0].first <= pair[1].first);
    is_map.then_some(versions)
}

/// Whether adding could have given such a version, whatever came before it.
fn could_be_added(version: &Version) -> bool {
    let is_kept = |entry: &Entry| kept_form(&entry.key, entry.share) == Some(*entry);
    is_real_date(version.first) && version.entries.iter().all(is_kept)
}

/// The entry that is kept if this key and this share are told. None if adding doesn't take them.
fn kept_form(key: &[u8], share: u16) -> Option<Entry> {
    let (nmi, suffix) = key.split_at(NMI_LENGTH);
    // An output that isn't used has no share.
    let is_unused = key == NO_KEY && share == 0;
    let is_taken = is_unused || names_channel(nmi, suffix) && share <= LARGEST_SHARE;
    let capitals = key.to_ascii_uppercase().try_into().expect("a key's bytes");
    is_taken.then_some(Entry { key: capitals, share })
}

// --- Writing ---

/// Where in a map's memory the versions in use end.
pub fn end_of_versions(map: &[u8]) -> usize {
    read_count(map).map_or(0, |count| place_of_version(count as usize))
}

/// Writes a version behind those of the map, and gives its number.
fn append(memory: &mut [u8], versions: &[Version], new: Version) -> Result<usize, Refusal> {
    let falls = versions.last().is_some_and(|last| new.first < last.first);
    if falls || !is_real_date(new.first) {
        return Err(Refusal::without_place(DATE_FALLS));
    }
    if versions.len() == MOST_VERSIONS {
        return Err(Refusal::without_place(VERSIONS_ALL_USED));
    }
    let (start, end) = (place_of_version(versions.len()), place_of_version(versions.len() + 1));
    memory[start..end].copy_from_slice(&new.bytes());
    let number = versions.len() + 1;
    write_count(memory, number);
    Ok(number)
}

fn write_count(memory: &mut [u8], count: usize) {
    memory[..COUNT_LENGTH].copy_from_slice(&(count as u32).to_le_bytes());
}
