//! Splitting a day's sum over the outputs of its channel, by the shares that the tenant map has on its date. A refused
//! call changes nothing.

#[cfg(test)]
mod worked;

use crate::check::read_file;
use crate::keys::{names_channel, Key};
use crate::refusal::{Refusal, LENT_TOO_SHORT, NO_SHARES, NO_SUCH_NUMBER, TOTAL_TOO_LARGE};
use crate::store::reading::read_store;
use crate::tenants::layout::{Entry, OUTPUTS};
use crate::tenants::{map_on, told_entries, KEYS_LENGTH};
use crate::walk::Day;

/// The largest total that is split: no day's sum reaches it.
pub const LARGEST_TOTAL: u64 = 2_880_000_000_000_000;

/// Splits a total over the outputs that have this NMI and suffix, and gives how many these are. The part of each other
/// output is 0. Places behind the outputs keep what they held.
pub fn split(
    total: u64,
    nmi: &[u8],
    suffix: &[u8],
    keys: &[u8],
    shares: &[u16],
    parts: &mut [u64],
) -> Result<usize, Refusal> {
    if total > LARGEST_TOTAL {
        return Err(Refusal::without_place(TOTAL_TOO_LARGE));
    }
    if parts.len() < OUTPUTS {
        return Err(Refusal::without_place(LENT_TOO_SHORT));
    }
    let entries = told_entries(keys, shares)?;
    let on_channel = outputs_on(&entries, nmi, suffix);
    let sum: u128 = on_channel.iter().map(|output| u128::from(entries[*output].share)).sum();
    if sum == 0 {
        return Err(Refusal::without_place(NO_SHARES));
    }
    let mut claims: Vec<Claim> =
        on_channel.iter().map(|output| Claim::of(*output, total, entries[*output].share, sum)).collect();
    give_what_remains(total, &mut claims);
    parts[..OUTPUTS].fill(0);
    for claim in &claims {
        parts[claim.output] = claim.part;
    }
    Ok(claims.len())
}

/// Splits the sum of a file's day by the map that the memory is.
pub fn split_day(file: &[u8], number: usize, memory: &[u8], parts: &mut [u64]) -> Result<usize, Refusal> {
    let content = read_file(file)?;
    let day = content.day(number)?;
    let channel = content.channels[day.channel].head();
    split_by_map(day, channel.bytes(2), channel.bytes(5), memory, parts)
}

/// Splits the sum of a day that the store holds by the map that the memory is.
pub fn split_stored(
    store: &[u8],
    nmi: &[u8],
    suffix: &[u8],
    date: u32,
    memory: &[u8],
    parts: &mut [u64],
) -> Result<usize, Refusal> {
    let store = read_store(store)?;
    let held = Key::named(nmi, suffix, date).and_then(|key| store.day_of(&key));
    let day = &held.ok_or(Refusal::without_place(NO_SUCH_NUMBER))?.day;
    split_by_map(day, nmi, suffix, memory, parts)
}

/// Splits a day's sum over the outputs of its channel, as the map has them on its date.
fn split_by_map(day: &Day, nmi: &[u8], suffix: &[u8], memory: &[u8], parts: &mut [u64]) -> Result<usize, Refusal> {
    let mut keys = [0; KEYS_LENGTH];
    let mut shares = [0; OUTPUTS];
    map_on(memory, day.date, &mut keys, &mut shares)?;
    split(day.sum(), nmi, suffix, &keys, &shares, parts)
}

/// The outputs that have this NMI and suffix, from the lowest on, be their share 0. A bad NMI or suffix has none.
fn outputs_on(entries: &[Entry], nmi: &[u8], suffix: &[u8]) -> Vec<usize> {
    if !names_channel(nmi, suffix) {
        return Vec::new();
    }
    let key = [nmi, suffix].concat().to_ascii_uppercase();
    (0..entries.len()).filter(|output| entries[*output].key[..] == key[..]).collect()
}

/// What an output gets of a total.
struct Claim {
    output: usize,
    part: u64,
    /// What rounding down has left of its exact share, in parts of the channel's sum of shares.
    remainder: u128,
}

impl Claim {
    /// Its exact share, rounded down.
    fn of(output: usize, total: u64, share: u16, sum: u128) -> Claim {
        let product = u128::from(total) * u128::from(share);
        Claim { output, part: (product / sum) as u64, remainder: product % sum }
    }
}

/// Gives what rounding down has left of the total, one each to the largest remainders, the lower output first when they
/// are equal.
fn give_what_remains(total: u64, claims: &mut [Claim]) {
    let given: u64 = claims.iter().map(|claim| claim.part).sum();
    claims.sort_by(|a, b| b.remainder.cmp(&a.remainder).then(a.output.cmp(&b.output)));
    for claim in &mut claims[..(total - given) as usize] {
        claim.part += 1;
    }
}
