//! Boards to split over, with the outputs of several channels, and totals to be split.

use super::super::chance::Chance;
use super::super::keys::ToldKey;
use super::super::maps::versions::{key_bytes, next_first, share, Told};
use crate::split::LARGEST_TOTAL;
use crate::tenants::layout::{Entry, Version, OUTPUTS};

/// The most parts that the probe lends.
pub const MOST_PARTS: usize = 300;

/// What a split is told.
#[derive(Clone)]
pub struct Task {
    pub total: u64,
    /// Whose outputs get parts. Its date is not told.
    pub channel: ToldKey,
    /// Keys and shares as adding is told them. The first date is not told.
    pub board: Told,
    /// So many are lent.
    pub parts: usize,
}

impl Task {
    /// A split that is accepted, over any number of outputs.
    pub fn any(chance: &mut Chance) -> Task {
        let outputs = some_outputs(chance);
        Task::over(chance, outputs)
    }

    /// A split that is accepted, over so many outputs.
    pub fn over(chance: &mut Chance, outputs: usize) -> Task {
        let shares = some_shares(chance, outputs);
        Task::by(chance, &shares)
    }

    /// A split that is accepted if one of these shares of the channel isn't 0.
    pub fn by(chance: &mut Chance, shares: &[u16]) -> Task {
        let count = chance.between(1, 5);
        let channels = several_channels(chance, count);
        let others = others_beside(chance, shares.len(), &channels[1..]);
        let mut entries = [entries_of(&channels[0], shares), others].concat();
        chance.shuffle(&mut entries);
        let sum = shares.iter().map(|share| u64::from(*share)).sum();
        Task {
            total: some_total(chance, sum),
            channel: channels[0].spelled(chance),
            board: Told::of(channels[0].date, &entries).spelled(chance),
            parts: some_parts(chance),
        }
    }

    /// Lets a list, or more than one, be too short.
    pub fn shorten_lists(&mut self, chance: &mut Chance) {
        if chance.one_in(2) {
            self.board.shorten_lists(chance);
            if !chance.one_in(3) {
                return;
            }
        }
        self.parts = too_few_parts(chance);
    }
}

// --- Channels ---

/// Some channels, no two alike, that mostly differ by little. All have one date.
pub fn several_channels(chance: &mut Chance, count: usize) -> Vec<ToldKey> {
    let mut channels = vec![ToldKey::any(chance)];
    while channels.len() < count {
        let near = &channels[chance.below(channels.len())];
        let channel = ToldKey { date: near.date, ..near.other(chance) };
        if !channels.contains(&channel) {
            channels.push(channel);
        }
    }
    channels
}

// --- Outputs and shares ---

/// How many outputs a channel has: any number, one, all and ones next to them more often.
fn some_outputs(chance: &mut Chance) -> usize {
    match chance.below(10) {
        0..=1 => 1,
        2 => OUTPUTS,
        3 => OUTPUTS - 1,
        4..=6 => chance.between(2, 5),
        _ => chance.between(1, OUTPUTS),
    }
}

/// Shares of so many outputs of one channel: all alike, of few kinds or any. They don't add up to 0.
pub fn some_shares(chance: &mut Chance, outputs: usize) -> Vec<u16> {
    let kinds = match chance.below(8) {
        0..=1 => vec![chance.pick(&[1, 2, 3, 333, 999, 1000])],
        2 => vec![1, 3, 5, 7],
        3 => vec![0, chance.pick(&[1, 1000])],
        4 => vec![0, 1, 999, 1000],
        5 => vec![share(chance), share(chance), share(chance)],
        _ => (0..outputs).map(|_| share(chance)).collect(),
    };
    let mut shares: Vec<u16> = (0..outputs).map(|_| chance.pick(&kinds)).collect();
    if shares.iter().all(|share| *share == 0) {
        let place = chance.place_among(outputs);
        shares[place] = chance.pick(&[1, 7, 1000]);
    }
    shares
}

fn entries_of(channel: &ToldKey, shares: &[u16]) -> Vec<Entry> {
    shares.iter().map(|share| Entry { key: key_bytes(channel), share: *share }).collect()
}

/// Entries for the outputs that a channel leaves: of these others, and unused ones, or only of the one or the other.
fn others_beside(chance: &mut Chance, outputs: usize, others: &[ToldKey]) -> Vec<Entry> {
    let unused_of_4 = if others.is_empty() { 4 } else { chance.pick(&[0, 1, 2, 3]) };
    let mut entry = |_| match chance.below(4) {
        place if place < unused_of_4 => Entry::UNUSED,
        _ => Entry { key: key_bytes(&others[chance.below(others.len())]), share: share(chance) },
    };
    (outputs..OUTPUTS).map(&mut entry).collect()
}

/// A version of this first date, on which the channel has outputs with shares.
pub fn version_with(chance: &mut Chance, channel: &ToldKey, first: u32) -> Version {
    let outputs = some_outputs(chance);
    let mut entries = entries_of(channel, &some_shares(chance, outputs));
    entries.resize(OUTPUTS, Entry::UNUSED);
    chance.shuffle(&mut entries);
    Version { first, entries }
}

/// Versions of a map on which each of these channels mostly has outputs with shares.
pub fn versions_for(chance: &mut Chance, channels: &[ToldKey], count: usize) -> Vec<Version> {
    let mut versions: Vec<Version> = Vec::new();
    for _ in 0..count {
        let first = next_first(chance, versions.last().map(|last| last.first));
        versions.push(Version { first, entries: entries_among(chance, channels) });
    }
    versions
}

/// Entries of these channels. By chance one of them is on no output, or its shares are all 0.
fn entries_among(chance: &mut Chance, channels: &[ToldKey]) -> Vec<Entry> {
    let most = OUTPUTS / channels.len();
    let mut entries = Vec::new();
    for channel in channels {
        let outputs = if chance.one_in(2) { chance.between(1, most.min(4)) } else { chance.between(1, most) };
        let shares = match chance.below(12) {
            0 => Vec::new(),
            1 => vec![0; outputs],
            _ => some_shares(chance, outputs),
        };
        entries.extend(entries_of(channel, &shares));
    }
    entries.resize(OUTPUTS, Entry::UNUSED);
    chance.shuffle(&mut entries);
    entries
}

// --- Totals and parts ---

/// A total to be split by shares that add up to this: at an edge, small, a multiple of the sum, half of one or next to
/// one, or any.
pub fn some_total(chance: &mut Chance, sum: u64) -> u64 {
    let times = chance.below(1_000) as u64;
    match chance.below(16) {
        0 => 0,
        1 => chance.pick(&[1, 2, 127, 128, 129]),
        2 => LARGEST_TOTAL,
        3 => LARGEST_TOTAL - chance.between(1, 200) as u64,
        4..=5 => chance.below(300) as u64,
        6 => sum * times,
        7 => sum * times + 1,
        8 => sum * (times + 1) - 1,
        // With odd shares all remainders are equal then, be the shares different.
        9..=10 => sum * (2 * times + 1) / 2,
        11..=12 => (chance.next() % LARGEST_TOTAL) >> chance.below(48),
        _ => chance.next() % LARGEST_TOTAL,
    }
}

/// A total that is too large, often by one alone.
pub fn too_large_total(chance: &mut Chance) -> u64 {
    chance.pick(&[LARGEST_TOTAL + 1, LARGEST_TOTAL + 1, LARGEST_TOTAL + 1000, 1 << 62, 1 << 63, u64::MAX])
}

/// How many parts are lent: mostly as many as there are outputs.
pub fn some_parts(chance: &mut Chance) -> usize {
    match chance.below(6) {
        0 => OUTPUTS + 1,
        1 => chance.between(OUTPUTS, MOST_PARTS),
        2 => MOST_PARTS,
        _ => OUTPUTS,
    }
}

pub fn too_few_parts(chance: &mut Chance) -> usize {
    chance.pick(&[OUTPUTS - 1, OUTPUTS - 1, OUTPUTS - 1, 64, 1, 0])
}
