//! Days to split: files with days of some channels, stores that hold such days, and the maps to split them by.

use super::super::aimed;
use super::super::chance::Chance;
use super::super::damage;
use super::super::files::{self, Channel, Draft, Row};
use super::super::keys::ToldKey;
use super::super::maps::date_near;
use super::super::maps::hand::Hand;
use super::super::scene::{background, Scene};
use super::super::stores::days;
use super::super::stores::hand::Plan;
use super::super::words::{self, number_word};
use crate::check::read_file;
use crate::store::layout::{HEADER_LENGTH, SLOT_LENGTH};
use crate::tenants::layout::{Version, NMI_LENGTH};
use crate::units::Unit;
use crate::walk::MeterFile;

/// The places of NMI and suffix among the fields of a 200.
const NMI_IN_200: usize = 1;
const SUFFIX_IN_200: usize = 4;

/// The unit that allows the largest values.
const MWH: u8 = 0;

// --- Files ---

/// A file in which some of these channels have a day or more, of dates at which the versions begin or near to them.
pub fn file_of(chance: &mut Chance, channels: &[ToldKey], versions: &[Version]) -> Vec<u8> {
    let mut rows = vec![files::header(chance, b"NEM12")];
    for _ in 0..chance.between(1, 2) {
        let key = channels[chance.below(channels.len())].spelled(chance);
        let channel = days::some_channel(chance);
        rows.push(head_of(chance, &key, channel));
        let (first, count) = (date_near(chance, versions), chance.between(1, 2));
        for date in words::rising_dates_from(chance, first, count) {
            rows.extend(files::day_block(chance, channel, date));
        }
    }
    rows.push(vec![b"900".to_vec()]);
    Draft { rows }.bytes()
}

/// A 200 of this channel.
fn head_of(chance: &mut Chance, key: &ToldKey, channel: Channel) -> Row {
    let mut head = files::channel_head(chance, channel);
    head[NMI_IN_200] = key.nmi.clone();
    head[SUFFIX_IN_200] = key.suffix.clone();
    head
}

/// A file of one day, on which the last version answers: it adds up to nothing, or to as much as a day can.
pub fn edge_file(chance: &mut Chance, channels: &[ToldKey], versions: &[Version]) -> Vec<u8> {
    let key = &channels[chance.below(channels.len())];
    let unit = Unit::numbered(MWH).expect("a unit");
    let (minutes, value) = if chance.one_in(4) { (5, words::largest_value(6)) } else { (30, number_word(0)) };
    let channel = Channel::of(minutes, unit);
    let date = versions.last().map_or_else(|| words::date(chance), |version| version.first);
    let note = words::note(chance);
    let mut day = files::day(chance, channel, date, &note.fields());
    day[2..channel.n + 2].fill(value);
    let rows = vec![files::header(chance, b"NEM12"), head_of(chance, key, channel), day, vec![b"900".to_vec()]];
    Draft { rows }.bytes()
}

pub fn nem13_file(chance: &mut Chance) -> Vec<u8> {
    files::nem13(chance).bytes()
}

/// A file that mostly is refused by this number, from 2 to 13.
pub fn refused_file(chance: &mut Chance, aim: u64) -> Vec<u8> {
    aimed::bytes_for(chance, &files::accepted, aim)
}

/// A file that mostly is refused, or no bytes at all.
pub fn damaged_file(chance: &mut Chance) -> Vec<u8> {
    if chance.one_in(3) {
        return Vec::new();
    }
    damage::damaged(chance, &files::accepted)
}

/// The number of a day of a file, mostly of one that there is.
pub fn some_day(chance: &mut Chance, file: &[u8]) -> usize {
    if chance.one_in(12) {
        return no_such_day(chance, file);
    }
    chance.place_among(days_in(file).max(1))
}

pub fn no_such_day(chance: &mut Chance, file: &[u8]) -> usize {
    let days = days_in(file);
    chance.pick(&[days, days, days + 1, 1_000_000, usize::MAX])
}

/// The days of a file. A refused one has none.
fn days_in(file: &[u8]) -> usize {
    read_file(file).map_or(0, |content| content.days.len())
}

/// The channel that a file begins with.
pub fn first_channel(content: &MeterFile) -> ToldKey {
    let head = content.channels[0].head();
    channel_of(head.bytes(2), head.bytes(5))
}

/// A channel as it is kept. What it is asked for has a date of its own.
fn channel_of(nmi: &[u8], suffix: &[u8]) -> ToldKey {
    ToldKey { nmi: nmi.to_ascii_uppercase(), suffix: suffix.to_ascii_uppercase(), date: 0 }
}

// --- Maps ---

/// The bytes of a map of these versions, of this length, with anything behind them.
pub fn map_of(chance: &mut Chance, versions: &[Version], length: usize) -> Vec<u8> {
    let background = background(chance, length);
    Hand { count: versions.len() as u32, versions: versions.to_vec(), background }.bytes()
}

/// Two channels that are on these versions, or any if none is.
pub fn channels_on(chance: &mut Chance, versions: &[Version]) -> Vec<ToldKey> {
    let keys = versions.iter().flat_map(|version| &version.entries).map(|entry| entry.key);
    let channels: Vec<ToldKey> = keys
        .filter(|key| key.iter().all(u8::is_ascii_alphanumeric))
        .map(|key| channel_of(&key[..NMI_LENGTH], &key[NMI_LENGTH..]))
        .collect();
    if channels.is_empty() {
        return vec![ToldKey::any(chance)];
    }
    (0..2).map(|_| channels[chance.below(channels.len())].clone()).collect()
}

// --- Stores ---

/// Keys of days of these channels, one or two of each, of dates at which the versions begin or near to them.
pub fn stored_near(chance: &mut Chance, channels: &[ToldKey], versions: &[Version]) -> Vec<ToldKey> {
    let mut keys = Vec::new();
    for channel in channels {
        let (first, count) = (date_near(chance, versions), chance.between(1, 2));
        let dates = words::rising_dates_from(chance, first, count);
        keys.extend(dates.into_iter().map(|date| ToldKey { date, ..channel.clone() }));
    }
    keys
}

/// A scene with a store that holds days of these keys, lent, or made and put to.
pub fn with_store(chance: &mut Chance, keys: &[ToldKey]) -> Scene {
    let slots = keys.len() + chance.below(3);
    if chance.one_in(2) {
        let mut plan = Plan::of(chance, slots, keys.len());
        for (place, key) in keys.iter().enumerate() {
            plan.set_key(chance, place, key.clone());
        }
        return Scene::on(plan.lay(chance).bytes());
    }
    let days: Vec<_> = keys.iter().map(|key| days::day(chance, key.date)).collect();
    let room: usize = days.iter().map(|day| day.block().expect("a fit day").len()).sum();
    let mut scene = Scene::on(background(chance, HEADER_LENGTH + slots * SLOT_LENGTH + room));
    scene.make(chance, slots as u32);
    for (key, day) in keys.iter().zip(&days) {
        scene.put(chance, key, day);
    }
    scene
}
