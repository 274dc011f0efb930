//! Sequences of splits: of totals that are told, of days of files, and of stored days. A sequence that needs a memory
//! begins with the one that it lends, so it depends on the seed and its own number alone. A map has many bytes, and
//! stored days are split by one that their case tells, so these are few.

mod boards;
#[cfg(test)]
mod called;
mod days;
#[cfg(test)]
mod kinds;
mod scene;

use super::chance::Chance;
use super::files;
use super::keys::{bad_key, BadKey, ToldKey, BAD_KEYS};
use super::maps::hand as map_hand;
use super::maps::versions::{bad_entry, BadEntry, Told, BAD_ENTRIES};
use super::scene::{background, Scene};
use super::stores::broken::{self as store_broken, AT_THE_EDGE, BROKEN};
use super::sweep::which;
use crate::check::{read_file, LONGEST_FILE};
use crate::split::LARGEST_TOTAL;
use crate::tenants::layout::{Version, KEY_LENGTH, MAP_LENGTH, MOST_VERSIONS, NMI_LENGTH, OUTPUTS, VERSION_LENGTH};
use crate::tenants::KEYS_LENGTH;
use boards::{
    several_channels, some_parts, some_shares, too_few_parts, too_large_total, version_with, versions_for, Task,
    MOST_PARTS,
};
use days::{
    channels_on, damaged_file, file_of, map_of, nem13_file, no_such_day, refused_file, some_day, stored_near,
    with_store,
};

/// Sequences come in rounds of this many.
const ROUND: u64 = 25;
/// So many of a round sweep the ways in which an entry can be bad, so many of these ways at a time.
const BAD_ENTRIES_PER_ROUND: u64 = 2;
const BAD_ENTRIES_AT_A_TIME: u64 = 4;
/// One of a round sweeps the ways in which an NMI or a suffix can be bad, one the refusals of a file's content, and one
/// the ways in which bytes are no store, so many at a time, and one those in which they only just are one.
const BAD_CHANNELS_AT_A_TIME: u64 = 5;
const AIMED_FILES_AT_A_TIME: u64 = 5;
const NO_STORES_AT_A_TIME: u64 = 4;

/// The sequence of this number has files of the largest length and of one byte more. It stands where no sweep has a
/// turn.
const LARGE: u64 = 62;

/// The most versions that are added, each by a case of its own.
const MOST_ADDED: usize = 5;
/// The longest map that the probe takes.
const LONGEST_MAP: usize = 60_000;
/// Behind splits by longer memories the bytes, which no split changes, are asked for less often.
const SHORT_MEMORY: usize = 2_500;

/// The cases of one sequence.
pub fn sequence(seed: u64, number: u64) -> Vec<Vec<u8>> {
    let chance = &mut Chance::for_split_sequence(seed, number);
    if number == LARGE {
        return of_large_files(chance).cases;
    }
    let round = number / ROUND;
    // Which one of a sweep: another seed begins elsewhere.
    let swept = |per_round: u64, place: u64| seed.wrapping_add(round * per_round + place);
    let scene = match number % ROUND {
        0..=3 => of_totals(chance),
        4..=5 => of_ties(chance),
        6 => at_the_limit(chance),
        7 => with_other_lists(chance),
        place @ 8..=9 => with_bad_entries(chance, swept(BAD_ENTRIES_PER_ROUND, place - 8)),
        10 => of_no_channel(chance, swept(1, 0)),
        11 => with_several_faults(chance),
        12..=15 => of_days(chance),
        16 => of_faulty_days(chance, swept(1, 0)),
        17 => of_days_without_map(chance),
        18 => of_days_at_the_edge(chance),
        19..=21 => of_stored_days(chance),
        22 => of_faulty_stored_days(chance),
        23 => of_days_in_no_store(chance, swept(1, 0)),
        _ => of_stored_days_at_the_edge(chance, swept(1, 0)),
    };
    let ends_with_bytes = match scene.memory.len() {
        0 => false,
        1..=SHORT_MEMORY => chance.one_in(2),
        _ => chance.one_in(8),
    };
    if ends_with_bytes {
        scene.end()
    } else {
        scene.cases
    }
}

// --- Totals ---

/// Totals of any kind over any outputs.
fn of_totals(chance: &mut Chance) -> Scene {
    let mut scene = Scene::default();
    for _ in 0..8 {
        scene.split(&Task::any(chance));
    }
    // One board for several of its channels.
    let task = Task::any(chance);
    for channel in channels_of(&task.board).into_iter().take(3) {
        scene.split(&Task { channel, ..task.clone() });
    }
    for outputs in [1, OUTPUTS] {
        scene.split(&Task::over(chance, outputs));
    }
    scene
}

/// The channels of a board as they are told there, each spelling once.
fn channels_of(board: &Told) -> Vec<ToldKey> {
    let used = board.keys.chunks(KEY_LENGTH).filter(|key| key[0] != 0);
    let mut channels: Vec<ToldKey> = Vec::new();
    for key in used {
        let channel =
            ToldKey { nmi: key[..NMI_LENGTH].to_vec(), suffix: key[NMI_LENGTH..].to_vec(), date: board.first };
        if !channels.contains(&channel) {
            channels.push(channel);
        }
    }
    channels
}

/// Totals of which something remains that not all of several equal remainders get.
fn of_ties(chance: &mut Chance) -> Scene {
    let mut scene = Scene::default();
    for _ in 0..5 {
        let outputs = chance.between(2, 12);
        let kinds = chance.pick(&[&[1][..], &[1000], &[1, 3], &[1, 3, 5], &[0, 1], &[7, 993], &[1, 2]]);
        let mut shares: Vec<u16> = (0..outputs).map(|_| chance.pick(kinds)).collect();
        // They are not all 0 then.
        shares[0] = kinds[kinds.len() - 1];
        let mut task = Task::by(chance, &shares);
        let sum: u64 = shares.iter().map(|share| u64::from(*share)).sum();
        for total in [chance.between(1, outputs) as u64, sum / 2, sum * chance.below(9) as u64 + sum / 2] {
            task.total = total;
            scene.split(&task);
        }
    }
    scene
}

/// One board, and totals at the limit and at 0.
fn at_the_limit(chance: &mut Chance) -> Scene {
    let mut scene = Scene::default();
    let outputs = chance.pick(&[1, 2, 3, 7, 127, OUTPUTS, OUTPUTS]);
    let shares = if chance.one_in(2) { vec![1000; outputs] } else { some_shares(chance, outputs) };
    let mut task = Task::by(chance, &shares);
    for total in [0, 1, LARGEST_TOTAL - 1, LARGEST_TOTAL, LARGEST_TOTAL + 1, too_large_total(chance), u64::MAX] {
        task.total = total;
        scene.split(&task);
    }
    scene
}

/// Lists that are longer than need be, with anything in what is more, and ones that are too short, most by one alone.
fn with_other_lists(chance: &mut Chance) -> Scene {
    let mut scene = Scene::default();
    for _ in 0..3 {
        let mut task = Task::any(chance);
        task.board.lengthen_lists(chance);
        scene.split(&task);
    }
    let task = Task::any(chance);
    scene.split(&Task { parts: OUTPUTS - 1, ..task.clone() });
    for (key_bytes, shares) in [(KEYS_LENGTH - 1, OUTPUTS), (KEYS_LENGTH, OUTPUTS - 1), (0, OUTPUTS), (KEYS_LENGTH, 0)]
    {
        let mut short = task.clone();
        short.board.keys.truncate(key_bytes);
        short.board.shares.truncate(shares);
        scene.split(&short);
    }
    for _ in 0..4 {
        let mut short = task.clone();
        short.shorten_lists(chance);
        scene.split(&short);
    }
    scene.split(&Task { parts: MOST_PARTS, ..task });
    scene
}

/// Boards with an entry that is bad in each way in turn, at the first output, the last and another.
fn with_bad_entries(chance: &mut Chance, turn: u64) -> Scene {
    let mut scene = Scene::default();
    let good = Task::any(chance);
    for place in 0..BAD_ENTRIES_AT_A_TIME {
        for output in [0, OUTPUTS - 1, chance.between(1, OUTPUTS - 2)] {
            let mut bad = good.clone();
            bad.board.set(output, bad_entry(chance, bad_entry_way(turn, place)));
            scene.split(&bad);
        }
    }
    // The channel's own entry.
    let mut bad = good.clone();
    let output = outputs_of(&good.board, &good.channel)[0];
    bad.board.shares[output] = chance.pick(&[1001, u16::MAX]);
    scene.split(&bad);
    scene.split(&good);
    scene
}

/// The outputs of a board that have this channel.
fn outputs_of(board: &Told, channel: &ToldKey) -> Vec<usize> {
    let key = [&channel.nmi[..], &channel.suffix].concat();
    (0..OUTPUTS).filter(|output| board.keys[output * KEY_LENGTH..][..KEY_LENGTH].eq_ignore_ascii_case(&key)).collect()
}

/// The way in which an entry is bad at this place of a turn.
fn bad_entry_way(turn: u64, place: u64) -> BadEntry {
    BAD_ENTRIES[which(turn.wrapping_mul(BAD_ENTRIES_AT_A_TIME).wrapping_add(place), BAD_ENTRIES.len())]
}

/// The ways in which a key can be bad but for its date alone, which is not told.
fn bad_channels() -> Vec<BadKey> {
    BAD_KEYS.into_iter().filter(|(name, _)| *name != "no date").collect()
}

fn bad_channel_way(turn: u64, place: u64) -> BadKey {
    let ways = bad_channels();
    ways[which(turn.wrapping_mul(BAD_CHANNELS_AT_A_TIME).wrapping_add(place), ways.len())]
}

/// Channels that are on no output, or have no share: ones with an NMI or a suffix that is bad in each way in turn, near
/// to one that is on outputs, and good ones.
fn of_no_channel(chance: &mut Chance, turn: u64) -> Scene {
    let mut scene = Scene::default();
    let outputs = chance.between(1, OUTPUTS - 1);
    let task = Task::over(chance, outputs);
    for place in 0..BAD_CHANNELS_AT_A_TIME {
        let (_, spoil) = bad_channel_way(turn, place);
        let mut bad = task.clone();
        spoil(chance, &mut bad.channel);
        scene.split(&bad);
    }
    // An output that isn't used has these bytes.
    let unused = ToldKey { nmi: vec![0; 10], suffix: vec![0; 2], date: task.channel.date };
    scene.split(&Task { channel: unused, ..task.clone() });
    for total in [task.total, 0] {
        let board = without_channel(&task.board, &task.channel);
        scene.split(&Task { total, board, ..task.clone() });
    }
    for outputs in [1, chance.between(2, OUTPUTS), OUTPUTS] {
        scene.split(&Task::by(chance, &vec![0; outputs]));
    }
    let nobody = Told { keys: vec![0; KEYS_LENGTH], shares: vec![0; OUTPUTS], ..task.board.clone() };
    scene.split(&Task { board: nobody, ..task });
    scene
}

/// A board on which nothing has the channel: another one, that differs in a byte of its key, has its outputs.
fn without_channel(board: &Told, channel: &ToldKey) -> Told {
    let mut other = board.clone();
    for output in outputs_of(board, channel) {
        let byte = &mut other.keys[output * KEY_LENGTH];
        *byte = if *byte == b'7' { b'8' } else { b'7' };
    }
    other
}

/// Splits with several faults at once, so that the order of refusals counts.
fn with_several_faults(chance: &mut Chance) -> Scene {
    let mut scene = Scene::default();
    for _ in 0..12 {
        let mut task = Task::any(chance);
        if chance.one_in(3) {
            task.total = too_large_total(chance);
        }
        if chance.one_in(2) {
            let entry = bad_entry_way(chance.next(), 0);
            task.board.set(chance.place_among(OUTPUTS), bad_entry(chance, entry));
        }
        if chance.one_in(2) {
            task.channel = if chance.one_in(2) { bad_key(chance, &task.channel) } else { ToldKey::any(chance) };
        }
        if chance.one_in(3) {
            task.shorten_lists(chance);
        }
        scene.split(&task);
    }
    scene
}

// --- Days of files ---

/// A scene with a map of these versions, lent, or, if they are few, made and added to.
fn with_map(chance: &mut Chance, versions: &[Version]) -> Scene {
    if versions.len() > MOST_ADDED || chance.one_in(2) {
        let length = MAP_LENGTH + chance.pick(&[0, 0, 0, 1, VERSION_LENGTH]);
        return Scene::on(map_of(chance, versions, length));
    }
    let mut scene = Scene::on(background(chance, MAP_LENGTH));
    scene.make_map(chance);
    for version in versions {
        let told = Told::of(version.first, &version.entries).spelled(chance);
        scene.add(chance, &told);
    }
    scene
}

/// Days of some files, split by a map that mostly has their channels.
fn of_days(chance: &mut Chance) -> Scene {
    let count = chance.between(1, 4);
    let channels = several_channels(chance, count);
    let count = if chance.one_in(10) { MOST_VERSIONS } else { chance.between(1, MOST_ADDED) };
    let versions = versions_for(chance, &channels, count);
    let mut scene = with_map(chance, &versions);
    for _ in 0..chance.between(3, 4) {
        let file = file_of(chance, &channels, &versions);
        for _ in 0..chance.between(2, 3) {
            let day = some_day(chance, &file);
            let parts = if chance.one_in(10) { too_few_parts(chance) } else { some_parts(chance) };
            scene.split_day(day, parts, &file);
        }
    }
    let file = days::edge_file(chance, &channels, &versions);
    scene.split_day(0, OUTPUTS, &file);
    scene
}

/// Files, days, dates and parts of which several may be at fault, so that the order of refusals counts. The memory is a
/// map that begins late, or none. Some files are aimed at each refusal in turn.
fn of_faulty_days(chance: &mut Chance, turn: u64) -> Scene {
    let channels = several_channels(chance, 2);
    let versions = versions_for(chance, &channels[..1], 2);
    let mut scene = match chance.below(4) {
        0 => Scene::on(background(chance, 40)),
        1 => with_map(chance, &[]),
        _ => with_map(chance, &versions),
    };
    for place in 0..14 {
        let file = match chance.below(6) {
            _ if place < AIMED_FILES_AT_A_TIME => refused_file(chance, aim_of_file(turn, place)),
            0 => damaged_file(chance),
            1 => nem13_file(chance),
            _ => file_of(chance, &channels, &versions),
        };
        let day = if chance.one_in(4) { no_such_day(chance, &file) } else { some_day(chance, &file) };
        let parts = if chance.one_in(2) { too_few_parts(chance) } else { OUTPUTS };
        scene.split_day(day, parts, &file);
    }
    scene
}

/// The refusal that the file at this place of a turn is aimed at.
fn aim_of_file(turn: u64, place: u64) -> u64 {
    2 + which(turn.wrapping_mul(AIMED_FILES_AT_A_TIME).wrapping_add(place), 12) as u64
}

/// Days with a memory that is no map, in any way: first with one of few bytes.
fn of_days_without_map(chance: &mut Chance) -> Scene {
    let way = chance.below(map_hand::broken_ways());
    let (_, hand) = map_hand::broken(chance, way);
    let channels = channels_on(chance, &hand.versions);
    let mut scene = Scene::on(some_bytes(chance));
    for place in 0..5 {
        if place == 1 {
            scene.lend(hand.bytes());
        }
        let file = file_of(chance, &channels, &hand.versions);
        let day = some_day(chance, &file);
        let parts = if chance.one_in(3) { too_few_parts(chance) } else { OUTPUTS };
        scene.split_day(day, parts, &file);
    }
    scene
}

/// Days with a memory that is a map only just, in any way.
fn of_days_at_the_edge(chance: &mut Chance) -> Scene {
    let way = chance.below(map_hand::edge_ways());
    let (_, hand) = map_hand::at_the_edge(chance, way);
    let mut scene = Scene::on(hand.bytes());
    let channels = channels_on(chance, &hand.versions);
    for _ in 0..6 {
        let file = file_of(chance, &channels, &hand.versions);
        let day = some_day(chance, &file);
        scene.split_day(day, OUTPUTS, &file);
    }
    scene
}

/// The last day of a file of the largest length, and of one that is a byte longer.
fn of_large_files(chance: &mut Chance) -> Scene {
    let file = files::file_of_length(chance, LONGEST_FILE);
    let content = read_file(&file).expect("an accepted file");
    let (channel, last) = (days::first_channel(&content), content.days.len() - 1);
    let version = version_with(chance, &channel, content.days[last].date);
    let mut scene = with_map(chance, &[version]);
    scene.split_day(last, OUTPUTS, &file);
    let longer = files::file_of_length(chance, LONGEST_FILE + 1);
    scene.split_day(last, OUTPUTS, &longer);
    scene
}

// --- Stored days ---

/// A map of these versions that can be told, mostly without a byte behind it.
fn told_map(chance: &mut Chance, versions: &[Version]) -> Vec<u8> {
    let length = chance.pick(&[MAP_LENGTH, MAP_LENGTH, MAP_LENGTH, MAP_LENGTH + 1, LONGEST_MAP]);
    map_of(chance, versions, length)
}

/// Stored days, split by a map that mostly has their channels. Where no map is looked at, few bytes stand for it.
fn of_stored_days(chance: &mut Chance) -> Scene {
    let count = chance.between(1, 3);
    let channels = several_channels(chance, count);
    let count = chance.between(1, 4);
    let versions = versions_for(chance, &channels, count);
    let keys = stored_near(chance, &channels, &versions);
    let mut scene = with_store(chance, &keys);
    for _ in 0..chance.between(1, 2) {
        let key = keys[chance.below(keys.len())].spelled(chance);
        let map = told_map(chance, &versions);
        let parts = if chance.one_in(8) { too_few_parts(chance) } else { some_parts(chance) };
        scene.split_stored(&key, parts, &map);
    }
    for _ in 0..2 {
        let near = &keys[chance.below(keys.len())];
        let absent = if chance.one_in(2) { near.other(chance) } else { bad_key(chance, near) };
        let no_map = some_bytes(chance);
        scene.split_stored(&absent, OUTPUTS, &no_map);
    }
    scene
}

/// Any few bytes.
fn some_bytes(chance: &mut Chance) -> Vec<u8> {
    let length = chance.pick(&[0, 1, 3, 4, 5, 40, 300]);
    background(chance, length)
}

/// Stored days with maps that are none or begin late, and parts and keys that may be at fault too.
fn of_faulty_stored_days(chance: &mut Chance) -> Scene {
    let channels = several_channels(chance, 2);
    // The second channel is on no output.
    let versions = versions_for(chance, &channels[..1], 2);
    let keys = stored_near(chance, &channels, &versions);
    let mut scene = with_store(chance, &keys);
    for _ in 0..4 {
        let near = &keys[chance.below(keys.len())];
        let key = if chance.one_in(3) { near.other(chance) } else { near.spelled(chance) };
        let parts = if chance.one_in(2) { too_few_parts(chance) } else { OUTPUTS };
        let no_map = some_bytes(chance);
        scene.split_stored(&key, parts, &no_map);
    }
    for _ in 0..2 {
        let parts = if chance.one_in(3) { too_few_parts(chance) } else { OUTPUTS };
        let map = match chance.below(4) {
            0 => {
                let way = chance.below(map_hand::broken_ways());
                map_hand::broken(chance, way).1.bytes()
            }
            1 => told_map(chance, &[]),
            _ => told_map(chance, &versions),
        };
        let key = &keys[chance.below(keys.len())];
        scene.split_stored(key, parts, &map);
    }
    scene
}

/// Calls with memories that are no store, in each way in turn, and with any few bytes for a map.
fn of_days_in_no_store(chance: &mut Chance, turn: u64) -> Scene {
    let mut scene = Scene::default();
    for place in 0..NO_STORES_AT_A_TIME {
        let (memory, held) = store_broken::memory(chance, BROKEN[no_store_way(turn, place)]);
        scene.lend(memory);
        let key = held.first().cloned().unwrap_or_else(|| ToldKey::any(chance));
        let key = if chance.one_in(4) { bad_key(chance, &key) } else { key };
        let parts = if chance.one_in(3) { too_few_parts(chance) } else { OUTPUTS };
        let no_map = some_bytes(chance);
        scene.split_stored(&key, parts, &no_map);
    }
    scene
}

fn no_store_way(turn: u64, place: u64) -> usize {
    which(turn.wrapping_mul(NO_STORES_AT_A_TIME).wrapping_add(place), BROKEN.len())
}

/// A day of a memory that is a store only just, in each way in turn.
fn of_stored_days_at_the_edge(chance: &mut Chance, turn: u64) -> Scene {
    let (memory, held) = store_broken::memory(chance, AT_THE_EDGE[which(turn, AT_THE_EDGE.len())]);
    let mut scene = Scene::on(memory);
    let Some(key) = held.first() else {
        let absent = ToldKey::any(chance);
        scene.split_stored(&absent, OUTPUTS, b"");
        return scene;
    };
    let version = version_with(chance, key, key.date);
    let map = told_map(chance, &[version]);
    scene.split_stored(key, OUTPUTS, &map);
    scene.split_stored(&key.other(chance), OUTPUTS, b"");
    scene
}
