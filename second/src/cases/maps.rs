//! Sequences of calls on tenant maps. Each begins with the memory that it lends, so it depends on the seed and its own
//! number alone. A map has many bytes, so they are asked for behind few calls and at the end of some sequences.

#[cfg(test)]
pub mod called;
#[cfg(test)]
mod conditions;
pub mod hand;
#[cfg(test)]
mod kinds;
#[cfg(test)]
mod plain_list;
mod scene;
pub mod versions;

use super::chance::Chance;
use super::keys::{NO_DATES, OTHER_BYTES};
use super::scene::{background, Scene};
use super::sweep::which;
use super::words::{self, EDGE_DATES, LAST_DATE};
use crate::fields::day_after;
use crate::tenants::layout::{Version, KEY_LENGTH, MAP_LENGTH, MOST_VERSIONS, OUTPUTS, VERSION_LENGTH};
use crate::tenants::KEYS_LENGTH;
use hand::Hand;
use versions::{
    bad_entry, bad_first, day_before, long_lists, next_first, short_lists, used_entry, BadEntry, Told, BAD_ENTRIES,
    LONGEST_KEYS, LONGEST_SHARES,
};

/// Sequences come in rounds of this many.
const ROUND: u64 = 25;
/// So many of a round sweep the ways in which an entry can be bad, so many of these ways at a time.
const BAD_ENTRIES_PER_ROUND: u64 = 2;
const BAD_ENTRIES_AT_A_TIME: u64 = 4;
/// So many sweep the ways in which bytes only just are a map, and those in which they are none.
const AT_THE_EDGE_PER_ROUND: u64 = 2;
const BROKEN_PER_ROUND: u64 = 6;
/// The place in a round from which on the bytes are no map.
const FIRST_BROKEN: u64 = ROUND - BROKEN_PER_ROUND;

/// The cases of one sequence.
pub fn sequence(seed: u64, number: u64) -> Vec<Vec<u8>> {
    let chance = &mut Chance::for_map_sequence(seed, number);
    let round = number / ROUND;
    // Which one of a sweep: another seed begins elsewhere.
    let swept = |per_round: u64, place: u64| seed.wrapping_add(round * per_round + place);
    let scene = match number % ROUND {
        0..=3 => life(chance),
        4..=5 => filled(chance),
        6..=8 => with_several_faults(chance),
        9..=10 => making(chance),
        place @ 11..=12 => with_bad_entries(chance, swept(BAD_ENTRIES_PER_ROUND, place - 11)),
        13 => with_bad_bytes(chance),
        14 => on_edge_dates(chance),
        15 => of_equal_dates(chance),
        16 => in_lent_map(chance),
        place @ 17..=18 => at_the_edge(chance, swept(AT_THE_EDGE_PER_ROUND, place - 17)),
        place => in_no_map(chance, swept(BROKEN_PER_ROUND, place - FIRST_BROKEN)),
    };
    // Of bytes that are lent as no map little is changed.
    let ends_with_bytes = chance.one_in(if number % ROUND < FIRST_BROKEN { 3 } else { 6 });
    if ends_with_bytes {
        scene.end()
    } else {
        scene.cases
    }
}

// --- Single calls ---

/// The first date of the last version.
fn last_first(scene: &Scene) -> Option<u32> {
    scene.versions().last().map(|version| version.first)
}

/// Any call, mostly one that can be accepted.
fn some_call(chance: &mut Chance, scene: &mut Scene) {
    match chance.below(30) {
        0..=8 => some_add(chance, scene),
        9..=16 => some_back(chance, scene),
        17..=28 => some_question(chance, scene),
        _ => scene.make_map(chance),
    }
}

/// An adding that is accepted by a map that is not full.
fn good_add(chance: &mut Chance, scene: &mut Scene) {
    let first = next_first(chance, last_first(scene));
    let told = Told::any(chance, first);
    scene.add(chance, &told);
}

/// A going back that is accepted by a map that has versions and is not full.
fn good_back(chance: &mut Chance, scene: &mut Scene) {
    let version = some_version(chance, scene);
    let first = next_first(chance, last_first(scene));
    scene.back(chance, version, first);
}

/// A question that mostly is accepted by a map that has versions.
fn good_question(chance: &mut Chance, scene: &mut Scene) {
    let date = date_near(chance, &scene.versions());
    scene.ask(date, KEYS_LENGTH, OUTPUTS);
}

/// An adding that mostly can be accepted.
fn some_add(chance: &mut Chance, scene: &mut Scene) {
    let last = last_first(scene);
    let first = next_first(chance, last);
    let mut told = Told::any(chance, first);
    match chance.below(16) {
        0 => told.first = bad_first(chance, last),
        1 => spoil_some_entry(chance, &mut told),
        2 => told.shorten_lists(chance),
        3..=5 => told.lengthen_lists(chance),
        _ => (),
    }
    scene.add(chance, &told);
}

fn spoil_some_entry(chance: &mut Chance, told: &mut Told) {
    let way = chance.pick(&BAD_ENTRIES);
    let entry = bad_entry(chance, way);
    told.set(chance.place_among(OUTPUTS), entry);
}

/// A going back to a version that there is, mostly, under a first date that may stand.
fn some_back(chance: &mut Chance, scene: &mut Scene) {
    let last = last_first(scene);
    let version = if chance.one_in(6) { no_version(chance, scene) } else { some_version(chance, scene) };
    let first = if chance.one_in(8) { bad_first(chance, last) } else { next_first(chance, last) };
    scene.back(chance, version, first);
}

/// The number of a version, the first or the last more often than others. Where there is none, it is 1.
fn some_version(chance: &mut Chance, scene: &Scene) -> usize {
    1 + chance.place_among(scene.versions().len().max(1))
}

/// A number that no version has, be it that a part of its bits is one that a version has.
fn no_version(chance: &mut Chance, scene: &Scene) -> usize {
    let count = scene.versions().len();
    chance.pick(&[0, 0, count + 1, count + 1, count + 2, MOST_VERSIONS + 1, 256 + count, (1 << 32) + 1, usize::MAX])
}

/// A question with lists that mostly are long enough.
fn some_question(chance: &mut Chance, scene: &mut Scene) {
    let date = match chance.below(8) {
        0 => no_version_date(chance, scene),
        1 => words::date(chance),
        _ => date_near(chance, &scene.versions()),
    };
    let (key_bytes, shares) = match chance.below(8) {
        0 => short_lists(chance),
        1 => long_lists(chance),
        _ => (KEYS_LENGTH, OUTPUTS),
    };
    scene.ask(date, key_bytes, shares);
}

/// The first date of a version, the date before it or the one behind it. Where there are none, any date.
pub fn date_near(chance: &mut Chance, versions: &[Version]) -> u32 {
    if versions.is_empty() {
        return words::date(chance);
    }
    let first = versions[chance.place_among(versions.len())].first;
    match chance.below(4) {
        0 => day_before(first).unwrap_or(first),
        1 => day_after(first).min(LAST_DATE),
        _ => first,
    }
}

/// A date that is none, or, if there is one, one before the first version.
fn no_version_date(chance: &mut Chance, scene: &Scene) -> u32 {
    let before = scene.versions().first().and_then(|version| day_before(version.first));
    match before {
        Some(date) if chance.one_in(2) => date,
        _ => chance.pick(&NO_DATES),
    }
}

// --- Made maps ---

/// A memory of which a map can be made, by chance longer than it need be.
fn memory(chance: &mut Chance) -> Vec<u8> {
    let length = MAP_LENGTH + chance.pick(&[0, 0, 0, 0, 0, 0, 1, 100, VERSION_LENGTH]);
    background(chance, length)
}

/// A scene with a map that was just made.
fn made(chance: &mut Chance) -> Scene {
    let mut scene = Scene::on(memory(chance));
    scene.make_map(chance);
    scene
}

/// Any calls on a map that was made.
fn life(chance: &mut Chance) -> Scene {
    let mut scene = made(chance);
    for _ in 0..chance.between(1, 2) {
        good_add(chance, &mut scene);
    }
    for _ in 0..chance.between(5, 12) {
        some_call(chance, &mut scene);
    }
    scene
}

/// Goes back, to any versions that there are, till there are so many.
fn fill_by_going_back(chance: &mut Chance, scene: &mut Scene, count: usize) {
    while scene.versions().len() < count {
        good_back(chance, scene);
    }
}

/// A map that is made full, by a last adding or a last going back, and calls on it then.
fn filled(chance: &mut Chance) -> Scene {
    let mut scene = made(chance);
    for _ in 0..chance.between(1, 3) {
        good_add(chance, &mut scene);
    }
    fill_by_going_back(chance, &mut scene, MOST_VERSIONS - 1);
    // The number that the next version will have is none yet.
    let first = next_first(chance, last_first(&scene));
    scene.back(chance, MOST_VERSIONS, first);
    if chance.one_in(2) {
        good_add(chance, &mut scene);
    }
    fill_by_going_back(chance, &mut scene, MOST_VERSIONS);
    good_add(chance, &mut scene);
    let last = last_first(&scene);
    for version in [1, MOST_VERSIONS, MOST_VERSIONS + 1] {
        let first = if chance.one_in(2) { next_first(chance, last) } else { bad_first(chance, last) };
        scene.back(chance, version, first);
    }
    scene.ask(LAST_DATE, KEYS_LENGTH, OUTPUTS);
    for _ in 0..3 {
        some_question(chance, &mut scene);
    }
    if chance.one_in(3) {
        // What it held is gone then.
        scene.make_map(chance);
        scene.ask(LAST_DATE, KEYS_LENGTH, OUTPUTS);
        good_add(chance, &mut scene);
    }
    scene
}

/// Calls with several faults at once, so that the order of refusals counts, mostly on a full map.
fn with_several_faults(chance: &mut Chance) -> Scene {
    let fewest = if chance.one_in(3) { 0 } else { MOST_VERSIONS };
    let mut scene = Scene::on(Hand::any(chance, fewest, MOST_VERSIONS).bytes());
    for _ in 0..6 {
        faulty_add(chance, &mut scene);
    }
    for _ in 0..6 {
        faulty_back(chance, &mut scene);
    }
    for _ in 0..3 {
        faulty_question(chance, &mut scene);
    }
    scene
}

fn faulty_add(chance: &mut Chance, scene: &mut Scene) {
    let last = last_first(scene);
    let first = if chance.one_in(2) { bad_first(chance, last) } else { next_first(chance, last) };
    let mut told = Told::any(chance, first);
    if chance.one_in(2) {
        spoil_some_entry(chance, &mut told);
    }
    if chance.one_in(3) {
        told.shorten_lists(chance);
    }
    scene.add(chance, &told);
}

fn faulty_back(chance: &mut Chance, scene: &mut Scene) {
    let last = last_first(scene);
    let version = if chance.one_in(2) { no_version(chance, scene) } else { some_version(chance, scene) };
    let first = if chance.one_in(2) { bad_first(chance, last) } else { next_first(chance, last) };
    scene.back(chance, version, first);
}

fn faulty_question(chance: &mut Chance, scene: &mut Scene) {
    let date = if chance.one_in(2) { no_version_date(chance, scene) } else { date_near(chance, &scene.versions()) };
    let (key_bytes, shares) = short_lists(chance);
    scene.ask(date, key_bytes, shares);
}

/// A making in a memory that is just long enough, longer or too short, with calls before it and behind it.
fn making(chance: &mut Chance) -> Scene {
    let length = match chance.below(8) {
        0 => 0,
        1 => chance.pick(&[1, 3, 4, 5, 4 + VERSION_LENGTH]),
        2 => chance.between(6, 3_000),
        3..=4 => MAP_LENGTH - 1,
        5..=6 => MAP_LENGTH,
        _ => MAP_LENGTH + chance.pick(&[1, 2, VERSION_LENGTH]),
    };
    let mut scene = Scene::on(background(chance, length));
    each_call(chance, &mut scene);
    scene.make_map(chance);
    each_call(chance, &mut scene);
    scene.make_map(chance);
    scene.ask(LAST_DATE, KEYS_LENGTH, OUTPUTS);
    scene
}

/// Addings with an entry that is bad in each way in turn, at the first output, the last and another, and one without.
fn with_bad_entries(chance: &mut Chance, turn: u64) -> Scene {
    let mut scene = made(chance);
    good_add(chance, &mut scene);
    let first = next_first(chance, last_first(&scene));
    let good = Told::any(chance, first);
    for place in 0..BAD_ENTRIES_AT_A_TIME {
        for output in [0, OUTPUTS - 1, chance.between(1, OUTPUTS - 2)] {
            let mut bad = good.clone();
            bad.set(output, bad_entry(chance, swept_way(turn, place)));
            scene.add(chance, &bad);
        }
    }
    let mut longer = good;
    longer.lengthen_lists(chance);
    scene.add(chance, &longer);
    scene.ask(first, KEYS_LENGTH, OUTPUTS);
    scene
}

/// The way in which an entry is bad at this place of a turn.
fn swept_way(turn: u64, place: u64) -> BadEntry {
    let number = turn.wrapping_mul(BAD_ENTRIES_AT_A_TIME).wrapping_add(place);
    BAD_ENTRIES[which(number, BAD_ENTRIES.len())]
}

/// Addings with a key in which one byte is no letter or digit, at each of its places.
fn with_bad_bytes(chance: &mut Chance) -> Scene {
    let mut scene = made(chance);
    let first = words::date(chance);
    let good = Told::any(chance, first);
    let output = chance.place_among(OUTPUTS);
    for place in 0..KEY_LENGTH {
        let mut entry = used_entry(chance);
        entry.key[place] = chance.pick(OTHER_BYTES);
        let mut bad = good.clone();
        bad.set(output, entry);
        scene.add(chance, &bad);
    }
    scene.add(chance, &good);
    scene
}

/// Versions under dates at the edges of the calendar, and under dates that are none, and questions on them.
fn on_edge_dates(chance: &mut Chance) -> Scene {
    let mut scene = made(chance);
    let told = Told::any(chance, EDGE_DATES[0]);
    for first in NO_DATES {
        if chance.one_in(6) {
            scene.add(chance, &Told { first, ..told.clone() });
        }
    }
    scene.add(chance, &told);
    for first in EDGE_DATES {
        scene.back(chance, 1, first);
        let none = chance.pick(&NO_DATES);
        scene.back(chance, 1, none);
    }
    for date in NO_DATES {
        scene.ask(date, KEYS_LENGTH, OUTPUTS);
    }
    for _ in 0..6 {
        let date = chance.pick(&EDGE_DATES);
        scene.ask(date, KEYS_LENGTH, OUTPUTS);
    }
    scene
}

/// Several versions of one first date, of which the highest answers, and questions on each date about them.
fn of_equal_dates(chance: &mut Chance) -> Scene {
    let mut scene = made(chance);
    let first = words::date(chance);
    scene.ask(first, KEYS_LENGTH, OUTPUTS);
    for first in words::rising_dates_from(chance, first, 3) {
        let told = Told::any(chance, first);
        scene.add(chance, &told);
        for _ in 0..chance.below(3) {
            let version = some_version(chance, &scene);
            scene.back(chance, version, first);
        }
        // Till the next one is added it answers every later date.
        scene.ask(LAST_DATE, KEYS_LENGTH, OUTPUTS);
    }
    let mut firsts: Vec<u32> = scene.versions().iter().map(|version| version.first).collect();
    firsts.dedup();
    for first in firsts {
        for date in [day_before(first), Some(first), words::next_date(first)].into_iter().flatten() {
            let (key_bytes, shares) = if chance.one_in(4) { long_lists(chance) } else { (KEYS_LENGTH, OUTPUTS) };
            scene.ask(date, key_bytes, shares);
        }
    }
    scene.ask(first, LONGEST_KEYS, LONGEST_SHARES);
    scene
}

// --- Lent maps ---

/// Any calls on a map that was made by hand.
fn in_lent_map(chance: &mut Chance) -> Scene {
    let mut scene = Scene::on(Hand::any(chance, 0, MOST_VERSIONS).bytes());
    for _ in 0..chance.between(5, 10) {
        some_call(chance, &mut scene);
    }
    scene
}

/// An adding, a going back and a question, in any order, now and then with faults of their own.
fn each_call(chance: &mut Chance, scene: &mut Scene) {
    let mut calls: [fn(&mut Chance, &mut Scene); 3] = [good_add, good_back, good_question];
    if chance.one_in(3) {
        calls = [faulty_add, faulty_back, faulty_question];
    }
    chance.shuffle(&mut calls);
    for call in calls {
        call(chance, scene);
    }
}

/// Calls of each kind on bytes that are a map only just, in each way in turn.
fn at_the_edge(chance: &mut Chance, turn: u64) -> Scene {
    let (_, hand) = hand::at_the_edge(chance, which(turn, hand::edge_ways()));
    let mut scene = Scene::on(hand.bytes());
    good_question(chance, &mut scene);
    each_call(chance, &mut scene);
    scene
}

/// Calls of each kind on bytes that are no map, in each way in turn. The last makes a map of them, if they are enough.
fn in_no_map(chance: &mut Chance, turn: u64) -> Scene {
    let (_, hand) = hand::broken(chance, which(turn, hand::broken_ways()));
    let mut scene = Scene::on(hand.bytes());
    each_call(chance, &mut scene);
    scene.make_map(chance);
    if chance.one_in(4) {
        each_call(chance, &mut scene);
    }
    scene
}
