//! Sequences of calls on stores. Each begins with the memory that it lends, so it depends on the seed and its own number
//! alone, and it asks for the bytes of the memory behind calls that change them and at its end.

pub mod broken;
#[cfg(test)]
pub mod called;
#[cfg(test)]
mod conditions;
pub mod days;
pub mod hand;
#[cfg(test)]
mod kinds;
#[cfg(test)]
mod plain_map;
mod scene;

use super::chance::Chance;
use super::files;
use super::keys::{bad_key, ToldKey, BAD_KEYS};
use super::scene::{background, Scene};
use super::sweep::which;
use super::writes::{self, Draft};
use crate::store::layout::{HEADER_LENGTH, MOST_SLOTS, SLOT_LENGTH};
use broken::{AT_THE_EDGE, BROKEN};
use days::{update_than, Than};
use hand::Plan;

/// Sequences come in rounds of this many.
pub const ROUND: u64 = 40;
/// So many of a round sweep the ways in which a key can be bad, those in which bytes can be no store, and those in which
/// they only just are one.
pub const BAD_KEYS_PER_ROUND: u64 = 3;
pub const BROKEN_PER_ROUND: u64 = 7;
pub const AT_THE_EDGE_PER_ROUND: u64 = 3;

/// The sequences with these numbers are large ones, each of its own kind. They stand where no sweep has a turn.
pub const LARGE: [u64; 3] = [121, 322, 523];

/// The longest room that is made.
const LONGEST_ROOM: usize = 1_048_576;
/// The longest memory that the probe takes.
const LONGEST_MEMORY: usize = 1_200_000;
/// The most places that the probe lends in a list.
const LONGEST_LIST: usize = 300;

/// The cases of one sequence.
pub fn sequence(seed: u64, number: u64) -> Vec<Vec<u8>> {
    let chance = &mut Chance::for_sequence(seed, number);
    if let Some(which) = LARGE.iter().position(|large| *large == number) {
        return large(chance, which).end();
    }
    let round = number / ROUND;
    // Which one of a sweep: another seed begins elsewhere.
    let swept = |per_round: u64, place: u64| seed.wrapping_add(round * per_round + place);
    let scene = match number % ROUND {
        // Before the first of all sequences no memory was lent.
        0 if number == 0 => without_memory(chance),
        0..=8 => life(chance),
        9..=10 => filled(chance),
        11..=13 => tight(chance),
        14..=15 => tight_replacement(chance),
        16..=18 => with_several_faults(chance),
        19..=20 => making(chance),
        21 => in_any_case(chance),
        22..=23 => in_lent_store(chance),
        24..=25 => over_holes(chance),
        26 => in_wide_store(chance),
        place @ 27..=29 => with_bad_key(chance, swept(BAD_KEYS_PER_ROUND, place - 27)),
        place @ 30..=32 => at_the_edge(chance, swept(AT_THE_EDGE_PER_ROUND, place - 30)),
        place => in_no_store(chance, swept(BROKEN_PER_ROUND, place - 33)),
    };
    scene.end()
}

// --- Single calls ---

/// The update time of a day that is held, and how many intervals it has.
fn held(scene: &Scene, key: &ToldKey) -> Option<(u64, usize)> {
    let store = scene.store()?;
    let held = store.day_of(&key.key()?)?;
    Some((held.day.update, held.day.values.len()))
}

/// Any call, mostly one that can be accepted.
fn some_call(chance: &mut Chance, scene: &mut Scene, keys: &[ToldKey]) {
    let key = &keys[chance.below(keys.len())];
    match chance.below(20) {
        0..=8 => some_put(chance, scene, key),
        9..=12 => {
            let key = mostly_held(chance, scene, keys);
            some_get(chance, scene, &key);
        }
        13..=15 => {
            let key = mostly_held(chance, scene, keys).spelled(chance);
            scene.delete(chance, &key);
        }
        16..=18 => some_slot(chance, scene),
        _ => call_with_bad_key(chance, scene, key),
    }
}

/// One of the keys, mostly one that is held.
fn mostly_held(chance: &mut Chance, scene: &Scene, keys: &[ToldKey]) -> ToldKey {
    let held: Vec<&ToldKey> = keys.iter().filter(|key| held(scene, key).is_some()).collect();
    if held.is_empty() || chance.one_in(4) {
        keys[chance.below(keys.len())].clone()
    } else {
        held[chance.below(held.len())].clone()
    }
}

/// A put of a new day, or mostly of a later one for the day that is held.
fn some_put(chance: &mut Chance, scene: &mut Scene, key: &ToldKey) {
    let mut day = days::day(chance, key.date);
    let than = chance.pick(&[Than::Later, Than::Later, Than::Later, Than::Equal, Than::Earlier]);
    set_update(chance, scene, key, &mut day, than);
    match chance.below(24) {
        0..=2 => spoil(chance, &mut day),
        3..=4 => writes::lengthen_lists(chance, &mut day),
        _ => (),
    }
    let key = key.spelled(chance);
    scene.put(chance, &key, &day);
}

/// Lets a day's update time stand so to that of the day that is held, if there is one.
fn set_update(chance: &mut Chance, scene: &Scene, key: &ToldKey, day: &mut Draft, than: Than) {
    if let Some((update, _)) = held(scene, key) {
        day.head.update = update_than(chance, than, update);
    }
}

/// Makes a day unfit, or one of its lists too short.
fn spoil(chance: &mut Chance, day: &mut Draft) {
    match chance.below(6) {
        0 => writes::spoil_interval_length(chance, day),
        1..=2 => writes::shorten_list(chance, day),
        3 => writes::spoil_head(chance, day),
        _ => writes::spoil_interval(chance, day),
    }
}

/// A get of a day, held or not, with lists that mostly are long enough.
fn some_get(chance: &mut Chance, scene: &mut Scene, key: &ToldKey) {
    let n = held(scene, key).map_or(48, |(_, n)| n);
    let places = match chance.below(10) {
        0 => n - 1,
        1 => chance.pick(&[0, 1, 47, 48, 95, 96, 287]),
        2 => chance.between(n, LONGEST_LIST),
        _ => n,
    };
    let key = key.spelled(chance);
    scene.get(&key, places);
}

/// A slot that there is, mostly, or one past the last.
fn some_slot(chance: &mut Chance, scene: &mut Scene) {
    let slots = scene.store().map_or(1, |store| store.header.slots as usize);
    let slot = match chance.below(8) {
        0 => slots,
        1 => chance.pick(&[slots + 1, 63, 64, 65, 255, 256, usize::MAX - 1, usize::MAX]),
        _ => chance.place_among(slots),
    };
    scene.slot(slot);
}

fn call_with_bad_key(chance: &mut Chance, scene: &mut Scene, key: &ToldKey) {
    let bad = bad_key(chance, key);
    match chance.below(3) {
        0 => {
            let day = days::day(chance, bad.date);
            scene.put(chance, &bad, &day);
        }
        1 => scene.get(&bad, 48),
        _ => scene.delete(chance, &bad),
    }
}

// --- Made stores ---

/// A memory of which `make` makes a store with so many slots and so much room.
fn memory_for(chance: &mut Chance, slots: usize, room: usize) -> Vec<u8> {
    background(chance, HEADER_LENGTH + slots * SLOT_LENGTH + room)
}

/// A scene with a store that was just made.
fn made(chance: &mut Chance, slots: usize, room: usize) -> Scene {
    let mut scene = Scene::on(memory_for(chance, slots, room));
    scene.make(chance, slots as u32);
    scene
}

fn some_slots(chance: &mut Chance) -> usize {
    match chance.below(12) {
        0 => chance.pick(&[7, 8, 9, 63, 64]),
        _ => chance.between(1, 6),
    }
}

/// Any calls on a store that was made. Its room takes about as many days as it has slots, or fewer, or more.
fn life(chance: &mut Chance) -> Scene {
    let slots = some_slots(chance);
    let days = slots.min(6) * chance.between(1, 3) / 2;
    let room = days * chance.between(150, 300) + chance.below(100);
    let mut scene = made(chance, slots, room);
    let count = chance.between(2, slots.min(6) + 2);
    let keys = ToldKey::several(chance, count);
    for key in &keys[..chance.between(1, 2)] {
        some_put(chance, &mut scene, key);
    }
    for _ in 0..chance.between(3, 8) {
        some_call(chance, &mut scene, &keys);
    }
    if chance.one_in(8) {
        // Over what is held, with as many slots or others.
        let slots = some_slots(chance);
        scene.make(chance, slots as u32);
        some_call(chance, &mut scene, &keys);
    }
    scene
}

/// Calls before any memory was lent, and then a store that is made.
fn without_memory(chance: &mut Chance) -> Scene {
    let mut scene = Scene::default();
    scene.bytes();
    let key = ToldKey::any(chance);
    scene.get(&key, 48);
    scene.delete(chance, &key);
    scene.slot(0);
    let day = days::shortest_day(chance, key.date);
    scene.put(chance, &key, &day);
    for slots in [0, 1, 64, 65] {
        scene.make(chance, slots);
    }
    scene.lend(memory_for(chance, 2, 500));
    scene.make(chance, 2);
    scene.put(chance, &key, &day);
    scene
}

/// A store with room enough in which every slot is used: a new key has no slot then, but a known one has, and so has a
/// new one behind a delete.
fn filled(chance: &mut Chance) -> Scene {
    let slots = chance.between(1, 4);
    let mut scene = made(chance, slots, slots * 400 + 800);
    let keys = ToldKey::several(chance, slots + 2);
    for key in &keys[..slots] {
        let day = days::shortest_day(chance, key.date);
        scene.put(chance, key, &day);
    }
    let new = days::day(chance, keys[slots].date);
    scene.put(chance, &keys[slots], &new);
    let known = chance.below(slots);
    some_put(chance, &mut scene, &keys[known]);
    let deleted = chance.below(slots);
    scene.delete(chance, &keys[deleted]);
    scene.put(chance, &keys[slots], &new);
    scene.slot(deleted);
    some_put(chance, &mut scene, &keys[slots + 1]);
    some_get(chance, &mut scene, &keys[slots]);
    scene
}

/// Days for these keys, and what their blocks come to.
fn days_for(chance: &mut Chance, keys: &[ToldKey]) -> (Vec<Draft>, usize) {
    let make = if chance.one_in(2) { days::shortest_day } else { days::day };
    let days: Vec<Draft> = keys.iter().map(|key| make(chance, key.date)).collect();
    let bytes = days.iter().map(block_length).sum();
    (days, bytes)
}

fn block_length(day: &Draft) -> usize {
    day.block().expect("a fit day").len()
}

/// A store whose room just takes some days, or is a byte too short for the last.
fn tight(chance: &mut Chance) -> Scene {
    let count = chance.between(1, 3);
    let keys = ToldKey::several(chance, count + 1);
    let (days, bytes) = days_for(chance, &keys);
    let (last_key, last_day) = (&keys[count], &days[count]);
    let room = bytes - block_length(&days[0]) - chance.below(2);
    let slots = count + chance.below(2);
    let mut scene = made(chance, slots, room);
    for (key, day) in keys.iter().zip(&days).skip(1) {
        scene.put(chance, key, day);
    }
    // There is no room for a further day, and by chance no slot.
    scene.put(chance, &keys[0], &days[0]);
    let deleted = chance.between(1, (count - 1).max(1));
    scene.delete(chance, &keys[deleted]);
    scene.put(chance, last_key, last_day);
    scene.put(chance, &keys[0], &days[0]);
    some_get(chance, &mut scene, last_key);
    scene
}

/// A store whose room takes a later and longer day only because the bytes of the one that it replaces are left out, or
/// is a byte too short for that.
fn tight_replacement(chance: &mut Chance) -> Scene {
    let count = chance.between(1, 3);
    let keys = ToldKey::several(chance, count);
    let days: Vec<Draft> = keys.iter().map(|key| days::shortest_day(chance, key.date)).collect();
    let bytes: usize = days.iter().map(block_length).sum();
    let replaced = chance.place_among(count);
    let mut longer = days::longer_day(chance, &days[replaced]);
    longer.head.update = update_than(chance, Than::Later, longer.head.update);
    let room = bytes - block_length(&days[replaced]) + block_length(&longer) - chance.below(2);
    let slots = count + chance.below(2);
    let mut scene = made(chance, slots, room);
    for (key, day) in keys.iter().zip(&days) {
        scene.put(chance, key, day);
    }
    let key = keys[replaced].spelled(chance);
    scene.put(chance, &key, &longer);
    scene.put(chance, &key, &longer);
    for key in &keys {
        some_get(chance, &mut scene, key);
    }
    scene
}

/// Puts with several faults at once, so that the order of refusals counts, in a store that has no free slot and no room
/// left.
fn with_several_faults(chance: &mut Chance) -> Scene {
    let slots = chance.between(1, 3);
    let keys = ToldKey::several(chance, slots + 1);
    let days: Vec<Draft> = keys.iter().map(|key| days::shortest_day(chance, key.date)).collect();
    let room = days[..slots].iter().map(block_length).sum();
    let mut scene = made(chance, slots, room);
    for (key, day) in keys.iter().zip(&days[..slots]) {
        scene.put(chance, key, day);
    }
    for _ in 0..chance.between(4, 6) {
        let which = chance.below(slots + 1);
        let key = if chance.one_in(4) { bad_key(chance, &keys[which]) } else { keys[which].spelled(chance) };
        let mut day = if chance.one_in(3) { days[which].clone() } else { days::longer_day(chance, &days[which]) };
        let than = chance.pick(&[Than::Later, Than::Later, Than::Equal, Than::Earlier]);
        set_update(chance, &scene, &keys[which], &mut day, than);
        if chance.one_in(2) {
            writes::spoil_by_several_faults(chance, &mut day);
        }
        scene.put(chance, &key, &day);
    }
    // Two at once of a get and of a slot.
    scene.get(&keys[slots], chance.pick(&[0, 47]));
    scene.slot(chance.pick(&[slots, usize::MAX]));
    scene
}

/// Slot counts that no store has.
const NO_SLOT_COUNTS: [u32; 8] = [0, 65, 66, 128, 256, 65_536, u32::MAX - 63, u32::MAX];

/// Makings in memories that are just long enough or too short, and of slot counts that are none. Then a few calls, be it
/// a store or not.
fn making(chance: &mut Chance) -> Scene {
    let slots = chance.pick(&[1, 2, 3, 5, 64]);
    let enough = HEADER_LENGTH + slots * SLOT_LENGTH;
    let length = match chance.below(8) {
        0 => 0,
        1 => chance.pick(&[31, 32, 33, 57, 58]),
        2..=3 => enough - 1,
        4 => enough - chance.between(2, SLOT_LENGTH),
        5 => enough,
        6 => enough + 1,
        _ => enough + chance.between(100, 400),
    };
    let mut scene = Scene::on(background(chance, length));
    let keys = ToldKey::several(chance, 2);
    for _ in 0..2 {
        some_call(chance, &mut scene, &keys);
    }
    let no_count = chance.pick(&NO_SLOT_COUNTS);
    scene.make(chance, no_count);
    scene.make(chance, slots as u32);
    for _ in 0..3 {
        some_call(chance, &mut scene, &keys);
    }
    let no_count = chance.pick(&NO_SLOT_COUNTS);
    scene.make(chance, no_count);
    scene
}

/// One key in letters of either case: all calls mean the same day.
fn in_any_case(chance: &mut Chance) -> Scene {
    let slots = chance.between(1, 3);
    let mut scene = made(chance, slots, 1_000);
    let key = ToldKey::any(chance);
    let small = ToldKey { nmi: key.nmi.to_ascii_lowercase(), suffix: key.suffix.to_ascii_lowercase(), date: key.date };
    let mut spellings = [key.clone(), small, key.spelled(chance)];
    chance.shuffle(&mut spellings);
    let mut day = days::day(chance, key.date);
    scene.put(chance, &spellings[0], &day);
    scene.put(chance, &spellings[1], &day);
    set_update(chance, &scene, &key, &mut day, Than::Later);
    scene.put(chance, &spellings[1], &day);
    scene.get(&spellings[2], LONGEST_LIST);
    scene.slot(0);
    scene.delete(chance, &spellings[2]);
    scene.get(&spellings[0], LONGEST_LIST);
    scene.delete(chance, &spellings[1]);
    scene
}

/// Calls with a key that is bad in each way in turn, near to one that is held.
fn with_bad_key(chance: &mut Chance, turn: u64) -> Scene {
    let mut scene = made(chance, 2, 900);
    let key = ToldKey::any(chance);
    let day = days::shortest_day(chance, key.date);
    scene.put(chance, &key, &day);
    let (_, make_bad) = BAD_KEYS[which(turn, BAD_KEYS.len())];
    let mut bad = key.clone();
    make_bad(chance, &mut bad);
    let mut later = days::shortest_day(chance, key.date);
    set_update(chance, &scene, &key, &mut later, Than::Later);
    scene.put(chance, &bad, &later);
    if chance.one_in(2) {
        spoil(chance, &mut later);
        scene.put(chance, &bad, &later);
    }
    scene.get(&bad, chance.pick(&[48, 48, 0]));
    scene.delete(chance, &bad);
    scene.get(&key, 48);
    scene
}

// --- Lent stores ---

/// Keys to call a store with: those that it holds, and some others.
fn keys_near(chance: &mut Chance, held: &[ToldKey]) -> Vec<ToldKey> {
    let mut keys = if held.is_empty() { vec![ToldKey::any(chance)] } else { held.to_vec() };
    for _ in 0..2 {
        let near = chance.below(keys.len());
        keys.push(keys[near].other(chance));
    }
    keys
}

/// Any calls on a store that was made by hand.
fn in_lent_store(chance: &mut Chance) -> Scene {
    let plan = Plan::any(chance, 0);
    let mut scene = Scene::on(plan.lay(chance).bytes());
    let keys = keys_near(chance, &plan.keys());
    for _ in 0..chance.between(4, 9) {
        some_call(chance, &mut scene, &keys);
    }
    scene
}

/// A put into a store with holes. Its room takes the new day only when the blocks move down over them, or is a byte too
/// short even then.
fn over_holes(chance: &mut Chance) -> Scene {
    let mut plan = Plan::any(chance, 1);
    plan.slots += 1;
    for day in &mut plan.days {
        day.hole = chance.between(0, 20);
    }
    plan.last_hole = chance.between(1, 9);
    let keys = keys_near(chance, &plan.keys());
    // A day that is held is replaced, or a new one put.
    let replaced = chance.one_in(2).then(|| chance.place_among(plan.days.len()));
    let key = replaced.map_or(&keys[plan.days.len()], |place| &keys[place]);
    let old_length = replaced.map_or(0, |place| plan.days[place].block.len());
    let short = days::shortest_day(chance, key.date);
    let mut day = days::longer_day(chance, &short);
    let length = plan.live_bytes() - old_length + block_length(&day) - chance.below(2);
    plan.free = length.saturating_sub(plan.used_bytes());
    let mut scene = Scene::on(plan.lay(chance).bytes());
    set_update(chance, &scene, key, &mut day, Than::Later);
    scene.put(chance, key, &day);
    for _ in 0..3 {
        some_call(chance, &mut scene, &keys);
    }
    scene
}

/// A store of 64 slots, of which few or none are free.
fn in_wide_store(chance: &mut Chance) -> Scene {
    let slots = MOST_SLOTS as usize;
    let mut plan = Plan::of(chance, slots, 0);
    let held = slots - chance.pick(&[0, 0, 1, 1, 2]);
    let keys = ToldKey::several(chance, held + 2);
    plan.hold(chance, &keys[..held]);
    if held < slots && chance.one_in(2) {
        plan.set_free(slots - 1);
    }
    plan.free += chance.pick(&[0, 150, 300]);
    let mut scene = Scene::on(plan.lay(chance).bytes());
    let near = &keys[held - 4..];
    for key in &near[4..] {
        let day = days::shortest_day(chance, key.date);
        scene.put(chance, key, &day);
    }
    for _ in 0..3 {
        some_call(chance, &mut scene, near);
    }
    scene.slot(slots - 1);
    scene
}

/// Calls of each kind on bytes that are a store only just, in each way in turn.
fn at_the_edge(chance: &mut Chance, turn: u64) -> Scene {
    let (memory, held) = broken::memory(chance, AT_THE_EDGE[which(turn, AT_THE_EDGE.len())]);
    let mut scene = Scene::on(memory);
    each_call(chance, &mut scene, &held);
    let keys = keys_near(chance, &held);
    for _ in 0..chance.between(0, 3) {
        some_call(chance, &mut scene, &keys);
    }
    scene
}

/// Calls of each kind on bytes that are no store, in each way in turn. By chance a store is made of them then.
fn in_no_store(chance: &mut Chance, turn: u64) -> Scene {
    let (memory, held) = broken::memory(chance, BROKEN[which(turn, BROKEN.len())]);
    let mut scene = Scene::on(memory);
    each_call(chance, &mut scene, &held);
    if chance.one_in(4) {
        scene.bytes();
        let slots = chance.between(1, 3) as u32;
        scene.make(chance, slots);
        let keys = keys_near(chance, &held);
        some_call(chance, &mut scene, &keys);
    }
    scene
}

/// A get, a slot, a put and a delete, in any order, mostly such as the days that are held would take.
fn each_call(chance: &mut Chance, scene: &mut Scene, held: &[ToldKey]) {
    let keys = keys_near(chance, held);
    let some_key = |chance: &mut Chance| keys[if chance.one_in(3) { chance.below(keys.len()) } else { 0 }].clone();
    let mut calls = [0, 1, 2, 3];
    chance.shuffle(&mut calls);
    for call in calls {
        let key = some_key(chance);
        match call {
            0 => some_get(chance, scene, &key),
            1 => some_slot(chance, scene),
            2 => some_put(chance, scene, &key),
            _ if chance.one_in(6) => call_with_bad_key(chance, scene, &key),
            _ => scene.delete(chance, &key),
        }
    }
}

// --- Large ones ---

fn large(chance: &mut Chance, which: usize) -> Scene {
    match which {
        0 => in_longest_room(chance),
        1 => in_longer_room(chance),
        _ => with_long_block(chance),
    }
}

/// Stores that are made in a memory which leaves two slots about the longest room: with fewer slots it would be longer,
/// with more it is shorter.
fn in_longest_room(chance: &mut Chance) -> Scene {
    let left = LONGEST_ROOM - 1 + chance.below(3);
    let mut scene = Scene::on(memory_for(chance, 2, left));
    for slots in [64, 3, 1, 2] {
        scene.make(chance, slots);
    }
    let key = ToldKey::any(chance);
    some_put(chance, &mut scene, &key);
    scene.get(&key, LONGEST_LIST);
    scene.slot(0);
    scene
}

/// A lent store in the longest memory, whose room is longer than any that is made, with a block behind that length.
fn in_longer_room(chance: &mut Chance) -> Scene {
    let mut plan = Plan::of(chance, 3, 2);
    plan.days[1].hole = LONGEST_ROOM + chance.between(1, 1_000);
    plan.free = 2_000;
    plan.behind += LONGEST_MEMORY - plan.bytes_lent();
    let keys = keys_near(chance, &plan.keys());
    let mut scene = Scene::on(plan.lay(chance).bytes());
    scene.get(&keys[1], LONGEST_LIST);
    scene.slot(plan.days[1].slot);
    let day = days::day(chance, keys[2].date);
    scene.put(chance, &keys[2], &day);
    scene.get(&keys[1], LONGEST_LIST);
    scene
}

/// A lent store with a block that is longer than any file may be. It moves, and is replaced by a short one.
fn with_long_block(chance: &mut Chance) -> Scene {
    let mut plan = Plan::of(chance, 3, 2);
    let length = chance.between(LONGEST_ROOM + 1, LONGEST_ROOM + 9_000);
    files::fill_with_orders(&mut plan.days[1].block, length);
    plan.days[1].hole += 7;
    let keys = plan.keys();
    let mut scene = Scene::on(plan.lay(chance).bytes());
    scene.slot(plan.days[1].slot);
    scene.delete(chance, &keys[0]);
    scene.get(&keys[1], LONGEST_LIST);
    scene.bytes();
    let mut day = days::day(chance, keys[1].date);
    set_update(chance, &scene, &keys[1], &mut day, Than::Later);
    scene.put(chance, &keys[1], &day);
    scene
}
