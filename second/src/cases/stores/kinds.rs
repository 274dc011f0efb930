//! Tests: a run has calls of every kind that the rules tell apart, and two refusals at once wherever their order counts.

use super::super::keys::ToldKey;
use super::called::{calls_of_run, Accepted, Call, Called, Interval};
use super::{sequence, LARGE};
use crate::fields::{intervals_in_day, is_real_date, is_time};
use crate::probe;
use crate::refusal::of_stores;
use crate::store::layout::{HEADER_LENGTH, SLOT_LENGTH};
use crate::store::reading::{HeldDay, Store};
use crate::store::SlotRead;
use crate::write::{compose, DayHead};

// --- Puts taken apart ---

/// A put into a store.
struct Put<'a> {
    called: &'a Called,
    store: Store<'a>,
    head: DayHead,
    /// The length of its block, or the number of its writer's refusal.
    written: Result<u64, u64>,
    /// The fewest places of a list.
    places: usize,
    /// The place of its key's day among those that are held, in the order in which they lie.
    held_at: Option<usize>,
}

impl<'a> Put<'a> {
    fn of(called: &'a Called) -> Option<Put<'a>> {
        let Call::Put { day, .. } = &called.call else { return None };
        let store = called.store()?;
        let written = compose(day.head, day.lists());
        let lists = [
            day.values.len(),
            day.flags.len(),
            day.methods.len(),
            day.reasons.len(),
            day.starts.len(),
            day.lengths.len(),
        ];
        let key = called.key();
        Some(Put {
            called,
            head: day.head,
            written: written.map(|(block, _)| block.len() as u64).map_err(|refusal| refusal.number),
            places: lists.into_iter().min().unwrap_or(0),
            held_at: store.days.iter().position(|held| Some(&held.key) == key.as_ref()),
            store,
        })
    }

    fn held(&self) -> Option<&HeldDay<'a>> {
        self.held_at.map(|place| &self.store.days[place])
    }

    fn is_new(&self) -> bool {
        self.held_at.is_none()
    }

    fn is_accepted(&self) -> bool {
        self.called.answer.is_ok()
    }

    fn is_refused(&self, number: u64) -> bool {
        self.called.is_refused(number)
    }

    fn has_bad_key(&self) -> bool {
        self.called.key().is_none()
    }

    fn is_full(&self) -> bool {
        self.store.lowest_free_slot().is_none()
    }

    fn live_bytes(&self) -> u64 {
        self.store.days.iter().map(|held| held.block.len() as u64).sum()
    }

    fn room_length(&self) -> u64 {
        self.store.header.room_length
    }

    fn used(&self) -> u64 {
        self.store.header.bytes_used
    }

    /// What the blocks come to behind the put, if it has a block.
    fn needed(&self) -> Option<u64> {
        let replaced = self.held().map_or(0, |held| held.block.len() as u64);
        self.written.ok().map(|length| self.live_bytes() - replaced + length)
    }

    /// By how many bytes it exceeds the room.
    fn exceeds_by(&self) -> Option<u64> {
        self.needed().and_then(|needed| needed.checked_sub(self.room_length())).filter(|by| *by > 0)
    }

    /// Whether the day that is held is as late, or later.
    fn is_not_newer(&self) -> bool {
        self.held().is_some_and(|held| held.day.update >= self.head.update)
    }

    fn has_holes(&self) -> bool {
        self.used() > self.live_bytes()
    }

    /// How much longer the block is than the one that it replaces.
    fn grows_by(&self) -> Option<i64> {
        Some(self.written.ok()? as i64 - self.held()?.block.len() as i64)
    }

    fn n(&self) -> usize {
        intervals_in_day(u64::from(self.head.length)).unwrap_or(usize::MAX)
    }

    fn has_short_list(&self) -> bool {
        self.n() != usize::MAX && self.places < self.n()
    }

    fn holds_500s(&self) -> bool {
        self.store.days.iter().any(|held| has_500s(held.block))
    }
}

fn has_500s(block: &[u8]) -> bool {
    block.windows(5).any(|bytes| bytes == b"\n500,")
}

fn has_400s(block: &[u8]) -> bool {
    block.windows(5).any(|bytes| bytes == b"\n400,")
}

/// What a kind of put into a store is called, and whether one is of this kind.
type PutKind = (&'static str, fn(&Put) -> bool);

const ACCEPTED_PUTS: [PutKind; 32] = [
    ("the first day", |put| put.store.days.is_empty()),
    ("a new day beside others", |put| put.is_new() && !put.store.days.is_empty()),
    ("the last free slot", |put| put.is_new() && put.store.days.len() as u64 + 1 == put.store.header.slots),
    ("a free slot below a used one", |put| {
        put.is_new() && put.store.lowest_free_slot() < put.store.days.iter().map(|held| held.number).max()
    }),
    ("the last of 64 slots", |put| put.is_new() && put.store.lowest_free_slot() == Some(63)),
    ("a later day that is longer", |put| put.grows_by().is_some_and(|more| more > 0)),
    ("a later day that is shorter", |put| put.grows_by().is_some_and(|more| more < 0)),
    ("a later day that is as long", |put| put.grows_by() == Some(0)),
    ("a day that is a second later", |put| put.held().is_some_and(|held| held.day.update + 1 == put.head.update)),
    ("a later day of another interval length", |put| put.held().is_some_and(|held| held.day.values.len() != put.n())),
    ("a later day of another unit", |put| put.held().is_some_and(|held| held.slot.unit != put.head.unit)),
    ("the only day replaced", |put| put.held_at == Some(0) && put.store.days.len() == 1),
    ("the first of several replaced", |put| put.held_at == Some(0) && put.store.days.len() > 1),
    ("a middle one replaced", |put| put.held_at.is_some_and(|place| place > 0 && place + 1 < put.store.days.len())),
    ("the last of several replaced", |put| {
        put.held_at.is_some_and(|place| place > 0 && place + 1 == put.store.days.len())
    }),
    ("a replacement where every slot is used", |put| !put.is_new() && put.is_full()),
    ("a new day fills the room", |put| put.is_new() && put.needed() == Some(put.room_length())),
    ("a later day fills the room", |put| !put.is_new() && put.needed() == Some(put.room_length())),
    ("it fits because the replaced bytes are left out", |put| {
        put.written.is_ok_and(|length| put.live_bytes() + length > put.room_length())
    }),
    ("it fits because blocks move down", |put| {
        put.is_new() && put.has_holes() && put.written.is_ok_and(|length| put.used() + length > put.room_length())
    }),
    ("it fills the room because blocks move down", |put| put.has_holes() && put.needed() == Some(put.room_length())),
    ("blocks lie in another order than their slots", |put| {
        put.store.days.windows(2).any(|pair| pair[0].number > pair[1].number)
    }),
    ("a list that is not behind the header at once", |put| put.store.header.list > 32),
    ("a room that is not behind the list at once", |put| put.store.header.room > put.store.header.list_end()),
    ("bytes behind the room", |put| put.store.header.room_end() < put.called.memory.len() as u64),
    ("500s in the store", |put| put.holds_500s()),
    ("a day with 500s replaced", |put| put.held().is_some_and(|held| has_500s(held.block))),
    ("a room longer than one that is made", |put| put.room_length() > 1_048_576),
    ("a key in small letters", has_small_letter),
    ("lists that are longer than the day", |put| put.places > put.n()),
    ("a day of 5 minutes", |put| put.head.length == 5),
    ("a day of 15 minutes", |put| put.head.length == 15),
];

const REFUSED_PUTS: [PutKind; 38] = [
    ("16: an NMI too short", |put| put.is_refused(16) && told(put).nmi.len() == 9),
    ("16: an NMI too long", |put| put.is_refused(16) && told(put).nmi.len() == 11),
    ("16: no NMI", |put| put.is_refused(16) && told(put).nmi.is_empty()),
    ("16: the longest NMI", |put| put.is_refused(16) && told(put).nmi.len() == 64),
    ("16: another byte in the NMI", |put| put.is_refused(16) && has_other_byte(&told(put).nmi, 10)),
    ("16: a suffix too short", |put| put.is_refused(16) && told(put).suffix.len() == 1),
    ("16: a suffix too long", |put| put.is_refused(16) && told(put).suffix.len() == 3),
    ("16: another byte in the suffix", |put| put.is_refused(16) && has_other_byte(&told(put).suffix, 2)),
    ("16: a date that is none", |put| put.is_refused(16) && !is_real_date(put.head.date) && told(put).nmi.len() == 10),
    ("16: a bad key, and all else right", |put| put.is_refused(16) && put.has_bad_key() && put.written.is_ok()),
    ("16: a bad key, and a short list", |put| put.is_refused(16) && put.has_bad_key() && put.written == Err(15)),
    ("16: a bad key, and every slot used", |put| put.is_refused(16) && put.has_bad_key() && put.is_full()),
    ("16: a bad key, and no room", |put| put.is_refused(16) && put.has_bad_key() && put.exceeds_by().is_some()),
    ("16: no interval length", |put| put.is_refused(16) && !put.has_bad_key() && put.n() == usize::MAX),
    ("16: no interval length, and a short list", |put| {
        put.is_refused(16) && !put.has_bad_key() && put.n() == usize::MAX && put.places < 48
    }),
    ("15: a short list", |put| put.is_refused(15)),
    ("15: a list without its last place", |put| put.is_refused(15) && put.places + 1 == put.n()),
    ("15: and no update time", |put| put.is_refused(15) && !is_time(put.head.update.to_string().as_bytes())),
    ("15: and not newer", |put| put.is_refused(15) && put.is_not_newer()),
    ("15: and every slot used", |put| put.is_refused(15) && put.is_full() && put.is_new()),
    ("16: an unfit day", |put| put.is_refused(16) && !put.has_bad_key() && !put.has_short_list()),
    ("16: an unfit day, and not newer", |put| put.is_refused(16) && !put.has_short_list() && put.is_not_newer()),
    ("16: an unfit day, and every slot used", |put| {
        put.is_refused(16) && !put.has_bad_key() && put.is_full() && put.is_new()
    }),
    ("18: as late", |put| put.is_refused(18) && put.held().is_some_and(|held| held.day.update == put.head.update)),
    ("18: earlier", |put| put.is_refused(18) && put.held().is_some_and(|held| held.day.update > put.head.update)),
    ("18: a second earlier", |put| {
        put.is_refused(18) && put.held().is_some_and(|held| held.day.update == put.head.update + 1)
    }),
    ("18: and no room", |put| put.is_refused(18) && put.exceeds_by().is_some()),
    ("18: and every slot used", |put| put.is_refused(18) && put.is_full()),
    ("18: in small letters", |put| put.is_refused(18) && has_small_letter(put)),
    ("19: with room enough", |put| put.is_refused(19) && put.exceeds_by().is_none()),
    ("19: and no room", |put| put.is_refused(19) && put.exceeds_by().is_some()),
    ("19: of 64 slots", |put| put.is_refused(19) && put.store.header.slots == 64),
    ("19: of one slot", |put| put.is_refused(19) && put.store.header.slots == 1),
    ("20: a new day, by a byte", |put| put.is_refused(20) && put.is_new() && put.exceeds_by() == Some(1)),
    ("20: a later day, by a byte", |put| put.is_refused(20) && !put.is_new() && put.exceeds_by() == Some(1)),
    ("20: by a byte, over holes", |put| put.is_refused(20) && put.has_holes() && put.exceeds_by() == Some(1)),
    ("20: by many bytes", |put| put.is_refused(20) && put.exceeds_by().is_some_and(|by| by > 100)),
    ("20: a room of no bytes", |put| put.is_refused(20) && put.room_length() == 0),
];

fn told<'a>(put: &Put<'a>) -> &'a ToldKey {
    put.called.told_key().expect("a put tells a key")
}

fn has_small_letter(put: &Put) -> bool {
    told(put).nmi.iter().any(u8::is_ascii_lowercase)
}

/// Whether only a byte is against an NMI or a suffix.
fn has_other_byte(bytes: &[u8], length: usize) -> bool {
    bytes.len() == length && !bytes.iter().all(u8::is_ascii_alphanumeric)
}

// --- Other calls ---

/// What a kind of call is called, and whether one is of this kind.
type Kind = (&'static str, fn(&Called) -> bool);

fn is_put(called: &Called) -> bool {
    matches!(called.call, Call::Put { .. })
}

fn is_delete(called: &Called) -> bool {
    matches!(called.call, Call::Delete { .. })
}

/// The places that a get lends.
fn places(called: &Called) -> Option<usize> {
    match called.call {
        Call::Get { places, .. } => Some(places),
        _ => None,
    }
}

/// The slot that is read.
fn slot(called: &Called) -> Option<usize> {
    match called.call {
        Call::Slot { number } => Some(number),
        _ => None,
    }
}

/// The slots that are to be made.
fn making(called: &Called) -> Option<u32> {
    match called.call {
        Call::Make { slots } => Some(slots),
        _ => None,
    }
}

/// How many days the store holds, and which of them, in the order in which they lie, has the call's key.
fn held_at(called: &Called) -> Option<(usize, Option<usize>)> {
    let (store, key) = (called.store()?, called.key());
    Some((store.days.len(), store.days.iter().position(|held| Some(&held.key) == key.as_ref())))
}

fn held_block(called: &Called) -> Option<Vec<u8>> {
    let store = called.store()?;
    Some(store.day_of(&called.key()?)?.block.to_vec())
}

/// Whether an accepted get has an interval that is so.
fn got(called: &Called, is_so: fn(&Interval) -> bool) -> bool {
    matches!(&called.answer, Ok(Accepted::Day(_, intervals)) if intervals.iter().any(is_so))
}

fn got_n(called: &Called) -> Option<usize> {
    match &called.answer {
        Ok(Accepted::Day(read, _)) => Some(read.n),
        _ => None,
    }
}

/// Whether a memory is short of a store of so many slots by this many bytes.
fn is_short_by(called: &Called, slots: u32, bytes: usize) -> bool {
    called.memory.len() + bytes == HEADER_LENGTH + slots as usize * SLOT_LENGTH
}

const OTHERS: [Kind; 60] = [
    ("put, 21: a fit day", |called| is_put(called) && called.is_refused(21) && called.key().is_some()),
    ("put, 21: and a bad key", |called| is_put(called) && called.is_refused(21) && called.key().is_none()),
    ("put, 21: and an unfit day", |called| {
        called.is_refused(21) && matches!(&called.call, Call::Put { day, .. } if day.block().is_none())
    }),
    ("get: just enough places", |called| got_n(called).is_some() && got_n(called) == places(called)),
    ("get: more places", |called| got_n(called) < places(called) && got_n(called).is_some()),
    ("get: of 5 minutes", |called| got_n(called) == Some(288)),
    ("get: of 15 minutes", |called| got_n(called) == Some(96)),
    ("get: with descriptions", |called| got(called, |interval| !interval.description.is_empty())),
    ("get: with null data", |called| got(called, |interval| interval.flag == b'N')),
    ("get: of a V day", |called| got_n(called).is_some() && held_block(called).is_some_and(|block| has_400s(&block))),
    ("get: of a day with 500s", |called| {
        got_n(called).is_some() && held_block(called).is_some_and(|block| has_500s(&block))
    }),
    ("get: in small letters", |called| {
        got_n(called).is_some() && called.told_key().is_some_and(|key| key.nmi.iter().any(u8::is_ascii_lowercase))
    }),
    ("get: of a block longer than a file", |called| {
        got_n(called).is_some() && held_block(called).is_some_and(|block| block.len() > 1_048_576)
    }),
    ("get, 15: a place too few", |called| {
        called.is_refused(15) && places(called).is_some_and(|places| [47, 95, 287].contains(&places))
    }),
    ("get, 15: no places", |called| called.is_refused(15) && places(called) == Some(0)),
    ("get, 14: nothing held", |called| {
        called.is_refused(14) && places(called).is_some() && held_at(called) == Some((0, None))
    }),
    ("get, 14: others held", |called| {
        called.is_refused(14) && places(called).is_some() && held_at(called).is_some_and(|(days, _)| days > 1)
    }),
    ("get, 14: and no places", |called| called.is_refused(14) && places(called) == Some(0)),
    ("get, 14: a bad key", |called| called.is_refused(14) && places(called).is_some() && called.key().is_none()),
    ("get, 14: a date that is none", |called| {
        let date = called.told_key().map(|key| key.date);
        called.is_refused(14) && places(called).is_some() && date.is_some_and(|date| !is_real_date(date))
    }),
    ("get, 21", |called| called.is_refused(21) && places(called).is_some_and(|places| places >= 48)),
    ("get, 21: and too few places", |called| called.is_refused(21) && places(called).is_some_and(|places| places < 48)),
    ("delete: the only day", |called| is_delete(called) && called.answer == Ok(Accepted::Number(0))),
    ("delete: the first of several", |called| {
        is_delete(called) && held_at(called).is_some_and(|(days, place)| place == Some(0) && days > 1)
    }),
    ("delete: a middle one", |called| {
        let is_middle =
            |(days, place): (usize, Option<usize>)| place.is_some_and(|place| place > 0 && place + 1 < days);
        is_delete(called) && held_at(called).is_some_and(is_middle)
    }),
    ("delete: the last of several", |called| {
        is_delete(called)
            && held_at(called).is_some_and(|(days, place)| place.is_some_and(|place| place > 0 && place + 1 == days))
    }),
    ("delete: over holes", |called| {
        let store = called.store();
        let has_holes =
            |store: Store| store.header.bytes_used > store.days.iter().map(|held| held.block.len() as u64).sum::<u64>();
        is_delete(called) && called.answer.is_ok() && store.is_some_and(has_holes)
    }),
    ("delete: in small letters", |called| {
        let is_small = called.told_key().is_some_and(|key| key.nmi.iter().any(u8::is_ascii_lowercase));
        is_delete(called) && called.answer.is_ok() && is_small
    }),
    ("delete: the last of 64 slots", |called| {
        is_delete(called)
            && called.store().is_some_and(|store| store.header.slots == 64 && store.lowest_free_slot().is_none())
    }),
    ("delete, 14: others held", |called| {
        is_delete(called) && called.is_refused(14) && held_at(called).is_some_and(|(days, _)| days > 0)
    }),
    ("delete, 14: nothing held", |called| {
        is_delete(called) && called.is_refused(14) && held_at(called) == Some((0, None))
    }),
    ("delete, 14: a bad key", |called| is_delete(called) && called.is_refused(14) && called.key().is_none()),
    ("delete, 21", |called| is_delete(called) && called.is_refused(21) && called.key().is_some()),
    ("delete, 21: and a bad key", |called| is_delete(called) && called.is_refused(21) && called.key().is_none()),
    ("slot: used", |called| matches!(called.answer, Ok(Accepted::Slot(SlotRead::Used { .. })))),
    ("slot: used, the first", |called| {
        slot(called) == Some(0) && matches!(called.answer, Ok(Accepted::Slot(SlotRead::Used { .. })))
    }),
    ("slot: used, the last of 64", |called| {
        slot(called) == Some(63) && matches!(called.answer, Ok(Accepted::Slot(SlotRead::Used { .. })))
    }),
    ("slot: free", |called| called.answer == Ok(Accepted::Slot(SlotRead::Free))),
    ("slot: free, the last of 64", |called| {
        slot(called) == Some(63) && called.answer == Ok(Accepted::Slot(SlotRead::Free))
    }),
    ("slot, 14: just past the count", |called| {
        let slots = called.store().map(|store| store.header.slots as usize);
        called.is_refused(14) && slot(called).is_some() && slot(called) == slots
    }),
    ("slot, 14: 64", |called| called.is_refused(14) && slot(called) == Some(64)),
    ("slot, 14: a huge number", |called| called.is_refused(14) && slot(called) == Some(usize::MAX)),
    ("slot, 21", |called| called.is_refused(21) && slot(called) == Some(0)),
    ("slot, 21: and a huge number", |called| called.is_refused(21) && slot(called) == Some(usize::MAX)),
    ("make: in just enough bytes", |called| called.answer == Ok(Accepted::Number(0)) && making(called).is_some()),
    ("make: with a byte of room", |called| called.answer == Ok(Accepted::Number(1)) && making(called).is_some()),
    ("make: one slot", |called| called.answer.is_ok() && making(called) == Some(1)),
    ("make: 64 slots", |called| called.answer.is_ok() && making(called) == Some(64)),
    ("make: about the longest room", |called| {
        matches!(called.answer, Ok(Accepted::Number(1_048_575..=1_048_576))) && making(called).is_some()
    }),
    ("make: over a store", |called| {
        called.answer.is_ok() && making(called).is_some() && called.store().is_some_and(|store| !store.days.is_empty())
    }),
    ("make: over what was no store", |called| {
        called.answer.is_ok() && making(called).is_some() && called.store().is_none()
    }),
    ("make, 15: a byte too few", |called| {
        called.is_refused(15) && making(called).is_some_and(|slots| is_short_by(called, slots, 1))
    }),
    ("make, 15: no bytes", |called| called.is_refused(15) && making(called).is_some() && called.memory.is_empty()),
    ("make, 15: a header's bytes", |called| {
        called.is_refused(15) && making(called).is_some() && [31, 32].contains(&called.memory.len())
    }),
    ("make, 21: no slots", |called| called.is_refused(21) && making(called) == Some(0)),
    ("make, 21: 65 slots", |called| called.is_refused(21) && making(called) == Some(65)),
    ("make, 21: a huge number of slots", |called| called.is_refused(21) && making(called) == Some(u32::MAX)),
    ("make, 21: and too few bytes", |called| {
        called.is_refused(21) && making(called).is_some() && called.memory.len() < 58
    }),
    ("make, 21: over a store", |called| called.is_refused(21) && making(called).is_some() && called.store().is_some()),
    ("make, 21: before any memory was lent", |called| {
        called.is_refused(21) && making(called).is_some() && called.memory.is_empty()
    }),
];

// --- What a run has ---

/// The names of the kinds of which no call was.
fn missing(found: &[bool], names: impl Iterator<Item = &'static str>) -> Vec<&'static str> {
    found.iter().zip(names).filter(|(found, _)| !**found).map(|(_, name)| name).collect()
}

#[test]
fn a_run_has_every_kind_of_call() {
    for seed in [1, 2] {
        let mut accepted_puts = [false; ACCEPTED_PUTS.len()];
        let mut refused_puts = [false; REFUSED_PUTS.len()];
        let mut others = [false; OTHERS.len()];
        for called in calls_of_run(seed, 2_000) {
            for (found, (_, is_of_kind)) in others.iter_mut().zip(OTHERS) {
                *found |= is_of_kind(&called);
            }
            let Some(put) = Put::of(&called) else { continue };
            for (found, (_, is_of_kind)) in accepted_puts.iter_mut().zip(ACCEPTED_PUTS) {
                *found |= put.is_accepted() && is_of_kind(&put);
            }
            for (found, (_, is_of_kind)) in refused_puts.iter_mut().zip(REFUSED_PUTS) {
                *found |= is_of_kind(&put);
            }
        }
        let missing = [
            missing(&accepted_puts, ACCEPTED_PUTS.iter().map(|kind| kind.0)),
            missing(&refused_puts, REFUSED_PUTS.iter().map(|kind| kind.0)),
            missing(&others, OTHERS.iter().map(|kind| kind.0)),
        ];
        assert_eq!(missing.concat(), Vec::<&str>::new(), "seed {seed}");
    }
}

#[test]
fn a_refused_call_changes_nothing() {
    for called in calls_of_run(3, 1_000) {
        assert!(called.answer.is_ok() || called.memory == called.left);
    }
}

#[test]
fn every_seed_gives_every_refusal_and_no_bad_case() {
    for seed in [0, 1, 2, u64::MAX] {
        let input: Vec<u8> = (0..2_000).flat_map(|number| sequence(seed, number).concat()).collect();
        assert!(input.len() < 25_000_000, "{} bytes", input.len());
        let mut output = Vec::new();
        let tally = probe::run(&input, &mut output).unwrap();
        let lines = tally.lines();
        assert!(!lines.contains("bad case"), "{lines}");
        assert!(!output.windows(9).any(|bytes| bytes == b" changed\n"));
        for (name, counts, refusals) in [
            ("make", &tally.makes, &[15, 21][..]),
            ("put", &tally.puts, &[15, 16, 18, 19, 20, 21]),
            ("get", &tally.gets, &[14, 15, 21]),
            ("delete", &tally.deletes, &[14, 21]),
            ("slot", &tally.slots, &[14, 21]),
        ] {
            assert!(counts.accepted > 0, "{name}\n{lines}");
            for number in of_stores() {
                assert_eq!(counts.refusals(number) > 0, refusals.contains(&number), "{name} {number}\n{lines}");
            }
        }
        assert!(tally.free_slots > 0);
    }
}

#[test]
fn a_sequence_depends_on_seed_and_number_alone() {
    for number in [0, 7, 40, LARGE[0]] {
        assert_eq!(sequence(7, number), sequence(7, number));
        assert_ne!(sequence(7, number), sequence(8, number));
    }
    // Whatever the memory was before, the sequence lends its own.
    for number in 1..80 {
        let sequence = sequence(7, number);
        assert!(sequence[0].starts_with(b"memory "));
        assert_eq!(sequence.last().map(Vec::as_slice), Some(&b"bytes\n\n"[..]));
    }
}
