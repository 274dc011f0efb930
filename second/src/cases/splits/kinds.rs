//! Tests: a run has splits of every kind that the rules tell apart, and two refusals at once wherever their order
//! counts; and each that is accepted keeps what is promised.

use super::super::keys::ToldKey;
use super::super::maps::called::is_taken;
use super::super::maps::versions::{day_before, BAD_ENTRIES};
use super::boards::Task;
use super::called::{splits_of_run, Call, Called};
use super::{
    aim_of_file, bad_channel_way, bad_channels, bad_entry_way, no_store_way, sequence, AIMED_FILES_AT_A_TIME,
    AT_THE_EDGE, BAD_CHANNELS_AT_A_TIME, BAD_ENTRIES_AT_A_TIME, BAD_ENTRIES_PER_ROUND, BROKEN, LARGE,
    NO_STORES_AT_A_TIME, ROUND,
};
use crate::cases::sweep::which;
use crate::check::read_file;
use crate::fields::is_real_date;
use crate::keys::{names_channel, Key};
use crate::probe;
use crate::refusal::of_splits;
use crate::store::reading::read_store;
use crate::tenants::layout::{Entry, Version};
use crate::tenants::read_map;
use std::collections::HashSet;

/// What a kind of split is called, and whether one is of this kind.
type SharedKind = (&'static str, fn(&Shared) -> bool);
type AskedKind = (&'static str, fn(&Asked) -> bool);
type MappedKind = (&'static str, fn(&MappedDay) -> bool);

const LARGEST_TOTAL: u64 = 2_880_000_000_000_000;

// --- Splits of a total that are accepted ---

/// What an output of the channel gets.
struct Got {
    output: usize,
    share: u64,
    /// Its exact share rounded down, and what that leaves, in parts of the sum of shares.
    whole: u64,
    remainder: u64,
    part: u64,
}

impl Got {
    fn has_one_more(&self) -> bool {
        self.part > self.whole
    }

    /// Whether its one comes before that of the other.
    fn comes_before(&self, other: &Got) -> bool {
        self.remainder > other.remainder || self.remainder == other.remainder && self.output < other.output
    }
}

/// An accepted split, taken apart.
struct Shared {
    total: u64,
    channel: ToldKey,
    entries: Vec<Entry>,
    got: Vec<Got>,
    parts: Vec<u64>,
}

impl Shared {
    fn of(called: &Called) -> Option<Shared> {
        let parts = called.answer.as_ref().ok()?.1.clone();
        let (total, channel, entries) = told(called)?;
        let on_channel = |output: &usize| is_key_of(&entries[*output], &channel);
        let outputs: Vec<usize> = (0..128).filter(on_channel).collect();
        let share = |output: usize| u64::from(entries[output].share);
        let sum: u64 = outputs.iter().map(|output| share(*output)).sum();
        let got = outputs.into_iter().map(|output| {
            // 1000 times the largest total is below 2^64.
            let product = total * share(output);
            let (whole, remainder) = (product / sum, product % sum);
            Got { output, share: share(output), whole, remainder, part: parts[output] }
        });
        Some(Shared { total, channel, got: got.collect(), entries, parts })
    }

    fn outputs(&self) -> usize {
        self.got.len()
    }

    /// What rounding down leaves.
    fn left(&self) -> usize {
        self.got.iter().filter(|got| got.has_one_more()).count()
    }

    /// Whether an output that gets one more and one that doesn't are so to each other.
    fn is_cut(&self, are_so: fn(&Got, &Got) -> bool) -> bool {
        let (more, less): (Vec<&Got>, Vec<&Got>) = self.got.iter().partition(|got| got.has_one_more());
        more.iter().any(|more| less.iter().any(|less| are_so(more, less)))
    }

    fn shares_are(&self, are_so: fn(u64) -> bool) -> bool {
        self.got.iter().all(|got| are_so(got.share))
    }

    /// The entries of other channels, and of outputs that are not used.
    fn others(&self) -> Vec<&Entry> {
        self.entries.iter().filter(|entry| !is_key_of(entry, &self.channel)).collect()
    }

    fn other_channels(&self) -> HashSet<Vec<u8>> {
        let used = self.others().into_iter().filter(|entry| **entry != Entry::UNUSED);
        used.map(|entry| entry.key.to_ascii_uppercase()).collect()
    }

    /// Whether another channel with a share differs from this one in as many bytes of its NMI and of its suffix.
    fn has_other_with(&self, bytes: (usize, usize)) -> bool {
        let differ = |told: &[u8], key: &[u8]| told.iter().zip(key).filter(|(a, b)| !a.eq_ignore_ascii_case(b)).count();
        self.others().iter().any(|entry| {
            let (nmi, suffix) = entry.key.split_at(10);
            entry.share > 0 && (differ(&self.channel.nmi, nmi), differ(&self.channel.suffix, suffix)) == bytes
        })
    }

    /// Whether the channel is told so, and the key of one of its outputs so.
    fn is_spelled(&self, told: fn(&u8) -> bool, kept: fn(&u8) -> bool) -> bool {
        let letters =
            |bytes: &[u8], are_so: fn(&u8) -> bool| bytes.iter().filter(|b| b.is_ascii_alphabetic()).all(are_so);
        let keys = self.got.iter().map(|got| &self.entries[got.output].key);
        letters(&[&self.channel.nmi[..], &self.channel.suffix].concat(), told)
            && keys.into_iter().any(|key| letters(key, kept))
    }
}

fn is_key_of(entry: &Entry, channel: &ToldKey) -> bool {
    let key = [&channel.nmi[..], &channel.suffix].concat();
    names_channel(&channel.nmi, &channel.suffix) && entry.key.eq_ignore_ascii_case(&key)
}

/// What is split, whose it is, and the entries to split it by, so far as there are such.
fn told(called: &Called) -> Option<(u64, ToldKey, Vec<Entry>)> {
    match &called.call {
        Call::Total(task) => Some((task.total, task.channel.clone(), task.board.entries())),
        Call::Day { .. } | Call::Stored { .. } => {
            let day = MappedDay::of(called)?.day?;
            let versions = read_map(map_of(called)).ok()?;
            let version = versions.iter().rev().find(|version| version.first <= day.key.date)?;
            Some((day.sum, day.key, version.entries.clone()))
        }
    }
}

fn map_of(called: &Called) -> &[u8] {
    match &called.call {
        Call::Stored { map, .. } => map,
        _ => &called.memory,
    }
}

const ACCEPTED_TOTALS: [SharedKind; 37] = [
    ("a total of 0", |shared| shared.total == 0),
    ("a total of 0 over several outputs", |shared| shared.total == 0 && shared.outputs() > 1),
    ("a total of 1", |shared| shared.total == 1),
    ("the largest total", |shared| shared.total == LARGEST_TOTAL),
    ("one less than the largest total", |shared| shared.total == LARGEST_TOTAL - 1),
    ("the largest total over every output", |shared| shared.total == LARGEST_TOTAL && shared.outputs() == 128),
    ("a total smaller than the outputs", |shared| (1..shared.outputs() as u64).contains(&shared.total)),
    ("one output", |shared| shared.outputs() == 1),
    ("two outputs", |shared| shared.outputs() == 2),
    ("127 outputs", |shared| shared.outputs() == 127),
    ("every output", |shared| shared.outputs() == 128),
    ("the first output alone", |shared| shared.outputs() == 1 && shared.got[0].output == 0),
    ("the last output alone", |shared| shared.outputs() == 1 && shared.got[0].output == 127),
    ("a share of 0 beside others", |shared| shared.got.iter().any(|got| got.share == 0)),
    ("a share of 0 at the lowest output", |shared| shared.got[0].share == 0 && shared.left() > 0),
    ("a share of 1 alone", |shared| shared.outputs() == 1 && shared.got[0].share == 1),
    ("a share of 1000 at every output", |shared| shared.outputs() == 128 && shared.shares_are(|share| share == 1000)),
    ("a share of 1 at each of several outputs", |shared| shared.outputs() > 1 && shared.shares_are(|share| share == 1)),
    ("nothing is left", |shared| shared.outputs() > 1 && shared.total > 0 && shared.left() == 0),
    ("one is left", |shared| shared.outputs() > 2 && shared.left() == 1),
    ("as much is left as can be", |shared| shared.outputs() > 2 && shared.left() == shared.outputs() - 1),
    ("equal remainders of which not all get one", |shared| {
        shared.is_cut(|more, less| more.remainder == less.remainder)
    }),
    ("the same, the lower one having the smaller share", |shared| {
        shared.is_cut(|more, less| more.remainder == less.remainder && more.share < less.share)
    }),
    ("the same, the lower one having the larger share", |shared| {
        shared.is_cut(|more, less| more.remainder == less.remainder && more.share > less.share)
    }),
    ("a higher output gets one before a lower one", |shared| {
        shared.is_cut(|more, less| more.output > less.output && less.remainder > 0)
    }),
    ("a smaller share gets one before a larger one", |shared| {
        shared.is_cut(|more, less| more.share < less.share && less.remainder > 0)
    }),
    ("a share that is exact gets none", |shared| shared.is_cut(|_, less| less.share > 0 && less.remainder == 0)),
    ("in capitals, kept in small letters", |shared| shared.is_spelled(u8::is_ascii_uppercase, u8::is_ascii_lowercase)),
    ("in small letters, kept in capitals", |shared| shared.is_spelled(u8::is_ascii_lowercase, u8::is_ascii_uppercase)),
    ("one key in two spellings", |shared| {
        shared.got.iter().any(|got| shared.entries[got.output].key != shared.entries[shared.got[0].output].key)
    }),
    ("no other channel", |shared| shared.outputs() < 128 && shared.other_channels().is_empty()),
    ("one other channel", |shared| shared.other_channels().len() == 1),
    ("several other channels", |shared| shared.other_channels().len() > 2),
    ("another one that differs in a byte of the NMI", |shared| shared.has_other_with((1, 0))),
    ("another one that differs in a byte of the suffix", |shared| shared.has_other_with((0, 1))),
    ("an unused output between used ones", |shared| {
        shared.entries.windows(3).any(|run| run[1] == Entry::UNUSED && run[0] != run[1] && run[2] != run[1])
    }),
    ("every output used, by several channels", |shared| {
        !shared.entries.contains(&Entry::UNUSED) && !shared.other_channels().is_empty()
    }),
];

// --- Lists of a split of a total, and its refusals ---

struct Asked<'a> {
    called: &'a Called,
    task: &'a Task,
    entries: Vec<Entry>,
}

impl<'a> Asked<'a> {
    fn of(called: &'a Called) -> Option<Asked<'a>> {
        let Call::Total(task) = &called.call else { return None };
        Some(Asked { called, task, entries: task.board.entries() })
    }

    fn is_accepted(&self) -> bool {
        self.called.answer.is_ok()
    }

    fn is_refused(&self, number: u64) -> bool {
        self.called.is_refused(number)
    }

    /// Bytes of keys, shares and parts.
    fn lengths(&self) -> (usize, usize, usize) {
        (self.task.board.keys.len(), self.task.board.shares.len(), self.task.parts)
    }

    fn is_short(&self) -> bool {
        let (key_bytes, shares, parts) = self.lengths();
        key_bytes < 1536 || shares < 128 || parts < 128
    }

    fn has_bad_entry(&self) -> bool {
        !self.entries.iter().all(is_taken)
    }

    /// Whether the entry of this output alone is bad.
    fn is_bad_at(&self, output: usize) -> bool {
        let bad: Vec<usize> = (0..self.entries.len()).filter(|place| !is_taken(&self.entries[*place])).collect();
        bad == [output]
    }

    fn on_channel(&self) -> Vec<&Entry> {
        self.entries.iter().filter(|entry| is_key_of(entry, &self.task.channel)).collect()
    }

    fn has_no_share(&self) -> bool {
        self.on_channel().iter().all(|entry| entry.share == 0)
    }

    fn has_good_channel(&self) -> bool {
        names_channel(&self.task.channel.nmi, &self.task.channel.suffix)
    }

    /// How many bytes NMI and suffix have.
    fn key_lengths(&self) -> (usize, usize) {
        (self.task.channel.nmi.len(), self.task.channel.suffix.len())
    }

    /// Whether an entry has the bytes of NMI and suffix one behind the other, wherever the one ends, and a share or not.
    fn would_match(&self, with_share: bool) -> bool {
        let told = [&self.task.channel.nmi[..], &self.task.channel.suffix].concat();
        self.entries.iter().any(|entry| entry.key.eq_ignore_ascii_case(&told) && (entry.share > 0) == with_share)
    }

    /// Whether it is 26 as one byte of the NMI, or of the suffix, is no letter or digit.
    fn is_26_by_a_byte(&self, in_nmi: bool) -> bool {
        let ToldKey { nmi, suffix, .. } = &self.task.channel;
        let (bad, good) = if in_nmi { (nmi, suffix) } else { (suffix, nmi) };
        self.is_refused(26)
            && self.key_lengths() == (10, 2)
            && bad.iter().filter(|byte| !byte.is_ascii_alphanumeric()).count() == 1
            && good.iter().all(u8::is_ascii_alphanumeric)
    }

    fn has_other_share(&self) -> bool {
        self.entries.iter().any(|entry| entry.share > 0)
    }
}

const ASKED: [AskedKind; 53] = [
    ("just enough told and lent", |asked| asked.is_accepted() && asked.lengths() == (1536, 128, 128)),
    ("a part more", |asked| asked.is_accepted() && asked.task.parts == 129),
    ("as many parts as can be", |asked| asked.is_accepted() && asked.task.parts == 300),
    ("a byte of a key more", |asked| asked.is_accepted() && asked.task.board.keys.len() == 1537),
    ("a share more", |asked| asked.is_accepted() && asked.task.board.shares.len() == 129),
    ("as much told as can be", |asked| {
        asked.is_accepted() && (asked.task.board.keys.len(), asked.task.board.shares.len()) == (2000, 300)
    }),
    ("a bad key behind the outputs", |asked| {
        let behind = asked.task.board.keys.get(1536..).unwrap_or_default();
        asked.is_accepted() && behind.chunks_exact(12).any(|key| !key.iter().all(u8::is_ascii_alphanumeric))
    }),
    ("a share above 1000 behind the outputs", |asked| {
        let behind = asked.task.board.shares.get(128..).unwrap_or_default();
        asked.is_accepted() && behind.iter().any(|share| *share > 1000)
    }),
    ("27: one above", |asked| asked.is_refused(27) && asked.task.total == LARGEST_TOTAL + 1),
    ("27: the largest number", |asked| asked.is_refused(27) && asked.task.total == u64::MAX),
    ("27: nothing else", |asked| {
        asked.is_refused(27) && !asked.is_short() && !asked.has_bad_entry() && !asked.has_no_share()
    }),
    ("27: and a list too short", |asked| asked.is_refused(27) && asked.is_short() && !asked.has_bad_entry()),
    ("27: and a bad entry", |asked| asked.is_refused(27) && asked.has_bad_entry() && !asked.is_short()),
    ("27: and no share", |asked| {
        asked.is_refused(27) && asked.has_no_share() && !asked.has_bad_entry() && !asked.is_short()
    }),
    ("27: and all else", |asked| {
        asked.is_refused(27) && asked.has_no_share() && asked.has_bad_entry() && asked.is_short()
    }),
    ("15: a part too few", |asked| asked.is_refused(15) && asked.lengths() == (1536, 128, 127)),
    ("15: a share too few", |asked| asked.is_refused(15) && asked.lengths().1 == 127 && asked.task.parts >= 128),
    ("15: a byte of a key too few", |asked| {
        asked.is_refused(15) && asked.lengths().0 == 1535 && asked.lengths().1 == 128 && asked.task.parts >= 128
    }),
    ("15: no parts", |asked| asked.is_refused(15) && asked.lengths() == (1536, 128, 0)),
    ("15: no shares", |asked| asked.is_refused(15) && asked.lengths().1 == 0 && asked.task.parts >= 128),
    ("15: no keys", |asked| asked.is_refused(15) && asked.lengths().0 == 0 && asked.task.parts >= 128),
    ("15: too few of all", |asked| {
        let (key_bytes, shares, parts) = asked.lengths();
        asked.is_refused(15) && key_bytes < 1536 && shares < 128 && parts < 128
    }),
    ("15: nothing else", |asked| asked.is_refused(15) && !asked.has_bad_entry() && !asked.has_no_share()),
    ("15: parts, and a bad entry", |asked| {
        asked.is_refused(15) && asked.has_bad_entry() && asked.lengths().0 == 1536 && asked.lengths().1 == 128
    }),
    ("15: keys or shares, and a bad entry", |asked| {
        asked.is_refused(15) && asked.has_bad_entry() && asked.task.parts >= 128
    }),
    ("15: and no share", |asked| {
        asked.is_refused(15) && asked.has_no_share() && !asked.has_bad_entry() && asked.entries.len() == 128
    }),
    ("15: and a bad channel", |asked| asked.is_refused(15) && !asked.has_good_channel() && !asked.has_bad_entry()),
    ("25: at the first output", |asked| asked.is_refused(25) && asked.is_bad_at(0)),
    ("25: at the last output", |asked| asked.is_refused(25) && asked.is_bad_at(127)),
    ("25: at another output", |asked| asked.is_refused(25) && (1..127).any(|output| asked.is_bad_at(output))),
    ("25: of the channel itself", |asked| {
        asked.is_refused(25) && asked.on_channel().iter().any(|entry| !is_taken(entry))
    }),
    ("25: of another channel", |asked| {
        asked.is_refused(25) && !asked.has_no_share() && asked.on_channel().iter().all(|entry| is_taken(entry))
    }),
    ("25: a share without a key", |asked| {
        asked.is_refused(25) && asked.entries.iter().any(|entry| entry.key == [0; 12] && entry.share > 0)
    }),
    ("25: and the channel on no output", |asked| {
        asked.is_refused(25) && asked.has_good_channel() && asked.on_channel().is_empty()
    }),
    ("25: and a bad channel", |asked| asked.is_refused(25) && !asked.has_good_channel()),
    ("25: in longer lists", |asked| asked.is_refused(25) && asked.task.parts > 128),
    ("26: on no output", |asked| {
        asked.is_refused(26) && asked.has_good_channel() && asked.on_channel().is_empty() && asked.has_other_share()
    }),
    ("26: no output used", |asked| {
        asked.is_refused(26) && asked.has_good_channel() && asked.entries.iter().all(|entry| *entry == Entry::UNUSED)
    }),
    ("26: one output, without a share", |asked| asked.is_refused(26) && asked.on_channel().len() == 1),
    ("26: every output, without a share", |asked| asked.is_refused(26) && asked.on_channel().len() == 128),
    ("26: without a share, and others with some", |asked| {
        asked.is_refused(26) && !asked.on_channel().is_empty() && asked.has_other_share()
    }),
    ("26: a total of 0", |asked| asked.is_refused(26) && asked.task.total == 0),
    ("26: the largest total", |asked| asked.is_refused(26) && asked.task.total == LARGEST_TOTAL),
    ("26: no NMI", |asked| asked.is_refused(26) && asked.key_lengths() == (0, 2)),
    ("26: no suffix", |asked| asked.is_refused(26) && asked.key_lengths() == (10, 0)),
    ("26: another byte in the NMI", |asked| asked.is_26_by_a_byte(true)),
    ("26: another byte in the suffix", |asked| asked.is_26_by_a_byte(false)),
    ("26: an NMI of 9 bytes and a suffix of 3 that are a key", |asked| {
        asked.is_refused(26) && asked.key_lengths() == (9, 3) && asked.would_match(true)
    }),
    ("26: an NMI of 11 bytes and a suffix of 1 that are a key", |asked| {
        asked.is_refused(26) && asked.key_lengths() == (11, 1) && asked.would_match(true)
    }),
    ("26: the bytes of an output that isn't used", |asked| {
        asked.is_refused(26)
            && asked.key_lengths() == (10, 2)
            && asked.task.channel.nmi == [0; 10]
            && asked.would_match(false)
    }),
    ("26: an NMI of 64 bytes", |asked| asked.is_refused(26) && asked.key_lengths() == (64, 2)),
    ("26: a suffix of 64 bytes", |asked| asked.is_refused(26) && asked.key_lengths() == (10, 64)),
    ("26: a part more", |asked| asked.is_refused(26) && asked.task.parts > 128),
];

// --- Splits of a day by a map ---

/// A day that is there to be split.
struct FoundDay {
    key: ToldKey,
    sum: u64,
    minutes: usize,
    is_v_day: bool,
    /// Its place among all days of its file or store.
    place: usize,
    days: usize,
    channel: usize,
}

/// A split of a file's day or of a stored one.
struct MappedDay<'a> {
    called: &'a Called,
    /// None if file, number, store or key are at fault.
    day: Option<FoundDay>,
    versions: Option<Vec<Version>>,
    /// The place of the version that answers.
    version: Option<usize>,
}

impl<'a> MappedDay<'a> {
    fn of(called: &'a Called) -> Option<MappedDay<'a>> {
        let day = match &called.call {
            Call::Total(_) => return None,
            Call::Day { number, file } => day_in_file(file, *number),
            Call::Stored { key, .. } => day_in_store(&called.memory, key),
        };
        let versions = read_map(map_of(called)).ok();
        let version =
            day.as_ref().and_then(|day| versions.as_ref()?.iter().rposition(|version| version.first <= day.key.date));
        Some(MappedDay { called, day, versions, version })
    }

    fn is_stored(&self) -> bool {
        matches!(self.called.call, Call::Stored { .. })
    }

    fn is_refused(&self, number: u64) -> bool {
        self.called.is_refused(number)
    }

    fn is_short(&self) -> bool {
        self.called.places < 128
    }

    fn has_no_map(&self) -> bool {
        self.versions.is_none()
    }

    fn map_length(&self) -> usize {
        map_of(self.called).len()
    }

    /// Whether it is accepted, and its day is so.
    fn is_accepted_of(&self, is_so: impl Fn(&FoundDay) -> bool) -> bool {
        self.called.answer.is_ok() && self.day.as_ref().is_some_and(is_so)
    }

    /// Whether it is accepted by a version that has so many before it and behind it.
    fn is_accepted_by(&self, is_so: fn(usize, usize) -> bool) -> bool {
        let (Some(place), Some(versions)) = (self.version, &self.versions) else { return false };
        self.called.answer.is_ok() && is_so(place, versions.len() - 1 - place)
    }

    /// The first date of the version so many places behind the one that answers.
    fn first_behind(&self, places: usize) -> Option<u32> {
        self.versions.as_ref()?.get(self.version? + places).map(|version| version.first)
    }

    fn date(&self) -> Option<u32> {
        self.day.as_ref().map(|day| day.key.date)
    }

    /// Whether the day is refused by 14 or 21 that is its map's.
    fn is_refused_by_map(&self, number: u64) -> bool {
        self.is_refused(number) && self.day.is_some()
    }

    /// Whether it is refused before its map is looked at.
    fn is_refused_before_map(&self, number: u64) -> bool {
        self.is_refused(number) && self.day.is_none()
    }

    fn on_channel(&self) -> Vec<&Entry> {
        let (Some(day), Some(versions), Some(place)) = (&self.day, &self.versions, self.version) else {
            return Vec::new();
        };
        versions[place].entries.iter().filter(|entry| is_key_of(entry, &day.key)).collect()
    }

    fn has_no_share(&self) -> bool {
        self.on_channel().iter().all(|entry| entry.share == 0)
    }

    /// The number of the day, and how many its file has, if it is accepted.
    fn number_of_days(&self) -> Option<(usize, usize)> {
        let Call::Day { number, file } = &self.called.call else { return None };
        read_file(file).ok().map(|content| (*number, content.days.len()))
    }

    fn is_nem13(&self) -> bool {
        let Call::Day { file, .. } = &self.called.call else { return false };
        read_file(file).is_ok_and(|content| content.version == 13)
    }

    /// A stored day's key as it is told.
    fn told_key(&self) -> Option<&ToldKey> {
        let Call::Stored { key, .. } = &self.called.call else { return None };
        Some(key)
    }

    /// Whether the told key is absent, and one that is held differs from it so.
    fn is_absent_near(&self, differs: fn(&ToldKey, &Key) -> bool) -> bool {
        let Some(told) = self.told_key().filter(|_| self.is_refused_before_map(14)) else { return false };
        let held = read_store(&self.called.memory)
            .map(|store| store.days.into_iter().map(|day| day.key).collect::<Vec<Key>>());
        held.is_ok_and(|held| held.iter().any(|key| differs(told, key)))
    }
}

fn day_in_file(file: &[u8], number: usize) -> Option<FoundDay> {
    let content = read_file(file).ok()?;
    let day = content.days.get(number)?;
    let head = content.channels[day.channel].head();
    let key = ToldKey { nmi: head.bytes(2).to_vec(), suffix: head.bytes(5).to_vec(), date: day.date };
    Some(FoundDay {
        key,
        sum: day.values.iter().sum(),
        minutes: 1440 / day.values.len(),
        is_v_day: file[day.start..].windows(4).take(day.end - day.start).any(|bytes| bytes == b"\n400"),
        place: number,
        days: content.days.len(),
        channel: day.channel,
    })
}

fn day_in_store(memory: &[u8], told: &ToldKey) -> Option<FoundDay> {
    let store = read_store(memory).ok()?;
    let key = told.key()?;
    let place = store.days.iter().position(|held| held.key == key)?;
    let day = &store.days[place].day;
    Some(FoundDay {
        key: told.clone(),
        sum: day.values.iter().sum(),
        minutes: 1440 / day.values.len(),
        is_v_day: store.days[place].block.windows(4).any(|bytes| bytes == b"\n400"),
        place,
        days: store.days.len(),
        channel: 0,
    })
}

/// Of a file's day, and again of a stored one.
const MAPPED: [MappedKind; 37] = [
    ("the first day of several", |split| split.is_accepted_of(|day| day.place == 0 && day.days > 1)),
    ("the last day of several", |split| split.is_accepted_of(|day| day.place + 1 == day.days && day.days > 1)),
    ("a day of half hours", |split| split.is_accepted_of(|day| day.minutes == 30)),
    ("a day of 15 minutes", |split| split.is_accepted_of(|day| day.minutes == 15)),
    ("a V day", |split| split.is_accepted_of(|day| day.is_v_day)),
    ("told in small letters", |split| {
        split.is_accepted_of(|day| !day.key.nmi.iter().chain(&day.key.suffix).any(u8::is_ascii_uppercase))
    }),
    ("told in capitals", |split| {
        split.is_accepted_of(|day| !day.key.nmi.iter().chain(&day.key.suffix).any(u8::is_ascii_lowercase))
    }),
    ("over one output", |split| split.called.answer.as_ref().is_ok_and(|(outputs, _)| *outputs == 1)),
    ("over many outputs", |split| split.called.answer.as_ref().is_ok_and(|(outputs, _)| *outputs > 50)),
    ("by the only version", |split| split.is_accepted_by(|before, behind| before + behind == 0)),
    ("by the first of several", |split| split.is_accepted_by(|before, behind| before == 0 && behind > 0)),
    ("by a middle one", |split| split.is_accepted_by(|before, behind| before > 0 && behind > 0)),
    ("by the last of several", |split| split.is_accepted_by(|before, behind| before > 0 && behind == 0)),
    ("on a first date", |split| split.called.answer.is_ok() && split.first_behind(0) == split.date()),
    ("behind a first date", |split| split.called.answer.is_ok() && split.first_behind(0) < split.date()),
    ("the day before the next version", |split| {
        split.called.answer.is_ok() && split.first_behind(1).and_then(day_before) == split.date()
    }),
    ("just enough parts", |split| split.called.answer.is_ok() && split.called.places == 128),
    ("a part more", |split| split.called.answer.is_ok() && split.called.places == 129),
    ("as many parts as can be", |split| split.called.answer.is_ok() && split.called.places == 300),
    ("a map without a byte behind it", |split| split.called.answer.is_ok() && split.map_length() == 57_476),
    ("a map with a byte behind it", |split| split.called.answer.is_ok() && split.map_length() == 57_477),
    ("before the map: 14", |split| split.is_refused_before_map(14)),
    ("before the map: 14, and no map", |split| split.is_refused_before_map(14) && split.has_no_map()),
    ("before the map: 14, and too few parts", |split| split.is_refused_before_map(14) && split.is_short()),
    ("map: 21, of few bytes", |split| split.is_refused_by_map(21) && split.map_length() < 500),
    ("map: 21, of bytes enough", |split| split.is_refused_by_map(21) && split.map_length() >= 57_476),
    ("map: 21, and too few parts", |split| split.is_refused_by_map(21) && split.is_short()),
    ("map: 14, no versions", |split| {
        split.is_refused_by_map(14) && split.versions.as_ref().is_some_and(|versions| versions.is_empty())
    }),
    ("map: 14, the day before the first", |split| {
        let first = split.versions.as_ref().and_then(|versions| versions.first());
        split.is_refused_by_map(14) && first.is_some_and(|first| day_before(first.first) == split.date())
    }),
    ("map: 14, and too few parts", |split| split.is_refused_by_map(14) && split.is_short()),
    ("15: 127 parts", |split| split.is_refused(15) && split.called.places == 127),
    ("15: no parts", |split| split.is_refused(15) && split.called.places == 0),
    ("15: nothing else", |split| split.is_refused(15) && !split.has_no_share()),
    ("15: and no share", |split| split.is_refused(15) && split.has_no_share()),
    ("26: on no output", |split| split.is_refused(26) && split.on_channel().is_empty()),
    ("26: shares that are all 0", |split| split.is_refused(26) && !split.on_channel().is_empty()),
    ("26: by one of several versions", |split| {
        split.is_refused(26) && split.versions.as_ref().is_some_and(|versions| versions.len() > 1)
    }),
];

const DAYS: [MappedKind; 17] = [
    ("a day of 5 minutes", |split| split.is_accepted_of(|day| day.minutes == 5)),
    ("a day that adds up to 0", |split| split.is_accepted_of(|day| day.sum == 0)),
    ("a day that adds up to as much as one can", |split| split.is_accepted_of(|day| day.sum == 2_879_999_999_999_712)),
    ("a day of a further channel", |split| split.is_accepted_of(|day| day.channel > 0)),
    ("one of many days", |split| split.is_accepted_of(|day| day.days > 1_000)),
    ("file: and no map", |split| is_refused_by_file(split) && split.has_no_map()),
    ("file: and a map", |split| is_refused_by_file(split) && !split.has_no_map()),
    ("file: and too few parts", |split| is_refused_by_file(split) && split.is_short()),
    ("file: no bytes", |split| matches!(&split.called.call, Call::Day { file, .. } if file.is_empty())),
    ("14: just past the last", |split| {
        split.is_refused(14) && split.number_of_days().is_some_and(|(number, days)| number == days && days > 0)
    }),
    ("14: the largest number", |split| {
        split.is_refused(14) && split.number_of_days().is_some_and(|(number, _)| number == usize::MAX)
    }),
    ("14: a NEM13 file", |split| split.is_refused(14) && split.is_nem13()),
    ("14: a NEM13 file, and no map", |split| split.is_refused(14) && split.is_nem13() && split.has_no_map()),
    ("21: no bytes", |split| split.is_refused(21) && split.map_length() == 0),
    ("by the last that there can be", |split| split.is_accepted_by(|before, _| before == 31)),
    ("in a memory much longer than a map", |split| split.called.answer.is_ok() && split.map_length() > 57_500),
    ("by one of several of the same date", |split| {
        let (Some(place), Some(versions)) = (split.version, &split.versions) else { return false };
        split.called.answer.is_ok() && place > 0 && versions[place - 1].first == versions[place].first
    }),
];

fn is_refused_by_file(split: &MappedDay) -> bool {
    matches!(split.called.answer, Err(1..=13))
}

const STORED: [MappedKind; 15] = [
    ("the longest map", |split| split.called.answer.is_ok() && split.map_length() == 60_000),
    ("the only day", |split| split.is_accepted_of(|day| day.days == 1)),
    ("before the map: 21", |split| split.is_refused_before_map(21)),
    ("before the map: 21, no bytes", |split| split.is_refused_before_map(21) && split.called.memory.is_empty()),
    ("before the map: 21, and no good key", |split| {
        split.is_refused_before_map(21) && split.told_key().is_some_and(|key| key.key().is_none())
    }),
    ("before the map: 21, and too few parts", |split| split.is_refused_before_map(21) && split.is_short()),
    ("14: another date alone", |split| {
        split
            .is_absent_near(|told, key| told.nmi == key.nmi() && told.suffix == key.suffix() && is_real_date(told.date))
    }),
    ("14: another suffix alone", |split| {
        split.is_absent_near(|told, key| told.nmi == key.nmi() && told.date == key.date() && told.suffix.len() == 2)
    }),
    ("14: another NMI alone", |split| {
        split.is_absent_near(|told, key| told.suffix == key.suffix() && told.date == key.date() && told.nmi.len() == 10)
    }),
    ("14: no date", |split| split.is_refused(14) && split.told_key().is_some_and(|key| !is_real_date(key.date))),
    ("14: a bad NMI", |split| split.is_refused(14) && split.told_key().is_some_and(|key| key.nmi.len() != 10)),
    ("14: a bad suffix", |split| split.is_refused(14) && split.told_key().is_some_and(|key| key.suffix.len() != 2)),
    ("map: no bytes", |split| split.is_refused_by_map(21) && split.map_length() == 0),
    ("map: a count alone", |split| split.is_refused_by_map(21) && split.map_length() == 4),
    ("a day of several versions", |split| {
        split.is_accepted_of(|_| true) && split.versions.as_ref().is_some_and(|versions| versions.len() > 2)
    }),
];

// --- What a run has ---

/// A kind's list, and its name there.
type Name = (&'static str, &'static str);

fn names<T>(list: &'static str, kinds: &[(&'static str, T)]) -> Vec<Name> {
    kinds.iter().map(|(name, _)| (list, *name)).collect()
}

/// The names of those of these kinds of which a split is.
fn found<T>(list: &'static str, kinds: &[(&'static str, T)], is_of: impl Fn(&T) -> bool) -> Vec<Name> {
    kinds.iter().filter(|(_, kind)| is_of(kind)).map(|(name, _)| (list, *name)).collect()
}

/// The kinds of which a split is.
fn kinds_of(called: &Called) -> Vec<Name> {
    let mut kinds = Vec::new();
    if let Some(asked) = Asked::of(called) {
        kinds.extend(found("asked", &ASKED, |is_of_kind| is_of_kind(&asked)));
        if let Some(shared) = Shared::of(called) {
            kinds.extend(found("total", &ACCEPTED_TOTALS, |is_of_kind| is_of_kind(&shared)));
        }
    }
    if let Some(split) = MappedDay::of(called) {
        let is_of = |is_of_kind: &fn(&MappedDay) -> bool| is_of_kind(&split);
        if split.is_stored() {
            kinds.extend([found("stored by map", &MAPPED, is_of), found("stored", &STORED, is_of)].concat());
        } else {
            kinds.extend([found("day by map", &MAPPED, is_of), found("day", &DAYS, is_of)].concat());
        }
    }
    kinds
}

#[test]
fn a_run_has_every_kind_of_split() {
    let all = [
        names("total", &ACCEPTED_TOTALS),
        names("asked", &ASKED),
        names("day by map", &MAPPED),
        names("day", &DAYS),
        names("stored by map", &MAPPED),
        names("stored", &STORED),
    ]
    .concat();
    for seed in [1, 2, 3] {
        let found: HashSet<Name> = splits_of_run(seed, 500).flat_map(|called| kinds_of(&called)).collect();
        let missing: Vec<&Name> = all.iter().filter(|name| !found.contains(name)).collect();
        assert_eq!(missing, Vec::<&Name>::new(), "seed {seed}");
    }
}

#[test]
fn a_run_splits_over_many_numbers_of_outputs() {
    let outputs = splits_of_run(1, 500).filter_map(|called| called.answer.ok()).map(|(outputs, _)| outputs);
    let outputs: HashSet<usize> = outputs.collect();
    assert!(outputs.len() > 100 && outputs.contains(&1) && outputs.contains(&128), "{}", outputs.len());
}

#[test]
fn every_turn_of_each_sweep_comes_in_a_run() {
    let rounds = 500 / ROUND;
    for seed in [0, 1, 7, 1u64 << 40] {
        let turns = |per_round: u64| (0..rounds * per_round).map(move |turn| seed.wrapping_add(turn));
        let entries: HashSet<&str> = turns(BAD_ENTRIES_PER_ROUND)
            .flat_map(|turn| (0..BAD_ENTRIES_AT_A_TIME).map(move |place| bad_entry_way(turn, place).0))
            .collect();
        assert_eq!(entries.len(), BAD_ENTRIES.len(), "seed {seed}");
        let aims: HashSet<u64> =
            turns(1).flat_map(|turn| (0..AIMED_FILES_AT_A_TIME).map(move |place| aim_of_file(turn, place))).collect();
        assert_eq!(aims, (2..=13).collect(), "seed {seed}");
        let channels: HashSet<&str> = turns(1)
            .flat_map(|turn| (0..BAD_CHANNELS_AT_A_TIME).map(move |place| bad_channel_way(turn, place).0))
            .collect();
        assert_eq!(channels.len(), bad_channels().len(), "seed {seed}");
        let no_stores: HashSet<usize> =
            turns(1).flat_map(|turn| (0..NO_STORES_AT_A_TIME).map(move |place| no_store_way(turn, place))).collect();
        assert_eq!(no_stores.len(), BROKEN.len(), "seed {seed}");
        let edges: HashSet<usize> = turns(1).map(|turn| which(turn, AT_THE_EDGE.len())).collect();
        assert_eq!(edges.len(), AT_THE_EDGE.len(), "seed {seed}");
    }
}

#[test]
fn no_large_sequence_takes_the_turn_of_a_sweep() {
    assert!(matches!(LARGE % ROUND, 0..=7 | 11..=15 | 17..=22));
}

#[test]
fn accepted_splits_keep_what_is_promised() {
    let mut accepted = 0;
    for called in splits_of_run(4, 500) {
        let Some(shared) = Shared::of(&called) else { continue };
        assert_eq!(called.answer.as_ref().map(|(outputs, _)| *outputs), Ok(shared.outputs()));
        assert_eq!(shared.parts.iter().sum::<u64>(), shared.total);
        let of_channel: HashSet<usize> = shared.got.iter().map(|got| got.output).collect();
        assert!((0..128).all(|output| of_channel.contains(&output) || shared.parts[output] == 0));
        for got in &shared.got {
            assert!(got.part == got.whole || got.part == got.whole + 1);
        }
        assert!(!shared.is_cut(|more, less| less.comes_before(more)));
        accepted += 1;
    }
    assert!(accepted > 2_000, "only {accepted}");
}

#[test]
fn every_seed_gives_every_refusal_and_no_bad_case() {
    for seed in [0, 1, 2, u64::MAX] {
        let input: Vec<u8> = (0..500).flat_map(|number| sequence(seed, number).concat()).collect();
        assert!(input.len() < 30_000_000, "{} bytes", input.len());
        let mut output = Vec::new();
        let tally = probe::run(&input, &mut output).unwrap();
        let lines = tally.lines();
        assert!(!lines.contains("bad case"), "{lines}");
        assert!(!output.windows(9).any(|bytes| bytes == b" changed\n"));
        let of_days: Vec<u64> = (1..=15).chain([21, 26]).collect();
        for (name, counts, refusals) in [
            ("split", &tally.splits, &[15, 25, 26, 27][..]),
            ("splitday", &tally.day_splits, &of_days),
            ("splitstored", &tally.stored_splits, &[14, 15, 21, 26]),
        ] {
            assert!(counts.accepted > 0, "{name}\n{lines}");
            for number in of_splits() {
                assert_eq!(counts.refusals(number) > 0, refusals.contains(&number), "{name} {number}\n{lines}");
            }
        }
    }
}

#[test]
fn a_sequence_depends_on_seed_and_number_alone() {
    for number in (0..2 * ROUND).chain([LARGE]) {
        assert_eq!(sequence(7, number), sequence(7, number));
        assert_ne!(sequence(7, number), sequence(8, number));
        // Whatever the memory was before, a sequence that needs one lends its own.
        let is_of_totals = sequence(7, number).iter().all(|case| case.starts_with(b"split "));
        assert!(is_of_totals || sequence(7, number)[0].starts_with(b"memory "));
    }
}
