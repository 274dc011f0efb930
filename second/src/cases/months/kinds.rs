//! Tests: a run has every kind of call that the rules tell apart, two refusals at once too; and each call answers as the
//! single calls in order.

use super::asked::Asked;
use super::called::{calls_of_run, Called};
use super::{
    case, places_in, AIMS, ANY_LENT, BACKWARDS, BACKWARDS_PER_ROUND, ENOUGH, FEW_HEADS_PER_ROUND, FEW_PLACES_PER_ROUND,
    LARGE, LENT_BEFORE_THE_END, NEM13_PER_ROUND, NOT_THERE, NOT_THERE_PER_ROUND, OF_NO_DAYS, READ_PER_ROUND,
    REFUSED_PER_ROUND, ROUND, THERE, TOO_FEW, TOO_FEW_HEADS, WAYS_WITH_REFUSED,
};
use crate::check::LONGEST_FILE;
use crate::month::worked::OwnMonth;
use crate::month::DaysRead;
use crate::probe;
use crate::refusal::of_months;
use std::collections::HashSet;

/// What a kind of call is called, and whether one is of this kind.
type Kind = (&'static str, fn(&Called) -> bool);

/// So many cases are a run.
const RUN: u64 = 500;

// --- Days that are read ---

/// Whether days were read whose numbers stand so to that of the file's last day.
fn is_read_as(called: &Called, are_so: fn(usize, usize, usize) -> bool) -> bool {
    let last_of_file = called.days_in_file().unwrap_or(0).saturating_sub(1);
    !called.read().is_empty() && are_so(called.asked.first, called.asked.last, last_of_file)
}

/// Whether days were read, and there are so many more places for intervals than these take, and so many for days.
fn is_read_with(called: &Called, are_so: fn(usize, usize) -> bool) -> bool {
    let Ok(DaysRead { days: days @ 1.., intervals }) = called.answer else { return false };
    are_so(called.asked.places - intervals, called.asked.heads - days)
}

/// Whether a day of so many intervals was read, and directly behind it one of so many.
fn is_followed_by(called: &Called, n: usize, next: usize) -> bool {
    called.read().windows(2).any(|days| (days[0].n, days[1].n) == (n, next))
}

/// Whether two days that were read one behind the other are so.
fn has_pair(called: &Called, are_so: impl Fn(usize, usize) -> bool) -> bool {
    (1..called.read().len()).any(|place| are_so(place - 1, place))
}

/// Whether a day that was read has such an interval and such another one.
fn has_day_with(called: &Called, one: fn(&OwnMonth, usize) -> bool, other: fn(&OwnMonth, usize) -> bool) -> bool {
    (0..called.read().len()).any(|place| {
        let mut intervals = called.stretch(place);
        intervals.clone().any(|interval| one(&called.month, interval))
            && intervals.any(|interval| other(&called.month, interval))
    })
}

/// Whether a record with this beginning stands in the block of a day that was read, and another day was read behind it.
fn has_record_before_a_day(called: &Called, beginning: &[u8]) -> bool {
    let days = called.read();
    let before_the_last = &days[..days.len().saturating_sub(1)];
    before_the_last.iter().any(|day| {
        let block = &called.file[day.block.clone()];
        block.split(|byte| *byte == b'\n').any(|record| record.starts_with(beginning))
    })
}

const READ: [Kind; 51] = [
    ("all of several days", |called| is_read_as(called, |first, last, end| first == 0 && last == end && end > 0)),
    ("the only day", |called| is_read_as(called, |_, last, end| last == 0 && end == 0)),
    ("the first of several", |called| is_read_as(called, |_, last, end| last == 0 && end > 0)),
    ("the last of several", |called| is_read_as(called, |first, _, end| first == end && end > 0)),
    ("one in the middle", |called| is_read_as(called, |first, last, end| first == last && first > 0 && last < end)),
    ("several, from the first on", |called| {
        is_read_as(called, |first, last, end| first == 0 && last > 0 && last < end)
    }),
    ("several, up to the last", |called| {
        is_read_as(called, |first, last, end| first > 0 && last > first && last == end)
    }),
    ("several in the middle", |called| is_read_as(called, |first, last, end| first > 0 && last > first && last < end)),
    ("just enough places in all lists", |called| is_read_with(called, |places, heads| (places, heads) == (0, 0))),
    ("just enough for intervals alone", |called| is_read_with(called, |places, heads| places == 0 && heads > 0)),
    ("just enough for days alone", |called| is_read_with(called, |places, heads| places > 0 && heads == 0)),
    ("one place more in all lists", |called| is_read_with(called, |places, heads| (places, heads) == (1, 1))),
    ("some places more in all lists", |called| {
        is_read_with(called, |places, heads| (2..=300).contains(&places) && (2..=300).contains(&heads))
    }),
    ("as many places as can be", |called| {
        is_read_with(called, |_, _| true) && (called.asked.places, called.asked.heads) == (100_000, 400)
    }),
    ("48 and 96", |called| is_followed_by(called, 48, 96)),
    ("48 and 288", |called| is_followed_by(called, 48, 288)),
    ("96 and 48", |called| is_followed_by(called, 96, 48)),
    ("96 and 288", |called| is_followed_by(called, 96, 288)),
    ("288 and 48", |called| is_followed_by(called, 288, 48)),
    ("288 and 96", |called| is_followed_by(called, 288, 96)),
    ("288 and 288", |called| is_followed_by(called, 288, 288)),
    ("all three", |called| [48, 96, 288].iter().all(|n| called.read().iter().any(|day| day.n == *n))),
    ("48 alone", |called| called.read().len() > 1 && called.read().iter().all(|day| day.n == 48)),
    ("two channels", |called| {
        let days = called.read();
        days.len() > 1 && days[days.len() - 1].channel == days[0].channel + 1
    }),
    ("four channels or more", |called| {
        let days = called.read();
        days.len() > 3 && days[days.len() - 1].channel > days[0].channel + 2
    }),
    ("a date that isn't later than the one before", |called| {
        has_pair(called, |one, next| called.month.dates[next] <= called.month.dates[one])
    }),
    ("another unit of the same length", |called| {
        let month = &called.month;
        has_pair(called, |one, next| month.units[one] != month.units[next] && month.counts[one] == month.counts[next])
    }),
    ("a load time behind none", |called| {
        has_pair(called, |one, next| called.month.loads[one] == 0 && called.month.loads[next] > 0)
    }),
    ("no load time behind one", |called| {
        has_pair(called, |one, next| called.month.loads[one] > 0 && called.month.loads[next] == 0)
    }),
    ("400s before another day", |called| has_record_before_a_day(called, b"400,")),
    ("500s before another day", |called| has_record_before_a_day(called, b"500,")),
    ("500s below the last day", |called| {
        let last = called.read().last().map(|day| &called.file[day.block.clone()]);
        last.is_some_and(|block| block.windows(5).any(|bytes| bytes == b"\n500,"))
    }),
    ("null data beside actual data", |called| {
        has_day_with(called, |month, place| month.flags[place] == b'N', |month, place| month.flags[place] == b'A')
    }),
    ("null data alone", |called| {
        (0..called.read().len()).any(|day| called.stretch(day).all(|place| called.month.flags[place] == b'N'))
    }),
    ("estimates beside substitutes", |called| {
        has_day_with(called, |month, place| month.flags[place] == b'E', |month, place| month.flags[place] == b'S')
    }),
    ("a final substitute", |called| called.read().len() > 1 && called.month.flags.contains(&b'F')),
    ("a reason beside none", |called| {
        has_day_with(called, |month, place| month.reasons[place] < 1000, |month, place| month.reasons[place] == 65535)
    }),
    ("reason 0", |called| called.read().len() > 1 && called.month.reasons.contains(&0)),
    ("a description beside none", |called| {
        has_day_with(called, |month, place| month.lengths[place] > 0, |month, place| month.lengths[place] == 0)
    }),
    ("two descriptions in one day", |called| {
        (0..called.read().len()).any(|day| {
            let starts: HashSet<usize> =
                called.stretch(day).map(|place| called.month.starts[place]).filter(|start| *start > 0).collect();
            starts.len() > 1
        })
    }),
    ("the longest description", |called| called.read().len() > 1 && called.month.lengths.contains(&240)),
    ("a value of 0", |called| called.read().len() > 1 && called.month.values.contains(&0)),
    ("the largest value", |called| called.read().len() > 1 && called.month.values.contains(&9_999_999_999_999)),
    ("more than a hundred days", |called| called.read().len() > 100),
    ("as many days as there can be places", |called| {
        called.read().len() == 400 && called.asked.first > 0 && called.days_in_file() > Some(called.asked.last + 1)
    }),
    ("more than 10,000 intervals", |called| called.answer.is_ok_and(|read| (10_000..50_000).contains(&read.intervals))),
    ("as many intervals as there can be places", |called| called.answer.is_ok_and(|read| read.intervals == 99_984)),
    ("of some 100,000 bytes", |called| !called.read().is_empty() && (60_000..140_000).contains(&called.file.len())),
    ("of the largest length", |called| !called.read().is_empty() && called.file.len() == LONGEST_FILE),
    ("far behind in a file", |called| !called.read().is_empty() && called.asked.first > 1_000),
    ("days of a few of many", |called| (2..5).contains(&called.read().len()) && called.days_in_file() > Some(50)),
];

// --- No day ---

/// Whether nothing was read of an accepted file, as the first of these numbers is above the last.
fn is_none_as(called: &Called, are_so: fn(usize, usize, usize) -> bool) -> bool {
    let nothing = DaysRead { days: 0, intervals: 0 };
    let Some(days) = called.days_in_file() else { return false };
    called.answer == Ok(nothing) && are_so(called.asked.first, called.asked.last, days)
}

/// Whether that is so, with so many places for intervals, and for days.
fn is_none_with(called: &Called, are_so: fn(usize, usize) -> bool) -> bool {
    is_none_as(called, |_, _, _| true) && are_so(called.asked.places, called.asked.heads)
}

const NONE: [Kind; 15] = [
    ("1 to 0", |called| is_none_as(called, |first, last, days| (first, last) == (1, 0) && days > 1)),
    ("by one", |called| is_none_as(called, |first, last, days| first == last + 1 && last > 0 && first < days)),
    ("the last to the first", |called| {
        is_none_as(called, |first, last, days| first + 1 == days && last == 0 && days > 2)
    }),
    ("one behind to the last", |called| is_none_as(called, |first, last, days| first == days && last + 1 == days)),
    ("from behind to one that is there", |called| {
        is_none_as(called, |first, last, days| first > days && first < 1_000 && last < days)
    }),
    ("both behind", |called| is_none_as(called, |first, last, days| first < usize::MAX && last >= days && days > 0)),
    ("the largest to the first", |called| {
        is_none_as(called, |first, last, days| (first, last) == (usize::MAX, 0) && days > 0)
    }),
    ("the largest to one less", |called| {
        is_none_as(called, |first, last, days| (first, last) == (usize::MAX, usize::MAX - 1) && days > 0)
    }),
    ("no places", |called| is_none_with(called, |places, heads| (places, heads) == (0, 0))),
    ("no places for days", |called| is_none_with(called, |places, heads| places > 0 && heads == 0)),
    ("as many places as can be", |called| is_none_with(called, |places, heads| (places, heads) == (100_000, 400))),
    ("NEM13: small numbers", |called| is_none_as(called, |first, _, days| days == 0 && first < 1_000)),
    ("NEM13: the largest to the first", |called| {
        is_none_as(called, |first, last, days| days == 0 && (first, last) == (usize::MAX, 0))
    }),
    ("NEM13: no places", |called| {
        is_none_as(called, |_, _, days| days == 0) && is_none_with(called, |places, heads| (places, heads) == (0, 0))
    }),
    ("NEM13: places", |called| {
        is_none_as(called, |_, _, days| days == 0) && is_none_with(called, |places, heads| places > 0 && heads > 0)
    }),
];

// --- Places that are missing: 15 ---

/// A call that is refused by 15: how its places stand to the days that are there.
struct Short {
    /// The place, among the days asked for, of the first that has too few places of the long lists, and of the others.
    by_places: Option<usize>,
    by_heads: Option<usize>,
    /// What the days before it leave of the long lists.
    left: usize,
    /// The intervals of the days that are asked for and there.
    each: Vec<usize>,
    /// Whether the last of those asked for is there.
    ends_there: bool,
}

impl Short {
    fn of(called: &Called) -> Option<Short> {
        if !called.is_refused(15) {
            return None;
        }
        let each = called.there();
        let (mut left, mut by_places) = (called.asked.places, None);
        for (place, n) in each.iter().enumerate() {
            match left.checked_sub(*n) {
                Some(fewer) => left = fewer,
                None => {
                    by_places = Some(place);
                    break;
                }
            }
        }
        let by_heads = Some(called.asked.heads).filter(|heads| *heads < each.len());
        let ends_there = called.days_in_file().is_some_and(|days| called.asked.last < days);
        Some(Short { by_places, by_heads, left, each, ends_there })
    }

    /// Whether all days asked for are there, and this one of them is the only one that the long lists are too short for.
    fn is_short_by_places(&self, place: usize) -> bool {
        self.ends_there && self.by_places == Some(place) && self.by_heads.is_none()
    }

    fn is_short_by_heads(&self, place: usize) -> bool {
        self.ends_there && self.by_heads == Some(place) && self.by_places.is_none()
    }

    fn last(&self) -> usize {
        self.each.len() - 1
    }
}

fn is_short(called: &Called, is_so: fn(&Short) -> bool) -> bool {
    Short::of(called).is_some_and(|short| is_so(&short))
}

const SHORT: [Kind; 28] = [
    ("places: one too few for the only day", |called| {
        is_short(called, |short| {
            short.is_short_by_places(0) && short.each.len() == 1 && short.left + 1 == short.each[0]
        })
    }),
    ("places: none for the only day", |called| {
        is_short(called, |short| short.is_short_by_places(0) && short.each.len() == 1 && short.left == 0)
    }),
    ("places: none for the first of several", |called| {
        is_short(called, |short| short.is_short_by_places(0) && short.each.len() > 1 && short.left == 0)
    }),
    ("places: one too few for the first of several", |called| {
        is_short(called, |short| short.is_short_by_places(0) && short.each.len() > 1 && short.left + 1 == short.each[0])
    }),
    ("places: one too few for the last", |called| {
        is_short(called, |short| {
            let last = short.last();
            last > 0 && short.is_short_by_places(last) && short.left + 1 == short.each[last]
        })
    }),
    ("places: none for the last", |called| {
        is_short(called, |short| short.last() > 0 && short.is_short_by_places(short.last()) && short.left == 0)
    }),
    ("places: one too few for a middle one", |called| {
        is_short(called, |short| {
            (1..short.last()).any(|place| short.is_short_by_places(place) && short.left + 1 == short.each[place])
        })
    }),
    ("places: none for a middle one", |called| {
        is_short(called, |short| (1..short.last()).any(|place| short.is_short_by_places(place) && short.left == 0))
    }),
    ("places: what is left would take a later day", |called| {
        is_short(called, |short| {
            let short_of = |place: usize| short.is_short_by_places(place);
            (0..short.last()).any(|place| short_of(place) && short.each[place..].iter().any(|n| *n <= short.left))
        })
    }),
    ("places: enough for as many days of the first one's length", |called| {
        is_short(called, |short| {
            let taken: usize = short.by_places.map_or(0, |place| short.each[..place].iter().sum());
            short.ends_there && short.by_heads.is_none() && taken + short.left >= short.each.len() * short.each[0]
        })
    }),
    ("places: days of 288", |called| {
        is_short(called, |short| short.by_places.is_some_and(|place| short.each[place] == 288))
    }),
    ("places: more than a hundred days behind", |called| {
        is_short(called, |short| short.by_places.is_some_and(|place| place > 100))
    }),
    ("places: too few, be they as many as can be", |called| {
        called.asked.places == 100_000 && is_short(called, |short| short.by_places.is_some())
    }),
    ("days: none for the only one", |called| {
        is_short(called, |short| short.each.len() == 1 && short.is_short_by_heads(0))
    }),
    ("days: none for several", |called| is_short(called, |short| short.each.len() > 1 && short.is_short_by_heads(0))),
    ("days: none for the last", |called| {
        is_short(called, |short| short.last() > 1 && short.is_short_by_heads(short.last()))
    }),
    ("days: none for a middle one", |called| {
        is_short(called, |short| (1..short.last()).any(|place| short.is_short_by_heads(place)))
    }),
    ("days: too few, be they as many as can be", |called| {
        called.asked.heads == 400 && is_short(called, |short| short.each.len() == 401 && short.is_short_by_heads(400))
    }),
    ("both: for the same day", |called| {
        is_short(called, |short| short.ends_there && short.by_places.is_some() && short.by_places == short.by_heads)
    }),
    ("both: of intervals first", |called| {
        is_short(called, |short| short.ends_there && short.by_places.is_some() && short.by_places < short.by_heads)
    }),
    ("both: of days first", |called| {
        is_short(called, |short| short.ends_there && short.by_heads.is_some() && short.by_heads < short.by_places)
    }),
    ("both: none", |called| {
        (called.asked.places, called.asked.heads) == (0, 0) && is_short(called, |short| short.each.len() > 1)
    }),
    ("before a day that isn't there: places", |called| {
        is_short(called, |short| !short.ends_there && short.by_places.is_some() && short.by_heads.is_none())
    }),
    ("before a day that isn't there: days", |called| {
        is_short(called, |short| !short.ends_there && short.by_heads.is_some() && short.by_places.is_none())
    }),
    ("before a day that isn't there: both", |called| {
        is_short(called, |short| !short.ends_there && short.by_heads.is_some() && short.by_places.is_some())
    }),
    ("before a day that isn't there: the one before it", |called| {
        is_short(called, |short| {
            let last = Some(short.last());
            !short.ends_there && short.each.len() > 1 && (short.by_heads == last || short.by_places == last)
        })
    }),
    ("before a day that isn't there: to one behind", |called| {
        called.days_in_file() == Some(called.asked.last) && is_short(called, |_| true)
    }),
    ("before a day that isn't there: to the largest", |called| {
        called.asked.last == usize::MAX && is_short(called, |_| true)
    }),
];

// --- Days that aren't there: 14 ---

/// Whether the call is refused by 14, and its numbers stand so to the number of days.
fn is_absent_as(called: &Called, are_so: fn(usize, usize, usize) -> bool) -> bool {
    let Some(days) = called.days_in_file() else { return false };
    called.is_refused(14) && are_so(called.asked.first, called.asked.last, days)
}

/// Whether that is so behind days that are there, and these leave so many places for intervals, and for days.
fn is_absent_behind(called: &Called, are_so: fn(usize, usize) -> bool) -> bool {
    let there = called.there();
    let taken: usize = there.iter().sum();
    called.is_refused(14) && !there.is_empty() && are_so(called.asked.places - taken, called.asked.heads - there.len())
}

/// Whether the first is not there already, with so many places.
fn is_absent_at_once(called: &Called, are_so: fn(usize, usize) -> bool) -> bool {
    called.is_refused(14) && called.there().is_empty() && are_so(called.asked.places, called.asked.heads)
}

const ABSENT: [Kind; 19] = [
    ("to one behind", |called| is_absent_as(called, |first, last, days| first < days && last == days)),
    ("to far behind", |called| {
        is_absent_as(called, |first, last, days| first < days && last >= days + 400 && last < usize::MAX - 1)
    }),
    ("to one less than the largest", |called| {
        is_absent_as(called, |first, last, days| first < days && last == usize::MAX - 1)
    }),
    ("all, to the largest", |called| {
        is_absent_as(called, |first, last, days| days > 1 && first == 0 && last == usize::MAX)
    }),
    ("from the last, to one behind", |called| {
        is_absent_as(called, |first, last, days| days > 1 && first + 1 == days && last == days)
    }),
    ("all lists full", |called| is_absent_behind(called, |places, heads| (places, heads) == (0, 0))),
    ("the long lists full", |called| is_absent_behind(called, |places, heads| places == 0 && heads > 0)),
    ("the others full", |called| is_absent_behind(called, |places, heads| places > 0 && heads == 0)),
    ("places left in all", |called| is_absent_behind(called, |places, heads| places >= 288 && heads > 0)),
    ("just behind, one", |called| is_absent_as(called, |first, last, days| days > 0 && first == days && last == days)),
    ("just behind, several", |called| {
        is_absent_as(called, |first, last, days| days > 0 && first == days && last > days)
    }),
    ("far behind", |called| is_absent_as(called, |first, _, days| days > 0 && first > days && first < usize::MAX)),
    ("the largest alone", |called| is_absent_as(called, |first, _, days| days > 0 && first == usize::MAX)),
    ("at once, no places", |called| is_absent_at_once(called, |places, heads| (places, heads) == (0, 0))),
    ("at once, no places for days", |called| is_absent_at_once(called, |places, heads| places > 0 && heads == 0)),
    ("at once, places", |called| is_absent_at_once(called, |places, heads| places >= 288 && heads > 0)),
    ("NEM13: the first", |called| is_absent_as(called, |first, last, days| days == 0 && (first, last) == (0, 0))),
    ("NEM13: up to the largest", |called| is_absent_as(called, |_, last, days| days == 0 && last == usize::MAX)),
    ("NEM13: no places", |called| {
        called.days_in_file() == Some(0) && is_absent_at_once(called, |places, heads| (places, heads) == (0, 0))
    }),
];

// --- Files that are refused ---

const MANNERS: [&str; 4] =
    ["days, and places enough", "days, and no places", "days up to the largest number", "a first day above the last"];

/// A refused file's number, and the manners in which it is asked for days.
fn manners_of(called: &Called) -> Vec<(u64, &'static str)> {
    let Err(number) = called.days else { return Vec::new() };
    let Asked { first, last, places, heads } = called.asked;
    let are_so = [
        first <= last && last < 100 && (places, heads) == (100_000, 400),
        first <= last && (places, heads) == (0, 0),
        first <= last && last == usize::MAX,
        first > last,
    ];
    MANNERS.into_iter().zip(are_so).filter(|(_, is_so)| *is_so).map(|(manner, _)| (number, manner)).collect()
}

#[test]
fn each_refusal_of_a_file_comes_with_numbers_and_lists_of_every_manner() {
    for seed in [1, 2, 3] {
        let found: HashSet<(u64, &str)> = calls_of_run(seed, RUN).flat_map(|called| manners_of(&called)).collect();
        for number in 1..=13 {
            for manner in MANNERS {
                assert!(found.contains(&(number, manner)), "seed {seed}: {number}, {manner}");
            }
        }
    }
}

// --- What a run has ---

#[test]
fn a_run_has_every_kind_of_call() {
    for seed in [1, 2, 3] {
        let calls: Vec<Called> = calls_of_run(seed, RUN).collect();
        for (list, kinds) in [("read", &READ[..]), ("none", &NONE), ("short", &SHORT), ("absent", &ABSENT)] {
            let is_missing = |kind: &&Kind| !calls.iter().any(|called| kind.1(called));
            let missing: Vec<&str> = kinds.iter().filter(is_missing).map(|kind| kind.0).collect();
            assert_eq!(missing, Vec::<&str>::new(), "{list}, seed {seed}");
        }
    }
}

#[test]
fn every_call_answers_as_the_single_calls_in_order() {
    let mut accepted = 0;
    for called in calls_of_run(5, RUN) {
        let mut singly = OwnMonth::of(called.asked.places, called.asked.heads);
        let answer = singly.read_singly(&called.file, called.asked.first, called.asked.last);
        assert_eq!(called.answer, answer, "{:?}", called.asked);
        assert!(called.month == singly, "{:?}", called.asked);
        accepted += usize::from(called.is_accepted());
    }
    assert!(accepted > 100, "only {accepted}");
}

#[test]
fn every_turn_of_each_sweep_comes_in_a_run() {
    fn assert_swept<const N: usize>(seed: u64, per_round: u64, lengths: [usize; N]) {
        let turns = (0..RUN / ROUND * per_round).map(|turn| seed.wrapping_add(turn));
        let met: HashSet<[usize; N]> = turns.map(|turn| places_in(turn, lengths)).collect();
        assert_eq!(met.len(), lengths.iter().product(), "{lengths:?}, seed {seed}");
    }
    for seed in [0, 1, 7, 1 << 40] {
        assert_swept(seed, READ_PER_ROUND, [THERE.len(), ENOUGH.len(), ENOUGH.len()]);
        assert_swept(seed, FEW_PLACES_PER_ROUND, [THERE.len(), TOO_FEW.len()]);
        assert_swept(seed, FEW_HEADS_PER_ROUND, [THERE.len(), TOO_FEW_HEADS.len()]);
        assert_swept(seed, NOT_THERE_PER_ROUND, [NOT_THERE.len(), LENT_BEFORE_THE_END]);
        assert_swept(seed, BACKWARDS_PER_ROUND, [BACKWARDS.len(), ANY_LENT.len()]);
        assert_swept(seed, NEM13_PER_ROUND, [OF_NO_DAYS.len(), ANY_LENT.len()]);
        assert_swept(seed, REFUSED_PER_ROUND, [AIMS.len(), WAYS_WITH_REFUSED]);
    }
}

#[test]
fn no_large_case_takes_the_turn_of_a_sweep() {
    assert!(LARGE.iter().all(|number| matches!(number % ROUND, 11 | 12 | 25..=27)));
    assert!(LARGE.iter().all(|number| *number < RUN));
}

#[test]
fn every_seed_gives_every_refusal_and_no_bad_case() {
    for seed in [0, 1, 2, u64::MAX] {
        let input: Vec<u8> = (0..RUN).flat_map(|number| case(seed, number)).collect();
        assert!(input.len() < 15_000_000, "{} bytes", input.len());
        let mut output = Vec::new();
        let tally = probe::run(&input, &mut output).unwrap();
        assert!(output.len() < 25_000_000, "{} bytes", output.len());
        let lines = tally.lines();
        assert!(!lines.contains("bad case"), "{lines}");
        assert!(!output.windows(9).any(|bytes| bytes == b" changed\n"));
        assert!(tally.months.accepted > 0, "{lines}");
        for number in of_months() {
            assert!(tally.months.refusals(number) > 0, "{number}\n{lines}");
        }
    }
}

#[test]
fn a_case_depends_on_seed_and_number_alone() {
    for number in (0..2 * ROUND).chain(LARGE) {
        assert_eq!(case(7, number), case(7, number));
        assert_ne!(case(7, number), case(8, number));
    }
}
