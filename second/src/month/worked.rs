//! Tests: days of one file read in one call, worked out by hand; each stretch equals the single call; the order of
//! refusals.

use super::*;
use crate::day::read_day;

// --- Lists to lend ---

/// What stands in lists before they are lent.
const OLD_BYTE: u8 = 0xEE;
const OLD_REASON: u16 = 0xEEEE;
const OLD_NUMBER: u64 = 0xEEEE_EEEE_EEEE_EEEE;
const OLD_PLACE: usize = 0xEEEE_EEEE_EEEE_EEEE;
const OLD_DATE: u32 = 0xEEEE_EEEE;

/// The eleven lists of a call, each of a length of its own.
#[derive(Clone, Debug, PartialEq, Eq)]
pub struct OwnMonth {
    pub values: Vec<u64>,
    pub flags: Vec<u8>,
    pub methods: Vec<u8>,
    pub reasons: Vec<u16>,
    pub starts: Vec<usize>,
    pub lengths: Vec<usize>,
    pub dates: Vec<u32>,
    pub counts: Vec<usize>,
    pub updates: Vec<u64>,
    pub loads: Vec<u64>,
    pub units: Vec<u8>,
}

impl OwnMonth {
    /// Six long lists of so many places, and five of so many.
    pub fn of(places: usize, heads: usize) -> OwnMonth {
        OwnMonth::of_lengths([places; 6], [heads; 5])
    }

    fn of_lengths(places: [usize; 6], heads: [usize; 5]) -> OwnMonth {
        OwnMonth {
            values: vec![OLD_NUMBER; places[0]],
            flags: vec![OLD_BYTE; places[1]],
            methods: vec![OLD_BYTE; places[2]],
            reasons: vec![OLD_REASON; places[3]],
            starts: vec![OLD_PLACE; places[4]],
            lengths: vec![OLD_PLACE; places[5]],
            dates: vec![OLD_DATE; heads[0]],
            counts: vec![OLD_PLACE; heads[1]],
            updates: vec![OLD_NUMBER; heads[2]],
            loads: vec![OLD_NUMBER; heads[3]],
            units: vec![OLD_BYTE; heads[4]],
        }
    }

    /// The days from the first number to the last. A refused call leaves all as it was.
    pub fn read(&mut self, file: &[u8], first: usize, last: usize) -> Result<DaysRead, Refusal> {
        let before = self.clone();
        let heads = LentHeads {
            dates: &mut self.dates,
            counts: &mut self.counts,
            updates: &mut self.updates,
            loads: &mut self.loads,
            units: &mut self.units,
        };
        let lists = LentLists {
            values: &mut self.values,
            flags: &mut self.flags,
            methods: &mut self.methods,
            reasons: &mut self.reasons,
            starts: &mut self.starts,
            lengths: &mut self.lengths,
        };
        let answer = read_days(file, first, last, lists, heads);
        assert!(answer.is_ok() || *self == before, "a refused call changed a list");
        answer
    }

    /// The same days by single calls in order, each of which is lent what those before it have left of the long lists.
    /// What they answer goes to the other lists. The first refusal is that of the whole, and leaves all as it was.
    pub fn read_singly(&mut self, file: &[u8], first: usize, last: usize) -> Result<DaysRead, Refusal> {
        let before = self.clone();
        let answer = self.read_each(file, first, last);
        if answer.is_err() {
            *self = before;
        }
        answer
    }

    fn read_each(&mut self, file: &[u8], first: usize, last: usize) -> Result<DaysRead, Refusal> {
        // Of no day at all, the file may be refused still.
        read_file(file)?;
        let mut read = DaysRead { days: 0, intervals: 0 };
        for number in first..=last {
            let left = read.intervals;
            let lists = LentLists {
                values: &mut self.values[left..],
                flags: &mut self.flags[left..],
                methods: &mut self.methods[left..],
                reasons: &mut self.reasons[left..],
                starts: &mut self.starts[left..],
                lengths: &mut self.lengths[left..],
            };
            let day = read_day(file, number, lists)?;
            self.set_head(read.days, day).ok_or(Refusal::without_place(15))?;
            read = DaysRead { days: read.days + 1, intervals: left + day.n };
        }
        Ok(read)
    }

    /// Sets this place of the lists that have one place a day, or gives None if one of them hasn't it.
    fn set_head(&mut self, place: usize, day: DayRead) -> Option<()> {
        *self.dates.get_mut(place)? = day.date;
        *self.counts.get_mut(place)? = day.n;
        *self.updates.get_mut(place)? = day.update;
        *self.loads.get_mut(place)? = day.load;
        *self.units.get_mut(place)? = day.unit;
        Some(())
    }
}

// --- A file ---

const HEADER: &str = "100,NEM12,200301011534,MDP1,Ret1\r\n";

fn channel(unit: &str, minutes: u32) -> String {
    format!("200,VABD000163,E1Q1,1,E1,N1,MET,{unit},{minutes},\r\n")
}

/// A 300 whose values are all this one, with these fields for quality, reason and description, and behind them.
fn day(date: u32, n: usize, value: &str, note: &str, times: &str) -> String {
    format!("300,{date},{}{note},{times}\r\n", format!("{value},").repeat(n))
}

/// Two days of half hours, a V day of 15 minutes with a 500 under it, and one of 5 minutes that has null data.
fn file() -> String {
    let first = day(20030501, 48, "1", "A,,", "20030502093000,");
    let second = day(20030502, 48, "0.25", "S14,79,Power out", "20030503093000,20030504101500");
    let third = day(20030501, 96, "0.000001", "V,,", "20030505093000,");
    let cover = "400,1,20,A,,\r\n400,21,96,F51,0,Storm\r\n500,S,,,\r\n";
    let fourth = day(20030430, 288, "7.5", "N,,", "20030506093000,20030507101500");
    let half_hours = format!("{}{first}{second}", channel("kWh", 30));
    let quarters = format!("{}{third}{cover}", channel("MWh", 15));
    format!("{HEADER}{half_hours}{quarters}{}{fourth}900\r\n", channel("Wh", 5))
}

/// How many intervals its days have.
const COUNTS: [usize; 4] = [48, 48, 96, 288];

const NEM13: &str = "100,NEM13,200301011534,MDP1,Ret1\r\n\
                     250,VABD000163,1141,01,E1,11,METSER66,E,000021.2,20031001103230,A,,,000534.5,20040201100030,\
                     E64,77,,343.5,kWh,20040509,20040202125010,20040203000130\r\n900\r\n";

/// The days of that file, and their intervals, that a call with so many places reads.
fn months(first: usize, last: usize, places: usize, heads: usize) -> Result<(usize, usize), u64> {
    numbers(OwnMonth::of(places, heads).read(file().as_bytes(), first, last))
}

/// A refusal of a call on an accepted file has no place.
fn numbers(answer: Result<DaysRead, Refusal>) -> Result<(usize, usize), u64> {
    answer.map(|read| (read.days, read.intervals)).map_err(|refusal| {
        assert_eq!(refusal, Refusal::without_place(refusal.number));
        refusal.number
    })
}

// --- What is read ---

#[test]
fn each_day_has_its_own_stretch_without_gaps() {
    let file = file();
    let mut month = OwnMonth::of(480, 4);
    assert_eq!(month.read(file.as_bytes(), 0, 3), Ok(DaysRead { days: 4, intervals: 480 }));
    assert_eq!(month.dates, [20030501, 20030502, 20030501, 20030430]);
    assert_eq!(month.counts, COUNTS);
    assert_eq!(month.updates, [20030502093000, 20030503093000, 20030505093000, 20030506093000]);
    assert_eq!(month.loads, [0, 20030504101500, 0, 20030507101500]);
    assert_eq!(month.units, [1, 1, 0, 2]);

    let (power, storm) = (file.find("Power").unwrap(), file.find("Storm").unwrap());
    for (stretch, value, flag, method, reason, start, length) in [
        (0..48, 1_000_000, b'A', 255, 65535, 0, 0),
        (48..96, 250_000, b'S', 14, 79, power, 9),
        (96..116, 1, b'A', 255, 65535, 0, 0),
        (116..192, 1, b'F', 51, 0, storm, 5),
        (192..480, 7_500_000, b'N', 255, 65535, 0, 0),
    ] {
        for place in stretch {
            assert_eq!(month.values[place], value, "{place}");
            assert_eq!((month.flags[place], month.methods[place], month.reasons[place]), (flag, method, reason));
            assert_eq!((month.starts[place], month.lengths[place]), (start, length), "{place}");
        }
    }
}

#[test]
fn days_from_the_middle_begin_at_the_lists_first_place() {
    let mut month = OwnMonth::of(144, 2);
    assert_eq!(month.read(file().as_bytes(), 1, 2), Ok(DaysRead { days: 2, intervals: 144 }));
    assert_eq!((&month.dates[..], &month.counts[..]), (&[20030502, 20030501][..], &[48, 96][..]));
    assert_eq!((month.values[0], month.values[47], month.values[48], month.values[143]), (250_000, 250_000, 1, 1));
}

#[test]
fn places_behind_the_days_stay() {
    let mut month = OwnMonth::of_lengths([97, 98, 99, 100, 101, 480], [3, 4, 5, 6, 400]);
    let before = month.clone();
    assert_eq!(month.read(file().as_bytes(), 0, 1), Ok(DaysRead { days: 2, intervals: 96 }));
    assert_eq!(month.values[96..], before.values[96..]);
    assert_eq!(month.flags[96..], before.flags[96..]);
    assert_eq!(month.methods[96..], before.methods[96..]);
    assert_eq!(month.reasons[96..], before.reasons[96..]);
    assert_eq!(month.starts[96..], before.starts[96..]);
    assert_eq!(month.lengths[96..], before.lengths[96..]);
    assert_eq!(month.dates[2..], before.dates[2..]);
    assert_eq!(month.counts[2..], before.counts[2..]);
    assert_eq!(month.updates[2..], before.updates[2..]);
    assert_eq!(month.loads[2..], before.loads[2..]);
    assert_eq!(month.units[2..], before.units[2..]);
    // What comes before them is filled to its last place.
    assert_eq!((month.values[95], month.lengths[95], month.units[1]), (250_000, 9, 1));
}

#[test]
fn a_call_equals_the_single_calls_in_order() {
    for first in 0..6 {
        for last in 0..6 {
            for (places, heads) in [(480, 4), (481, 5), (479, 4), (192, 4), (191, 3), (96, 2), (480, 1), (47, 0)] {
                let (mut one, mut singly) = (OwnMonth::of(places, heads), OwnMonth::of(places, heads));
                let answer = one.read(file().as_bytes(), first, last);
                assert_eq!(answer, singly.read_singly(file().as_bytes(), first, last), "{first} to {last}");
                assert_eq!(one, singly, "{first} to {last}");
            }
        }
    }
}

// --- Places that are missing ---

#[test]
fn every_list_has_to_have_its_places() {
    assert!(OwnMonth::of_lengths([480; 6], [4; 5]).read(file().as_bytes(), 0, 3).is_ok());
    for list in 0..6 {
        for length in [0, 47, 191, 192, 479] {
            let mut places = [480; 6];
            places[list] = length;
            let mut month = OwnMonth::of_lengths(places, [4; 5]);
            assert_eq!(numbers(month.read(file().as_bytes(), 0, 3)), Err(15), "list {list} of {length}");
        }
    }
    for list in 0..5 {
        for length in [0, 1, 3] {
            let mut heads = [4; 5];
            heads[list] = length;
            let mut month = OwnMonth::of_lengths([480; 6], heads);
            assert_eq!(numbers(month.read(file().as_bytes(), 0, 3)), Err(15), "list {list} of {length}");
        }
    }
}

#[test]
fn places_are_counted_over_all_days_of_the_call_and_no_others() {
    for first in 0..4 {
        for last in first..4 {
            let intervals: usize = COUNTS[first..=last].iter().sum();
            let days = last - first + 1;
            assert_eq!(months(first, last, intervals, days), Ok((days, intervals)));
            assert_eq!(months(first, last, 100_000, 400), Ok((days, intervals)));
            assert_eq!(months(first, last, intervals - 1, days), Err(15));
            assert_eq!(months(first, last, intervals, days - 1), Err(15));
        }
    }
}

// --- Days that aren't there ---

#[test]
fn a_day_that_isnt_there_is_14_behind_days_that_fit() {
    for last in [4, 5, 1_000_000, usize::MAX - 1, usize::MAX] {
        for first in 0..4 {
            let intervals = COUNTS[first..].iter().sum();
            // The lists are full when the missing one comes.
            assert_eq!(months(first, last, intervals, 4 - first), Err(14), "{first} to {last}");
            assert_eq!(months(first, last, 100_000, 400), Err(14), "{first} to {last}");
            // A lower day has too few places.
            assert_eq!(months(first, last, intervals - 1, 400), Err(15), "{first} to {last}");
            assert_eq!(months(first, last, 100_000, 3 - first), Err(15), "{first} to {last}");
            assert_eq!(months(first, last, 0, 0), Err(15), "{first} to {last}");
        }
    }
}

#[test]
fn a_first_day_that_isnt_there_is_14_however_short_the_lists_are() {
    for (first, last) in [(4, 4), (4, 5), (4, usize::MAX), (1_000_000, 1_000_001), (usize::MAX, usize::MAX)] {
        for (places, heads) in [(480, 4), (47, 1), (48, 0), (0, 1), (0, 0)] {
            assert_eq!(months(first, last, places, heads), Err(14), "{first} to {last}");
        }
    }
}

#[test]
fn a_first_day_above_the_last_reads_nothing() {
    for (first, last) in [(1, 0), (3, 2), (3, 0), (4, 3), (5, 4), (usize::MAX, 0), (usize::MAX, usize::MAX - 1)] {
        for (places, heads) in [(480, 4), (1, 1), (48, 0), (0, 1), (0, 0)] {
            let mut month = OwnMonth::of(places, heads);
            let before = month.clone();
            assert_eq!(month.read(file().as_bytes(), first, last), Ok(DaysRead { days: 0, intervals: 0 }));
            assert_eq!(month, before);
        }
    }
}

#[test]
fn a_nem13_file_has_no_days() {
    for (places, heads) in [(0, 0), (48, 1), (0, 400), (100_000, 0)] {
        for (first, last) in [(0, 0), (0, 1), (1, 1), (0, usize::MAX), (usize::MAX, usize::MAX)] {
            let answer = OwnMonth::of(places, heads).read(NEM13.as_bytes(), first, last);
            assert_eq!(numbers(answer), Err(14), "{first} to {last}");
        }
        for (first, last) in [(1, 0), (usize::MAX, 0), (usize::MAX, usize::MAX - 1)] {
            let answer = OwnMonth::of(places, heads).read(NEM13.as_bytes(), first, last);
            assert_eq!(numbers(answer), Ok((0, 0)), "{first} to {last}");
        }
    }
}

// --- Files that are refused ---

#[test]
fn a_refused_file_gives_its_own_refusal_first() {
    let file = file();
    let behind = file.clone() + "x";
    let spoilt = file.replace("7.5,N", "7.55,N");
    let place_of_last_value = spoilt.find("7.55,N").unwrap();
    for (refused, refusal) in [
        (&behind, Refusal { number: 13, place: file.len(), record: 12, field: 0 }),
        (&spoilt, Refusal { number: 6, place: place_of_last_value, record: 10, field: 290 }),
        (&String::new(), Refusal { number: 2, place: 0, record: 0, field: 0 }),
        (&"x".repeat(1_048_577), Refusal { number: 1, place: 0, record: 0, field: 0 }),
    ] {
        for (first, last) in [(0, 0), (0, 3), (1, 0), (4, 4), (0, usize::MAX), (usize::MAX, 0)] {
            for (places, heads) in [(480, 4), (48, 0), (0, 0)] {
                let answer = OwnMonth::of(places, heads).read(refused.as_bytes(), first, last);
                assert_eq!(answer, Err(refusal), "{first} to {last}");
            }
        }
    }
}
