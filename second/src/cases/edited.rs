//! Tests: a run has edits of every kind that the rules tell apart, and each replacement that is accepted leaves what is
//! promised.

use super::edits;
use super::parts::number;
use super::requests::words_and_bytes;
use super::{of_number, EDIT_EVERY};
use crate::block::check_block;
use crate::check::{check, read_file, LONGEST_FILE};
use crate::find::{find_day, DayFound};
use crate::probe;
use crate::refusal::Refusal;
use crate::replace::replace_day;
use crate::total::total;
use crate::walk::{Day, MeterFile};

// --- Replacements taken apart ---

struct Replaced<'a> {
    day: usize,
    /// How long the file is said to be.
    length: usize,
    room: &'a [u8],
    block: &'a [u8],
    answer: Result<usize, Refusal>,
    /// The room as it is left.
    left: Vec<u8>,
    /// The day that is meant, if the file is accepted and has it.
    found: Option<DayFound>,
}

impl<'a> Replaced<'a> {
    fn of_case(case: &'a [u8]) -> Option<Replaced<'a>> {
        let (words, bytes) = words_and_bytes(case);
        let ["replace", day, length, room, _] = words[..] else { return None };
        let (day, length) = (number(day), number(length));
        let (room, block) = bytes.split_at(number(room));
        let mut left = room.to_vec();
        let answer = replace_day(&mut left, length, day, block);
        let found = room.get(..length).and_then(|file| find_day(file, day).ok());
        Some(Replaced { day, length, room, block, answer, left, found })
    }

    /// The file, which is all of the room if it is said to be longer.
    fn file(&self) -> &'a [u8] {
        &self.room[..self.length.min(self.room.len())]
    }

    fn is_refused(&self, number: u64) -> bool {
        self.answer.is_err_and(|refusal| refusal.number == number)
    }

    fn file_is_refused(&self) -> bool {
        check(self.file()).is_err()
    }

    fn old_block(&self) -> Option<&'a [u8]> {
        self.found.map(|found| &self.file()[found.start..found.end])
    }

    /// How long the file would be with the block.
    fn new_length(&self) -> Option<usize> {
        self.old_block().map(|old| self.length - old.len() + self.block.len())
    }

    fn room_is_too_small(&self) -> bool {
        self.new_length().is_some_and(|length| length > self.room.len())
    }

    fn is_over_limit(&self) -> bool {
        self.new_length().is_some_and(|length| length > LONGEST_FILE)
    }

    /// Whether the block is refused on its own, behind the day's 200 if there is one.
    fn block_is_refused(&self) -> bool {
        let (length, unit) = self.found.map_or((30, 0), |found| (found.length, found.unit));
        check_block(self.block, length, unit).is_err()
    }

    /// Whether the block is refused behind the day's own 200, by this number.
    fn is_refused_by_block(&self, number: u64) -> bool {
        self.found.is_some() && self.block_is_refused() && self.is_refused(number)
    }

    /// Whether the block begins as one of the day's date does.
    fn has_days_date(&self) -> bool {
        self.old_block().is_some_and(|old| self.block.starts_with(&old[..12]))
    }

    /// Whether the block begins as one of another date does.
    fn has_other_date(&self) -> bool {
        self.found.is_some() && self.block.starts_with(b"300,") && !self.has_days_date()
    }

    fn block_has(&self, indicator: &str) -> bool {
        self.block.windows(5).any(|bytes| bytes == format!("\n{indicator},").as_bytes())
    }

    /// Whether the day stands so among the days of its channel: how many are before it, and how many behind.
    fn stands(&self, as_asked: fn(usize, usize) -> bool) -> bool {
        let (Some(found), Ok(content)) = (self.found, read_file(self.file())) else { return false };
        let of_channel = |days: &[Day]| days.iter().filter(|day| day.channel == found.channel).count();
        as_asked(of_channel(&content.days[..self.day]), of_channel(&content.days[self.day + 1..]))
    }

    /// Whether its channel stands so among those of the file: how many are before it, and how many behind.
    fn channel_stands(&self, as_asked: fn(usize, usize) -> bool) -> bool {
        let (Some(found), Ok(content)) = (self.found, read_file(self.file())) else { return false };
        as_asked(found.channel, content.channels.len() - 1 - found.channel)
    }
}

// --- What a run has ---

/// What a kind of replacement is called, and whether one is of this kind.
type Kind = (&'static str, fn(&Replaced) -> bool);

const ACCEPTED: [Kind; 18] = [
    ("a shorter block", |edit| edit.answer.is_ok_and(|length| length < edit.length)),
    ("a longer block", |edit| edit.answer.is_ok_and(|length| length > edit.length)),
    ("another block of that length", |edit| edit.answer == Ok(edit.length) && edit.old_block() != Some(edit.block)),
    ("the very same block", |edit| edit.old_block() == Some(edit.block)),
    ("room of the new length", |edit| {
        edit.answer.is_ok_and(|length| length > edit.length && length == edit.room.len())
    }),
    ("room of the old length", |edit| {
        edit.answer.is_ok_and(|length| length < edit.length) && edit.length == edit.room.len()
    }),
    ("a byte more of room", |edit| edit.answer.is_ok_and(|length| length + 1 == edit.room.len())),
    ("much room behind", |edit| edit.answer.is_ok_and(|length| length + 500 < edit.room.len())),
    ("a channel's only day", |edit| edit.stands(|before, behind| before + behind == 0)),
    ("a channel's first day", |edit| edit.stands(|before, behind| before == 0 && behind > 0)),
    ("a channel's middle day", |edit| edit.stands(|before, behind| before > 0 && behind > 0)),
    ("a channel's last day", |edit| edit.stands(|before, behind| before > 0 && behind == 0)),
    ("the first channel", |edit| edit.channel_stands(|before, behind| before == 0 && behind > 0)),
    ("the last channel", |edit| edit.channel_stands(|before, behind| before > 0 && behind == 0)),
    ("a V day", |edit| edit.block_has("400") && !edit.block_has("500")),
    ("a V day with 500s", |edit| edit.block_has("400") && edit.block_has("500")),
    ("a plain day with 500s", |edit| !edit.block_has("400") && edit.block_has("500")),
    ("the limit is reached", |edit| edit.answer == Ok(LONGEST_FILE)),
];

const REFUSED: [Kind; 31] = [
    ("15: a length above the room's", |edit| edit.is_refused(15) && edit.length > edit.room.len()),
    ("15: and the block fine", |edit| {
        edit.is_refused(15) && edit.room.len() + 1 == edit.length && !edit.block_is_refused()
    }),
    ("15: and file and block wrong", |edit| {
        edit.is_refused(15) && edit.length > edit.room.len() && edit.file_is_refused() && edit.block_is_refused()
    }),
    ("15: and the file over every limit", |edit| edit.is_refused(15) && edit.length > 1_100_000),
    ("a refused file: and no such day", |edit| {
        edit.file_is_refused() && edit.length <= edit.room.len() && edit.day > 9_000
    }),
    ("a refused file: and no block", |edit| {
        edit.file_is_refused() && edit.length <= edit.room.len() && edit.block.is_empty()
    }),
    ("2: no file", |edit| edit.is_refused(2) && edit.length == 0 && !edit.room.is_empty()),
    ("2: the file is said to be a byte shorter", |edit| {
        edit.is_refused(2) && edit.room.get(..edit.length + 1).is_some_and(|file| check(file).is_ok())
    }),
    ("13: the file is said to be a byte longer", |edit| {
        edit.is_refused(13) && check(&edit.room[..edit.length - 1]).is_ok()
    }),
    ("1: the file is over the limit", |edit| edit.is_refused(1) && edit.length > LONGEST_FILE),
    ("14: behind the last day", |edit| edit.is_refused(14) && days_of(edit.file()) == Some(edit.day)),
    ("14: a huge number", |edit| edit.is_refused(14) && edit.day == usize::MAX),
    ("14: no day in the file", |edit| edit.is_refused(14) && days_of(edit.file()) == Some(0)),
    ("14: and a refused block", |edit| edit.is_refused(14) && edit.block_is_refused()),
    ("2: no block", |edit| edit.is_refused_by_block(2) && edit.block.is_empty()),
    ("4: two blocks", |edit| {
        edit.is_refused_by_block(4) && edit.answer.is_err_and(|at| edit.block[at.place..].starts_with(b"300,"))
    }),
    ("10: at the block's end", |edit| {
        edit.is_refused_by_block(10) && edit.answer.is_err_and(|at| at.place == edit.block.len())
    }),
    ("12: a read of the old day under another date", |edit| edit.is_refused_by_block(12) && edit.has_other_date()),
    ("a refused block: and another date", |edit| {
        edit.found.is_some() && edit.block_is_refused() && edit.has_other_date()
    }),
    ("a refused block: and a small room", |edit| {
        edit.block_is_refused() && edit.room_is_too_small() && !edit.is_over_limit()
    }),
    ("a refused block: and the limit passed", |edit| edit.block_is_refused() && edit.is_over_limit()),
    ("8: room enough", |edit| edit.is_refused(8) && edit.found.is_some() && !edit.room_is_too_small()),
    ("8: a small room", |edit| edit.is_refused(8) && edit.room_is_too_small() && !edit.is_over_limit()),
    ("8: the limit passed", |edit| edit.is_refused(8) && edit.is_over_limit()),
    ("8: with a read of its own date", |edit| edit.is_refused(8) && edit.found.is_some() && edit.block_has("500")),
    ("8: a file's own", |edit| edit.is_refused(8) && edit.file_is_refused()),
    ("1: room enough", |edit| edit.is_refused(1) && edit.is_over_limit() && !edit.room_is_too_small()),
    ("1: a small room", |edit| edit.is_refused(1) && edit.is_over_limit() && edit.room_is_too_small()),
    ("1: by one byte", |edit| edit.is_refused(1) && edit.new_length() == Some(LONGEST_FILE + 1)),
    ("15: a byte too small", |edit| edit.is_refused(15) && edit.new_length() == Some(edit.room.len() + 1)),
    ("15: no room behind the file", |edit| {
        edit.is_refused(15) && edit.found.is_some() && edit.room.len() == edit.length
    }),
];

fn days_of(file: &[u8]) -> Option<usize> {
    check(file).ok().map(|summary| summary.days)
}

/// What a kind of find is called, and whether a file and a number are of this kind.
type FindKind = (&'static str, fn(&[u8], usize) -> bool);

const FINDS: [FindKind; 10] = [
    ("the first day of several", |file, day| days_of(file).is_some_and(|days| days > 1 && day == 0)),
    ("the last day of several", |file, day| days_of(file).is_some_and(|days| days > 1 && day + 1 == days)),
    ("the day behind the last", |file, day| days_of(file).is_some_and(|days| days > 0 && day == days)),
    ("a huge number", |file, day| days_of(file).is_some_and(|days| days > 0) && day == usize::MAX),
    ("no day in the file", |file, _| days_of(file) == Some(0)),
    ("a refused file", |file, day| check(file).is_err() && day == 0),
    ("a refused file and a huge number", |file, day| check(file).is_err() && day == usize::MAX),
    ("a large file", |file, day| file.len() >= 150_000 && find_day(file, day).is_ok()),
    ("a channel behind another", |file, day| find_day(file, day).is_ok_and(|found| found.channel > 0)),
    ("a day with 500s", |file, day| {
        let found = find_day(file, day);
        found.is_ok_and(|found| file[found.start..found.end].windows(5).any(|bytes| bytes == b"\n500,"))
    }),
];

/// The edits of a run of 5,000 numbers, with what follows them.
fn edits_of_run(seed: u64) -> Vec<Vec<u8>> {
    (0..5000 / EDIT_EVERY).flat_map(|number| edits::cases(seed, number)).collect()
}

#[test]
fn a_run_has_every_kind_of_replacement() {
    for seed in [1, 2] {
        let cases = edits_of_run(seed);
        let edits: Vec<Replaced> = cases.iter().filter_map(|case| Replaced::of_case(case)).collect();
        for (name, is_of_kind) in ACCEPTED {
            assert!(edits.iter().any(|edit| edit.answer.is_ok() && is_of_kind(edit)), "{name}, seed {seed}");
        }
        for (name, is_of_kind) in REFUSED {
            assert!(edits.iter().any(|edit| edit.answer.is_err() && is_of_kind(edit)), "{name}, seed {seed}");
        }
        for number in [2, 3, 4, 5, 6, 7, 9, 10, 11, 12] {
            let has = |other_date: bool| {
                edits.iter().any(|edit| edit.is_refused_by_block(number) && edit.has_other_date() == other_date)
            };
            assert!(has(false) && has(true), "{number} of a block, seed {seed}");
        }
        for channel in edits::channels() {
            let is_here = |found: DayFound| (found.length, found.unit) == (channel.minutes, channel.unit.number());
            let is_swept = |edit: &&Replaced| edit.answer.is_ok() && edit.found.is_some_and(is_here);
            assert!(edits.iter().any(|edit| is_swept(&edit)), "{channel:?}, seed {seed}");
        }
    }
}

#[test]
fn a_run_has_every_kind_of_find() {
    for seed in [1, 2] {
        let mut finds: Vec<(Vec<u8>, usize)> = Vec::new();
        for case in edits_of_run(seed) {
            let (words, bytes) = words_and_bytes(&case);
            if let ["find", day, _] = words[..] {
                finds.push((bytes.to_vec(), number(day)));
            }
        }
        for (name, is_of_kind) in FINDS {
            assert!(finds.iter().any(|(file, day)| is_of_kind(file, *day)), "{name}, seed {seed}");
        }
    }
}

#[test]
fn no_large_edit_takes_the_turn_of_a_sweep() {
    let rounds = 5000 / EDIT_EVERY / edits::ROUND;
    assert!(edits::channels().len() as u64 <= rounds * edits::CHANNELS_PER_ROUND);
    for number in edits::LARGE {
        assert!(matches!(number % edits::ROUND, 2 | 7 | 9..=14), "edit {number}");
    }
}

// --- What an accepted replacement leaves ---

/// Whether two days say the same, wherever their descriptions stand.
fn say_same(day: &Day, other: &Day) -> bool {
    let heads = |day: &Day| (day.date, day.unit, day.update, day.load);
    let notes_agree = day.notes.iter().zip(&other.notes).all(|(note, other)| note.says_same_as(other));
    heads(day) == heads(other) && day.values == other.values && day.notes.len() == other.notes.len() && notes_agree
}

fn sum_of(day: &Day) -> u128 {
    day.values.iter().map(|value| u128::from(*value)).sum()
}

/// The old day's file with the block as its only day.
fn file_of_block(edit: &Replaced, old: &MeterFile, found: DayFound) -> Vec<u8> {
    let channel = old.channels[found.channel].record.as_ref().expect("a 200");
    let header_end = edit.file().windows(2).position(|pair| pair == b"\r\n").expect("a 100") + 2;
    [&edit.file()[..header_end], &edit.file()[channel.start..channel.end], edit.block, b"900\r\n"].concat()
}

fn hold_to_promises(edit: &Replaced, new_length: usize) {
    let (file, edited) = (edit.file(), &edit.left[..new_length]);
    let found = edit.found.expect("the day of an accepted replacement");
    let difference = edit.block.len() as isize - (found.end - found.start) as isize;

    // Bytes: the block in the old one's place, all else as it was.
    assert_eq!(new_length as isize, edit.length as isize + difference);
    assert_eq!(edited[..found.start], file[..found.start]);
    assert_eq!(edited[found.start..found.start + edit.block.len()], *edit.block);
    assert_eq!(edited[found.start + edit.block.len()..], file[found.end..]);
    assert_eq!(edit.left[new_length..], edit.room[new_length..]);

    // The file is accepted, with the same version, channels and days.
    assert_eq!(check(edited), check(file));
    let (old, new) = (read_file(file).expect("accepted"), read_file(edited).expect("accepted"));

    // The day is the block's, and the others are the same, their descriptions shifted where they stand behind it.
    let of_block = file_of_block(edit, &old, found);
    let of_block = read_file(&of_block).expect("a file of the block alone");
    assert!(say_same(&new.days[edit.day], &of_block.days[0]));
    for number in (0..old.days.len()).filter(|number| *number != edit.day) {
        let (old_day, new_day) = (&old.days[number], &new.days[number]);
        assert!(say_same(old_day, new_day), "day {number}");
        let shift = if number > edit.day { difference } else { 0 };
        assert_eq!(new_day.start as isize, old_day.start as isize + shift);
        for (old_note, new_note) in old_day.notes.iter().zip(&new_day.notes) {
            assert_eq!(new_note.description_start as isize, old_note.description_start as isize + shift);
        }
    }

    // The channel's total is the old one less the old day's sum plus the new one's; the others stay.
    for channel in 0..old.channels.len() {
        let (mut expected, new_total) = (old.channels[channel].total, total(edited, channel));
        if channel == found.channel {
            expected = expected - sum_of(&old.days[edit.day]) + sum_of(&new.days[edit.day]);
        }
        assert_eq!(new_total, Ok(expected), "channel {channel}");
        let days = new.days.iter().filter(|day| day.channel == channel);
        assert_eq!(new_total, Ok(days.map(sum_of).sum()), "a fresh count of channel {channel}");
    }
    let at_new_place = DayFound { end: found.start + edit.block.len(), ..found };
    assert_eq!(find_day(edited, edit.day), Ok(at_new_place));
}

#[test]
fn every_accepted_replacement_of_a_run_leaves_what_is_promised() {
    for seed in [1, 2] {
        let mut accepted = 0;
        for case in edits_of_run(seed) {
            let Some(edit) = Replaced::of_case(&case) else { continue };
            match edit.answer {
                Ok(new_length) => {
                    hold_to_promises(&edit, new_length);
                    accepted += 1;
                }
                Err(_) => assert_eq!(edit.left, edit.room, "a refusal changes nothing"),
            }
        }
        assert!(accepted > 150, "only {accepted} are accepted");
    }
}

#[test]
fn behind_every_accepted_replacement_the_edited_file_is_checked() {
    let input: Vec<u8> = (0..2000).flat_map(|index| of_number(1, index).concat()).collect();
    let tally = probe::run(&input, &mut std::io::sink()).unwrap();
    assert!(tally.replacements.accepted > 50);
    assert_eq!(tally.checked_replacements, tally.replacements.accepted, "{}", tally.lines());
}
