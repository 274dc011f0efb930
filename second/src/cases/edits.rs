//! Edits: cases that find a day's block in its file, and cases that put another block in its place. Behind a replacement
//! that is accepted stand cases on the file that it leaves.

use super::chance::Chance;
use super::files::{self, Channel, Draft, Row};
use super::sweep::{self, which};
use super::words::{self, number_word};
use super::{aimed, blocks, in_turn, requests, AIMS};
use crate::check::{read_file, LONGEST_FILE};
use crate::fields::{day_after, decimal, is_real_date};
use crate::find::find_day;
use crate::records::Kind;
use crate::replace::replace_day;
use crate::units::Unit;
use std::iter;

/// Edits come in rounds of this many.
pub const ROUND: u64 = 16;
/// So many replacements of a round sweep the interval lengths and units.
pub const CHANNELS_PER_ROUND: u64 = 2;
/// In so many the block is aimed at refusals.
const REFUSED_BLOCKS_PER_ROUND: u64 = 3;

/// The refusals that the block of a replacement can be aimed at, each in turn.
const BLOCK_AIMS: [u64; 10] = [2, 3, 4, 5, 6, 7, 9, 10, 11, 12];

/// The edits with these numbers are large ones, each of its own kind. They stand where no sweep has a turn.
pub const LARGE: [u64; 8] = [25, 57, 89, 121, 153, 185, 217, 249];

/// A file or block that is longer than this is a large one.
const LARGE_LENGTH: usize = 100_000;
/// The most bytes that the probe takes as a room or as a block.
const MOST_LENT: usize = 1_100_000;

/// One edit, and the cases that follow it.
pub fn cases(seed: u64, number: u64) -> Vec<Vec<u8>> {
    let chance = &mut Chance::for_edit(seed, number);
    if let Some(which) = LARGE.iter().position(|large| *large == number) {
        return large(chance, which);
    }
    let round = number / ROUND;
    // Which one of a sweep: another seed begins elsewhere.
    let swept = |per_round: u64, place: u64| seed.wrapping_add(round * per_round + place);
    let replacement = match number % ROUND {
        place @ 0..=1 => in_every_channel(chance, swept(CHANNELS_PER_ROUND, place)),
        2 => of_old_length(chance),
        3 => with_read_time(chance, swept(1, 0)),
        place @ 4..=6 => {
            let aim = in_turn(&BLOCK_AIMS, round * REFUSED_BLOCKS_PER_ROUND + (place - 4));
            with_refused_block(chance, aim)
        }
        7 => with_damaged_block(chance),
        8 => in_refused_file(chance, in_turn(&AIMS, round)),
        9 => with_other_length_told(chance),
        10 => of_no_day(chance),
        11 => of_other_date(chance),
        12 => in_small_room(chance),
        place => return vec![find(chance, place, in_turn(&AIMS, round))],
    };
    replacement.cases(chance)
}

// --- Files with a day to be replaced ---

struct Target {
    file: Vec<u8>,
    /// The number of the day.
    day: usize,
    channel: Channel,
    date: u32,
}

impl Target {
    fn any(chance: &mut Chance) -> Target {
        let channel = blocks::some_channel(chance);
        let date = words::date(chance);
        Target::on(chance, channel, date)
    }

    /// A day of such a channel and this date.
    fn on(chance: &mut Chance, channel: Channel, date: u32) -> Target {
        let (draft, day) = draft_with_day(chance, channel, date);
        Target { file: draft.bytes(), day, channel, date }
    }

    fn old_block(&self) -> &[u8] {
        let found = find_day(&self.file, self.day).expect("a day of an accepted file");
        &self.file[found.start..found.end]
    }

    fn new_length(&self, block: &[u8]) -> usize {
        self.file.len() - self.old_block().len() + block.len()
    }
}

/// A file that has a day of such a channel and this date, and that day's number. It may be the only one, the first, the
/// last or between others, in its channel and in the file.
fn draft_with_day(chance: &mut Chance, channel: Channel, date: u32) -> (Draft, usize) {
    let mut draft = Draft { rows: vec![files::header(chance, b"NEM12")] };
    for _ in 0..chance.below(2) {
        draft.rows.extend(files::channel(chance));
    }
    draft.rows.push(files::channel_head(chance, channel));
    let (earlier, later) = dates_around(chance, channel, date);
    for other in earlier {
        draft.rows.extend(files::day_block(chance, channel, other));
    }
    let day = draft.places_of(Kind::R300).len();
    for own_or_later in iter::once(date).chain(later) {
        draft.rows.extend(files::day_block(chance, channel, own_or_later));
    }
    for _ in 0..chance.below(2) {
        draft.rows.extend(files::channel(chance));
    }
    draft.rows.push(files::row(chance, Kind::R900, 0));
    (draft, day)
}

/// The dates of the other days of its channel, before this one and behind it. Only half-hour days may be many.
fn dates_around(chance: &mut Chance, channel: Channel, date: u32) -> (Vec<u32>, Vec<u32>) {
    let most = if channel.n == 48 { 3 } else { 2 };
    let mut dates: Vec<u32> = (0..chance.between(0, most)).map(|_| other_date(chance, date)).collect();
    dates.sort_unstable();
    dates.dedup();
    dates.into_iter().partition(|other| *other < date)
}

/// Another date, often that of the day before or after.
fn other_date(chance: &mut Chance, date: u32) -> u32 {
    loop {
        let other = match chance.below(4) {
            0 => date - 1,
            1 => day_after(date),
            _ => words::date(chance),
        };
        if is_real_date(other) && other != date {
            return other;
        }
    }
}

// --- Blocks ---

fn block_on(chance: &mut Chance, channel: Channel, date: u32) -> Vec<u8> {
    Draft { rows: files::day_block(chance, channel, date) }.bytes()
}

/// A block that is shorter than most.
fn short_block(chance: &mut Chance, channel: Channel, date: u32) -> Vec<u8> {
    let mut day = files::day(chance, channel, date, &[b"A".to_vec(), Vec::new(), Vec::new()]);
    day[2..channel.n + 2].fill(b"0".to_vec());
    Draft { rows: vec![day] }.bytes()
}

/// A block that is longer than the target's own.
fn long_block(chance: &mut Chance, target: &Target) -> Vec<u8> {
    let mut block = block_on(chance, target.channel, target.date);
    let length = block.len().max(target.old_block().len()) + chance.between(10, 600);
    files::fill_with_orders(&mut block, length);
    block
}

/// A block as long as this one, with other values.
fn with_other_digits(chance: &mut Chance, block: &[u8], n: usize) -> Vec<u8> {
    let mut commas = 0;
    let mut other = block.to_vec();
    for byte in &mut other {
        commas += usize::from(*byte == b',');
        // The values of the 300 stand behind its indicator and its date.
        if byte.is_ascii_digit() && (2..n + 2).contains(&commas) {
            *byte = chance.pick(b"0123456789");
        }
    }
    other
}

/// No block, one of any channel and date, or a damaged one.
fn any_block(chance: &mut Chance) -> Vec<u8> {
    let channel = blocks::some_channel(chance);
    let date = words::date(chance);
    match chance.below(4) {
        0 => Vec::new(),
        1..=2 => block_on(chance, channel, date),
        _ => blocks::damaged_bytes(chance, &|chance| files::block(chance, channel)),
    }
}

// --- Rooms ---

#[derive(Clone, Copy)]
enum RoomSize {
    /// The new file fits, often exactly.
    Enough,
    /// The new file doesn't fit, if it is longer than the old one.
    TooSmall,
    /// Mostly enough.
    Any,
}

fn room(chance: &mut Chance, file: &[u8], new_length: usize, size: RoomSize) -> Vec<u8> {
    let too_small = match size {
        RoomSize::Enough => false,
        RoomSize::TooSmall => true,
        RoomSize::Any => chance.one_in(3),
    };
    let length = if too_small && new_length > file.len() {
        let between = chance.between(file.len(), new_length - 1);
        chance.pick(&[file.len(), new_length - 1, between])
    } else {
        file.len().max(new_length) + some_bytes_more(chance)
    };
    with_bytes_behind(chance, file, length)
}

fn some_bytes_more(chance: &mut Chance) -> usize {
    match chance.below(4) {
        0..=1 => 0,
        2 => chance.between(1, 9),
        _ => chance.between(10, 700),
    }
}

/// The file, and bytes behind it up to this length. They may be any, also such as end a file.
fn with_bytes_behind(chance: &mut Chance, file: &[u8], length: usize) -> Vec<u8> {
    let mut room = file.to_vec();
    let behind = length - file.len();
    match chance.below(4) {
        0 => room.resize(length, chance.pick(b"\x00\xff 0\n")),
        1 => room.extend(b"900\r\n".iter().cycle().take(behind)),
        _ => room.extend(iter::repeat_with(|| chance.below(256) as u8).take(behind)),
    }
    room
}

// --- Replacements ---

struct Replacement {
    day: usize,
    /// How long the file in the room is said to be.
    length: usize,
    room: Vec<u8>,
    block: Vec<u8>,
}

impl Replacement {
    fn of(chance: &mut Chance, target: &Target, block: Vec<u8>, size: RoomSize) -> Replacement {
        let room = room(chance, &target.file, target.new_length(&block), size);
        Replacement { day: target.day, length: target.file.len(), room, block }
    }

    /// Its case, and if it is accepted the cases on the edited file.
    fn cases(&self, chance: &mut Chance) -> Vec<Vec<u8>> {
        let mut cases = vec![requests::replace_case(self.day, self.length, &self.room, &self.block)];
        let mut room = self.room.clone();
        if let Ok(length) = replace_day(&mut room, self.length, self.day, &self.block) {
            cases.extend(cases_on_edited(chance, &room[..length], self.day));
        }
        cases
    }
}

/// The edited file is always checked. By chance its channels are totalled and its days read and found, the one that was
/// replaced and others.
fn cases_on_edited(chance: &mut Chance, file: &[u8], day: usize) -> Vec<Vec<u8>> {
    let mut questions = vec!["check".to_string()];
    if file.len() <= LARGE_LENGTH {
        let content = read_file(file).expect("an edited file is accepted");
        let channel = content.days[day].channel;
        let read = |day: usize| format!("day {day} {}", content.days[day].values.len());
        let other_channel = other_number(chance, channel, content.channels.len());
        let other_days = [0, 1].map(|_| other_number(chance, day, content.days.len()));
        let by_chance = [
            (3, Some(format!("total {channel}"))),
            (4, other_channel.map(|channel| format!("total {channel}"))),
            (3, Some(read(day))),
            (4, other_days[0].map(read)),
            (4, other_days[1].map(|day| format!("find {day}"))),
        ];
        questions.extend(by_chance.into_iter().filter_map(|(times, asked)| asked.filter(|_| chance.one_in(times))));
    }
    questions.iter().map(|question| requests::case(question, file)).collect()
}

/// Another number below the count, if there is one.
fn other_number(chance: &mut Chance, number: usize, count: usize) -> Option<usize> {
    (count > 1).then(|| (number + chance.between(1, count - 1)) % count)
}

/// Each interval length with each unit.
pub fn channels() -> Vec<Channel> {
    [30, 15, 5].into_iter().flat_map(|minutes| Unit::all().map(move |unit| Channel::of(minutes, unit))).collect()
}

/// An accepted replacement in a channel of each interval length and unit in turn.
fn in_every_channel(chance: &mut Chance, turn: u64) -> Replacement {
    let channels = channels();
    let channel = channels[which(turn, channels.len())];
    let date = words::date(chance);
    let target = Target::on(chance, channel, date);
    let block = match chance.below(5) {
        0 => short_block(chance, channel, date),
        1 => long_block(chance, &target),
        _ => block_on(chance, channel, date),
    };
    Replacement::of(chance, &target, block, RoomSize::Enough)
}

/// An accepted replacement by a block as long as the old one, or by that very one.
fn of_old_length(chance: &mut Chance) -> Replacement {
    let target = Target::any(chance);
    let mut block = target.old_block().to_vec();
    if !chance.one_in(4) {
        block = with_other_digits(chance, &block, target.channel.n);
    }
    Replacement::of(chance, &target, block, RoomSize::Enough)
}

/// A replacement by a block with each read time near to each date at an edge in turn, mostly for a day of that date.
fn with_read_time(chance: &mut Chance, turn: u64) -> Replacement {
    let channel = blocks::some_channel(chance);
    let rows = sweep::rows_with_read_time(chance, channel, turn);
    let date = decimal(&rows[0][1]) as u32;
    let old_date = if chance.one_in(4) { other_date(chance, date) } else { date };
    let target = Target::on(chance, channel, old_date);
    Replacement::of(chance, &target, Draft { rows }.bytes(), RoomSize::Any)
}

// --- Refused replacements ---

/// A date for a block that is to be refused for something else: mostly the old one.
fn date_of_refused(chance: &mut Chance, target: &Target) -> u32 {
    if chance.one_in(3) {
        other_date(chance, target.date)
    } else {
        target.date
    }
}

/// A replacement by a block that is aimed at one refusal.
fn with_refused_block(chance: &mut Chance, aim: u64) -> Replacement {
    let target = Target::any(chance);
    let (channel, date) = (target.channel, date_of_refused(chance, &target));
    let block = match aim {
        2 if chance.one_in(3) => Vec::new(),
        4 if chance.one_in(3) => two_blocks(chance, channel, date),
        6 if chance.one_in(3) => block_of_other_unit(chance, channel, date),
        _ => {
            let make = |chance: &mut Chance| Draft { rows: files::day_block(chance, channel, date) };
            blocks::aimed_bytes(chance, channel, &make, aim)
        }
    };
    Replacement::of(chance, &target, block, RoomSize::Any)
}

/// This day and one behind it.
fn two_blocks(chance: &mut Chance, channel: Channel, date: u32) -> Vec<u8> {
    [block_on(chance, channel, date), block_on(chance, channel, day_after(date))].concat()
}

/// A block whose values may have more decimals than the channel's unit allows.
fn block_of_other_unit(chance: &mut Chance, channel: Channel, date: u32) -> Vec<u8> {
    let unit = words::unit(chance);
    block_on(chance, Channel::of(channel.minutes, unit), date)
}

/// A replacement by a block with several changes, which it may survive.
fn with_damaged_block(chance: &mut Chance) -> Replacement {
    let target = Target::any(chance);
    let (channel, date) = (target.channel, date_of_refused(chance, &target));
    let make = |chance: &mut Chance| Draft { rows: files::day_block(chance, channel, date) };
    let block = blocks::damaged_bytes(chance, &make);
    Replacement::of(chance, &target, block, RoomSize::Any)
}

/// A number that may be a day's.
fn any_day(chance: &mut Chance) -> usize {
    chance.pick(&[0, 0, 0, 1, 2, 9, 1_000_000, usize::MAX])
}

/// A file aimed at one refusal.
fn refused_file(chance: &mut Chance, aim: u64) -> Vec<u8> {
    let with_days = |chance: &mut Chance| {
        let channel = Channel::half_hours(chance);
        let date = words::date(chance);
        draft_with_day(chance, channel, date).0
    };
    if chance.one_in(4) {
        aimed::bytes_for(chance, &files::accepted, aim)
    } else {
        aimed::bytes_for(chance, &with_days, aim)
    }
}

/// A replacement in a file that is aimed at one refusal. Day and block may be any too.
fn in_refused_file(chance: &mut Chance, aim: u64) -> Replacement {
    let file = refused_file(chance, aim);
    let block = any_block(chance);
    let length = file.len() + some_bytes_more(chance);
    Replacement { day: any_day(chance), length: file.len(), room: with_bytes_behind(chance, &file, length), block }
}

/// A replacement in which only the length is wrong that the file is said to have. It is not longer than the room.
fn with_other_length_told(chance: &mut Chance) -> Replacement {
    let target = Target::any(chance);
    let block = long_block(chance, &target);
    let mut replacement = Replacement::of(chance, &target, block, RoomSize::Enough);
    let length = replacement.length;
    replacement.length = match chance.below(6) {
        0 => 0,
        1 => length - 1,
        2 => length - chance.between(2, 6),
        3 => chance.below(length),
        4 => length + 1,
        _ => chance.between(length + 1, replacement.room.len()),
    };
    replacement
}

/// A replacement of a day that the file doesn't have, or of one in a file that has none. The block may be any.
fn of_no_day(chance: &mut Chance) -> Replacement {
    let target = Target::any(chance);
    let file = if chance.one_in(3) { files::nem13(chance).bytes() } else { target.file.clone() };
    let days = read_file(&file).map_or(0, |content| content.days.len());
    let day = chance.pick(&[days, days, days + 1, 1_000_000, usize::MAX - 1, usize::MAX]);
    let block = if chance.one_in(2) { target.old_block().to_vec() } else { any_block(chance) };
    let length = file.len() + some_bytes_more(chance);
    Replacement { day, length: file.len(), room: with_bytes_behind(chance, &file, length), block }
}

/// A replacement by a block of another date. Some have a read time of the old day, which is none of their own.
fn of_other_date(chance: &mut Chance) -> Replacement {
    let target = Target::any(chance);
    let date = other_date(chance, target.date);
    let mut rows = files::day_block(chance, target.channel, date);
    if chance.one_in(4) {
        rows.push(order_at(chance, words::time_at(target.date, 120_000)));
    }
    let size = if chance.one_in(2) { RoomSize::TooSmall } else { RoomSize::Enough };
    Replacement::of(chance, &target, Draft { rows }.bytes(), size)
}

fn order_at(chance: &mut Chance, read_time: u64) -> Row {
    let mut order = files::row(chance, Kind::R500, 0);
    order[3] = number_word(read_time);
    order
}

/// A replacement in a room that is shorter than the new file, or shorter than the file is said to be. Then all else may
/// be right, or day, file and block wrong too.
fn in_small_room(chance: &mut Chance) -> Replacement {
    let target = Target::any(chance);
    let block = long_block(chance, &target);
    let length = target.file.len();
    match chance.below(4) {
        0..=1 => Replacement::of(chance, &target, block, RoomSize::TooSmall),
        2 => {
            let keep = if chance.one_in(2) { length - 1 } else { chance.below(length) };
            Replacement { day: target.day, length, room: target.file[..keep].to_vec(), block }
        }
        _ => {
            let aim = chance.pick(&AIMS);
            let room = if chance.one_in(3) { target.file } else { refused_file(chance, aim) };
            let length = chance.pick(&[room.len() + 1, room.len() + 1_000, MOST_LENT + 1, usize::MAX]);
            Replacement { day: any_day(chance), length, room, block: any_block(chance) }
        }
    }
}

// --- Large ones ---

fn large(chance: &mut Chance, which: usize) -> Vec<Vec<u8>> {
    let replacement = match which {
        0 => to_the_limit(chance, 0, |chance| LONGEST_FILE + chance.below(2) * chance.between(1, 9_000)),
        1 => to_the_limit(chance, 1, |chance| LONGEST_FILE + chance.between(1, 9_000)),
        2 => to_the_limit(chance, 1, |chance| LONGEST_FILE - chance.below(2)),
        3 => by_large_block(chance, |_, date| date, |_| Vec::new()),
        4 => by_large_block(chance, other_date, |_| Vec::new()),
        5 => by_large_block(chance, |_, date| date, bytes_that_spoil_a_block),
        6 => in_file_over_the_limit(chance),
        _ => {
            let length = chance.between(150_000, 250_000);
            let file = files::file_of_length(chance, length);
            let days = read_file(&file).expect("an accepted file").days.len();
            return vec![requests::case(&format!("find {}", chance.place_among(days)), &file)];
        }
    };
    replacement.cases(chance)
}

/// A replacement after which the file would have so many bytes more than it may, in a room of a size of its own.
fn to_the_limit(chance: &mut Chance, past: usize, room_length: fn(&mut Chance) -> usize) -> Replacement {
    let shorter_by = chance.between(10, 2_000);
    let file = files::file_of_length(chance, LONGEST_FILE - shorter_by);
    let days = read_file(&file).expect("an accepted file").days.len();
    let day = chance.place_among(days);
    let found = find_day(&file, day).expect("a day of it");
    let mut block = file[found.start..found.end].to_vec();
    let length = block.len() + shorter_by + past;
    files::fill_with_orders(&mut block, length);
    let room_length = room_length(chance);
    Replacement { day, length: file.len(), room: with_bytes_behind(chance, &file, room_length), block }
}

/// A replacement in a small file and a small room, by a block of this date and with this end, with which the file would
/// be one byte too long at least.
fn by_large_block(
    chance: &mut Chance,
    date: fn(&mut Chance, u32) -> u32,
    end: fn(&mut Chance) -> Vec<u8>,
) -> Replacement {
    let target = Target::any(chance);
    let date = date(chance, target.date);
    let mut block = block_on(chance, target.channel, date);
    let length = LONGEST_FILE + 1 - target.new_length(b"") + chance.below(2) * chance.between(1, 9_000);
    files::fill_with_orders(&mut block, length);
    block.extend(end(chance));
    let room_length = target.file.len() + some_bytes_more(chance);
    let room = with_bytes_behind(chance, &target.file, room_length);
    Replacement { day: target.day, length: target.file.len(), room, block }
}

fn bytes_that_spoil_a_block(chance: &mut Chance) -> Vec<u8> {
    chance.pick(&[b"x".as_slice(), b"400,1,1,A,,\r\n", b"500,A,,,x\r\n", b"500,A,\x7f,,\r\n", b"900\r\n"]).to_vec()
}

/// A file that is over the limit, and a day and a block that may be any.
fn in_file_over_the_limit(chance: &mut Chance) -> Replacement {
    let length = LONGEST_FILE + chance.between(1, 9_000);
    let room = files::file_of_length(chance, length);
    Replacement { day: any_day(chance), length, room, block: any_block(chance) }
}

// --- Finding ---

/// A case that looks for a day in a file with some, in an accepted file, or in one aimed at a refusal.
fn find(chance: &mut Chance, place: u64, aim: u64) -> Vec<u8> {
    let file = match place {
        13 => Target::any(chance).file,
        14 => files::accepted(chance).bytes(),
        _ => refused_file(chance, aim),
    };
    requests::find_case(&file, chance)
}
