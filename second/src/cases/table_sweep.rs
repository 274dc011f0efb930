//! Files to be written as tables. Most are accepted: they sweep the units in every spelling, the dates at an edge with
//! every interval length, and quotes in descriptions. The others are aimed at refusals, many of which come behind days
//! or 250s that are fine.

use super::chance::Chance;
use super::files::{self, Channel, Draft, Row};
use super::sweep::which;
use super::words::{self, Spelling, Word};
use super::{aimed, in_turn, AIMS};
use crate::fields::{Rule, LONGEST_DESCRIPTION, MOST_DECIMALS};
use crate::records::Kind;
use crate::units::Unit;

/// Files come in rounds of this many. In each round one is refused, mostly, and so many sweep.
const ROUND: u64 = 10;
const NEM13_PER_ROUND: u64 = 3;
const NEM12_PER_ROUND: u64 = 5;

/// The files with these numbers have the largest length and one byte more. They stand where no sweep has a turn.
const LARGE_FILES: [u64; 2] = [21, 40];

/// One file.
pub fn file(seed: u64, index: u64) -> Vec<u8> {
    let chance = &mut Chance::for_case(seed, index);
    if let Some(which) = LARGE_FILES.iter().position(|large| *large == index) {
        return files::large(chance, which);
    }
    let round = index / ROUND;
    // Which one of a sweep: another seed begins elsewhere.
    let swept = |per_round: u64, place: u64| seed.wrapping_add(round * per_round + place);
    match index % ROUND {
        0 => aimed::bytes_for(chance, &files::accepted, in_turn(&AIMS, round)),
        1 => files::accepted(chance).bytes(),
        place @ 2..=4 => nem13(chance, swept(NEM13_PER_ROUND, place - 2)).bytes(),
        place => nem12(chance, swept(NEM12_PER_ROUND, place - 5)).bytes(),
    }
}

// --- What is swept ---

/// A unit and a word for it, in each spelling of each unit in turn.
fn unit_and_word(chance: &mut Chance, turn: u64) -> (Unit, Word) {
    let units: Vec<(Unit, Spelling)> =
        Unit::all().flat_map(|unit| words::SPELLINGS.map(|spelling| (unit, spelling))).collect();
    let (unit, spelling) = units[which(turn, units.len())];
    let name = unit.name();
    let others = [name.to_string(), name.to_lowercase(), name.to_uppercase()];
    loop {
        let word = words::spelled(chance, unit, spelling);
        // A mixed one is to be none of the others. One letter alone can't be.
        let is_other = others.iter().any(|other| other.as_bytes() == word);
        if spelling != Spelling::Mixed || !is_other || name.len() == 1 {
            return (unit, word);
        }
    }
}

/// Forms of descriptions with quotes: `q` stands for one, `x` for some text.
const QUOTED: [&str; 9] = ["q", "qq", "qqq", "qx", "xq", "qxq", "xqx", "xqqx", "xqxqx"];

fn forms() -> Vec<String> {
    let longest = "q".repeat(LONGEST_DESCRIPTION);
    QUOTED.into_iter().map(String::from).chain([longest]).collect()
}

fn description_of(chance: &mut Chance, form: &str) -> Word {
    let mut description = Word::new();
    for letter in form.bytes() {
        if letter == b'q' {
            description.push(b'"');
        } else {
            let length = chance.between(1, 12);
            description.extend(words::text(chance, length));
        }
    }
    description
}

/// Values that stand at the edges of how one is written: zeros that are needless and zeros that are not.
fn edge_values(decimals: usize) -> Vec<Word> {
    let words = ["0", "0.0", "0.5", "5.0", "0000010", "1000000.0"].map(|word| word.as_bytes().to_vec());
    let smallest = [b"0.", &b"000001"[MOST_DECIMALS - decimals..]].concat();
    words.into_iter().chain([smallest, words::largest_value(decimals)]).collect()
}

// --- NEM12 ---

/// A channel that is swept, and most often one before it or behind it, or both.
fn nem12(chance: &mut Chance, turn: u64) -> Draft {
    let mut rows = vec![files::header(chance, b"NEM12")];
    if chance.one_in(2) {
        rows.extend(files::channel(chance));
    }
    rows.extend(channel(chance, turn));
    if chance.one_in(2) {
        rows.extend(files::channel(chance));
    }
    rows.push(files::row(chance, Kind::R900, 0));
    Draft { rows }
}

/// A 200 whose first day is at an edge of a month, a year or the calendar.
fn channel(chance: &mut Chance, turn: u64) -> Vec<Row> {
    let (unit, word) = unit_and_word(chance, turn);
    let minutes = [30, 15, 5][which(turn, 3)];
    let channel = Channel::of(minutes, unit);
    let mut head = files::channel_head(chance, channel);
    head[files::UNIT_IN_200] = word;

    let first = words::EDGE_DATES[which(turn, words::EDGE_DATES.len())];
    let mut rows = vec![head];
    rows.extend(first_day(chance, channel, first, turn));
    let days = chance.between(1, 3);
    for date in words::rising_dates_from(chance, first, days).into_iter().skip(1) {
        rows.extend(files::day_block(chance, channel, date));
    }
    rows
}

/// A day with quotes in a description, of its 300 or of its last 400.
fn first_day(chance: &mut Chance, channel: Channel, date: u32, turn: u64) -> Vec<Row> {
    let forms = forms();
    let which = which(turn, 2 * forms.len());
    let description = description_of(chance, &forms[which / 2]);
    let note = words::note_with_description(chance, Rule::IntervalQuality, &description);
    let (own_note, cover) = if which % 2 == 0 {
        (note.fields(), Vec::new())
    } else {
        let other = words::other_note(chance, &note);
        (files::v_note(), files::cover_with(chance, channel.n, &[other, note]))
    };
    let mut day = files::day(chance, channel, date, &own_note);
    day[2..channel.n + 2].clone_from_slice(&values(chance, channel, turn));
    [vec![day], cover].concat()
}

/// The values of a day, so that it adds up to nothing, to as much as it can, or to anything between.
fn values(chance: &mut Chance, channel: Channel, turn: u64) -> Vec<Word> {
    let decimals = channel.unit.decimals();
    match turn % 8 {
        0 => vec![b"0".to_vec(); channel.n],
        1 => vec![words::largest_value(decimals); channel.n],
        _ => words::values_of_every_shape(chance, channel.n, decimals),
    }
}

// --- NEM13 ---

/// Two 250s that are swept, and up to two more.
fn nem13(chance: &mut Chance, turn: u64) -> Draft {
    let mut accumulations = [0, 1].map(|further| accumulation(chance, turn.wrapping_mul(2) + further)).to_vec();
    for _ in 0..chance.below(3) {
        accumulations.push(files::accumulation(chance));
    }
    let mut rows = vec![files::header(chance, b"NEM13")];
    for accumulation in accumulations {
        rows.push(accumulation);
        if chance.one_in(2) {
            rows.push(files::row(chance, Kind::R550, 0));
        }
    }
    rows.push(files::row(chance, Kind::R900, 0));
    Draft { rows }
}

/// A 250 with quotes in the descriptions of both its reads.
fn accumulation(chance: &mut Chance, turn: u64) -> Row {
    let (unit, word) = unit_and_word(chance, turn);
    let mut accumulation = files::accumulation_in(chance, unit);
    accumulation[files::UNIT_IN_250] = word;
    if chance.one_in(2) {
        let quantities = edge_values(unit.decimals());
        accumulation[files::QUANTITY_IN_250] = quantities[which(turn, quantities.len())].clone();
    }
    let forms = forms();
    for (further, quality) in [10, 15].into_iter().enumerate() {
        let form = &forms[which(turn.wrapping_add(further as u64), forms.len())];
        let description = description_of(chance, form);
        let note = words::note_with_description(chance, Rule::ReadQuality, &description);
        accumulation[quality..quality + 3].clone_from_slice(&note.fields());
    }
    accumulation
}
