//! What a case asks for: the numbers of the days, and how many places the lists have.

use super::super::chance::Chance;
use super::super::requests;

/// The most places that the probe lends in each list: for intervals, and for days.
const MOST_PLACES: usize = 100_000;
const MOST_HEADS: usize = 400;

/// Days of these numbers, so many places in each long list, and so many in each that has one place a day.
#[derive(Clone, Copy, Debug, PartialEq, Eq)]
pub struct Asked {
    pub first: usize,
    pub last: usize,
    pub places: usize,
    pub heads: usize,
}

impl Asked {
    /// Days of these numbers of a file whose days have so many intervals each, the lists being so long for them.
    pub fn of(chance: &mut Chance, counts: &[usize], (first, last): (usize, usize), lent: Lent) -> Asked {
        let there = days_there(counts, first, last);
        let intervals = Need { each: there.to_vec(), most: MOST_PLACES };
        let days = Need { each: vec![1; there.len()], most: MOST_HEADS };
        Asked { first, last, places: intervals.places(chance, lent.places), heads: days.places(chance, lent.heads) }
    }

    pub fn case(&self, file: &[u8]) -> Vec<u8> {
        let Asked { first, last, places, heads } = self;
        requests::case(&format!("month {first} {last} {places} {heads}"), file)
    }
}

/// Those of these days whose numbers lie between the two.
pub fn days_there(counts: &[usize], first: usize, last: usize) -> &[usize] {
    if first > last || first >= counts.len() {
        return &[];
    }
    &counts[first..=last.min(counts.len() - 1)]
}

// --- Numbers ---

/// The first and the last number, of a file with so many days.
pub type Numbers = fn(&mut Chance, usize) -> (usize, usize);

/// All these days are there.
pub const THERE: [Numbers; 5] = [all, one, first_ones, last_ones, middle_ones];

pub fn all(_: &mut Chance, days: usize) -> (usize, usize) {
    (0, days - 1)
}

fn one(chance: &mut Chance, days: usize) -> (usize, usize) {
    let number = chance.place_among(days);
    (number, number)
}

fn first_ones(chance: &mut Chance, days: usize) -> (usize, usize) {
    (0, chance.below(days))
}

fn last_ones(chance: &mut Chance, days: usize) -> (usize, usize) {
    (chance.below(days), days - 1)
}

fn middle_ones(chance: &mut Chance, days: usize) -> (usize, usize) {
    let (one, other) = (chance.below(days), chance.below(days));
    (one.min(other), one.max(other))
}

/// A few of many.
pub fn a_few(chance: &mut Chance, days: usize) -> (usize, usize) {
    let first = chance.below(days);
    (first, (first + chance.between(1, 3)).min(days - 1))
}

/// Some of these days, or all, aren't there.
pub const NOT_THERE: [Numbers; 8] = [
    to_one_behind,
    from_the_last_to_one_behind,
    to_far_behind,
    to_nearly_the_largest,
    all_to_the_largest,
    just_behind,
    far_behind,
    the_largest_alone,
];

/// The first number is above the last.
pub const BACKWARDS: [Numbers; 8] = [
    back_from_the_second, back_by_one, back_from_the_last, back_from_one_behind, back_from_behind, back_behind,
    back_from_the_largest, back_at_the_largest,
];

/// For a file that has no days: none of these is there, or the first is above the last.
pub const OF_NO_DAYS: [Numbers; 6] = [
    to_one_behind, all_to_the_largest, the_largest_alone, back_from_the_second, back_from_the_largest,
    back_at_the_largest,
];

fn to_one_behind(chance: &mut Chance, days: usize) -> (usize, usize) {
    (chance.below(days.max(1)), days)
}

fn from_the_last_to_one_behind(_: &mut Chance, days: usize) -> (usize, usize) {
    (days.saturating_sub(1), days)
}

fn to_far_behind(chance: &mut Chance, days: usize) -> (usize, usize) {
    (chance.below(days.max(1)), days + chance.pick(&[400, 1_000_000, u32::MAX as usize]))
}

fn to_nearly_the_largest(chance: &mut Chance, days: usize) -> (usize, usize) {
    (chance.below(days.max(1)), usize::MAX - 1)
}

/// As many days as there are numbers, which is one more than the largest of them.
pub fn all_to_the_largest(_: &mut Chance, _: usize) -> (usize, usize) {
    (0, usize::MAX)
}

fn just_behind(chance: &mut Chance, days: usize) -> (usize, usize) {
    (days, days + chance.below(2))
}

fn far_behind(chance: &mut Chance, days: usize) -> (usize, usize) {
    let first = days + chance.pick(&[1, 2, 1_000_000]);
    (first, chance.pick(&[first, first + 1, usize::MAX]))
}

pub fn the_largest_alone(_: &mut Chance, _: usize) -> (usize, usize) {
    (usize::MAX, usize::MAX)
}

fn back_from_the_second(_: &mut Chance, _: usize) -> (usize, usize) {
    (1, 0)
}

fn back_by_one(chance: &mut Chance, days: usize) -> (usize, usize) {
    let last = chance.between(1, days.max(3) - 2);
    (last + 1, last)
}

fn back_from_the_last(_: &mut Chance, days: usize) -> (usize, usize) {
    (days.max(2) - 1, 0)
}

fn back_from_one_behind(_: &mut Chance, days: usize) -> (usize, usize) {
    (days.max(1), days.max(1) - 1)
}

fn back_from_behind(chance: &mut Chance, days: usize) -> (usize, usize) {
    (days + chance.between(1, 3), chance.below(days.max(1)))
}

fn back_behind(chance: &mut Chance, days: usize) -> (usize, usize) {
    let last = days + chance.below(3);
    (last + chance.between(1, 400), last)
}

fn back_from_the_largest(_: &mut Chance, _: usize) -> (usize, usize) {
    (usize::MAX, 0)
}

fn back_at_the_largest(_: &mut Chance, _: usize) -> (usize, usize) {
    (usize::MAX, usize::MAX - 1)
}

// --- Places ---

/// What the days that are there take of a list, one after another, and how many places it has at the most.
pub struct Need {
    each: Vec<usize>,
    most: usize,
}

impl Need {
    fn all(&self) -> usize {
        self.each.iter().sum()
    }

    /// What so many of them take, from the first on.
    fn first(&self, days: usize) -> usize {
        self.each[..days].iter().sum()
    }

    fn places(&self, chance: &mut Chance, places: Places) -> usize {
        places(chance, self).min(self.most)
    }
}

/// How many places a list is to have.
pub type Places = fn(&mut Chance, &Need) -> usize;

/// How long the long lists are, and the others.
#[derive(Clone, Copy)]
pub struct Lent {
    pub places: Places,
    pub heads: Places,
}

/// Enough for all days that are there, and more than enough.
pub const ENOUGH: [Places; 4] = [just_enough, one_more, some_more, most];
pub const MORE: [Places; 3] = [one_more, some_more, most];

pub fn just_enough(_: &mut Chance, need: &Need) -> usize {
    need.all()
}

fn one_more(_: &mut Chance, need: &Need) -> usize {
    need.all() + 1
}

fn some_more(chance: &mut Chance, need: &Need) -> usize {
    need.all() + chance.between(2, 300)
}

pub fn most(_: &mut Chance, need: &Need) -> usize {
    need.most
}

/// Too few for one of the days that are there, which are one or more. Where a day takes one place, some of these are the
/// same.
pub const TOO_FEW: [Places; 7] =
    [one_too_few, none, all_but_the_last, first_days, nearly_the_first, nearly_a_day_more, any_fewer];
pub const TOO_FEW_HEADS: [Places; 4] = [one_too_few, none, first_days, any_fewer];

fn one_too_few(_: &mut Chance, need: &Need) -> usize {
    need.all() - 1
}

pub fn none(_: &mut Chance, _: &Need) -> usize {
    0
}

fn all_but_the_last(_: &mut Chance, need: &Need) -> usize {
    need.first(need.each.len() - 1)
}

/// Just enough for some of them.
fn first_days(chance: &mut Chance, need: &Need) -> usize {
    let days = chance.below(need.each.len());
    need.first(days)
}

fn nearly_the_first(_: &mut Chance, need: &Need) -> usize {
    need.first(1) - 1
}

/// Just enough for some of them, and one place too few for the next.
fn nearly_a_day_more(chance: &mut Chance, need: &Need) -> usize {
    let days = chance.below(need.each.len());
    need.first(days + 1) - 1
}

fn any_fewer(chance: &mut Chance, need: &Need) -> usize {
    chance.below(need.all())
}

/// Too few if any day is there, and else none.
pub fn too_few_if_any(chance: &mut Chance, need: &Need) -> usize {
    if need.each.is_empty() {
        return 0;
    }
    let places = chance.pick(&TOO_FEW);
    places(chance, need)
}

/// Any number, whatever the days take.
pub fn any_number(chance: &mut Chance, need: &Need) -> usize {
    match chance.below(4) {
        0 => 0,
        1 => chance.pick(&[1, 47, 48, 95, 96, 287, 288]),
        2 => need.most,
        _ => chance.between(0, 400),
    }
}
