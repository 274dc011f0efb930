//! Cases that read several days of a file in one call. Each depends on the seed and its own number alone.

mod asked;
#[cfg(test)]
mod called;
mod day_files;
#[cfg(test)]
mod kinds;

use super::chance::Chance;
use super::files::{self, Draft};
use super::sweep::{self, which};
use super::{aimed, damage, unit_sweep};
use crate::check::{check, read_file, LONGEST_FILE};
use asked::{
    a_few, all, all_to_the_largest, any_number, just_enough, most, none, the_largest_alone, too_few_if_any, Asked,
    Lent, Numbers, BACKWARDS, ENOUGH, MORE, NOT_THERE, OF_NO_DAYS, THERE, TOO_FEW, TOO_FEW_HEADS,
};

/// Cases come in rounds of this many.
const ROUND: u64 = 28;
/// So many of a round read days that are there into lists that are long enough. So many have too few places for
/// intervals, and so many too few for days.
const READ_PER_ROUND: u64 = 5;
const FEW_PLACES_PER_ROUND: u64 = 4;
const FEW_HEADS_PER_ROUND: u64 = 2;
/// So many ask for days that aren't there, so many for a first day above the last, and so many have a NEM13 file.
const NOT_THERE_PER_ROUND: u64 = 4;
const BACKWARDS_PER_ROUND: u64 = 2;
const NEM13_PER_ROUND: u64 = 2;
/// So many have a file that is refused.
const REFUSED_PER_ROUND: u64 = 4;

/// The ways in which lists are lent where a day isn't there, and those in which days of a refused file are asked for.
const LENT_BEFORE_THE_END: usize = 8;
const WAYS_WITH_REFUSED: usize = 4;

/// The cases with these numbers are large ones, each of its own kind. They stand where no sweep has a turn.
const LARGE: [u64; 8] = [26, 82, 138, 194, 250, 306, 362, 418];

/// The refusals that a file's content can be aimed at.
const AIMS: [u64; 12] = [2, 3, 4, 5, 6, 7, 8, 9, 10, 11, 12, 13];

/// The case of this number, its line and its bytes.
pub fn case(seed: u64, number: u64) -> Vec<u8> {
    let chance = &mut Chance::for_month(seed, number);
    if let Some(which) = LARGE.iter().position(|large| *large == number) {
        return large(chance, which);
    }
    let round = number / ROUND;
    // Which one of a sweep: another seed begins elsewhere.
    let swept = |per_round: u64, place: u64| seed.wrapping_add(round * per_round + place);
    match number % ROUND {
        place @ 0..=4 => of_days_there(chance, swept(READ_PER_ROUND, place)),
        place @ 5..=8 => with_few_places(chance, swept(FEW_PLACES_PER_ROUND, place - 5)),
        place @ 9..=10 => with_few_heads(chance, swept(FEW_HEADS_PER_ROUND, place - 9)),
        11..=12 => with_few_of_both(chance),
        place @ 13..=16 => of_days_not_there(chance, swept(NOT_THERE_PER_ROUND, place - 13)),
        place @ 17..=18 => backwards(chance, swept(BACKWARDS_PER_ROUND, place - 17)),
        place @ 19..=20 => of_nem13(chance, swept(NEM13_PER_ROUND, place - 19)),
        place @ 21..=24 => of_refused_file(chance, swept(REFUSED_PER_ROUND, place - 21)),
        25..=26 => of_other_file(chance),
        _ => of_long_file(chance),
    }
}

// --- Files ---

/// A file, and how many intervals each of its days has. A refused one has no days.
struct Subject {
    bytes: Vec<u8>,
    counts: Vec<usize>,
}

impl Subject {
    fn of(bytes: Vec<u8>) -> Subject {
        let counts =
            read_file(&bytes).map_or(Vec::new(), |content| content.days.iter().map(|day| day.values.len()).collect());
        Subject { bytes, counts }
    }

    /// An accepted file that has days, mostly of different interval lengths.
    fn any(chance: &mut Chance) -> Subject {
        Subject::of(nem12(chance).bytes())
    }

    /// A case that asks it for days of such numbers, with lists of such lengths.
    fn asked(&self, chance: &mut Chance, numbers: Numbers, lent: Lent) -> Vec<u8> {
        let numbers = numbers(chance, self.counts.len());
        Asked::of(chance, &self.counts, numbers, lent).case(&self.bytes)
    }
}

fn nem12(chance: &mut Chance) -> Draft {
    if chance.one_in(4) {
        files::nem12(chance)
    } else {
        day_files::mixed(chance)
    }
}

/// Which things of lists of these lengths have their turn together: each of one list meets each of the others.
fn places_in<const N: usize>(turn: u64, lengths: [usize; N]) -> [usize; N] {
    let mut which = which(turn, lengths.iter().product());
    lengths.map(|length| {
        let place = which % length;
        which /= length;
        place
    })
}

// --- Days that are there ---

/// Days that are there, and lists that are long enough.
fn of_days_there(chance: &mut Chance, turn: u64) -> Vec<u8> {
    let [numbers, places, heads] = places_in(turn, [THERE.len(), ENOUGH.len(), ENOUGH.len()]);
    let lent = Lent { places: ENOUGH[places], heads: ENOUGH[heads] };
    Subject::any(chance).asked(chance, THERE[numbers], lent)
}

/// Days that are there, for whose intervals there are too few places.
fn with_few_places(chance: &mut Chance, turn: u64) -> Vec<u8> {
    let [numbers, places] = places_in(turn, [THERE.len(), TOO_FEW.len()]);
    let lent = Lent { places: TOO_FEW[places], heads: chance.pick(&ENOUGH) };
    Subject::any(chance).asked(chance, THERE[numbers], lent)
}

/// Days that are there, for which the lists of one place a day have too few.
fn with_few_heads(chance: &mut Chance, turn: u64) -> Vec<u8> {
    let [numbers, heads] = places_in(turn, [THERE.len(), TOO_FEW_HEADS.len()]);
    let lent = Lent { places: chance.pick(&ENOUGH), heads: TOO_FEW_HEADS[heads] };
    Subject::any(chance).asked(chance, THERE[numbers], lent)
}

fn with_few_of_both(chance: &mut Chance) -> Vec<u8> {
    let numbers = chance.pick(&THERE);
    let lent = Lent { places: chance.pick(&TOO_FEW), heads: chance.pick(&TOO_FEW_HEADS) };
    Subject::any(chance).asked(chance, numbers, lent)
}

// --- Days that aren't there, and none ---

/// How long lists are where a day isn't there: full when that day comes, longer, or too short for a day before it.
fn lent_before_the_end(chance: &mut Chance) -> [Lent; LENT_BEFORE_THE_END] {
    [
        Lent { places: just_enough, heads: just_enough },
        Lent { places: just_enough, heads: chance.pick(&MORE) },
        Lent { places: chance.pick(&MORE), heads: just_enough },
        Lent { places: most, heads: most },
        Lent { places: too_few_if_any, heads: chance.pick(&ENOUGH) },
        Lent { places: chance.pick(&ENOUGH), heads: too_few_if_any },
        Lent { places: too_few_if_any, heads: too_few_if_any },
        Lent { places: none, heads: none },
    ]
}

fn of_days_not_there(chance: &mut Chance, turn: u64) -> Vec<u8> {
    let lent = lent_before_the_end(chance);
    let [numbers, lists] = places_in(turn, [NOT_THERE.len(), LENT_BEFORE_THE_END]);
    Subject::any(chance).asked(chance, NOT_THERE[numbers], lent[lists])
}

/// Lists of no places, of as many as can be, and of any number of them.
const ANY_LENT: [Lent; 4] = [
    Lent { places: none, heads: none },
    Lent { places: most, heads: most },
    Lent { places: any_number, heads: any_number },
    Lent { places: any_number, heads: none },
];

/// A first day above the last.
fn backwards(chance: &mut Chance, turn: u64) -> Vec<u8> {
    let [numbers, lists] = places_in(turn, [BACKWARDS.len(), ANY_LENT.len()]);
    Subject::any(chance).asked(chance, BACKWARDS[numbers], ANY_LENT[lists])
}

/// A file without days: each one asked for isn't there, and none is asked for where the first is above the last.
fn of_nem13(chance: &mut Chance, turn: u64) -> Vec<u8> {
    let [numbers, lists] = places_in(turn, [OF_NO_DAYS.len(), ANY_LENT.len()]);
    let subject = Subject::of(files::nem13(chance).bytes());
    subject.asked(chance, OF_NO_DAYS[numbers], ANY_LENT[lists])
}

// --- Files that are refused ---

/// A file that is refused by each number in turn, with days that would be there, into lists that would be long enough or
/// have no places; with days up to the largest number; and with a first day above the last.
fn of_refused_file(chance: &mut Chance, turn: u64) -> Vec<u8> {
    let ways: [(Numbers, Lent); WAYS_WITH_REFUSED] = [
        (chance.pick(&THERE), Lent { places: most, heads: most }),
        (chance.pick(&THERE), Lent { places: none, heads: none }),
        (chance.pick(&[all_to_the_largest, the_largest_alone]), chance.pick(&ANY_LENT)),
        (chance.pick(&BACKWARDS), chance.pick(&ANY_LENT)),
    ];
    let [aim, way] = places_in(turn, [AIMS.len(), WAYS_WITH_REFUSED]);
    let (numbers, lent) = ways[way];
    let bytes = refused_file(chance, AIMS[aim]);
    let numbers = numbers(chance, days_begun(&bytes).max(1));
    Asked::of(chance, &[], numbers, lent).case(&bytes)
}

/// A file that is refused by this number.
fn refused_file(chance: &mut Chance, aim: u64) -> Vec<u8> {
    loop {
        let make = |chance: &mut Chance| if chance.one_in(3) { files::accepted(chance) } else { nem12(chance) };
        let bytes = aimed::bytes_for(chance, &make, aim);
        if check(&bytes).is_err_and(|refusal| refusal.number == aim) {
            return bytes;
        }
    }
}

/// The 300s of a file, be it refused.
fn days_begun(bytes: &[u8]) -> usize {
    bytes.split(|byte| *byte == b'\n').filter(|record| record.starts_with(b"300,")).count()
}

// --- Others ---

/// Any file of the sweeps, or a damaged one, and any numbers.
fn of_other_file(chance: &mut Chance) -> Vec<u8> {
    let turn = chance.next();
    let subject = Subject::of(match chance.below(4) {
        0 => sweep::file_with_null_data(chance, turn),
        1 => sweep::file_with_read_time(chance, turn),
        2 => unit_sweep::file(chance, turn),
        _ => damage::damaged(chance, &nem12),
    });
    let numbers = if subject.counts.is_empty() { chance.pick(&NOT_THERE) } else { chance.pick(&THERE) };
    let lent = Lent { places: chance.pick(&ENOUGH), heads: chance.pick(&ENOUGH) };
    subject.asked(chance, numbers, lent)
}

/// A file of some 100,000 bytes with many days. Mostly they are read.
fn of_long_file(chance: &mut Chance) -> Vec<u8> {
    let length = chance.between(60_000, 100_000);
    let subject = Subject::of(day_files::long(chance, length));
    let numbers = match chance.below(6) {
        0 => chance.pick(&NOT_THERE),
        1 | 2 => a_few,
        _ => chance.pick(&THERE),
    };
    let enough = |chance: &mut Chance| if chance.one_in(6) { too_few_if_any } else { chance.pick(&ENOUGH) };
    let lent = Lent { places: enough(chance), heads: enough(chance) };
    subject.asked(chance, numbers, lent)
}

/// The large cases: files above the largest length; one of that length; as many days as there can be places for, and one
/// more; as many intervals as there can be places for, and more.
fn large(chance: &mut Chance, which: usize) -> Vec<u8> {
    match which {
        0 => above_the_largest(chance, (0, 3), Lent { places: most, heads: most }),
        1 => above_the_largest(chance, (3, 0), Lent { places: any_number, heads: any_number }),
        2 => above_the_largest(chance, (usize::MAX, usize::MAX), Lent { places: none, heads: none }),
        3 => at_the_largest(chance),
        4 => of_many_days(chance, 400),
        5 => of_many_days(chance, 401),
        6 => of_many_intervals(chance, 347),
        _ => of_many_intervals(chance, 348),
    }
}

fn above_the_largest(chance: &mut Chance, numbers: (usize, usize), lent: Lent) -> Vec<u8> {
    let file = files::file_of_length(chance, LONGEST_FILE + 1);
    Asked::of(chance, &[], numbers, lent).case(&file)
}

/// The last days of a file of the largest length.
fn at_the_largest(chance: &mut Chance) -> Vec<u8> {
    let subject = Subject::of(files::file_of_length(chance, LONGEST_FILE));
    let last = subject.counts.len() - 1;
    let numbers = (last - chance.between(1, 40), last);
    let lent = Lent { places: just_enough, heads: chance.pick(&ENOUGH) };
    Asked::of(chance, &subject.counts, numbers, lent).case(&subject.bytes)
}

/// So many days from the middle of a file.
fn of_many_days(chance: &mut Chance, days: usize) -> Vec<u8> {
    let (before, behind) = (chance.between(1, 9), chance.between(1, 9));
    let first_channel = chance.between(before + 100, before + 300);
    let channels = [(30, first_channel), (30, before + days + behind - first_channel)];
    let subject = Subject::of(day_files::of_days(chance, &channels));
    let lent = Lent { places: just_enough, heads: just_enough };
    Asked::of(chance, &subject.counts, (before, before + days - 1), lent).case(&subject.bytes)
}

/// So many days of 5 minutes and one of half hours.
fn of_many_intervals(chance: &mut Chance, days: usize) -> Vec<u8> {
    let mut channels = [(5, days), (30, 1)];
    chance.shuffle(&mut channels);
    let subject = Subject::of(day_files::of_days(chance, &channels));
    subject.asked(chance, all, Lent { places: most, heads: most })
}
