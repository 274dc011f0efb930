//! Fresh cases for the probe, and fresh files, made from a seed. A case or a file depends on the seed and its own number
//! alone, and so do the edits that stand behind some cases.

mod aimed;
mod blocks;
mod chance;
mod damage;
#[cfg(test)]
mod edited;
mod edits;
mod files;
mod keys;
mod length_sweep;
#[cfg(test)]
mod lengths;
mod maps;
#[cfg(test)]
mod midnights;
mod months;
#[cfg(test)]
mod null_data;
#[cfg(test)]
mod parts;
mod requests;
mod scene;
mod splits;
mod stores;
mod sweep;
mod table_sweep;
#[cfg(test)]
mod tables;
mod unit_sweep;
#[cfg(test)]
mod units;
mod words;
mod writes;

use chance::Chance;

pub use maps::sequence as map_sequence;
pub use splits::sequence as split_sequence;
pub use stores::sequence as store_sequence;
pub use table_sweep::file;

/// The cases with these numbers have files at the limit of length and above it. There are few, as they are large. They
/// and the next two stand where no sweep has a turn, as its turn would be lost.
const LARGE_CASES: [u64; 3] = [250, 500, 745];

/// The case with this number has a block that is longer than any file may be.
const LARGE_BLOCK_CASE: u64 = 990;

/// The case with this number totals a channel that adds up to nearly as much as one can.
const LARGEST_TOTAL_CASE: u64 = 1250;

/// The refusals that a file's content can be aimed at, each in turn, those with many ways to earn them more often.
const AIMS: [u64; 17] = [2, 3, 4, 5, 6, 7, 8, 9, 6, 10, 11, 12, 13, 7, 6, 9, 12];

/// The refusals that a block on its own can be aimed at, likewise.
const BLOCK_AIMS: [u64; 18] = [2, 3, 4, 5, 16, 6, 7, 9, 10, 11, 12, 16, 4, 10, 2, 16, 11, 12];

/// Cases come in rounds of this many. In each round so many files and so many blocks are aimed at refusals.
const ROUND: u64 = 70;
const AIMED_PER_ROUND: u64 = 6;
const AIMED_BLOCKS_PER_ROUND: u64 = 2;
/// So many files, and so many blocks, sweep the fields.
const SWEPT_PER_ROUND: u64 = 19;
const SWEPT_BLOCKS_PER_ROUND: u64 = 6;
/// So many files, and as many blocks, sweep the order of records, and so many the read times.
const SWEPT_ORDERS_PER_ROUND: u64 = 2;
const READ_TIMES_PER_ROUND: u64 = 2;
/// So many files and blocks sweep the lengths of fields.
const LENGTHS_PER_ROUND: u64 = 3;
/// So many files sweep the units. One block and one day to be written do so too, and one of each sweeps null data.
const UNITS_PER_ROUND: u64 = 5;

/// Behind every case whose number is a multiple of this one stands an edit.
const EDIT_EVERY: u64 = 5;

/// The cases of one number: one of its own, and behind it an edit where it has one, with cases on the file that is left.
pub fn of_number(seed: u64, index: u64) -> Vec<Vec<u8>> {
    let mut cases = vec![case(seed, index)];
    if index % EDIT_EVERY == 0 {
        cases.extend(edits::cases(seed, index / EDIT_EVERY));
    }
    cases
}

/// The one case of this number that reads several days of a file.
pub fn month(seed: u64, number: u64) -> Vec<Vec<u8>> {
    vec![months::case(seed, number)]
}

/// One case, its line and its bytes.
fn case(seed: u64, index: u64) -> Vec<u8> {
    let chance = &mut Chance::for_case(seed, index);
    if let Some(which) = LARGE_CASES.iter().position(|large| *large == index) {
        return requests::for_file(&files::large(chance, which), chance);
    }
    if index == LARGE_BLOCK_CASE {
        return blocks::large(chance);
    }
    if index == LARGEST_TOTAL_CASE {
        return requests::case("total 0", &files::largest_total(chance));
    }
    let round = index / ROUND;
    // Which one of a sweep: another seed begins elsewhere.
    let swept = |per_round: u64, place: u64| seed.wrapping_add(round * per_round + place);
    match index % ROUND {
        0 => requests::for_accepted_file(&sweep::file_with_null_data(chance, swept(1, 0)), chance),
        1..=3 => requests::for_accepted_file(&files::accepted(chance).bytes(), chance),
        4..=5 => requests::for_file(&damage::damaged(chance, &files::accepted), chance),
        place @ 6..=11 => {
            let aim = in_turn(&AIMS, round * AIMED_PER_ROUND + (place - 6));
            requests::for_file(&aimed::bytes_for(chance, &files::accepted, aim), chance)
        }
        12..=13 => requests::for_file(&damage::tangled(chance, &files::accepted), chance),
        place @ 14..=16 => length_sweep::case(chance, swept(LENGTHS_PER_ROUND, place - 14)),
        place @ 17..=35 => {
            let turn = swept(SWEPT_PER_ROUND, place - 17);
            requests::for_file(&sweep::file_with_field(chance, turn), chance)
        }
        place @ 36..=37 => {
            let turn = swept(SWEPT_ORDERS_PER_ROUND, place - 36);
            requests::for_file(&sweep::file_with_order(chance, turn), chance)
        }
        place @ 38..=39 => {
            let turn = swept(READ_TIMES_PER_ROUND, place - 38);
            requests::for_file(&sweep::file_with_read_time(chance, turn), chance)
        }
        40..=41 => writes::fit(chance),
        42..=44 => writes::unfit(chance),
        45..=46 => writes::with_several_faults(chance),
        47 => writes::with_null_data(chance, swept(1, 0)),
        48 => writes::with_unit(chance, swept(1, 0)),
        place @ 49..=53 => {
            let turn = swept(UNITS_PER_ROUND, place - 49);
            requests::for_accepted_file(&unit_sweep::file(chance, turn), chance)
        }
        54 => blocks::with_null_data(chance, swept(1, 0)),
        55 => blocks::with_unit(chance, swept(1, 0)),
        place @ 56..=57 => blocks::with_order(chance, swept(SWEPT_ORDERS_PER_ROUND, place - 56)),
        place @ 58..=59 => blocks::with_read_time(chance, swept(READ_TIMES_PER_ROUND, place - 58)),
        60 => blocks::accepted(chance),
        61 => blocks::damaged(chance),
        place @ 62..=63 => {
            let aim = in_turn(&BLOCK_AIMS, round * AIMED_BLOCKS_PER_ROUND + (place - 62));
            blocks::aimed(chance, aim)
        }
        place => blocks::with_field(chance, swept(SWEPT_BLOCKS_PER_ROUND, place - 64)),
    }
}

fn in_turn(aims: &[u64], turn: u64) -> u64 {
    aims[turn as usize % aims.len()]
}

#[cfg(test)]
mod tests {
    use super::*;
    use crate::probe;
    use crate::refusal::{of_files, DAY_UNFIT, NO_SUCH_NUMBER};

    #[test]
    fn a_run_gives_every_refusal_that_can_be_reached_and_no_bad_case() {
        let input: Vec<u8> = (0..2000).flat_map(|index| of_number(1, index).concat()).collect();
        let tally = probe::run(&input, &mut std::io::sink()).unwrap();
        let lines = tally.lines();
        assert!(!lines.contains("bad case"), "{lines}");
        for number in of_files() {
            assert!(tally.all.refusals(number) > 0, "refusal {number} never given\n{lines}");
        }
        assert!(tally.blocks.accepted > 0);
        for number in of_files() {
            let can_come = BLOCK_AIMS.contains(&number);
            assert_eq!(tally.blocks.refusals(number) > 0, can_come, "refusal {number} of a block\n{lines}");
        }
        assert!(tally.finds.accepted > 0 && tally.finds.refusals(NO_SUCH_NUMBER) > 0);
        assert!(tally.replacements.accepted > 0);
        for number in of_files() {
            // The day's own 200 has an interval length and a unit.
            let can_come = number != DAY_UNFIT;
            assert_eq!(tally.replacements.refusals(number) > 0, can_come, "refusal {number} of a replacement\n{lines}");
        }
    }

    #[test]
    fn no_large_case_takes_the_turn_of_a_sweep() {
        for index in [&LARGE_CASES[..], &[LARGE_BLOCK_CASE, LARGEST_TOTAL_CASE]].concat() {
            assert!(matches!(index % ROUND, 1..=13 | 40..=46 | 60..=63), "case {index}");
        }
    }

    #[test]
    fn a_case_depends_on_seed_and_number_alone() {
        assert_eq!(case(7, 33), case(7, 33));
        assert_ne!(case(7, 33), case(8, 33));
        assert_eq!(of_number(7, 35), of_number(7, 35));
        assert_ne!(of_number(7, 35)[1..], of_number(8, 35)[1..]);
        for index in 1..EDIT_EVERY {
            assert_eq!(of_number(7, index), [case(7, index)]);
        }
    }
}
