//! Cases that hand in a day block on its own: accepted ones, damaged ones, aimed ones and sweeps.

use super::chance::Chance;
use super::files::{self, Channel, Draft, Make};
use super::unit_sweep::{self, BlockUnit};
use super::{aimed, damage, requests, sweep, words};
use crate::records::Kind;

pub fn some_channel(chance: &mut Chance) -> Channel {
    let unit = words::unit(chance);
    Channel::of(some_minutes(chance), unit)
}

/// An interval length. Blocks of 5 minutes are large, and so they are fewer.
fn some_minutes(chance: &mut Chance) -> u32 {
    match chance.below(8) {
        0 => 5,
        1..=2 => 15,
        _ => 30,
    }
}

/// A case behind a 200 such as this one.
pub fn case(channel: Channel, block: &[u8]) -> Vec<u8> {
    case_of_numbers(channel.minutes, channel.unit.number(), block)
}

/// A case behind any interval length and unit number.
fn case_of_numbers(minutes: u32, unit: u8, block: &[u8]) -> Vec<u8> {
    requests::case(&format!("block {minutes} {unit}"), block)
}

pub fn accepted(chance: &mut Chance) -> Vec<u8> {
    let channel = some_channel(chance);
    case(channel, &files::block(chance, channel).bytes())
}

/// A block that is longer than any file may be, and accepted all the same.
pub fn large(chance: &mut Chance) -> Vec<u8> {
    let channel = Channel::half_hours(chance);
    case(channel, &files::large_block(chance, channel))
}

/// A block with several changes, anywhere or in one record.
pub fn damaged(chance: &mut Chance) -> Vec<u8> {
    let channel = some_channel(chance);
    case(channel, &damaged_bytes(chance, &|chance| files::block(chance, channel)))
}

/// Such a block of this make.
pub fn damaged_bytes(chance: &mut Chance, make: Make) -> Vec<u8> {
    if chance.one_in(3) {
        damage::tangled(chance, make)
    } else {
        damage::damaged(chance, make)
    }
}

/// A block with each field's interesting contents in turn.
pub fn with_field(chance: &mut Chance, turn: u64) -> Vec<u8> {
    let channel = some_channel(chance);
    case(channel, &sweep::block_with_field(chance, channel, turn))
}

/// A block with each thing at each place in the order of its records in turn.
pub fn with_order(chance: &mut Chance, turn: u64) -> Vec<u8> {
    let channel = some_channel(chance);
    case(channel, &sweep::block_with_order(chance, channel, turn))
}

/// A block with each read time near to each date at an edge in turn.
pub fn with_read_time(chance: &mut Chance, turn: u64) -> Vec<u8> {
    let channel = some_channel(chance);
    case(channel, &sweep::block_with_read_time(chance, channel, turn))
}

/// A block with each kind of null data in turn.
pub fn with_null_data(chance: &mut Chance, turn: u64) -> Vec<u8> {
    let channel = some_channel(chance);
    case(channel, &sweep::block_with_null_data(chance, channel, turn))
}

/// A block behind each unit, with a value of each fit in turn, and behind numbers that are no unit's.
pub fn with_unit(chance: &mut Chance, turn: u64) -> Vec<u8> {
    match unit_sweep::block_unit(turn) {
        BlockUnit::Known(unit, fit) => {
            let channel = Channel::of(some_minutes(chance), unit);
            case(channel, &unit_sweep::block(chance, channel, fit))
        }
        BlockUnit::None(number) => {
            let channel = some_channel(chance);
            case_of_numbers(channel.minutes, number, &files::block(chance, channel).bytes())
        }
    }
}

// --- Aimed blocks ---

/// A block aimed at one refusal.
pub fn aimed(chance: &mut Chance, aim: u64) -> Vec<u8> {
    let channel = some_channel(chance);
    if aim == 16 {
        return any_bytes_behind_no_channel(chance, channel);
    }
    case(channel, &aimed_bytes(chance, channel, &|chance| files::block(chance, channel), aim))
}

/// A block of this make, aimed at a refusal that it can get behind a 200 such as this one.
pub fn aimed_bytes(chance: &mut Chance, channel: Channel, make: Make, aim: u64) -> Vec<u8> {
    match aim {
        2 if chance.one_in(2) => bytes_behind(chance, make),
        4 if chance.one_in(2) => record_behind(chance, channel, make),
        5 if chance.one_in(3) => block_of_other_length(chance, channel),
        _ => aimed::bytes_for(chance, make, aim),
    }
}

/// A block or what may be left of one, with bytes behind it that don't end a record.
fn bytes_behind(chance: &mut Chance, make: Make) -> Vec<u8> {
    let mut bytes = block_or_part(chance, make).bytes();
    let behind = chance.pick(&[b"\r".as_slice(), b"\n", b"900", b"500,S,,,", b"400,1,1,A,,\r", b"\x00", b" "]);
    bytes.extend(behind);
    bytes
}

/// A block or what may be left of one, with a record behind it that leaves the day, or with any other.
fn record_behind(chance: &mut Chance, channel: Channel, make: Make) -> Vec<u8> {
    let mut draft = block_or_part(chance, make);
    match chance.below(4) {
        0 => draft.rows.push(files::row(chance, Kind::R200, 0)),
        1 => draft.rows.extend(files::block(chance, channel).rows),
        2 => draft.rows.push(files::row(chance, Kind::R900, 0)),
        _ => draft.rows.push(damage::any_row(chance)),
    }
    draft.bytes()
}

/// A block, of which some last records may be missing, so that its cover may be open.
fn block_or_part(chance: &mut Chance, make: Make) -> Draft {
    let mut draft = make(chance);
    if chance.one_in(2) {
        let keep = chance.below(draft.rows.len());
        draft.rows.truncate(keep);
    }
    draft
}

fn block_of_other_length(chance: &mut Chance, channel: Channel) -> Vec<u8> {
    loop {
        let other = chance.pick(&[5, 15, 30]);
        if other != channel.minutes {
            return files::block(chance, Channel::of(other, channel.unit)).bytes();
        }
    }
}

/// Bytes of a block in any state, or none, behind an interval length or a unit that is none, or behind both.
fn any_bytes_behind_no_channel(chance: &mut Chance, channel: Channel) -> Vec<u8> {
    let bytes = match chance.below(3) {
        0 => Vec::new(),
        1 => damaged_bytes(chance, &|chance| files::block(chance, channel)),
        _ => files::block(chance, channel).bytes(),
    };
    let (minutes, unit) = (words::no_interval_length(chance), words::no_unit_number(chance));
    match chance.below(5) {
        0 => case_of_numbers(minutes, unit, &bytes),
        1..=2 => case_of_numbers(channel.minutes, unit, &bytes),
        _ => case_of_numbers(minutes, channel.unit.number(), &bytes),
    }
}

#[cfg(test)]
mod tests {
    use super::*;
    use crate::block::check_block;
    use crate::cases::BLOCK_AIMS;
    use crate::check::{check, Summary, LONGEST_FILE};
    use crate::refusal::{Refusal, DAY_UNFIT, NO_RECORD_END, RECORD_OUT_OF_PLACE};
    use crate::units::Unit;

    const HEADER: &str = "100,NEM12,200301011534,MDP1,Ret1\r\n";

    /// The interval length, the unit's number and the bytes of a `block` case.
    fn parts(case: &[u8]) -> (u32, u8, &[u8]) {
        let (words, bytes) = requests::words_and_bytes(case);
        (words[1].parse().expect("an interval length"), words[2].parse().expect("a unit's number"), bytes)
    }

    /// What the block's refusal would be if it stood in a file behind a header and a 200.
    fn in_file(refusal: Refusal, before: usize) -> Refusal {
        Refusal { place: refusal.place + before, record: refusal.record + 2, ..refusal }
    }

    /// Holds the answer to a block against the answer to a file of which it is the only day.
    fn compare_with_file(case: &[u8]) {
        let (minutes, unit, block) = parts(case);
        let unit_name = Unit::numbered(unit).map_or("", Unit::name);
        let channel = format!("{HEADER}200,VABD000163,E1,,E1,,,{unit_name},{minutes},\r\n");
        let file = [channel.as_bytes(), block, b"900\r\n"].concat();
        let in_block = check_block(block, minutes, unit);
        match (in_block, check(&file)) {
            (Ok(_), answer) => assert_eq!(answer, Ok(Summary { version: 12, channels: 1, days: 1 })),
            // There is no such 200.
            (Err(refusal), _) if refusal.number == DAY_UNFIT => assert_eq!(refusal, Refusal::without_place(DAY_UNFIT)),
            // The file's 900 goes on where the block ends.
            (Err(refusal), _) if refusal.number == NO_RECORD_END => {
                assert!(!block[refusal.place..].windows(2).any(|pair| pair == b"\r\n"));
            }
            (Err(refusal), answer) if refusal.number == RECORD_OUT_OF_PLACE => {
                let leaves_day = [b"200", b"300", b"900"].iter().any(|kind| block[refusal.place..].starts_with(*kind));
                assert!(leaves_day && refusal.record > 0 || answer == Err(in_file(refusal, channel.len())));
            }
            (Err(refusal), answer) => assert_eq!(answer, Err(in_file(refusal, channel.len()))),
        }
    }

    #[test]
    fn blocks_meant_to_be_accepted_are_accepted() {
        for index in 0..300 {
            let case = accepted(&mut Chance::for_case(5, index));
            let (minutes, unit, block) = parts(&case);
            let answer = check_block(block, minutes, unit);
            assert!(answer.is_ok(), "{answer:?}\n{}", String::from_utf8_lossy(block));
        }
    }

    #[test]
    fn a_large_block_is_longer_than_a_file_may_be() {
        let case = large(&mut Chance::for_case(5, 0));
        let (minutes, unit, block) = parts(&case);
        assert!(block.len() > LONGEST_FILE && check_block(block, minutes, unit).is_ok());
    }

    #[test]
    fn a_block_is_answered_as_the_only_day_of_a_file() {
        for index in 0..400 {
            let chance = &mut Chance::for_case(5, index);
            compare_with_file(&accepted(chance));
            compare_with_file(&damaged(chance));
            compare_with_file(&aimed(chance, BLOCK_AIMS[index as usize % BLOCK_AIMS.len()]));
            compare_with_file(&with_field(chance, index));
            compare_with_file(&with_order(chance, index));
            compare_with_file(&with_read_time(chance, index));
            compare_with_file(&with_null_data(chance, index));
            compare_with_file(&with_unit(chance, index));
        }
    }
}
