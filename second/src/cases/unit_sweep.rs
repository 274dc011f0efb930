//! The sweep of units: each in every spelling and with values on both sides of its decimals, and words and numbers that
//! are no unit, one after another, in files, in blocks on their own and in days to be written.

use super::chance::Chance;
use super::damage;
use super::files::{self, rules_of, Channel, Draft, Row};
use super::sweep::which;
use super::words::{self, Fit, Spelling, Word};
use crate::fields::{decimals_of, MOST_DECIMALS};
use crate::records::Kind;
use crate::units::Unit;

// --- Files ---

/// A 200 or a 250 whose unit and value show how units are read.
#[derive(Clone, Copy)]
enum Target {
    /// A 200's unit in a spelling, with a value under it that stands so to its decimals.
    Day(Unit, Spelling, Fit, Option<OtherFault>),
    /// A 250's unit and quantity likewise.
    Accumulation(Unit, Spelling, Fit, Option<OtherFault>),
    /// A 250's word that is no unit, behind a quantity of so many decimals.
    NoUnit(&'static str, usize),
}

/// What else is wrong with the record that has the value.
#[derive(Clone, Copy)]
enum OtherFault {
    FieldBefore,
    FieldBehind,
    RuleAcross,
}

/// Every unit in every spelling with a value of all its decimals, and with values of more; some of these beside each
/// other fault, as the order of refusals counts; and every word that is nearly a unit, behind a quantity that the rule
/// of every value lets pass and one that it refuses.
fn targets() -> Vec<Target> {
    let full = words::SPELLINGS.map(|spelling| (spelling, Fit::Full));
    let past = [Fit::OnePast, Fit::ZerosPast].map(|fit| (Spelling::Mixed, fit));
    let faults = [OtherFault::FieldBefore, OtherFault::FieldBehind, OtherFault::RuleAcross];
    let mut targets = Vec::new();
    for kind in [Target::Day, Target::Accumulation] {
        for unit in Unit::all() {
            targets.extend(full.into_iter().chain(past).map(|(spelling, fit)| kind(unit, spelling, fit, None)));
        }
        for unit in Unit::all().filter(|unit| unit.decimals() < MOST_DECIMALS).take(3) {
            targets.extend(faults.map(|fault| kind(unit, Spelling::Mixed, Fit::OnePast, Some(fault))));
        }
    }
    for decimals in [MOST_DECIMALS, MOST_DECIMALS + 1] {
        targets.extend(words::NEARLY_UNITS.map(|word| Target::NoUnit(word, decimals)));
    }
    targets
}

/// A file in which one 200 or 250 is a target. One of another unit stands before it, and another may follow.
pub fn file(chance: &mut Chance, turn: u64) -> Vec<u8> {
    let targets = targets();
    let rows = match targets[which(turn, targets.len())] {
        Target::Day(unit, spelling, fit, fault) => {
            let word = words::spelled(chance, unit, spelling);
            let value = words::value_of_fit(chance, unit.decimals(), fit);
            let before = telling_neighbour(chance, unit, &value);
            let channel = rows_of_channel(chance, unit, word, value, fault);
            rows_of_nem12(chance, before, channel)
        }
        Target::Accumulation(unit, spelling, fit, fault) => {
            let word = words::spelled(chance, unit, spelling);
            let quantity = words::value_of_fit(chance, unit.decimals(), fit);
            let before = telling_neighbour(chance, unit, &quantity);
            let mut accumulation = accumulation(chance, quantity, word);
            spoil(chance, &mut accumulation, files::QUANTITY_IN_250..=files::UNIT_IN_250, fault);
            rows_of_nem13(chance, before, accumulation)
        }
        Target::NoUnit(word, decimals) => {
            let quantity = words::value_of_fit(chance, decimals, Fit::Full);
            let accumulation = accumulation(chance, quantity, word.as_bytes().to_vec());
            let before = words::unit(chance);
            rows_of_nem13(chance, before, accumulation)
        }
    };
    Draft { rows }.bytes()
}

/// A unit that would show if it were kept from one 200 or 250 to the next: it refuses the value where the value's own
/// unit takes it, or takes it where that refuses it. Where there is none such, any.
fn telling_neighbour(chance: &mut Chance, unit: Unit, value: &[u8]) -> Unit {
    let takes_value = |unit: Unit| decimals_of(value) <= unit.decimals();
    let telling: Vec<Unit> = Unit::all().filter(|other| takes_value(*other) != takes_value(unit)).collect();
    if telling.is_empty() {
        words::unit(chance)
    } else {
        chance.pick(&telling)
    }
}

/// A half-hour 200 that has this word for its unit, and a day with this value.
fn rows_of_channel(chance: &mut Chance, unit: Unit, word: Word, value: Word, fault: Option<OtherFault>) -> Vec<Row> {
    let channel = Channel::of(30, unit);
    let mut head = files::channel_head(chance, channel);
    head[files::UNIT_IN_200] = word;
    let place = place_of_value(chance, channel);
    let mut rows = rows_of_block(chance, channel, place, value);
    spoil(chance, &mut rows[0], place..=place, fault);
    rows.insert(0, head);
    rows
}

/// The place of a value among the fields of a 300.
fn place_of_value(chance: &mut Chance, channel: Channel) -> usize {
    2 + chance.place_among(channel.n)
}

/// A day block that is accepted but for the value at this place, if that isn't.
fn rows_of_block(chance: &mut Chance, channel: Channel, place: usize, value: Word) -> Vec<Row> {
    let mut rows = files::block(chance, channel).rows;
    rows[0][place] = value;
    rows
}

fn accumulation(chance: &mut Chance, quantity: Word, word: Word) -> Row {
    let mut accumulation = files::accumulation(chance);
    accumulation[files::QUANTITY_IN_250] = quantity;
    accumulation[files::UNIT_IN_250] = word;
    accumulation
}

/// Gives a row one fault more, outside the fields that say the value and its unit.
fn spoil(chance: &mut Chance, row: &mut Row, kept: std::ops::RangeInclusive<usize>, fault: Option<OtherFault>) {
    let field = match fault {
        None => return,
        Some(OtherFault::RuleAcross) => return damage::break_rules_across(chance, row),
        Some(OtherFault::FieldBefore) => chance.between(1, kept.start() - 1),
        Some(OtherFault::FieldBehind) => chance.between(kept.end() + 1, row.len() - 1),
    };
    row[field] = words::breaking(chance, rules_of(row)[field]);
}

fn rows_of_nem12(chance: &mut Chance, unit_before: Unit, channel: Vec<Row>) -> Vec<Row> {
    let mut rows = vec![files::header(chance, b"NEM12")];
    rows.extend(files::channel_of(chance, Channel::of(30, unit_before)));
    rows.extend(channel);
    if chance.one_in(2) {
        let behind = Channel::half_hours(chance);
        rows.extend(files::channel_of(chance, behind));
    }
    rows.push(files::row(chance, Kind::R900, 0));
    rows
}

fn rows_of_nem13(chance: &mut Chance, unit_before: Unit, accumulation: Row) -> Vec<Row> {
    let mut rows = vec![files::header(chance, b"NEM13"), files::accumulation_in(chance, unit_before), accumulation];
    if chance.one_in(2) {
        rows.push(files::accumulation(chance));
    }
    rows.push(files::row(chance, Kind::R900, 0));
    rows
}

// --- Blocks on their own ---

/// A unit behind which a block stands.
#[derive(Clone, Copy)]
pub enum BlockUnit {
    /// With a value that stands so to its decimals.
    Known(Unit, Fit),
    /// A number that is none's.
    None(u8),
}

fn block_units() -> Vec<BlockUnit> {
    let fits = [Fit::Full, Fit::OnePast, Fit::ZerosPast];
    let known = Unit::all().flat_map(|unit| fits.map(|fit| BlockUnit::Known(unit, fit)));
    known.chain([Unit::COUNT, u8::MAX].map(BlockUnit::None)).collect()
}

pub fn block_unit(turn: u64) -> BlockUnit {
    let units = block_units();
    units[which(turn, units.len())]
}

/// A block in which one value stands so to the decimals of its unit.
pub fn block(chance: &mut Chance, channel: Channel, fit: Fit) -> Vec<u8> {
    let place = place_of_value(chance, channel);
    let value = words::value_of_fit(chance, channel.unit.decimals(), fit);
    Draft { rows: rows_of_block(chance, channel, place, value) }.bytes()
}

// --- Days to be written ---

/// A unit for a day to be written.
#[derive(Clone, Copy)]
pub enum WriteUnit {
    /// With a value that has a digit in the unit's last decimal.
    Full(Unit),
    /// With a value that is so many millionths more than one that can be written in the unit.
    Past(Unit, u64),
    /// A number that is none's.
    None(u8),
}

/// Every unit with an exact value, and if there are decimals that it lacks, with digits in the first and the last of
/// them.
fn write_units() -> Vec<WriteUnit> {
    let mut units = Vec::new();
    for unit in Unit::all() {
        units.push(WriteUnit::Full(unit));
        if unit.decimals() < MOST_DECIMALS {
            units.extend([unit.smallest_step() / 10, 1].map(|millionths| WriteUnit::Past(unit, millionths)));
        }
    }
    units.extend([Unit::COUNT, u8::MAX].map(WriteUnit::None));
    units
}

/// A day of each of these, and some of them once more with a list that is too short, which is asked first.
fn writes() -> Vec<(WriteUnit, bool)> {
    let has_short_list_too = |unit: &WriteUnit| match unit {
        WriteUnit::Full(_) => false,
        WriteUnit::Past(unit, millionths) => unit.name().ends_with('h') && *millionths == 1,
        WriteUnit::None(_) => true,
    };
    let with_short_list = write_units().into_iter().filter(has_short_list_too).map(|unit| (unit, true));
    write_units().into_iter().map(|unit| (unit, false)).chain(with_short_list).collect()
}

/// A unit for a day to be written, and whether one of the day's lists is too short.
pub fn unit_and_short_list(turn: u64) -> (WriteUnit, bool) {
    let writes = writes();
    writes[which(turn, writes.len())]
}

#[cfg(test)]
mod tests {
    use super::*;
    use crate::cases::sweep::assert_swept;
    use crate::cases::UNITS_PER_ROUND;

    #[test]
    fn a_run_of_5000_leaves_no_unit_out() {
        assert_swept("units", targets().len(), UNITS_PER_ROUND);
        assert_swept("units of blocks", block_units().len(), 1);
        assert_swept("units of days to be written", writes().len(), 1);
    }
}
