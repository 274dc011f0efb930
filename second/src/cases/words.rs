//! The contents of single fields: ones that keep their rules, and ones that are near to breaking them.

use super::chance::Chance;
use crate::fields::{
    belongs_to_day, day_after, days_in_month, decimal, is_real_date, Quality, Rule, END_OF_LAST_DAY, MOST_DECIMALS,
};
use crate::notes::{Note, NO_REASON};
use crate::units::Unit;

pub type Word = Vec<u8>;

const LETTERS_AND_DIGITS: &[u8] = b"ABCDEFGHIJKLMNOPQRSTUVWXYZabcdefghijklmnopqrstuvwxyz0123456789";
const CAPITALS: &[u8] = b"ABCDEFGHIJKLMNOPQRSTUVWXYZ";
const DIGITS: &[u8] = b"0123456789";

fn from_alphabet(chance: &mut Chance, alphabet: &[u8], length: usize) -> Word {
    (0..length).map(|_| chance.pick(alphabet)).collect()
}

/// A byte that may stand in a field and is no space.
fn dense_byte(chance: &mut Chance) -> u8 {
    loop {
        let byte = chance.between(0x21, 0x7E) as u8;
        if byte != b',' {
            return byte;
        }
    }
}

/// Text that may stand in a field: spaces only between other bytes.
pub fn text(chance: &mut Chance, length: usize) -> Word {
    let mut text: Word = (0..length).map(|_| dense_byte(chance)).collect();
    if length > 2 {
        for inner in &mut text[1..length - 1] {
            if chance.one_in(8) {
                *inner = b' ';
            }
        }
    }
    text
}

fn participant(chance: &mut Chance) -> Word {
    let length = chance.length(1, 10);
    participant_of_length(chance, length)
}

fn participant_of_length(chance: &mut Chance, length: usize) -> Word {
    let mut name = text(chance, length);
    for byte in &mut name {
        if *byte == b'#' {
            *byte = b'$';
        }
    }
    name
}

// --- Dates and times ---

/// The last date that a file may hold.
pub const LAST_DATE: u32 = 21991231;

/// Dates at the edges of years, months and the calendar.
pub const EDGE_DATES: [u32; 17] = [
    19000101, 19000228, 19991231, 20000228, 20000229, 20030228, 20030430, 20030731, 20031231, 20040228, 20040229,
    20991231, 21000228, 21960228, 21960229, 21991230, LAST_DATE,
];

pub fn date(chance: &mut Chance) -> u32 {
    if chance.one_in(3) {
        return chance.pick(&EDGE_DATES);
    }
    let (year, month) = (chance.between(1900, 2199) as u32, chance.between(1, 12) as u32);
    let last_day = days_in_month(year, month);
    let day = if chance.one_in(6) { last_day } else { chance.between(1, last_day as usize) as u32 };
    year * 10_000 + month * 100 + day
}

/// The date of the next day, if it is one that a file may hold.
pub fn next_date(date: u32) -> Option<u32> {
    Some(day_after(date)).filter(|next| is_real_date(*next))
}

/// One date or more, each later than the one before it.
pub fn rising_dates(chance: &mut Chance, count: usize) -> Vec<u32> {
    let first = date(chance);
    rising_dates_from(chance, first, count)
}

/// Likewise, this one being the first. Behind the last date that a file may hold there are none.
pub fn rising_dates_from(chance: &mut Chance, first: u32, count: usize) -> Vec<u32> {
    let mut dates = vec![first];
    while dates.len() < count {
        let mut last = dates[dates.len() - 1];
        for _ in 0..if chance.one_in(4) { chance.between(1, 400) } else { 1 } {
            match next_date(last) {
                Some(next) => last = next,
                None => return dates,
            }
        }
        dates.push(last);
    }
    dates
}

/// A time of day as the six digits hhmmss.
fn clock(chance: &mut Chance) -> u64 {
    match chance.below(6) {
        0 => 0,
        1 => chance.pick(&[1, 235_959]),
        _ => (chance.below(24) * 10_000 + chance.below(60) * 100 + chance.below(60)) as u64,
    }
}

/// A date and a time of day as one number of 14 digits.
pub fn time_at(date: u32, clock: u64) -> u64 {
    u64::from(date) * 1_000_000 + clock
}

fn time_on(chance: &mut Chance, date: u32) -> u64 {
    time_at(date, clock(chance))
}

pub fn time(chance: &mut Chance) -> u64 {
    let date = date(chance);
    time_on(chance, date)
}

/// A read time that belongs to the day of this date, often as its end.
pub fn read_time(chance: &mut Chance, date: u32) -> u64 {
    if chance.one_in(3) {
        return time_at(day_after(date), 0);
    }
    loop {
        let time = time_on(chance, date);
        if belongs_to_day(time, date) {
            return time;
        }
    }
}

/// Read times around the midnights at both ends of a day, and midnights that only a wrong calendar puts at its end.
/// Not all are times: a number next to a date may be no date.
pub fn read_times_near(date: u32) -> Vec<u64> {
    let mut times = vec![
        time_at(date - 1, 235_959),
        time_at(date, 0),
        time_at(date, 1),
        time_at(date, 235_959),
        time_at(day_after(date), 0),
        time_at(day_after(date), 1),
        time_at(day_after(day_after(date)), 0),
        time_at(date + 1, 0),
    ];
    times.sort_unstable();
    times.dedup();
    times
}

/// A read time that keeps its rule and doesn't belong to the day of this date, mostly near to it.
pub fn read_time_outside(chance: &mut Chance, date: u32) -> u64 {
    loop {
        let time = match chance.below(5) {
            0 => time(chance),
            1 => decimal(END_OF_LAST_DAY),
            _ => chance.pick(&read_times_near(date)),
        };
        if Rule::ReadTime.allows(&number_word(time)) && !belongs_to_day(time, date) {
            return time;
        }
    }
}

pub fn number_word(number: impl ToString) -> Word {
    number.to_string().into_bytes()
}

fn or_empty(chance: &mut Chance, word: Word) -> Word {
    if chance.one_in(2) {
        Vec::new()
    } else {
        word
    }
}

// --- Values and reads ---

/// Digits, then nothing or a point and digits.
fn decimal_word(chance: &mut Chance, before: usize, behind: usize) -> Word {
    let mut word = from_alphabet(chance, DIGITS, before);
    if behind > 0 {
        word.push(b'.');
        word.extend(from_alphabet(chance, DIGITS, behind));
    }
    word
}

fn read(chance: &mut Chance) -> Word {
    let length = chance.length(1, 15);
    read_of_length(chance, length)
}

fn read_of_length(chance: &mut Chance, length: usize) -> Word {
    if length < 3 || chance.one_in(3) {
        return decimal_word(chance, length, 0);
    }
    let before = chance.between(1, length - 2);
    decimal_word(chance, before, length - 1 - before)
}

/// The largest value of so many decimals, which are one or more.
pub fn largest_value(decimals: usize) -> Word {
    [b"9999999.", &b"999999"[..decimals]].concat()
}

/// A value in any shape that is allowed where it may have so many decimals, which are one or more.
fn value_of_any_shape(chance: &mut Chance, decimals: usize) -> Word {
    match chance.below(10) {
        0 => largest_value(decimals),
        1 => [b"0000000.", &b"000000"[..decimals]].concat(),
        2 => b"0".to_vec(),
        3 => [b"003.", &b"40"[..decimals.min(2)]].concat(),
        _ => {
            let (before, behind) = (chance.between(1, 7), chance.between(0, decimals));
            decimal_word(chance, before, behind)
        }
    }
}

/// A value or quantity of a unit.
pub fn value_in(chance: &mut Chance, unit: Unit) -> Word {
    value_of_any_shape(chance, unit.decimals())
}

/// The values of one day, all in one style.
pub fn values(chance: &mut Chance, n: usize, unit: Unit) -> Vec<Word> {
    match chance.below(8) {
        0 => vec![value_in(chance, unit); n],
        1 => (0..n).map(|_| value_in(chance, unit)).collect(),
        2..=4 => (0..n).map(|_| decimal_word(chance, 1, 0)).collect(),
        _ => (0..n).map(|_| decimal_word(chance, 1, unit.decimals().min(2))).collect(),
    }
}

/// The values of one day in every shape that a value can have in a unit of so many decimals, mixed: each number of
/// digits before the point with none and each number of them behind it. In a unit of six decimals there are 49, so half
/// hours are too few for the last.
pub fn values_of_every_shape(chance: &mut Chance, n: usize, decimals: usize) -> Vec<Word> {
    let shape = |index: usize| (1 + index % 7, index / 7 % (decimals + 1));
    let mut shapes: Vec<(usize, usize)> = (0..n).map(shape).collect();
    chance.shuffle(&mut shapes);
    shapes.into_iter().map(|(before, behind)| decimal_word(chance, before, behind)).collect()
}

/// How a value stands to the decimals that its unit allows.
#[derive(Clone, Copy, Debug, PartialEq, Eq)]
pub enum Fit {
    /// It has as many, and the last isn't 0.
    Full,
    /// It has one more, which isn't 0.
    OnePast,
    /// It has more, which are all 0.
    ZerosPast,
}

/// A value that stands so to these decimals.
pub fn value_of_fit(chance: &mut Chance, decimals: usize, fit: Fit) -> Word {
    let before = chance.between(1, 7);
    match fit {
        Fit::Full => value_ending_in_digit(chance, before, decimals),
        Fit::OnePast => value_ending_in_digit(chance, before, decimals + 1),
        Fit::ZerosPast => {
            let zeros = chance.between(1, (MOST_DECIMALS - decimals).max(1));
            [decimal_word(chance, before, decimals), vec![b'0'; zeros]].concat()
        }
    }
}

/// A value whose last digit isn't 0.
fn value_ending_in_digit(chance: &mut Chance, before: usize, behind: usize) -> Word {
    let mut word = decimal_word(chance, before, behind);
    word.pop();
    word.push(chance.pick(b"123456789"));
    word
}

// --- Units ---

pub fn unit(chance: &mut Chance) -> Unit {
    let units: Vec<Unit> = Unit::all().collect();
    chance.pick(&units)
}

/// How a unit's letters are spelled.
#[derive(Clone, Copy, Debug, PartialEq, Eq)]
pub enum Spelling {
    AsInTable,
    Small,
    Capitals,
    /// Each letter by chance.
    Mixed,
}

pub const SPELLINGS: [Spelling; 4] = [Spelling::AsInTable, Spelling::Small, Spelling::Capitals, Spelling::Mixed];

pub fn spelled(chance: &mut Chance, unit: Unit, spelling: Spelling) -> Word {
    let name = unit.name().as_bytes();
    match spelling {
        Spelling::AsInTable => name.to_vec(),
        Spelling::Small => name.to_ascii_lowercase(),
        Spelling::Capitals => name.to_ascii_uppercase(),
        Spelling::Mixed => {
            let any_case = |letter: &u8| chance.pick(&[letter.to_ascii_lowercase(), letter.to_ascii_uppercase()]);
            name.iter().map(any_case).collect()
        }
    }
}

/// A unit's name in any spelling.
pub fn unit_word(chance: &mut Chance, unit: Unit) -> Word {
    let spelling = chance.pick(&SPELLINGS);
    spelled(chance, unit, spelling)
}

/// Words that are nearly units: parts of their names, more than these, other units, and bytes that differ from a letter
/// as its two cases do.
pub const NEARLY_UNITS: [&str; 26] = [
    "", " ", "k", "K", "M", "h", "kWhh", "kkWh", "kW h", "kWh ", " kWh", "kWh1", "MVARH1", "MVArhh", "kVArhkVArh",
    "GWh", "hWk", "MV", "mA", "kVARs", "p", "pff", "kW.h", "k7h", "-Wh", "!",
];

/// A number that is no unit's.
pub fn no_unit_number(chance: &mut Chance) -> u8 {
    chance.pick(&[Unit::COUNT, Unit::COUNT + 1, 99, 128, u8::MAX - 1, u8::MAX])
}

// --- Notes ---

/// Quality, reason and description as they stand in a record.
#[derive(Clone, Debug, PartialEq, Eq)]
pub struct NoteWords {
    pub quality: Word,
    pub reason: Word,
    pub description: Word,
}

impl NoteWords {
    pub fn of([quality, reason, description]: [&str; 3]) -> NoteWords {
        let word = |text: &str| text.as_bytes().to_vec();
        NoteWords { quality: word(quality), reason: word(reason), description: word(description) }
    }

    pub fn fields(&self) -> [Word; 3] {
        [self.quality.clone(), self.reason.clone(), self.description.clone()]
    }

    fn keeps_rules_across(&self) -> bool {
        let reason = if self.reason.is_empty() { NO_REASON } else { decimal(&self.reason) as u16 };
        let quality = Quality { flag: self.quality[0], method: 0 };
        Note { quality, reason, description: &self.description, description_start: 0 }.keeps_rules_across()
    }
}

/// A quality with one of these flags.
fn quality(chance: &mut Chance, flags: &[u8]) -> Word {
    let flag = chance.pick(flags);
    let mut quality = vec![flag];
    if !b"AN".contains(&flag) {
        quality.extend(from_alphabet(chance, DIGITS, 2));
    }
    quality
}

fn reason(chance: &mut Chance) -> Word {
    match chance.below(6) {
        0 | 1 => Vec::new(),
        2 => b"0".to_vec(),
        3 => chance.pick(&[b"1".as_slice(), b"9", b"10", b"79", b"99", b"100", b"999"]).to_vec(),
        _ => number_word(chance.below(1000)),
    }
}

fn description(chance: &mut Chance) -> Word {
    if chance.one_in(2) {
        return Vec::new();
    }
    let length = if chance.one_in(12) { 240 } else { chance.between(1, 20) };
    text(chance, length)
}

/// A note that a 400 may carry.
pub fn note(chance: &mut Chance) -> NoteWords {
    note_with(chance, Rule::IntervalQuality)
}

/// A note whose quality keeps this rule.
pub fn note_with(chance: &mut Chance, quality: Rule) -> NoteWords {
    loop {
        let quality = keeping(chance, quality);
        let note = NoteWords { quality, reason: reason(chance), description: description(chance) };
        if note.keeps_rules_across() {
            return note;
        }
    }
}

/// A note with this description, whose quality keeps this rule.
pub fn note_with_description(chance: &mut Chance, quality: Rule, description: &[u8]) -> NoteWords {
    loop {
        let quality = keeping(chance, quality);
        let note = NoteWords { quality, reason: reason(chance), description: description.to_vec() };
        if note.keeps_rules_across() {
            return note;
        }
    }
}

/// A note that differs from this one, mostly in one part alone.
pub fn other_note(chance: &mut Chance, from: &NoteWords) -> NoteWords {
    loop {
        let mut other = from.clone();
        match chance.below(7) {
            0 => other.quality = keeping(chance, Rule::IntervalQuality),
            1 => other.reason = reason(chance),
            2 => other.description = description(chance),
            // One byte of the description another.
            3 if !other.description.is_empty() => {
                let place = chance.below(other.description.len());
                other.description[place] = dense_byte(chance);
            }
            // One byte of the method another.
            4 if other.quality.len() == 3 => {
                let place = chance.between(1, 2);
                other.quality[place] = chance.pick(DIGITS);
            }
            // Null for actual, or actual for null.
            5 if other.quality == b"A" => other.quality = b"N".to_vec(),
            5 if other.quality == b"N" => other.quality = b"A".to_vec(),
            _ => other = note(chance),
        }
        if other != *from && other.keeps_rules_across() {
            return other;
        }
    }
}

/// Notes of null data that a 400 may carry, each told from the others by its reason or its description.
pub const NULL_NOTES: [[&str; 3]; 5] =
    [["N", "", ""], ["N", "77", ""], ["N", "79", ""], ["N", "", "why"], ["N", "0", "why"]];

/// Null data with reason 0 and no description, which breaks a rule across fields.
pub const UNEXPLAINED_NULL: [&str; 3] = ["N", "0", ""];

/// Qualities that are nearly null data: one with a method, and a small letter.
pub const NEARLY_NULL: [[&str; 3]; 2] = [["N14", "", ""], ["n", "", ""]];

/// A note, each part of which keeps its rule, that breaks a rule across them. The quality's rule is this one.
pub fn note_against_rules(chance: &mut Chance, quality: Rule) -> NoteWords {
    loop {
        let may_be_v = quality == Rule::DayQuality;
        let quality = if may_be_v && chance.one_in(3) { b"V".to_vec() } else { keeping(chance, quality) };
        let note = NoteWords { quality, reason: reason(chance), description: description(chance) };
        if !note.keeps_rules_across() {
            return note;
        }
    }
}

// --- Any field by its rule ---

/// A content that keeps the rule.
pub fn keeping(chance: &mut Chance, rule: Rule) -> Word {
    let text_of = |chance: &mut Chance, low, high| {
        let length = chance.length(low, high);
        text(chance, length)
    };
    match rule {
        Rule::Indicator => chance.pick(&INDICATORS[..INDICATORS_RIGHT]).as_bytes().to_vec(),
        Rule::Version => chance.pick(&[b"NEM12", b"NEM13"]).to_vec(),
        Rule::FileTime => number_word(time(chance) / 100),
        Rule::Participant => participant(chance),
        Rule::Nmi => from_alphabet(chance, LETTERS_AND_DIGITS, 10),
        Rule::Configuration => text_of(chance, 1, 240),
        Rule::Register => text_of(chance, 0, 10),
        Rule::Suffix => from_alphabet(chance, LETTERS_AND_DIGITS, 2),
        Rule::DataStream => {
            let word = from_alphabet(chance, LETTERS_AND_DIGITS, 2);
            or_empty(chance, word)
        }
        Rule::Serial => text_of(chance, 0, 12),
        Rule::Unit => {
            let unit = unit(chance);
            unit_word(chance, unit)
        }
        Rule::IntervalLength => number_word(chance.pick(&[5, 15, 30])),
        Rule::Date => number_word(date(chance)),
        Rule::DateOrEmpty => {
            let word = number_word(date(chance));
            or_empty(chance, word)
        }
        Rule::Time => number_word(time(chance)),
        Rule::TimeOrEmpty => {
            let word = number_word(time(chance));
            or_empty(chance, word)
        }
        Rule::ReadTime if chance.one_in(8) => END_OF_LAST_DAY.to_vec(),
        Rule::ReadTime => keeping(chance, Rule::TimeOrEmpty),
        // Of as many decimals as every unit allows.
        Rule::Value => value_of_any_shape(chance, Unit::all().map(Unit::decimals).min().unwrap_or(0)),
        Rule::DayQuality | Rule::IntervalQuality => quality(chance, b"AAANNEEFS"),
        Rule::ReadQuality => quality(chance, b"AAAEEFS"),
        Rule::Reason => reason(chance),
        Rule::Description => description(chance),
        Rule::IntervalNumber => number_word(chance.below(300)),
        Rule::TransCode => from_alphabet(chance, CAPITALS, 1),
        Rule::ServiceOrder => text_of(chance, 0, 15),
        Rule::Direction => chance.pick(&[b"I", b"E"]).to_vec(),
        Rule::Read => read(chance),
        Rule::ReadOrEmpty => {
            let word = read(chance);
            or_empty(chance, word)
        }
    }
}

/// Bytes that differ from a comma in one bit or by one. Beside a comma, what looks at several bytes at once can take
/// one of them for it.
const NEARLY_COMMAS: &[u8] = b"$(+-.<l";

/// A content of this length for a text or a read. It keeps the rule if the rule allows the length.
pub fn of_length(chance: &mut Chance, rule: Rule, length: usize) -> Word {
    match rule {
        Rule::Read | Rule::ReadOrEmpty => read_of_length(chance, length),
        _ if chance.one_in(2) => from_alphabet(chance, NEARLY_COMMAS, length),
        Rule::Participant => participant_of_length(chance, length),
        _ => text(chance, length),
    }
}

/// Indicators, and behind these words that are nearly ones.
const INDICATORS: [&str; 26] = [
    "100", "200", "300", "400", "500", "250", "550", "900", "", " ", "0", "101", "901", "3O0", " 300", "300 ", "0300",
    "400 ", " 400", "0400", "40", "4000", "30", "900 ", "600", "NEM12",
];
const INDICATORS_RIGHT: usize = 8;

const VERSIONS: [&str; 9] = ["NEM12", "NEM13", "nem12", "NEM11", "NEM1", "NEM123", "", "NEM12 ", "Nem13"];

const DATES: [&str; 33] = [
    "20000229", "21000229", "19000229", "20040229", "20030229", "19000101", "18991231", "21991231", "22000101",
    "20031301", "20030001", "20030132", "20031131", "20030100", "20030431", "20030430", "20030631", "20030931",
    "20031231", "20030230", "20960229", "21960229", "19040229", "2003043", "200304300", "", "2003O430", "00000000",
    "99999999", "20030 30", " 20030430", "20030430 ", "+0030430",
];
/// So many of the dates are tried in times too.
const TELLING_DATES: usize = 13;

const CLOCKS: [&str; 12] = [
    "000000", "235959", "240000", "236000", "235960", "126000", "120060", "1a0000", "12:000", "00000 ", "00000a",
    "995959",
];

/// Times at the end of the last day and around it. That end may be a read time alone, and those behind it none.
pub const TIMES_AROUND_CALENDAR_END: [&str; 5] =
    ["21991231235959", "22000101000000", "22000101000001", "22000102000000", "22000100000000"];

const VALUES: [&str; 34] = [
    "0", "00", "0000000", "00000000", "9999999", "10000000", "12345678", "9999999.999999", "9999999.9999999",
    "99999999.9", "0.0", "0.000000", "0.0000000", "0.000001", "0.0000001", "003.40", "17.461", ".5", "5.", ".", "5.0",
    "1..2", "1.2.3", "-1", "+1", "1e3", "", "1 2", " 1", "1 ", "0x1", "1.2a", "1234567.1", "5.000000",
];

const QUALITIES: [&str; 40] = [
    "A", "V", "E52", "F14", "S14", "E00", "S99", "F00", "E5", "E", "S", "F", "A14", "V14", "v", "a", "e52", "s14",
    "f14", "E5a", "Ea5", "E521", "", "N", "N52", "E 2", "E2 ", " A", "A ", "V ", "AA", "VV", "B12", "Q", "514", "E-1",
    "n", "N ", " N", "NN",
];

const REASONS: [&str; 20] = [
    "", "0", "00", "000", "01", "007", "099", "7", "79", "999", "1000", "10", "100", "-1", "a", "1a", " 1", "1 ", "0 ",
    "+7",
];

const INTERVAL_NUMBERS: [&str; 28] = [
    "0", "1", "2", "00", "01", "47", "48", "49", "95", "96", "97", "287", "288", "289", "290", "999", "1000", "9999",
    "10000", "", "-1", "048", "1 ", " 1", "1.0", "a", "0001", "0048",
];

const INTERVAL_LENGTHS: [&str; 18] =
    ["5", "15", "30", "05", "015", "030", "10", "60", "0", "1", "", "3O", "30 ", " 5", "300", "31", "5.0", "55"];

/// Units of each number of decimals, in different spellings.
const SPELLED_UNITS: [&str; 5] = ["MWh", "KWH", "wh", "mVaRh", "PF"];

/// A number of minutes that is no interval length.
pub fn no_interval_length(chance: &mut Chance) -> u32 {
    chance.pick(&[0, 1, 4, 6, 10, 14, 16, 29, 31, 45, 60, 288, 300, 1440, u32::MAX])
}

const READS: [&str; 18] = [
    "0", "000021.2", "123456789012345", "1234567890123456", "1234567.1234567", "1234567.12345678", ".5", "5.", ".", "",
    "1.2.3", "1..2", "-5", "1e5", " 5", "5 ", "5 5", "00000",
];

/// All contents that are interesting under the rule, whether they keep it or not.
pub fn edges(rule: Rule) -> Vec<Word> {
    let words = |words: &[&str]| words.iter().map(|word| word.as_bytes().to_vec()).collect();
    match rule {
        Rule::Indicator => words(&INDICATORS),
        Rule::Version => words(&VERSIONS),
        Rule::Date | Rule::DateOrEmpty => words(&DATES),
        Rule::FileTime => times(4),
        Rule::Time | Rule::TimeOrEmpty | Rule::ReadTime => times(6),
        Rule::Value => words(&VALUES),
        Rule::DayQuality | Rule::IntervalQuality | Rule::ReadQuality => words(&QUALITIES),
        Rule::Reason => words(&REASONS),
        Rule::IntervalNumber => words(&INTERVAL_NUMBERS),
        Rule::IntervalLength => words(&INTERVAL_LENGTHS),
        Rule::Read | Rule::ReadOrEmpty => words(&READS),
        Rule::TransCode => words(&["N", "Z", "A", "n", "", "NN", "1", "@", "[", " ", "N "]),
        Rule::Direction => words(&["I", "E", "i", "e", "", "B", "IE", "A", " ", "I "]),
        Rule::Participant => lengths(10, b"# ~!"),
        Rule::Nmi => lengths(10, b"-_ /:@[`{5Z"),
        Rule::Suffix | Rule::DataStream => lengths(2, b"-_ /:@[`{5Z"),
        Rule::Unit => {
            let names = SPELLED_UNITS.iter().chain(&NEARLY_UNITS).map(|word| word.as_bytes().to_vec());
            let mut words: Vec<Word> = names.chain(lengths(5, b"0-@[`{ Z")).collect();
            words.sort_unstable();
            words.dedup();
            words
        }
        Rule::Configuration | Rule::Description => lengths(240, b"# ~!"),
        Rule::Register => lengths(10, b"# ~!"),
        Rule::Serial => lengths(12, b"# ~!"),
        Rule::ServiceOrder => lengths(15, b"# ~!"),
    }
}

/// Letters up to just over the longest length, and spaces and other bytes among letters.
fn lengths(longest: usize, others: &[u8]) -> Vec<Word> {
    let letters = |length: usize| vec![b'k'; length];
    let mut words: Vec<Word> = [0, 1, longest - 1, longest, longest + 1].map(letters).to_vec();
    for other in others {
        let mut word = letters(longest);
        word[longest / 2] = *other;
        words.push(word);
    }
    for end in [0, longest - 1] {
        let mut word = letters(longest);
        word[end] = b' ';
        words.push(word);
    }
    words.push(b" ".to_vec());
    words
}

/// Dates at noon, times of one day and times around the calendar's end, with as many digits behind the date as the
/// rule has.
fn times(digits: usize) -> Vec<Word> {
    let time = |date: &str, clock: &str| format!("{date}{}", &clock[..clock.len().min(digits)]).into_bytes();
    let mut words: Vec<Word> = DATES[..TELLING_DATES].iter().map(|date| time(date, "120000")).collect();
    words.extend(CLOCKS.iter().map(|clock| time("20030430", clock)));
    words.extend(TIMES_AROUND_CALENDAR_END.map(|word| word.as_bytes()[..8 + digits].to_vec()));
    let others = ["", " ", "20030430", "20030430123", "2003043012345", "200304301234567", "20030430 12345"];
    words.extend(others.map(|word| word.as_bytes().to_vec()));
    // The number that is the end of the last day, with a digit too many.
    words.push(b"022000101000000".to_vec());
    // Right but for the number of digits, which is the other kind of time's.
    words.push(if digits == 4 { b"20030430120000".to_vec() } else { b"200304301200".to_vec() });
    words
}

/// A content that is interesting under the rule, whether it keeps it or not.
pub fn interesting(chance: &mut Chance, rule: Rule) -> Word {
    match chance.below(12) {
        0 | 1 => keeping(chance, rule),
        2 => with_end_space(chance, rule),
        _ => {
            let mut edges = edges(rule);
            let place = chance.below(edges.len());
            edges.swap_remove(place)
        }
    }
}

fn with_end_space(chance: &mut Chance, rule: Rule) -> Word {
    let mut word = keeping(chance, rule);
    let place = if chance.one_in(2) { 0 } else { word.len() };
    word.insert(place, b' ');
    word
}

/// A content that breaks the rule.
pub fn breaking(chance: &mut Chance, rule: Rule) -> Word {
    loop {
        let word = interesting(chance, rule);
        if !rule.allows(&word) {
            return word;
        }
    }
}

/// A first field that names no kind of record.
pub fn breaking_indicator(chance: &mut Chance) -> Word {
    chance.pick(&INDICATORS[INDICATORS_RIGHT..]).as_bytes().to_vec()
}
