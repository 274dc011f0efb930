//! The rules of single fields: which bytes a field may hold, and what number it writes.

use crate::units::Unit;

/// Stands as the method of a quality that has none.
pub const NO_METHOD: u8 = 255;

/// Values are held in millionths, so a value of any unit has at most this many digits behind its point.
pub const MOST_DECIMALS: usize = 6;
const DIGITS_BEFORE_POINT: usize = 7;

/// The lowest number that no value reaches: seven digits before the point, six behind.
pub const VALUE_LIMIT: u64 = 10_000_000_000_000;

pub const LONGEST_DESCRIPTION: usize = 240;

/// The end of the last day that a file may hold. Its date is none that may stand, but a read may be taken then.
pub const END_OF_LAST_DAY: &[u8] = b"22000101000000";

/// The rule of one field in a record's layout.
#[derive(Clone, Copy, Debug, PartialEq, Eq)]
pub enum Rule {
    Indicator,
    Version,
    FileTime,
    Participant,
    Nmi,
    Configuration,
    Register,
    Suffix,
    DataStream,
    Serial,
    Unit,
    IntervalLength,
    Date,
    DateOrEmpty,
    Time,
    TimeOrEmpty,
    /// When a day's read was taken, if that is said. It alone may be the end of the last day.
    ReadTime,
    /// The rule of every value, whatever its unit. That its unit may allow fewer decimals is asked beside it.
    Value,
    /// The quality of a whole day, which alone may be `V`.
    DayQuality,
    /// The quality of a 400's intervals.
    IntervalQuality,
    /// The quality of a read in a 250, which alone may not be `N`.
    ReadQuality,
    Reason,
    Description,
    IntervalNumber,
    TransCode,
    ServiceOrder,
    Direction,
    Read,
    ReadOrEmpty,
}

impl Rule {
    /// Whether a field holds to this rule and to the rule for every field, that no space stands at its ends.
    pub fn allows(self, field: &[u8]) -> bool {
        !has_end_space(field) && self.allows_content(field)
    }

    fn allows_content(self, field: &[u8]) -> bool {
        match self {
            // A record is known by its indicator before its fields are looked at.
            Rule::Indicator => true,
            Rule::Version => field == b"NEM12" || field == b"NEM13",
            Rule::FileTime => is_file_time(field),
            Rule::Participant => (1..=10).contains(&field.len()) && !field.contains(&b'#'),
            Rule::Nmi => field.len() == 10 && all_letters_or_digits(field),
            Rule::Configuration => (1..=240).contains(&field.len()),
            Rule::Register => field.len() <= 10,
            Rule::Suffix => field.len() == 2 && all_letters_or_digits(field),
            Rule::DataStream => field.is_empty() || Rule::Suffix.allows_content(field),
            Rule::Serial => field.len() <= 12,
            Rule::Unit => Unit::named(field).is_some(),
            Rule::IntervalLength => intervals_for_field(field).is_some(),
            Rule::Date => is_date(field),
            Rule::DateOrEmpty => field.is_empty() || is_date(field),
            Rule::Time => is_time(field),
            Rule::TimeOrEmpty => field.is_empty() || is_time(field),
            Rule::ReadTime => Rule::TimeOrEmpty.allows_content(field) || field == END_OF_LAST_DAY,
            Rule::Value => value(field).is_some(),
            Rule::DayQuality => quality(field).is_some(),
            Rule::IntervalQuality => quality(field).is_some_and(|quality| quality.flag != b'V'),
            Rule::ReadQuality => Rule::IntervalQuality.allows_content(field) && field != b"N",
            Rule::Reason => field.is_empty() || plain_number(field, 3).is_some(),
            Rule::Description => field.len() <= LONGEST_DESCRIPTION,
            Rule::IntervalNumber => plain_number(field, 4).is_some(),
            Rule::TransCode => field.len() == 1 && field[0].is_ascii_uppercase(),
            Rule::ServiceOrder => field.len() <= 15,
            Rule::Direction => field == b"I" || field == b"E",
            Rule::Read => is_read(field),
            Rule::ReadOrEmpty => field.is_empty() || is_read(field),
        }
    }
}

pub fn has_end_space(field: &[u8]) -> bool {
    field.first() == Some(&b' ') || field.last() == Some(&b' ')
}

/// The bytes that records are made of.
pub fn is_file_byte(byte: u8) -> bool {
    (0x20..=0x7E).contains(&byte)
}

fn all_letters_or_digits(field: &[u8]) -> bool {
    field.iter().all(u8::is_ascii_alphanumeric)
}

/// One digit or more, and nothing else.
fn all_digits(field: &[u8]) -> bool {
    !field.is_empty() && field.iter().all(u8::is_ascii_digit)
}

/// The number that digits write. Callers have at most 14 of them.
pub fn decimal(digits: &[u8]) -> u64 {
    digits.iter().fold(0, |number, digit| number * 10 + u64::from(digit - b'0'))
}

// --- Dates and times ---

pub fn is_date(field: &[u8]) -> bool {
    field.len() == 8 && all_digits(field) && is_real_date(decimal(field) as u32)
}

/// Whether CCYYMMDD, read as one number, is a Gregorian date of the years 1900 to 2199.
pub fn is_real_date(date: u32) -> bool {
    let (year, month, day) = year_month_day(date);
    (1900..=2199).contains(&year) && (1..=12).contains(&month) && (1..=days_in_month(year, month)).contains(&day)
}

pub fn year_month_day(date: u32) -> (u32, u32, u32) {
    (date / 10_000, date / 100 % 100, date % 100)
}

/// The date of the day after this one. Behind 21991231 it is 22000101, which is no date that a file may hold.
pub fn day_after(date: u32) -> u32 {
    let (year, month, day) = year_month_day(date);
    if day < days_in_month(year, month) {
        date + 1
    } else if month < 12 {
        year * 10_000 + (month + 1) * 100 + 1
    } else {
        (year + 1) * 10_000 + 101
    }
}

pub fn days_in_month(year: u32, month: u32) -> u32 {
    match month {
        2 if is_leap_year(year) => 29,
        2 => 28,
        4 | 6 | 9 | 11 => 30,
        _ => 31,
    }
}

fn is_leap_year(year: u32) -> bool {
    match (year % 4, year % 100, year % 400) {
        (_, _, 0) => true,
        (_, 0, _) => false,
        (rest, _, _) => rest == 0,
    }
}

/// The 12 digits of the 100 record: a date, hours and minutes.
fn is_file_time(field: &[u8]) -> bool {
    field.len() == 12
        && all_digits(field)
        && is_date(&field[..8])
        && decimal(&field[8..10]) <= 23
        && decimal(&field[10..12]) <= 59
}

/// The 14 digits of all other times: a date, hours, minutes and seconds.
pub fn is_time(field: &[u8]) -> bool {
    field.len() == 14 && all_digits(field) && is_file_time(&field[..12]) && decimal(&field[12..14]) <= 59
}

/// Whether a time of 14 digits belongs to the day of this date. A day ends with 00:00:00 of the day after it, and so
/// its own 00:00:00 belongs to the day before.
pub fn belongs_to_day(time: u64, date: u32) -> bool {
    let (date_of_time, clock) = (time / 1_000_000, time % 1_000_000);
    date_of_time == u64::from(if clock == 0 { day_after(date) } else { date })
}

// --- Numbers ---

/// The whole millionths of a value or quantity.
pub fn value(field: &[u8]) -> Option<u64> {
    let (whole, fraction) = split_at_point(field);
    if !all_digits(whole) || whole.len() > DIGITS_BEFORE_POINT {
        return None;
    }
    let whole_millionths = decimal(whole) * 1_000_000;
    match fraction {
        None => Some(whole_millionths),
        Some(digits) if all_digits(digits) && digits.len() <= MOST_DECIMALS => {
            let unwritten_zeros = (MOST_DECIMALS - digits.len()) as u32;
            Some(whole_millionths + decimal(digits) * 10u64.pow(unwritten_zeros))
        }
        Some(_) => None,
    }
}

/// How many digits a value has behind its point, zeros at its end included.
pub fn decimals_of(value: &[u8]) -> usize {
    split_at_point(value).1.map_or(0, <[u8]>::len)
}

/// A register read: 1 to 15 bytes, digits with at most one point, which stands between digits.
fn is_read(field: &[u8]) -> bool {
    let (whole, fraction) = split_at_point(field);
    field.len() <= 15 && all_digits(whole) && fraction.into_iter().all(all_digits)
}

/// What stands before the first point, and behind it if there is one.
fn split_at_point(field: &[u8]) -> (&[u8], Option<&[u8]>) {
    match field.iter().position(|byte| *byte == b'.') {
        None => (field, None),
        Some(point) => (&field[..point], Some(&field[point + 1..])),
    }
}

/// A number without leading zeros; `0` itself may stand.
pub fn plain_number(field: &[u8], most_digits: usize) -> Option<u64> {
    let leading_zero = field.len() > 1 && field[0] == b'0';
    if all_digits(field) && field.len() <= most_digits && !leading_zero {
        Some(decimal(field))
    } else {
        None
    }
}

/// The number of intervals in a day of this interval length, if the length is one that may stand.
pub fn intervals_in_day(length: u64) -> Option<usize> {
    match length {
        5 => Some(288),
        15 => Some(96),
        30 => Some(48),
        _ => None,
    }
}

pub fn intervals_for_field(field: &[u8]) -> Option<usize> {
    plain_number(field, 2).and_then(intervals_in_day)
}

// --- Qualities ---

#[derive(Clone, Copy, Debug, PartialEq, Eq)]
pub struct Quality {
    /// The letter's byte.
    pub flag: u8,
    /// 0 to 99, or NO_METHOD.
    pub method: u8,
}

/// A quality as it may stand in a 300. `V` may stand nowhere else; `N`, null data, in a 400 too, not in a 250.
pub fn quality(field: &[u8]) -> Option<Quality> {
    match field {
        [flag @ (b'A' | b'N' | b'V')] => Some(Quality { flag: *flag, method: NO_METHOD }),
        [flag @ (b'E' | b'F' | b'S'), method @ ..] if method.len() == 2 && all_digits(method) => {
            Some(Quality { flag: *flag, method: decimal(method) as u8 })
        }
        _ => None,
    }
}
