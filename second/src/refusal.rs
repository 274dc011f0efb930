//! A refusal: its number, and where in the file it is given.

#[derive(Clone, Copy, Debug, PartialEq, Eq)]
pub struct Refusal {
    pub number: u64,
    /// Place of a byte in the file.
    pub place: usize,
    /// Number of complete records before the one that is meant.
    pub record: usize,
    /// Number of the field, from 1; 0 if no field is meant.
    pub field: usize,
}

pub const FILE_TOO_LONG: u64 = 1;
pub const NO_RECORD_END: u64 = 2;
pub const BYTE_OUTSIDE: u64 = 3;
pub const RECORD_OUT_OF_PLACE: u64 = 4;
pub const WRONG_FIELD_COUNT: u64 = 5;
pub const FIELD_BREAKS_RULE: u64 = 6;
pub const RULE_ACROSS_BROKEN: u64 = 7;
/// Also the date of a block that is to replace a day of another date.
pub const DATE_NOT_LATER: u64 = 8;
pub const COVER_BROKEN: u64 = 9;
pub const COVER_INCOMPLETE: u64 = 10;
pub const DAY_ALL_ALIKE: u64 = 11;
pub const READ_OUTSIDE_DAY: u64 = 12;
pub const BYTES_AFTER_END: u64 = 13;
/// Also a key that a store does not hold, and a date or a number for which a map has no version.
pub const NO_SUCH_NUMBER: u64 = 14;
pub const LENT_TOO_SHORT: u64 = 15;
/// Also an interval length or a unit that is none, of a block on its own, and a key that is none of a day to be kept.
pub const DAY_UNFIT: u64 = 16;
pub const DAY_NOT_NEWER: u64 = 18;
pub const SLOTS_ALL_USED: u64 = 19;
pub const ROOM_EXCEEDED: u64 = 20;
/// Also memory that is no map.
pub const NO_STORE: u64 = 21;
pub const VERSIONS_ALL_USED: u64 = 23;
/// Of a version's first date, also of one that is no date.
pub const DATE_FALLS: u64 = 24;
/// Of a version to be added, and of what a total is to be split by.
pub const ENTRY_UNFIT: u64 = 25;
pub const NO_SHARES: u64 = 26;
pub const TOTAL_TOO_LARGE: u64 = 27;

/// The highest refusal number. (17 was struck: no total of a file reaches 2^64. Nothing here gives 22.)
pub const LAST: u64 = TOTAL_TOO_LARGE;

/// The numbers of all refusals.
pub fn numbers() -> impl Iterator<Item = u64> {
    of_files().chain(DAY_NOT_NEWER..=NO_STORE).chain(VERSIONS_ALL_USED..=LAST)
}

/// Those that files, blocks and days to be written can get.
pub fn of_files() -> impl Iterator<Item = u64> {
    FILE_TOO_LONG..=DAY_UNFIT
}

/// Those that a reading of several days in one call can get.
pub fn of_months() -> impl Iterator<Item = u64> {
    FILE_TOO_LONG..=LENT_TOO_SHORT
}

/// Those that calls on a store can get.
pub fn of_stores() -> impl Iterator<Item = u64> {
    numbers().filter(|number| (NO_SUCH_NUMBER..=NO_STORE).contains(number))
}

/// Those that calls on a tenant map can get.
pub fn of_maps() -> impl Iterator<Item = u64> {
    [NO_SUCH_NUMBER, LENT_TOO_SHORT, NO_STORE].into_iter().chain(VERSIONS_ALL_USED..=ENTRY_UNFIT)
}

/// Those that splits can get: of a total, of a file's day and of a stored one.
pub fn of_splits() -> impl Iterator<Item = u64> {
    (FILE_TOO_LONG..=LENT_TOO_SHORT).chain([NO_STORE]).chain(ENTRY_UNFIT..=TOTAL_TOO_LARGE)
}

impl Refusal {
    /// A refusal that means no place in the file: place, record and field are 0.
    pub fn without_place(number: u64) -> Refusal {
        Refusal { number, place: 0, record: 0, field: 0 }
    }
}
