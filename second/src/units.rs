//! The units that a file may name, and how many decimals a value has in each. Nothing else knows a unit.

use crate::fields::MOST_DECIMALS;

/// Names and decimals, in the order of the units' numbers, which count from 0.
const UNITS: [(&str, usize); 23] = [
    ("MWh", 6),
    ("kWh", 4),
    ("Wh", 1),
    ("MVArh", 6),
    ("kVArh", 4),
    ("VArh", 1),
    ("MVAr", 6),
    ("kVAr", 4),
    ("VAr", 1),
    ("MW", 6),
    ("kW", 4),
    ("W", 1),
    ("MVAh", 6),
    ("kVAh", 4),
    ("VAh", 1),
    ("MVA", 6),
    ("kVA", 4),
    ("VA", 1),
    ("kV", 4),
    ("V", 1),
    ("kA", 4),
    ("A", 1),
    ("pf", 2),
];

/// A unit of the table, by its number.
#[derive(Clone, Copy, Debug, PartialEq, Eq)]
pub struct Unit {
    number: u8,
}

impl Unit {
    /// How many there are. From here on a number is none's.
    pub const COUNT: u8 = UNITS.len() as u8;

    /// The unit that a field names. Letter case does not count; all else does, a space too.
    pub fn named(field: &[u8]) -> Option<Unit> {
        Unit::all().find(|unit| unit.name().as_bytes().eq_ignore_ascii_case(field))
    }

    pub fn numbered(number: u8) -> Option<Unit> {
        (number < Unit::COUNT).then_some(Unit { number })
    }

    /// The units in the order of their numbers.
    pub fn all() -> impl Iterator<Item = Unit> {
        (0..Unit::COUNT).map(|number| Unit { number })
    }

    pub fn number(self) -> u8 {
        self.number
    }

    /// The name as the table spells it.
    pub fn name(self) -> &'static str {
        UNITS[usize::from(self.number)].0
    }

    /// The most digits that a value of this unit may have behind its point.
    pub fn decimals(self) -> usize {
        UNITS[usize::from(self.number)].1
    }

    /// The millionths of one in the last decimal. A value can be written in this unit if it is a multiple of them.
    pub fn smallest_step(self) -> u64 {
        10u64.pow((MOST_DECIMALS - self.decimals()) as u32)
    }
}

#[cfg(test)]
mod tests {
    use super::*;

    #[test]
    fn numbers_count_the_names_of_the_table_from_0() {
        let names = "MWh kWh Wh MVArh kVArh VArh MVAr kVAr VAr MW kW W MVAh kVAh VAh MVA kVA VA kV V kA A pf";
        assert_eq!(Unit::all().map(Unit::name).collect::<Vec<&str>>(), names.split(' ').collect::<Vec<&str>>());
        for (number, unit) in (0..).zip(Unit::all()) {
            assert_eq!((unit.number(), Unit::numbered(number)), (number, Some(unit)));
        }
        for (number, name) in [(0, "MWh"), (1, "kWh"), (8, "VAr"), (15, "MVA"), (16, "kVA"), (20, "kA"), (22, "pf")] {
            assert_eq!(Unit::numbered(number).map(Unit::name), Some(name));
        }
    }

    #[test]
    fn decimals_go_by_the_size_of_the_unit() {
        for unit in Unit::all() {
            let decimals = match unit.name().as_bytes() {
                [b'M', ..] => 6,
                [b'k', ..] => 4,
                b"pf" => 2,
                _ => 1,
            };
            assert_eq!(unit.decimals(), decimals, "{}", unit.name());
        }
    }

    #[test]
    fn letter_case_does_not_count() {
        for unit in Unit::all() {
            let name = unit.name();
            for spelling in [name.to_string(), name.to_lowercase(), name.to_uppercase()] {
                assert_eq!(Unit::named(spelling.as_bytes()), Some(unit), "{spelling}");
            }
        }
        for (spelling, name) in [("KwH", "kWh"), ("mVaRh", "MVArh"), ("PF", "pf"), ("Pf", "pf"), ("mw", "MW")] {
            assert_eq!(Unit::named(spelling.as_bytes()).map(Unit::name), Some(name), "{spelling}");
        }
    }

    #[test]
    fn all_else_counts() {
        for word in [
            "", " ", "k", "K", "M", "h", "kWhh", "kkWh", "kW h", "kWh ", " kWh", "kWh1", "MVARH1", "Whk", "Var h",
            "GWh", "mV", "MV", "MA", "mA", "VARhh", "kVARs", "p", "f", "pff", "p.f", "kWh\0", "k\u{3a9}", "MWh.",
            "KWHMWH",
        ] {
            assert_eq!(Unit::named(word.as_bytes()), None, "{word:?}");
        }
        // Letters differ from what stands 32 above or below them by more than their case.
        for word in [&b"kW\x48\x20"[..], b"\x4b\x57\x28", b"\x0b\x57\x68", b"k\xd7h", b"kWh\n"] {
            assert_eq!(Unit::named(word), None, "{word:?}");
        }
        for number in 23..=255 {
            assert_eq!(Unit::numbered(number), None, "{number}");
        }
    }

    #[test]
    fn the_smallest_step_is_one_in_the_last_decimal() {
        for (name, step) in [("MWh", 1), ("kWh", 100), ("pf", 10_000), ("Wh", 100_000)] {
            assert_eq!(Unit::named(name.as_bytes()).map(Unit::smallest_step), Some(step), "{name}");
        }
    }
}
