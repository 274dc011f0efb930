//! Cases that read several days of a file in one call.

use super::{end_line, interval_words, number, refusal_line, Input, OwnLists, Tally, LENT_BYTE};
use crate::month::{read_days, DaysRead, LentHeads};
use crate::refusal::Refusal;

/// Of each of the six lists that have a place for each interval.
const MOST_PLACES: u64 = 100_000;
/// Of each of the five that have a place for each day.
const MOST_HEADS: u64 = 400;

/// Answers a case whose words are these.
pub fn answer_case(words: &[&[u8]], input: &mut Input, tally: &mut Tally) -> Option<Vec<u8>> {
    let [_, first, last, places, heads, length] = *words else {
        return None;
    };
    let first = number(first, usize::MAX as u64)? as usize;
    let last = number(last, usize::MAX as u64)? as usize;
    let mut lists = OwnLists::new(number(places, MOST_PLACES)? as usize);
    let mut heads = OwnHeads::new(number(heads, MOST_HEADS)? as usize);
    let file = input.lent(length)?;
    let answer = read_days(file, first, last, lists.lend(), heads.lend());
    tally.count_as(|tally| &mut tally.months, &answer);
    Some(month_line(answer, &lists, &heads))
}

/// The lists that have a place for each day.
struct OwnHeads {
    dates: Vec<u32>,
    counts: Vec<usize>,
    updates: Vec<u64>,
    loads: Vec<u64>,
    units: Vec<u8>,
}

impl OwnHeads {
    // What stands in them before a call. No call writes it: it is no date, no number of intervals, no time and no unit.
    const LENT_DATE: u32 = u32::MAX;
    const LENT_COUNT: usize = usize::MAX;
    const LENT_TIME: u64 = u64::MAX;

    fn new(places: usize) -> OwnHeads {
        OwnHeads {
            dates: vec![Self::LENT_DATE; places],
            counts: vec![Self::LENT_COUNT; places],
            updates: vec![Self::LENT_TIME; places],
            loads: vec![Self::LENT_TIME; places],
            units: vec![LENT_BYTE; places],
        }
    }

    fn lend(&mut self) -> LentHeads<'_> {
        LentHeads {
            dates: &mut self.dates,
            counts: &mut self.counts,
            updates: &mut self.updates,
            loads: &mut self.loads,
            units: &mut self.units,
        }
    }

    /// Whether any place from this one on no longer holds what it held before the call.
    fn changed_from(&self, place: usize) -> bool {
        self.dates[place..].iter().any(|date| *date != Self::LENT_DATE)
            || self.counts[place..].iter().any(|count| *count != Self::LENT_COUNT)
            || self.updates[place..].iter().any(|time| *time != Self::LENT_TIME)
            || self.loads[place..].iter().any(|time| *time != Self::LENT_TIME)
            || self.units[place..].iter().any(|byte| *byte != LENT_BYTE)
    }

    /// What an answer has of the day at this place.
    fn words(&self, place: usize) -> String {
        let (date, count, unit) = (self.dates[place], self.counts[place], self.units[place]);
        format!(" {date}/{count}/{}/{}/{unit}", self.updates[place], self.loads[place])
    }
}

/// The line for a call that reads days into these lists: all days, then all intervals.
fn month_line(answer: Result<DaysRead, Refusal>, lists: &OwnLists, heads: &OwnHeads) -> Vec<u8> {
    match answer {
        Ok(DaysRead { days, intervals }) => {
            let mut line = format!("accepted {days} {intervals}").into_bytes();
            line.extend((0..days).flat_map(|place| heads.words(place).into_bytes()));
            line.extend((0..intervals).flat_map(|place| interval_words(lists, place).into_bytes()));
            end_line(&mut line, lists.changed_from(intervals) || heads.changed_from(days));
            line
        }
        Err(refusal) => refusal_line(refusal, lists.changed_from(0) || heads.changed_from(0)),
    }
}

#[cfg(test)]
mod tests {
    use super::super::run;
    use super::OwnHeads;
    use std::io;

    fn lines(input: &str) -> String {
        let mut output = Vec::new();
        run(input.as_bytes(), &mut output).unwrap();
        String::from_utf8(output).unwrap()
    }

    /// A file of a half-hour day in kWh and of a day of 15 minutes in Wh, which has a load time and a description.
    fn file() -> String {
        let head = "100,NEM12,200301011534,MDP1,Ret1\r\n200,VABD000163,E1Q1,1,E1,N1,MET,kWh,30,\r\n";
        let first = format!("300,20030501,{}A,,,20030502153445,\r\n", "1.5,".repeat(48));
        let second = format!("300,20030501,{}S14,79,Why,20030502153446,20030503101500\r\n", "2,".repeat(96));
        format!("{head}{first}200,VABD000163,E1Q1,1,E2,N1,MET,Wh,15,\r\n{second}900\r\n")
    }

    fn month(numbers: &str, file: &str) -> String {
        format!("month {numbers} {}\n{file}\n", file.len())
    }

    #[test]
    fn all_days_are_answered_before_all_intervals_on_one_line() {
        let file = file();
        let (first, second) = (" 20030501/48/20030502153445/0/1", " 20030501/96/20030502153446/20030503101500/2");
        let of_first = " 1500000/65/255/65535/0/0".repeat(48);
        let of_second = format!(" 2000000/83/14/79/{}/3", file.find("Why").unwrap()).repeat(96);
        for (numbers, expected) in [
            ("0 1 144 2", format!("accepted 2 144{first}{second}{of_first}{of_second}\n")),
            ("0 1 100000 400", format!("accepted 2 144{first}{second}{of_first}{of_second}\n")),
            ("0 0 48 1", format!("accepted 1 48{first}{of_first}\n")),
            ("01 1 096 001", format!("accepted 1 96{second}{of_second}\n")),
            ("1 0 0 0", "accepted 0 0\n".to_string()),
            ("18446744073709551615 18446744073709551614 100000 400", "accepted 0 0\n".to_string()),
            ("0 1 143 2", "refused 15 0 0 0\n".to_string()),
            ("0 1 144 1", "refused 15 0 0 0\n".to_string()),
            ("0 2 144 2", "refused 14 0 0 0\n".to_string()),
            ("0 18446744073709551615 144 2", "refused 14 0 0 0\n".to_string()),
            ("0 18446744073709551615 143 2", "refused 15 0 0 0\n".to_string()),
            ("2 2 0 0", "refused 14 0 0 0\n".to_string()),
            ("18446744073709551615 18446744073709551615 0 0", "refused 14 0 0 0\n".to_string()),
        ] {
            // The next answer begins at once.
            let input = month(numbers, &file) + "check 0\n\n";
            assert_eq!(lines(&input), expected + "refused 2 0 0 0\n", "{numbers}");
        }
    }

    #[test]
    fn a_refused_file_is_answered_by_its_own_refusal() {
        let refused = file() + "\n";
        for numbers in ["0 1 144 2", "1 0 144 2", "0 5 0 0", "5 5 0 0"] {
            assert_eq!(lines(&month(numbers, &refused)), format!("refused 13 {} 6 0\n", refused.len() - 1));
            assert_eq!(lines(&month(numbers, "")), "refused 2 0 0 0\n");
        }
    }

    #[test]
    fn each_list_of_one_place_a_day_is_looked_at_for_changes() {
        let changes: [fn(&mut OwnHeads); 5] = [
            |heads| heads.dates[2] = 0,
            |heads| heads.counts[2] = 0,
            |heads| heads.updates[2] = 0,
            |heads| heads.loads[2] = 0,
            |heads| heads.units[2] = 0,
        ];
        assert!(!OwnHeads::new(3).changed_from(0));
        for change in changes {
            let mut heads = OwnHeads::new(4);
            change(&mut heads);
            assert!(heads.changed_from(0) && heads.changed_from(2) && !heads.changed_from(3));
        }
    }

    #[test]
    fn answers_about_months_are_counted_among_all_and_apart() {
        let file = file();
        let cases = ["0 1 144 2", "1 0 0 0", "0 1 0 0", "2 2 0 0", "0 9 144 2"].map(|numbers| month(numbers, &file));
        let input =
            cases.concat() + &month("0 0 0 0", "") + "check 0\n\n" + &format!("day 2 48 {}\n{file}\n", file.len());
        let tallied = run(input.as_bytes(), &mut io::sink()).unwrap().lines();
        for line in [
            "accepted 2", "refused 2 2", "refused 14 3", "refused 15 1", "month accepted 2", "month refused 1 0",
            "month refused 2 1", "month refused 13 0", "month refused 14 2", "month refused 15 1",
        ] {
            assert!(tallied.lines().any(|tallied| tallied == line), "{line}\n{tallied}");
        }
        assert!(!tallied.contains("month refused 16"));
    }

    #[test]
    fn a_bad_case_ends_the_run() {
        assert_eq!(lines("month 0 0 100000 400 0\n\n"), "refused 2 0 0 0\n");
        for bad in [
            "month",
            "month\n\n",
            "month 0 0 0 0\n\n",
            "month 0 0 0 0 0 0\n\n",
            "month 0 0 0  0\n\n",
            "month 0 0 0 0 0 \n\n",
            "month -1 0 0 0 0\n\n",
            "month 0 +1 0 0 0\n\n",
            "month 0 x 0 0 0\n\n",
            "month 18446744073709551616 0 0 0 0\n\n",
            "month 0 18446744073709551616 0 0 0\n\n",
            "month 0 0 100001 0 0\n\n",
            "month 0 0 0 401 0\n\n",
            "month 0 0 0 0 1100001\n\n",
            "month 0 0 0 0 5\n1234",
            "month 0 0 0 0 5\n12345",
            "month 0 0 0 0 5\n12345x",
            "month 0 0 0 0 5\n123456",
            "Month 0 0 0 0 0\n\n",
            "months 0 0 0 0 0\n\n",
            "mont 0 0 0 0 0\n\n",
        ] {
            assert_eq!(lines(&format!("check 0\n\n{bad}")), "refused 2 0 0 0\nbad case\n", "{bad:?}");
        }
    }
}
