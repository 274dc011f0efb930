//! Whose day it is: the channel of a day, what its 200 says of it, and where in the file its block lies.

use crate::check::read_file;
use crate::refusal::Refusal;

#[derive(Clone, Copy, Debug, PartialEq, Eq)]
pub struct DayFound {
    /// Number of its channel, from 0.
    pub channel: usize,
    /// Place of the channel's NMI field in the file.
    pub nmi: usize,
    /// Place of the channel's suffix field in the file.
    pub suffix: usize,
    /// The number of the channel's unit.
    pub unit: u8,
    /// The channel's interval length in minutes.
    pub length: u32,
    /// Where the day's block starts, and where it ends: behind the CR LF of its last record, be it a 500.
    pub start: usize,
    pub end: usize,
}

pub fn find_day(file: &[u8], number: usize) -> Result<DayFound, Refusal> {
    let content = read_file(file)?;
    let day = content.day(number)?;
    let head = content.channels[day.channel].head();
    Ok(DayFound {
        channel: day.channel,
        nmi: head.field(2).start,
        suffix: head.field(5).start,
        unit: day.unit.number(),
        length: head.decimal(9) as u32,
        start: day.start,
        end: day.end,
    })
}

#[cfg(test)]
mod tests {
    use super::*;

    const HEADER: &str = "100,NEM12,200301011534,MDP1,Ret1\r\n";

    fn day(n: usize, date: &str, note: &str) -> String {
        format!("300,{date},{}{note},20030502153445,\r\n", "1,".repeat(n))
    }

    /// A file of two channels. The first has a plain day and a V day with a 500, the other a day with two 500s.
    fn file() -> String {
        let first = "200,VABD000163,E1Q1,1,E1,N1,METSER123,kWh,30,20040120\r\n".to_string();
        let covered = day(48, "20030502", "V,,") + "400,1,31,A,,\r\n400,32,48,E52,,\r\n500,S,,20030503000000,\r\n";
        let second = "200,NEM1200001,B1,,B1,,,pf,15,\r\n".to_string() + &day(96, "20030501", "A,,");
        let orders = "500,S,RETNSRVCEORD1,20030501101500,1123.4\r\n500,N,,,\r\n";
        format!("{HEADER}{first}{}{covered}{second}{orders}900\r\n", day(48, "20030501", "A,,"))
    }

    fn place_of(file: &str, part: &str) -> usize {
        file.find(part).expect("a part of the file")
    }

    #[test]
    fn a_day_is_found_with_all_that_stands_under_it() {
        let file = file();
        let at = |part: &str| place_of(&file, part);
        let first = DayFound {
            channel: 0,
            nmi: at("VABD000163"),
            suffix: at("E1,N1"),
            unit: 1,
            length: 30,
            start: at("300,20030501"),
            end: at("300,20030502"),
        };
        assert_eq!(find_day(file.as_bytes(), 0), Ok(first));
        let second = DayFound { start: first.end, end: at("200,NEM12"), ..first };
        assert_eq!(find_day(file.as_bytes(), 1), Ok(second));
        let third = DayFound {
            channel: 1,
            nmi: at("NEM1200001"),
            suffix: at("B1,,,pf"),
            unit: 22,
            length: 15,
            start: second.end + "200,NEM1200001,B1,,B1,,,pf,15,\r\n".len(),
            end: at("900\r\n"),
        };
        assert_eq!(find_day(file.as_bytes(), 2), Ok(third));
    }

    #[test]
    fn a_day_that_is_none_is_14_behind_the_files_own_refusal() {
        for number in [3, 4, usize::MAX] {
            assert_eq!(find_day(file().as_bytes(), number), Err(Refusal::without_place(14)), "{number}");
        }
        let refused = file() + "x";
        for number in [0, 3, usize::MAX] {
            let refusal = Refusal { number: 13, place: refused.len() - 1, record: 12, field: 0 };
            assert_eq!(find_day(refused.as_bytes(), number), Err(refusal), "{number}");
        }
    }

    #[test]
    fn a_nem13_file_has_no_days() {
        let accumulation =
            "250,1234567890,1141,01,11,11,METSER66,E,000021.2,20031001103230,A,,,000534.5,20040201100030,\
                            E64,77,,343.5,kWh,20040509,20040202125010,20040203000130\r\n";
        let file = format!("{}{accumulation}900\r\n", HEADER.replace("NEM12", "NEM13"));
        for number in [0, 1, usize::MAX] {
            assert_eq!(find_day(file.as_bytes(), number), Err(Refusal::without_place(14)), "{number}");
        }
    }
}
