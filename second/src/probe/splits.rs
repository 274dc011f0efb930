//! Cases about splits: of a total that is told, of a file's day by the lent memory as a map, and of a day that the lent
//! memory holds as a store.

use super::{end_line, number, refusal_line, Input, Tally, LONGEST_KEYS, LONGEST_LIST};
use crate::refusal::Refusal;
use crate::split::{split, split_day, split_stored};
use crate::tenants::layout::OUTPUTS;

/// Of a map that a case tells.
const LONGEST_MAP: u64 = 60_000;

/// What stands in lent parts before a call. No call writes it: no total is as large.
const LENT_PART: u64 = u64::MAX;

/// Answers a case whose words are these.
pub fn answer_case(words: &[&[u8]], input: &mut Input, memory: &[u8], tally: &mut Tally) -> Option<Vec<u8>> {
    match *words {
        [b"split", total, nmi, suffix, keys, shares, parts] => {
            let total = number(total, u64::MAX)?;
            let mut parts = lent_parts(parts)?;
            let (nmi, suffix) = input.key(nmi, suffix)?;
            let keys = input.announced(number(keys, LONGEST_KEYS)? as usize)?;
            let shares = input.shares(shares)?;
            input.announced(0)?;
            let answer = split(total, nmi, suffix, keys, &shares, &mut parts);
            tally.count_as(|tally| &mut tally.splits, &answer);
            Some(parts_line(answer, &parts))
        }
        [b"splitday", day, parts, length] => {
            let day = number(day, usize::MAX as u64)? as usize;
            let mut parts = lent_parts(parts)?;
            let file = input.lent(length)?;
            let answer = split_day(file, day, memory, &mut parts);
            tally.count_as(|tally| &mut tally.day_splits, &answer);
            Some(parts_line(answer, &parts))
        }
        [b"splitstored", nmi, suffix, date, parts, map] => {
            let date = number(date, u64::from(u32::MAX))? as u32;
            let mut parts = lent_parts(parts)?;
            let (nmi, suffix) = input.key(nmi, suffix)?;
            let map = input.announced(number(map, LONGEST_MAP)? as usize)?;
            let answer = split_stored(memory, nmi, suffix, date, map, &mut parts);
            tally.count_as(|tally| &mut tally.stored_splits, &answer);
            Some(parts_line(answer, &parts))
        }
        _ => None,
    }
}

/// As many parts as the word says.
fn lent_parts(count: &[u8]) -> Option<Vec<u64>> {
    Some(vec![LENT_PART; number(count, LONGEST_LIST)? as usize])
}

/// The line for a call that fills parts. After a refusal none of them may have changed, and else none behind those of
/// the outputs.
fn parts_line(answer: Result<usize, Refusal>, parts: &[u64]) -> Vec<u8> {
    let filled = if answer.is_ok() { OUTPUTS } else { 0 };
    let changed = parts[filled..].iter().any(|part| *part != LENT_PART);
    match answer {
        Ok(outputs) => {
            let mut line = format!("accepted {outputs}").into_bytes();
            for part in &parts[..OUTPUTS] {
                line.extend(format!(" {part}").bytes());
            }
            end_line(&mut line, changed);
            line
        }
        Err(refusal) => refusal_line(refusal, changed),
    }
}

#[cfg(test)]
mod tests {
    use super::super::run;
    use std::io;

    fn lines(input: &str) -> String {
        let mut output = Vec::new();
        run(input.as_bytes(), &mut output).unwrap();
        String::from_utf8(output).unwrap()
    }

    /// Keys and shares of a board: two outputs have one channel, the last has another.
    fn board() -> (String, String) {
        let keys = format!("vabd000163e1VABD000163E1{}VABD000164B2", "\0".repeat(12 * 125));
        (keys, format!("1 2 {}7 ", "0 ".repeat(125)))
    }

    /// The case that splits a total over the outputs of a channel of that board.
    fn split(total: &str, nmi: &str, suffix: &str, parts: usize) -> String {
        let (keys, shares) = board();
        let (a, b) = (nmi.len(), suffix.len());
        format!("split {total} {a} {b} 1536 128 {parts}\n{nmi}{suffix}{keys}\n{shares}\n\n")
    }

    /// What is answered if the first two outputs and the last one get these parts.
    fn parts(outputs: usize, first: u64, second: u64, last: u64) -> String {
        format!("accepted {outputs} {first} {second}{} {last}\n", " 0".repeat(125))
    }

    /// Lends a map whose version of this date is that board.
    fn lend_map(first: &str) -> String {
        let (keys, shares) = board();
        let memory = format!("memory 57476\n{}\n", "x".repeat(57_476));
        format!("{memory}makemap\n\nadd {first} 1536 128\n{keys}\n{shares}\n\n")
    }

    /// The same map as bytes.
    fn map(first: u32) -> Vec<u8> {
        let (keys, shares) = board();
        let mut map = [vec![1, 0, 0, 0], first.to_le_bytes().to_vec()].concat();
        for (key, share) in keys.to_uppercase().as_bytes().chunks(12).zip(shares.split_terminator(' ')) {
            map.extend(key);
            map.extend(share.parse::<u16>().unwrap().to_le_bytes());
        }
        map.resize(57_476, b'x');
        map
    }

    /// A file of a half-hour day whose values are all this one.
    fn file(value: &str) -> String {
        let head = "100,NEM12,200301011534,MDP1,Ret1\r\n200,VABD000163,E1Q1,1,E1,N1,MET,kWh,30,\r\n";
        format!("{head}300,20030501,{}A,,,20030502153445,\r\n900\r\n", format!("{value},").repeat(48))
    }

    fn split_day(day: &str, parts: usize, file: &str) -> String {
        format!("splitday {day} {parts} {}\n{file}\n", file.len())
    }

    /// Lends a store with a half-hour day whose values are all 1.
    fn lend_store() -> String {
        let lists = ["1000000 ", "65 ", "255 ", "65535 ", "0 ", "0 "].map(|number| number.repeat(48) + "\n").concat();
        let put = "put 10 2 20030501 30 20030502093000 0 1 48 48 48 48 48 48 0\nVABD000163E1\n";
        format!("memory 500\n{}\nmake 2\n\n{put}{lists}\n", "x".repeat(500))
    }

    fn split_stored(key: &str, date: &str, parts: usize, map: &[u8]) -> Vec<u8> {
        let line = format!("splitstored 10 2 {date} {parts} {}\n{key}", map.len());
        [line.as_bytes(), map, b"\n"].concat()
    }

    #[test]
    fn a_total_is_split_and_answered_by_the_part_of_each_output() {
        let calls = [
            (split("10", "VABD000163", "E1", 128), parts(2, 3, 7, 0)),
            (split("010", "vabd000163", "e1", 300), parts(2, 3, 7, 0)),
            (split("10", "VABD000164", "B2", 129), parts(1, 0, 0, 10)),
            (split("0", "VABD000163", "E1", 128), parts(2, 0, 0, 0)),
            (
                split("2880000000000000", "VABD000163", "E1", 128),
                parts(2, 960_000_000_000_000, 1_920_000_000_000_000, 0),
            ),
            (split("2880000000000001", "", "", 0), "refused 27 0 0 0\n".to_string()),
            (split("18446744073709551615", "VABD000163", "E1", 128), "refused 27 0 0 0\n".to_string()),
            (split("10", "VABD000163", "E1", 127), "refused 15 0 0 0\n".to_string()),
            ("split 0 0 0 0 0 0\n\n\n\n".to_string(), "refused 15 0 0 0\n".to_string()),
            (split("10", "VABD000163", "E1", 128).replace("\n1 2 0", "\n1 2 1"), "refused 25 0 0 0\n".to_string()),
            (split("10", "VABD000165", "E1", 128), "refused 26 0 0 0\n".to_string()),
            (split("10", "VABD00016", "3E1", 128), "refused 26 0 0 0\n".to_string()),
            (split("10", &"V".repeat(64), &"E".repeat(64), 128), "refused 26 0 0 0\n".to_string()),
        ];
        let input: String = calls.iter().map(|(case, _)| case.as_str()).collect();
        let expected: String = calls.iter().map(|(_, answer)| answer.as_str()).collect();
        assert_eq!(lines(&input), expected);
    }

    #[test]
    fn the_map_of_a_files_day_is_the_memory() {
        assert_eq!(lines(&split_day("0", 128, &file("1"))), "refused 21 0 0 0\n");
        let lent = "memory 57476\naccepted 0\naccepted 1\n";
        let cases = [
            split_day("0", 128, &file("1")),
            split_day("0", 300, &file("0.0001")),
            split_day("0", 127, &file("1")),
            split_day("1", 0, &file("1")),
            split_day("18446744073709551615", 0, &file("1")),
            split_day("0", 0, ""),
            split_day("0", 128, &file("1").replace("VABD000163", "VABD000165")),
        ];
        let answers = [parts(2, 16_000_000, 32_000_000, 0), parts(2, 1_600, 3_200, 0)].concat()
            + "refused 15 0 0 0\nrefused 14 0 0 0\nrefused 14 0 0 0\nrefused 2 0 0 0\nrefused 26 0 0 0\n";
        assert_eq!(lines(&(lend_map("20030501") + &cases.concat())), lent.to_string() + &answers);
        let input = lend_map("20030502") + &split_day("0", 0, &file("1"));
        assert_eq!(lines(&input), lent.to_string() + "refused 14 0 0 0\n");
    }

    #[test]
    fn the_store_of_a_stored_day_is_the_memory() {
        let answers_to = |case: Vec<u8>| {
            let mut output = Vec::new();
            run(&[lend_store().as_bytes(), &case].concat(), &mut output).unwrap();
            let answers = String::from_utf8(output).unwrap();
            answers.strip_prefix("memory 500\naccepted 416\naccepted 1\n").unwrap().to_string()
        };
        let longer = [map(20030501), vec![b'x'; 60_000 - 57_476]].concat();
        for (key, count, map) in [("VABD000163E1", 128, map(20030501)), ("vAbD000163E1", 300, longer.clone())] {
            let answer = answers_to(split_stored(key, "20030501", count, &map));
            assert_eq!(answer, parts(2, 16_000_000, 32_000_000, 0));
        }
        for (key, date, count, map, number) in [
            ("VABD000163E2", "20030501", 0, vec![], 14),
            ("VABD000163E1", "4294967295", 0, vec![], 14),
            ("VABD000163E1", "20030501", 0, vec![], 21),
            ("VABD000163E1", "20030501", 0, map(20030501)[..57_475].to_vec(), 21),
            ("VABD000163E1", "20030501", 0, map(20030502), 14),
            ("VABD000163E1", "20030501", 127, map(20030501), 15),
        ] {
            let answer = answers_to(split_stored(key, date, count, &map));
            assert_eq!(answer, format!("refused {number} 0 0 0\n"), "{key} {date}");
        }
        let too_long = [longer, vec![b'x']].concat();
        assert_eq!(answers_to(split_stored("VABD000163E1", "20030501", 128, &too_long)), "bad case\n");
        let before_a_memory_is_lent = split_stored("VABD000163E1", "20030501", 0, b"");
        assert_eq!(lines(std::str::from_utf8(&before_a_memory_is_lent).unwrap()), "refused 21 0 0 0\n");
    }

    #[test]
    fn answers_about_splits_are_counted_among_all_and_apart() {
        let input = split("10", "VABD000163", "E1", 128) + &split("10", "VABD000165", "E1", 128);
        let input = input + &split("2880000000000001", "", "", 0) + &split_day("0", 0, &file("1"));
        let input = input + &split_day("0", 0, "") + "splitstored 0 0 0 0 0\n\n";
        let tallied = run(input.as_bytes(), &mut io::sink()).unwrap().lines();
        for line in [
            "accepted 1",
            "refused 2 1",
            "refused 21 2",
            "refused 26 1",
            "refused 27 1",
            "split accepted 1",
            "split refused 15 0",
            "split refused 26 1",
            "split refused 27 1",
            "splitday accepted 0",
            "splitday refused 2 1",
            "splitday refused 21 1",
            "splitstored accepted 0",
            "splitstored refused 21 1",
        ] {
            assert!(tallied.lines().any(|tallied| tallied == line), "{line}\n{tallied}");
        }
        assert!(!tallied.contains("refused 22") && !tallied.contains("split refused 16"));
    }

    #[test]
    fn a_bad_case_ends_the_run() {
        assert_eq!(lines("split 0 1 1 2 1 0\n\n\n\n\n\n65535 \n\n"), "refused 15 0 0 0\n");
        for bad in [
            "split",
            "split\n\n\n\n",
            "split 0 0 0 0 0\n\n\n\n",
            "split 0 0 0 0 0 0 0\n\n\n\n",
            "split 0 0 0  0 0\n\n\n\n",
            "split -1 0 0 0 0 0\n\n\n\n",
            "split 18446744073709551616 0 0 0 0 0\n\n\n\n",
            "split 0 65 0 0 0 0\n",
            "split 0 0 65 0 0 0\n",
            "split 0 0 0 2001 0 0\n",
            "split 0 0 0 0 301 0\n\n\n\n",
            "split 0 0 0 0 0 301\n\n\n\n",
            "split 0 1 1 1 0 0\nxyz",
            "split 0 1 1 1 0 0\nxy\n\n\n",
            "split 0 1 1 1 0 0\nxy\nz\n\n\n",
            "split 0 1 1 1 0 0\nxyzz\n\n\n",
            "split 0 0 0 0 1 0\n\n65536 \n\n",
            "split 0 0 0 0 1 0\n\n1\n\n",
            "split 0 0 0 0 1 0\n\n1 1 \n\n",
            "split 0 0 0 0 0 0\n\n\n",
            "split 0 0 0 0 0 0\n\n\nx",
            "Split 0 0 0 0 0 0\n\n\n\n",
            "splits 0 0 0 0 0 0\n\n\n\n",
            "splitday\n\n",
            "splitday 0 0\n\n",
            "splitday 0 0 0 0\n\n",
            "splitday -1 0 0\n\n",
            "splitday 18446744073709551616 0 0\n\n",
            "splitday 0 301 0\n\n",
            "splitday 0 0 1100001\n\n",
            "splitday 0 0 2\nx",
            "splitday 0 0 2\nxx",
            "splitday 0 0 2\nxxx",
            "split day 0 0 0\n\n",
            "splitdays 0 0 0\n\n",
            "splitstored\n\n",
            "splitstored 0 0 0 0\n\n",
            "splitstored 0 0 0 0 0 0\n\n",
            "splitstored 65 0 0 0 0\n",
            "splitstored 0 65 0 0 0\n",
            "splitstored 0 0 4294967296 0 0\n\n",
            "splitstored 0 0 0 301 0\n\n",
            "splitstored 0 0 0 0 60001\n\n",
            "splitstored 0 0 0 0 18446744073709551616\n\n",
            "splitstored 2 1 0 0 2\nxxxxx",
            "splitstored 2 1 0 0 2\nxxx\nxx\n",
            "splitstored 2 1 0 0 2\nxxxxxx",
            "splitstore 0 0 0 0 0\n\n",
        ] {
            assert_eq!(lines(&format!("bytes\n\n{bad}")), "bytes 0\nbad case\n", "{bad:?}");
        }
    }

    #[test]
    fn lists_have_limits() {
        let split = |keys: usize, shares: usize, parts: usize| {
            let (keys_told, shares_told) = ("x".repeat(keys), "0 ".repeat(shares));
            lines(&format!("split 0 0 0 {keys} {shares} {parts}\n{keys_told}\n{shares_told}\n\n"))
        };
        assert_eq!(split(2000, 300, 300), "refused 26 0 0 0\n");
        for (keys, shares, parts) in [(2001, 300, 300), (2000, 301, 300), (2000, 300, 301)] {
            assert_eq!(split(keys, shares, parts), "bad case\n");
        }
    }
}
