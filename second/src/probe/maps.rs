//! Cases about the lent memory as a tenant map.

use super::{change_line, end_line, number, refusal_line, Input, Tally, LENT_BYTE, LONGEST_KEYS, LONGEST_LIST};
use crate::refusal::Refusal;
use crate::tenants::layout::{COUNT_LENGTH, KEY_LENGTH, NO_KEY, OUTPUTS};
use crate::tenants::{add_version, back_to, end_of_versions, make_map, map_on, KEYS_LENGTH};

/// What stands in lent shares before a call. No call writes it: it is no share.
const LENT_SHARE: u16 = 0xA5A5;

/// Answers a case whose words are these.
pub fn answer_case(words: &[&[u8]], input: &mut Input, memory: &mut [u8], tally: &mut Tally) -> Option<Vec<u8>> {
    match *words {
        [b"makemap"] => {
            input.announced(0)?;
            Some(answer_make(memory, tally))
        }
        [b"add", first, keys, shares] => {
            let first = number(first, u64::from(u32::MAX))? as u32;
            let keys = input.announced(number(keys, LONGEST_KEYS)? as usize)?;
            let shares = input.shares(shares)?;
            input.announced(0)?;
            Some(answer_add(memory, first, keys, &shares, tally))
        }
        [b"back", version, first] => {
            let version = number(version, usize::MAX as u64)? as usize;
            let first = number(first, u64::from(u32::MAX))? as u32;
            input.announced(0)?;
            Some(answer_back(memory, version, first, tally))
        }
        [b"on", date, keys, shares] => {
            let date = number(date, u64::from(u32::MAX))? as u32;
            let keys = number(keys, LONGEST_KEYS)? as usize;
            let shares = number(shares, LONGEST_LIST)? as usize;
            input.announced(0)?;
            Some(answer_on(memory, date, keys, shares, tally))
        }
        _ => None,
    }
}

fn answer_make(memory: &mut [u8], tally: &mut Tally) -> Vec<u8> {
    let before = memory.to_vec();
    let answer = make_map(memory);
    tally.count_as(|tally| &mut tally.map_makes, &answer);
    change_line(answer, &before, memory, |_| COUNT_LENGTH)
}

fn answer_add(memory: &mut [u8], first: u32, keys: &[u8], shares: &[u16], tally: &mut Tally) -> Vec<u8> {
    let before = memory.to_vec();
    let answer = add_version(memory, first, keys, shares);
    tally.count_as(|tally| &mut tally.adds, &answer);
    change_line(answer, &before, memory, end_of_versions)
}

fn answer_back(memory: &mut [u8], version: usize, first: u32, tally: &mut Tally) -> Vec<u8> {
    let before = memory.to_vec();
    let answer = back_to(memory, version, first);
    tally.count_as(|tally| &mut tally.backs, &answer);
    change_line(answer, &before, memory, end_of_versions)
}

fn answer_on(memory: &[u8], date: u32, key_bytes: usize, shares: usize, tally: &mut Tally) -> Vec<u8> {
    let mut keys = vec![LENT_BYTE; key_bytes];
    let mut shares = vec![LENT_SHARE; shares];
    let answer = map_on(memory, date, &mut keys, &mut shares);
    tally.count_as(|tally| &mut tally.questions, &answer);
    outputs_line(answer, &keys, &shares)
}

/// The line for a call that fills keys and shares by a version. After a refusal none of them may have changed, and else
/// none behind those of the outputs.
fn outputs_line(answer: Result<usize, Refusal>, keys: &[u8], shares: &[u16]) -> Vec<u8> {
    let (filled_keys, filled_shares) = if answer.is_ok() { (KEYS_LENGTH, OUTPUTS) } else { (0, 0) };
    let changed = keys[filled_keys..].iter().any(|byte| *byte != LENT_BYTE)
        || shares[filled_shares..].iter().any(|share| *share != LENT_SHARE);
    match answer {
        Ok(version) => {
            let mut line = format!("accepted {version}").into_bytes();
            for (key, share) in keys[..KEYS_LENGTH].chunks(KEY_LENGTH).zip(shares) {
                let key = if key == NO_KEY { b"-" } else { key };
                line.extend([b" ", key, format!("/{share}").as_bytes()].concat());
            }
            end_line(&mut line, changed);
            line
        }
        Err(refusal) => refusal_line(refusal, changed),
    }
}

#[cfg(test)]
mod tests {
    use super::super::run;
    use std::io;

    fn answers(input: &str) -> Vec<u8> {
        let mut output = Vec::new();
        run(input.as_bytes(), &mut output).unwrap();
        output
    }

    /// The answers as text, where none has bytes.
    fn lines(input: &str) -> String {
        String::from_utf8(answers(input)).unwrap()
    }

    fn memory(length: usize) -> String {
        format!("memory {length}\n{}\n", "x".repeat(length))
    }

    /// The case that adds a version: the first output and the last have keys.
    fn add(date: &str) -> String {
        let keys = format!("vabd000163e1{}VABD000164B2", "\0".repeat(12 * 126));
        format!("add {date} 1536 128\n{keys}\n1000 {}7 \n\n", "0 ".repeat(126))
    }

    /// What a question is answered that this version answers.
    fn outputs(version: usize) -> String {
        format!("accepted {version} VABD000163E1/1000{} VABD000164B2/7\n", " -/0".repeat(126))
    }

    #[test]
    fn before_a_memory_is_lent_it_is_no_map() {
        let input = "makemap\n\non 20030501 1536 128\n\nback 1 20030501\n\n".to_string() + &add("20030501");
        assert_eq!(lines(&input), "refused 15 0 0 0\n".to_string() + &"refused 21 0 0 0\n".repeat(3));
    }

    #[test]
    fn a_map_is_made_of_57_476_bytes() {
        let input = memory(57_476) + "makemap\n\nbytes\n\n";
        let expected = format!("memory 57476\naccepted 0\nbytes 57476\n\0\0\0\0{}", "x".repeat(57_472));
        assert!(answers(&input) == expected.as_bytes());
        assert_eq!(lines(&(memory(57_475) + "makemap\n\n")), "memory 57475\nrefused 15 0 0 0\n");
    }

    #[test]
    fn versions_are_added_gone_back_to_and_asked_for() {
        let no_keys = "\0".repeat(1536);
        let no_shares = "0 ".repeat(128);
        let calls = [
            (memory(57_476), "memory 57476\n".to_string()),
            ("makemap\n\n".to_string(), "accepted 0\n".to_string()),
            ("on 20030501 1536 128\n\n".to_string(), "refused 14 0 0 0\n".to_string()),
            (add("20030501"), "accepted 1\n".to_string()),
            (format!("add 20030601 1536 128\n{no_keys}\n{no_shares}\n\n"), "accepted 2\n".to_string()),
            (add("20030531"), "refused 24 0 0 0\n".to_string()),
            ("add 20030601 0 0\n\n\n\n".to_string(), "refused 15 0 0 0\n".to_string()),
            (
                format!("add 20030601 1536 128\n{no_keys}\n1001 {}\n\n", &no_shares[2..]),
                "refused 25 0 0 0\n".to_string(),
            ),
            ("back 0 20030601\n\n".to_string(), "refused 14 0 0 0\n".to_string()),
            ("back 3 20030601\n\n".to_string(), "refused 14 0 0 0\n".to_string()),
            ("back 18446744073709551615 0\n\n".to_string(), "refused 14 0 0 0\n".to_string()),
            ("back 1 20030229\n\n".to_string(), "refused 24 0 0 0\n".to_string()),
            ("back 1 20030602\n\n".to_string(), "accepted 3\n".to_string()),
            ("on 20030430 1536 128\n\n".to_string(), "refused 14 0 0 0\n".to_string()),
            ("on 20030531 1536 128\n\n".to_string(), outputs(1)),
            ("on 20030601 1536 128\n\n".to_string(), format!("accepted 2{}\n", " -/0".repeat(128))),
            ("on 20030602 2000 300\n\n".to_string(), outputs(3)),
            ("on 20030602 1535 128\n\n".to_string(), "refused 15 0 0 0\n".to_string()),
            ("on 20030602 1536 127\n\n".to_string(), "refused 15 0 0 0\n".to_string()),
            ("on 4294967295 0 0\n\n".to_string(), "refused 14 0 0 0\n".to_string()),
        ];
        let input: String = calls.iter().map(|(case, _)| case.as_str()).collect();
        let expected: String = calls.iter().map(|(_, answer)| answer.as_str()).collect();
        assert_eq!(lines(&input), expected);
    }

    #[test]
    fn a_full_map_is_23() {
        let backs = "back 1 20030501\n\n".repeat(32);
        let answers = lines(&(memory(57_476) + "makemap\n\n" + &add("20030501") + &backs + &add("20030501")));
        assert!(answers.ends_with("accepted 32\nrefused 23 0 0 0\nrefused 23 0 0 0\n"), "{answers}");
    }

    #[test]
    fn answers_about_maps_are_counted_among_all_and_apart() {
        let input = memory(57_476) + "makemap\n\n" + &add("20030501") + &add("20030500") + "back 1 20030501\n\n";
        let input = input + "back 3 20030501\n\non 20030501 0 0\n\non 20030501 1536 128\n\nmemory 0\n\nmakemap\n\n";
        let tallied = run(input.as_bytes(), &mut io::sink()).unwrap().lines();
        for line in [
            "accepted 4", "refused 14 1", "refused 15 2", "refused 23 0", "refused 24 1", "refused 25 0",
            "makemap accepted 1", "makemap refused 15 1", "add accepted 1", "add refused 24 1", "add refused 25 0",
            "back accepted 1", "back refused 14 1", "on accepted 1", "on refused 15 1", "on refused 21 0",
        ] {
            assert!(tallied.lines().any(|tallied| tallied == line), "{line}\n{tallied}");
        }
        assert!(!tallied.contains("refused 22"));
    }

    #[test]
    fn a_bad_case_ends_the_run() {
        assert_eq!(lines("add 0 2 1\n\n\n\n65535 \n\n"), "refused 21 0 0 0\n");
        for bad in [
            "makemap",
            "makemap\n",
            "makemap \n\n",
            "makemap 0\n\n",
            "makemap\nx\n",
            "Makemap\n\n",
            "back\n\n",
            "back 1\n\n",
            "back 1 20030501",
            "back 1 20030501\n",
            "back 1 20030501 0\n\n",
            "back  20030501\n\n",
            "back -1 20030501\n\n",
            "back 18446744073709551616 20030501\n\n",
            "back 1 4294967296\n\n",
            "back 1 20030501\nx\n",
            "on\n\n",
            "on 20030501\n\n",
            "on 20030501 1536\n\n",
            "on 20030501 1536 128",
            "on 20030501 1536 128\n",
            "on 20030501 1536 128 0\n\n",
            "on 4294967296 1536 128\n\n",
            "on 20030501 2001 128\n\n",
            "on 20030501 1536 301\n\n",
            "on 20030501 1536 \n\n",
            "on 20030501 1536 128\nx\n",
            "add\n\n\n\n",
            "add 0\n\n\n\n",
            "add 0 0\n\n\n\n",
            "add 0 0 0\n",
            "add 0 0 0\n\n",
            "add 0 0 0\n\n\n",
            "add 0 0 0 0\n\n\n\n",
            "add 4294967296 0 0\n\n\n\n",
            "add 0 2 0\nx\n\n\n",
            "add 0 2 0\nxxx\n\n\n",
            "add 0 0 1\n\n\n\n",
            "add 0 0 1\n\n65536 \n\n",
            "add 0 0 1\n\n1\n\n",
            "add 0 0 1\n\n1  \n\n",
            "add 0 0 1\n\n-1 \n\n",
            "add 0 0 1\n\n1 1 \n\n",
            "add 0 0 0\n\n \n\n",
            "add 0 0 0\n\n\nx\n",
        ] {
            assert_eq!(lines(&format!("bytes\n\n{bad}")), "bytes 0\nbad case\n", "{bad:?}");
        }
    }

    #[test]
    fn keys_and_shares_have_limits() {
        let add = |keys: usize, shares: usize| {
            lines(&format!("add 0 {keys} {shares}\n{}\n{}\n\n", "x".repeat(keys), "0 ".repeat(shares)))
        };
        assert_eq!(add(2000, 300), "refused 21 0 0 0\n");
        assert_eq!(add(2001, 300), "bad case\n");
        assert_eq!(add(2000, 301), "bad case\n");
    }
}
