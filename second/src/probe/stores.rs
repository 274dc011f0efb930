//! Cases about the lent memory: what it is, and the calls that make a store of it and use that.

use super::{
    change_line, head_of, number, read_line, refusal_line, Input, KeyBytes, OwnLists, Tally, ToldDay, LONGEST_LIST,
};
use crate::store::{delete_day, end_of_blocks, get_day, make_store, put_day, read_slot, SlotRead, HEADER_LENGTH};
use crate::write::DayHead;

const LONGEST_MEMORY: u64 = 1_200_000;

/// Answers a case whose words are these.
pub fn answer_case(words: &[&[u8]], input: &mut Input, memory: &mut Vec<u8>, tally: &mut Tally) -> Option<Vec<u8>> {
    match *words {
        [b"memory", length] => {
            let length = number(length, LONGEST_MEMORY)? as usize;
            *memory = input.announced(length)?.to_vec();
            Some(format!("memory {length}\n").into_bytes())
        }
        [b"bytes"] => {
            input.announced(0)?;
            Some([format!("bytes {}\n", memory.len()).as_bytes(), memory].concat())
        }
        [b"make", slots] => {
            let slots = number(slots, u64::from(u32::MAX))? as u32;
            input.announced(0)?;
            Some(answer_make(memory, slots, tally))
        }
        [b"put", nmi, suffix, date, length, update, load, unit, ref lengths @ ..] => {
            let head = head_of([date, length, update, load, unit])?;
            let key = input.key(nmi, suffix)?;
            input.announced(0)?;
            let day = ToldDay::read(input, lengths)?;
            Some(answer_put(memory, key, head, &day, tally))
        }
        [b"get", nmi, suffix, date, places] => {
            let date = number(date, u64::from(u32::MAX))? as u32;
            let places = number(places, LONGEST_LIST)? as usize;
            let key = input.key(nmi, suffix)?;
            input.announced(0)?;
            Some(answer_get(memory, key, date, places, tally))
        }
        [b"delete", nmi, suffix, date] => {
            let date = number(date, u64::from(u32::MAX))? as u32;
            let key = input.key(nmi, suffix)?;
            input.announced(0)?;
            Some(answer_delete(memory, key, date, tally))
        }
        [b"slot", slot] => {
            let slot = number(slot, usize::MAX as u64)? as usize;
            input.announced(0)?;
            Some(answer_slot(memory, slot, tally))
        }
        _ => None,
    }
}

fn answer_make(memory: &mut [u8], slots: u32, tally: &mut Tally) -> Vec<u8> {
    let before = memory.to_vec();
    let answer = make_store(memory, slots);
    tally.count_as(|tally| &mut tally.makes, &answer);
    change_line(answer, &before, memory, |_| HEADER_LENGTH)
}

fn answer_put(memory: &mut [u8], (nmi, suffix): KeyBytes, head: DayHead, day: &ToldDay, tally: &mut Tally) -> Vec<u8> {
    let before = memory.to_vec();
    let answer = put_day(memory, nmi, suffix, head, day.lists());
    tally.count_as(|tally| &mut tally.puts, &answer);
    change_line(answer, &before, memory, end_of_blocks)
}

fn answer_get(memory: &[u8], (nmi, suffix): KeyBytes, date: u32, places: usize, tally: &mut Tally) -> Vec<u8> {
    let mut lists = OwnLists::new(places);
    let answer = get_day(memory, nmi, suffix, date, lists.lend());
    tally.count_as(|tally| &mut tally.gets, &answer);
    read_line(answer, &lists)
}

fn answer_delete(memory: &mut [u8], (nmi, suffix): KeyBytes, date: u32, tally: &mut Tally) -> Vec<u8> {
    let before = memory.to_vec();
    let answer = delete_day(memory, nmi, suffix, date);
    tally.count_as(|tally| &mut tally.deletes, &answer);
    change_line(answer, &before, memory, end_of_blocks)
}

fn answer_slot(memory: &[u8], slot: usize, tally: &mut Tally) -> Vec<u8> {
    let answer = read_slot(memory, slot);
    if answer == Ok(SlotRead::Free) {
        tally.free_slots += 1;
    } else {
        tally.count_as(|tally| &mut tally.slots, &answer);
    }
    match answer {
        Ok(SlotRead::Free) => b"free\n".to_vec(),
        Ok(SlotRead::Used { nmi, suffix, date, length, unit, update, start, end }) => {
            format!("accepted {nmi} {suffix} {date} {length} {unit} {update} {start} {end}\n").into_bytes()
        }
        Err(refusal) => refusal_line(refusal, false),
    }
}

#[cfg(test)]
mod tests {
    use super::super::run;
    use std::io;

    fn answers(input: &[u8]) -> Vec<u8> {
        let mut output = Vec::new();
        run(input, &mut output).unwrap();
        output
    }

    /// The answers as text, where none has bytes.
    fn lines(input: &str) -> String {
        String::from_utf8(answers(input.as_bytes())).unwrap()
    }

    fn memory(length: usize) -> String {
        format!("memory {length}\n{}\n", "x".repeat(length))
    }

    /// The case that puts a half-hour day whose values are all 1.
    fn put(nmi: &str, suffix: &str, numbers: &str) -> String {
        let lists = ["1000000 ", "65 ", "255 ", "65535 ", "0 ", "0 "].map(|number| number.repeat(48) + "\n").concat();
        let (a, b) = (nmi.len(), suffix.len());
        format!("put {a} {b} {numbers} 48 48 48 48 48 48 0\n{nmi}{suffix}\n{lists}\n")
    }

    fn block(date: &str, update: &str) -> String {
        format!("300,{date},{}A,,,{update},\r\n", "1,".repeat(48))
    }

    const NUMBERS: &str = "20030501 30 20030502093000 0 1";

    #[test]
    fn the_memory_is_empty_at_the_start_and_is_kept() {
        assert_eq!(lines("bytes\n\n"), "bytes 0\n");
        assert_eq!(lines("memory 0\n\nbytes\n\n"), "memory 0\nbytes 0\n");
        let input = memory(5) + "bytes\n\ncheck 0\n\nbytes\n\n" + "memory 2\n\n\n\nbytes\n\nbytes\n\n";
        assert_eq!(
            lines(&input),
            "memory 5\nbytes 5\nxxxxxrefused 2 0 0 0\nbytes 5\nxxxxxmemory 2\nbytes 2\n\n\nbytes 2\n\n\n"
        );
    }

    #[test]
    fn before_a_memory_is_lent_it_is_no_store() {
        let calls = "make 1\n\nmake 0\n\nslot 0\n\nget 0 0 0 0\n\ndelete 0 0 0\n\n".to_string();
        let expected = "refused 15 0 0 0\n".to_string() + &"refused 21 0 0 0\n".repeat(5);
        assert_eq!(lines(&(calls + &put("", "", NUMBERS))), expected);
    }

    #[test]
    fn a_store_is_made_and_answered_by_its_room() {
        let made = answers((memory(400) + "make 8\n\nbytes\n\n").as_bytes());
        let header = [
            &[8, 0, 0, 0, 0, 0, 0, 0, 0, 0, 0, 0, 0, 0, 0, 0][..],
            &[32, 0, 0, 0, 240, 0, 0, 0, 160, 0, 0, 0, 0, 0, 0, 0],
        ];
        let expected = [&b"memory 400\naccepted 160\nbytes 400\n"[..], &header.concat(), &[b'x'; 368]].concat();
        assert_eq!(made, expected);
        let input = memory(57) + "make 1\n\nmake 65\n\nmake 4294967295\n\n";
        assert_eq!(lines(&input), "memory 57\nrefused 15 0 0 0\nrefused 21 0 0 0\nrefused 21 0 0 0\n");
    }

    #[test]
    fn days_are_put_got_and_deleted() {
        let length = block("20030501", "20030502093000").len();
        let later = NUMBERS.replace("093000", "093001");
        let interval = " 1000000/65/255/65535/0/0".repeat(48);
        let calls = [
            (memory(84 + length), "memory"),
            ("make 2\n\n".to_string(), "accepted"),
            ("slot 0\n\n".to_string(), "free"),
            (put("vabd000163", "e1", NUMBERS), "accepted 1"),
            (put("VABD000163", "E1", NUMBERS), "refused 18 0 0 0"),
            (put("VABD000163", "E2", NUMBERS), "refused 20 0 0 0"),
            (put("VABD000163", "E", NUMBERS), "refused 16 0 0 0"),
            (put("VABD000163", "E1", &later), "accepted 1"),
            ("slot 0\n\n".to_string(), "accepted 32 42 20030501 30 1 20030502093001 84"),
            ("slot 1\n\n".to_string(), "free"),
            ("slot 2\n\n".to_string(), "refused 14 0 0 0"),
            ("slot 18446744073709551615\n\n".to_string(), "refused 14 0 0 0"),
            ("get 10 2 20030501 48\nvAbD000163E1\n".to_string(), "accepted 20030501 48 20030502093001 0 1 1000000/65"),
            ("get 10 2 20030501 47\nVABD000163E1\n".to_string(), "refused 15 0 0 0"),
            ("get 10 2 20030502 47\nVABD000163E1\n".to_string(), "refused 14 0 0 0"),
            ("get 9 3 20030501 47\nVABD000163E1\n".to_string(), "refused 14 0 0 0"),
            ("delete 10 2 20030502\nVABD000163E1\n".to_string(), "refused 14 0 0 0"),
            ("delete 10 2 20030501\nvabd000163e1\n".to_string(), "accepted 0"),
            ("delete 10 2 20030501\nvabd000163e1\n".to_string(), "refused 14 0 0 0"),
            ("get 10 2 20030501 48\nVABD000163E1\n".to_string(), "refused 14 0 0 0"),
        ];
        let input: String = calls.iter().map(|(case, _)| case.as_str()).collect();
        let answers = lines(&input);
        assert_eq!(answers.lines().count(), calls.len());
        for (answer, (case, expected)) in answers.lines().zip(&calls) {
            assert!(answer.starts_with(expected), "{case}{answer}");
        }
        assert!(answers.contains(&format!("0 1{interval}\n")));
    }

    #[test]
    fn a_full_store_is_19() {
        let other = NUMBERS.replace("20030501", "20030503");
        let input = memory(1_000) + "make 1\n\n" + &put("VABD000163", "E1", NUMBERS) + &put("VABD000163", "E1", &other);
        assert_eq!(lines(&input), "memory 1000\naccepted 942\naccepted 1\nrefused 19 0 0 0\n");
    }

    #[test]
    fn a_key_may_be_any_bytes() {
        let input = memory(200) + "make 1\n\nget 2 1 0 0\n\n\n\n\ndelete 0 64 0\n" + &"\n".repeat(65) + "slot 0\n\n";
        assert_eq!(lines(&input), "memory 200\naccepted 142\nrefused 14 0 0 0\nrefused 14 0 0 0\nfree\n");
    }

    #[test]
    fn answers_about_stores_are_counted_among_all_and_apart() {
        let input =
            memory(1_000) + "make 2\n\nmake 0\n\nslot 0\n\nslot 1\n\nslot 2\n\n" + &put("VABD000163", "E1", NUMBERS);
        let input = input + "slot 0\n\nget 10 2 20030501 0\nVABD000163E1\ndelete 0 0 0\n\n";
        let tally = run(input.as_bytes(), &mut io::sink()).unwrap();
        let tallied = tally.lines();
        for line in [
            "accepted 3", "refused 14 2", "refused 15 1", "refused 21 1", "make accepted 1", "make refused 21 1",
            "put accepted 1", "put refused 18 0", "get accepted 0", "get refused 15 1", "delete refused 14 1",
            "slot accepted 1", "slot refused 14 1", "slot free 2",
        ] {
            assert!(tallied.lines().any(|tallied| tallied == line), "{line}\n{tallied}");
        }
        assert!(!tallied.contains("refused 17"));
    }

    #[test]
    fn a_bad_case_ends_the_run() {
        // The end of the key's line, and six lists.
        let no_lists = "\n\n\n\n\n\n\n";
        assert_eq!(lines(&format!("put 0 0 0 30 0 0 0 0 0 0 0 0 0 0\n{no_lists}\n")), "refused 21 0 0 0\n");
        for bad in [
            "memory\n\n".to_string(),
            "memory 1200001\n".to_string(),
            "memory 3\nxx".to_string(),
            "memory 3\nxxx".to_string(),
            "memory 3\nxxxx".to_string(),
            "memory 3 3\nxxx\n".to_string(),
            "bytes\n".to_string(),
            "bytes 0\n\n".to_string(),
            "bytes \n\n".to_string(),
            "bytes\nx\n".to_string(),
            "make\n\n".to_string(),
            "make 4294967296\n\n".to_string(),
            "make 1 1\n\n".to_string(),
            "make 1\n".to_string(),
            "slot\n\n".to_string(),
            "slot 18446744073709551616\n\n".to_string(),
            "slot -1\n\n".to_string(),
            "slot 0".to_string(),
            "get 10 2 20030501\nVABD000163E1\n".to_string(),
            "get 65 2 20030501 48\n".to_string(),
            "get 10 65 20030501 48\n".to_string(),
            "get 10 2 4294967296 48\nVABD000163E1\n".to_string(),
            "get 10 2 20030501 301\nVABD000163E1\n".to_string(),
            "get 10 2 20030501 48\nVABD000163\nE1\n".to_string(),
            "get 10 2 20030501 48\nVABD000163E1".to_string(),
            "delete 10 2\nVABD000163E1\n".to_string(),
            "delete 10 2 20030501 48\nVABD000163E1\n".to_string(),
            "delete 65 2 20030501\n".to_string(),
            "delete 10 2 4294967296\nVABD000163E1\n".to_string(),
            "delete 10 2 20030501\nVABD000163E".to_string(),
            format!("put 0 0 0 30 0 0 0 0 0 0 0 0 0\n{no_lists}\n"),
            format!("put 0 0 0 30 0 0 0 0 0 0 0 0 0 0 0\n{no_lists}\n"),
            format!("put 65 0 0 30 0 0 0 0 0 0 0 0 0 0\n{no_lists}\n"),
            format!("put 0 65 0 30 0 0 0 0 0 0 0 0 0 0\n{no_lists}\n"),
            format!("put 0 0 4294967296 30 0 0 0 0 0 0 0 0 0 0\n{no_lists}\n"),
            format!("put 0 0 0 4294967296 0 0 0 0 0 0 0 0 0 0\n{no_lists}\n"),
            format!("put 0 0 0 30 18446744073709551616 0 0 0 0 0 0 0 0 0\n{no_lists}\n"),
            format!("put 0 0 0 30 0 18446744073709551616 0 0 0 0 0 0 0 0\n{no_lists}\n"),
            format!("put 0 0 0 30 0 0 256 0 0 0 0 0 0 0\n{no_lists}\n"),
            format!("put 0 0 0 30 0 0 0 301 0 0 0 0 0 0\n{no_lists}\n"),
            format!("put 0 0 0 30 0 0 0 0 0 0 0 0 0 4097\n{no_lists}\n"),
            format!("put 0 0 0 30 0 0 0 0 1 0 0 0 0 0\n\n\n256 \n{}", "\n".repeat(5)),
            format!("put 0 0 0 30 0 0 0 1 0 0 0 0 0 0\n\n1\n{}", "\n".repeat(6)),
            "put 0 0 0 30 0 0 0 0 0 0 0 0 0 0\n\n\n\n\n\n\n\n".to_string(),
            "put 2 1 0 30 0 0 0 0 0 0 0 0 0 0\nABCD\n\n\n\n\n\n\n\n".to_string(),
            "Put 0 0\n\n".to_string(),
        ] {
            assert_eq!(lines(&format!("bytes\n\n{bad}")), "bytes 0\nbad case\n", "{bad:?}");
        }
    }
}
