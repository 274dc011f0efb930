//! Replacing one day of a file by another block, in the room that the file stands in.

use crate::block::check_block;
use crate::check::LONGEST_FILE;
use crate::fields::decimal;
use crate::find::find_day;
use crate::refusal::{Refusal, DATE_NOT_LATER, FILE_TOO_LONG, LENT_TOO_SHORT};

/// Where the date stands in a block: behind its `300,`.
const DATE_PLACE: usize = 4;
const DATE_LENGTH: usize = 8;

/// Replaces a day of the file that is the first `length` bytes of the room, and gives the new length. What stands in the
/// room behind the new file is left as it was.
pub fn replace_day(room: &mut [u8], length: usize, number: usize, block: &[u8]) -> Result<usize, Refusal> {
    let too_short = Refusal::without_place(LENT_TOO_SHORT);
    let file = room.get(..length).ok_or(too_short)?;
    let edited = edited_file(file, number, block)?;
    room.get_mut(..edited.len()).ok_or(too_short)?.copy_from_slice(&edited);
    Ok(edited.len())
}

/// The file with the block in the place of a day's own. The questions stand in the order in which they are asked.
fn edited_file(file: &[u8], number: usize, block: &[u8]) -> Result<Vec<u8>, Refusal> {
    let old = find_day(file, number)?;
    let new_date = check_block(block, old.length, old.unit)?.day.date;
    if new_date != date_of(&file[old.start..old.end]) {
        return Err(Refusal { number: DATE_NOT_LATER, place: DATE_PLACE, record: 0, field: 2 });
    }
    let edited = [&file[..old.start], block, &file[old.end..]].concat();
    if edited.len() > LONGEST_FILE {
        return Err(Refusal::without_place(FILE_TOO_LONG));
    }
    Ok(edited)
}

/// The date of a block that is known to be accepted.
fn date_of(block: &[u8]) -> u32 {
    decimal(&block[DATE_PLACE..DATE_PLACE + DATE_LENGTH]) as u32
}

#[cfg(test)]
mod tests {
    use super::*;
    use crate::check::{check, read_file};
    use crate::total::total;

    const HEADER: &str = "100,NEM12,200301011534,MDP1,Ret1\r\n";
    const CHANNEL_30: &str = "200,VABD000163,E1Q1,1,E1,N1,METSER123,kWh,30,20040120\r\n";
    const CHANNEL_15: &str = "200,VABD000163,E1Q1,2,Q1,Q1,METSER123,pf,15,\r\n";
    const COVER: &str = "400,1,31,A,,\r\n400,32,48,E52,,meter read late\r\n";
    const ORDER: &str = "500,S,RETNSRVCEORD1,20030502101500,1123.4\r\n";
    /// More than any test's file needs.
    const PLENTY: usize = 8_000;

    /// A 300 whose n values are all this one, with these fields for quality, reason and description.
    fn day_of(n: usize, date: &str, value: &str, note: &str) -> String {
        let values = format!("{value},").repeat(n);
        format!("300,{date},{values}{note},20030503153445,\r\n")
    }

    fn plain(date: &str, value: &str) -> String {
        day_of(48, date, value, "A,,")
    }

    /// The day that is replaced: the second of its channel's three.
    fn old_block() -> String {
        day_of(48, "20030502", "2.5", "S14,79,old words") + ORDER
    }

    /// What stands before that day.
    fn before() -> String {
        format!("{HEADER}{CHANNEL_30}{}", day_of(48, "20030501", "1", "A,1,first words"))
    }

    /// What stands behind it: a day, and a channel with one day.
    fn behind() -> String {
        let last = day_of(48, "20030503", "3", "E52,,last words");
        let other = day_of(96, "20030502", "0.25", "A,,");
        format!("{last}{CHANNEL_15}{other}900\r\n")
    }

    fn file() -> String {
        before() + &old_block() + &behind()
    }

    /// The number of that day.
    const DAY: usize = 1;

    /// A room of so many bytes: the file, and bytes behind it that are no two alike in a row.
    fn room_of(file: &str, size: usize) -> Vec<u8> {
        let mut room = file.as_bytes().to_vec();
        room.truncate(size);
        room.extend((room.len()..size).map(|place| (place % 251) as u8));
        room
    }

    /// Replaces the day in a room of this size. The room is looked at: nothing is changed by a refusal, and nothing
    /// behind the new end ever.
    fn answer_in(file: &str, length: usize, size: usize, day: usize, block: &str) -> (Result<usize, Refusal>, Vec<u8>) {
        let lent = room_of(file, size);
        let mut room = lent.clone();
        let answer = replace_day(&mut room, length, day, block.as_bytes());
        let kept_from = answer.unwrap_or(0);
        assert_eq!(room[kept_from..], lent[kept_from..], "bytes that are to stay");
        (answer, room)
    }

    fn refused_in(file: &str, size: usize, day: usize, block: &str) -> Refusal {
        answer_in(file, file.len(), size, day, block).0.expect_err("a replacement to be refused")
    }

    fn refused(block: &str) -> Refusal {
        refused_in(&file(), PLENTY, DAY, block)
    }

    const WITHOUT_PLACE: fn(u64) -> Refusal = Refusal::without_place;
    const OTHER_DATE: Refusal = Refusal { number: 8, place: 4, record: 0, field: 2 };

    /// New blocks for that day: shorter, as long as the old one, and longer.
    fn blocks() -> [String; 5] {
        let same_length = old_block().replace("2.5", "4.0");
        let covered = day_of(48, "20030502", "1.0625", "V,,") + COVER + ORDER + "500,N,,20030503000000,\r\n";
        [plain("20030502", "7"), same_length, old_block(), plain("20030502", "1234567.1234"), covered]
    }

    // --- Accepted ---

    #[test]
    fn the_block_takes_the_place_of_the_old_one() {
        for block in blocks() {
            let edited = before() + &block + &behind();
            for size in [edited.len().max(file().len()), PLENTY] {
                let (answer, room) = answer_in(&file(), file().len(), size, DAY, &block);
                assert_eq!(answer, Ok(edited.len()), "{block}");
                assert_eq!(room[..edited.len()], *edited.as_bytes(), "{block}");
            }
        }
    }

    #[test]
    fn the_edited_file_is_accepted_and_its_other_days_stay() {
        for block in blocks() {
            let (answer, room) = answer_in(&file(), file().len(), PLENTY, DAY, &block);
            let edited = &room[..answer.expect("a replacement to be accepted")];
            assert_eq!(check(edited), check(file().as_bytes()), "{block}");
            let (old, new) = (file(), read_file(edited).expect("an accepted file"));
            let old = read_file(old.as_bytes()).expect("an accepted file");
            for number in [0, 2, 3] {
                assert_eq!(new.days[number].values, old.days[number].values);
                assert_eq!(new.days[number].notes[0].description, old.days[number].notes[0].description);
            }
            assert_eq!(total(edited, 1), total(file().as_bytes(), 1));
        }
    }

    #[test]
    fn the_channels_total_is_a_fresh_count() {
        let (answer, room) = answer_in(&file(), file().len(), PLENTY, DAY, &plain("20030502", "7"));
        let edited = &room[..answer.expect("a replacement to be accepted")];
        assert_eq!(total(file().as_bytes(), 0), Ok(48 * (1_000_000 + 2_500_000 + 3_000_000)));
        assert_eq!(total(edited, 0), Ok(48 * (1_000_000 + 7_000_000 + 3_000_000)));
    }

    #[test]
    fn first_and_last_days_and_other_channels() {
        for (day, block) in [(0, plain("20030501", "9")), (2, plain("20030503", "9.5"))] {
            assert!(answer_in(&file(), file().len(), PLENTY, day, &block).0.is_ok(), "{day}");
        }
        // The last day's own 200 counts: 15 minutes, two decimals.
        let of_96 = |value| day_of(96, "20030502", value, "N,,");
        assert!(answer_in(&file(), file().len(), PLENTY, 3, &of_96("1.25")).0.is_ok());
        let refusal = Refusal { number: 6, place: 13, record: 0, field: 3 };
        assert_eq!(refused_in(&file(), PLENTY, 3, &of_96("1.125")), refusal);
        let refusal = Refusal { number: 5, place: 0, record: 0, field: 0 };
        assert_eq!(refused_in(&file(), PLENTY, 3, &plain("20030502", "1")), refusal);
    }

    // --- Refusals in their order ---

    #[test]
    fn a_length_above_the_rooms_is_15_before_all_else() {
        let refused_file = file() + "x";
        for file in ["", "x", &file(), &refused_file] {
            for (size, length) in [(0, 1), (0, usize::MAX), (5, 6), (file.len(), file.len() + 1), (90, usize::MAX)] {
                for (day, block) in [(DAY, old_block()), (DAY, String::new()), (9, plain("20030509", "x"))] {
                    let answer = answer_in(file, length, size, day, &block).0;
                    assert_eq!(answer, Err(WITHOUT_PLACE(15)), "{size} {length} {day}");
                }
            }
        }
    }

    #[test]
    fn the_files_refusal_comes_before_day_and_block() {
        let no_end = file().replace("900\r\n", "");
        let no_unit = file().replace("kWh", "kWz");
        for (file, refusal) in [
            (String::new(), Refusal { number: 2, place: 0, record: 0, field: 0 }),
            (no_end.clone(), Refusal { number: 2, place: no_end.len(), record: 8, field: 0 }),
            (no_unit.clone(), Refusal { number: 6, place: no_unit.find("kWz").expect("a unit"), record: 1, field: 8 }),
            (file() + "x", Refusal { number: 13, place: file().len(), record: 9, field: 0 }),
        ] {
            for day in [0, DAY, 4, usize::MAX] {
                for block in [old_block(), plain("20030509", "1"), "x".to_string(), String::new()] {
                    for size in [file.len(), PLENTY] {
                        assert_eq!(refused_in(&file, size, day, &block), refusal, "{day} {block}");
                    }
                }
            }
        }
    }

    #[test]
    fn the_file_ends_where_its_length_says() {
        let (file, block) = (file(), old_block());
        for (length, number, place) in
            [(0, 2, 0), (file.len() - 1, 2, file.len() - 5), (file.len() + 1, 13, file.len())]
        {
            let refusal = answer_in(&file, length, PLENTY, DAY, &block).0.expect_err("a length that is not the file's");
            assert_eq!((refusal.number, refusal.place), (number, place));
        }
    }

    #[test]
    fn a_file_over_the_limit_is_1() {
        let long = before() + &old_block() + &"500,S,,,\r\n".repeat(LONGEST_FILE / 10) + &behind();
        assert_eq!(refused_in(&long, long.len(), 99, ""), WITHOUT_PLACE(1));
    }

    #[test]
    fn a_day_that_is_none_is_14_before_the_block() {
        let thirteen = "250,1234567890,1141,01,11,11,METSER66,E,000021.2,20031001103230,A,,,000534.5,20040201100030,\
                        E64,77,,343.5,kWh,20040509,20040202125010,20040203000130\r\n";
        let thirteen = format!("{}{thirteen}900\r\n", HEADER.replace("NEM12", "NEM13"));
        for (file, days) in [(file(), 4), (thirteen, 0)] {
            for day in [days, days + 1, usize::MAX] {
                for block in [old_block(), plain("20030509", "1"), "x".to_string(), String::new()] {
                    for size in [file.len(), PLENTY] {
                        assert_eq!(refused_in(&file, size, day, &block), WITHOUT_PLACE(14), "{day} {block}");
                    }
                }
            }
        }
    }

    /// Blocks for the day that are refused, each with its refusal's number, record and field and the part it is at.
    fn refused_blocks(date: &str) -> Vec<(String, u64, usize, usize, &'static str)> {
        let v_day = |under: &str| day_of(48, date, "1", "V,,") + under;
        let order = "500,S,,20030601120000,\r\n";
        vec![
            (plain(date, "1") + "no record end", 2, 1, 0, "no record"),
            (plain(date, "1") + "5\x7f0\r\n", 3, 1, 0, "\x7f"),
            (plain(date, "1") + &plain("20030503", "1"), 4, 1, 0, "300,20030503"),
            (plain(date, "1") + "900\r\n", 4, 1, 0, "900"),
            (plain(date, "1") + "400,1,48,A,,\r\n", 4, 1, 0, "400,"),
            (day_of(96, date, "1", "A,,"), 5, 0, 0, "300"),
            (plain(date, "1.00001"), 6, 0, 3, "1.00001"),
            (plain(date, "1").replace("A,,", "S14,,"), 7, 0, 51, "S14"),
            (v_day("400,1,31,A,,\r\n400,33,48,E52,,\r\n"), 9, 2, 2, "33,48"),
            (v_day("400,1,31,A,,\r\n") + order, 10, 2, 0, "500,S"),
            (v_day("400,1,48,A,,\r\n"), 11, 1, 0, "400,"),
            (v_day(COVER) + order, 12, 3, 4, "20030601"),
        ]
    }

    #[test]
    fn the_blocks_refusal_is_placed_in_the_block() {
        // It comes before another date, and before a room that is too small.
        for date in ["20030502", "20030504"] {
            for (block, number, record, field, part) in refused_blocks(date) {
                let place = block.find(part).expect("a part of the block");
                for size in [file().len(), PLENTY] {
                    let refusal = refused_in(&file(), size, DAY, &block);
                    assert_eq!(refusal, Refusal { number, place, record, field }, "{block}");
                }
            }
        }
    }

    #[test]
    fn an_empty_block_is_2_and_a_short_cover_10_at_its_end() {
        assert_eq!(refused(""), Refusal { number: 2, place: 0, record: 0, field: 0 });
        let short = day_of(48, "20030502", "1", "V,,") + "400,1,31,A,,\r\n";
        assert_eq!(refused(&short), Refusal { number: 10, place: short.len(), record: 2, field: 0 });
    }

    #[test]
    fn a_block_over_the_limit_is_asked_for_its_own_refusal_first() {
        let long = plain("20030502", "1") + &"500,S,,,\r\n".repeat(LONGEST_FILE / 10);
        let place = long.len();
        for size in [file().len(), PLENTY] {
            assert_eq!(refused_in(&file(), size, DAY, &(long.clone() + "x")).number, 2);
            let refusal = refused_in(&file(), size, DAY, &(long.clone() + "400,1,1,A,,\r\n"));
            assert_eq!((refusal.number, refusal.place), (4, place));
            assert_eq!(refused_in(&file(), size, DAY, &long), WITHOUT_PLACE(1));
        }
    }

    #[test]
    fn another_date_is_8_at_the_blocks_date() {
        let long = "500,S,,,\r\n".repeat(LONGEST_FILE / 10);
        // Earlier and later, those of its neighbours, and ones that could stand between them if it were gone.
        for date in ["20030430", "20030501", "20030503", "20030504", "20020502", "21991231"] {
            let block = plain(date, "1");
            assert_eq!(refused(&block), OTHER_DATE, "{date}");
            // Before 1 and before 15.
            let longer = plain(date, "1000000");
            assert_eq!(refused_in(&file(), file().len(), DAY, &longer), OTHER_DATE, "{date}");
            assert_eq!(refused_in(&file(), file().len(), DAY, &(block + &long)), OTHER_DATE, "{date}");
        }
    }

    #[test]
    fn read_times_are_held_to_the_blocks_own_date() {
        let with_read = |date: &str, time: &str| plain(date, "1") + &format!("500,S,,{time},\r\n");
        for time in ["20030502000001", "20030503000000", ""] {
            assert!(answer_in(&file(), file().len(), PLENTY, DAY, &with_read("20030502", time)).0.is_ok(), "{time}");
        }
        for time in ["20030502000000", "20030503000001", "20030504120000"] {
            assert_eq!(refused(&with_read("20030502", time)).number, 12, "{time}");
        }
        // Of another date: 12 where the read belongs to the old day alone, else 8.
        assert_eq!(refused(&with_read("20030503", "20030502120000")).number, 12);
        assert_eq!(refused(&with_read("20030503", "20030503120000")), OTHER_DATE);
    }

    /// A file of one day less than the limit by so many bytes, and the place of its day's last 500.
    fn file_below_limit(by: usize) -> String {
        let (before, behind) = (before(), behind());
        let day = plain("20030502", "1");
        let left = LONGEST_FILE - by - before.len() - day.len() - behind.len();
        let last = format!("500,S,{},,\r\n", "X".repeat(left % 10));
        before + &day + &"500,S,,,\r\n".repeat(left / 10 - 1) + &last + &behind
    }

    #[test]
    fn the_limit_may_be_reached_and_not_passed() {
        let file = file_below_limit(40);
        assert_eq!(file.len(), LONGEST_FILE - 40);
        let day = 0;
        let old = day_of(48, "20030501", "1", "A,1,first words");
        let longer = |by: usize| old.replace("first", &("first".to_string() + &"x".repeat(by)));
        for size in [LONGEST_FILE, LONGEST_FILE + 9] {
            let (answer, room) = answer_in(&file, file.len(), size, day, &longer(40));
            assert_eq!(answer, Ok(LONGEST_FILE));
            assert!(check(&room[..LONGEST_FILE]).is_ok());
        }
        for size in [file.len(), LONGEST_FILE, LONGEST_FILE + 1, LONGEST_FILE + 90] {
            assert_eq!(refused_in(&file, size, day, &longer(41)), WITHOUT_PLACE(1), "{size}");
        }
        for size in [file.len(), LONGEST_FILE - 1] {
            assert_eq!(refused_in(&file, size, day, &longer(40)), WITHOUT_PLACE(15), "{size}");
        }
    }

    #[test]
    fn a_room_that_is_shorter_than_the_new_file_is_15() {
        let block = plain("20030502", "1234567.1234");
        let new_length = before().len() + block.len() + behind().len();
        for size in [file().len(), file().len() + 1, new_length - 1] {
            assert_eq!(refused_in(&file(), size, DAY, &block), WITHOUT_PLACE(15), "{size}");
        }
        assert_eq!(answer_in(&file(), file().len(), new_length, DAY, &block).0, Ok(new_length));
    }
}
