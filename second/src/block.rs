//! A day block on its own: a 300 and what stands under it, with no file around it. It is held to the rules that hold
//! behind a 200 of a given interval length and unit which has no day yet. Places and records count from the block's
//! start.

use crate::day::DayRead;
use crate::fields;
use crate::refusal::{Refusal, COVER_INCOMPLETE, DAY_UNFIT};
use crate::units::Unit;
use crate::walk::{Day, Walk};

#[derive(Clone, Copy, Debug, PartialEq, Eq)]
pub struct BlockRead {
    pub day: DayRead,
    /// The 300, its 400s and its 500s.
    pub records: usize,
}

/// Checks a block behind an interval length in minutes and the number of a unit.
pub fn check_block(block: &[u8], length: u32, unit: u8) -> Result<BlockRead, Refusal> {
    let walk = walk_over(block, length, unit)?;
    Ok(BlockRead { day: DayRead::of(&walk.content.days[0]), records: walk.records })
}

/// The day of such a block. Places of descriptions count from the block's start too.
pub fn read_block(block: &[u8], length: u32, unit: u8) -> Result<Day<'_>, Refusal> {
    let mut walk = walk_over(block, length, unit)?;
    Ok(walk.content.days.remove(0))
}

fn walk_over(block: &[u8], length: u32, unit: u8) -> Result<Walk<'_>, Refusal> {
    let unfit = Refusal::without_place(DAY_UNFIT);
    let n = fields::intervals_in_day(u64::from(length)).ok_or(unfit)?;
    let unit = Unit::numbered(unit).ok_or(unfit)?;
    let mut walk = Walk::at_start_of_block(n, unit);
    // A block has a record at least, so one is asked for even where there are no bytes.
    while walk.records == 0 || walk.start < block.len() {
        walk.step(block)?;
    }
    if walk.is_in_open_cover() {
        return Err(Refusal { number: COVER_INCOMPLETE, place: walk.start, record: walk.records, field: 0 });
    }
    Ok(walk)
}

#[cfg(test)]
mod tests {
    use super::*;
    use crate::check::LONGEST_FILE;
    use crate::settled::{settled_read_times, NULL_DAYS};

    const CHANNEL_30: &str = "200,VABD000163,E1Q1,1,E1,N1,METSER123,kWh,30,20040120\r\n";
    const COVER: &str = "400,1,31,A,,\r\n400,32,48,E52,,\r\n";
    const ORDER: &str = "500,S,RETNSRVCEORD1,20030501101500,1123.4\r\n";

    /// A 300 with n values of 1, and these fields for quality, reason and description.
    fn day_of(n: usize, date: &str, note: &str) -> String {
        format!("300,{date},{}{note},20030502153445,\r\n", "1,".repeat(n))
    }

    fn day_30(note: &str) -> String {
        day_of(48, "20030501", note)
    }

    /// A half-hour V day with these records under its 300.
    fn v_day(under: &str) -> String {
        day_30("V,,") + under
    }

    /// The number of a unit that allows every decimal that a value may have.
    const MWH: u8 = 0;

    fn accepted(block: &str, length: u32) -> BlockRead {
        check_block(block.as_bytes(), length, MWH).expect("a block to be accepted")
    }

    fn refused(block: &str) -> Refusal {
        check_block(block.as_bytes(), 30, MWH).expect_err("a block to be refused")
    }

    /// The refusal at the first byte of a part of the block.
    fn refusal_at(block: &str, part: &str, number: u64, record: usize, field: usize) -> Refusal {
        Refusal { number, place: block.find(part).expect("a part of the block"), record, field }
    }

    /// The refusal of a block's bytes behind a part that is fine and has so many records.
    fn refusal_behind(fine: &str, number: u64, record: usize) -> Refusal {
        Refusal { number, place: fine.len(), record, field: 0 }
    }

    /// Half-hour days that may end here, with the number of their records.
    fn complete_days() -> [(String, usize); 4] {
        let plain = day_30("A,,");
        [(plain.clone(), 1), (plain + ORDER, 2), (v_day(COVER), 3), (v_day(&format!("{COVER}{ORDER}{ORDER}")), 5)]
    }

    /// Half-hour days whose cover is short, with the number of their records.
    fn open_days() -> [(String, usize); 3] {
        [(v_day(""), 1), (v_day("400,1,31,A,,\r\n"), 2), (v_day("400,1,31,A,,\r\n400,32,47,E52,,\r\n"), 3)]
    }

    /// Records that stand in a file but not under a 300, and ones that stand nowhere.
    fn records_of_no_day() -> Vec<String> {
        let mut records = vec![day_30("A,,"), day_of(48, "20030502", "A,,"), CHANNEL_30.to_string()];
        let others =
            ["100,NEM12,200301011534,MDP1,Ret1", "900", "900,", "200", "300", "250", "550,N,,A,", "", ",", "x"];
        records.extend(others.map(|record| format!("{record}\r\n")));
        records.extend([" 400,1,48,A,,", "500 ,S,,,", "0300", "40", "600,1"].map(|record| format!("{record}\r\n")));
        records
    }

    // --- Accepted ---

    #[test]
    fn a_block_of_each_interval_length() {
        for (length, n) in [(5, 288), (15, 96), (30, 48)] {
            let block = day_of(n, "20030501", "A,,");
            let day = DayRead { date: 20030501, n, update: 20030502153445, load: 0, unit: MWH };
            assert_eq!(accepted(&block, length), BlockRead { day, records: 1 });
            let covered = day_of(n, "20030501", "V,,") + &format!("400,1,1,A,,\r\n400,2,{n},E52,,\r\n{ORDER}");
            assert_eq!(accepted(&covered, length), BlockRead { day, records: 4 });
        }
    }

    #[test]
    fn times_are_those_of_a_read_day_and_500s_count() {
        for (block, records) in complete_days() {
            assert_eq!(accepted(&block, 30).records, records, "{block}");
        }
        let loaded = day_30("A,,").replace("153445,", "153445,20030503010203");
        assert_eq!(accepted(&loaded, 30).day.load, 20030503010203);
    }

    #[test]
    fn a_block_of_any_date() {
        for date in ["19000101", "20000229", "20991231", "21991231"] {
            let block = day_of(48, date, "A,,");
            assert_eq!(accepted(&block, 30).day.date.to_string(), date);
        }
    }

    #[test]
    fn a_block_has_no_length_limit() {
        let orders = 1 + LONGEST_FILE / "500,S,,,\r\n".len();
        let block = day_30("A,,") + &"500,S,,,\r\n".repeat(orders);
        assert!(block.len() > LONGEST_FILE);
        assert_eq!(accepted(&block, 30).records, 1 + orders);
    }

    // --- Interval lengths ---

    #[test]
    fn a_length_that_is_none_is_16_before_all_else() {
        for length in [0, 1, 4, 6, 10, 14, 16, 29, 31, 45, 60, 288, 1440, u32::MAX] {
            for block in ["", "x", "900\r\n", "\x00\r\n", &day_30("A,,"), &v_day("")] {
                for unit in [MWH, 23] {
                    let answer = check_block(block.as_bytes(), length, unit);
                    assert_eq!(answer, Err(Refusal::without_place(16)), "{length} {unit} {block:?}");
                }
            }
        }
    }

    #[test]
    fn values_and_intervals_are_held_against_this_lengths_n() {
        for (length, n) in [(5, 48), (15, 48), (15, 288), (30, 96), (30, 288)] {
            let block = day_of(n, "20030501", "A,,");
            let answer = check_block(block.as_bytes(), length, MWH);
            assert_eq!(answer, Err(Refusal { number: 5, place: 0, record: 0, field: 0 }));
        }
        let block = v_day("400,1,31,A,,\r\n400,32,96,E52,,\r\n");
        assert_eq!(refused(&block), refusal_at(&block, "32,96", 9, 2, 2));
    }

    // --- Units ---

    #[test]
    fn a_unit_that_is_none_is_16_before_all_else() {
        for unit in 23..=255 {
            for block in ["", "x", "900\r\n", "\x00\r\n", &day_30("A,,"), &v_day("")] {
                let answer = check_block(block.as_bytes(), 30, unit);
                assert_eq!(answer, Err(Refusal::without_place(16)), "{unit} {block:?}");
            }
        }
    }

    #[test]
    fn values_are_held_to_the_units_decimals() {
        for unit in Unit::all() {
            let decimals = unit.decimals();
            let with_value = |fraction: &str| day_30("A,,").replacen(",1,A", &format!(",1.{fraction},A"), 1);
            let full = with_value(&"7".repeat(decimals));
            let read = check_block(full.as_bytes(), 30, unit.number()).expect("a block to be accepted");
            assert_eq!(read.day.unit, unit.number());
            for last in ["7", "0"] {
                let past = with_value(&("7".repeat(decimals) + last));
                let refusal = check_block(past.as_bytes(), 30, unit.number()).expect_err("a block to be refused");
                assert_eq!(refusal, refusal_at(&past, "1.7", 6, 0, 50), "{}", unit.name());
            }
        }
    }

    // --- Record ends: refusals 2 and 3 ---

    #[test]
    fn no_bytes_and_no_record_ends() {
        assert_eq!(refused(""), Refusal { number: 2, place: 0, record: 0, field: 0 });
        for bytes in ["x", "\r", "\n", "\n\r", "400,1,48,A,,", "\x00", day_30("A,,").trim_end()] {
            assert_eq!(refused(bytes), Refusal { number: 2, place: 0, record: 0, field: 0 }, "{bytes:?}");
        }
        assert_eq!(refused(day_30("A,,").trim_end_matches('\n')).number, 2);
    }

    #[test]
    fn bytes_without_a_record_end_behind_a_day() {
        for (day, records) in complete_days().into_iter().chain(open_days()) {
            for bytes in ["x", "\r", "\n", "500,S,,,", "400,1,1,A,,\r", "900", "\x00"] {
                assert_eq!(refused(&format!("{day}{bytes}")), refusal_behind(&day, 2, records), "{day}{bytes:?}");
            }
        }
    }

    #[test]
    fn bytes_outside_are_asked_before_what_a_record_is() {
        for (day, records) in complete_days().into_iter().chain(open_days()) {
            for (record, outside) in [("900\x7f", 3), ("400\r", 3), ("no\x01", 2), ("\n500", 0), ("300,\u{80}", 4)] {
                let refusal = Refusal { number: 3, place: day.len() + outside, record: records, field: 0 };
                assert_eq!(refused(&format!("{day}{record}\r\n")), refusal, "{day}{record:?}");
            }
        }
        assert_eq!(refused("9\x000\r\n"), Refusal { number: 3, place: 1, record: 0, field: 0 });
    }

    // --- The order of records: refusals 10 and 4 ---

    #[test]
    fn the_first_record_is_a_300() {
        let not_under_a_day = records_of_no_day().into_iter().filter(|record| !record.starts_with("300"));
        for record in not_under_a_day.chain([COVER.to_string(), ORDER.to_string()]) {
            let refusal = Refusal { number: 4, place: 0, record: 0, field: 0 };
            assert_eq!(refused(&record), refusal, "{record:?}");
            assert_eq!(refused(&(record.clone() + &day_30("A,,"))), refusal, "{record:?}");
        }
    }

    #[test]
    fn behind_a_complete_day_other_records_are_4() {
        for (day, records) in complete_days() {
            for record in records_of_no_day() {
                let refusal = refusal_behind(&day, 4, records);
                assert_eq!(refused(&format!("{day}{record}")), refusal, "{day}{record:?}");
                assert_eq!(refused(&format!("{day}{record}no record end")), refusal, "{day}{record:?}");
            }
        }
    }

    #[test]
    fn in_an_open_cover_other_records_are_10() {
        for (day, records) in open_days() {
            for record in records_of_no_day().into_iter().chain([ORDER.to_string()]) {
                assert_eq!(refused(&format!("{day}{record}")), refusal_behind(&day, 10, records), "{day}{record:?}");
            }
        }
    }

    #[test]
    fn a_block_that_ends_in_an_open_cover_is_10_at_its_end() {
        for (day, records) in open_days() {
            assert_eq!(refused(&day), refusal_behind(&day, 10, records), "{day}");
        }
    }

    #[test]
    fn a_400_where_none_may_stand_is_4() {
        for (day, records) in [(day_30("A,,"), 1), (day_30("A,,") + ORDER, 2), (v_day(COVER) + ORDER, 4)] {
            assert_eq!(refused(&format!("{day}400,1,48,A,,\r\n")), refusal_behind(&day, 4, records), "{day}");
            assert_eq!(refused(&format!("{day}400\r\n")), refusal_behind(&day, 4, records), "{day}");
        }
    }

    // --- Fields and days: refusals 5, 6, 7, 9, 11 and 12 ---

    #[test]
    fn wrong_numbers_of_fields() {
        assert_eq!(refused("300\r\n"), Refusal { number: 5, place: 0, record: 0, field: 0 });
        assert_eq!(refused(&day_of(47, "20030501", "A,,")), Refusal { number: 5, place: 0, record: 0, field: 0 });
        for (day, records) in open_days() {
            assert_eq!(refused(&format!("{day}400\r\n")), refusal_behind(&day, 5, records), "{day}");
        }
        for (day, records) in complete_days() {
            assert_eq!(refused(&format!("{day}500,S,,\r\n")), refusal_behind(&day, 5, records), "{day}");
        }
    }

    #[test]
    fn fields_that_break_their_rules() {
        let date = day_of(48, "20030229", "v,,");
        assert_eq!(refused(&date), Refusal { number: 6, place: 4, record: 0, field: 2 });
        let value = day_30("A,,").replacen(",1,", ",.5,", 1);
        assert_eq!(refused(&value), Refusal { number: 6, place: 13, record: 0, field: 3 });
        let cover = v_day("400,1,31,V,,\r\n");
        assert_eq!(refused(&cover), refusal_at(&cover, "V,,\r\n", 6, 1, 4));
        let order = v_day(&format!("{COVER}500,S,,20030501240000,\r\n"));
        assert_eq!(refused(&order), refusal_at(&order, "20030501240000", 6, 3, 4));
    }

    #[test]
    fn rules_across_fields() {
        for note in ["S14,,", "F14,,why", "A,0,", "V,79,", "V,,why"] {
            let block = day_30(note);
            assert_eq!(refused(&block), refusal_at(&block, note, 7, 0, 51), "{note}");
        }
        let cover = v_day("400,1,24,A,,\r\n400,25,48,S14,,\r\n");
        assert_eq!(refused(&cover), refusal_at(&cover, "S14", 7, 2, 4));
    }

    #[test]
    fn null_data_stands_alone_in_300s_and_400s() {
        for (note, under, refusal) in NULL_DAYS {
            let block = day_30(note) + under;
            let refusal = refusal.map(|(number, record, field, part)| refusal_at(&block, part, number, record, field));
            assert_eq!(check_block(block.as_bytes(), 30, MWH).err(), refusal, "{note} {under:?}");
        }
    }

    #[test]
    fn covers_that_break_the_cover_rule() {
        for (under, part, record) in [
            ("400,2,48,A,,\r\n", "2,48", 1),
            ("400,0,48,A,,\r\n", "0,48", 1),
            ("400,1,49,A,,\r\n", "1,49", 1),
            ("400,1,31,A,,\r\n400,33,48,E52,,\r\n", "33,48", 2),
            ("400,1,31,A,,\r\n400,32,31,E52,,\r\n", "32,31", 2),
            ("400,1,31,A,,\r\n400,32,48,E52,,\r\n400,49,49,A,,\r\n", "49,49", 3),
        ] {
            let block = v_day(under);
            assert_eq!(refused(&block), refusal_at(&block, part, 9, record, 2), "{under:?}");
        }
    }

    #[test]
    fn a_v_day_all_alike() {
        let once = v_day("400,1,48,A,,\r\n");
        assert_eq!(refused(&once), refusal_at(&once, "400,1", 11, 1, 0));
        let twice = v_day(&format!("400,1,20,A,79,x\r\n400,21,48,A,79,x\r\n{ORDER}"));
        assert_eq!(refused(&twice), refusal_at(&twice, "400,21", 11, 2, 0));
    }

    #[test]
    fn read_times_are_held_to_the_blocks_own_date() {
        for (day, records) in complete_days() {
            for read_time in ["20030501235959", "20030502000000"] {
                assert_eq!(accepted(&format!("{day}500,S,,{read_time},\r\n"), 30).records, records + 1, "{read_time}");
            }
            for read_time in ["20030430235959", "20030501000000", "20030502000001", "20020501120000"] {
                let block = format!("{day}500,S,,{read_time},\r\n");
                assert_eq!(refused(&block), refusal_at(&block, read_time, 12, records, 4), "{read_time}");
            }
        }
    }

    #[test]
    fn a_day_ends_with_midnight_of_the_day_after() {
        for (date, read_time, number) in settled_read_times() {
            let block = day_of(48, date, "A,,") + &format!("500,S,,{read_time},12.5\r\n500,N,,,\r\n");
            let refusal = number.map(|number| refusal_at(&block, &format!("{read_time},12.5"), number, 1, 4));
            assert_eq!(check_block(block.as_bytes(), 30, MWH).err(), refusal, "{date} {read_time:?}");
        }
    }

    #[test]
    fn no_other_time_is_the_end_of_the_last_day() {
        let day = day_of(48, "21991231", "A,,");
        for (from, to, field) in [("20030502153445,", "22000101000000,", 54), (",\r\n", ",22000101000000\r\n", 55)] {
            let block = day.replace(from, to);
            assert_eq!(refused(&block), refusal_at(&block, "22000101000000", 6, 0, field));
        }
    }
}
