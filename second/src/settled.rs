//! The settled cases of the rules, and the order of refusals, each with the answer that the rules' own words give.

use crate::check::{check, read_file, Summary};
use crate::day::{read_day, LentLists};
use crate::fields::{day_after, is_date, is_real_date, quality, value, Quality, Rule, END_OF_LAST_DAY, NO_METHOD};
use crate::notes::NO_REASON;
use crate::refusal::Refusal;
use crate::total::total;
use crate::units::Unit;
use crate::write::{write_day, Block, DayHead, DayLists};

const HEADER_12: &str = "100,NEM12,200301011534,MDP1,Ret1\r\n";
const HEADER_13: &str = "100,NEM13,200301011534,MDP1,Ret1\r\n";
const CHANNEL_30: &str = "200,VABD000163,E1Q1,1,E1,N1,METSER123,kWh,30,20040120\r\n";
const END: &str = "900\r\n";

/// Numbers of units: one that allows every decimal that a value may have, and one that allows four.
const MWH: u8 = 0;
const KWH: u8 = 1;

/// The sample 250 of the source's section 5.3, its stray space taken out.
const SAMPLE_250: &str = "250,1234567890,1141,01,11,11,METSERG6,E,000021.2,20031001103230,A,,,000534.5,20040201100030,\
                          E64,77,,343.5,kWh,20040509,20040202125010,20040203000130\r\n";

/// A half-hour 300 with values of 1, and these fields for quality, reason and description.
fn day_30(date: &str, note: &str) -> String {
    format!("300,{date},{}{note},20030502153445,\r\n", "1,".repeat(48))
}

/// A NEM12 file of one half-hour V day, with these records under its 300.
fn v_day_file(under: &str) -> String {
    let day = day_30("20030501", "V,,");
    format!("{HEADER_12}{CHANNEL_30}{day}{under}{END}")
}

/// A NEM12 file with these records under its 200.
fn channel_file(under: &str) -> String {
    format!("{HEADER_12}{CHANNEL_30}{under}{END}")
}

fn refused(file: &str) -> Refusal {
    check(file.as_bytes()).expect_err("a file to be refused")
}

fn refused_number(file: &str) -> u64 {
    refused(file).number
}

fn is_accepted(file: &str) -> bool {
    check(file.as_bytes()).is_ok()
}

/// The refusal at the first byte of a part of the file.
fn refusal_at(file: &str, part: &str, number: u64, record: usize, field: usize) -> Refusal {
    Refusal { number, place: file.find(part).expect("a part of the file"), record, field }
}

// --- Single fields ---

#[test]
fn values_hold_millionths() {
    assert_eq!(value(b"17.461"), Some(17_461_000));
    assert_eq!(value(b"003.40"), Some(3_400_000));
    assert_eq!(value(b"0"), Some(0));
    assert_eq!(value(b"9999999.999999"), Some(9_999_999_999_999));
    for refused in ["", ".5", "5.", "12345678", "00000000", "12345678.1", "1.1234567", "-1", "1.2.3", "1 "] {
        assert_eq!(value(refused.as_bytes()), None, "{refused}");
    }
}

#[test]
fn dates_are_real_ones_of_1900_to_2199() {
    for date in ["20000229", "20040229", "19000101", "21991231", "20030430"] {
        assert!(is_date(date.as_bytes()), "{date}");
    }
    for date in ["21000229", "20030229", "19000229", "18991231", "22000101", "20030431", "20031301", "20030100", ""] {
        assert!(!is_date(date.as_bytes()), "{date}");
    }
}

#[test]
fn the_day_after_is_the_least_later_date() {
    let mut date = 19000101;
    while date != 21991231 {
        let after = day_after(date);
        assert_eq!((date + 1..=after).find(|later| is_real_date(*later)), Some(after), "{date}");
        date = after;
    }
    assert_eq!(day_after(date), 22000101);
}

#[test]
fn a_read_time_alone_may_be_the_end_of_the_last_day() {
    for read_time in ["", "19000101000000", "20031220000000", "21991231235959", "22000101000000"] {
        assert!(Rule::ReadTime.allows(read_time.as_bytes()), "{read_time}");
    }
    for read_time in [
        "22000101000001", "22000101235959", "22000102000000", "22000100000000", "22000101240000", "2200010100000",
        "220001010000000", "022000101000000", "220001010000", "22000101", " 22000101000000", "22000101000000 ",
        "20030229000000", "20031220240000", " ",
    ] {
        assert!(!Rule::ReadTime.allows(read_time.as_bytes()), "{read_time}");
    }
    for rule in [Rule::Time, Rule::TimeOrEmpty] {
        assert!(!rule.allows(END_OF_LAST_DAY), "{rule:?}");
    }
    assert!(!Rule::FileTime.allows(b"220001010000"));
}

#[test]
fn qualities_are_enumerated() {
    assert_eq!(quality(b"E52"), Some(Quality { flag: b'E', method: 52 }));
    assert_eq!(quality(b"A"), Some(Quality { flag: b'A', method: NO_METHOD }));
    assert_eq!(quality(b"N"), Some(Quality { flag: 78, method: 255 }));
    for refused in ["v", "A14", "a", "E5", "E", "e52", "V14", "E521", "", "n", "N14", "N00", "n14", "NN", "AN", "NV"] {
        assert_eq!(quality(refused.as_bytes()), None, "{refused}");
    }
    for (rule, allowed) in [(Rule::DayQuality, "ANV"), (Rule::IntervalQuality, "AN"), (Rule::ReadQuality, "A")] {
        for letter in ["A", "N", "V"] {
            assert_eq!(rule.allows(letter.as_bytes()), allowed.contains(letter), "{rule:?} {letter}");
        }
    }
}

#[test]
fn numbers_have_no_leading_zeros_but_zero_stands() {
    for (rule, kept, broken) in [
        (Rule::Reason, vec!["", "0", "7", "79", "999"], vec!["00", "01", "079", "1000", " 1"]),
        (Rule::IntervalNumber, vec!["0", "1", "9999"], vec!["", "01", "00", "10000"]),
        (Rule::IntervalLength, vec!["5", "15", "30"], vec!["", "05", "030", "0", "10", "60"]),
    ] {
        for field in kept {
            assert!(rule.allows(field.as_bytes()), "{rule:?} {field}");
        }
        for field in broken {
            assert!(!rule.allows(field.as_bytes()), "{rule:?} {field}");
        }
    }
}

#[test]
fn lengths_stand_at_their_limits() {
    for (rule, shortest, longest) in [
        (Rule::Participant, 1, 10),
        (Rule::Nmi, 10, 10),
        (Rule::Configuration, 1, 240),
        (Rule::Register, 0, 10),
        (Rule::Suffix, 2, 2),
        (Rule::Serial, 0, 12),
        (Rule::ServiceOrder, 0, 15),
        (Rule::Description, 0, 240),
    ] {
        let allows = |length: usize| rule.allows(&vec![b'k'; length]);
        assert!(allows(shortest) && allows(longest) && !allows(longest + 1), "{rule:?}");
        assert!(shortest == 0 || !allows(shortest - 1), "{rule:?}");
    }
    assert!(Rule::DataStream.allows(b"") && Rule::DataStream.allows(b"N1") && !Rule::DataStream.allows(b"N"));
    assert!(!Rule::Participant.allows(b"a#b"));
    assert!(Rule::Read.allows(b"123456789012345") && !Rule::Read.allows(b"1234567890123456"));
    assert!(!Rule::Read.allows(b".5") && !Rule::Read.allows(b"5.") && !Rule::Read.allows(b""));
}

// --- Cover ---

#[test]
fn half_hour_v_days() {
    assert!(is_accepted(&v_day_file("400,1,31,A,,\r\n400,32,48,E52,,\r\n")));

    let gap = v_day_file("400,1,31,A,,\r\n400,33,48,E52,,\r\n");
    assert_eq!(refused(&gap), refusal_at(&gap, "33,48", 9, 4, 2));

    let past_end = v_day_file("400,1,49,A,,\r\n");
    assert_eq!(refused(&past_end), refusal_at(&past_end, "1,49", 9, 3, 2));

    let order_too_early = v_day_file("400,1,31,A,,\r\n500,S,,,\r\n");
    assert_eq!(refused(&order_too_early), refusal_at(&order_too_early, "500,S", 10, 4, 0));
}

#[test]
fn a_v_day_all_alike_should_not_have_been_v() {
    let once = v_day_file("400,1,48,A,,\r\n");
    assert_eq!(refused(&once), refusal_at(&once, "400,1", 11, 3, 0));
    let twice = v_day_file("400,1,20,A,79,x\r\n400,21,48,A,79,x\r\n");
    assert_eq!(refused(&twice), refusal_at(&twice, "400,21", 11, 4, 0));
    assert!(is_accepted(&v_day_file("400,1,20,A,79,x\r\n400,21,48,A,79,y\r\n")));
    assert!(is_accepted(&v_day_file("400,1,20,A,79,x\r\n400,21,30,A,79,x\r\n400,31,48,A,,x\r\n")));
}

#[test]
fn interval_numbers_are_held_against_this_channels_n() {
    assert_eq!(refused_number(&v_day_file("400,1,20,A,,\r\n400,21,288,E52,,\r\n")), 9);
    assert_eq!(refused_number(&v_day_file("400,0,20,A,,\r\n")), 9);
    assert_eq!(refused_number(&v_day_file("400,1,20,A,,\r\n400,21,20,E52,,\r\n")), 9);
    assert_eq!(refused_number(&v_day_file("400,1,20,A,,\r\n400,20,48,E52,,\r\n")), 9);
}

#[test]
fn a_further_400_is_looked_at_like_any_other() {
    let complete = "400,1,31,A,,\r\n400,32,48,E52,,\r\n";
    for (further, number) in [
        ("400,49,49,A,,", 9),
        ("400,1,48,A,,", 9),
        ("400,49,49,S14,,", 7),
        ("400,49,49,V,,", 6),
        ("400,49,49,A,", 5),
        ("400,49,49,A,,\x7f", 3),
    ] {
        assert_eq!(refused_number(&v_day_file(&format!("{complete}{further}\r\n"))), number, "{further:?}");
    }
    assert_eq!(refused_number(&v_day_file(&format!("{complete}500,S,,,\r\n400,49,49,A,\r\n"))), 4);
}

#[test]
fn an_open_cover_is_asked_before_all_but_bytes() {
    for (next, number) in [("", 10), ("900,", 10), ("300", 10), (" 400,1", 10), ("400", 5), ("no\x01", 3)] {
        assert_eq!(refused_number(&v_day_file(&format!("{next}\r\n"))), number, "{next:?}");
    }
    let cut = v_day_file("").replace(END, "");
    assert_eq!(refused(&cut), Refusal { number: 2, place: cut.len(), record: 3, field: 0 });
}

// --- Rules across fields ---

#[test]
fn s14_without_reason_is_7() {
    let file = v_day_file("400,1,24,A,,\r\n400,25,48,S14,,\r\n");
    assert_eq!(refused(&file), refusal_at(&file, "S14", 7, 4, 4));
}

#[test]
fn rules_across_hold_in_a_300() {
    for note in ["A,,", "A,,why", "A,79,", "A,0,why", "E52,,", "E52,,why", "S14,79,", "F14,0,why"] {
        assert!(is_accepted(&channel_file(&day_30("20030501", note))), "{note}");
    }
    for note in ["S14,,", "F14,,why", "A,0,", "E52,0,", "S14,0,", "V,79,", "V,,why", "V,0,why"] {
        let file = channel_file(&day_30("20030501", note));
        assert_eq!(refused(&file), refusal_at(&file, note, 7, 2, 51), "{note}");
    }
}

#[test]
fn rules_across_hold_for_both_reads_of_a_250() {
    let both = SAMPLE_250.replace(",A,,,", ",A,0,,").replace("E64,77,", "S64,,");
    let file = format!("{HEADER_13}{both}{END}");
    assert_eq!(refused(&file), refusal_at(&file, "A,0,", 7, 1, 11));
    let current = SAMPLE_250.replace("E64,77,", "S64,,");
    let file = format!("{HEADER_13}{current}{END}");
    assert_eq!(refused(&file), refusal_at(&file, "S64", 7, 1, 16));
    let v = SAMPLE_250.replace("E64,77,", "V,,");
    let file = format!("{HEADER_13}{v}{END}");
    assert_eq!(refused(&file), refusal_at(&file, "V,,", 6, 1, 16));
}

// --- Whole files ---

#[test]
fn empty_file_and_files_without_record_ends() {
    assert_eq!(refused(""), Refusal { number: 2, place: 0, record: 0, field: 0 });
    assert_eq!(refused("100\n900\n"), Refusal { number: 2, place: 0, record: 0, field: 0 });
    assert_eq!(refused("100\r\r\n"), Refusal { number: 3, place: 3, record: 0, field: 0 });
    assert_eq!(refused("10\n0\r\n"), Refusal { number: 3, place: 2, record: 0, field: 0 });
}

#[test]
fn a_900_has_one_field() {
    let day = day_30("20030501", "A,,");
    let file = format!("{HEADER_12}{CHANNEL_30}{day}900,\r\n");
    assert_eq!(refused(&file), refusal_at(&file, "900,", 5, 3, 0));
    let too_early = format!("{HEADER_12}900,\r\n");
    assert_eq!(refused_number(&too_early), 4);
}

#[test]
fn nothing_stands_behind_the_900() {
    let file = channel_file(&day_30("20030501", "A,,"));
    for tail in ["\r\n", "\n", "x", "900\r\n", "\x00"] {
        let longer = format!("{file}{tail}");
        assert_eq!(refused(&longer), Refusal { number: 13, place: file.len(), record: 4, field: 0 });
    }
}

#[test]
fn a_file_over_the_limit_is_1_before_all_else() {
    assert_eq!(check(&vec![b'x'; 1_048_577]), Err(Refusal { number: 1, place: 0, record: 0, field: 0 }));
    assert_eq!(check(&vec![b'x'; 1_048_576]), Err(Refusal { number: 2, place: 0, record: 0, field: 0 }));
}

#[test]
fn dates_rise_within_one_200() {
    let (first, second) = (day_30("20030501", "A,,"), day_30("20030502", "A,,"));
    assert!(is_accepted(&channel_file(&format!("{first}{second}"))));
    assert!(is_accepted(&channel_file(&format!("{second}{CHANNEL_30}{first}"))));
    let equal = channel_file(&format!("{first}{first}"));
    let place = HEADER_12.len() + CHANNEL_30.len() + first.len() + 4;
    assert_eq!(refused(&equal), Refusal { number: 8, place, record: 3, field: 2 });
    assert_eq!(refused_number(&channel_file(&format!("{second}{first}"))), 8);
}

#[test]
fn records_stand_in_their_order() {
    let day = day_30("20030501", "A,,");
    let order_550 = "550,N,,A,\r\n";
    for file in [
        format!("{CHANNEL_30}{day}{END}"),
        format!("{HEADER_12}{END}"),
        format!("{HEADER_12}{CHANNEL_30}{END}"),
        format!("{HEADER_12}{CHANNEL_30}{CHANNEL_30}{day}{END}"),
        format!("{HEADER_12}{SAMPLE_250}{END}"),
        format!("{HEADER_13}{CHANNEL_30}{day}{END}"),
        format!("{HEADER_13}{order_550}{END}"),
        format!("{HEADER_13}{SAMPLE_250}{order_550}{order_550}{END}"),
        format!("{HEADER_12}{HEADER_12}{END}"),
        channel_file(&format!("{day}400,1,48,A,,\r\n")),
        channel_file(&format!("{day}\r\n")),
        channel_file(&format!("{day} 900\r\n")),
    ] {
        assert_eq!(refused_number(&file), 4, "{file:?}");
    }
    assert!(is_accepted(&format!("{HEADER_13}{SAMPLE_250}{order_550}{SAMPLE_250}{END}")));
}

#[test]
fn end_spaces_and_the_leftmost_field() {
    for (from, to, field) in [("MDP1", " MDP1", 4), ("MDP1", "MDP1 ", 4), ("MDP1", " ", 4), ("Ret1", "", 5)] {
        let file = channel_file(&day_30("20030501", "A,,")).replace(from, to);
        let refusal = refused(&file);
        assert_eq!((refusal.number, refusal.record, refusal.field), (6, 0, field), "{to:?}");
    }
    let two = channel_file(&day_30("20030229", "v,,"));
    assert_eq!(refused(&two), refusal_at(&two, "20030229", 6, 2, 2));
}

#[test]
fn the_sample_250_passes_with_its_own_quantity() {
    let file = format!("{HEADER_13}{SAMPLE_250}{END}");
    assert_eq!(check(file.as_bytes()), Ok(Summary { version: 13, channels: 1, days: 0 }));
    assert_eq!(total(file.as_bytes(), 0), Ok(343_500_000));
    assert_eq!(total(file.as_bytes(), 1), Err(Refusal::without_place(14)));
}

// --- Read times ---

/// A date, with read times that belong to its day, ones that don't (12), and ones that are none (6).
type ReadTimes = (&'static str, &'static [&'static str], &'static [&'static str], &'static [&'static str]);

const READ_TIMES: [ReadTimes; 18] = [
    (
        "20031220",
        &["", "20031221000000", "20031220000001", "20031220235959"],
        &["20031220000000", "20031221000001", "20031219235959", "20031222000000", "20031219000000", "20041221000000"],
        &["20031220240000", "20031220"],
    ),
    (
        "21991231",
        &["22000101000000", "21991231000001", "21991231235959"],
        &["21991231000000", "21991230235959", "19000101000000"],
        &["22000101000001", "22000101235959", "22000102000000", "22000100000000", "21991232000000", "21991301000000"],
    ),
    ("21991230", &["21991231000000"], &["22000101000000", "21991230000000", "21991231000001"], &["22000101000001"]),
    ("19000101", &["19000102000000", "19000101000001"], &["19000101000000", "22000101000000"], &["18991231235959"]),
    // February of common years.
    ("20030228", &["20030301000000"], &["20030228000000", "20030302000000", "20030301000001"], &["20030229000000"]),
    ("19000228", &["19000301000000"], &["19000228000000", "19000302000000", "19000301000001"], &["19000229000000"]),
    ("21000228", &["21000301000000"], &["21000228000000", "21000302000000", "21000301000001"], &["21000229000000"]),
    // February of leap years.
    ("20040228", &["20040229000000"], &["20040228000000", "20040301000000", "20040229000001"], &[]),
    ("20000228", &["20000229000000"], &["20000228000000", "20000301000000", "20000229000001"], &[]),
    ("20040229", &["20040301000000"], &["20040229000000", "20040302000000", "20040301000001"], &["20040230000000"]),
    ("20000229", &["20000301000000"], &["20000229000000", "20000302000000", "20000301000001"], &["20000230000000"]),
    // Ends of months and years.
    ("20030430", &["20030501000000"], &["20030430000000", "20030502000000", "20030501000001"], &["20030431000000"]),
    ("20031130", &["20031201000000"], &["20031130000000", "20031202000000", "20031201000001"], &["20031131000000"]),
    ("20030131", &["20030201000000"], &["20030131000000", "20030202000000", "20030201000001"], &["20030132000000"]),
    ("20030731", &["20030801000000"], &["20030731000000", "20030802000000", "20030801000001"], &["20030732000000"]),
    ("20031231", &["20040101000000"], &["20031231000000", "20030101000000", "20040102000000"], &["20031301000000"]),
    ("19991231", &["20000101000000"], &["19991231000000", "19990101000000", "20000101000001"], &["19991232000000"]),
    ("20991231", &["21000101000000"], &["20991231000000", "20990101000000", "21000201000000"], &["20991301000000"]),
];

/// Each settled read time under its date, with the number of its refusal if it has one.
pub fn settled_read_times() -> Vec<(&'static str, &'static str, Option<u64>)> {
    let mut rows = Vec::new();
    for (date, belonging, outside, broken) in READ_TIMES {
        for (read_times, refusal) in [(belonging, None), (outside, Some(12)), (broken, Some(6))] {
            rows.extend(read_times.iter().map(|read_time| (date, *read_time, refusal)));
        }
    }
    rows
}

#[test]
fn a_day_ends_with_midnight_of_the_day_after() {
    for (date, read_time, number) in settled_read_times() {
        let order = format!("500,S,,{read_time},12.5\r\n");
        let file = channel_file(&format!("{}{order}500,N,,,\r\n", day_30(date, "A,,")));
        let refusal = number.map(|number| refusal_at(&file, &format!("{read_time},12.5"), number, 3, 4));
        assert_eq!(check(file.as_bytes()).err(), refusal, "{date} {read_time:?}");
    }
}

#[test]
fn a_midnight_between_two_days_belongs_to_the_first() {
    let (first, second) = (day_30("20030501", "A,,"), day_30("20030502", "A,,"));
    let order = "500,S,,20030502000000,\r\n";
    assert!(is_accepted(&channel_file(&format!("{first}{order}{second}"))));
    let file = channel_file(&format!("{first}{second}{order}"));
    assert_eq!(refused(&file), refusal_at(&file, "20030502000000", 12, 4, 4));
}

#[test]
fn no_other_time_is_the_end_of_the_last_day() {
    let day = day_30("21991231", "A,,");
    for (from, to, field) in [("20030502153445,", "22000101000000,", 54), (",\r\n", ",22000101000000\r\n", 55)] {
        let file = channel_file(&day.replace(from, to));
        assert_eq!(refused(&file), refusal_at(&file, "22000101000000", 6, 2, field));
    }
    for (time, field) in
        [("20031001103230", 10), ("20040201100030", 15), ("20040202125010", 22), ("20040203000130", 23)]
    {
        let file = format!("{HEADER_13}{}{END}", SAMPLE_250.replace(time, "22000101000000"));
        assert_eq!(refused(&file), refusal_at(&file, "22000101000000", 6, 1, field));
    }
    let file = channel_file(&day).replace("200301011534", "220001010000");
    assert_eq!(refused(&file), refusal_at(&file, "220001010000", 6, 0, 3));
}

// --- Null data ---

/// A half-hour day: quality, reason and description in its 300, the records under it, and its refusal if it has one.
/// That has its number, its record counted from the 300, its field, and the part of the day that stands at its place.
type NullDay = (&'static str, &'static str, Option<(u64, usize, usize, &'static str)>);

pub const NULL_DAYS: [NullDay; 40] = [
    // In a 300. A reason may stand and need not, reason 0 needs a description.
    ("N,,", "", None),
    ("N,,why", "", None),
    ("N,77,", "", None),
    ("N,77,why", "", None),
    ("N,0,why", "", None),
    ("N,0,", "", Some((7, 0, 51, "N,0,"))),
    ("N,00,", "", Some((6, 0, 52, "00,,2003"))),
    // It stands alone, as a capital.
    ("N14,,", "", Some((6, 0, 51, "N14"))),
    ("N00,77,", "", Some((6, 0, 51, "N00"))),
    ("N255,,", "", Some((6, 0, 51, "N255"))),
    ("NN,,", "", Some((6, 0, 51, "NN"))),
    ("n,,", "", Some((6, 0, 51, "n,,"))),
    ("n,0,", "", Some((6, 0, 51, "n,0,"))),
    ("N ,,", "", Some((6, 0, 51, "N ,,"))),
    (" N,,", "", Some((6, 0, 51, " N,,"))),
    // 400s stand under a V alone.
    ("N,,", "400,1,48,N,,\r\n", Some((4, 1, 0, "400,1"))),
    ("N,,", "400,1,20,N,,\r\n400,21,48,A,,\r\n", Some((4, 1, 0, "400,1"))),
    ("N,,", "500,S,,,\r\n", None),
    // In 400s, beside other qualities.
    ("V,,", "400,1,20,A,,\r\n400,21,48,N,,\r\n", None),
    ("V,,", "400,1,20,N,,\r\n400,21,48,A,,\r\n", None),
    ("V,,", "400,1,47,A,77,why\r\n400,48,48,N,77,why\r\n", None),
    ("V,,", "400,1,1,N,0,why\r\n400,2,48,A,0,why\r\n500,S,,,\r\n", None),
    ("V,,", "400,1,20,N,,\r\n400,21,48,E52,,\r\n", None),
    ("V,,", "400,1,20,S14,77,\r\n400,21,48,N,77,\r\n", None),
    ("V,,", "400,1,20,N,,\r\n400,21,30,N,,\r\n400,31,48,A,,\r\n", None),
    ("V,,", "400,1,20,A,,\r\n400,21,48,N14,,\r\n", Some((6, 2, 4, "N14"))),
    ("V,,", "400,1,48,N14,,\r\n", Some((6, 1, 4, "N14"))),
    ("V,,", "400,1,20,n,,\r\n", Some((6, 1, 4, "n,,"))),
    ("V,,", "400,1,20,N ,,\r\n", Some((6, 1, 4, "N ,,"))),
    ("V,,", "400,1,20,A,,\r\n400,21,48,N,0,\r\n", Some((7, 2, 4, "N,0,"))),
    ("V,,", "400,1,48,N,0,\r\n", Some((7, 1, 4, "N,0,"))),
    ("V,,", "400,1,20,N,,\r\n500,S,,,\r\n", Some((10, 2, 0, "500,S"))),
    // Nothing but equal null data is no V day. Unequal null data is one.
    ("V,,", "400,1,48,N,,\r\n", Some((11, 1, 0, "400,1"))),
    ("V,,", "400,1,48,N,77,why\r\n", Some((11, 1, 0, "400,1"))),
    ("V,,", "400,1,20,N,,\r\n400,21,48,N,,\r\n", Some((11, 2, 0, "400,21"))),
    ("V,,", "400,1,20,N,0,why\r\n400,21,48,N,0,why\r\n", Some((11, 2, 0, "400,21"))),
    ("V,,", "400,1,20,N,77,\r\n400,21,48,N,79,\r\n", None),
    ("V,,", "400,1,20,N,,\r\n400,21,48,N,77,\r\n", None),
    ("V,,", "400,1,20,N,,why\r\n400,21,48,N,,how\r\n", None),
    ("V,,", "400,1,20,N,0,why\r\n400,21,48,N,,why\r\n", None),
];

#[test]
fn null_data_stands_alone_in_300s_and_400s() {
    for (note, under, refusal) in NULL_DAYS {
        let file = channel_file(&format!("{}{under}", day_30("20030501", note)));
        let refusal = refusal.map(|(number, record, field, part)| refusal_at(&file, part, number, record + 2, field));
        assert_eq!(check(file.as_bytes()).err(), refusal, "{note} {under:?}");
    }
}

#[test]
fn null_data_stands_in_no_250() {
    let file = |previous: &str, current: &str| {
        let sample = SAMPLE_250.replace(",A,,,", &format!(",{previous},")).replace("E64,77,", current);
        format!("{HEADER_13}{sample}{END}")
    };
    assert!(is_accepted(&file("A,,", "A,77,")));
    // A field that breaks its rule is met before reason 0 without a description is.
    for note in ["N,,", "N,77,", "N,,why", "N,0,why", "N,0,", "N14,,", "n,,"] {
        let previous = file(note, "A,,");
        assert_eq!(refused(&previous), refusal_at(&previous, note, 6, 1, 11), "{note}");
        let current = file("A,,", note);
        assert_eq!(refused(&current), refusal_at(&current, note, 6, 1, 16), "{note}");
        let both = file(note, note);
        assert_eq!(refused(&both), refusal_at(&both, note, 6, 1, 11), "{note}");
    }
}

#[test]
fn values_of_null_data_are_written() {
    for value in ["", "N", "-", "null"] {
        let day = day_30("20030501", "N,,").replacen(",1,", &format!(",{value},"), 1);
        let place = HEADER_12.len() + CHANNEL_30.len() + "300,20030501,".len();
        assert_eq!(refused(&channel_file(&day)), Refusal { number: 6, place, record: 2, field: 3 }, "{value}");
    }
}

#[test]
fn totals_add_the_values_of_null_data() {
    let (actual, null) = (day_30("20030501", "A,,"), day_30("20030502", "N,,"));
    let part = day_30("20030503", "V,,") + "400,1,20,N,,\r\n400,21,48,A,,\r\n";
    let file = channel_file(&format!("{actual}{null}{part}"));
    assert_eq!(total(file.as_bytes(), 0), Ok(3 * 48_000_000));
    assert_eq!(total(channel_file(&null).as_bytes(), 0), Ok(48_000_000));
    assert_eq!(total(channel_file(&part).as_bytes(), 0), Ok(48_000_000));
}

#[test]
fn null_data_is_kept_by_its_letter_without_a_method() {
    for (note, under, nulls) in [("N,77,", "", 0..48), ("V,,", "400,1,20,A,77,\r\n400,21,48,N,77,\r\n", 20..48)] {
        let file = channel_file(&format!("{}{under}", day_30("20030501", note)));
        let content = read_file(file.as_bytes()).expect("a file to be accepted");
        for (index, note) in content.days[0].notes.iter().enumerate() {
            let flag = if nulls.contains(&index) { 78 } else { 65 };
            assert_eq!((note.quality.flag, note.quality.method, note.reason), (flag, 255, 77), "{index}");
        }
    }
}

// --- Units ---

/// A half-hour 200 of this unit.
fn channel_in(unit: &str) -> String {
    CHANNEL_30.replace("kWh", unit)
}

/// A half-hour 300 whose first values are these.
fn day_with(values: &[&str]) -> String {
    let ones = ",1".repeat(values.len());
    let values: String = values.iter().map(|value| format!(",{value}")).collect();
    day_30("20030501", "A,,").replacen(&ones, &values, 1)
}

/// The sample 250 with this quantity and unit.
fn sample_in(quantity: &str, unit: &str) -> String {
    SAMPLE_250.replace("343.5,kWh", &format!("{quantity},{unit}"))
}

#[test]
fn the_settled_values_are_read_in_a_unit_that_allows_them() {
    let settled = day_with(&["17.461", "003.40", "0", "9999999.999999"]);
    for unit in ["MWh", "mvarh", "MW"] {
        let file = format!("{HEADER_12}{}{settled}{END}", channel_in(unit));
        let content = read_file(file.as_bytes()).expect("a file to be accepted");
        assert_eq!(content.days[0].values[..5], [17_461_000, 3_400_000, 0, 9_999_999_999_999, 1_000_000], "{unit}");
    }
    for (unit, part, field) in [("kWh", "9999999.9", 6), ("pf", "17.461", 3), ("Wh", "17.461", 3)] {
        let file = format!("{HEADER_12}{}{settled}{END}", channel_in(unit));
        assert_eq!(refused(&file), refusal_at(&file, part, 6, 2, field), "{unit}");
    }
}

#[test]
fn values_and_quantities_have_at_most_their_units_decimals() {
    for unit in Unit::all() {
        let decimals = "7".repeat(unit.decimals());
        for name in [unit.name().to_string(), unit.name().to_lowercase(), unit.name().to_uppercase()] {
            let day = |fraction: &str| format!("{HEADER_12}{}{}{END}", channel_in(&name), day_with(&["0", fraction]));
            let sample = |fraction: &str| format!("{HEADER_13}{}{END}", sample_in(fraction, &name));
            let full = format!("1.{decimals}");
            assert!(is_accepted(&day(&full)) && is_accepted(&sample(&full)), "{name}");
            // Zeros at the end count too.
            for past in [format!("1.{decimals}7"), format!("1.{decimals}0"), format!("1.{decimals}00")] {
                let (day, sample) = (day(&past), sample(&past));
                assert_eq!(refused(&day), refusal_at(&day, &past, 6, 2, 4), "{name}");
                assert_eq!(refused(&sample), refusal_at(&sample, &past, 6, 1, 19), "{name}");
            }
        }
    }
}

#[test]
fn units_that_are_none_are_6_at_their_field() {
    for unit in ["", "K", "kWhh", "kW h", "kWh ", " kWh", "MVARH1", "kkkkk", "GWh", "k7h"] {
        let file = format!("{HEADER_12}{}{}{END}", channel_in(unit), day_with(&[]));
        assert_eq!(refused(&file), refusal_at(&file, &format!("{unit},30,"), 6, 1, 8), "{unit:?}");
        // A quantity before such a unit is held to 01's rule alone.
        for (quantity, field) in
            [("343.5", 20), ("343.567891", 20), ("343.500000", 20), ("343.5678912", 19), (".5", 19), ("", 19)]
        {
            let file = format!("{HEADER_13}{}{END}", sample_in(quantity, unit));
            let at_quantity = refusal_at(&file, &format!("{quantity},{unit},20040509"), 6, 1, 19);
            let place = at_quantity.place + if field == 20 { quantity.len() + 1 } else { 0 };
            assert_eq!(refused(&file), Refusal { place, field, ..at_quantity }, "{quantity} {unit:?}");
        }
    }
}

#[test]
fn a_unit_holds_under_its_own_200_or_250_alone() {
    let in_two = |first: (&str, &str), second: (&str, &str)| {
        let [first, second] = [first, second].map(|(value, unit)| channel_in(unit) + &day_with(&[value]));
        format!("{HEADER_12}{first}{second}{END}")
    };
    assert!(is_accepted(&in_two(("0.1", "Wh"), ("0.123456", "MWh"))));
    assert!(is_accepted(&in_two(("0.123456", "MWh"), ("0.1", "Wh"))));
    let stale = in_two(("0.1", "MWh"), ("0.12345", "kWh"));
    assert_eq!(refused(&stale), refusal_at(&stale, "0.12345", 6, 4, 3));
    let file = in_two(("0.1", "Wh"), ("0.1", "MWh"));
    let content = read_file(file.as_bytes()).expect("a file to be accepted");
    assert_eq!(content.days.iter().map(|day| day.unit.name()).collect::<Vec<&str>>(), ["Wh", "MWh"]);

    let (in_wh, in_mwh) = (sample_in("0.1", "Wh"), sample_in("0.123456", "MWh"));
    for (first, second) in [(&in_wh, &in_mwh), (&in_mwh, &in_wh)] {
        assert!(is_accepted(&format!("{HEADER_13}{first}{second}{END}")));
    }
    let stale = format!("{HEADER_13}{in_mwh}{}{END}", sample_in("0.98765", "kWh"));
    assert_eq!(refused(&stale), refusal_at(&stale, "0.98765", 6, 2, 19));
}

#[test]
fn decimals_are_asked_with_the_fields_and_the_leftmost_field_counts() {
    let past = day_with(&["1", "1.50000"]);
    let file = |day: &str| channel_file(&(day_30("20030501", "A,,") + day));
    for (from, to, part, field) in [
        ("A,,", "v,,", "1.50000", 4),
        // Rules across fields and the order of dates are asked later.
        ("A,,", "S14,,", "1.50000", 4),
        ("20030501", "20030430", "1.50000", 4),
        ("20030501", "20030229", "20030229", 2),
        (",1,1.50000", ",.5,1.50000", ".5,1.50000", 3),
    ] {
        let file = file(&past.replace(from, to));
        assert_eq!(refused(&file), refusal_at(&file, part, 6, 3, field), "{to}");
    }
    let both = channel_in("kWhh").replace(",30,", ",31,") + &past;
    let file = format!("{HEADER_12}{both}{END}");
    assert_eq!(refused(&file), refusal_at(&file, "kWhh", 6, 1, 8));
}

// --- Reading a day ---

#[test]
fn a_v_day_is_read_from_its_400s() {
    let file = v_day_file("400,1,31,A,,\r\n400,32,48,S52,79,Power out\r\n");
    let (mut values, mut flags, mut methods) = (vec![7; 50], vec![7; 48], vec![7; 48]);
    let (mut reasons, mut starts, mut lengths) = (vec![7; 48], vec![7; 48], vec![7; 48]);
    let lists = LentLists {
        values: &mut values,
        flags: &mut flags,
        methods: &mut methods,
        reasons: &mut reasons,
        starts: &mut starts,
        lengths: &mut lengths,
    };
    let read = read_day(file.as_bytes(), 0, lists).expect("a day");
    assert_eq!((read.date, read.n, read.update, read.load, read.unit), (20030501, 48, 20030502153445, 0, KWH));
    assert_eq!((values[0], values[47], values[48], values[49]), (1_000_000, 1_000_000, 7, 7));
    let interval = |index: usize| (flags[index], methods[index], reasons[index], starts[index], lengths[index]);
    assert_eq!(interval(30), (b'A', 255, 65535, 0, 0));
    assert_eq!(interval(31), (b'S', 52, 79, file.find("Power").unwrap(), 9));
}

// --- Writing ---

/// A half-hour day of actual values of 3, to be changed by a test.
struct WriteTest {
    head: DayHead,
    values: Vec<u64>,
    flags: Vec<u8>,
    methods: Vec<u8>,
    reasons: Vec<u16>,
    starts: Vec<usize>,
    lengths: Vec<usize>,
    text: Vec<u8>,
}

impl WriteTest {
    fn new() -> WriteTest {
        WriteTest {
            head: DayHead { date: 20030922, length: 30, update: 20030922092231, load: 0, unit: MWH },
            values: vec![3_000_000; 48],
            flags: vec![b'A'; 48],
            methods: vec![NO_METHOD; 48],
            reasons: vec![NO_REASON; 48],
            starts: vec![0; 48],
            lengths: vec![0; 48],
            text: Vec::new(),
        }
    }

    fn write(&self, room: &mut [u8]) -> Result<Block, Refusal> {
        let lists = DayLists {
            values: &self.values,
            flags: &self.flags,
            methods: &self.methods,
            reasons: &self.reasons,
            starts: &self.starts,
            lengths: &self.lengths,
            text: &self.text,
        };
        write_day(self.head, lists, room)
    }

    /// The refusal's number, room being plenty.
    fn refused(&self) -> u64 {
        let mut room = vec![b'?'; 10_000];
        let refusal = self.write(&mut room).expect_err("a day to be refused");
        assert_eq!(refusal, Refusal::without_place(refusal.number));
        assert!(room.iter().all(|byte| *byte == b'?'));
        refusal.number
    }

    /// The block as text, room being plenty.
    fn block(&self) -> String {
        let mut room = vec![b'?'; 10_000];
        let block = self.write(&mut room).expect("a day to be written");
        assert!(room[block.bytes..].iter().all(|byte| *byte == b'?'));
        assert_eq!(block.records, room[..block.bytes].iter().filter(|byte| **byte == b'\n').count());
        String::from_utf8(room[..block.bytes].to_vec()).expect("bytes of a file")
    }
}

#[test]
fn the_settled_day_is_written_whole() {
    let mut day = WriteTest::new();
    day.values[20..].fill(4_000_000);
    day.flags[20..].fill(b'E');
    day.methods[20..].fill(52);
    let expected = format!(
        "300,20030922,{}{}V,,,20030922092231,\r\n400,1,20,A,,\r\n400,21,48,E52,,\r\n",
        "3,".repeat(20),
        "4,".repeat(28)
    );
    assert_eq!(expected.len(), 161);
    assert_eq!(day.block(), expected);

    let mut just_enough = vec![0; 161];
    assert_eq!(day.write(&mut just_enough), Ok(Block { bytes: 161, records: 3 }));
    assert_eq!(just_enough, expected.as_bytes());
    let mut too_small = vec![b'?'; 160];
    assert_eq!(day.write(&mut too_small), Err(Refusal::without_place(15)));
    assert_eq!(too_small, vec![b'?'; 160]);
}

#[test]
fn values_are_written_without_needless_zeros() {
    let mut day = WriteTest::new();
    day.values[..8].copy_from_slice(&[0, 1, 10, 500_000, 1_000_000, 10_100_000, 9_999_999_999_999, 120_000_000]);
    assert!(day.block().starts_with("300,20030922,0,0.000001,0.00001,0.5,1,10.1,9999999.999999,120,3,"));
}

#[test]
fn equal_descriptions_are_one_stretch_wherever_they_lie() {
    let mut day = WriteTest::new();
    day.text = b"ab,ab".to_vec();
    day.lengths.fill(2);
    day.starts[10..].fill(3);
    let all_alike = day.block();
    assert_eq!(all_alike, format!("300,20030922,{}A,,ab,20030922092231,\r\n", "3,".repeat(48)));
    day.lengths[47] = 1;
    assert!(day.block().ends_with(",V,,,20030922092231,\r\n400,1,47,A,,ab\r\n400,48,48,A,,a\r\n"));
}

#[test]
fn a_whole_day_of_null_data_is_a_300() {
    let mut day = WriteTest::new();
    day.flags.fill(b'N');
    let written = |note: &str| format!("300,20030922,{}{note},20030922092231,\r\n", "3,".repeat(48));
    assert_eq!(day.block(), written("N,,"));
    day.reasons.fill(77);
    assert_eq!(day.block(), written("N,77,"));
    (day.text, day.reasons) = (b"why".to_vec(), vec![0; 48]);
    day.lengths.fill(3);
    assert_eq!(day.block(), written("N,0,why"));
}

#[test]
fn null_data_is_joined_with_equal_null_data_only() {
    let written = |cover: &[&str]| {
        let records: String = cover.iter().map(|record| format!("400,{record}\r\n")).collect();
        format!("300,20030922,{}V,,,20030922092231,\r\n{records}", "3,".repeat(48))
    };
    let mut day = WriteTest::new();
    day.flags[10..20].fill(b'N');
    day.flags[47] = b'N';
    assert_eq!(day.block(), written(&["1,10,A,,", "11,20,N,,", "21,47,A,,", "48,48,N,,"]));

    day.reasons.fill(77);
    day.flags[..47].fill(b'N');
    day.flags[47] = b'A';
    assert_eq!(day.block(), written(&["1,47,N,77,", "48,48,A,77,"]));

    day.flags.fill(b'N');
    day.reasons[5] = 79;
    assert_eq!(day.block(), written(&["1,5,N,77,", "6,6,N,79,", "7,48,N,77,"]));

    (day.text, day.reasons) = (b"why,why,how".to_vec(), vec![NO_REASON; 48]);
    day.lengths.fill(3);
    day.starts[10..20].fill(4);
    day.starts[20..].fill(8);
    assert_eq!(day.block(), written(&["1,20,N,,why", "21,48,N,,how"]));

    (day.flags[20], day.methods[20]) = (b'E', 52);
    assert_eq!(day.block(), written(&["1,20,N,,why", "21,21,E52,,how", "22,48,N,,how"]));
}

#[test]
fn written_null_data_reads_back() {
    let mut day = WriteTest::new();
    day.values[12] = 4_500_000;
    day.flags[10..20].fill(b'N');
    day.reasons[15..25].fill(77);
    let file = channel_file(&day.block());
    let content = read_file(file.as_bytes()).expect("a file to be accepted");
    let read = &content.days[0];
    assert_eq!(read.values, day.values);
    assert_eq!(read.notes.iter().map(|note| note.quality.flag).collect::<Vec<u8>>(), day.flags);
    assert_eq!(read.notes.iter().map(|note| note.quality.method).collect::<Vec<u8>>(), day.methods);
    assert_eq!(read.notes.iter().map(|note| note.reason).collect::<Vec<u16>>(), day.reasons);
    assert_eq!(total(file.as_bytes(), 0), Ok(48 * 3_000_000 + 1_500_000));
}

#[test]
fn values_are_written_if_they_are_exact_in_their_unit() {
    for unit in Unit::all() {
        let mut day = WriteTest::new();
        day.head.unit = unit.number();
        day.values[47] = 10_000_000_000_000 - unit.smallest_step();
        let largest = format!(",9999999.{},A", "9".repeat(unit.decimals()));
        assert!(day.block().contains(&largest), "{}", unit.name());
        let file = format!("{HEADER_12}{}{}{END}", channel_in(unit.name()), day.block());
        let content = read_file(file.as_bytes()).expect("a file to be accepted");
        assert_eq!((&content.days[0].values, content.days[0].unit), (&day.values, unit));
    }
}

#[test]
fn values_that_are_not_exact_in_their_unit_are_unfit() {
    for unit in Unit::all().filter(|unit| unit.decimals() < 6) {
        let mut day = WriteTest::new();
        day.head.unit = unit.number();
        for millionths in [1, unit.smallest_step() / 10, unit.smallest_step() - 1] {
            day.values[47] = 3_000_000 + millionths;
            assert_eq!(day.refused(), 16, "{} {millionths}", unit.name());
        }
    }
}

#[test]
fn units_are_asked_among_the_unfit_parts() {
    for unit in [23, 24, 128, 255] {
        let mut day = WriteTest::new();
        day.head.unit = unit;
        assert_eq!(day.refused(), 16);
        assert_eq!(day.write(&mut []), Err(Refusal::without_place(16)));
        day.methods.pop();
        assert_eq!(day.refused(), 15);
        day.head.length = 31;
        assert_eq!(day.refused(), 16);
    }
    let mut inexact = WriteTest::new();
    (inexact.head.unit, inexact.values[47]) = (KWH, 3_000_010);
    assert_eq!(inexact.write(&mut []), Err(Refusal::without_place(16)));
    inexact.starts.pop();
    assert_eq!(inexact.refused(), 15);
    // What stands behind the day's intervals counts for nothing.
    let mut longer = WriteTest::new();
    longer.head.unit = KWH;
    longer.values.push(1);
    assert!(longer.block().starts_with("300,20030922,3,"));
}

#[test]
fn writing_asks_in_its_order() {
    let mut day = WriteTest::new();
    day.values[0] = 10_000_000_000_000;
    assert_eq!(day.refused(), 16);
    day.flags.pop();
    assert_eq!(day.refused(), 15);
    day.head.length = 31;
    assert_eq!(day.refused(), 16);

    let mut unfit_without_room = WriteTest::new();
    unfit_without_room.head.update = 0;
    assert_eq!(unfit_without_room.write(&mut []), Err(Refusal::without_place(16)));
    assert_eq!(WriteTest::new().write(&mut []), Err(Refusal::without_place(15)));
}

#[test]
fn unfit_days() {
    let faults: [fn(&mut WriteTest); 27] = [
        |day| day.head.date = 20030229,
        |day| day.head.date = 22000101,
        |day| day.head.update = 20030922240000,
        |day| day.head.update = 22000101000000,
        |day| day.head.load = 1,
        |day| day.head.load = 22000101000000,
        |day| day.flags[5] = b'V',
        |day| day.methods[5] = 14,
        |day| (day.flags[5], day.methods[5]) = (b'N', 14),
        |day| (day.flags[5], day.methods[5]) = (b'N', 0),
        |day| (day.flags[5], day.methods[5]) = (b'N', 254),
        |day| (day.flags[5], day.reasons[5]) = (b'N', 0),
        |day| (day.flags[5], day.reasons[5]) = (b'N', 1000),
        |day| day.flags[5] = b'n',
        |day| day.flags[5] = b'E',
        |day| (day.flags[5], day.methods[5]) = (b'E', 100),
        |day| (day.flags[5], day.methods[5]) = (b'S', 14),
        |day| (day.flags[5], day.methods[5]) = (b'F', 14),
        |day| day.reasons[5] = 0,
        |day| day.reasons[5] = 1000,
        |day| day.lengths[5] = 1,
        |day| (day.starts[5], day.lengths[5]) = (usize::MAX, 2),
        |day| (day.text, day.lengths[5]) = (b"a,b".to_vec(), 3),
        |day| (day.text, day.lengths[5]) = (b"a ".to_vec(), 2),
        |day| (day.text, day.lengths[5]) = (b" a".to_vec(), 2),
        |day| (day.text, day.lengths[5]) = (b"a\x7f".to_vec(), 2),
        |day| (day.text, day.lengths[5]) = (vec![b'a'; 241], 241),
    ];
    for (number, fault) in faults.iter().enumerate() {
        let mut day = WriteTest::new();
        fault(&mut day);
        assert_eq!(day.refused(), 16, "fault {number}");
    }
}

#[test]
fn fit_days_at_the_limits() {
    let limits: [fn(&mut WriteTest); 10] = [
        |day| day.starts[5] = usize::MAX,
        |day| (day.flags[5], day.methods[5], day.reasons[5]) = (b'S', 0, 999),
        |day| (day.flags[5], day.methods[5]) = (b'E', 99),
        |day| (day.text, day.lengths[5], day.reasons[5]) = (b"x".to_vec(), 1, 0),
        |day| (day.text, day.lengths[5]) = (vec![b'a'; 240], 240),
        |day| day.flags[5] = b'N',
        |day| (day.flags[5], day.reasons[5]) = (b'N', 999),
        |day| (day.flags[5], day.text, day.lengths[5], day.reasons[5]) = (b'N', b"x".to_vec(), 1, 0),
        |day| day.values.push(u64::MAX),
        |day| day.flags.extend([0, 0]),
    ];
    for limit in limits {
        let mut day = WriteTest::new();
        limit(&mut day);
        assert!(day.block().starts_with("300,20030922,3,"));
    }
}
