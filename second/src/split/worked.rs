//! Tests: splits worked out by hand; whose outputs get a part; the order of refusals.

use super::*;
use crate::store::worked::{made as made_store, OwnDay};
use crate::tenants::worked::{made as made_map, OwnVersion};

/// What stands in parts before they are lent.
const OLD_PART: u64 = 0xAAAA;

const NMI: &[u8] = b"VABD000163";
const SUFFIX: &[u8] = b"E1";
const KEY: &[u8; 12] = b"VABD000163E1";
const OTHER_KEY: &[u8; 12] = b"VABD000163E2";

// --- Calls ---

/// The number of outputs on the channel, and the parts of all outputs, of a call that is lent so many parts.
fn answer_of(places: usize, call: impl Fn(&mut [u64]) -> Result<usize, Refusal>) -> Result<(usize, Vec<u64>), Refusal> {
    let mut parts = vec![OLD_PART; places];
    let answer = call(&mut parts);
    let filled = if answer.is_ok() { 128 } else { 0 };
    assert!(parts[filled..].iter().all(|part| *part == OLD_PART), "parts that are to stay");
    parts.truncate(128);
    answer.map(|outputs| (outputs, parts))
}

/// A refusal's number. It has no place.
fn number_of(refusal: Refusal) -> u64 {
    assert_eq!(refusal, Refusal::without_place(refusal.number));
    refusal.number
}

fn split_of(
    total: u64,
    nmi: &[u8],
    suffix: &[u8],
    board: &OwnVersion,
    places: usize,
) -> Result<(usize, Vec<u64>), u64> {
    answer_of(places, |parts| split(total, nmi, suffix, &board.keys, &board.shares, parts)).map_err(number_of)
}

/// A total split by these shares of the channel, which stand at the first outputs: what these get.
fn by_shares(total: u64, shares: &[u16]) -> Vec<u64> {
    let (outputs, parts) = split_of(total, NMI, SUFFIX, &board(shares), 128).expect("a split");
    assert_eq!(outputs, shares.len());
    assert!(parts[shares.len()..].iter().all(|part| *part == 0));
    assert_eq!(parts.iter().sum::<u64>(), total);
    parts[..shares.len()].to_vec()
}

/// The first outputs have these shares of the channel.
fn board(shares: &[u16]) -> OwnVersion {
    let unused = OwnVersion::unused();
    shares.iter().enumerate().fold(unused, |board, (output, share)| board.with(output, KEY, *share))
}

// --- Parts ---

#[test]
fn what_remains_goes_to_the_lower_outputs_when_all_are_alike() {
    assert_eq!(by_shares(9, &[1, 1, 1]), [3, 3, 3]);
    assert_eq!(by_shares(10, &[1, 1, 1]), [4, 3, 3]);
    assert_eq!(by_shares(11, &[1, 1, 1]), [4, 4, 3]);
    assert_eq!(by_shares(2, &[1000, 1000, 1000]), [1, 1, 0]);
    assert_eq!(by_shares(1, &[7; 128])[..2], [1, 0]);
    assert_eq!(by_shares(127, &[1; 128])[126..], [1, 0]);
}

#[test]
fn what_remains_goes_to_the_largest_remainders() {
    // 10/3 leaves 1 of 3, 20/3 leaves 2.
    assert_eq!(by_shares(10, &[1, 2]), [3, 7]);
    assert_eq!(by_shares(10, &[2, 1]), [7, 3]);
    // 21/4 leaves 1, 7/4 leaves 3.
    assert_eq!(by_shares(7, &[3, 0, 1]), [5, 0, 2]);
    // 5/10 leaves 5, 15/10 leaves 5, 30/10 leaves nothing: the lower of the two first ones gets the one.
    assert_eq!(by_shares(5, &[1, 3, 6]), [1, 1, 3]);
    assert_eq!(by_shares(5, &[6, 3, 1]), [3, 2, 0]);
    // 100/1000, 300/1000 and 600/1000: the last has the largest remainder.
    assert_eq!(by_shares(1, &[100, 300, 600]), [0, 0, 1]);
    // 4,200/1000 leaves 200, 2,100/1000 leaves 100, and 700/1000 leaves all of it.
    assert_eq!(by_shares(7, &[600, 300, 100]), [4, 2, 1]);
}

#[test]
fn equal_remainders_of_different_shares_go_by_the_output() {
    // 2/4 leaves 2, and 6/4 leaves 2.
    assert_eq!(by_shares(2, &[1, 3]), [1, 1]);
    assert_eq!(by_shares(2, &[3, 1]), [2, 0]);
}

#[test]
fn a_share_of_0_gets_nothing() {
    assert_eq!(by_shares(5, &[0, 1, 0, 1, 0]), [0, 3, 0, 2, 0]);
    assert_eq!(by_shares(7, &[0, 0, 1]), [0, 0, 7]);
    assert_eq!(by_shares(1, &[0, 1000, 1000]), [0, 1, 0]);
}

#[test]
fn a_total_of_0_is_split_into_nothing() {
    assert_eq!(by_shares(0, &[1]), [0]);
    assert_eq!(by_shares(0, &[1000, 0, 3]), [0, 0, 0]);
}

#[test]
fn one_output_gets_all() {
    for share in [1, 999, 1000] {
        for total in [1, 7, LARGEST_TOTAL] {
            assert_eq!(by_shares(total, &[share]), [total]);
        }
    }
}

#[test]
fn the_largest_total_is_split_exactly() {
    assert_eq!(by_shares(2_880_000_000_000_000, &[1000; 128]), [22_500_000_000_000; 128]);
    let seventh = 411_428_571_428_571;
    assert_eq!(by_shares(2_880_000_000_000_000, &[1000; 7])[..4], [seventh + 1, seventh + 1, seventh + 1, seventh]);
    // 2,880,000,000,000,000 times 999 is 1999 times 1,439,279,639,819,909, and 1,909 are left; 90 are left of the other.
    let parts = [1_440_720_360_180_090, 1_439_279_639_819_910];
    assert_eq!(by_shares(2_880_000_000_000_000, &[1000, 999]), parts);
}

#[test]
fn parts_of_many_totals_and_shares_keep_the_rules() {
    for sum in 1..40u64 {
        for total in 0..60 {
            // Two outputs, a third without a share, and a fourth with what is missing of the sum.
            let shares = [sum / 5, sum / 2, 0, sum - sum / 5 - sum / 2].map(|share| share as u16);
            let parts = by_shares(total, &shares);
            let claims: Vec<(u64, u64)> = shares
                .iter()
                .map(|share| total * u64::from(*share))
                .map(|product| (product / sum, product % sum))
                .collect();
            for (output, part) in parts.iter().enumerate() {
                let more = part - claims[output].0;
                assert!(more <= 1);
                // Whoever has the larger remainder, or the same and a lower number, gets its one first.
                for other in 0..parts.len() {
                    let comes_first =
                        claims[other].1 > claims[output].1 || claims[other].1 == claims[output].1 && other < output;
                    assert!(!comes_first || parts[other] - claims[other].0 >= more, "{total} by {shares:?}");
                }
            }
        }
    }
}

// --- Whose outputs ---

#[test]
fn outputs_of_other_channels_get_nothing() {
    let board = OwnVersion::unused().with(0, OTHER_KEY, 1000).with(3, KEY, 1).with(64, OTHER_KEY, 1).with(127, KEY, 1);
    let (outputs, parts) = split_of(5, NMI, SUFFIX, &board, 128).expect("a split");
    assert_eq!(outputs, 2);
    let mut expected = vec![0; 128];
    (expected[3], expected[127]) = (3, 2);
    assert_eq!(parts, expected);
    assert_eq!(
        split_of(5, NMI, b"E2", &board, 128).map(|(outputs, parts)| (outputs, parts[0], parts[64])),
        Ok((2, 5, 0))
    );
}

#[test]
fn an_output_without_a_share_counts_as_one_on_the_channel() {
    assert_eq!(split_of(5, NMI, SUFFIX, &board(&[0, 1, 0]), 128).map(|(outputs, _)| outputs), Ok(3));
}

#[test]
fn letters_compare_without_case() {
    let board = OwnVersion::unused().with(0, b"vabd000163e1", 1).with(1, KEY, 1).with(2, b"VaBd000163E1", 2);
    for (nmi, suffix) in [(b"VABD000163", b"E1"), (b"vabd000163", b"e1"), (b"vABd000163", b"E1")] {
        let (outputs, parts) = split_of(8, nmi, suffix, &board, 128).expect("a split");
        assert_eq!((outputs, &parts[..4]), (3, &[2, 2, 4, 0][..]));
    }
}

#[test]
fn a_bad_nmi_or_suffix_is_on_no_output() {
    let board = board(&[1; 127]);
    for (nmi, suffix) in [
        (&b""[..], &b""[..]),
        (b"VABD00016", b"E1"),
        (b"VABD0001630", b"E1"),
        (b"VABD000163", b"E"),
        (b"VABD000163", b"E12"),
        // As many bytes together as a key has, and the very ones.
        (b"VABD00016", b"3E1"),
        (b"VABD000163E", b"1"),
        (b"VABD000163E1", b""),
        (b"", b"VABD000163E1"),
        (b"VABD 00163", b"E1"),
        (b"VABD000163", b"E\xb1"),
        // The bytes of the output that isn't used.
        (&[0; 10], &[0; 2]),
    ] {
        assert_eq!(split_of(1, nmi, suffix, &board, 128).err(), Some(26), "{nmi:?} {suffix:?}");
    }
}

#[test]
fn parts_behind_the_outputs_stay() {
    for places in [128, 129, 300] {
        assert!(split_of(10, NMI, SUFFIX, &board(&[1, 1, 1]), places).is_ok());
    }
}

// --- Refusals of a split ---

#[test]
fn a_total_goes_up_to_that_of_a_day_of_288_intervals() {
    assert!(split_of(2_880_000_000_000_000, NMI, SUFFIX, &board(&[1]), 128).is_ok());
    for total in [2_880_000_000_000_001, 1 << 63, u64::MAX] {
        assert_eq!(split_of(total, NMI, SUFFIX, &board(&[1]), 128).err(), Some(27), "{total}");
    }
}

/// A board whose lists are this long.
fn cut(board: &OwnVersion, key_bytes: usize, shares: usize) -> OwnVersion {
    let mut board = board.clone();
    board.keys.resize(key_bytes, b'?');
    board.shares.resize(shares, 1001);
    board
}

#[test]
fn lists_may_be_longer_and_not_shorter() {
    let board = board(&[1]);
    for (key_bytes, shares, places) in [
        (1535, 128, 128),
        (1536, 127, 128),
        (1536, 128, 127),
        (0, 128, 128),
        (1536, 0, 128),
        (1536, 128, 0),
        (2000, 300, 127),
    ] {
        let short = cut(&board, key_bytes, shares);
        assert_eq!(split_of(1, NMI, SUFFIX, &short, places).err(), Some(15), "{key_bytes} {shares} {places}");
    }
    assert!(split_of(1, NMI, SUFFIX, &cut(&board, 1537, 129), 129).is_ok());
}

#[test]
fn an_entry_that_adding_refuses_is_25_whosever_it_is() {
    for output in [0, 64, 127] {
        for (key, share) in [
            (KEY, 1001),
            (OTHER_KEY, u16::MAX),
            (&[0; 12], 1),
            (b"VABD 00163E1", 1),
            (b"VABD000163E ", 0),
            (b"VABD000163\0\0", 0),
            (b"\0\0\0\0\0\0\0\0\0\0E1", 1),
        ] {
            let board = board(&[1]).with(output, key, share);
            assert_eq!(split_of(1, NMI, SUFFIX, &board, 128).err(), Some(25), "{output} {key:?} {share}");
        }
    }
}

#[test]
fn shares_that_add_up_to_0_are_26() {
    for board in [board(&[]), board(&[0]), board(&[0; 128]), board(&[0, 0]).with(5, OTHER_KEY, 1000)] {
        for total in [0, 1, LARGEST_TOTAL] {
            assert_eq!(split_of(total, NMI, SUFFIX, &board, 128).err(), Some(26), "{total}");
        }
    }
}

#[test]
fn a_split_is_refused_by_27_15_25_and_26_in_this_order() {
    let none = board(&[0]);
    let bad = none.with(127, OTHER_KEY, 1001);
    let short = cut(&bad, 1536, 127);
    let above = LARGEST_TOTAL + 1;
    assert_eq!(split_of(above, b"", b"", &short, 0).err(), Some(27));
    assert_eq!(split_of(above, NMI, SUFFIX, &bad, 128).err(), Some(27));
    assert_eq!(split_of(above, NMI, SUFFIX, &none, 128).err(), Some(27));
    assert_eq!(split_of(1, b"", b"", &short, 128).err(), Some(15));
    assert_eq!(split_of(1, NMI, SUFFIX, &bad, 127).err(), Some(15));
    assert_eq!(split_of(1, NMI, SUFFIX, &none, 127).err(), Some(15));
    assert_eq!(split_of(1, b"", b"", &bad, 128).err(), Some(25));
    assert_eq!(split_of(1, NMI, SUFFIX, &bad, 128).err(), Some(25));
    assert_eq!(split_of(1, NMI, SUFFIX, &none, 128).err(), Some(26));
}

// --- Days ---

fn day_of(file: &str, number: usize, memory: &[u8], places: usize) -> Result<(usize, Vec<u64>), Refusal> {
    answer_of(places, |parts| split_day(file.as_bytes(), number, memory, parts))
}

/// The refusal of a split of a file's day, which has no place.
fn day_refused(file: &str, number: usize, memory: &[u8], places: usize) -> Option<u64> {
    day_of(file, number, memory, places).err().map(number_of)
}

fn day_record(date: u32, value: &str) -> String {
    format!("300,{date},{}A,,,20030601153445,\r\n", format!("{value},").repeat(48))
}

/// Two half-hour days of one channel, in letters of either case, and one of another.
fn file() -> String {
    let first = format!(
        "200,vabd000163,E1Q1,1,e1,N1,MET,kWh,30,\r\n{}{}",
        day_record(20030501, "0.0001"),
        day_record(20030601, "0")
    );
    let second = format!("200,VABD000163,E1Q1,1,E2,N1,MET,kWh,30,\r\n{}", day_record(20030501, "1"));
    format!("100,NEM12,200301011534,MDP1,Ret1\r\n{first}{second}900\r\n")
}

/// A map with these versions.
fn map_of(versions: &[(u32, OwnVersion)]) -> Vec<u8> {
    let mut memory = made_map();
    for (number, (first, version)) in versions.iter().enumerate() {
        assert_eq!(version.add(&mut memory, *first), Ok(number + 1));
    }
    memory
}

#[test]
fn a_days_sum_is_split_by_the_map_on_its_date() {
    let both = board(&[1, 1]).with(7, OTHER_KEY, 1000);
    let map = map_of(&[(20030501, both.clone()), (20030502, both), (20030531, board(&[0, 3]))]);
    // 48 times 100 millionths.
    let (outputs, parts) = day_of(&file(), 0, &map, 128).expect("a split");
    assert_eq!((outputs, &parts[..3]), (2, &[2_400, 2_400, 0][..]));
    let (outputs, parts) = day_of(&file(), 1, &map, 129).expect("a split");
    assert_eq!((outputs, &parts[..3]), (2, &[0, 0, 0][..]));
    let (outputs, parts) = day_of(&file(), 2, &map, 300).expect("a split");
    assert_eq!((outputs, parts[7], parts.iter().sum()), (1, 48_000_000, 48_000_000u64));
}

#[test]
fn the_largest_sum_of_a_day_is_split() {
    let day = format!("300,20030501,{}A,,,20030601153445,\r\n", "9999999.999999,".repeat(288));
    let file = format!("100,NEM12,200301011534,MDP1,Ret1\r\n200,VABD000163,E1Q1,1,E1,N1,MET,MWh,5,\r\n{day}900\r\n");
    let (_, parts) = day_of(&file, 0, &map_of(&[(20030501, board(&[1]))]), 128).expect("a split");
    assert_eq!(parts[0], 2_879_999_999_999_712);
}

#[test]
fn a_split_of_a_day_is_refused_by_the_file_14_21_14_15_and_26_in_this_order() {
    let file = file();
    let refused = file.clone() + "x";
    let map = map_of(&[(20030502, board(&[0]))]);
    let mut no_map = map.clone();
    no_map[0] = 33;
    let refusal = Refusal { number: 13, place: file.len(), record: 7, field: 0 };
    assert_eq!(day_of(&refused, 3, &no_map, 127), Err(refusal));
    assert_eq!(day_of("", 0, &map, 128), Err(Refusal { number: 2, place: 0, record: 0, field: 0 }));
    for number in [3, usize::MAX] {
        assert_eq!(day_refused(&file, number, &no_map, 127), Some(14));
    }
    assert_eq!(day_refused(&file, 0, &no_map, 127), Some(21));
    assert_eq!(day_refused(&file, 0, &[], 127), Some(21));
    // The version begins a day later, or there is none.
    assert_eq!(day_refused(&file, 0, &map, 127), Some(14));
    assert_eq!(day_refused(&file, 1, &made_map(), 127), Some(14));
    assert_eq!(day_refused(&file, 1, &map, 127), Some(15));
    assert_eq!(day_refused(&file, 1, &map, 128), Some(26));
    let map = map_of(&[(20030501, board(&[1]))]);
    assert_eq!(day_refused(&file, 2, &map, 128), Some(26));
    assert!(day_of(&file, 0, &map, 128).is_ok());
}

#[test]
fn a_nem13_file_has_no_day_to_split() {
    let accumulation = "250,VABD000163,1141,01,E1,11,METSER66,E,000021.2,20031001103230,A,,,000534.5,20040201100030,\
                        E64,77,,343.5,kWh,20040509,20040202125010,20040203000130\r\n";
    let file = format!("100,NEM13,200301011534,MDP1,Ret1\r\n{accumulation}900\r\n");
    assert_eq!(day_refused(&file, 0, &map_of(&[(19000101, board(&[1]))]), 128), Some(14));
}

// --- Stored days ---

fn stored(store: &[u8], key: &[u8; 12], date: u32, map: &[u8], places: usize) -> Result<(usize, Vec<u64>), u64> {
    let (nmi, suffix) = key.split_at(10);
    answer_of(places, |parts| split_stored(store, nmi, suffix, date, map, parts)).map_err(number_of)
}

/// A store with a day of one channel, whose values are 1, and one of another.
fn store() -> Vec<u8> {
    let mut memory = made_store(3, 1_000);
    assert_eq!(OwnDay::plain(20030501, 1, 20030502093000).put(&mut memory, NMI, SUFFIX), Ok(1));
    assert_eq!(OwnDay::plain(20030502, 2, 20030503093000).put(&mut memory, NMI, b"E2"), Ok(2));
    memory
}

#[test]
fn a_stored_days_sum_is_split_by_the_map_on_its_date() {
    let map = map_of(&[(20030101, board(&[1, 2])), (20030502, board(&[1]).with(1, OTHER_KEY, 5))]);
    for key in [KEY, b"vabd000163e1"] {
        let (outputs, parts) = stored(&store(), key, 20030501, &map, 128).expect("a split");
        assert_eq!((outputs, &parts[..3]), (2, &[16_000_000, 32_000_000, 0][..]));
    }
    let (outputs, parts) = stored(&store(), OTHER_KEY, 20030502, &map, 300).expect("a split");
    assert_eq!((outputs, &parts[..3]), (1, &[0, 96_000_000, 0][..]));
}

#[test]
fn a_split_of_a_stored_day_is_refused_by_21_14_21_14_15_and_26_in_this_order() {
    let store = store();
    let map = map_of(&[(20030502, board(&[1]))]);
    let mut no_map = map.clone();
    no_map[0] = 33;
    assert_eq!(stored(&[], b"            ", 0, &no_map, 127).err(), Some(21));
    assert_eq!(stored(&map, KEY, 20030501, &no_map, 127).err(), Some(21));
    for (key, date) in
        [(KEY, 20030502), (b"VABD000164E1", 20030501), (b"            ", 20030501), (KEY, 0), (KEY, u32::MAX)]
    {
        assert_eq!(stored(&store, key, date, &no_map, 127).err(), Some(14), "{key:?} {date}");
    }
    assert_eq!(stored(&store, KEY, 20030501, &no_map, 127).err(), Some(21));
    assert_eq!(stored(&store, KEY, 20030501, &[], 127).err(), Some(21));
    assert_eq!(stored(&store, KEY, 20030501, &map, 127).err(), Some(14));
    assert_eq!(stored(&store, OTHER_KEY, 20030502, &map, 127).err(), Some(15));
    assert_eq!(stored(&store, OTHER_KEY, 20030502, &map, 128).err(), Some(26));
    assert!(stored(&store, KEY, 20030501, &map_of(&[(20030501, board(&[1]))]), 128).is_ok());
}
