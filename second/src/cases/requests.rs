//! Cases that put one question to a file: check it, read a day, total a channel, or find a day's block.

use super::chance::Chance;
use crate::check::read_file;
use crate::walk::MeterFile;

/// A case on any file, in which checking is asked for most.
pub fn for_file(file: &[u8], chance: &mut Chance) -> Vec<u8> {
    match chance.below(10) {
        0..=5 => case("check", file),
        6..=7 => day_case(file, chance),
        _ => total_case(file, chance),
    }
}

/// A case on an accepted file, in which its content is asked for most.
pub fn for_accepted_file(file: &[u8], chance: &mut Chance) -> Vec<u8> {
    let has_days = read_file(file).is_ok_and(|content| !content.days.is_empty());
    match chance.below(12) {
        0 => case("check", file),
        1..=7 if has_days => day_case(file, chance),
        8 => day_case(file, chance),
        _ => total_case(file, chance),
    }
}

fn day_case(file: &[u8], chance: &mut Chance) -> Vec<u8> {
    let content = read_file(file).ok();
    let days = content.as_ref().map_or(1, |content| content.days.len());
    let day = some_number(chance, days);
    let places = some_list_length(chance, content.as_ref(), day);
    case(&format!("day {day} {places}"), file)
}

fn total_case(file: &[u8], chance: &mut Chance) -> Vec<u8> {
    let channels = read_file(file).map_or(1, |content| content.channels.len());
    case(&format!("total {}", some_number(chance, channels)), file)
}

/// A case that looks for a day, the first or the last of the file more often than others.
pub fn find_case(file: &[u8], chance: &mut Chance) -> Vec<u8> {
    let days = read_file(file).map_or(1, |content| content.days.len());
    let day = match chance.below(8) {
        0 => days,
        1 => chance.pick(&[days + 1, 1_000_000, usize::MAX - 1, usize::MAX, usize::MAX]),
        _ => chance.place_among(days.max(1)),
    };
    case(&format!("find {day}"), file)
}

/// A number that counts one of so many things, or none of them.
fn some_number(chance: &mut Chance, count: usize) -> usize {
    match chance.below(16) {
        0 => count,
        1 => chance.pick(&[count + 1, 1_000_000, usize::MAX - 1, usize::MAX]),
        _ => chance.below(count.max(1)),
    }
}

/// How long to lend the lists: mostly as long as the day needs or longer.
fn some_list_length(chance: &mut Chance, content: Option<&MeterFile>, day: usize) -> usize {
    let n = content.and_then(|content| content.days.get(day)).map_or(48, |day| day.values.len());
    match chance.below(12) {
        0 => n - 1,
        1 => chance.pick(&[0, 1, 47, 48, 95, 96, 287]),
        2 => chance.between(0, 300),
        3..=5 => chance.between(n, 300),
        6 => 300,
        _ => n,
    }
}

/// The words of a request, then the bytes that it is put to.
pub fn case(request: &str, bytes: &[u8]) -> Vec<u8> {
    let mut case = format!("{request} {}\n", bytes.len()).into_bytes();
    case.extend(bytes);
    case.push(b'\n');
    case
}

/// A case that replaces a day of the file that is the first `length` bytes of the room.
pub fn replace_case(day: usize, length: usize, room: &[u8], block: &[u8]) -> Vec<u8> {
    let line = format!("replace {day} {length} {} {}\n", room.len(), block.len());
    [line.as_bytes(), room, block, b"\n"].concat()
}

/// The words of a case's line, and the bytes behind it.
#[cfg(test)]
pub fn words_and_bytes(case: &[u8]) -> (Vec<&str>, &[u8]) {
    let line_end = case.iter().position(|byte| *byte == b'\n').expect("a line");
    let line = std::str::from_utf8(&case[..line_end]).expect("words");
    (line.split(' ').collect(), &case[line_end + 1..case.len() - 1])
}
