//! The probe: cases in, answers out, line by line.

mod maps;
mod months;
mod splits;
mod stores;

use crate::block::check_block;
use crate::check::check;
use crate::day::{read_day, DayRead, LentLists};
use crate::find::{find_day, DayFound};
use crate::refusal::{self, Refusal};
use crate::replace::replace_day;
use crate::total::total;
use crate::write::{write_day, DayHead, DayLists};
use std::io::{self, Write};

/// Of a file, of a block, and of the room that a file is edited in.
const LONGEST_LENT: u64 = 1_100_000;
const LONGEST_LIST: u64 = 300;
const LONGEST_TEXT: u64 = 4_096;
const LARGEST_ROOM: u64 = 131_072;
/// Of an NMI, and of a suffix.
const LONGEST_KEY_PART: u64 = 64;
/// Of all keys of a version.
const LONGEST_KEYS: u64 = 2_000;

/// How often each answer was given.
#[derive(Default)]
pub struct Counts {
    pub accepted: u64,
    refused: [u64; refusal::LAST as usize + 1],
}

impl Counts {
    fn count<T>(&mut self, answer: &Result<T, Refusal>) {
        match answer {
            Ok(_) => self.accepted += 1,
            Err(refusal) => self.refused[refusal.number as usize] += 1,
        }
    }

    /// Times that a refusal was given.
    #[cfg(test)]
    pub fn refusals(&self, number: u64) -> u64 {
        self.refused[number as usize]
    }

    /// A line for each answer, with these words before it: accepted, and the refusals of these numbers.
    fn lines(&self, before: &str, numbers: impl Iterator<Item = u64>) -> String {
        let mut lines = format!("{before}accepted {}\n", self.accepted);
        for number in numbers {
            lines += &format!("{before}refused {number} {}\n", self.refused[number as usize]);
        }
        lines
    }
}

/// The answers of a run.
#[derive(Default)]
pub struct Tally {
    pub all: Counts,
    /// Those to `block` cases, which are among all too.
    pub blocks: Counts,
    /// Likewise those to `find`, to `replace` and to `month` cases, and to each kind of case about a store, a map or a
    /// split.
    pub finds: Counts,
    pub replacements: Counts,
    pub months: Counts,
    pub makes: Counts,
    pub puts: Counts,
    pub gets: Counts,
    pub deletes: Counts,
    pub slots: Counts,
    pub map_makes: Counts,
    pub adds: Counts,
    pub backs: Counts,
    pub questions: Counts,
    pub splits: Counts,
    pub day_splits: Counts,
    pub stored_splits: Counts,
    /// The slots that were read and are free. They are not among those accepted.
    pub free_slots: u64,
    /// The accepted replacements behind which the edited file was checked at once, and accepted.
    pub checked_replacements: u64,
    /// The edited file, if the last case was an accepted replacement.
    just_edited: Option<Vec<u8>>,
    bad_case: bool,
}

impl Tally {
    fn count<T>(&mut self, answer: &Result<T, Refusal>) {
        self.all.count(answer);
    }

    /// Counts an answer among all, and among those to its kind of case.
    fn count_as<T>(&mut self, counts_of_kind: fn(&mut Tally) -> &mut Counts, answer: &Result<T, Refusal>) {
        self.all.count(answer);
        counts_of_kind(self).count(answer);
    }

    pub fn lines(&self) -> String {
        let mut lines = self.all.lines("", refusal::numbers());
        for (before, counts) in [("block ", &self.blocks), ("find ", &self.finds), ("replace ", &self.replacements)] {
            lines += &counts.lines(before, refusal::of_files());
        }
        lines += &format!("replace checked {}\n", self.checked_replacements);
        for (before, counts) in [
            ("make ", &self.makes),
            ("put ", &self.puts),
            ("get ", &self.gets),
            ("delete ", &self.deletes),
            ("slot ", &self.slots),
        ] {
            lines += &counts.lines(before, refusal::of_stores());
        }
        lines += &format!("slot free {}\n", self.free_slots);
        for (before, counts) in
            [("makemap ", &self.map_makes), ("add ", &self.adds), ("back ", &self.backs), ("on ", &self.questions)]
        {
            lines += &counts.lines(before, refusal::of_maps());
        }
        for (before, counts) in
            [("split ", &self.splits), ("splitday ", &self.day_splits), ("splitstored ", &self.stored_splits)]
        {
            lines += &counts.lines(before, refusal::of_splits());
        }
        lines += &self.months.lines("month ", refusal::of_months());
        if self.bad_case {
            lines += "bad case 1\n";
        }
        lines
    }
}

/// Answers each case of the input in turn. The first bad case is answered too, and ends the run.
pub fn run(input: &[u8], output: &mut impl Write) -> io::Result<Tally> {
    let mut tally = Tally::default();
    // The one memory that is lent to all cases about stores and maps.
    let mut memory = Vec::new();
    let mut rest = Input { bytes: input };
    while !rest.bytes.is_empty() {
        match answer_case(&mut rest, &mut memory, &mut tally) {
            Some(answer) => output.write_all(&answer)?,
            None => {
                output.write_all(b"bad case\n")?;
                tally.bad_case = true;
                break;
            }
        }
    }
    Ok(tally)
}

/// Reads one case and answers it. None is a bad case, here and in all that follows.
fn answer_case(input: &mut Input, memory: &mut Vec<u8>, tally: &mut Tally) -> Option<Vec<u8>> {
    let line = input.line()?;
    let words: Vec<&[u8]> = line.split(|byte| *byte == b' ').collect();
    let just_edited = tally.just_edited.take();
    match words[..] {
        [b"check", length] => {
            let file = input.lent(length)?;
            if just_edited.is_some_and(|edited| edited == file) && check(file).is_ok() {
                tally.checked_replacements += 1;
            }
            answer_check(file, tally)
        }
        [b"day", day, places, length] => {
            let day = number(day, usize::MAX as u64)? as usize;
            let places = number(places, LONGEST_LIST)? as usize;
            answer_day(input.lent(length)?, day, places, tally)
        }
        [b"total", channel, length] => {
            let channel = number(channel, usize::MAX as u64)? as usize;
            answer_total(input.lent(length)?, channel, tally)
        }
        [b"block", interval_length, unit, length] => {
            let interval_length = number(interval_length, u64::from(u32::MAX))? as u32;
            let unit = number(unit, u64::from(u8::MAX))? as u8;
            answer_block(input.lent(length)?, interval_length, unit, tally)
        }
        [b"find", day, length] => {
            let day = number(day, usize::MAX as u64)? as usize;
            answer_find(input.lent(length)?, day, tally)
        }
        [b"replace", day, length, room, block] => {
            let day = number(day, usize::MAX as u64)? as usize;
            // A length that is longer than the room is no bad case.
            let length = number(length, usize::MAX as u64)? as usize;
            let room = input.take(number(room, LONGEST_LENT)? as usize)?;
            answer_replace(room, length, day, input.lent(block)?, tally)
        }
        [b"write", ref numbers @ ..] => answer_write(input, numbers, tally),
        [b"makemap" | b"add" | b"back" | b"on", ..] => maps::answer_case(&words, input, memory, tally),
        [b"month", ..] => months::answer_case(&words, input, tally),
        [b"split" | b"splitday" | b"splitstored", ..] => splits::answer_case(&words, input, memory, tally),
        _ => stores::answer_case(&words, input, memory, tally),
    }
}

fn answer_check(file: &[u8], tally: &mut Tally) -> Option<Vec<u8>> {
    let answer = check(file);
    tally.count(&answer);
    Some(match answer {
        Ok(summary) => format!("accepted {} {} {}\n", summary.version, summary.channels, summary.days).into_bytes(),
        Err(refusal) => refusal_line(refusal, false),
    })
}

fn answer_day(file: &[u8], day: usize, places: usize, tally: &mut Tally) -> Option<Vec<u8>> {
    let mut lists = OwnLists::new(places);
    let answer = read_day(file, day, lists.lend());
    tally.count(&answer);
    Some(read_line(answer, &lists))
}

fn answer_total(file: &[u8], channel: usize, tally: &mut Tally) -> Option<Vec<u8>> {
    let answer = total(file, channel);
    tally.count(&answer);
    Some(match answer {
        Ok(total) => format!("accepted {total}\n").into_bytes(),
        Err(refusal) => refusal_line(refusal, false),
    })
}

fn answer_block(block: &[u8], interval_length: u32, unit: u8, tally: &mut Tally) -> Option<Vec<u8>> {
    let answer = check_block(block, interval_length, unit);
    tally.count_as(|tally| &mut tally.blocks, &answer);
    Some(match answer {
        Ok(read) => format!("{} {}\n", day_words(read.day), read.records).into_bytes(),
        Err(refusal) => refusal_line(refusal, false),
    })
}

fn answer_find(file: &[u8], day: usize, tally: &mut Tally) -> Option<Vec<u8>> {
    let answer = find_day(file, day);
    tally.count_as(|tally| &mut tally.finds, &answer);
    Some(match answer {
        Ok(DayFound { channel, nmi, suffix, unit, length, start, end }) => {
            format!("accepted {channel} {nmi} {suffix} {unit} {length} {start} {end}\n").into_bytes()
        }
        Err(refusal) => refusal_line(refusal, false),
    })
}

/// The room is answered as it is left, also behind the new file.
fn answer_replace(lent: &[u8], length: usize, day: usize, block: &[u8], tally: &mut Tally) -> Option<Vec<u8>> {
    let mut room = lent.to_vec();
    let answer = replace_day(&mut room, length, day, block);
    tally.count_as(|tally| &mut tally.replacements, &answer);
    Some(match answer {
        Ok(new_length) => {
            tally.just_edited = Some(room[..new_length].to_vec());
            let mut answer = format!("accepted {new_length}").into_bytes();
            end_line(&mut answer, room[new_length..] != lent[new_length..]);
            answer.extend(&room);
            answer
        }
        Err(refusal) => refusal_line(refusal, room != lent),
    })
}

fn answer_write(input: &mut Input, words: &[&[u8]], tally: &mut Tally) -> Option<Vec<u8>> {
    let [date, length, update, load, unit, room, lengths @ ..] = words else {
        return None;
    };
    let head = head_of([date, length, update, load, unit])?;
    let room_length = number(room, LARGEST_ROOM)? as usize;
    let day = ToldDay::read(input, lengths)?;
    let mut room = vec![LENT_BYTE; room_length];
    let answer = write_day(head, day.lists(), &mut room);
    tally.count(&answer);
    Some(match answer {
        Ok(block) => {
            let changed = room[block.bytes..].iter().any(|byte| *byte != LENT_BYTE);
            let mut answer = format!("accepted {} {}", block.bytes, block.records).into_bytes();
            end_line(&mut answer, changed);
            answer.extend(&room[..block.bytes]);
            answer
        }
        Err(refusal) => refusal_line(refusal, room.iter().any(|byte| *byte != LENT_BYTE)),
    })
}

// --- Days that a case tells ---

/// Date, interval length, update time, load time and unit.
fn head_of([date, length, update, load, unit]: [&[u8]; 5]) -> Option<DayHead> {
    Some(DayHead {
        date: number(date, u64::from(u32::MAX))? as u32,
        length: number(length, u64::from(u32::MAX))? as u32,
        update: number(update, u64::MAX)?,
        load: number(load, u64::MAX)?,
        unit: number(unit, u64::from(u8::MAX))? as u8,
    })
}

struct ToldDay<'a> {
    values: Vec<u64>,
    flags: Vec<u8>,
    methods: Vec<u8>,
    reasons: Vec<u16>,
    starts: Vec<usize>,
    lengths: Vec<usize>,
    text: &'a [u8],
}

impl<'a> ToldDay<'a> {
    /// Reads six lists and a text of the lengths that these words say, and the LF that ends the case.
    fn read(input: &mut Input<'a>, words: &[&[u8]]) -> Option<ToldDay<'a>> {
        let [values, flags, methods, reasons, starts, lengths, text] = words else {
            return None;
        };
        Some(ToldDay {
            values: input.list(values, u64::MAX)?,
            flags: narrow(input.list(flags, u64::from(u8::MAX))?, |number| number as u8),
            methods: narrow(input.list(methods, u64::from(u8::MAX))?, |number| number as u8),
            reasons: narrow(input.list(reasons, u64::from(u16::MAX))?, |number| number as u16),
            starts: narrow(input.list(starts, usize::MAX as u64)?, |number| number as usize),
            lengths: narrow(input.list(lengths, usize::MAX as u64)?, |number| number as usize),
            text: input.announced(number(text, LONGEST_TEXT)? as usize)?,
        })
    }

    fn lists(&self) -> DayLists<'_> {
        DayLists {
            values: &self.values,
            flags: &self.flags,
            methods: &self.methods,
            reasons: &self.reasons,
            starts: &self.starts,
            lengths: &self.lengths,
            text: self.text,
        }
    }
}

fn narrow<T>(numbers: Vec<u64>, narrow: impl Fn(u64) -> T) -> Vec<T> {
    numbers.into_iter().map(narrow).collect()
}

// --- Lists that are lent ---

/// What stands in lent lists and in lent room before a call. No call writes it: it is no letter of a quality,
/// no method, and no byte of a block.
const LENT_BYTE: u8 = 0xA5;

struct OwnLists {
    values: Vec<u64>,
    flags: Vec<u8>,
    methods: Vec<u8>,
    reasons: Vec<u16>,
    starts: Vec<usize>,
    lengths: Vec<usize>,
}

impl OwnLists {
    const LENT_NUMBER: u64 = u64::MAX;
    const LENT_REASON: u16 = 0xA5A5;
    const LENT_PLACE: usize = usize::MAX;

    fn new(places: usize) -> OwnLists {
        OwnLists {
            values: vec![Self::LENT_NUMBER; places],
            flags: vec![LENT_BYTE; places],
            methods: vec![LENT_BYTE; places],
            reasons: vec![Self::LENT_REASON; places],
            starts: vec![Self::LENT_PLACE; places],
            lengths: vec![Self::LENT_PLACE; places],
        }
    }

    fn lend(&mut self) -> LentLists<'_> {
        LentLists {
            values: &mut self.values,
            flags: &mut self.flags,
            methods: &mut self.methods,
            reasons: &mut self.reasons,
            starts: &mut self.starts,
            lengths: &mut self.lengths,
        }
    }

    /// Whether any place from this one on no longer holds what it held before the call.
    fn changed_from(&self, place: usize) -> bool {
        self.values[place..].iter().any(|number| *number != Self::LENT_NUMBER)
            || self.flags[place..].iter().any(|byte| *byte != LENT_BYTE)
            || self.methods[place..].iter().any(|byte| *byte != LENT_BYTE)
            || self.reasons[place..].iter().any(|number| *number != Self::LENT_REASON)
            || self.starts[place..].iter().any(|number| *number != Self::LENT_PLACE)
            || self.lengths[place..].iter().any(|number| *number != Self::LENT_PLACE)
    }
}

// --- Answers ---

fn refusal_line(refusal: Refusal, changed: bool) -> Vec<u8> {
    let Refusal { number, place, record, field } = refusal;
    let mut line = format!("refused {number} {place} {record} {field}").into_bytes();
    end_line(&mut line, changed);
    line
}

/// How an answer begins that accepts a day, in a file or in a block on its own.
fn day_words(read: DayRead) -> String {
    let DayRead { date, n, update, load, .. } = read;
    format!("accepted {date} {n} {update} {load}")
}

/// The line for a call that reads a day into these lists.
fn read_line(answer: Result<DayRead, Refusal>, lists: &OwnLists) -> Vec<u8> {
    match answer {
        Ok(read) => day_line(read, lists),
        Err(refusal) => refusal_line(refusal, lists.changed_from(0)),
    }
}

fn day_line(read: DayRead, lists: &OwnLists) -> Vec<u8> {
    let mut line = format!("{} {}", day_words(read), read.unit).into_bytes();
    for index in 0..read.n {
        line.extend(interval_words(lists, index).bytes());
    }
    end_line(&mut line, lists.changed_from(read.n));
    line
}

/// What an answer has of the interval at this place of the lists.
fn interval_words(lists: &OwnLists, index: usize) -> String {
    format!(
        " {}/{}/{}/{}/{}/{}",
        lists.values[index],
        lists.flags[index],
        lists.methods[index],
        lists.reasons[index],
        lists.starts[index],
        lists.lengths[index]
    )
}

/// The line for a call that may change the memory and gives a number. After a refusal nothing may have changed, and
/// after an accepted call nothing behind what it fills, which is so much of the memory as it is then.
fn change_line(
    answer: Result<usize, Refusal>,
    before: &[u8],
    after: &[u8],
    filled: impl Fn(&[u8]) -> usize,
) -> Vec<u8> {
    match answer {
        Ok(number) => {
            let kept_from = filled(after);
            let mut line = format!("accepted {number}").into_bytes();
            end_line(&mut line, before[kept_from..] != after[kept_from..]);
            line
        }
        Err(refusal) => refusal_line(refusal, before != after),
    }
}

fn end_line(line: &mut Vec<u8>, changed: bool) {
    if changed {
        line.extend(b" changed");
    }
    line.push(b'\n');
}

// --- Input ---

/// The bytes of an NMI and of a suffix.
type KeyBytes<'a> = (&'a [u8], &'a [u8]);

/// What is left of the input.
struct Input<'a> {
    bytes: &'a [u8],
}

impl<'a> Input<'a> {
    fn take(&mut self, length: usize) -> Option<&'a [u8]> {
        if length > self.bytes.len() {
            return None;
        }
        let (taken, rest) = self.bytes.split_at(length);
        self.bytes = rest;
        Some(taken)
    }

    /// The bytes up to the next LF, which is taken too.
    fn line(&mut self) -> Option<&'a [u8]> {
        let length = self.bytes.iter().position(|byte| *byte == b'\n')?;
        let line = self.take(length)?;
        self.take(1)?;
        Some(line)
    }

    /// Bytes that a case announces last, and the LF that ends the case.
    fn announced(&mut self, length: usize) -> Option<&'a [u8]> {
        let bytes = self.take(length)?;
        (self.take(1)? == b"\n").then_some(bytes)
    }

    /// A file or a block of as many bytes as the word says, and the LF that ends the case.
    fn lent(&mut self, length: &[u8]) -> Option<&'a [u8]> {
        let length = number(length, LONGEST_LENT)?;
        self.announced(length as usize)
    }

    /// As many bytes of an NMI and of a suffix as the words say.
    fn key(&mut self, nmi: &[u8], suffix: &[u8]) -> Option<KeyBytes<'a>> {
        let nmi = self.take(number(nmi, LONGEST_KEY_PART)? as usize)?;
        let suffix = self.take(number(suffix, LONGEST_KEY_PART)? as usize)?;
        Some((nmi, suffix))
    }

    /// A line with as many shares as the word says.
    fn shares(&mut self, length: &[u8]) -> Option<Vec<u16>> {
        Some(narrow(self.list(length, u64::from(u16::MAX))?, |number| number as u16))
    }

    /// A line with as many numbers as the word says, a space behind each.
    fn list(&mut self, length: &[u8], largest: u64) -> Option<Vec<u64>> {
        let length = number(length, LONGEST_LIST)? as usize;
        let mut words: Vec<&[u8]> = self.line()?.split(|byte| *byte == b' ').collect();
        // Behind the last space stands nothing.
        let behind = words.pop()?;
        if !behind.is_empty() || words.len() != length {
            return None;
        }
        words.into_iter().map(|word| number(word, largest)).collect()
    }
}

/// A decimal number without sign, no larger than the largest.
fn number(word: &[u8], largest: u64) -> Option<u64> {
    if word.is_empty() {
        return None;
    }
    let mut number: u64 = 0;
    for byte in word {
        if !byte.is_ascii_digit() {
            return None;
        }
        number = number.checked_mul(10)?.checked_add(u64::from(byte - b'0'))?;
    }
    (number <= largest).then_some(number)
}

#[cfg(test)]
mod tests {
    use super::*;

    fn answers(input: &str) -> String {
        let mut output = Vec::new();
        run(input.as_bytes(), &mut output).unwrap();
        String::from_utf8(output).unwrap()
    }

    fn write_case(head: &str, places: usize, values: &str) -> String {
        let flags = "65 ".repeat(places);
        let methods = "255 ".repeat(places);
        let reasons = "65535 ".repeat(places);
        let zeros = "0 ".repeat(places);
        format!("write {head}\n{values}\n{flags}\n{methods}\n{reasons}\n{zeros}\n{zeros}\n\n")
    }

    #[test]
    fn no_input_has_no_answer() {
        assert_eq!(answers(""), "");
    }

    #[test]
    fn empty_file_is_two_at_place_zero() {
        assert_eq!(answers("check 0\n\ntotal 7 0\n\nday 0 48 0\n\n"), "refused 2 0 0 0\n".repeat(3));
    }

    #[test]
    fn a_bad_case_ends_the_run() {
        for bad in [
            "\n",
            "check\n\n",
            "check  0\n\n",
            "check 0 \n\n",
            "check -1\n\n",
            "check +1\nx\n",
            "check 1100001\n\n",
            "check 1\n",
            "check 1\nx",
            "check 0\nx",
            "check 0",
            "Check 0\n\n",
            "day 0 301 0\n\n",
            "day 18446744073709551616 48 0\n\n",
            "total 0\n\n",
            "block\n\n",
            "block 30\n\n",
            "block 30 0\n\n",
            "block 30 0 0 \n\n",
            "block -30 0 0\n\n",
            "block 4294967296 0 0\n\n",
            "block 30 256 0\n\n",
            "block 30 -1 0\n\n",
            "block 30 kWh 0\n\n",
            "block 30  0\n\n",
            "block 30 0 1100001\n\n",
            "block 30 0 1\n",
            "block 30 0 0\nx",
            "find\n\n",
            "find 0\n\n",
            "find 0 0 \n\n",
            "find 0 0 0\n\n",
            "find -1 0\n\n",
            "find 18446744073709551616 0\n\n",
            "find 0 1100001\n\n",
            "find 0 1\n",
            "find 0 1\nx",
            "find 0 0\nx",
            "fin 0 0\n\n",
            "replace\n\n",
            "replace 0 0 0\n\n",
            "replace 0 0 0 0 0\n\n",
            "replace 0  0 0\n\n",
            "replace -1 0 0 0\n\n",
            "replace 18446744073709551616 0 0 0\n\n",
            "replace 0 18446744073709551616 0 0\n\n",
            "replace 0 0 1100001 0\n\n",
            "replace 0 0 0 1100001\n\n",
            "replace 0 0 2 0\nx",
            "replace 0 0 2 0\n12",
            "replace 0 0 1 2\n12",
            "replace 0 0 1 2\n123",
            "replace 0 0 1 1\n123",
            "Replace 0 0 0 0\n\n",
            "write 20030922 30 20030922092231 0 0 10 0 0 0 0 0 0\n\n\n\n\n\n\n\n",
            "write 4294967296 30 20030922092231 0 0 10 0 0 0 0 0 0 0\n\n\n\n\n\n\n\n",
            "write 20030922 30 20030922092231 0 256 10 0 0 0 0 0 0 0\n\n\n\n\n\n\n\n",
            "write 20030922 30 20030922092231 0 0 131073 0 0 0 0 0 0 0\n\n\n\n\n\n\n\n",
            "write 20030922 30 20030922092231 0 0 10 0 0 0 0 0 0 4097\n\n\n\n\n\n\n\n",
            "write 20030922 30 20030922092231 0 0 10 301 0 0 0 0 0 0\n\n\n\n\n\n\n\n",
            "write 20030922 30 20030922092231 0 0 10 1 0 0 0 0 0 0\n1\n\n\n\n\n\n\n",
            "write 20030922 30 20030922092231 0 0 10 1 0 0 0 0 0 0\n1 2 \n\n\n\n\n\n\n",
            "write 20030922 30 20030922092231 0 0 10 0 1 0 0 0 0 0\n\n256 \n\n\n\n\n\n",
            "write 20030922 30 20030922092231 0 0 10 0 0 0 1 0 0 0\n\n\n\n65536 \n\n\n\n",
            "write 20030922 30 20030922092231 0 0 10 0 0 0 0 0 0 0\n\n\n\n\n\n\n",
        ] {
            let input = format!("check 0\n\n{bad}");
            assert_eq!(answers(&input), "refused 2 0 0 0\nbad case\n", "{bad:?}");
        }
    }

    #[test]
    fn a_written_block_follows_its_line() {
        let case = write_case("20030922 30 20030922092231 0 0 200 48 48 48 48 48 48 0", 48, &"3000000 ".repeat(48));
        let block = format!("300,20030922,{}A,,,20030922092231,\r\n", "3,".repeat(48));
        let expected = format!("accepted {} 1\n{block}accepted {} 1\n{block}", block.len(), block.len());
        assert_eq!(answers(&case.repeat(2)), expected);
    }

    #[test]
    fn lists_without_places_are_too_short() {
        let case = write_case("0 30 0 0 0 0 0 0 0 0 0 0 0", 0, "");
        assert_eq!(answers(&case), "refused 15 0 0 0\n");
        let case = write_case("0 31 0 0 0 0 0 0 0 0 0 0 0", 0, "");
        assert_eq!(answers(&case), "refused 16 0 0 0\n");
    }

    #[test]
    fn a_block_is_answered_by_its_day_and_its_records() {
        let day = format!("300,20030501,{}V,,,20030501153445,\r\n", "1,".repeat(48));
        let block = format!("{day}400,1,24,A,,\r\n400,25,48,E52,,\r\n500,S,,,\r\n");
        let case = |numbers: &str, block: &str| format!("block {numbers} {}\n{block}\n", block.len());
        for numbers in ["30 0", "030 0", "30 022"] {
            assert_eq!(answers(&case(numbers, &block)), "accepted 20030501 48 20030501153445 0 4\n", "{numbers}");
        }
        assert_eq!(answers(&case("30 1", &day)), format!("refused 10 {} 1 0\n", day.len()));
        for numbers in ["4294967295 0", "30 23", "30 255", "31 23"] {
            assert_eq!(answers(&case(numbers, "")), "refused 16 0 0 0\n", "{numbers}");
        }
        assert_eq!(answers(&case("15 0", "")), "refused 2 0 0 0\n");
    }

    #[test]
    fn answers_to_blocks_are_counted_among_all_and_apart() {
        let tally = run(b"block 30 0 0\n\ncheck 0\n\nblock 60 0 0\n\n", &mut io::sink()).unwrap();
        assert_eq!((tally.all.refusals(2), tally.blocks.refusals(2)), (2, 1));
        assert_eq!((tally.all.refusals(16), tally.blocks.refusals(16)), (1, 1));
        let lines = tally.lines();
        for line in ["refused 2 2\n", "block refused 2 1\n", "block accepted 0\n"] {
            assert!(lines.contains(line), "{lines}");
        }
    }

    /// A file of two half-hour days, and its length.
    fn file_of_two_days() -> (String, usize) {
        let head = "100,NEM12,200301011534,MDP1,Ret1\r\n200,VABD000163,E1Q1,1,E1,N1,MET,kWh,30,\r\n";
        let file = format!("{head}{}{}900\r\n", plain_day("20030501", "1"), plain_day("20030502", "2"));
        let length = file.len();
        (file, length)
    }

    fn plain_day(date: &str, value: &str) -> String {
        format!("300,{date},{}A,,,20030503153445,\r\n", format!("{value},").repeat(48))
    }

    #[test]
    fn a_found_day_is_answered_by_its_channel_and_its_places() {
        let (file, length) = file_of_two_days();
        let day = plain_day("20030501", "1").len();
        // The 100 has 34 bytes, and the 200 has 41.
        for (number, start) in [("0", 75), ("1", 75 + day), ("01", 75 + day)] {
            let expected = format!("accepted 0 38 56 1 30 {start} {}\n", start + day);
            assert_eq!(answers(&format!("find {number} {length}\n{file}\n")), expected);
        }
        for number in ["2", "18446744073709551615"] {
            assert_eq!(answers(&format!("find {number} {length}\n{file}\n")), "refused 14 0 0 0\n");
        }
        assert_eq!(answers("find 0 0\n\n"), "refused 2 0 0 0\n");
    }

    #[test]
    fn a_replacement_is_answered_by_the_whole_room() {
        let (file, length) = file_of_two_days();
        let case = |day: usize, told: &str, room: &str, block: &str| {
            format!("replace {day} {told} {} {}\n{room}{block}\n", room.len(), block.len())
        };
        let (old, told) = (plain_day("20030502", "2"), length.to_string());
        for value in ["3", "0.25"] {
            let block = plain_day("20030502", value);
            let edited = file.replace(&old, &block);
            let room = format!("{file}{}", "\x01\r\n~".repeat(200));
            let expected = format!("accepted {}\n{edited}{}", edited.len(), &room[edited.len()..]);
            assert_eq!(answers(&case(1, &told, &room, &block)), expected);
            // The next answer begins at once.
            let input = case(1, &told, &room, &block) + "check 0\n\n";
            assert_eq!(answers(&input), expected + "refused 2 0 0 0\n");
        }
        for (day, told, room, block, expected) in [
            (9, "18446744073709551615", "", "x", "refused 15 0 0 0\n"),
            (9, "1100001", "x", "x", "refused 15 0 0 0\n"),
            (9, "0", &file[..], "x", "refused 2 0 0 0\n"),
            (2, &told[..], &file, "x", "refused 14 0 0 0\n"),
            (1, &told, &file, "", "refused 2 0 0 0\n"),
            (1, &told, &file, &plain_day("20030503", "2.5"), "refused 8 4 0 2\n"),
            (1, &told, &file, &plain_day("20030502", "2.5"), "refused 15 0 0 0\n"),
        ] {
            assert_eq!(answers(&case(day, told, room, block)), expected, "{day} {told}");
        }
    }

    #[test]
    fn finds_and_replacements_are_counted_apart() {
        let (file, length) = file_of_two_days();
        let block = plain_day("20030501", "7");
        let edited = file.replace(&plain_day("20030501", "1"), &block);
        let replace = format!("replace 0 {length} {length} {}\n{file}{block}\n", block.len());
        let check = |file: &str| format!("check {}\n{file}\n", file.len());
        let find = format!("find 2 {length}\n{file}\n");
        // Only a check of the edited file that comes at once counts as one.
        let runs = [(check(&edited), 1), (check(&file), 0), (find.clone() + &check(&edited), 0), (String::new(), 0)];
        for (behind, checked) in runs {
            let input = format!("{find}{replace}{behind}");
            let tally = run(input.as_bytes(), &mut io::sink()).unwrap();
            assert_eq!((tally.replacements.accepted, tally.checked_replacements), (1, checked));
            assert!(tally.finds.refusals(14) > 0);
            let lines = tally.lines();
            for line in ["find accepted 0\n", "replace accepted 1\n", "replace refused 15 0\n"] {
                assert!(lines.contains(line), "{lines}");
            }
            assert!(lines.contains(&format!("replace checked {checked}\n")), "{lines}");
        }
    }

    #[test]
    fn null_data_is_answered_by_its_letters_byte_and_no_method() {
        let channel = "100,NEM12,200301011534,MDP1,Ret1\r\n200,VABD000163,E1Q1,1,E1,N1,MET,kWh,30,\r\n";
        let values = "0.5,".repeat(48);
        let cover = "400,1,47,A,,\r\n400,48,48,N,,\r\n";
        let file = format!("{channel}300,20030501,{values}V,,,20030501153445,\r\n{cover}900\r\n");
        let intervals = " 500000/65/255/65535/0/0".repeat(47) + " 500000/78/255/65535/0/0";
        let length = file.len();
        let expected = format!("accepted 20030501 48 20030501153445 0 1{intervals}\n");
        assert_eq!(answers(&format!("day 0 48 {length}\n{file}\n")), expected);
        assert_eq!(answers(&format!("total 0 {length}\n{file}\n")), "accepted 24000000\n");

        let case = write_case("20030922 30 20030922092231 0 0 200 48 48 48 48 48 48 0", 48, &"3000000 ".repeat(48));
        let block = format!("300,20030922,{}N,,,20030922092231,\r\n", "3,".repeat(48));
        assert_eq!(answers(&case.replace("65 ", "78 ")), format!("accepted {} 1\n{block}", block.len()));
    }

    #[test]
    fn a_days_unit_is_answered_and_written() {
        let channel = |unit: &str| format!("200,VABD000163,E1Q1,1,E1,N1,MET,{unit},30,\r\n");
        let day = format!("300,20030501,{}A,,,20030501153445,\r\n", "0.1,".repeat(48));
        let header = "100,NEM12,200301011534,MDP1,Ret1\r\n";
        let file = format!("{header}{}{day}{}{day}{}{day}900\r\n", channel("PF"), channel("mWH"), channel("Wh"));
        for (number, unit) in [(0, 22), (1, 0), (2, 2)] {
            let expected = format!("accepted 20030501 48 20030501153445 0 {unit} 100000/");
            let answer = answers(&format!("day {number} 48 {}\n{file}\n", file.len()));
            assert!(answer.starts_with(&expected), "{answer}");
        }

        let written = |unit: u8, value: u64| {
            let head = format!("20030922 30 20030922092231 0 {unit} 600 48 48 48 48 48 48 0");
            answers(&write_case(&head, 48, &format!("{value} ").repeat(48)))
        };
        assert!(written(0, 1).contains("\n300,20030922,0.000001,"));
        assert!(written(1, 100).contains("\n300,20030922,0.0001,"));
        for (unit, value) in [(1, 10), (1, 1), (2, 10_000), (22, 1_000), (23, 1_000_000), (255, 1_000_000)] {
            assert_eq!(written(unit, value), "refused 16 0 0 0\n", "{unit} {value}");
        }
    }

    #[test]
    fn a_day_is_answered_on_one_line() {
        let values = "1.5,".repeat(48);
        let file = format!(
            "100,NEM12,200301011534,MDP1,Ret1\r\n200,VABD000163,E1Q1,1,E1,N1,MET,kWh,30,\r\n\
             300,20030501,{values}S14,79,Power out,20030501153445,20030502023012\r\n900\r\n"
        );
        let start = file.find("Power").unwrap();
        let interval = format!(" 1500000/83/14/79/{start}/9");
        let expected = format!("accepted 20030501 48 20030501153445 20030502023012 1{}\n", interval.repeat(48));
        let length = file.len();
        assert_eq!(answers(&format!("day 0 300 {length}\n{file}\n")), expected);
        assert_eq!(answers(&format!("day 0 47 {length}\n{file}\n")), "refused 15 0 0 0\n");
        assert_eq!(answers(&format!("day 1 47 {length}\n{file}\n")), "refused 14 0 0 0\n");
        assert_eq!(answers(&format!("total 0 {length}\n{file}\n")), "accepted 72000000\n");
        assert_eq!(answers(&format!("total 1 {length}\n{file}\n")), "refused 14 0 0 0\n");
        assert_eq!(answers(&format!("check {length}\n{file}\n")), "accepted 12 1 1\n");
    }
}
