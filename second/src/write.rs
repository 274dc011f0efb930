//! Writing one day as a day block: a 300, and 400s where its intervals don't all say the same.

use crate::fields::{self, Quality, Rule, LONGEST_DESCRIPTION, NO_METHOD, VALUE_LIMIT};
use crate::notes::{Note, NO_REASON};
use crate::refusal::{Refusal, DAY_UNFIT, LENT_TOO_SHORT};
use crate::units::Unit;

#[derive(Clone, Copy, Debug)]
pub struct DayHead {
    pub date: u32,
    /// Interval length in minutes.
    pub length: u32,
    pub update: u64,
    /// 0 if none.
    pub load: u64,
    /// Number of the unit in which its values are.
    pub unit: u8,
}

/// The lists of the day's intervals, and the text in which their descriptions lie.
#[derive(Clone, Copy, Debug)]
pub struct DayLists<'a> {
    pub values: &'a [u64],
    pub flags: &'a [u8],
    pub methods: &'a [u8],
    pub reasons: &'a [u16],
    pub starts: &'a [usize],
    pub lengths: &'a [usize],
    pub text: &'a [u8],
}

#[derive(Clone, Copy, Debug, PartialEq, Eq)]
pub struct Block {
    pub bytes: usize,
    pub records: usize,
}

pub fn write_day(head: DayHead, lists: DayLists, room: &mut [u8]) -> Result<Block, Refusal> {
    let (block, records) = compose(head, lists)?;
    if room.len() < block.len() {
        return Err(Refusal::without_place(LENT_TOO_SHORT));
    }
    room[..block.len()].copy_from_slice(&block);
    Ok(Block { bytes: block.len(), records })
}

/// The block's bytes and record count, with no regard to room.
pub fn compose(head: DayHead, lists: DayLists) -> Result<(Vec<u8>, usize), Refusal> {
    let unfit = Refusal::without_place(DAY_UNFIT);
    let n = fields::intervals_in_day(u64::from(head.length)).ok_or(unfit)?;
    if lists.shortest() < n {
        return Err(Refusal::without_place(LENT_TOO_SHORT));
    }
    let unit = Unit::numbered(head.unit).ok_or(unfit)?;
    let values = &lists.values[..n];
    let notes = lists.notes(n).ok_or(unfit)?;
    if !is_fit_head(head) || !values.iter().all(|value| is_fit_value(*value, unit)) {
        return Err(unfit);
    }
    let stretches = stretches(&notes);
    let mut block = day_record(head, values, &stretches);
    // One stretch fills the day: its note stands in the 300, and no 400 follows.
    let cover = if stretches.len() == 1 { &[][..] } else { &stretches[..] };
    for stretch in cover {
        block.extend(cover_record(stretch));
    }
    Ok((block, 1 + cover.len()))
}

// --- Fitness ---

/// A number fits as a date or time just when the digits that write it do.
fn is_fit_head(head: DayHead) -> bool {
    let is_time = |number: u64| fields::is_time(number.to_string().as_bytes());
    fields::is_date(head.date.to_string().as_bytes()) && is_time(head.update) && (head.load == 0 || is_time(head.load))
}

/// A value fits if it isn't too large and no digit of it stands behind the unit's last decimal.
fn is_fit_value(millionths: u64, unit: Unit) -> bool {
    millionths < VALUE_LIMIT && millionths % unit.smallest_step() == 0
}

impl<'a> DayLists<'a> {
    fn shortest(&self) -> usize {
        let lengths = [
            self.values.len(),
            self.flags.len(),
            self.methods.len(),
            self.reasons.len(),
            self.starts.len(),
            self.lengths.len(),
        ];
        lengths.into_iter().min().unwrap_or(0)
    }

    /// The notes of the first n intervals, if a 400 may carry each of them.
    fn notes(&self, n: usize) -> Option<Vec<Note<'a>>> {
        (0..n).map(|index| self.note(index).filter(is_fit_note)).collect()
    }

    /// An interval's note, if its description lies inside the text.
    fn note(&self, index: usize) -> Option<Note<'a>> {
        Some(Note {
            quality: Quality { flag: self.flags[index], method: self.methods[index] },
            reason: self.reasons[index],
            description: part_of_text(self.text, self.starts[index], self.lengths[index])?,
            description_start: self.starts[index],
        })
    }
}

fn part_of_text(text: &[u8], start: usize, length: usize) -> Option<&[u8]> {
    if length == 0 {
        return Some(&[]);
    }
    text.get(start..start.checked_add(length)?)
}

fn is_fit_note(note: &Note) -> bool {
    is_fit_quality(note.quality)
        && (note.reason <= 999 || note.reason == NO_REASON)
        && is_fit_description(note.description)
        && note.keeps_rules_across()
}

/// A quality fits just when a 400 may have the field that writes it.
fn is_fit_quality(quality: Quality) -> bool {
    Rule::IntervalQuality.allows(&quality_field(quality))
}

fn is_fit_description(description: &[u8]) -> bool {
    description.len() <= LONGEST_DESCRIPTION
        && !fields::has_end_space(description)
        && description.iter().all(|byte| fields::is_file_byte(*byte) && *byte != b',')
}

// --- Records ---

/// Neighbouring intervals that all say the same, as many as there are.
struct Stretch<'a> {
    /// Number of the first interval, from 1.
    start: usize,
    end: usize,
    note: Note<'a>,
}

fn stretches<'a>(notes: &[Note<'a>]) -> Vec<Stretch<'a>> {
    let mut stretches: Vec<Stretch> = Vec::new();
    for (number, note) in (1..).zip(notes) {
        match stretches.last_mut() {
            Some(last) if last.note.says_same_as(note) => last.end = number,
            _ => stretches.push(Stretch { start: number, end: number, note: *note }),
        }
    }
    stretches
}

fn day_record(head: DayHead, values: &[u64], stretches: &[Stretch]) -> Vec<u8> {
    let mut record = vec![b"300".to_vec(), head.date.to_string().into_bytes()];
    record.extend(values.iter().map(|value| value_field(*value)));
    match stretches {
        [whole_day] => record.extend(note_fields(&whole_day.note)),
        _ => record.extend([b"V".to_vec(), Vec::new(), Vec::new()]),
    }
    record.push(head.update.to_string().into_bytes());
    record.push(if head.load == 0 { Vec::new() } else { head.load.to_string().into_bytes() });
    record_bytes(&record)
}

fn cover_record(stretch: &Stretch) -> Vec<u8> {
    let mut record = vec![b"400".to_vec()];
    record.push(stretch.start.to_string().into_bytes());
    record.push(stretch.end.to_string().into_bytes());
    record.extend(note_fields(&stretch.note));
    record_bytes(&record)
}

/// Quality, reason and description.
pub fn note_fields(note: &Note) -> [Vec<u8>; 3] {
    let reason = if note.reason == NO_REASON { Vec::new() } else { note.reason.to_string().into_bytes() };
    [quality_field(note.quality), reason, note.description.to_vec()]
}

/// The flag, and the method if there is one.
fn quality_field(quality: Quality) -> Vec<u8> {
    let mut field = vec![quality.flag];
    if quality.method != NO_METHOD {
        field.extend(format!("{:02}", quality.method).bytes());
    }
    field
}

/// A value without needless zeros, and without a point if nothing stands behind it.
pub fn value_field(millionths: u64) -> Vec<u8> {
    let whole = millionths / 1_000_000;
    let fraction = format!("{:06}", millionths % 1_000_000);
    let fraction = fraction.trim_end_matches('0');
    if fraction.is_empty() {
        whole.to_string().into_bytes()
    } else {
        format!("{whole}.{fraction}").into_bytes()
    }
}

/// Fields as a record: commas between them, CR LF behind.
pub fn record_bytes(fields: &[Vec<u8>]) -> Vec<u8> {
    let mut bytes = fields.join(&b',');
    bytes.extend(b"\r\n");
    bytes
}
