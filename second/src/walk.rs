//! The walk from record to record: the order in which they may come, all that one is refused for, and what they hold.

use crate::fields::{self, Rule, MOST_DECIMALS};
use crate::notes::Note;
use crate::records::{kind_of, layout, quality_fields, Kind, Record};
use crate::refusal::{
    Refusal, COVER_BROKEN, COVER_INCOMPLETE, DATE_NOT_LATER, DAY_ALL_ALIKE, FIELD_BREAKS_RULE, NO_SUCH_NUMBER,
    READ_OUTSIDE_DAY, RECORD_OUT_OF_PLACE, RULE_ACROSS_BROKEN, WRONG_FIELD_COUNT,
};
use crate::units::Unit;

/// What an accepted file holds. A block on its own counts as one day of one channel.
pub struct MeterFile<'a> {
    /// 12 or 13.
    pub version: u64,
    pub channels: Vec<Channel<'a>>,
    pub days: Vec<Day<'a>>,
}

impl<'a> MeterFile<'a> {
    /// The day with this number, counted from 0.
    pub fn day(&self, number: usize) -> Result<&Day<'a>, Refusal> {
        self.days.get(number).ok_or(Refusal::without_place(NO_SUCH_NUMBER))
    }
}

pub struct Channel<'a> {
    /// The 200 or 250 that it begins with. A block on its own has none before it.
    pub record: Option<Record<'a>>,
    /// Millionths: the values of all its days, or its quantity. Wide enough never to overflow.
    pub total: u128,
}

impl<'a> Channel<'a> {
    /// The record that a file's channel begins with.
    pub fn head(&self) -> &Record<'a> {
        self.record.as_ref().expect("a file's channels begin with a record")
    }
}

pub struct Day<'a> {
    /// Number of its channel, from 0.
    pub channel: usize,
    /// Where its block starts.
    pub start: usize,
    /// Where its block ends: behind the CR LF of its last record, be it a 500.
    pub end: usize,
    pub date: u32,
    /// Its channel's.
    pub unit: Unit,
    pub update: u64,
    /// 0 if none.
    pub load: u64,
    pub values: Vec<u64>,
    /// One for each value.
    pub notes: Vec<Note<'a>>,
}

impl Day<'_> {
    /// What its values add up to: no more than 288 of them, each below 10^13.
    pub fn sum(&self) -> u64 {
        self.values.iter().sum()
    }
}

/// Where in the order of records the walk stands.
#[derive(Clone, Copy, Debug, PartialEq, Eq)]
enum Place {
    AtStart,
    AfterHeader12,
    AfterHeader13,
    /// Behind a 200 that has no day yet.
    AfterChannel,
    /// In a V day whose 400s don't reach the last interval yet.
    InCover,
    /// In a V day whose 400s reach the last interval, no 500 read yet.
    AfterCover,
    /// In a day that takes no 400: not a V day, or behind a 500.
    InDay,
    /// Behind a 250.
    After250,
    /// Behind the one 550 of a 250.
    After550,
    AfterEnd,
}

impl Place {
    fn allows(self, kind: Kind) -> bool {
        use Kind::*;
        match self {
            Place::AtStart => kind == R100,
            Place::AfterHeader12 => kind == R200,
            Place::AfterHeader13 => kind == R250,
            Place::AfterChannel => kind == R300,
            Place::InCover => kind == R400,
            // A further 400 is looked at like any other, and breaks the cover rule.
            Place::AfterCover => matches!(kind, R200 | R300 | R400 | R500 | R900),
            Place::InDay => matches!(kind, R200 | R300 | R500 | R900),
            Place::After250 => matches!(kind, R250 | R550 | R900),
            Place::After550 => matches!(kind, R250 | R900),
            Place::AfterEnd => false,
        }
    }
}

pub struct Walk<'a> {
    /// Where the next record starts.
    pub start: usize,
    /// The records taken so far.
    pub records: usize,
    place: Place,
    /// Intervals in a day of the current 200.
    n: usize,
    /// The unit of the current 200, if there is one.
    unit: Option<Unit>,
    /// Date of the last day in the current 200.
    last_date: Option<u32>,
    /// The interval at which the next 400 has to start.
    next_interval: usize,
    /// Whether a block on its own is walked over: one 300 and what stands under it.
    over_block: bool,
    pub content: MeterFile<'a>,
}

impl<'a> Walk<'a> {
    pub fn at_start_of_file() -> Walk<'a> {
        Walk {
            start: 0,
            records: 0,
            place: Place::AtStart,
            n: 0,
            unit: None,
            last_date: None,
            next_interval: 1,
            over_block: false,
            content: MeterFile { version: 0, channels: Vec::new(), days: Vec::new() },
        }
    }

    /// At the start of a block on its own, as if behind a 200 whose days have n intervals of this unit.
    pub fn at_start_of_block(n: usize, unit: Unit) -> Walk<'a> {
        let mut walk = Walk::at_start_of_file();
        walk.enter_channel(None, n, unit);
        walk.over_block = true;
        walk
    }

    /// Whether the walk stands in a V day whose 400s don't reach the last interval yet.
    pub fn is_in_open_cover(&self) -> bool {
        self.place == Place::InCover
    }

    /// Whether the 900 was taken.
    pub fn is_at_end_of_file(&self) -> bool {
        self.place == Place::AfterEnd
    }

    /// Reads the next record of these bytes and takes it.
    pub fn step(&mut self, bytes: &'a [u8]) -> Result<(), Refusal> {
        let record = Record::read(bytes, self.start, self.records)?;
        self.take(&record)?;
        self.start = record.end;
        self.records += 1;
        Ok(())
    }

    /// Takes one record. The questions stand in the order in which they are asked.
    fn take(&mut self, record: &Record<'a>) -> Result<(), Refusal> {
        let kind = self.kind_here(record)?;
        self.look_at_fields(kind, record)?;
        match kind {
            Kind::R100 => self.take_header(record),
            Kind::R200 => self.take_channel(record),
            Kind::R300 => return self.take_day(record),
            Kind::R400 => return self.take_cover(record),
            Kind::R500 => return self.take_order(record),
            Kind::R250 => self.take_accumulation(record),
            Kind::R550 => self.place = Place::After550,
            Kind::R900 => self.place = Place::AfterEnd,
        }
        Ok(())
    }

    /// Refusals 10 and 4.
    fn kind_here(&self, record: &Record) -> Result<Kind, Refusal> {
        let kind = kind_of(record.bytes(1));
        if self.is_in_open_cover() && kind != Some(Kind::R400) {
            return Err(record.refuse(COVER_INCOMPLETE));
        }
        match kind {
            Some(kind) if self.may_come(kind) => Ok(kind),
            _ => Err(record.refuse(RECORD_OUT_OF_PLACE)),
        }
    }

    /// Whether the order of records lets this kind come next. Nothing leaves the one day of a block on its own.
    fn may_come(&self, kind: Kind) -> bool {
        let stays_in_day = matches!(kind, Kind::R400 | Kind::R500);
        let may_leave_day = !self.over_block || self.content.days.is_empty();
        self.place.allows(kind) && (stays_in_day || may_leave_day)
    }

    /// Refusals 5, 6 and 7.
    fn look_at_fields(&self, kind: Kind, record: &Record) -> Result<(), Refusal> {
        let rules = layout(kind, self.n);
        if record.fields.len() != rules.len() {
            return Err(record.refuse(WRONG_FIELD_COUNT));
        }
        let most_decimals = self.most_decimals(kind, record);
        for (index, rule) in rules.iter().enumerate() {
            let field = record.fields[index].bytes;
            let has_too_many_decimals = *rule == Rule::Value && fields::decimals_of(field) > most_decimals;
            if !rule.allows(field) || has_too_many_decimals {
                return Err(record.refuse_field(FIELD_BREAKS_RULE, index + 1));
            }
        }
        for quality in quality_fields(&rules) {
            if !record.note(quality).keeps_rules_across() {
                return Err(record.refuse_field(RULE_ACROSS_BROKEN, quality));
            }
        }
        Ok(())
    }

    /// The decimals that the unit of a record's values allows. Where no unit is known, only every value's limit holds.
    fn most_decimals(&self, kind: Kind, record: &Record) -> usize {
        let unit = if kind == Kind::R250 { Unit::named(record.bytes(20)) } else { self.unit };
        unit.map_or(MOST_DECIMALS, Unit::decimals)
    }

    fn take_header(&mut self, record: &Record) {
        if record.bytes(2) == b"NEM12" {
            self.content.version = 12;
            self.place = Place::AfterHeader12;
        } else {
            self.content.version = 13;
            self.place = Place::AfterHeader13;
        }
    }

    fn take_channel(&mut self, record: &Record<'a>) {
        let unit = Unit::named(record.bytes(8)).expect("a unit that keeps its rule");
        let n = fields::intervals_for_field(record.bytes(9)).expect("an interval length that keeps its rule");
        self.enter_channel(Some(record.clone()), n, unit);
    }

    fn enter_channel(&mut self, record: Option<Record<'a>>, n: usize, unit: Unit) {
        self.n = n;
        self.unit = Some(unit);
        self.last_date = None;
        self.content.channels.push(Channel { record, total: 0 });
        self.place = Place::AfterChannel;
    }

    fn take_day(&mut self, record: &Record<'a>) -> Result<(), Refusal> {
        let date = record.decimal(2) as u32;
        if self.last_date.is_some_and(|last| date <= last) {
            return Err(record.refuse_field(DATE_NOT_LATER, 2));
        }
        let n = self.n;
        let values: Vec<u64> = (3..n + 3).map(|number| record.value(number)).collect();
        let note = record.note(n + 3);
        let unit = self.unit.expect("days stand under a channel");
        self.channel().total += values.iter().map(|value| u128::from(*value)).sum::<u128>();
        self.content.days.push(Day {
            channel: self.content.channels.len() - 1,
            start: record.start,
            end: record.end,
            date,
            unit,
            update: record.decimal(n + 6),
            load: record.decimal(n + 7),
            values,
            // On a V day these only hold the places, till the 400s have filled every one of them.
            notes: vec![note; n],
        });
        self.last_date = Some(date);
        self.next_interval = 1;
        self.place = if note.quality.flag == b'V' { Place::InCover } else { Place::InDay };
        Ok(())
    }

    fn take_cover(&mut self, record: &Record<'a>) -> Result<(), Refusal> {
        let (start, end) = (record.decimal(2) as usize, record.decimal(3) as usize);
        if start != self.next_interval || end < start || end > self.n {
            return Err(record.refuse_field(COVER_BROKEN, 2));
        }
        self.day().notes[start - 1..end].fill(record.note(4));
        self.day().end = record.end;
        self.next_interval = end + 1;
        if end == self.n {
            if all_say_same(&self.day().notes) {
                return Err(record.refuse(DAY_ALL_ALIKE));
            }
            self.place = Place::AfterCover;
        }
        Ok(())
    }

    fn take_order(&mut self, record: &Record) -> Result<(), Refusal> {
        let read_time = record.decimal(4);
        if read_time != 0 && !fields::belongs_to_day(read_time, self.day().date) {
            return Err(record.refuse_field(READ_OUTSIDE_DAY, 4));
        }
        self.day().end = record.end;
        self.place = Place::InDay;
        Ok(())
    }

    fn take_accumulation(&mut self, record: &Record<'a>) {
        self.content.channels.push(Channel { record: Some(record.clone()), total: u128::from(record.value(19)) });
        self.place = Place::After250;
    }

    fn channel(&mut self) -> &mut Channel<'a> {
        self.content.channels.last_mut().expect("days stand under a channel")
    }

    fn day(&mut self) -> &mut Day<'a> {
        self.content.days.last_mut().expect("400s and 500s stand under a day")
    }
}

fn all_say_same(notes: &[Note]) -> bool {
    notes.iter().all(|note| note.says_same_as(&notes[0]))
}
