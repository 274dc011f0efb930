//! Records: where one ends, its fields, the kinds of record and the layout of each.

use crate::fields::{self, Rule};
use crate::notes::{Note, NO_REASON};
use crate::refusal::{Refusal, BYTE_OUTSIDE, NO_RECORD_END};

/// The kinds of record, named by their indicators.
#[derive(Clone, Copy, Debug, PartialEq, Eq)]
pub enum Kind {
    R100,
    R200,
    R300,
    R400,
    R500,
    R250,
    R550,
    R900,
}

/// The kind that an indicator names, if it names one.
pub fn kind_of(indicator: &[u8]) -> Option<Kind> {
    match indicator {
        b"100" => Some(Kind::R100),
        b"200" => Some(Kind::R200),
        b"300" => Some(Kind::R300),
        b"400" => Some(Kind::R400),
        b"500" => Some(Kind::R500),
        b"250" => Some(Kind::R250),
        b"550" => Some(Kind::R550),
        b"900" => Some(Kind::R900),
        _ => None,
    }
}

/// The rules of a record's fields in order. `n` counts the values of a 300 and means nothing to other kinds.
pub fn layout(kind: Kind, n: usize) -> Vec<Rule> {
    use Rule::*;
    match kind {
        Kind::R100 => vec![Indicator, Version, FileTime, Participant, Participant],
        Kind::R200 => {
            vec![Indicator, Nmi, Configuration, Register, Suffix, DataStream, Serial, Unit, IntervalLength, DateOrEmpty]
        }
        Kind::R300 => {
            let mut rules = vec![Indicator, Date];
            rules.extend(vec![Value; n]);
            rules.extend([DayQuality, Reason, Description, Time, TimeOrEmpty]);
            rules
        }
        Kind::R400 => vec![Indicator, IntervalNumber, IntervalNumber, IntervalQuality, Reason, Description],
        Kind::R500 => vec![Indicator, TransCode, ServiceOrder, ReadTime, ReadOrEmpty],
        Kind::R250 => {
            let mut rules = vec![Indicator, Nmi, Configuration, Register, Suffix, DataStream, Serial, Direction];
            for _previous_and_current in 0..2 {
                rules.extend([Read, Time, ReadQuality, Reason, Description]);
            }
            rules.extend([Value, Unit, DateOrEmpty, Time, TimeOrEmpty]);
            rules
        }
        Kind::R550 => vec![Indicator, TransCode, ServiceOrder, TransCode, ServiceOrder],
        Kind::R900 => vec![Indicator],
    }
}

/// The numbers of a layout's quality fields. Reason and description follow each of them.
pub fn quality_fields(rules: &[Rule]) -> Vec<usize> {
    let is_quality = |rule: &Rule| matches!(rule, Rule::DayQuality | Rule::IntervalQuality | Rule::ReadQuality);
    (1..=rules.len()).filter(|number| is_quality(&rules[number - 1])).collect()
}

#[derive(Clone, Copy, Debug)]
pub struct Field<'a> {
    /// Place of the field's first byte in the file, or of what follows it if it is empty.
    pub start: usize,
    pub bytes: &'a [u8],
}

#[derive(Clone, Debug)]
pub struct Record<'a> {
    pub start: usize,
    /// Place behind the record's CR LF.
    pub end: usize,
    pub number: usize,
    /// At least one, as bytes without a comma are one field, be there none of them.
    pub fields: Vec<Field<'a>>,
}

impl<'a> Record<'a> {
    /// The complete record that starts here, all its bytes being ones that may stand.
    pub fn read(file: &'a [u8], start: usize, number: usize) -> Result<Record<'a>, Refusal> {
        let refuse = |refusal, place| Refusal { number: refusal, place, record: number, field: 0 };
        let Some(length) = file[start..].windows(2).position(|pair| pair == b"\r\n") else {
            return Err(refuse(NO_RECORD_END, start));
        };
        let content = &file[start..start + length];
        if let Some(outside) = content.iter().position(|byte| !fields::is_file_byte(*byte)) {
            return Err(refuse(BYTE_OUTSIDE, start + outside));
        }
        Ok(Record { start, end: start + length + 2, number, fields: split_fields(content, start) })
    }

    /// The field with this number, counted from 1.
    pub fn field(&self, number: usize) -> Field<'a> {
        self.fields[number - 1]
    }

    pub fn bytes(&self, number: usize) -> &'a [u8] {
        self.field(number).bytes
    }

    /// The number that a field's digits write, 0 if it is empty.
    pub fn decimal(&self, number: usize) -> u64 {
        fields::decimal(self.bytes(number))
    }

    /// The millionths of the value in this field, which is known to keep its rule.
    pub fn value(&self, number: usize) -> u64 {
        fields::value(self.bytes(number)).expect("a value that keeps its rule")
    }

    /// The note whose quality field has this number. The three fields are known to keep their rules.
    pub fn note(&self, quality_field: usize) -> Note<'a> {
        let reason = self.bytes(quality_field + 1);
        let description = self.field(quality_field + 2);
        Note {
            quality: fields::quality(self.bytes(quality_field)).expect("a quality that keeps its rule"),
            reason: if reason.is_empty() { NO_REASON } else { fields::decimal(reason) as u16 },
            description: description.bytes,
            description_start: description.start,
        }
    }

    /// A refusal that means the record as a whole.
    pub fn refuse(&self, number: u64) -> Refusal {
        Refusal { number, place: self.start, record: self.number, field: 0 }
    }

    /// A refusal that means one field.
    pub fn refuse_field(&self, number: u64, field: usize) -> Refusal {
        Refusal { number, place: self.field(field).start, record: self.number, field }
    }
}

fn split_fields(content: &[u8], record_start: usize) -> Vec<Field<'_>> {
    let mut start = record_start;
    let mut fields = Vec::new();
    for bytes in content.split(|byte| *byte == b',') {
        fields.push(Field { start, bytes });
        start += bytes.len() + 1;
    }
    fields
}
