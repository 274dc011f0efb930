//! Damage to accepted files and blocks: bytes, fields and records changed without an aim, or one record tangled in
//! several ways.

use super::chance::Chance;
use super::files::{self, rules_of, Draft, Make, Row};
use super::words;
use crate::records::{kind_of, quality_fields, Kind};

/// Bytes at the edges of what the rules tell apart.
const EDGE_BYTES: &[u8] = b"\x00\x09\x0a\x0d\x1f\x20\x21#+,-./09:@AEFINSVZ[`anz{~\x7f\x80\xa0\xff";

/// Bytes that may not stand in a record.
pub const BYTES_OUTSIDE: &[u8] = b"\x00\x09\x0a\x0b\x0d\x1a\x1f\x7f\x80\x85\xa0\xff";

/// A file or block with one to three damages.
pub fn damaged(chance: &mut Chance, make: Make) -> Vec<u8> {
    let mut draft = make(chance);
    let damages = chance.between(1, 3);
    let to_bytes = chance.below(damages + 1);
    for _ in to_bytes..damages {
        damage_draft(chance, &mut draft);
    }
    let mut bytes = draft.bytes();
    for _ in 0..to_bytes {
        damage_bytes(chance, &mut bytes);
    }
    bytes
}

// --- Fields and records ---

pub fn damage_draft(chance: &mut Chance, draft: &mut Draft) {
    if draft.rows.is_empty() {
        return;
    }
    let place = chance.below(draft.rows.len());
    if chance.one_in(3) {
        damage_rows(chance, draft, place);
    } else {
        damage_fields(chance, &mut draft.rows[place]);
    }
}

fn damage_rows(chance: &mut Chance, draft: &mut Draft, place: usize) {
    let rows = &mut draft.rows;
    match chance.below(6) {
        0 => {
            rows.remove(place);
        }
        1 => rows.insert(place, rows[place].clone()),
        2 => {
            let other = chance.below(rows.len());
            rows.swap(place, other);
        }
        3 => {
            let moved = rows.remove(place);
            let to = chance.below(rows.len() + 1);
            rows.insert(to, moved);
        }
        4 => {
            let to = chance.below(rows.len() + 1);
            rows.insert(to, rows[place].clone());
        }
        _ => rows.insert(place, any_row(chance)),
    }
}

/// A row of any kind that keeps the rules of its fields.
pub fn any_row(chance: &mut Chance) -> Row {
    use Kind::*;
    let kind = chance.pick(&[R100, R200, R300, R400, R500, R250, R550, R900]);
    files::row(chance, kind, 48)
}

fn damage_fields(chance: &mut Chance, row: &mut Row) {
    let place = telling_field(chance, row);
    match chance.below(10) {
        0 => {
            row.remove(place);
            if row.is_empty() {
                row.push(Vec::new());
            }
        }
        1 => row.insert(place, row[place].clone()),
        2 => {
            let other = chance.below(row.len());
            row.swap(place, other);
        }
        3 => row.push(Vec::new()),
        _ => change_field(chance, row, place),
    }
}

/// Gives a field another content that is interesting under its rule.
pub fn change_field(chance: &mut Chance, row: &mut Row, place: usize) {
    if let Some(rule) = rules_of(row).get(place) {
        row[place] = words::interesting(chance, *rule);
    }
}

/// The place of a field, those of a 300 being chosen so that its many values don't hide the others.
pub fn telling_field(chance: &mut Chance, row: &Row) -> usize {
    let fields = row.len();
    if fields > 30 && !chance.one_in(4) {
        return chance.pick(&[0, 1, 2, fields - 6, fields - 5, fields - 4, fields - 3, fields - 2, fields - 1]);
    }
    // The indicator less often than the others.
    if fields > 1 && !chance.one_in(8) {
        return chance.between(1, fields - 1);
    }
    chance.below(fields)
}

// --- Bytes ---

pub fn damage_bytes(chance: &mut Chance, bytes: &mut Vec<u8>) {
    if bytes.is_empty() {
        bytes.push(edge_byte(chance));
        return;
    }
    let place = chance.below(bytes.len());
    match chance.below(10) {
        0 | 1 => bytes[place] = edge_byte(chance),
        2 | 3 => bytes.insert(place, edge_byte(chance)),
        4 => {
            let end = bytes.len().min(place + chance.between(1, 4));
            bytes.drain(place..end);
        }
        5 => {
            let next = (place + 1).min(bytes.len() - 1);
            bytes.swap(place, next);
        }
        6 => damage_record_end(chance, bytes),
        7 => bytes.insert(place, chance.pick(b"\r\n")),
        8 if chance.one_in(2) => bytes.truncate(place),
        8 => {
            let keep = bytes.len() - bytes.len().min(chance.between(1, 8));
            bytes.truncate(keep);
        }
        _ => {
            for _ in 0..chance.between(1, 4) {
                bytes.push(edge_byte(chance));
            }
        }
    }
}

fn edge_byte(chance: &mut Chance) -> u8 {
    if chance.one_in(8) {
        chance.below(256) as u8
    } else {
        chance.pick(EDGE_BYTES)
    }
}

/// Takes a byte away from the end of a record, doubles one or swaps the two.
fn damage_record_end(chance: &mut Chance, bytes: &mut Vec<u8>) {
    let ends: Vec<usize> = (1..bytes.len()).filter(|place| bytes[place - 1..=*place] == *b"\r\n").collect();
    if ends.is_empty() {
        return;
    }
    let line_feed = chance.pick(&ends);
    match chance.below(5) {
        0 => {
            bytes.remove(line_feed);
        }
        1 => {
            bytes.remove(line_feed - 1);
        }
        2 => bytes.insert(line_feed - 1, b'\r'),
        3 => bytes.insert(line_feed, b'\n'),
        _ => bytes.swap(line_feed - 1, line_feed),
    }
}

// --- Several faults in one record ---

/// A file or block in one record of which several things are changed, so that the order of refusals counts.
pub fn tangled(chance: &mut Chance, make: Make) -> Vec<u8> {
    let mut draft = make(chance);
    let place = chance.below(draft.rows.len());
    tangle(chance, &mut draft, place);
    if chance.one_in(4) {
        damage_draft(chance, &mut draft);
    }
    draft.bytes()
}

fn tangle(chance: &mut Chance, draft: &mut Draft, place: usize) {
    let earlier_date = draft.date_before(place).cloned();
    let row = &mut draft.rows[place];
    let kind_before = kind_of(&row[0]);
    // Where all fields keep their rules, the later questions are reached.
    let keeping_rules = chance.one_in(2);
    for _ in 0..chance.between(2, 4) {
        let field = telling_field(chance, row);
        if !keeping_rules {
            change_field(chance, row, field);
        } else if field > 0 {
            row[field] = words::keeping(chance, rules_of(row)[field]);
        }
    }
    if chance.one_in(3) {
        break_rules_across(chance, row);
    }
    if let (Some(Kind::R300), Some(date)) = (kind_before, earlier_date) {
        if chance.one_in(2) {
            row[1] = date;
        }
    }
    if chance.one_in(8) {
        row.push(Vec::new());
    }
    if chance.one_in(12) {
        let field = chance.below(row.len());
        let byte = chance.pick(BYTES_OUTSIDE);
        row[field].push(byte);
    }
}

/// Breaks a rule across fields in one of the row's notes, if it has any.
pub fn break_rules_across(chance: &mut Chance, row: &mut Row) {
    let rules = rules_of(row);
    let qualities = quality_fields(&rules);
    if qualities.is_empty() || rules.len() != row.len() {
        return;
    }
    let quality = chance.pick(&qualities) - 1;
    let note = words::note_against_rules(chance, rules[quality]);
    row[quality..quality + 3].clone_from_slice(&note.fields());
}
