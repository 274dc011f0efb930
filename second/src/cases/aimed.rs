//! Files and blocks aimed at one refusal that their content can earn. Some have a further damage, which may be met
//! earlier.

use super::chance::Chance;
use super::damage;
use super::files::{self, rules_of, Draft, Make, Row};
use super::words::{self, number_word, Word};
use crate::fields::decimal;
use crate::records::{kind_of, Kind};

pub fn bytes_for(chance: &mut Chance, make: Make, aim: u64) -> Vec<u8> {
    let mut bytes = match aim {
        2 => no_record_end(chance, make),
        3 => byte_outside(chance, make),
        13 => bytes_after_end(chance, make),
        _ => {
            let mut draft = draft_for(chance, make, aim);
            if chance.one_in(6) {
                damage::damage_draft(chance, &mut draft);
            }
            draft.bytes()
        }
    };
    if chance.one_in(10) {
        damage::damage_bytes(chance, &mut bytes);
    }
    bytes
}

fn draft_for(chance: &mut Chance, make: Make, aim: u64) -> Draft {
    match aim {
        4 => record_out_of_place(chance, make),
        5 => wrong_field_count(chance, make),
        6 => field_breaks_rule(chance, make),
        7 => rule_across_broken(chance, make),
        8 => date_not_later(chance, make),
        9 => cover_broken(chance, make),
        10 => cover_incomplete(chance, make),
        11 => day_all_alike(chance, make),
        12 => read_outside_day(chance, make),
        _ => unreachable!("no content is aimed at refusal {aim}"),
    }
}

// --- Bytes: refusals 2, 3 and 13 ---

fn no_record_end(chance: &mut Chance, make: Make) -> Vec<u8> {
    let mut draft = make(chance);
    match chance.below(6) {
        0 => {
            draft.rows.pop();
            draft.bytes()
        }
        1 => draft.bytes().into_iter().filter(|byte| *byte != b'\r').collect(),
        2 => draft.bytes().into_iter().filter(|byte| *byte != b'\n').collect(),
        3 => Vec::new(),
        _ => {
            let mut bytes = draft.bytes();
            let near_end = chance.between(1, 12);
            let keep = if chance.one_in(2) { bytes.len() - near_end } else { chance.below(bytes.len()) };
            bytes.truncate(keep);
            bytes
        }
    }
}

fn byte_outside(chance: &mut Chance, make: Make) -> Vec<u8> {
    let mut bytes = make(chance).bytes();
    for _ in 0..chance.between(1, 2) {
        let place = chance.below(bytes.len() - 1);
        let byte = chance.pick(damage::BYTES_OUTSIDE);
        if chance.one_in(2) {
            bytes.insert(place, byte);
        } else {
            bytes[place] = byte;
        }
    }
    bytes
}

fn bytes_after_end(chance: &mut Chance, make: Make) -> Vec<u8> {
    let mut bytes = make(chance).bytes();
    match chance.below(8) {
        0 => bytes.extend(b"\r\n"),
        1 => bytes.extend(b"900\r\n"),
        2 => bytes.push(b'\n'),
        3 => bytes.push(b' '),
        4 => bytes.extend(make(chance).bytes()),
        5 => bytes.extend(b"no record end"),
        6 => bytes.push(0),
        _ => bytes.push(chance.below(256) as u8),
    }
    bytes
}

// --- Records and fields: refusals 4, 5, 6 and 7 ---

fn record_out_of_place(chance: &mut Chance, make: Make) -> Draft {
    let mut draft = make(chance);
    let place = chance.below(draft.rows.len());
    match chance.below(6) {
        0 => draft.rows[place][0] = words::breaking_indicator(chance),
        1 => draft.rows[place] = vec![words::breaking_indicator(chance)],
        2 => {
            draft.rows.remove(0);
        }
        3 => draft.rows.insert(place, vec![b"900".to_vec()]),
        4 => put_cover_behind_order(chance, &mut draft),
        _ => draft.rows.insert(place, damage::any_row(chance)),
    }
    draft
}

/// A 400 where the day has a 500 already, or where the day is no V day.
fn put_cover_behind_order(chance: &mut Chance, draft: &mut Draft) {
    let note = words::note(chance);
    let orders = draft.places_of(Kind::R500);
    let days = draft.places_of(Kind::R300);
    let place = match (orders.is_empty(), days.is_empty()) {
        (false, _) => chance.pick(&orders) + 1,
        (true, false) => chance.pick(&days) + 1,
        (true, true) => 1,
    };
    draft.rows.insert(place, files::cover_row(1, 48, &note));
}

fn wrong_field_count(chance: &mut Chance, make: Make) -> Draft {
    let mut draft = make(chance);
    let place = some_row(chance, &draft, |_| true);
    let row = &mut draft.rows[place];
    match chance.below(5) {
        0 => row.push(Vec::new()),
        1 => row.truncate(1),
        2 if row.len() > 1 => {
            row.pop();
        }
        3 if row.len() > 1 => {
            let field = chance.between(1, row.len() - 1);
            row.remove(field);
        }
        _ => {
            let field = chance.between(1, row.len());
            row.insert(field, b"1".to_vec());
        }
    }
    draft
}

fn field_breaks_rule(chance: &mut Chance, make: Make) -> Draft {
    let mut draft = make(chance);
    // A 900 has no field but its indicator.
    let place = some_row(chance, &draft, |row| row.len() > 1);
    let row = &mut draft.rows[place];
    for _ in 0..chance.between(1, 2) {
        let field = damage::telling_field(chance, row).max(1);
        row[field] = words::breaking(chance, rules_of(row)[field]);
    }
    draft
}

/// The place of a row that is wanted, each kind of record there being as likely as each other.
fn some_row(chance: &mut Chance, draft: &Draft, wanted: impl Fn(&Row) -> bool) -> usize {
    use Kind::*;
    let is_wanted = |place: &usize| wanted(&draft.rows[*place]);
    let places_by_kind: Vec<Vec<usize>> = [R100, R200, R300, R400, R500, R250, R550, R900]
        .into_iter()
        .map(|kind| draft.places_of(kind).into_iter().filter(is_wanted).collect())
        .filter(|places: &Vec<usize>| !places.is_empty())
        .collect();
    let kind = chance.below(places_by_kind.len());
    chance.pick(&places_by_kind[kind])
}

fn rule_across_broken(chance: &mut Chance, make: Make) -> Draft {
    let has_note = |row: &Row| matches!(kind_of(&row[0]), Some(Kind::R300 | Kind::R400 | Kind::R250));
    let mut draft = make(chance);
    let places: Vec<usize> = (0..draft.rows.len()).filter(|place| has_note(&draft.rows[*place])).collect();
    let place = chance.pick(&places);
    for _ in 0..chance.between(1, 2) {
        damage::break_rules_across(chance, &mut draft.rows[place]);
    }
    draft
}

// --- Days: refusals 8 to 12 ---

/// The place of a day that another day of the same 200 stands before, and the place of that one.
fn day_and_day_before(draft: &Draft) -> Option<(usize, usize)> {
    let days = draft.places_of(Kind::R300);
    let channels = draft.places_of(Kind::R200);
    let together = |pair: &&[usize]| !channels.iter().any(|channel| (pair[0]..pair[1]).contains(channel));
    days.windows(2).find(together).map(|pair| (pair[1], pair[0]))
}

fn date_not_later(chance: &mut Chance, make: Make) -> Draft {
    let mut draft = files::made_with(chance, make, |draft| day_and_day_before(draft).is_some());
    if let Some((day, before)) = day_and_day_before(&draft) {
        let date_before = draft.rows[before][1].clone();
        let other_date = number_word(words::date(chance));
        // Dates have equal lengths, and so their bytes are ordered as they are.
        draft.rows[day][1] = if chance.one_in(3) { date_before } else { date_before.min(other_date) };
        if chance.one_in(6) {
            damage::break_rules_across(chance, &mut draft.rows[day]);
        }
    }
    draft
}

fn made_with_cover(chance: &mut Chance, make: Make) -> Draft {
    files::made_with(chance, make, |draft| !draft.places_of(Kind::R400).is_empty())
}

/// The places of the 400s of one V day, from the first up to behind the last, and the day's n.
fn some_cover(chance: &mut Chance, draft: &Draft) -> (usize, usize, usize) {
    let first_of_cover = |place: &usize| draft.rows[place - 1][0] == b"300";
    let firsts: Vec<usize> = draft.places_of(Kind::R400).into_iter().filter(first_of_cover).collect();
    let first = chance.pick(&firsts);
    let length = draft.rows[first..].iter().take_while(|row| row[0] == b"400").count();
    (first, first + length, draft.rows[first - 1].len() - 7)
}

fn cover_broken(chance: &mut Chance, make: Make) -> Draft {
    let mut draft = made_with_cover(chance, make);
    let (first, behind, n) = some_cover(chance, &draft);
    if chance.one_in(4) {
        draft.rows.insert(behind, further_cover(chance, n));
        return draft;
    }
    let place = chance.between(first, behind - 1);
    let field = chance.between(1, 2);
    let row = &mut draft.rows[place];
    row[field] = near_interval(chance, &row[field], n);
    if chance.one_in(8) {
        damage::break_rules_across(chance, row);
    }
    draft
}

/// A 400 behind a complete cover.
fn further_cover(chance: &mut Chance, n: usize) -> Row {
    let (start, end) = chance.pick(&[(1, n), (n + 1, n + 1), (n, n), (n + 1, n), (n + 1, 2 * n), (0, 0)]);
    let note = words::note(chance);
    let mut row = files::cover_row(start, end, &note);
    if chance.one_in(4) {
        damage::break_rules_across(chance, &mut row);
    }
    if chance.one_in(4) {
        damage::change_field(chance, &mut row, 3);
    }
    if chance.one_in(6) {
        row.pop();
    }
    row
}

/// Another interval number: near to the one that stands there, or at an edge of some day.
fn near_interval(chance: &mut Chance, from: &[u8], n: usize) -> Word {
    let from = decimal(from) as usize;
    let numbers = [from + 1, from.saturating_sub(1), 0, 1, n, n + 1, 48, 49, 96, 97, 288, 289, 9999];
    loop {
        let number = chance.pick(&numbers);
        if number != from {
            return number_word(number);
        }
    }
}

fn cover_incomplete(chance: &mut Chance, make: Make) -> Draft {
    let mut draft = made_with_cover(chance, make);
    let (first, behind, _) = some_cover(chance, &draft);
    let cut = chance.between(first, behind - 1);
    draft.rows.drain(cut..behind);
    match chance.below(4) {
        0 => draft.rows.insert(cut, damage::any_row(chance)),
        1 => draft.rows.insert(cut, vec![words::breaking_indicator(chance)]),
        _ => (),
    }
    draft
}

fn day_all_alike(chance: &mut Chance, make: Make) -> Draft {
    let mut draft = made_with_cover(chance, make);
    let (first, behind, n) = some_cover(chance, &draft);
    let cover = files::cover_all_alike(chance, n);
    draft.rows.splice(first..behind, cover);
    draft
}

fn read_outside_day(chance: &mut Chance, make: Make) -> Draft {
    let mut draft = files::made_with(chance, make, |draft| !draft.places_of(Kind::R500).is_empty());
    let orders = draft.places_of(Kind::R500);
    let place = chance.pick(&orders);
    let date = decimal(draft.date_before(place).expect("500s stand under a day")) as u32;
    draft.rows[place][3] = number_word(words::read_time_outside(chance, date));
    draft
}
