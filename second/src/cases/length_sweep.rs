//! The sweep of lengths: every text and every read with each length up to two steps of eight bytes and one byte more,
//! and descriptions and configurations with lengths around further steps. They stand in files that are accepted, many of
//! them in one; in files that are refused for one of them; and right before the end of a file or of a block on its own.

use super::chance::Chance;
use super::files::{self, rules_of, Channel, Draft, Row};
use super::sweep::{which, KINDS};
use super::words::{self, number_word, Word};
use super::{blocks, requests};
use crate::fields::{Rule, MOST_DECIMALS};
use crate::records::{layout, Kind};
use crate::units::Unit;
use std::ops::RangeInclusive;

// --- What is swept ---

const SHORT_LENGTHS: RangeInclusive<usize> = 0..=17;

/// Lengths around whole steps of eight, and around the longest that a description or a configuration may have.
const LONG_LENGTHS: [usize; 15] = [23, 24, 25, 31, 32, 33, 63, 64, 65, 199, 200, 201, 239, 240, 241];

/// Texts, and reads, which are like them: of all the fields of several lengths these can have many.
fn is_text(rule: Rule) -> bool {
    use Rule::*;
    matches!(rule, Participant | Configuration | Register | Serial | Description | ServiceOrder | Read | ReadOrEmpty)
}

/// A text in a record of this kind, and its number among the texts there, from 0.
#[derive(Clone, Copy)]
struct Text {
    kind: Kind,
    number: usize,
}

fn texts() -> Vec<Text> {
    let texts_of = |kind| (0..text_places(&layout(kind, 1)).len()).map(move |number| Text { kind, number });
    KINDS.into_iter().flat_map(texts_of).collect()
}

impl Text {
    /// Its place among the fields of a record of its kind, by their rules.
    fn place(self, rules: &[Rule]) -> usize {
        text_places(rules)[self.number]
    }

    fn rule(self) -> Rule {
        let rules = layout(self.kind, 1);
        rules[self.place(&rules)]
    }

    fn is_last_field(self) -> bool {
        let rules = layout(self.kind, 1);
        self.place(&rules) + 1 == rules.len()
    }
}

fn text_places(rules: &[Rule]) -> Vec<usize> {
    (0..rules.len()).filter(|place| is_text(rules[*place])).collect()
}

fn lengths_to_try(rule: Rule) -> Vec<usize> {
    let long = if matches!(rule, Rule::Configuration | Rule::Description) { &LONG_LENGTHS[..] } else { &[] };
    SHORT_LENGTHS.chain(long.iter().copied()).collect()
}

/// Whether the rule allows this length. Zeros are a text and a read alike.
fn is_allowed(rule: Rule, length: usize) -> bool {
    rule.allows(&vec![b'0'; length])
}

fn allowed_lengths(rule: Rule) -> Vec<usize> {
    lengths_to_try(rule).into_iter().filter(|length| is_allowed(rule, *length)).collect()
}

enum Target {
    /// An accepted file in which the texts of some kinds of record have every length that they may have, and from and
    /// to have these.
    Passed(Content, Behind, [usize; 2]),
    /// A file with a text of a length that its rule refuses.
    Refused(Text, usize),
    /// A file that ends behind a text of this length, with its comma or without, and behind that with these bytes.
    Cut { length: usize, has_comma: bool, end: &'static [u8] },
    /// A block that is accepted and ends with a text of this length, or with one and empty fields behind it.
    BlockEnd(usize),
}

/// What an accepted file has behind its header.
#[derive(Clone, Copy)]
enum Content {
    /// 250s and 550s.
    Accumulations,
    /// 200s of one day each, which isn't a V day.
    Channels,
    /// One V day with 400s and 500s, and values of every shape.
    CoveredDay,
}

/// What stands behind a text wherever that may be empty: nothing or something.
#[derive(Clone, Copy)]
enum Behind {
    Empty,
    Filled,
}

fn targets() -> Vec<Target> {
    let mut targets = Vec::new();
    let participants = allowed_lengths(Rule::Participant);
    for (turn, (from, to)) in participants.iter().zip(participants.iter().rev()).enumerate() {
        let content = [Content::Accumulations, Content::Channels, Content::CoveredDay][turn % 3];
        let behind = [Behind::Empty, Behind::Filled][turn % 2];
        targets.push(Target::Passed(content, behind, [*from, *to]));
    }
    for text in texts() {
        let refused = lengths_to_try(text.rule()).into_iter().filter(|length| !is_allowed(text.rule(), *length));
        targets.extend(refused.map(|length| Target::Refused(text, length)));
    }
    for length in SHORT_LENGTHS {
        for has_comma in [false, true] {
            targets.extend([&b""[..], b"\r", b"\r\n"].map(|end| Target::Cut { length, has_comma, end }));
        }
        targets.push(Target::BlockEnd(length));
    }
    targets
}

pub fn case(chance: &mut Chance, turn: u64) -> Vec<u8> {
    let targets = targets();
    match targets[which(turn, targets.len())] {
        Target::Passed(content, behind, participants) => {
            requests::for_accepted_file(&accepted_file(chance, content, behind, participants), chance)
        }
        Target::Refused(text, length) => requests::for_file(&refused_file(chance, text, length), chance),
        Target::Cut { length, has_comma, end } => requests::for_file(&cut_file(chance, length, has_comma, end), chance),
        Target::BlockEnd(length) => {
            let channel = channel_for_every_value(chance);
            blocks::case(channel, &block_that_ends_behind(chance, channel, length))
        }
    }
}

// --- Rows ---

/// Gives a text of a row this length. A description brings a quality and a reason that may stand with it.
fn put(chance: &mut Chance, row: &mut Row, place: usize, length: usize) {
    let rules = rules_of(row);
    let content = words::of_length(chance, rules[place], length);
    if rules[place] == Rule::Description {
        let note = words::note_with_description(chance, rules[place - 2], &content);
        row[place - 2..=place].clone_from_slice(&note.fields());
    } else {
        row[place] = content;
    }
}

/// As many rows as a text may have lengths, made so. Each text of theirs begins with some length and has the next one in
/// the next row, so that the lengths of neighbours go together by chance.
fn rows_of_every_length(chance: &mut Chance, behind: Behind, make: impl Fn(&mut Chance) -> Row) -> Vec<Row> {
    let count = allowed_lengths(Rule::Description).len();
    let mut rows: Vec<Row> = (0..count).map(|_| make(chance)).collect();
    let rules = rules_of(&rows[0]);
    for place in text_places(&rules) {
        let lengths = allowed_lengths(rules[place]);
        let first = chance.below(lengths.len());
        for (turn, row) in rows.iter_mut().enumerate() {
            put(chance, row, place, lengths[(first + turn) % lengths.len()]);
        }
    }
    rows.iter_mut().for_each(|row| set_behind_texts(chance, row, behind));
    rows
}

fn set_behind_texts(chance: &mut Chance, row: &mut Row, behind: Behind) {
    let rules = rules_of(row);
    for place in text_places(&rules).into_iter().map(|text| text + 1) {
        if !rules.get(place).is_some_and(|rule| rule.allows(b"")) {
            continue;
        }
        match behind {
            Behind::Empty => row[place].clear(),
            Behind::Filled => {
                while row[place].is_empty() {
                    row[place] = words::keeping(chance, rules[place]);
                }
            }
        }
    }
}

/// A channel under which a value may have any shape.
fn channel_for_every_value(chance: &mut Chance) -> Channel {
    let units: Vec<Unit> = Unit::all().filter(|unit| unit.decimals() == MOST_DECIMALS).collect();
    Channel::of(15, chance.pick(&units))
}

fn day_of_every_value(chance: &mut Chance, channel: Channel, date: u32, note: &[Word; 3]) -> Row {
    let mut day = files::day(chance, channel, date, note);
    day[2..channel.n + 2].clone_from_slice(&words::values_of_every_shape(chance, channel.n, MOST_DECIMALS));
    day
}

/// A 500 with a read time that belongs to the day of this date.
fn order(chance: &mut Chance, date: u32) -> Row {
    let mut order = files::row(chance, Kind::R500, 0);
    order[READ_TIME] = number_word(words::read_time(chance, date));
    order
}

/// The places of a 500's service order, read time and index read.
const SERVICE_ORDER: usize = 2;
const READ_TIME: usize = 3;
const INDEX_READ: usize = 4;

// --- Accepted files ---

fn accepted_file(chance: &mut Chance, content: Content, behind: Behind, participants: [usize; 2]) -> Vec<u8> {
    let (version, content) = match content {
        Content::Accumulations => (b"NEM13", accumulations(chance, behind)),
        Content::Channels => (b"NEM12", channels(chance, behind)),
        Content::CoveredDay => (b"NEM12", covered_day(chance, behind)),
    };
    let mut header = files::header(chance, version);
    let places = text_places(&rules_of(&header));
    for (place, length) in places.into_iter().zip(participants) {
        put(chance, &mut header, place, length);
    }
    let mut rows = vec![header];
    rows.extend(content);
    rows.push(files::row(chance, Kind::R900, 0));
    Draft { rows }.bytes()
}

fn accumulations(chance: &mut Chance, behind: Behind) -> Vec<Row> {
    let accumulations = rows_of_every_length(chance, behind, files::accumulation);
    let orders = rows_of_every_length(chance, behind, |chance| files::row(chance, Kind::R550, 0));
    one_under_each(accumulations, orders)
}

fn channels(chance: &mut Chance, behind: Behind) -> Vec<Row> {
    let channel = Channel::half_hours(chance);
    let heads = rows_of_every_length(chance, behind, |chance| files::channel_head(chance, channel));
    let days = rows_of_every_length(chance, behind, |chance| {
        let (date, note) = (words::date(chance), words::note(chance));
        files::day(chance, channel, date, &note.fields())
    });
    one_under_each(heads, days)
}

fn one_under_each(rows: Vec<Row>, under: Vec<Row>) -> Vec<Row> {
    rows.into_iter().zip(under).flat_map(|(row, under)| [row, under]).collect()
}

/// A 200 with one V day. That its 400s have descriptions of different lengths keeps it from being all alike.
fn covered_day(chance: &mut Chance, behind: Behind) -> Vec<Row> {
    let channel = channel_for_every_value(chance);
    let date = words::date(chance);
    let note = words::note(chance);
    let mut covers = rows_of_every_length(chance, behind, |_| files::cover_row(1, channel.n, &note));
    let count = covers.len();
    for (index, cover) in covers.iter_mut().enumerate() {
        cover[1] = number_word(index * channel.n / count + 1);
        cover[2] = number_word((index + 1) * channel.n / count);
    }
    let mut rows = vec![files::channel_head(chance, channel)];
    rows.push(day_of_every_value(chance, channel, date, &files::v_note()));
    rows.extend(covers);
    rows.extend(rows_of_every_length(chance, behind, |chance| order(chance, date)));
    rows
}

// --- Refused lengths ---

/// An accepted file that has a record of the text's kind, the place of one of these, and the place of the text in it.
fn file_with_text(chance: &mut Chance, text: Text) -> (Draft, usize, usize) {
    let draft = files::made_with(chance, &files::accepted, |draft| !draft.places_of(text.kind).is_empty());
    let place = chance.pick(&draft.places_of(text.kind));
    let field = text.place(&rules_of(&draft.rows[place]));
    (draft, place, field)
}

fn refused_file(chance: &mut Chance, text: Text, length: usize) -> Vec<u8> {
    let (mut draft, place, field) = file_with_text(chance, text);
    let row = &mut draft.rows[place];
    put(chance, row, field, length);
    // What stands behind it may then break its rule too, and is not the leftmost that does.
    if field + 1 < row.len() && chance.one_in(2) {
        row[field + 1].clear();
    }
    draft.bytes()
}

// --- Ends behind a text ---

/// A file whose last record is cut behind a text of this length. Where the record has its end, the text is the last of
/// its fields: then the record is complete without a comma and has a field too many with one.
fn cut_file(chance: &mut Chance, length: usize, has_comma: bool, end: &[u8]) -> Vec<u8> {
    let may_be_cut = |text: &Text| end != b"\r\n" || text.is_last_field();
    let texts: Vec<Text> = texts().into_iter().filter(may_be_cut).collect();
    let text = chance.pick(&texts);
    let (mut draft, place, field) = file_with_text(chance, text);
    draft.rows.truncate(place + 1);
    put(chance, &mut draft.rows[place], field, length);
    draft.rows[place].truncate(field + 1);
    let mut bytes = draft.bytes();
    bytes.truncate(bytes.len() - b"\r\n".len());
    if has_comma {
        bytes.push(b',');
    }
    bytes.extend(end);
    bytes
}

fn block_that_ends_behind(chance: &mut Chance, channel: Channel, length: usize) -> Vec<u8> {
    let may_be_in_order = is_allowed(Rule::ServiceOrder, length) && is_allowed(Rule::ReadOrEmpty, length);
    let rows = if !may_be_in_order || chance.one_in(3) {
        block_with_last_description(chance, channel, length)
    } else {
        block_with_last_order(chance, channel, length)
    };
    Draft { rows }.bytes()
}

/// A V day whose last 400 has a description of this length.
fn block_with_last_description(chance: &mut Chance, channel: Channel, length: usize) -> Vec<Row> {
    let date = words::date(chance);
    let description = words::of_length(chance, Rule::Description, length);
    let last = words::note_with_description(chance, Rule::IntervalQuality, &description);
    let first = words::other_note(chance, &last);
    let mut rows = vec![day_of_every_value(chance, channel, date, &files::v_note())];
    rows.extend(files::cover_with(chance, channel.n, &[first, last]));
    rows
}

/// A day and a 500 that has an index read of this length, or such a service order and nothing behind it.
fn block_with_last_order(chance: &mut Chance, channel: Channel, length: usize) -> Vec<Row> {
    let (date, note) = (words::date(chance), words::note(chance));
    let day = day_of_every_value(chance, channel, date, &note.fields());
    let mut order = order(chance, date);
    if chance.one_in(2) {
        put(chance, &mut order, INDEX_READ, length);
    } else {
        put(chance, &mut order, SERVICE_ORDER, length);
        order[READ_TIME..].fill(Vec::new());
    }
    vec![day, order]
}

#[cfg(test)]
mod tests {
    use super::*;
    use crate::block::check_block;
    use crate::cases::sweep::assert_swept;
    use crate::cases::LENGTHS_PER_ROUND;
    use crate::check::check;
    use crate::refusal::{FIELD_BREAKS_RULE, NO_RECORD_END, WRONG_FIELD_COUNT};

    #[test]
    fn a_run_of_5000_leaves_no_length_out() {
        assert_swept("lengths", targets().len(), LENGTHS_PER_ROUND);
    }

    #[test]
    fn each_is_answered_as_it_is_meant() {
        let number_for = |file: &[u8]| check(file).err().map(|refusal| refusal.number);
        for index in 0..20 {
            let chance = &mut Chance::for_case(5, index);
            for target in targets() {
                match target {
                    Target::Passed(content, behind, participants) => {
                        assert_eq!(number_for(&accepted_file(chance, content, behind, participants)), None);
                    }
                    Target::Refused(text, length) => {
                        assert_eq!(number_for(&refused_file(chance, text, length)), Some(FIELD_BREAKS_RULE));
                    }
                    Target::Cut { length, has_comma, end } => {
                        let number = number_for(&cut_file(chance, length, has_comma, end));
                        match (end, has_comma) {
                            (b"\r\n", true) => assert_eq!(number, Some(WRONG_FIELD_COUNT)),
                            (b"\r\n", false) => assert!(number.is_some()),
                            _ => assert_eq!(number, Some(NO_RECORD_END)),
                        }
                    }
                    Target::BlockEnd(length) => {
                        let channel = channel_for_every_value(chance);
                        let block = block_that_ends_behind(chance, channel, length);
                        assert!(check_block(&block, channel.minutes, channel.unit.number()).is_ok());
                    }
                }
            }
        }
    }
}
