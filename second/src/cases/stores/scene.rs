//! The calls on a store, as cases of a scene and on its memory.

use super::super::chance::Chance;
use super::super::keys::ToldKey;
use super::super::scene::Scene;
use super::super::writes::Draft;
use crate::refusal::Refusal;
use crate::store::reading::{read_store, Store};
use crate::store::{delete_day, make_store, put_day};
use crate::write::DayHead;

/// Behind calls on longer memories the bytes are asked for less often.
const SHORT_MEMORY: usize = 2_500;

impl Scene {
    /// The store that the memory is then, if it is one.
    pub fn store(&self) -> Option<Store<'_>> {
        read_store(&self.memory).ok()
    }

    pub fn make(&mut self, chance: &mut Chance, slots: u32) {
        self.cases.push(format!("make {slots}\n\n").into_bytes());
        let answer = make_store(&mut self.memory, slots);
        self.bytes_behind(chance, answer);
    }

    pub fn put(&mut self, chance: &mut Chance, key: &ToldKey, day: &Draft) {
        let head = DayHead { date: key.date, ..day.head };
        let DayHead { date, length, update, load, unit } = head;
        let line = format!("put {} {date} {length} {update} {load} {unit}{}\n", key.lengths(), day.counts());
        let parts = [line.as_bytes(), &key.nmi, &key.suffix, b"\n", &day.lists_and_text(), b"\n"];
        self.cases.push(parts.concat());
        let answer = put_day(&mut self.memory, &key.nmi, &key.suffix, head, day.lists());
        self.bytes_behind(chance, answer);
    }

    pub fn get(&mut self, key: &ToldKey, places: usize) {
        let line = format!("get {} {} {places}\n", key.lengths(), key.date);
        self.cases.push([line.as_bytes(), &key.nmi, &key.suffix, b"\n"].concat());
    }

    pub fn delete(&mut self, chance: &mut Chance, key: &ToldKey) {
        let line = format!("delete {} {}\n", key.lengths(), key.date);
        self.cases.push([line.as_bytes(), &key.nmi, &key.suffix, b"\n"].concat());
        let answer = delete_day(&mut self.memory, &key.nmi, &key.suffix, key.date);
        self.bytes_behind(chance, answer);
    }

    pub fn slot(&mut self, slot: usize) {
        self.cases.push(format!("slot {slot}\n\n").into_bytes());
    }

    /// Asks for the bytes behind a call that may change them: mostly if it did and they are few.
    fn bytes_behind(&mut self, chance: &mut Chance, answer: Result<usize, Refusal>) {
        let is_asked = match answer {
            Ok(_) if self.memory.len() <= SHORT_MEMORY => true,
            _ => self.memory.len() <= 4 * SHORT_MEMORY && chance.one_in(5),
        };
        if is_asked {
            self.bytes();
        }
    }
}
