//! The calls on a tenant map, as cases of a scene and on its memory.

use super::super::chance::Chance;
use super::super::scene::Scene;
use super::versions::Told;
use crate::refusal::Refusal;
use crate::tenants::layout::Version;
use crate::tenants::{add_version, back_to, make_map, read_map};

impl Scene {
    /// The versions of the map that the memory is then. What is no map has none.
    pub fn versions(&self) -> Vec<Version> {
        read_map(&self.memory).unwrap_or_default()
    }

    pub fn make_map(&mut self, chance: &mut Chance) {
        self.cases.push(b"makemap\n\n".to_vec());
        let answer = make_map(&mut self.memory);
        self.bytes_by_chance(chance, answer);
    }

    pub fn add(&mut self, chance: &mut Chance, told: &Told) {
        let Told { first, keys, shares } = told;
        let line = format!("add {first} {} {}\n", keys.len(), shares.len());
        self.cases.push([line.as_bytes(), &told.keys_and_shares(), b"\n"].concat());
        let answer = add_version(&mut self.memory, *first, keys, shares);
        self.bytes_by_chance(chance, answer);
    }

    pub fn back(&mut self, chance: &mut Chance, version: usize, first: u32) {
        self.cases.push(format!("back {version} {first}\n\n").into_bytes());
        let answer = back_to(&mut self.memory, version, first);
        self.bytes_by_chance(chance, answer);
    }

    /// Asks for the map on a date, with room for so many bytes of keys and so many shares.
    pub fn ask(&mut self, date: u32, key_bytes: usize, shares: usize) {
        self.cases.push(format!("on {date} {key_bytes} {shares}\n\n").into_bytes());
    }

    /// Asks for the bytes behind few of the calls that may change them, as they are many.
    fn bytes_by_chance(&mut self, chance: &mut Chance, answer: Result<usize, Refusal>) {
        if chance.one_in(if answer.is_ok() { 60 } else { 600 }) {
            self.bytes();
        }
    }
}
