//! The splits, as cases of a scene.

use super::super::keys::ToldKey;
use super::super::requests;
use super::super::scene::Scene;
use super::boards::Task;

impl Scene {
    pub fn split(&mut self, task: &Task) {
        let Task { total, channel, board, parts } = task;
        let (key_bytes, shares) = (board.keys.len(), board.shares.len());
        let line = format!("split {total} {} {key_bytes} {shares} {parts}\n", channel.lengths());
        let told = [line.as_bytes(), &channel.nmi, &channel.suffix, &board.keys_and_shares(), b"\n"];
        self.cases.push(told.concat());
    }

    /// Splits a day of the file by the memory, with room for so many parts.
    pub fn split_day(&mut self, day: usize, parts: usize, file: &[u8]) {
        self.cases.push(requests::case(&format!("splitday {day} {parts}"), file));
    }

    /// Splits the day of this key, if the memory holds one, by the map, with room for so many parts.
    pub fn split_stored(&mut self, key: &ToldKey, parts: usize, map: &[u8]) {
        let line = format!("splitstored {} {} {parts} {}\n", key.lengths(), key.date, map.len());
        self.cases.push([line.as_bytes(), &key.nmi, &key.suffix, map, b"\n"].concat());
    }
}
