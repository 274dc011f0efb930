//! A sequence in the making: its cases, and the memory as they leave it.

use super::chance::Chance;
use super::requests;
use std::iter;

#[derive(Default)]
pub struct Scene {
    pub memory: Vec<u8>,
    pub cases: Vec<Vec<u8>>,
}

impl Scene {
    /// A scene that begins with this memory.
    pub fn on(memory: Vec<u8>) -> Scene {
        let mut scene = Scene::default();
        scene.lend(memory);
        scene
    }

    pub fn lend(&mut self, memory: Vec<u8>) {
        self.cases.push(requests::case("memory", &memory));
        self.memory = memory;
    }

    pub fn bytes(&mut self) {
        self.cases.push(b"bytes\n\n".to_vec());
    }

    /// The cases, at whose end the bytes are asked for.
    pub fn end(mut self) -> Vec<Vec<u8>> {
        if self.cases.last().is_none_or(|last| last != b"bytes\n\n") {
            self.bytes();
        }
        self.cases
    }
}

/// So many bytes, any ones, all alike or such as stand in blocks.
pub fn background(chance: &mut Chance, length: usize) -> Vec<u8> {
    match chance.below(5) {
        0 => vec![chance.pick(b"\x00\xff\xa5 "); length],
        1 => b"300,20030501,1,A,,\r\n500,S,,,\r\n".iter().copied().cycle().take(length).collect(),
        _ => iter::repeat_with(|| chance.below(256) as u8).take(length).collect(),
    }
}
