//! Journal lines, their words, and the look-up by address.

use crate::dma::ADDRESS_MASK;
use crate::fault::{Fault, Refusal};

const MOST_LINES: usize = 65_536;

#[derive(Clone, Copy, Debug, PartialEq, Eq)]
pub enum Kind {
    CardToMemory = 1,
    MemoryToCard = 2,
    Verify = 3,
    Store = 4,
}

#[derive(Clone, Copy, Debug, PartialEq, Eq)]
pub struct Line {
    pub kind: Kind,
    pub channel: u8,
    pub wide: bool,
    pub last: bool,
    pub level: u8,
    pub address: u32,
    pub unit: u16,
}

impl Line {
    pub fn store(address: u32, byte: u8) -> Line {
        Line { kind: Kind::Store, channel: 0, wide: false, last: false, level: 15, address, unit: byte.into() }
    }

    pub fn pack(&self) -> u64 {
        (self.kind as u64) << 60
            | u64::from(self.channel) << 57
            | u64::from(self.wide) << 56
            | u64::from(self.last) << 55
            | u64::from(self.level) << 51
            | u64::from(self.address) << 16
            | u64::from(self.unit)
    }

    /// The line a word holds, if it holds one.
    pub fn unpack(word: u64) -> Option<Line> {
        let kind = match word >> 60 {
            1 => Kind::CardToMemory,
            2 => Kind::MemoryToCard,
            3 => Kind::Verify,
            4 => Kind::Store,
            _ => return None,
        };
        let line = Line {
            kind,
            channel: (word >> 57 & 0x7) as u8,
            wide: word >> 56 & 1 == 1,
            last: word >> 55 & 1 == 1,
            level: (word >> 51 & 0xF) as u8,
            address: (word >> 16) as u32 & ADDRESS_MASK,
            unit: word as u16,
        };
        let zeros = word >> 40 & 0x7FF;
        (zeros == 0 && line.is_sound()).then_some(line)
    }

    fn is_sound(&self) -> bool {
        let fixed = match self.kind {
            Kind::CardToMemory | Kind::MemoryToCard => self.level <= 14,
            Kind::Verify => self.level <= 14 && self.unit == 0,
            Kind::Store => self.channel == 0 && !self.wide && !self.last && self.level == 15,
        };
        fixed && (self.wide || self.unit <= 0xFF)
    }

    /// Whether this line put a byte down at the address.
    fn wrote(&self, address: u32) -> bool {
        let into_memory = matches!(self.kind, Kind::CardToMemory | Kind::Store);
        let second = (self.address + 1) & ADDRESS_MASK;
        into_memory && (self.address == address || (self.wide && second == address))
    }
}

pub struct Journal {
    words: Vec<u64>,
    length: usize,
}

impl Journal {
    pub fn new(length: usize) -> Journal {
        Journal { words: Vec::with_capacity(length), length }
    }

    pub fn length(&self) -> usize {
        self.length
    }

    pub fn words(&self) -> &[u64] {
        &self.words
    }

    pub fn lines(&self) -> impl Iterator<Item = Line> + '_ {
        self.words.iter().filter_map(|&word| Line::unpack(word))
    }

    pub fn has_room(&self) -> bool {
        self.words.len() < self.length.min(MOST_LINES)
    }

    /// Puts a line down and gives its word.
    pub fn put(&mut self, line: &Line) -> u64 {
        let word = line.pack();
        self.words.push(word);
        word
    }

    /// The place of a line that wrote the address.
    pub fn find(&self, address: u32) -> Result<usize, Fault> {
        if address > ADDRESS_MASK {
            return Err(Fault::of_board(Refusal::OutOfRange, address));
        }
        self.words
            .iter()
            .position(|&word| word_wrote(word, address))
            .ok_or(Fault::of_board(Refusal::NeverWritten, address))
    }
}

/// Whether a word's line put a byte down at the address. Most lie elsewhere, so that is looked at first.
fn word_wrote(word: u64, address: u32) -> bool {
    let distance = address.wrapping_sub((word >> 16) as u32) & ADDRESS_MASK;
    distance <= 1 && Line::unpack(word).is_some_and(|line| line.wrote(address))
}
