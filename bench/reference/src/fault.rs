//! Refusals: which one, at which place, by which layer.

use std::fmt;

#[derive(Clone, Copy, Debug, PartialEq, Eq)]
pub enum Refusal {
    NoPort = 1,
    BadByte = 2,
    OutOfTurn = 3,
    CountOfOne = 4,
    NoMemory = 5,
    WriteProtected = 6,
    JournalFull = 7,
    UnfitCard = 8,
    NotAccepted = 9,
    OutOfRange = 10,
    NeverWritten = 11,
}

#[derive(Clone, Copy, Debug, PartialEq, Eq)]
pub struct Fault {
    pub refusal: Refusal,
    pub place: u32,
    pub layer: u8,
}

impl Fault {
    /// A refusal by the board itself.
    pub fn of_board(refusal: Refusal, place: impl Into<u32>) -> Fault {
        Fault { refusal, place: place.into(), layer: 0 }
    }

    /// A refusal by the memory the board was given.
    pub fn of_memory(refusal: Refusal, place: u32) -> Fault {
        Fault { refusal, place, layer: 1 }
    }

    /// The same refusal seen through one more memory.
    pub fn one_layer_down(self) -> Fault {
        Fault { layer: self.layer.saturating_add(1), ..self }
    }
}

impl fmt::Display for Fault {
    fn fmt(&self, f: &mut fmt::Formatter) -> fmt::Result {
        write!(f, "refused {} place {:08X} layer {}", self.refusal as u8, self.place, self.layer)
    }
}
