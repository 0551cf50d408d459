//! The weighing card, the ticket printer and the rack that holds them.

use std::collections::VecDeque;

pub const LEVELS: usize = 15;
const SCALE_PLACES: usize = 512;
const PRINTER_PLACES: usize = 2048;

#[derive(Clone, Copy, Debug, PartialEq, Eq)]
pub enum Direction {
    /// From the card into memory.
    Gives,
    /// From memory into the card.
    Takes,
}

/// Gives 16-bit units.
pub struct Scale {
    waiting: VecDeque<u16>,
}

/// Takes 8-bit units.
pub struct Printer {
    taken: Vec<u8>,
}

pub enum Card {
    Scale(Scale),
    Printer(Printer),
}

impl Card {
    pub fn scale() -> Card {
        Card::Scale(Scale { waiting: VecDeque::with_capacity(SCALE_PLACES) })
    }

    pub fn printer() -> Card {
        Card::Printer(Printer { taken: Vec::with_capacity(PRINTER_PLACES) })
    }

    pub fn direction(&self) -> Direction {
        match self {
            Card::Scale(_) => Direction::Gives,
            Card::Printer(_) => Direction::Takes,
        }
    }

    pub fn wide(&self) -> bool {
        matches!(self, Card::Scale(_))
    }

    /// The request line. On both cards it is up exactly when the card can act, also after its last unit.
    pub fn requesting(&self) -> bool {
        match self {
            Card::Scale(scale) => !scale.waiting.is_empty(),
            Card::Printer(printer) => printer.taken.len() < PRINTER_PLACES,
        }
    }

    pub fn room(&self) -> usize {
        match self {
            Card::Scale(scale) => SCALE_PLACES - scale.waiting.len(),
            Card::Printer(printer) => PRINTER_PLACES - printer.taken.len(),
        }
    }

    /// The units queued, the oldest first.
    pub fn waiting(&self) -> Vec<u16> {
        match self {
            Card::Scale(scale) => scale.waiting.iter().copied().collect(),
            Card::Printer(_) => Vec::new(),
        }
    }

    pub fn taken(&self) -> &[u8] {
        match self {
            Card::Scale(_) => &[],
            Card::Printer(printer) => &printer.taken,
        }
    }

    /// Queues an arriving unit; false if the card does not accept it.
    pub fn arrive(&mut self, unit: u16) -> bool {
        match self {
            Card::Scale(scale) if scale.waiting.len() < SCALE_PLACES => {
                scale.waiting.push_back(unit);
                true
            }
            _ => false,
        }
    }

    /// The unit that `give` would hand over.
    pub fn oldest(&self) -> Option<u16> {
        match self {
            Card::Scale(scale) => scale.waiting.front().copied(),
            Card::Printer(_) => None,
        }
    }

    pub fn give(&mut self) -> Option<u16> {
        match self {
            Card::Scale(scale) => scale.waiting.pop_front(),
            Card::Printer(_) => None,
        }
    }

    /// Appends a unit to what the card took; a card that cannot take it stays as it is.
    pub fn take(&mut self, unit: u16) {
        if let (Card::Printer(printer), Ok(byte)) = (self, u8::try_from(unit)) {
            if printer.taken.len() < PRINTER_PLACES {
                printer.taken.push(byte);
            }
        }
    }
}

#[derive(Default)]
pub struct Rack {
    slots: [Option<Card>; LEVELS],
}

impl Rack {
    /// Binds a card to a level. Above 14, or behind another card, it is never seen.
    pub fn insert(&mut self, level: u8, card: Card) {
        if let Some(slot) = self.slots.get_mut(usize::from(level)) {
            slot.get_or_insert(card);
        }
    }

    pub fn card(&self, level: u8) -> Option<&Card> {
        self.slots.get(usize::from(level))?.as_ref()
    }

    pub fn card_mut(&mut self, level: u8) -> Option<&mut Card> {
        self.slots.get_mut(usize::from(level))?.as_mut()
    }

    pub fn requesting(&self, level: u8) -> bool {
        self.card(level).is_some_and(Card::requesting)
    }
}
