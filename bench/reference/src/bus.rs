//! The bus: what passes between the board, the memory, the rack and the journal.

use crate::board::{Board, PROCESSOR};
use crate::cards::{Direction, Rack, LEVELS};
use crate::dma::{Channel, ADDRESS_MASK};
use crate::fault::{Fault, Refusal};
use crate::journal::{Journal, Kind, Line};
use crate::memory::Memory;

pub struct Bus<M> {
    pub board: Board,
    pub memory: M,
    pub rack: Rack,
    pub journal: Journal,
}

/// Who won the bus. Nothing can be called before the carry, so the channel stays as arbitration saw it.
pub struct Grant {
    pub level: u8,
    channel: Option<usize>,
}

impl<M: Memory> Bus<M> {
    pub fn power_on(memory: M, rack: Rack, journal: Journal) -> Bus<M> {
        Bus { board: Board::power_on(), memory, rack, journal }
    }

    pub fn reset(&mut self) {
        self.board = Board::power_on();
    }

    pub fn arrive(&mut self, level: u8, unit: u16) -> Result<(), Fault> {
        if usize::from(level) >= LEVELS {
            return Err(Fault::of_board(Refusal::OutOfRange, level));
        }
        let accepted = self.rack.card_mut(level).is_some_and(|card| card.arrive(unit));
        if accepted {
            Ok(())
        } else {
            Err(Fault::of_board(Refusal::NotAccepted, level))
        }
    }

    pub fn load(&self, address: u32) -> Result<u8, Fault> {
        check_address(address)?;
        self.memory.read(address)
    }

    pub fn store(&mut self, address: u32, byte: u8) -> Result<(), Fault> {
        check_address(address)?;
        if !self.journal.has_room() {
            return Err(Fault::of_board(Refusal::JournalFull, address));
        }
        self.memory.write(address, byte)?;
        self.journal.put(&Line::store(address, byte));
        Ok(())
    }

    pub fn grant(&mut self) -> Grant {
        let channel = if self.board.arbitration_masked() {
            None
        } else {
            self.board.dma.arbitrate(|level| self.rack.requesting(level))
        };
        let level = channel.map_or(PROCESSOR, |number| self.board.dma.channels[number].level);
        self.board.winner = level;
        Grant { level, channel }
    }

    /// The word of the line put down, or nothing if the processor had won.
    pub fn carry(&mut self, grant: Grant) -> Result<Option<u64>, Fault> {
        let Some(number) = grant.channel else { return Ok(None) };
        if !self.journal.has_room() {
            return Err(Fault::of_board(Refusal::JournalFull, grant.level));
        }
        let channel = self.board.dma.channels[number];
        let (kind, unit) = self.move_unit(&channel).inspect_err(|_| self.board.carry_failed())?;
        let last = self.board.dma.unit_carried(number);
        let line = Line {
            kind,
            channel: number as u8,
            wide: channel.mode.wide(),
            last,
            level: grant.level,
            address: channel.address,
            unit,
        };
        Ok(Some(self.journal.put(&line)))
    }

    /// Moves the channel's next unit, or only looks at its road when verifying.
    fn move_unit(&mut self, channel: &Channel) -> Result<(Kind, u16), Fault> {
        let unfit = Fault::of_board(Refusal::UnfitCard, channel.level);
        let card = self.rack.card_mut(channel.level).ok_or(unfit)?;
        let direction = channel.mode.direction();
        let wide = channel.mode.wide();
        if card.direction() != direction || card.wide() != wide {
            return Err(unfit);
        }
        if !channel.mode.real() {
            read_unit(&self.memory, channel.address, wide)?;
            return Ok((Kind::Verify, 0));
        }
        match direction {
            Direction::Gives => {
                let unit = card.oldest().ok_or(unfit)?;
                write_unit(&mut self.memory, channel.address, wide, unit)?;
                card.give();
                Ok((Kind::CardToMemory, unit))
            }
            Direction::Takes => {
                if card.room() == 0 {
                    return Err(unfit);
                }
                let unit = read_unit(&self.memory, channel.address, wide)?;
                card.take(unit);
                Ok((Kind::MemoryToCard, unit))
            }
        }
    }
}

fn check_address(address: u32) -> Result<(), Fault> {
    if address > ADDRESS_MASK {
        return Err(Fault::of_board(Refusal::OutOfRange, address));
    }
    Ok(())
}

fn next(address: u32) -> u32 {
    (address + 1) & ADDRESS_MASK
}

fn read_unit(memory: &impl Memory, address: u32, wide: bool) -> Result<u16, Fault> {
    let low = memory.read(address)?;
    let high = if wide { memory.read(next(address))? } else { 0 };
    Ok(u16::from_le_bytes([low, high]))
}

/// Writes both bytes or none.
fn write_unit(memory: &mut impl Memory, address: u32, wide: bool, unit: u16) -> Result<(), Fault> {
    let [low, high] = unit.to_le_bytes();
    if wide {
        memory.check_write(address)?;
        memory.write(next(address), high)?;
    }
    memory.write(address, low)
}
