//! The DMA controller: channels, function byte, byte pointer and status.

use crate::cards::Direction;
use crate::fault::Refusal;

pub const CHANNELS: usize = 8;
pub const ADDRESS_MASK: u32 = 0xFF_FFFF;
const HIGHEST_LEVEL: u8 = 14;

/// The mode byte; only bits 6, 3 and 2 are ever set.
#[derive(Clone, Copy, Debug, Default, PartialEq, Eq)]
pub struct Mode(u8);

impl Mode {
    const WIDE: u8 = 0x40;
    const INTO_MEMORY: u8 = 0x08;
    const REAL: u8 = 0x04;

    fn from_byte(byte: u8) -> Result<Mode, Refusal> {
        if byte & !(Mode::WIDE | Mode::INTO_MEMORY | Mode::REAL) != 0 {
            return Err(Refusal::BadByte);
        }
        Ok(Mode(byte))
    }

    pub fn byte(self) -> u8 {
        self.0
    }

    pub fn wide(self) -> bool {
        self.0 & Mode::WIDE != 0
    }

    pub fn real(self) -> bool {
        self.0 & Mode::REAL != 0
    }

    pub fn direction(self) -> Direction {
        if self.0 & Mode::INTO_MEMORY != 0 {
            Direction::Gives
        } else {
            Direction::Takes
        }
    }
}

#[derive(Clone, Copy, Debug)]
pub struct Channel {
    pub address: u32,
    pub count: u16,
    pub io: u16,
    pub mode: Mode,
    pub masked: bool,
    pub level: u8,
}

impl Channel {
    fn at_level(level: u8) -> Channel {
        Channel { address: 0, count: 0, io: 0, mode: Mode::default(), masked: true, level }
    }

    /// Moves the registers behind a carried unit; true if that unit was the last.
    pub fn advance(&mut self) -> bool {
        let last = self.count == 0;
        let step = if self.mode.wide() { 2 } else { 1 };
        self.address = (self.address + step) & ADDRESS_MASK;
        self.count = self.count.wrapping_sub(1);
        self.masked |= last;
        last
    }
}

/// What a function byte selects for port 001A.
enum Command {
    Io,
    AddressIn,
    AddressOut,
    CountIn,
    CountOut,
    Status,
    Mode,
    Level,
    Mask,
    Unmask,
    MasterClear,
}

/// Splits a function byte; nothing for the unlisted ones.
fn decode(function: u8) -> Option<(Command, usize)> {
    let channel = usize::from(function & 0x07);
    if function & 0x08 != 0 {
        return None;
    }
    let command = match function >> 4 {
        0x0 => Command::Io,
        0x2 => Command::AddressIn,
        0x3 => Command::AddressOut,
        0x4 => Command::CountIn,
        0x5 => Command::CountOut,
        0x6 => Command::Status,
        0x7 => Command::Mode,
        0x8 if channel % 4 == 0 => Command::Level,
        0x9 => Command::Mask,
        0xA => Command::Unmask,
        0xD => Command::MasterClear,
        _ => return None,
    };
    Some((command, channel))
}

pub struct Controller {
    pub channels: [Channel; CHANNELS],
    pub function: u8,
    pub pointer: u8,
    pub status: [u8; 2],
}

impl Controller {
    pub fn power_on() -> Controller {
        Controller {
            channels: std::array::from_fn(|number| Channel::at_level(number as u8)),
            function: 0,
            pointer: 0,
            status: [0; 2],
        }
    }

    pub fn write_function(&mut self, byte: u8) -> Result<(), Refusal> {
        let (command, channel) = decode(byte).ok_or(Refusal::BadByte)?;
        self.function = byte;
        self.pointer = 0;
        match command {
            Command::Mask => self.channels[channel].masked = true,
            Command::Unmask => self.channels[channel].masked = false,
            Command::MasterClear => self.master_clear(),
            _ => {}
        }
        Ok(())
    }

    fn master_clear(&mut self) {
        for channel in &mut self.channels {
            channel.masked = true;
        }
        self.status = [0; 2];
        self.function = 0;
        self.pointer = 0;
    }

    pub fn write_data(&mut self, byte: u8) -> Result<(), Refusal> {
        let (command, number) = decode(self.function).ok_or(Refusal::OutOfTurn)?;
        let at = self.pointer;
        let channel = &mut self.channels[number];
        let bytes = match command {
            Command::Io => {
                channel.io = with_byte(channel.io.into(), at, byte) as u16;
                2
            }
            Command::AddressIn => {
                channel.address = with_byte(channel.address, at, byte);
                3
            }
            Command::CountIn => {
                channel.count = with_byte(channel.count.into(), at, byte) as u16;
                2
            }
            Command::Mode => {
                channel.mode = Mode::from_byte(byte)?;
                1
            }
            Command::Level if byte > HIGHEST_LEVEL => return Err(Refusal::BadByte),
            Command::Level => {
                channel.level = byte;
                1
            }
            _ => return Err(Refusal::OutOfTurn),
        };
        self.step_pointer(bytes);
        Ok(())
    }

    pub fn read_data(&mut self) -> Result<u8, Refusal> {
        let (command, number) = decode(self.function).ok_or(Refusal::OutOfTurn)?;
        let channel = &self.channels[number];
        let (register, bytes) = match command {
            Command::Io => (channel.io.into(), 2),
            Command::AddressOut => (channel.address, 3),
            Command::CountOut => (channel.count.into(), 2),
            Command::Status => (std::mem::take(&mut self.status[number / 4]).into(), 1),
            Command::Mode => (channel.mode.byte().into(), 1),
            Command::Level => (channel.level.into(), 1),
            _ => return Err(Refusal::OutOfTurn),
        };
        let byte = register.to_le_bytes()[usize::from(self.pointer)];
        self.step_pointer(bytes);
        Ok(byte)
    }

    /// Goes on to the register's next byte, or back to its first behind the top one.
    fn step_pointer(&mut self, bytes: u8) {
        self.pointer = (self.pointer + 1) % bytes;
    }

    /// Notes which channels' levels are requesting and tells who serves: the lowest level with an open channel,
    /// and there the lowest channel.
    pub fn arbitrate(&mut self, requesting: impl Fn(u8) -> bool) -> Option<usize> {
        let mut winner: Option<usize> = None;
        for (number, channel) in self.channels.iter().enumerate() {
            if !requesting(channel.level) {
                continue;
            }
            self.status[number / 4] |= 0x10 << (number % 4);
            let better = winner.is_none_or(|best| channel.level < self.channels[best].level);
            if !channel.masked && better {
                winner = Some(number);
            }
        }
        winner
    }

    /// Moves a channel behind a carried unit; true if that unit was the last.
    pub fn unit_carried(&mut self, number: usize) -> bool {
        let last = self.channels[number].advance();
        if last {
            self.status[number / 4] |= 0x01 << (number % 4);
        }
        last
    }
}

fn with_byte(register: u32, at: u8, byte: u8) -> u32 {
    let mut bytes = register.to_le_bytes();
    bytes[usize::from(at)] = byte;
    u32::from_le_bytes(bytes)
}
