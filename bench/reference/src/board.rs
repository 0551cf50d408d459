//! The board: its ports and its ticks.

use crate::dma::Controller;
use crate::fault::{Fault, Refusal};
use crate::timer::{Timers, WatchdogRose};

/// The winner's number when no level wins.
pub const PROCESSOR: u8 = 15;

const ARBITRATION_MASKED: u8 = 0x40;
const CARRY_FAILED: u8 = 0x20;

pub struct Board {
    pub dma: Controller,
    pub timers: Timers,
    /// Bits 3-0 of port 0061.
    pub control: u8,
    /// Bits 7-5 of port 0090.
    pub arbitration: u8,
    /// The level that won last.
    pub winner: u8,
}

impl Board {
    pub fn power_on() -> Board {
        Board { dma: Controller::power_on(), timers: Timers::power_on(), control: 0, arbitration: 0, winner: PROCESSOR }
    }

    pub fn read_port(&mut self, port: u16) -> Result<u8, Fault> {
        let answer = match port {
            0x001A => self.dma.read_data(),
            0x0040 => self.timers.counter0.read(),
            0x0042 => self.timers.counter2.read(),
            0x0044 => self.timers.counter3.read(),
            0x0061 => Ok(self.control | u8::from(self.timers.counter2.out) << 5),
            0x0090 => Ok(self.arbitration | self.winner),
            0x0092 => Ok(u8::from(self.timers.counter3.out) << 4),
            _ => Err(Refusal::NoPort),
        };
        answer.map_err(|refusal| Fault::of_board(refusal, port))
    }

    pub fn write_port(&mut self, port: u16, byte: u8) -> Result<(), Fault> {
        let answer = match port {
            0x0018 => self.dma.write_function(byte),
            0x001A => self.dma.write_data(byte),
            0x0040 => self.timers.counter0.write(byte),
            0x0042 => self.timers.counter2.write(byte),
            0x0043 => self.timers.control(byte).map(|rose| self.watch(rose)),
            0x0044 => self.timers.counter3.write(byte),
            0x0047 => self.timers.control_watchdog(byte),
            0x0061 => {
                self.write_control(byte);
                Ok(())
            }
            0x0090 => {
                self.write_arbitration(byte);
                Ok(())
            }
            _ => Err(Refusal::NoPort),
        };
        answer.map_err(|refusal| Fault::of_board(refusal, port))
    }

    fn write_control(&mut self, byte: u8) {
        self.control = byte & 0x0F;
        self.timers.set_gate2(byte & 0x01 != 0);
        if byte & 0x80 != 0 {
            self.timers.latch = false;
        }
    }

    fn write_arbitration(&mut self, byte: u8) {
        let failed = self.arbitration & CARRY_FAILED;
        self.arbitration = byte & 0xC0;
        if byte & ARBITRATION_MASKED != 0 {
            self.arbitration |= failed;
        }
    }

    pub fn tick(&mut self) {
        let rose = self.timers.tick();
        self.watch(rose);
    }

    fn watch(&mut self, rose: WatchdogRose) {
        if rose.0 {
            self.arbitration |= ARBITRATION_MASKED;
        }
    }

    pub fn acknowledge(&mut self) {
        self.timers.latch = false;
    }

    pub fn arbitration_masked(&self) -> bool {
        self.arbitration & ARBITRATION_MASKED != 0
    }

    pub fn carry_failed(&mut self) {
        self.arbitration |= CARRY_FAILED | ARBITRATION_MASKED;
    }
}
