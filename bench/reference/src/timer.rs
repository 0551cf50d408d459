//! Counters 0, 2 and 3 and the interrupt latch.

use crate::fault::Refusal;

#[derive(Clone, Copy, Debug, PartialEq, Eq)]
pub enum Mode {
    /// Mode 0: OUT rises once.
    Once,
    /// Mode 2: OUT falls for one clock in each round.
    Rate,
    /// Mode 3: OUT is high for one half of each round.
    Square,
}

impl Mode {
    pub fn number(self) -> u8 {
        match self {
            Mode::Once => 0,
            Mode::Rate => 2,
            Mode::Square => 3,
        }
    }
}

#[derive(Clone, Copy, Debug, PartialEq, Eq)]
pub enum Access {
    Low = 1,
    High = 2,
    Both = 3,
}

/// What a counter holds from its control byte on.
#[derive(Clone, Debug)]
pub struct Setup {
    pub mode: Mode,
    pub access: Access,
    /// The present count.
    pub standing: u32,
    /// The latest complete count.
    count: Option<u32>,
    /// The next clock loads, whatever the gate.
    load_due: bool,
    /// The gate has risen, and the next clock under it reloads.
    reload_due: bool,
    /// The count loaded last was odd.
    odd: bool,
    half_written: Option<u8>,
    high_read_next: bool,
}

impl Setup {
    fn new(mode: Mode, access: Access) -> Setup {
        Setup {
            mode,
            access,
            standing: 0,
            count: None,
            load_due: false,
            reload_due: false,
            odd: false,
            half_written: None,
            high_read_next: false,
        }
    }

    /// The count that this byte completes, or nothing if it is the first of two.
    fn completed_by(&self, byte: u8) -> Option<u16> {
        match self.access {
            Access::Low => Some(u16::from_le_bytes([byte, 0])),
            Access::High => Some(u16::from_le_bytes([0, byte])),
            Access::Both => self.half_written.map(|low| u16::from_le_bytes([low, byte])),
        }
    }

    fn accept(&mut self, count: u32) {
        self.load_due |= self.mode == Mode::Once || self.count.is_none();
        self.count = Some(count);
        self.half_written = None;
    }

    fn load(&mut self, count: u32) {
        self.load_due = false;
        self.reload_due = false;
        self.odd = count % 2 == 1;
        self.standing = if self.mode == Mode::Square { count & !1 } else { count };
    }
}

#[derive(Clone, Debug)]
pub struct Counter {
    pub out: bool,
    pub setup: Option<Setup>,
    /// What a count of zero stands for.
    largest: u32,
}

impl Counter {
    fn new(out: bool, largest: u32) -> Counter {
        Counter { out, setup: None, largest }
    }

    fn set_up(&mut self, mode: Mode, access: Access) {
        self.setup = Some(Setup::new(mode, access));
        self.out = mode != Mode::Once;
    }

    pub fn write(&mut self, byte: u8) -> Result<(), Refusal> {
        let setup = self.setup.as_mut().ok_or(Refusal::OutOfTurn)?;
        match setup.completed_by(byte) {
            Some(1) if setup.mode != Mode::Once => return Err(Refusal::CountOfOne),
            Some(0) => setup.accept(self.largest),
            Some(count) => setup.accept(count.into()),
            None => setup.half_written = Some(byte),
        }
        if setup.mode == Mode::Once {
            self.out = false;
        }
        Ok(())
    }

    pub fn read(&mut self) -> Result<u8, Refusal> {
        let setup = self.setup.as_mut().ok_or(Refusal::OutOfTurn)?;
        let [low, high, ..] = setup.standing.to_le_bytes();
        let byte = match setup.access {
            Access::Low => low,
            Access::High => high,
            Access::Both if setup.high_read_next => high,
            Access::Both => low,
        };
        setup.high_read_next = setup.access == Access::Both && !setup.high_read_next;
        Ok(byte)
    }

    fn clock(&mut self, gate: bool) {
        let Some(setup) = &mut self.setup else { return };
        let Some(count) = setup.count else { return };
        if setup.load_due || (setup.reload_due && gate) {
            setup.load(count);
            return;
        }
        if !gate {
            return;
        }
        match setup.mode {
            Mode::Once => clock_once(setup, &mut self.out, self.largest),
            Mode::Rate => clock_rate(setup, &mut self.out, count),
            Mode::Square => clock_square(setup, &mut self.out, count),
        }
    }

    fn gate_moved(&mut self, up: bool) {
        let Some(setup) = &mut self.setup else { return };
        if setup.mode == Mode::Once {
            return;
        }
        if up {
            setup.reload_due = true;
        } else {
            self.out = true;
        }
    }
}

fn clock_once(setup: &mut Setup, out: &mut bool, largest: u32) {
    if setup.half_written.is_some() {
        return;
    }
    setup.standing = match setup.standing {
        0 => largest - 1,
        standing => standing - 1,
    };
    if setup.standing == 0 {
        *out = true;
    }
}

fn clock_rate(setup: &mut Setup, out: &mut bool, count: u32) {
    if setup.standing == 1 {
        setup.load(count);
        *out = true;
    } else {
        setup.standing -= 1;
        *out = setup.standing != 1;
    }
}

fn clock_square(setup: &mut Setup, out: &mut bool, count: u32) {
    if setup.standing > 2 {
        setup.standing -= 2;
    } else if setup.standing == 2 && setup.odd && *out {
        setup.standing = 0;
    } else {
        *out = !*out;
        setup.load(count);
    }
}

/// The counters with the latch and the gate between them.
#[derive(Clone, Debug)]
pub struct Timers {
    pub counter0: Counter,
    pub counter2: Counter,
    pub counter3: Counter,
    /// The latch of interrupt 0.
    pub latch: bool,
    gate2: bool,
}

/// Whether OUT 3 rose.
#[must_use]
#[derive(Clone, Copy, Debug, PartialEq, Eq)]
pub struct WatchdogRose(pub bool);

impl Timers {
    pub fn power_on() -> Timers {
        Timers {
            counter0: Counter::new(true, 65_536),
            counter2: Counter::new(true, 65_536),
            counter3: Counter::new(false, 256),
            latch: false,
            gate2: false,
        }
    }

    pub fn tick(&mut self) -> WatchdogRose {
        let before = self.counter0.out;
        self.counter0.clock(true);
        self.counter2.clock(self.gate2);
        self.after_counter0(before)
    }

    /// Port 0043.
    pub fn control(&mut self, byte: u8) -> Result<WatchdogRose, Refusal> {
        let access = match byte >> 4 & 0x03 {
            1 => Access::Low,
            2 => Access::High,
            3 => Access::Both,
            _ => return Err(Refusal::BadByte),
        };
        let mode = match byte & 0x0F {
            0x0 => Mode::Once,
            0x4 => Mode::Rate,
            0x6 => Mode::Square,
            _ => return Err(Refusal::BadByte),
        };
        let before = self.counter0.out;
        match byte >> 6 {
            0 => self.counter0.set_up(mode, access),
            2 => self.counter2.set_up(mode, access),
            _ => return Err(Refusal::BadByte),
        }
        Ok(self.after_counter0(before))
    }

    /// Port 0047.
    pub fn control_watchdog(&mut self, byte: u8) -> Result<(), Refusal> {
        if byte != 0x10 {
            return Err(Refusal::BadByte);
        }
        self.counter3.set_up(Mode::Once, Access::Low);
        Ok(())
    }

    pub fn set_gate2(&mut self, gate: bool) {
        if gate != self.gate2 {
            self.gate2 = gate;
            self.counter2.gate_moved(gate);
        }
    }

    /// A rise of OUT 0 clocks counter 3 under the latch and then sets the latch.
    fn after_counter0(&mut self, before: bool) -> WatchdogRose {
        if before || !self.counter0.out {
            return WatchdogRose(false);
        }
        let low = !self.counter3.out;
        self.counter3.clock(self.latch);
        self.latch = true;
        WatchdogRose(low && self.counter3.out)
    }
}
