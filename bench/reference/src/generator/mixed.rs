//! Scripts for testing the rules: everything at random, leaning towards edges and towards things that happen.

use super::random::Random;

const LENGTHS: [u32; 12] = [0, 1, 3, 30, 256, 257, 4096, 65_534, 65_535, 65_536, 65_537, 100_000];
const JOURNALS: [u32; 10] = [0, 1, 5, 20, 40, 60, 100, 300, 4096, 65_536];
const FIRST: u32 = 0;
const TOP: u32 = 0xFF_FFFF;

/// A command of the controller with the number of its register's bytes.
const COMMANDS: [(u8, u32); 11] =
    [(0x0, 2), (0x2, 3), (0x3, 3), (0x4, 2), (0x5, 2), (0x6, 1), (0x7, 1), (0x8, 1), (0x9, 1), (0xA, 1), (0xD, 2)];

struct Mixed {
    random: Random,
    text: String,
    entries: usize,
    memory: u32,
    /// Where the protected range begins and ends.
    fence: [u32; 2],
    scales: Vec<u32>,
    printers: Vec<u32>,
    /// The addresses last used, for look-ups.
    used: [u32; 8],
}

/// A rig and so many entries, or a few more.
pub fn script(random: Random, count: usize) -> String {
    let mut mixed = Mixed {
        random,
        text: String::new(),
        entries: 0,
        memory: 65_536,
        fence: [0, 0],
        scales: Vec::new(),
        printers: Vec::new(),
        used: [0; 8],
    };
    mixed.rig();
    mixed.entries = 0;
    while mixed.entries < count {
        mixed.some_entries();
    }
    for view in ["state", "lines"] {
        mixed.line(view.to_string());
    }
    mixed.text
}

impl Mixed {
    fn line(&mut self, line: String) {
        self.text.push_str(&line);
        self.text.push('\n');
        self.entries += 1;
    }

    fn rig(&mut self) {
        let mut entries = Vec::new();
        if !self.random.one_in(4) {
            self.memory = self.memory_length();
            entries.push(format!("memory {}", self.memory));
        }
        if self.random.one_in(2) {
            self.fence = [self.address(), self.address()];
            if self.random.one_in(2) {
                self.fence[1] = self.fence[0].saturating_add(self.random.below(600));
            }
            entries.push(format!("protect {:06X} {:X}", self.fence[0], self.fence[1]));
        }
        for _ in 0..self.random.pick(&[0, 1, 1, 1, 2, 2]) {
            let level = self.card_level();
            self.scales.push(level);
            entries.push(format!("scale {level}"));
        }
        if !self.random.one_in(3) {
            let level = self.card_level();
            self.printers.push(level);
            entries.push(format!("printer {level}"));
        }
        if !self.random.one_in(4) {
            entries.push(format!("journal {}", self.random.pick(&JOURNALS)));
        }
        self.random.shuffle(&mut entries);
        for entry in entries {
            self.line(entry);
        }
    }

    fn memory_length(&mut self) -> u32 {
        match self.random.below(40) {
            0..=2 => self.random.pick(&[TOP, TOP + 1, TOP + 1]),
            3..=9 => self.random.below(70_000),
            _ => self.random.pick(&LENGTHS),
        }
    }

    /// A level for a card: mostly one where a channel sits from the start, now and then one that is taken.
    fn card_level(&mut self) -> u32 {
        let taken: Vec<u32> = self.scales.iter().chain(&self.printers).copied().collect();
        match self.random.below(12) {
            0..=2 if !taken.is_empty() => self.random.pick(&taken),
            0 => self.random.pick(&[15, 16, 255]),
            1..=3 => self.random.between(8, 14),
            _ => self.random.below(8),
        }
    }

    /// A level for a call: mostly one that was given a card.
    fn call_level(&mut self) -> u32 {
        let bound: Vec<u32> = self.scales.iter().chain(&self.scales).chain(&self.printers).copied().collect();
        match self.random.below(10) {
            0 => self.random.pick(&[0, 13, 14, 15, 16, 255]),
            1 => self.random.below(16),
            _ if bound.is_empty() => self.random.below(16),
            _ => self.random.pick(&bound),
        }
    }

    /// An address, mostly near an edge.
    fn address(&mut self) -> u32 {
        let edges = [FIRST, self.memory, self.memory, TOP + 1, self.fence[0], self.fence[1]];
        let edge = self.random.pick(&edges);
        let address = match self.random.below(16) {
            0..=5 if self.memory > TOP => TOP,
            0 => self.random.below(TOP + 1),
            1 | 2 => self.random.below(self.memory.max(1)),
            3 => self.random.pick(&[TOP, TOP + 1, TOP + 2, 0x0100_0100, 0x7FFF_FFFF, 0xFFFF_FFFF]),
            4..=9 => self.random.below(16),
            _ => edge.wrapping_add(self.random.below(8)).saturating_sub(5),
        };
        let place = self.random.below(8) as usize;
        self.used[place] = address;
        address
    }

    fn out(&mut self, port: u32, byte: u32) {
        let line = match self.random.below(16) {
            0 => format!("out {port:x} {byte:x}"),
            1 => format!("out 000{port:04x} 0{byte:02X}"),
            _ => format!("out {port:04X} {byte:02X}"),
        };
        self.line(line);
    }

    fn input(&mut self, port: u32) {
        self.line(format!("in {port:04X}"));
    }

    fn some_entries(&mut self) {
        match self.random.below(100) {
            0..=11 => self.transfer(),
            12..=18 => self.some_function(),
            19..=25 => self.arrivals(),
            26..=37 => self.grants(),
            38..=45 => self.byte_in_memory(),
            46..=51 => self.find(),
            52..=61 => self.set_up_counter(),
            62..=69 => self.counter_bytes(),
            70..=76 => self.ticks(),
            77..=79 => self.watchdog(),
            80..=84 => self.gate(),
            85..=87 => self.arbitration(),
            88..=89 => self.line("ack".to_string()),
            90..=91 => self.any_port(),
            92..=93 => self.rare(),
            94..=96 => self.line("state".to_string()),
            _ => self.view(),
        }
    }

    /// A channel for one of the cards: by its own number where that is the level, or channel 0 or 4 moved there.
    fn channel_for(&mut self, level: u32) -> u32 {
        if level < 8 && !self.random.one_in(4) {
            return level;
        }
        let channel = self.random.pick(&[0, 4]);
        self.out(0x18, 0x80 | channel);
        self.out(0x1A, level & 0xFF);
        channel
    }

    /// A channel set up for a card, and most times what it takes to carry units.
    fn transfer(&mut self) {
        let level = self.call_level();
        self.program_channel(level);
        if self.random.one_in(4) {
            return;
        }
        self.out(0x90, 0x00);
        for _ in 0..self.random.below(4) {
            self.arrival(level);
        }
        self.grants();
    }

    fn program_channel(&mut self, level: u32) {
        let channel = self.channel_for(level);
        let address = self.address();
        self.register(0x2, channel, address, 3);
        let count = self.random.pick(&[0, 0, 1, 1, 2, 3, 5, 9, 0x100, 0xFFFF]);
        self.register(0x4, channel, count, 2);
        let mode = self.mode(level);
        self.register(0x7, channel, mode, 1);
        if !self.random.one_in(8) {
            self.out(0x18, 0xA0 | channel);
        }
    }

    fn register(&mut self, command: u32, channel: u32, value: u32, bytes: u32) {
        if self.random.one_in(10) {
            return;
        }
        self.out(0x18, command << 4 | channel);
        for place in 0..bytes {
            self.out(0x1A, value >> (8 * place) & 0xFF);
        }
    }

    /// A mode that suits the level's card most of the time.
    fn mode(&mut self, level: u32) -> u32 {
        match self.random.below(8) {
            0 => self.random.pick(&[0x00, 0x04, 0x08, 0x0C, 0x40, 0x44, 0x48, 0x4C]),
            1 => self.random.pick(&[0x01, 0x10, 0x80, 0x4D, 0x6C, 0xFF]),
            2 if self.scales.contains(&level) => 0x48,
            2 => 0x00,
            _ if self.scales.contains(&level) => 0x4C,
            _ => 0x04,
        }
    }

    /// A function byte and some bytes through 001A, in either direction, not always as many as there are.
    fn some_function(&mut self) {
        let (command, bytes) = self.random.pick(&COMMANDS);
        let channel = self.random.below(8);
        match self.random.below(8) {
            0 => {
                let byte = self.random.byte();
                self.out(0x18, byte.into());
            }
            _ => self.out(0x18, u32::from(command) << 4 | channel),
        }
        let some = if self.random.one_in(3) { self.random.below(5) } else { bytes };
        let reads = self.random.one_in(2);
        for _ in 0..some {
            if reads != self.random.one_in(8) {
                self.input(0x1A);
            } else {
                let byte = self.data_byte();
                self.out(0x1A, byte);
            }
        }
    }

    fn data_byte(&mut self) -> u32 {
        match self.random.below(3) {
            0 => self.random.below(16),
            1 => self.random.pick(&[0x00, 0x04, 0x48, 0x4C, 0xFF]),
            _ => self.random.byte().into(),
        }
    }

    fn arrivals(&mut self) {
        for _ in 0..self.random.between(1, 4) {
            let level = self.call_level();
            self.arrival(level);
        }
    }

    fn arrival(&mut self, level: u32) {
        let unit = self.random.pick(&[0x00, 0xFF, 0x100, 0x1234, 0xFFFF, 0x0A, 0xBEEF]);
        self.line(format!("arrive {level} {unit:04X}"));
    }

    fn grants(&mut self) {
        if self.random.one_in(3) {
            self.out(0x90, 0x00);
        }
        for _ in 0..self.random.between(1, 5) {
            self.line("grant".to_string());
        }
    }

    fn byte_in_memory(&mut self) {
        let address = self.address();
        if self.random.one_in(2) {
            let byte = self.random.byte();
            self.line(format!("store {address:06X} {byte:02X}"));
        }
        if self.random.one_in(2) {
            let near = address.wrapping_add(self.random.below(2));
            self.line(format!("load {near:06X}"));
        }
    }

    fn find(&mut self) {
        let address = match self.random.below(4) {
            0 => self.address(),
            _ => self.random.pick(&self.used.clone()).wrapping_add(self.random.below(3)) & TOP,
        };
        self.line(format!("find {address:06X}"));
    }

    fn set_up_counter(&mut self) {
        let control = match self.random.below(8) {
            0 => self.random.byte().into(),
            _ => {
                let counter = self.random.pick(&[0x00, 0x80]);
                let access = self.random.pick(&[0x10, 0x20, 0x30, 0x30]);
                counter | access | self.random.pick(&[0x0, 0x4, 0x6])
            }
        };
        self.out(0x43, control);
        let port = if control & 0x80 == 0 { 0x40 } else { 0x42 };
        if control & 0x30 != 0x20 {
            let low = self.small_count();
            self.out(port, low);
        }
        if control & 0x20 != 0 && !self.random.one_in(6) {
            let high = self.random.pick(&[0, 0, 0, 0, 0, 1, 0xFF]);
            self.out(port, high);
        }
        if self.random.one_in(2) {
            self.ticks();
        }
    }

    fn small_count(&mut self) -> u32 {
        match self.random.below(8) {
            0 => self.random.byte().into(),
            1 => 0,
            _ => self.random.below(9),
        }
    }

    fn counter_bytes(&mut self) {
        for _ in 0..self.random.between(1, 3) {
            let port = self.random.pick(&[0x40, 0x42, 0x42, 0x44]);
            if self.random.one_in(2) {
                self.input(port);
            } else {
                let byte = self.small_count();
                self.out(port, byte);
            }
            if self.random.one_in(2) {
                self.ticks();
            }
        }
    }

    fn ticks(&mut self) {
        let line = match self.random.below(40) {
            0 => "tick 65535".to_string(),
            1..=2 => format!("tick {}", self.random.below(700)),
            3..=8 => format!("tick {}", self.random.below(30)),
            9 => "tick 0".to_string(),
            10..=19 => format!("tick {}", self.random.between(2, 6)),
            _ => "tick".to_string(),
        };
        self.line(line);
        if self.random.one_in(3) {
            let port = self.random.pick(&[0x40, 0x42, 0x44, 0x61, 0x92]);
            self.input(port);
        }
    }

    /// A short count at the watchdog and a fast counter 0, then many ticks with few answers.
    fn watchdog(&mut self) {
        let count = self.random.pick(&[0, 1, 1, 2, 2, 3]);
        self.out(0x47, 0x10);
        self.out(0x44, count);
        let mode = self.random.pick(&[0x14, 0x16]);
        self.out(0x43, mode);
        let period = self.random.between(2, 5);
        self.out(0x40, period);
        for _ in 0..self.random.between(1, 8) {
            if self.random.one_in(4) {
                // OUT 0 rises through the second control byte.
                self.out(0x43, 0x10);
                self.out(0x43, mode);
                self.out(0x40, period);
            } else {
                let ticks = self.random.between(1, 6);
                self.line(format!("tick {ticks}"));
            }
            match self.random.below(6) {
                0 => self.line("ack".to_string()),
                1 => self.out(0x61, 0x80),
                2 => self.grants(),
                _ => self.input(0x92),
            }
        }
        self.input(0x90);
    }

    fn gate(&mut self) {
        let byte = self.random.pick(&[0x00, 0x01, 0x01, 0x0E, 0x0F, 0x81, 0xF0, 0xFF]);
        self.out(0x61, byte);
        if self.random.one_in(2) {
            self.ticks();
        }
        self.input(0x61);
    }

    fn arbitration(&mut self) {
        let byte = self.random.pick(&[0x00, 0x00, 0x00, 0x1F, 0x20, 0x40, 0x60, 0x80, 0xC0, 0xFF]);
        self.out(0x90, byte);
        if self.random.one_in(2) {
            self.input(0x90);
        }
    }

    fn any_port(&mut self) {
        let port = match self.random.below(3) {
            0 => self.random.below(0x1_0000),
            1 => self.random.below(0x100),
            _ => self.random.pick(&[0x18, 0x1A, 0x40, 0x41, 0x42, 0x43, 0x44, 0x45, 0x46, 0x47, 0x61, 0x90, 0x92]),
        };
        if self.random.one_in(2) {
            self.input(port);
        } else {
            let byte = self.random.byte();
            self.out(port, byte.into());
        }
    }

    fn rare(&mut self) {
        match self.random.below(6) {
            0 | 1 => self.line("reset".to_string()),
            2 => self.out(0x18, 0xD0),
            3 => self.fill(),
            _ => self.out(0x47, 0x10),
        }
    }

    /// Enough arrivals to fill a scale, or grants to fill a printer.
    fn fill(&mut self) {
        if !self.random.one_in(4) {
            return;
        }
        let before = self.entries;
        if self.random.one_in(2) {
            let level = self.call_level();
            for unit in 0..514 {
                self.line(format!("arrive {level} {unit:04X}"));
            }
        } else {
            for _ in 0..2060 {
                self.line("grant".to_string());
            }
        }
        self.entries = before + 1;
    }

    fn view(&mut self) {
        if self.random.one_in(5) {
            self.line("lines".to_string());
        } else {
            let level = self.call_level();
            self.line(format!("level {level}"));
        }
    }
}
