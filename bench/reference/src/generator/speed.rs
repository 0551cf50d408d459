//! Scripts for measuring: each leans on one part of the board.

use std::fmt::Write;

use super::random::Random;

const JOURNAL_WORDS: usize = 65_536;
const QUEUE: usize = 512;

/// A script under construction.
#[derive(Default)]
struct Text(String);

impl Text {
    fn line(&mut self, line: &str) {
        self.0.push_str(line);
        self.0.push('\n');
    }

    fn out(&mut self, port: u16, byte: u8) {
        writeln!(self.0, "out {port:04X} {byte:02X}").unwrap();
    }

    fn outs(&mut self, writes: &[(u16, u8)]) {
        for &(port, byte) in writes {
            self.out(port, byte);
        }
    }

    fn input(&mut self, port: u16) {
        writeln!(self.0, "in {port:04X}").unwrap();
    }

    fn tick(&mut self, count: u32) {
        writeln!(self.0, "tick {count}").unwrap();
    }

    fn arrive(&mut self, level: u8, unit: u16) {
        writeln!(self.0, "arrive {level} {unit:04X}").unwrap();
    }

    fn store(&mut self, address: u32, byte: u8) {
        writeln!(self.0, "store {address:06X} {byte:02X}").unwrap();
    }

    fn load(&mut self, address: u32) {
        writeln!(self.0, "load {address:06X}").unwrap();
    }

    fn find(&mut self, address: u32) {
        writeln!(self.0, "find {address:06X}").unwrap();
    }

    /// Sets a channel's address, count and mode and opens it.
    fn channel(&mut self, number: u8, address: u32, count: u16, mode: u8) {
        let [low, middle, high, _] = address.to_le_bytes();
        let [count_low, count_high] = count.to_le_bytes();
        self.outs(&[(0x18, 0x20 | number), (0x1A, low), (0x1A, middle), (0x1A, high)]);
        self.outs(&[(0x18, 0x40 | number), (0x1A, count_low), (0x1A, count_high)]);
        self.outs(&[(0x18, 0x70 | number), (0x1A, mode), (0x18, 0xA0 | number)]);
    }
}

/// Thousands of ticks at a time with all three counters running; so many tick entries.
pub fn ticks(mut random: Random, count: usize) -> String {
    let mut text = Text::default();
    text.outs(&[(0x43, 0x34), (0x40, 0xA9), (0x40, 0x04), (0x43, 0xB6), (0x42, 0x33), (0x42, 0x05)]);
    text.outs(&[(0x61, 0x01), (0x47, 0x10), (0x44, 0x00)]);
    for _ in 0..count {
        text.tick(random.between(1000, 9999));
        match random.below(8) {
            0 => text.input(0x92),
            1 => text.input(0x40),
            2 => text.input(0x42),
            3 => text.out(0x42, random.byte()),
            4 => text.outs(&[(0x47, 0x10), (0x44, random.byte())]),
            _ => text.line("ack"),
        }
    }
    text.line("state");
    text.0
}

/// Reads and writes over all ports, most of them of use.
pub fn ports(mut random: Random, count: usize) -> String {
    const PORTS: [u16; 12] = [0x18, 0x1A, 0x1A, 0x1A, 0x40, 0x42, 0x43, 0x44, 0x47, 0x61, 0x90, 0x92];
    const FUNCTIONS: [u8; 12] = [0x00, 0x21, 0x32, 0x43, 0x54, 0x65, 0x76, 0x80, 0x97, 0xA7, 0xD0, 0x18];
    const CONTROLS: [u8; 8] = [0x34, 0x36, 0x30, 0x14, 0xB6, 0xB4, 0xA0, 0xFF];
    let mut text = Text::default();
    for _ in 0..count {
        let port = if random.one_in(12) { random.below(0x100) as u16 } else { random.pick(&PORTS) };
        let byte = match port {
            0x18 => random.pick(&FUNCTIONS),
            0x43 => random.pick(&CONTROLS),
            0x47 => 0x10,
            _ => random.byte(),
        };
        if random.one_in(3) {
            text.input(port);
        } else {
            text.out(port, byte);
        }
    }
    text.line("state");
    text.0
}

/// So many rounds of a scale filled to the brim and emptied into memory; past the journal's room all is refused.
pub fn carries(mut random: Random, count: usize) -> String {
    let mut text = Text::default();
    text.line("memory 1048576\nscale 5\njournal 65536");
    for _ in 0..count {
        for _ in 0..QUEUE {
            text.arrive(5, random.below(0x1_0000) as u16);
        }
        text.channel(5, random.below(0x0F_F000), QUEUE as u16 - 1, 0x4C);
        for _ in 0..QUEUE {
            text.line("grant");
        }
        text.out(0x18, 0x65);
        text.input(0x1A);
        text.line("reset");
    }
    text.0
}

/// A full journal of stores, then so many look-ups and loads.
pub fn journal(mut random: Random, count: usize) -> String {
    let mut text = Text::default();
    text.line("memory 262144\njournal 65536");
    for place in 0..JOURNAL_WORDS as u32 {
        text.store(2 * place, random.byte());
    }
    text.store(0, 0);
    for _ in 0..count {
        match random.below(4) {
            0 => text.find(random.below(64) * 2),
            1 => text.find(0x02_0000 - 2 - random.below(64) * 2),
            2 => text.find(random.below(0x02_0000) | 1),
            _ => text.find(random.below(0x01_0000) * 2),
        }
        text.load(random.below(0x04_0000));
    }
    text.0
}

/// So many loads from a small memory. Within each pair below only the rig or what happened before differs, and count 0
/// gives what comes before the measured calls alone.
pub fn loads_small(random: Random, count: usize) -> String {
    loads(random, count, "memory 65536")
}

/// The same from the largest memory.
pub fn loads_large(random: Random, count: usize) -> String {
    loads(random, count, "memory 16777216")
}

fn loads(mut random: Random, count: usize, rig: &str) -> String {
    let mut text = Text::default();
    text.line(rig);
    for _ in 0..count {
        text.load(random.below(0x1_0000));
    }
    text.0
}

/// So many stores to a small memory.
pub fn stores_small(random: Random, count: usize) -> String {
    stores(random, count, "memory 65536\njournal 65536", 0)
}

/// The same to the largest memory.
pub fn stores_large(random: Random, count: usize) -> String {
    stores(random, count, "memory 16777216\njournal 65536", 0)
}

/// So many stores into a short journal.
pub fn lines_short(random: Random, count: usize) -> String {
    stores(random, count, "journal 4096", 0)
}

/// The same into the longest one.
pub fn lines_long(random: Random, count: usize) -> String {
    stores(random, count, "journal 65536", 0)
}

/// So many stores into the second half of the longest journal; `lines_long` stores into the first.
pub fn lines_late(random: Random, count: usize) -> String {
    stores(random, count, "journal 65536", JOURNAL_WORDS / 2)
}

fn stores(mut random: Random, count: usize, rig: &str, before: usize) -> String {
    let mut text = Text::default();
    text.line(rig);
    for _ in 0..before + count {
        text.store(random.below(0x1_0000), random.byte());
    }
    text.0
}

/// So many arrivals, each carried at once, with nothing else waiting.
pub fn queue_short(random: Random, count: usize) -> String {
    queue(random, count, 0)
}

/// The same behind 511 units that wait already.
pub fn queue_long(random: Random, count: usize) -> String {
    queue(random, count, QUEUE - 1)
}

fn queue(mut random: Random, count: usize, waiting: usize) -> String {
    let mut text = Text::default();
    text.line("memory 131072\nscale 5\njournal 65536");
    for _ in 0..waiting {
        text.arrive(5, 0);
    }
    text.channel(5, 0, 0xFFFF, 0x4C);
    for _ in 0..count {
        text.arrive(5, random.below(0x1_0000) as u16);
        text.line("grant");
    }
    text.0
}
