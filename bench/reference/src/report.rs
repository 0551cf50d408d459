//! What is printed: answers, views and the closing accounts.

use std::io::{self, Write};

use crate::board::Board;
use crate::bus::Bus;
use crate::cards::{Card, Direction, LEVELS};
use crate::dma::Controller;
use crate::fault::{Fault, Refusal};
use crate::journal::{Journal, Kind, Line};
use crate::memory::Memory;
use crate::script;
use crate::timer::Counter;

/// What a call is answered with.
pub enum Answer {
    Done,
    Byte(u8),
    Line(usize),
    Carried { level: u8, word: u64 },
    NotCarried { level: u8 },
    CarryRefused { level: u8, fault: Fault },
    Refused(Fault),
}

impl Answer {
    pub fn is_refusal(&self) -> bool {
        matches!(self, Answer::Refused(_) | Answer::CarryRefused { .. })
    }
}

/// A call's own words, then its answer.
pub fn call(out: &mut impl Write, text: &[u8], answer: &Answer) -> io::Result<()> {
    let mut words = script::words(text);
    out.write_all(words.next().unwrap_or_default())?;
    for word in words {
        out.write_all(b" ")?;
        out.write_all(word)?;
    }
    match answer {
        Answer::Done => out.write_all(b": ok\n"),
        Answer::Byte(byte) => writeln!(out, ": {byte:02X}"),
        Answer::Line(place) => writeln!(out, ": line {place}"),
        Answer::Carried { level, word } => writeln!(out, ": level {level} line {word:016X}"),
        Answer::NotCarried { level } => writeln!(out, ": level {level} no line"),
        Answer::CarryRefused { level, fault } => writeln!(out, ": level {level} {fault}"),
        Answer::Refused(fault) => writeln!(out, ": {fault}"),
    }
}

pub fn state<M: Memory>(out: &mut impl Write, bus: &Bus<M>) -> io::Result<()> {
    let board = &bus.board;
    controller(out, &board.dma)?;
    counter(out, 0, &board.timers.counter0)?;
    counter(out, 2, &board.timers.counter2)?;
    counter(out, 3, &board.timers.counter3)?;
    ports(out, board, bus.journal.words().len())
}

fn controller(out: &mut impl Write, dma: &Controller) -> io::Result<()> {
    for (number, channel) in dma.channels.iter().enumerate() {
        writeln!(
            out,
            "channel {number}: address {:06X} count {:04X} io {:04X} mode {:02X} {} level {}",
            channel.address,
            channel.count,
            channel.io,
            channel.mode.byte(),
            if channel.masked { "masked" } else { "open" },
            channel.level
        )?;
    }
    let [low, high] = dma.status;
    writeln!(out, "dma: function {:02X} pointer {} status {low:02X} {high:02X}", dma.function, dma.pointer)
}

fn counter(out: &mut impl Write, number: u8, counter: &Counter) -> io::Result<()> {
    write!(out, "counter {number}: out {} ", u8::from(counter.out))?;
    match &counter.setup {
        None => writeln!(out, "not set up"),
        Some(setup) => {
            let (mode, bytes) = (setup.mode.number(), setup.access as u8);
            writeln!(out, "mode {mode} bytes {bytes} standing {}", setup.standing)
        }
    }
}

fn ports(out: &mut impl Write, board: &Board, lines: usize) -> io::Result<()> {
    let latch = u8::from(board.timers.latch);
    let Board { control, arbitration, winner, .. } = board;
    writeln!(out, "ports: 0061 {control:02X} 0090 {arbitration:02X} winner {winner} latch {latch} lines {lines}")
}

pub fn level<M: Memory>(out: &mut impl Write, bus: &Bus<M>, level: u8) -> io::Result<()> {
    if usize::from(level) >= LEVELS {
        return writeln!(out, "level {level}: {}", Fault::of_board(Refusal::OutOfRange, level));
    }
    match bus.rack.card(level) {
        None => writeln!(out, "level {level}: none"),
        Some(shown) => {
            write!(out, "level {level}: ")?;
            card(out, shown)
        }
    }
}

fn card(out: &mut impl Write, card: &Card) -> io::Result<()> {
    let side = match card.direction() {
        Direction::Gives => "giver",
        Direction::Takes => "taker",
    };
    let bits = if card.wide() { 16 } else { 8 };
    let line = if card.requesting() { "up" } else { "down" };
    let waiting = card.waiting();
    write!(out, "{side} {bits} line {line} waiting {}", waiting.len())?;
    for unit in waiting {
        write!(out, " {unit:04X}")?;
    }
    write!(out, " taken {}", card.taken().len())?;
    for unit in card.taken() {
        write!(out, " {unit:04X}")?;
    }
    writeln!(out, " room {}", card.room())
}

pub fn lines(out: &mut impl Write, journal: &Journal) -> io::Result<()> {
    for (place, line) in journal.lines().enumerate() {
        let Line { kind, channel, wide, last, level, address, unit } = line;
        writeln!(
            out,
            "line {place}: {:016X} kind {} channel {channel} wide {} last {} level {level} address {address:06X} \
             unit {unit:04X}",
            line.pack(),
            kind as u8,
            u8::from(wide),
            u8::from(last)
        )?;
    }
    Ok(())
}

/// What is counted while a script is played.
#[derive(Default)]
pub struct Counts {
    pub calls: u64,
    pub refused: u64,
    pub arrived: [u64; LEVELS],
}

/// What the journal's lines say of one level.
#[derive(Clone, Copy, Default)]
struct LevelSums {
    to_memory: u64,
    from_memory: u64,
    last_marks: u64,
    units: u64,
}

/// What the journal's lines say altogether.
#[derive(Default)]
struct Sums {
    verify: u64,
    stores: u64,
    levels: [LevelSums; LEVELS],
}

impl Sums {
    fn of(journal: &Journal) -> Sums {
        let mut sums = Sums::default();
        for line in journal.lines() {
            sums.add(&line);
        }
        sums
    }

    fn add(&mut self, line: &Line) {
        let Some(level) = self.levels.get_mut(usize::from(line.level)) else {
            self.stores += 1;
            return;
        };
        level.last_marks += u64::from(line.last);
        match line.kind {
            Kind::CardToMemory => {
                level.to_memory += 1;
                level.units += u64::from(line.unit);
            }
            Kind::MemoryToCard => level.from_memory += 1,
            Kind::Verify => self.verify += 1,
            Kind::Store => self.stores += 1,
        }
    }
}

pub fn accounts<M: Memory>(out: &mut impl Write, bus: &Bus<M>, counts: &Counts) -> io::Result<()> {
    let sums = Sums::of(&bus.journal);
    writeln!(out, "calls {}, refused {}", counts.calls, counts.refused)?;
    writeln!(
        out,
        "lines {} of {}: card to memory {}, memory to card {}, verify {}, stores {}",
        bus.journal.words().len(),
        bus.journal.length(),
        sums.levels.iter().map(|level| level.to_memory).sum::<u64>(),
        sums.levels.iter().map(|level| level.from_memory).sum::<u64>(),
        sums.verify,
        sums.stores
    )?;
    for (number, level) in sums.levels.iter().enumerate() {
        if let Some(card) = bus.rack.card(number as u8) {
            write!(out, "level {number}: ")?;
            level_account(out, card, level, counts.arrived[number])?;
        }
    }
    Ok(())
}

fn level_account(out: &mut impl Write, card: &Card, sums: &LevelSums, arrived: u64) -> io::Result<()> {
    let LevelSums { to_memory, from_memory, last_marks, units } = sums;
    match card.direction() {
        Direction::Gives => {
            let waiting = card.waiting().len();
            writeln!(
                out,
                "arrived {arrived}, to memory {to_memory}, waiting {waiting}, last marks {last_marks}, sum {units}"
            )
        }
        Direction::Takes => {
            let taken = card.taken().len();
            writeln!(out, "from memory {from_memory}, taken {taken}, last marks {last_marks}")
        }
    }
}
