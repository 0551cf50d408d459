//! Reading scripts: lines, words, numbers and what is wrong with them.

use std::fmt;

const MOST_MEMORY: u32 = 16_777_216;
const MOST_WORDS: u32 = 65_536;
const MOST_TICKS: u32 = 16_777_215;
const SCALES: usize = 2;

#[derive(Clone, Copy, Debug, PartialEq, Eq)]
pub enum Action {
    In { port: u16 },
    Out { port: u16, byte: u8 },
    Tick { count: u32 },
    Acknowledge,
    Arrive { level: u8, unit: u16 },
    Load { address: u32 },
    Store { address: u32, byte: u8 },
    Reset,
    Grant,
    Find { address: u32 },
    ShowState,
    ShowLevel { level: u8 },
    ShowLines,
}

/// An action and the text it was read from.
pub struct Step<'a> {
    pub text: &'a [u8],
    pub action: Action,
}

#[derive(Clone, Copy, Debug, PartialEq, Eq)]
enum RigEntry {
    Memory(u32),
    Protect(u32, u32),
    Scale(u8),
    Printer(u8),
    Journal(u32),
}

#[derive(Clone, Debug, Default)]
pub struct Rig {
    memory: Option<u32>,
    protect: Option<(u32, u32)>,
    scales: Vec<u8>,
    printer: Option<u8>,
    journal: Option<u32>,
}

impl Rig {
    pub fn memory(&self) -> usize {
        self.memory.unwrap_or(65_536) as usize
    }

    pub fn protect(&self) -> (u32, u32) {
        self.protect.unwrap_or((0, 0))
    }

    pub fn scales(&self) -> &[u8] {
        &self.scales
    }

    pub fn printer(&self) -> Option<u8> {
        self.printer
    }

    pub fn journal(&self) -> usize {
        self.journal.unwrap_or(4096) as usize
    }

    fn add(&mut self, entry: RigEntry) -> Result<(), Complaint> {
        match entry {
            RigEntry::Memory(length) => set_once(&mut self.memory, length),
            RigEntry::Protect(low, high) => set_once(&mut self.protect, (low, high)),
            RigEntry::Printer(level) => set_once(&mut self.printer, level),
            RigEntry::Journal(length) => set_once(&mut self.journal, length),
            RigEntry::Scale(_) if self.scales.len() == SCALES => Err(Complaint::GivenTwice),
            RigEntry::Scale(level) => {
                self.scales.push(level);
                Ok(())
            }
        }
    }
}

fn set_once<T>(place: &mut Option<T>, value: T) -> Result<(), Complaint> {
    match place.replace(value) {
        None => Ok(()),
        Some(_) => Err(Complaint::GivenTwice),
    }
}

#[derive(Clone, Copy, Debug, PartialEq, Eq)]
pub enum Complaint {
    Unknown,
    TooFew,
    TooMany,
    BadNumber,
    RigTooLate,
    GivenTwice,
}

impl fmt::Display for Complaint {
    fn fmt(&self, f: &mut fmt::Formatter) -> fmt::Result {
        f.write_str(match self {
            Complaint::Unknown => "unknown entry",
            Complaint::TooFew => "too few words",
            Complaint::TooMany => "too many words",
            Complaint::BadNumber => "a number that does not fit",
            Complaint::RigTooLate => "rig entry after the first call",
            Complaint::GivenTwice => "entry given twice",
        })
    }
}

pub struct BadLine {
    pub number: usize,
    pub complaint: Complaint,
}

pub struct Script<'a> {
    pub rig: Rig,
    pub steps: Vec<Step<'a>>,
}

/// Reads a whole script, or tells every bad line in it.
pub fn read(text: &[u8]) -> Result<Script<'_>, Vec<BadLine>> {
    let mut script = Script { rig: Rig::default(), steps: Vec::new() };
    let mut bad = Vec::new();
    for (index, line) in text.split(|&byte| byte == b'\n').enumerate() {
        if let Err(complaint) = read_line(line, &mut script) {
            bad.push(BadLine { number: index + 1, complaint });
        }
    }
    if bad.is_empty() {
        Ok(script)
    } else {
        Err(bad)
    }
}

/// The words of a line, comment left out.
pub fn words(line: &[u8]) -> impl Iterator<Item = &[u8]> {
    let end = line.iter().position(|&byte| byte == b'#').unwrap_or(line.len());
    line[..end].split(|byte| matches!(byte, b' ' | b'\t' | b'\r')).filter(|word| !word.is_empty())
}

fn read_line<'a>(line: &'a [u8], script: &mut Script<'a>) -> Result<(), Complaint> {
    let mut words = words(line);
    let Some(name) = words.next() else { return Ok(()) };
    if let Some(entry) = read_rig_entry(name, &mut words) {
        let entry = entry?;
        if !script.steps.is_empty() {
            return Err(Complaint::RigTooLate);
        }
        return script.rig.add(entry);
    }
    let action = read_action(name, words)?;
    script.steps.push(Step { text: line, action });
    Ok(())
}

/// Nothing if the name is not that of a rig entry.
fn read_rig_entry<'a>(name: &[u8], words: &mut impl Iterator<Item = &'a [u8]>) -> Option<Result<RigEntry, Complaint>> {
    let entry = match name {
        b"memory" => one(words).and_then(|word| Ok(RigEntry::Memory(decimal(word, MOST_MEMORY)?))),
        b"protect" => two(words).and_then(|[low, high]| Ok(RigEntry::Protect(address(low)?, address(high)?))),
        b"scale" => one(words).and_then(|word| Ok(RigEntry::Scale(level(word)?))),
        b"printer" => one(words).and_then(|word| Ok(RigEntry::Printer(level(word)?))),
        b"journal" => one(words).and_then(|word| Ok(RigEntry::Journal(decimal(word, MOST_WORDS)?))),
        _ => return None,
    };
    Some(entry)
}

fn read_action<'a>(name: &[u8], words: impl Iterator<Item = &'a [u8]>) -> Result<Action, Complaint> {
    match name {
        b"in" => Ok(Action::In { port: wide(one(words)?)? }),
        b"out" => {
            let [port, value] = two(words)?;
            Ok(Action::Out { port: wide(port)?, byte: byte(value)? })
        }
        b"tick" => read_tick(words),
        b"ack" => none(words).map(|()| Action::Acknowledge),
        b"arrive" => {
            let [place, unit] = two(words)?;
            Ok(Action::Arrive { level: level(place)?, unit: wide(unit)? })
        }
        b"load" => Ok(Action::Load { address: address(one(words)?)? }),
        b"store" => {
            let [place, value] = two(words)?;
            Ok(Action::Store { address: address(place)?, byte: byte(value)? })
        }
        b"reset" => none(words).map(|()| Action::Reset),
        b"grant" => none(words).map(|()| Action::Grant),
        b"find" => Ok(Action::Find { address: address(one(words)?)? }),
        b"state" => none(words).map(|()| Action::ShowState),
        b"level" => Ok(Action::ShowLevel { level: level(one(words)?)? }),
        b"lines" => none(words).map(|()| Action::ShowLines),
        _ => Err(Complaint::Unknown),
    }
}

fn read_tick<'a>(words: impl Iterator<Item = &'a [u8]>) -> Result<Action, Complaint> {
    let mut words = words.peekable();
    let count = match words.peek() {
        None => 1,
        Some(_) => decimal(one(words)?, MOST_TICKS)?,
    };
    Ok(Action::Tick { count })
}

/// The operands of an entry that has exactly N of them.
fn operands<'a, const N: usize>(mut words: impl Iterator<Item = &'a [u8]>) -> Result<[&'a [u8]; N], Complaint> {
    let mut operands = [&[][..]; N];
    for operand in &mut operands {
        *operand = words.next().ok_or(Complaint::TooFew)?;
    }
    match words.next() {
        None => Ok(operands),
        Some(_) => Err(Complaint::TooMany),
    }
}

fn none<'a>(words: impl Iterator<Item = &'a [u8]>) -> Result<(), Complaint> {
    operands(words).map(|[]| ())
}

fn one<'a>(words: impl Iterator<Item = &'a [u8]>) -> Result<&'a [u8], Complaint> {
    operands(words).map(|[word]| word)
}

fn two<'a>(words: impl Iterator<Item = &'a [u8]>) -> Result<[&'a [u8]; 2], Complaint> {
    operands(words)
}

fn number(word: &[u8], base: u32, most: u32) -> Result<u32, Complaint> {
    let mut value: u64 = 0;
    for &digit in word {
        let digit = char::from(digit).to_digit(base).ok_or(Complaint::BadNumber)?;
        value = value * u64::from(base) + u64::from(digit);
        if value > u64::from(most) {
            return Err(Complaint::BadNumber);
        }
    }
    Ok(value as u32)
}

fn decimal(word: &[u8], most: u32) -> Result<u32, Complaint> {
    number(word, 10, most)
}

fn level(word: &[u8]) -> Result<u8, Complaint> {
    decimal(word, u8::MAX.into()).map(|value| value as u8)
}

fn byte(word: &[u8]) -> Result<u8, Complaint> {
    number(word, 16, u8::MAX.into()).map(|value| value as u8)
}

fn wide(word: &[u8]) -> Result<u16, Complaint> {
    number(word, 16, u16::MAX.into()).map(|value| value as u16)
}

fn address(word: &[u8]) -> Result<u32, Complaint> {
    number(word, 16, u32::MAX)
}
