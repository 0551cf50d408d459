//! Plays a script that was read without complaint.

use std::io::{self, Write};

use crate::bus::Bus;
use crate::cards::{Card, Rack};
use crate::fault::Fault;
use crate::journal::Journal;
use crate::memory::{FlatMemory, Memory, Protected};
use crate::report::{self, Answer, Counts};
use crate::script::{Action, Rig, Script};

pub fn play(script: &Script, out: &mut impl Write) -> io::Result<()> {
    let mut bus = lay_out(&script.rig);
    let mut counts = Counts::default();
    for step in &script.steps {
        match step.action {
            Action::ShowState => report::state(out, &bus)?,
            Action::ShowLevel { level } => report::level(out, &bus, level)?,
            Action::ShowLines => report::lines(out, &bus.journal)?,
            action => {
                let answer = perform(&mut bus, action);
                count(&mut counts, action, &answer);
                report::call(out, step.text, &answer)?;
            }
        }
    }
    report::accounts(out, &bus, &counts)
}

fn lay_out(rig: &Rig) -> Bus<Protected<FlatMemory>> {
    let (low, high) = rig.protect();
    let memory = Protected::new(FlatMemory::new(rig.memory()), low, high);
    let mut rack = Rack::default();
    for &level in rig.scales() {
        rack.insert(level, Card::scale());
    }
    if let Some(level) = rig.printer() {
        rack.insert(level, Card::printer());
    }
    Bus::power_on(memory, rack, Journal::new(rig.journal()))
}

fn perform<M: Memory>(bus: &mut Bus<M>, action: Action) -> Answer {
    match action {
        Action::In { port } => byte(bus.board.read_port(port)),
        Action::Out { port, byte } => done(bus.board.write_port(port, byte)),
        Action::Tick { count } => {
            for _ in 0..count {
                bus.board.tick();
            }
            Answer::Done
        }
        Action::Acknowledge => {
            bus.board.acknowledge();
            Answer::Done
        }
        Action::Arrive { level, unit } => done(bus.arrive(level, unit)),
        Action::Load { address } => byte(bus.load(address)),
        Action::Store { address, byte } => done(bus.store(address, byte)),
        Action::Reset => {
            bus.reset();
            Answer::Done
        }
        Action::Grant => grant(bus),
        Action::Find { address } => bus.journal.find(address).map_or_else(Answer::Refused, Answer::Line),
        Action::ShowState | Action::ShowLevel { .. } | Action::ShowLines => Answer::Done,
    }
}

fn byte(result: Result<u8, Fault>) -> Answer {
    result.map_or_else(Answer::Refused, Answer::Byte)
}

fn done(result: Result<(), Fault>) -> Answer {
    result.map_or_else(Answer::Refused, |()| Answer::Done)
}

fn grant<M: Memory>(bus: &mut Bus<M>) -> Answer {
    let granted = bus.grant();
    let level = granted.level;
    match bus.carry(granted) {
        Ok(Some(word)) => Answer::Carried { level, word },
        Ok(None) => Answer::NotCarried { level },
        Err(fault) => Answer::CarryRefused { level, fault },
    }
}

fn count(counts: &mut Counts, action: Action, answer: &Answer) {
    let refused = answer.is_refusal();
    counts.refused += u64::from(refused);
    counts.calls += match action {
        Action::Tick { count } => u64::from(count),
        _ => 1,
    };
    if let (Action::Arrive { level, .. }, false) = (action, refused) {
        counts.arrived[usize::from(level)] += 1;
    }
}
