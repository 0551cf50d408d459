//! Scripts for testing how lines are read: many are bad, some only look odd.

use super::random::Random;

/// Lines that are read without complaint in any place.
const CALLS: [&str; 22] = [
    "in 0090",
    "in 00000000000000000061",
    "\tin\t001a",
    "out 0018 a5",
    "out 18 Af",
    "  out   0090  000000fF  ",
    "tick",
    "tick 0",
    "tick 40 # some",
    "tick 000000000000000000003",
    "ack",
    "arrive 5 ffff",
    "arrive 0255 0",
    "load ffffffff",
    "store 0000000000000400 0aB",
    "reset\r",
    "grant#now",
    "find FFFFFF",
    "state",
    "level 007",
    "level 255",
    "lines",
];

const EMPTY: [&str; 8] = ["", " ", "\t", "\r", "# memory", "   # in 0090", "#", " \t \r"];

const RIG: [&str; 12] = [
    "memory 16",
    "memory 0",
    "memory 0000000016777216",
    "protect 0 10",
    "protect ffffffff FFFFFFFF",
    "scale 5",
    "scale 255",
    "scale 005",
    "printer 3",
    "printer 14",
    "journal 7",
    "journal 65536",
];

/// Most of these are bad; a few only look it.
const BAD: [&str; 45] = [
    "frob",
    "IN 0090",
    "In",
    "inn 0090",
    "0090 in",
    "carry",
    "-",
    "\x0bin 0090",
    "grant\x0c",
    "t\u{e9}ck",
    "in",
    "in 0090 0091",
    "in 10000",
    "in 0x90",
    "in -1",
    "in +1",
    "in g",
    "out 0090",
    "out 0090 100",
    "out 0090 00 00",
    "out zz zz zz",
    "tick 16777215",
    "tick 16777216",
    "tick 5 5",
    "tick 1_000",
    "tick A",
    "tick 99999999999999999999999999",
    "ack 1",
    "arrive 5",
    "arrive 256 0",
    "arrive 5 10000",
    "arrive 0A 0",
    "load 100000000",
    "load 1FFFFFFFFFFFFFFFF",
    "store 0",
    "store 0 00 #00\r00",
    "reset now",
    "grant 5",
    "find",
    "state 0",
    "level",
    "level 256",
    "lines 3",
    "level 5#5 5",
    "level -0",
];

const BAD_RIG: [&str; 14] = [
    "memory",
    "memory 16777217",
    "memory FFFF",
    "memory 1 2",
    "protect 5",
    "protect 0 100000000",
    "protect 0 1 2",
    "scale",
    "scale 256",
    "printer -1",
    "printer 1 1",
    "journal 65537",
    "journal 0x10",
    "journal",
];

/// So many lines; in one script of three none is bad unless a rig entry comes late or twice.
pub fn script(mut random: Random, count: usize) -> String {
    let end = if random.one_in(4) { "\r\n" } else { "\n" };
    let worst = random.pick(&[0, 4, 20]);
    let rig_lines = random.below(8) as usize;
    let mut text = String::new();
    for place in 0..count {
        let rig = place < rig_lines || random.one_in(60);
        text.push_str(line(&mut random, rig, worst));
        text.push_str(end);
    }
    if random.one_in(2) {
        text.push_str("grant");
    }
    text
}

/// One line; a bad one `worst` times out of a hundred.
fn line(random: &mut Random, rig: bool, worst: u32) -> &'static str {
    let bad = random.below(100) < worst;
    match (rig, bad) {
        _ if random.one_in(6) => random.pick(&EMPTY),
        (true, true) => random.pick(&BAD_RIG),
        (true, false) => random.pick(&RIG),
        (false, true) => random.pick(&BAD),
        (false, false) => random.pick(&CALLS),
    }
}
