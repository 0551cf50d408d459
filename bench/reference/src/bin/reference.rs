//! `reference [FILE]`: plays a script from a file or from standard input.

use std::io::{self, BufWriter, Read, Write};
use std::process::ExitCode;
use std::{env, fs};

use reference::script::BadLine;
use reference::{player, script};

fn main() -> ExitCode {
    let text = match read_input() {
        Ok(text) => text,
        Err(error) => {
            eprintln!("the script cannot be read: {error}");
            return ExitCode::FAILURE;
        }
    };
    match run(&text) {
        Ok(true) => ExitCode::SUCCESS,
        Ok(false) | Err(_) => ExitCode::FAILURE,
    }
}

/// Plays the script or tells its bad lines; false if it has any. An error means that the output was not taken.
fn run(text: &[u8]) -> io::Result<bool> {
    match script::read(text) {
        Ok(script) => {
            let mut out = BufWriter::with_capacity(1 << 16, io::stdout().lock());
            player::play(&script, &mut out)?;
            out.flush()?;
            Ok(true)
        }
        Err(bad) => {
            complain(&bad)?;
            Ok(false)
        }
    }
}

fn read_input() -> io::Result<Vec<u8>> {
    match env::args_os().nth(1) {
        Some(path) => fs::read(path),
        None => {
            let mut text = Vec::new();
            io::stdin().lock().read_to_end(&mut text)?;
            Ok(text)
        }
    }
}

fn complain(bad: &[BadLine]) -> io::Result<()> {
    let mut err = BufWriter::new(io::stderr().lock());
    for line in bad {
        writeln!(err, "line {}: {}", line.number, line.complaint)?;
    }
    err.flush()
}
