//! `generate KIND SEED COUNT`: prints a script.

use std::env;
use std::io::{self, Write};
use std::process::ExitCode;

use reference::generator;

fn main() -> ExitCode {
    let words: Vec<String> = env::args().skip(1).collect();
    match script(&words) {
        Some(text) => match io::stdout().lock().write_all(text.as_bytes()) {
            Ok(()) => ExitCode::SUCCESS,
            Err(error) => fail(&error.to_string()),
        },
        None => fail(&format!("generate KIND SEED COUNT, KIND one of: {}", kinds())),
    }
}

fn script(words: &[String]) -> Option<String> {
    let [kind, seed, count] = words else { return None };
    generator::generate(kind, seed.parse().ok()?, count.parse().ok()?)
}

fn kinds() -> String {
    generator::kinds().collect::<Vec<_>>().join(", ")
}

fn fail(message: &str) -> ExitCode {
    eprintln!("{message}");
    ExitCode::FAILURE
}
