//! `second` answers a question file, `second --check` also holds each decided answer against the
//! plain geometry, `second generate SEED COUNT` writes a question file.

use std::env;
use std::io;
use std::process::ExitCode;

use second::{generate, program};

const USAGE: &str = "usage: second [--check] < questions > answers
       second generate SEED COUNT > questions";

fn main() -> ExitCode {
    let arguments: Vec<String> = env::args_os()
        .skip(1)
        .map(|argument| argument.to_string_lossy().into_owned())
        .collect();
    let words: Vec<&str> = arguments.iter().map(String::as_str).collect();
    let done = match words[..] {
        [] => answer(false),
        ["--check"] => answer(true),
        ["generate", seed, count] => match (seed.parse(), count.parse()) {
            (Ok(seed), Ok(count)) => generate::generate(seed, count, io::stdout().lock())
                .map_err(|error| format!("cannot write: {error}")),
            _ => Err(USAGE.to_string()),
        },
        _ => Err(USAGE.to_string()),
    };
    match done {
        Ok(()) => ExitCode::SUCCESS,
        Err(message) => {
            eprintln!("{message}");
            ExitCode::FAILURE
        }
    }
}

fn answer(check: bool) -> Result<(), String> {
    program::run(io::stdin().lock(), io::stdout().lock(), check)
        .map_err(|failure| format!("second: {failure}"))
}
