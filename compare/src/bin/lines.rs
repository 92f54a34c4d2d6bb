//! Prints the lines that `rowrun` must print for the records on standard input: by the copy of the original whose `min`
//! and `max` order zeros, after the original itself gave the same but for the signs of zeros, which depend on how it is built.

use std::io::{Read, Write, stdin, stdout};
use std::process::ExitCode;

use compare::stream::{lines_of, text_of};

fn main() -> ExitCode {
    let mut bytes = Vec::new();
    if let Err(error) = stdin().read_to_end(&mut bytes) {
        eprintln!("{error}");
        return ExitCode::FAILURE;
    }
    match lines_of(&bytes) {
        Ok(lines) => match stdout().write_all(text_of(&lines).as_bytes()) {
            Ok(()) => ExitCode::SUCCESS,
            Err(_) => ExitCode::FAILURE,
        },
        Err(what) => {
            eprintln!("{what}");
            ExitCode::FAILURE
        }
    }
}
