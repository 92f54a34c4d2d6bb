//! Records off a link that cuts them anywhere: one end of a socket is fed a file of records in pieces of random size, with
//! pauses between them, and the other end prints each line as soon as its record is there. The lines are those that
//! `rowrun` prints for the file.
//!
//! ```text
//! cargo run --example link -- ../../crates/rowrun/stdin
//! ```

use std::io::{self, Write};
use std::os::unix::net::UnixStream;
use std::process::ExitCode;
use std::thread;
use std::time::Duration;
use std::{env, fs};

use ravelsickle::Lines;

/// Numbers that look like chance, by Marsaglia's shifts. The same ones every time.
struct Chance(u64);

impl Chance {
    /// A number from 1 to `most`.
    fn up_to(&mut self, most: u64) -> u64 {
        self.0 ^= self.0 << 13;
        self.0 ^= self.0 >> 7;
        self.0 ^= self.0 << 17;
        1 + (self.0 >> 11) % most
    }

    /// How many bytes to write at once: some hundreds, now and then a single one.
    fn size(&mut self) -> usize {
        if self.up_to(8) == 1 {
            1
        } else {
            self.up_to(600) as usize
        }
    }

    /// How long to wait after them: up to a millisecond.
    fn pause(&mut self) -> Duration {
        Duration::from_micros(self.up_to(1000))
    }
}

/// Writes the records in pieces. The link ends with the socket, which is closed here.
fn write_pieces(mut link: UnixStream, mut records: &[u8]) -> io::Result<()> {
    let mut chance = Chance(2026);
    while !records.is_empty() {
        let (piece, rest) = records.split_at(chance.size().min(records.len()));
        link.write_all(piece)?;
        thread::sleep(chance.pause());
        records = rest;
    }
    Ok(())
}

/// Prints the lines as they come.
fn print_lines(link: UnixStream) -> Result<(), String> {
    let mut output = io::stdout().lock();
    for line in Lines::new(link) {
        let line = line.map_err(|error| format!("the link: {error}"))?;
        writeln!(output, "{line}")
            .and_then(|()| output.flush())
            .map_err(|error| format!("standard output: {error}"))?;
    }
    Ok(())
}

/// Runs both ends. Where the printing end stops early its socket is closed, and the writing end stops too.
fn run(records: &[u8]) -> Result<(), String> {
    let (writing, reading) = UnixStream::pair().map_err(|error| format!("no socket: {error}"))?;
    thread::scope(|scope| {
        let writer = scope.spawn(move || write_pieces(writing, records));
        print_lines(reading)?;
        let written = writer.join().expect("the writing end does not panic");
        written.map_err(|error| format!("the link: {error}"))
    })
}

fn main() -> ExitCode {
    let named: Vec<_> = env::args_os().skip(1).collect();
    let [name] = named.as_slice() else {
        eprintln!("usage: link RECORDS");
        return ExitCode::from(2);
    };
    let done = fs::read(name)
        .map_err(|error| format!("{}: {error}", name.to_string_lossy()))
        .and_then(|records| run(&records));
    match done {
        Ok(()) => ExitCode::SUCCESS,
        Err(why) => {
            eprintln!("link: {why}");
            ExitCode::FAILURE
        }
    }
}
