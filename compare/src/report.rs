//! What a family says, and how a difference is kept.

use std::fmt::Write as _;
use std::fs;

/// The first difference that a family found.
#[derive(Debug)]
pub struct Difference {
    pub what: String,
    pub input: Input,
}

/// The input of a difference, in the form in which it can be fed again.
#[derive(Debug)]
pub enum Input {
    /// A stream of records for `rowrun`.
    Records(Vec<u8>),
    /// A line like those of `entries.txt`, without its answer.
    Line(String),
}

pub type Verdict = Result<(), Box<Difference>>;

/// A difference with a line as its input.
pub fn differs_on_line(what: String, line: String) -> Box<Difference> {
    Box::new(Difference {
        what,
        input: Input::Line(line),
    })
}

/// A difference with records as its input.
pub fn differs_on_records(what: String, bytes: Vec<u8>) -> Box<Difference> {
    Box::new(Difference {
        what,
        input: Input::Records(bytes),
    })
}

/// Sixteen upper-case hexadecimal digits.
pub fn hex(x: f64) -> String {
    format!("{:016X}", x.to_bits())
}

/// Floats as hexadecimal digits with blanks between them.
pub fn hex_all(numbers: &[f64]) -> String {
    numbers
        .iter()
        .map(|&x| hex(x))
        .collect::<Vec<_>>()
        .join(" ")
}

/// A row number, or `-`.
pub fn row_text(row: Option<usize>) -> String {
    row.map_or("-".to_string(), |number| number.to_string())
}

impl Difference {
    /// Writes the input to a file of the current folder and says on standard error what differs and where.
    pub fn keep(&self, family: &str) {
        eprintln!("{family}: {}", self.what);
        let (name, bytes) = match &self.input {
            Input::Records(bytes) => ("difference.bin", bytes.clone()),
            Input::Line(line) => ("difference.txt", format!("{line}\n").into_bytes()),
        };
        match &self.input {
            Input::Records(bytes) => {
                let mut digits = String::new();
                for byte in bytes {
                    let _ = write!(digits, "{byte:02X}");
                }
                eprintln!("input: {digits}");
            }
            Input::Line(line) => eprintln!("input: {line}"),
        }
        match fs::write(name, bytes) {
            Ok(()) => eprintln!("input written to {name}"),
            Err(error) => eprintln!("input not written to {name}: {error}"),
        }
    }
}
