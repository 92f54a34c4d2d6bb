//! The static library in a program of its own, `bridge.c`, run under an emulator of x86-64.

use std::env;
use std::io::{Read, Write};
use std::process::{Child, ChildStdin, ChildStdout, Command, Stdio};

use super::Call;
use crate::link::{HEAD, Left, Session, Step, TEXT};
use crate::records::Record;

/// The numbers of the calls, as `bridge.c` has them.
const ROOTS: u64 = 0;
const FUSEDS: u64 = 1;
const NORMALIZE: u64 = 2;
const TWO: u64 = 3;
const LINE: u64 = 4;
const SOLVE: u64 = 5;
const RECOVER: u64 = 6;
const OWN: u64 = 7;
const ROWS: u64 = 8;
const LINK: u64 = 9;

/// Batches are cut so that neither they nor their answers come near the bridge's limit of 2^21 words.
const MOST_WORDS: usize = 1 << 20;

/// The program and the two ends of the pipes to it.
pub struct Back {
    child: Child,
    input: Option<ChildStdin>,
    output: ChildStdout,
}

fn push_floats(words: &mut Vec<u64>, numbers: &[f64]) {
    words.extend(numbers.iter().map(|x| x.to_bits()));
}

fn push_rows(words: &mut Vec<u64>, rows: &[f64]) {
    words.push(rows.len() as u64);
    push_floats(words, rows);
}

/// Adds a call's words to a batch.
fn push_call(words: &mut Vec<u64>, call: &Call) {
    match call {
        Call::Roots { given, .. } => {
            words.push(ROOTS);
            push_rows(words, given);
        }
        Call::Fuseds { given, .. } => {
            words.extend([FUSEDS, given.len() as u64]);
            push_floats(words, given.as_flattened());
        }
        Call::Normalize { rows, .. } => {
            words.push(NORMALIZE);
            push_rows(words, rows);
        }
        Call::Two { first, second, .. } => {
            words.push(TWO);
            words.extend(first.words());
            words.extend(second.words());
        }
        Call::Line { pairs, setting, .. } => push_task(words, LINE, setting, pairs),
        Call::Solve { rows, setting, .. } => push_task(words, SOLVE, setting, rows),
        Call::Rows { rows, setting, .. } => push_task(words, ROWS, setting, rows),
        Call::Own { rows, setting, .. } => push_task(words, OWN, setting, rows),
        Call::Recover { rows, setting, .. } => push_task(words, RECOVER, setting, rows),
        Call::Link { session, .. } => {
            words.extend([LINK, session.limit, session.shown as u64]);
            words.push(session.bytes.len() as u64);
            push_bytes(words, &session.bytes);
            words.push(session.offers.len() as u64);
            words.extend(&session.offers);
        }
    }
}

/// Bytes, eight to a word, the last word filled up.
fn push_bytes(words: &mut Vec<u64>, bytes: &[u8]) {
    words.extend(bytes.chunks(8).map(|part| {
        let mut eight = [0; 8];
        eight[..part.len()].copy_from_slice(part);
        u64::from_le_bytes(eight)
    }));
}

/// A call's number, its record and what is lent to it.
fn push_task<R: Record>(words: &mut Vec<u64>, number: u64, setting: &R, rows: &[f64]) {
    words.push(number);
    words.extend(setting.words());
    push_rows(words, rows);
}

/// The words of an answer, taken one after the other.
struct Answers<'a> {
    rest: std::slice::Iter<'a, u64>,
}

impl Answers<'_> {
    fn word(&mut self) -> Result<u64, String> {
        self.rest
            .next()
            .copied()
            .ok_or("the bridge answered too little".to_string())
    }

    fn float(&mut self) -> Result<f64, String> {
        self.word().map(f64::from_bits)
    }

    fn floats(&mut self, count: usize) -> Result<Vec<f64>, String> {
        (0..count).map(|_| self.float()).collect()
    }

    fn bytes(&mut self, count: usize) -> Result<Vec<u8>, String> {
        let words: Result<Vec<u64>, String> = (0..count.div_ceil(8)).map(|_| self.word()).collect();
        let mut bytes: Vec<u8> = words?.iter().flat_map(|word| word.to_le_bytes()).collect();
        bytes.truncate(count);
        Ok(bytes)
    }

    fn left(&mut self, session: &Session) -> Result<Left, String> {
        let mut left = Left::default();
        for _ in &session.offers {
            let fed = self.record()?;
            let text = self.bytes(TEXT)?;
            left.steps.push(Step { fed, text });
        }
        left.head = self.bytes(HEAD)?;
        left.rows = self.floats(session.shown)?;
        left.changed = self.word()?;
        Ok(left)
    }

    fn record<R: Record>(&mut self) -> Result<R, String> {
        let words: Result<Vec<u64>, String> = (0..R::WORDS).map(|_| self.word()).collect();
        words.map(|words| R::of_words(&words))
    }

    /// Puts what an entry left into its call.
    fn put_into(&mut self, call: &mut Call) -> Result<(), String> {
        match call {
            Call::Roots { given, got } => *got = self.floats(given.len())?,
            Call::Fuseds { given, got } => *got = self.floats(given.len())?,
            Call::Normalize { rows, refusal } => {
                *refusal = self.word()?;
                *rows = self.floats(rows.len())?;
            }
            Call::Two { out, .. } | Call::Line { out, .. } => *out = self.record()?,
            Call::Solve { rows, out, .. } | Call::Rows { rows, out, .. } => {
                *out = self.record()?;
                *rows = self.floats(rows.len())?;
            }
            Call::Own { rows, out, .. } => {
                *out = self.record()?;
                *rows = self.floats(rows.len())?;
            }
            Call::Recover { out, .. } => *out = self.record()?,
            Call::Link { session, left } => *left = self.left(session)?,
        }
        Ok(())
    }
}

impl Back {
    pub fn new() -> Result<Back, String> {
        let emulator = env::var("COMPARE_EMULATOR").unwrap_or("qemu-x86_64".to_string());
        let mut child = Command::new(&emulator)
            .arg(env!("COMPARE_BRIDGE"))
            .stdin(Stdio::piped())
            .stdout(Stdio::piped())
            .spawn()
            .map_err(|error| {
                format!("cannot run the emulator {emulator} (COMPARE_EMULATOR names it): {error}")
            })?;
        let input = child.stdin.take();
        let output = child.stdout.take().ok_or("the bridge has no output")?;
        Ok(Back {
            child,
            input,
            output,
        })
    }

    fn exchange(&mut self, words: &[u64]) -> Result<Vec<u64>, String> {
        let broken = |error: std::io::Error| format!("the bridge ended: {error}");
        let mut bytes = (words.len() as u64).to_le_bytes().to_vec();
        bytes.extend(words.iter().flat_map(|word| word.to_le_bytes()));
        let input = self.input.as_mut().ok_or("the bridge has no input")?;
        input.write_all(&bytes).map_err(broken)?;
        let mut size = [0; 8];
        self.output.read_exact(&mut size).map_err(broken)?;
        let mut answer = vec![0; 8 * u64::from_le_bytes(size) as usize];
        self.output.read_exact(&mut answer).map_err(broken)?;
        let (eights, _) = answer.as_chunks::<8>();
        Ok(eights
            .iter()
            .map(|eight| u64::from_le_bytes(*eight))
            .collect())
    }

    fn make_batch(&mut self, calls: &mut [Call], words: &[u64]) -> Result<(), String> {
        let answer = self.exchange(words)?;
        let mut answers = Answers {
            rest: answer.iter(),
        };
        for call in calls {
            answers.put_into(call)?;
        }
        match answers.rest.next() {
            None => Ok(()),
            Some(_) => Err("the bridge answered too much".to_string()),
        }
    }

    pub fn make(&mut self, calls: &mut [Call]) -> Result<(), String> {
        let mut words = Vec::new();
        let mut begun = 0;
        for at in 0..calls.len() {
            push_call(&mut words, &calls[at]);
            if words.len() > MOST_WORDS || at + 1 == calls.len() {
                self.make_batch(&mut calls[begun..=at], &words)?;
                words.clear();
                begun = at + 1;
            }
        }
        Ok(())
    }
}

impl Drop for Back {
    fn drop(&mut self) {
        // The end of its input ends the bridge.
        self.input = None;
        let _ = self.child.wait();
    }
}
