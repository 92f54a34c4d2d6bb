//! Streams of records: a decoder of its own that answers with the original, the vectors, and damaged streams for `rowrun`.

use std::env;
use std::fs;
use std::io::{Read, Write};
use std::path::{Path, PathBuf};
use std::process::{Command, Stdio};
use std::sync::OnceLock;
use std::thread;

use crate::kernel::Kernel;
use crate::report::{Verdict, differs_on_records, hex, row_text};
use crate::rng::Rng;
use crate::signs;
use crate::solves::{self, ENOUGH, Expected, expect, kind_of};
use crate::standard::{ORIGINAL, SIGNS, Standard};
use crate::task::{FIXED, HEADER, ROW, Row, Task, record};
use crate::values;

/// The most rows that a record may have.
const MOST_ROWS: usize = 2048;

fn float_at(bytes: &[u8], at: usize) -> f64 {
    f64::from_bits(number_at(bytes, at))
}

pub(crate) fn number_at(bytes: &[u8], at: usize) -> u64 {
    let mut eight = [0; 8];
    eight.copy_from_slice(&bytes[at..at + 8]);
    u64::from_le_bytes(eight)
}

/// What a body of kind 1 says, or the refusal of a body that says nothing.
pub(crate) fn decode_body(body: &[u8]) -> Result<(Task, u64), u64> {
    if body.len() < FIXED || !(body.len() - FIXED).is_multiple_of(ROW) || body[FIXED - 1] > 1 {
        return Err(10);
    }
    if (body.len() - FIXED) / ROW > MOST_ROWS {
        return Err(2);
    }
    let rows: Vec<Row> = body[FIXED..]
        .chunks_exact(ROW)
        .map(|row| (float_at(row, 0), float_at(row, 8), float_at(row, 16)))
        .collect();
    let task = Task {
        rows,
        feasibility: float_at(body, 0),
        scale: float_at(body, 8),
        x0: float_at(body, 16),
        y0: float_at(body, 24),
        skip: number_at(body, 32) as usize,
        normalize: body[FIXED - 1] == 1,
    };
    Ok((task, number_at(body, 40)))
}

/// One record of a stream.
pub(crate) enum Piece<'a> {
    Cut,
    Whole(u16, &'a [u8]),
}

/// The records of a stream, the cut one last.
pub(crate) fn pieces(bytes: &[u8]) -> Vec<Piece<'_>> {
    let mut found = Vec::new();
    let mut rest = bytes;
    while !rest.is_empty() {
        if rest.len() < HEADER {
            found.push(Piece::Cut);
            break;
        }
        let length = u32::from_le_bytes([rest[0], rest[1], rest[2], rest[3]]) as usize;
        let kind = u16::from_le_bytes([rest[4], rest[5]]);
        if rest.len() - HEADER < length {
            found.push(Piece::Cut);
            break;
        }
        found.push(Piece::Whole(kind, &rest[HEADER..HEADER + length]));
        rest = &rest[HEADER + length..];
    }
    found
}

fn answer_text(expected: &Expected) -> String {
    let answer = &expected.answer;
    let rows = format!(
        "{} {} {}",
        row_text(answer.first),
        row_text(answer.second),
        expected.run.readings
    );
    match kind_of(answer.x, answer.y) {
        1 => format!("point {} {} {rows}", hex(answer.x), hex(answer.y)),
        2 => format!("level {} {rows}", hex(answer.y)),
        3 => format!("across {} {rows}", hex(answer.x)),
        _ => format!("nothing {rows}"),
    }
}

pub(crate) fn piece_text(by: &Standard, piece: &Piece<'_>) -> Result<String, String> {
    let refused = |number: u64| Ok(format!("refused {number}"));
    match piece {
        Piece::Cut => refused(8),
        Piece::Whole(1, body) => match decode_body(body) {
            Err(number) => refused(number),
            Ok((task, allowance)) => {
                let expected = expect(by, &task)?;
                if expected.run.readings > allowance {
                    refused(3)
                } else {
                    Ok(answer_text(&expected))
                }
            }
        },
        Piece::Whole(..) => refused(9),
    }
}

/// The lines for a stream, by a standard.
fn lines_by(by: &Standard, bytes: &[u8]) -> Result<Vec<String>, String> {
    let mut lines = Vec::new();
    for piece in pieces(bytes) {
        let text = piece_text(by, &piece)?;
        lines.push(format!("{} {text}", lines.len() + 1));
    }
    lines.push(format!("end {}", lines.len()));
    Ok(lines)
}

/// The lines that `rowrun` must print for a stream: those by the copy whose `min` and `max` order zeros, which must be the
/// original's but for the signs of zeros.
pub fn lines_of(bytes: &[u8]) -> Result<Vec<String>, String> {
    let lines = lines_by(&SIGNS, bytes)?;
    match first_difference(same_line, &lines_by(&ORIGINAL, bytes)?, &text_of(&lines)) {
        None => Ok(lines),
        Some(what) => Err(format!("with zeros in order {what}, the original's")),
    }
}

/// Lines, each with its end.
pub fn text_of(lines: &[String]) -> String {
    lines.iter().map(|line| format!("{line}\n")).collect()
}

/// Whether a line, the second, is what it must be where the first is wanted.
type SameLine = fn(&str, &str) -> bool;

/// Whether two words of a line are the same; the bits of zeros of either sign are.
fn same_word(left: &str, right: &str) -> bool {
    const ZEROS: [&str; 2] = ["0000000000000000", "8000000000000000"];
    left == right || (ZEROS.contains(&left) && ZEROS.contains(&right))
}

/// The same up to the signs of zeros.
pub(crate) fn same_line(left: &str, right: &str) -> bool {
    let (left, right): (Vec<&str>, Vec<&str>) =
        (left.split(' ').collect(), right.split(' ').collect());
    left.len() == right.len() && left.iter().zip(&right).all(|(l, r)| same_word(l, r))
}

/// The first line in which an output is not what is wanted.
pub(crate) fn first_difference(same: SameLine, wanted: &[String], got: &str) -> Option<String> {
    let mut got_lines = got.split('\n');
    for line in wanted {
        let other = got_lines.next().unwrap_or("");
        if !same(line, other) {
            return Some(format!("`{other}` in place of `{line}`"));
        }
    }
    let rest: Vec<&str> = got_lines.collect();
    (rest != [""]).then(|| format!("after the last line: {rest:?}"))
}

// ---- the vectors ----

/// The files that a folder may have, the first of these that it has: records, their lines, and how closely those are held.
/// The lines of records.out were made before zeros had an order.
const FILES: [(&str, &str, SameLine); 3] = [
    ("records.bin", "requests/records.2.out", str::eq),
    ("records.bin", "records.out", same_line),
    ("stdin", "stdout", str::eq),
];

/// The records of a folder's vectors, whose lines must be those that `rowrun` must print.
fn vector_records(folder: &Path) -> Result<Vec<u8>, String> {
    let (records, lines, same) = FILES
        .map(|(records, lines, same)| (folder.join(records), folder.join(lines), same))
        .into_iter()
        .find(|(records, lines, _)| records.is_file() && lines.is_file())
        .ok_or(format!("no records in {}", folder.display()))?;
    let read = |path: &Path| fs::read(path).map_err(|error| format!("{}: {error}", path.display()));
    let bytes = read(&records)?;
    let text = String::from_utf8(read(&lines)?).map_err(|error| error.to_string())?;
    match first_difference(same, &lines_of(&bytes)?, &text) {
        None => Ok(bytes),
        Some(what) => Err(format!("vectors, {}: {what}", lines.display())),
    }
}

/// Runs the vectors: both standards, with the count, must give their lines, and the kernel must do what each says. Gives the
/// number of records.
pub fn check_vectors(folder: &Path, kernel: &mut Kernel) -> Result<u64, String> {
    let bytes = vector_records(folder)?;
    let records = pieces(&bytes);
    for (at, piece) in records.iter().enumerate() {
        if let Piece::Whole(1, body) = piece
            && let Ok((task, _)) = decode_body(body)
        {
            solves::check(&task, kernel, &mut Rng::new(at as u64, 0))
                .and_then(|()| signs::check(&task, kernel))
                .map_err(|what| format!("vectors, record {}: {what}", at + 1))?;
        }
    }
    Ok(records.len() as u64)
}

// ---- damaged streams ----

static ROWRUN: OnceLock<PathBuf> = OnceLock::new();

/// Names the program that is fed.
pub fn set_rowrun(path: PathBuf) {
    let _ = ROWRUN.set(path);
}

fn small_task(rng: &mut Rng) -> Task {
    let mut task = match rng.below(8) {
        0 => solves::special(rng),
        1 => solves::grid(rng),
        2 => solves::warm(rng),
        3 => solves::any_bits(rng),
        4 => solves::edges(rng),
        5 => solves::coincident(rng),
        6 => solves::boxes(rng),
        _ => solves::planner(rng),
    };
    task.rows.truncate(rng.pick(&[0, 1, 2, 3, 4, 6, 8, 12]));
    task
}

fn some_allowance(rng: &mut Rng, task: &Task) -> u64 {
    match rng.below(6) {
        0 => rng.below(40),
        1 | 2 => {
            let count = expect(&ORIGINAL, task).map_or(0, |expected| expected.run.readings);
            let near: [u64; 3] = [count, count.saturating_sub(1), count + 1];
            rng.pick(&near)
        }
        3 => rng.pick(&[0, 1, 1 << 63, 1000]),
        _ => ENOUGH,
    }
}

/// A body of kind 1 that is well-formed.
fn good_body(rng: &mut Rng) -> Vec<u8> {
    let task = small_task(rng);
    let allowance = some_allowance(rng, &task);
    task.body(allowance)
}

fn flip_bytes(rng: &mut Rng, bytes: &mut [u8]) {
    for _ in 0..rng.size(1, 4) {
        let at = rng.size(0, bytes.len() - 1);
        bytes[at] ^= 1 << rng.below(8);
    }
}

fn random_bytes(rng: &mut Rng, length: usize) -> Vec<u8> {
    (0..length).map(|_| rng.bits() as u8).collect()
}

/// A record of 2,049 rows, or of just as many as allowed; these are long, so seldom.
fn long_record(rng: &mut Rng) -> Vec<u8> {
    let mut task = Task::plain();
    let size = if rng.once_in(4) {
        MOST_ROWS
    } else {
        rng.size(2049, 2060)
    };
    task.rows = solves::planner_rows(rng, size);
    let mut body = task.body(ENOUGH);
    if rng.once_in(3) {
        body[FIXED - 1] = rng.size(0, 255) as u8;
    }
    record(1, &body)
}

fn unknown_kind(rng: &mut Rng) -> u16 {
    match rng.below(4) {
        0 => 0,
        1 => 256,
        2 => rng.pick(&[3, 4, 257, 0x0101, 0xFFFF]),
        _ => (rng.bits() as u16).max(3),
    }
}

/// A record that keeps the stream in step: good, flipped, of wrong size, of unknown kind, or with a wrong normalise byte.
pub(crate) fn damaged_record(rng: &mut Rng) -> Vec<u8> {
    match rng.below(200) {
        0..=89 => record(1, &good_body(rng)),
        90..=139 => {
            let mut body = good_body(rng);
            flip_bytes(rng, &mut body);
            record(1, &body)
        }
        140..=154 => {
            let mut body = good_body(rng);
            body.truncate(rng.size(0, body.len() - 1));
            record(1, &body)
        }
        155..=164 => {
            let mut body = good_body(rng);
            let more = rng.size(1, 30);
            body.extend(random_bytes(rng, more));
            record(1, &body)
        }
        165..=179 => {
            let length = rng.pick(&[0, 1, 5, 48, 49, 50, 73, 97, 200]);
            let body = random_bytes(rng, length);
            record(unknown_kind(rng), &body)
        }
        180..=189 => {
            let mut body = good_body(rng);
            body[FIXED - 1] = rng.size(2, 255) as u8;
            record(1, &body)
        }
        190..=197 => {
            let length = rng.size(0, 120);
            let body = random_bytes(rng, length);
            record(1, &body)
        }
        198 if rng.once_in(20) => long_record(rng),
        199 if rng.once_in(20) => {
            let length = rng.size(1 << 16, 1 << 20);
            let kind = if rng.once_in(2) { unknown_kind(rng) } else { 1 };
            record(kind, &vec![values::any_bits(rng).to_bits() as u8; length])
        }
        _ => record(1, &good_body(rng)),
    }
}

/// A stream of records with, at times, its end cut or its bytes put out of step.
fn damaged_stream(rng: &mut Rng) -> Vec<u8> {
    let most = rng.pick(&[0, 1, 3, 50, 400, 800]);
    let mut stream = Vec::new();
    for _ in 0..rng.size(0, most) {
        stream.extend(damaged_record(rng));
    }
    match rng.below(4) {
        // Cut anywhere in the last bytes.
        0 if !stream.is_empty() => {
            let cut = rng.size(1, stream.len().min(200));
            stream.truncate(stream.len() - cut);
        }
        // A header that promises more than there is, of any kind.
        1 => {
            let promised = rng.pick(&[1, 49, 97, 1 << 20, u32::MAX]);
            stream.extend(promised.to_le_bytes());
            stream.extend(rng.pick(&[1u16, 0, 2, 9]).to_le_bytes());
            let there = rng.size(0, 40).min(promised as usize - 1);
            stream.extend(random_bytes(rng, there));
        }
        // A byte lost, doubled or changed near the end, whatever it belongs to.
        2 if stream.len() > 1 => {
            let at = stream.len() - rng.size(1, stream.len().min(3000));
            match rng.below(3) {
                0 => {
                    stream.remove(at);
                }
                1 => stream.insert(at, rng.bits() as u8),
                _ => stream[at] = rng.bits() as u8,
            }
        }
        _ => {}
    }
    stream
}

/// Feeds a stream in pieces of at most `most` bytes and gives what is printed.
fn feed(program: &Path, stream: &[u8], most: usize, rng: &mut Rng) -> Result<String, String> {
    // Words before the program: an emulator and a loader where the machine cannot run it by itself.
    let runner = env::var("COMPARE_RUNNER").unwrap_or_default();
    let program = program.display().to_string();
    let mut words = runner.split_whitespace().chain([program.as_str()]);
    let mut child = Command::new(words.next().unwrap_or(&program))
        .args(words)
        .stdin(Stdio::piped())
        .stdout(Stdio::piped())
        .spawn()
        .map_err(|error| format!("cannot start {program}: {error}"))?;
    let mut input = child.stdin.take().ok_or("no standard input")?;
    let mut output = child.stdout.take().ok_or("no standard output")?;
    let mut printed = String::new();
    thread::scope(|scope| {
        scope.spawn(move || {
            let mut rest = stream;
            while !rest.is_empty() {
                let piece = rng.size(1, most).min(rest.len());
                // The program may end before it has read everything; what it printed says enough.
                if input.write_all(&rest[..piece]).is_err() {
                    break;
                }
                rest = &rest[piece..];
            }
        });
        output.read_to_string(&mut printed)
    })
    .map_err(|error| format!("output is not text: {error}"))?;
    let status = child.wait().map_err(|error| error.to_string())?;
    if status.success() {
        Ok(printed)
    } else {
        Err(format!("ended with {status}"))
    }
}

fn check_stream(program: &Path, stream: &[u8], rng: &mut Rng) -> Result<u64, String> {
    let wanted = lines_by(&ORIGINAL, stream)?;
    let most = if stream.len() < 5000 {
        rng.pick(&[1, 3, 7, 64])
    } else {
        rng.pick(&[100, 4096, 65536, 1 << 20])
    };
    let printed = feed(program, stream, most, rng)?;
    match first_difference(same_line, &wanted, &printed) {
        None => Ok(wanted.len() as u64 - 1),
        Some(what) => Err(format!("rowrun prints {what}")),
    }
}

/// Takes records out of a failing stream while it goes on failing.
fn shrink_stream(program: &Path, stream: &[u8]) -> Vec<u8> {
    let mut small: Vec<Vec<u8>> = pieces(stream)
        .iter()
        .filter_map(|piece| match piece {
            Piece::Whole(kind, body) => Some(record(*kind, body)),
            Piece::Cut => None,
        })
        .collect();
    let whole: usize = small.iter().map(Vec::len).sum();
    small.push(stream[whole..].to_vec());
    let fails =
        |parts: &[Vec<u8>]| check_stream(program, &parts.concat(), &mut Rng::new(1, 1)).is_err();
    let mut size = small.len();
    while size > 0 {
        let mut at = 0;
        while at < small.len() {
            let mut tried = small.clone();
            tried.drain(at..small.len().min(at + size));
            if fails(&tried) {
                small = tried;
            } else {
                at += size;
            }
        }
        size /= 2;
    }
    small.concat()
}

/// Feeds damaged streams until `cases` records were answered.
pub fn streams(_: &mut Kernel, rng: &mut Rng, cases: u64) -> Verdict {
    let Some(program) = ROWRUN.get() else {
        return Err(differs_on_records(
            "no rowrun was named".to_string(),
            Vec::new(),
        ));
    };
    let mut answered = 0;
    while answered < cases {
        let stream = damaged_stream(rng);
        match check_stream(program, &stream, rng) {
            Ok(lines) => answered += lines,
            Err(what) => {
                let small = shrink_stream(program, &stream);
                let why = check_stream(program, &small, &mut Rng::new(1, 1))
                    .err()
                    .unwrap_or(what);
                return Err(differs_on_records(why, small));
            }
        }
    }
    Ok(())
}
