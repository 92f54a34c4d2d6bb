//! Records off a link: streams offered in portions of any size to a reader with any limit, the end told at any time, and more
//! offered after it.
//!
//! The second reading of the request: where the records of a stream end is read off the whole stream, so that what a portion
//! must take and print follows from two places in it, and what must be held from the bytes of the records so far. The lines
//! are the original's.

use std::fs;
use std::path::Path;

use crate::batch::{self, Drawn, Kind};
use crate::kernel::{Call, Kernel};
use crate::records::{Fed, Reader, Record};
use crate::report::{Verdict, differs_on_records};
use crate::rng::Rng;
use crate::same::same;
use crate::solves::expect;
use crate::standard::ORIGINAL;
use crate::stream::{
    Piece, damaged_record, decode_body, first_difference, number_at, piece_text, pieces, same_line,
};
use crate::task::{HEADER, flat};

/// The bytes of a record before its rows, the floats of the most rows, and the room for a text.
pub const HEAD: usize = 55;
pub const FLOATS: usize = 6144;
pub const TEXT: usize = 149;

/// What stands in the memory of a reader before it is started, and in the room for a text before each call.
pub const HEAD_BEFORE: u8 = 0xA5;
pub const ROW_BEFORE: f64 = 7.5;
pub const TEXT_BEFORE: u8 = 0x5A;

/// Told among the sizes of offers: the end.
pub const THE_END: u64 = u64::MAX;

/// A stream and what is done with it.
#[derive(Clone, Debug)]
pub struct Session {
    pub limit: u64,
    pub bytes: Vec<u8>,
    /// How many of the bytes that are not taken yet are offered, or `THE_END`, one after the other.
    pub offers: Vec<u64>,
    /// How many floats of the rows are looked at one by one afterwards.
    pub shown: usize,
}

/// What an offer, or the end, left.
#[derive(Clone, Debug)]
pub struct Step {
    pub fed: Fed,
    pub text: Vec<u8>,
}

/// What a session left.
#[derive(Clone, Debug, Default)]
pub struct Left {
    pub steps: Vec<Step>,
    pub head: Vec<u8>,
    pub rows: Vec<f64>,
    /// How many floats past those shown have other bits than before the start.
    pub changed: u64,
}

// ---- the second reading

/// What an offer must leave.
struct Wanted {
    fed: Fed,
    text: String,
}

/// The refusal that a header tells: 9, 10 or 2, or 0.
fn number_of(kind: u16, length: usize) -> u64 {
    match (kind, length) {
        (1, 49..) if (length - 49).is_multiple_of(24) => {
            if (length - 49) / 24 > 2048 {
                2
            } else {
                0
            }
        }
        (1, _) => 10,
        _ => 9,
    }
}

/// Where a record begins, and where it ends if all of it counts.
struct Placed {
    begin: usize,
    end: Option<usize>,
}

fn placed(counted: &[u8]) -> Vec<Placed> {
    let mut begin = 0;
    pieces(counted)
        .iter()
        .map(|piece| {
            let end = match piece {
                Piece::Whole(_, body) => Some(begin + HEADER + body.len()),
                Piece::Cut => None,
            };
            let placed = Placed { begin, end };
            begin = end.unwrap_or(counted.len());
            placed
        })
        .collect()
}

/// The bytes of a record that were seen, and what of them is held: so many first ones, and the rows.
struct Seen<'a> {
    bytes: &'a [u8],
    kept: usize,
    rows: &'a [u8],
}

fn seen(bytes: &[u8]) -> Seen<'_> {
    let number = if bytes.len() < HEADER {
        9
    } else {
        let length = u32::from_le_bytes([bytes[0], bytes[1], bytes[2], bytes[3]]) as usize;
        number_of(u16::from_le_bytes([bytes[4], bytes[5]]), length)
    };
    let kept = match number {
        0 | 2 => HEAD,
        _ => HEADER,
    };
    let rows = if number == 0 {
        &bytes[HEAD.min(bytes.len())..]
    } else {
        &[]
    };
    Seen {
        bytes,
        kept: kept.min(bytes.len()),
        rows,
    }
}

/// The bytes of a float as far as they are there, as a number with the latest on top.
fn word_of(rows: &[u8]) -> u64 {
    let begun = rows.chunks(8).next_back().unwrap_or(&[]);
    let mut eight = [0; 8];
    eight[8 - begun.len()..].copy_from_slice(begun);
    u64::from_le_bytes(eight)
}

/// The rows of a record that was solved, as the solve leaves them.
fn rows_left(body: &[u8]) -> Result<Option<Vec<f64>>, String> {
    let Ok((task, allowance)) = decode_body(body) else {
        return Ok(None);
    };
    let expected = expect(&ORIGINAL, &task)?;
    if expected.run.readings <= allowance {
        return Ok(Some(flat(&expected.rows)));
    }
    let mut rows = task.rows.clone();
    let ends = &expected.run.normalised_at[..expected.run.normalisations];
    for _ in ends.iter().filter(|&&at| at <= allowance) {
        ORIGINAL.first().normalize(&mut rows);
    }
    Ok(Some(flat(&rows)))
}

/// A stream as a reader with a limit must take it.
struct Reading<'a> {
    counted: &'a [u8],
    limit: u64,
    records: Vec<Placed>,
    lines: Vec<String>,
}

impl Reading<'_> {
    fn of(session: &Session) -> Result<Reading<'_>, String> {
        let limit = session.limit.min(1 << 63);
        let counted = &session.bytes[..session.bytes.len().min(limit as usize)];
        let found = pieces(counted);
        let lines: Result<Vec<String>, String> = found
            .iter()
            .map(|piece| piece_text(&ORIGINAL, piece))
            .collect();
        Ok(Reading {
            counted,
            limit,
            records: placed(counted),
            lines: lines?,
        })
    }

    /// The records that have begun before `at`, with what was seen of each.
    fn begun(&self, at: usize) -> impl Iterator<Item = Seen<'_>> {
        let at = at.min(self.counted.len());
        self.records
            .iter()
            .filter(move |record| record.begin < at)
            .map(move |record| seen(&self.counted[record.begin..record.end.unwrap_or(at).min(at)]))
    }

    /// How many records have ended at `at`.
    fn ended(&self, at: usize) -> usize {
        let ends = self.records.iter().filter_map(|record| record.end);
        ends.filter(|&end| end <= at).count()
    }

    /// The reader's numbers after so many bytes were taken.
    fn reader(&self, at: usize, live: bool) -> Reader {
        let lines = self.ended(at);
        let counted = at.min(self.counted.len());
        let passed = match self.records.get(lines) {
            Some(record) => counted - record.begin,
            None => 0,
        };
        let word = self.begun(at).map(|seen| seen.rows);
        Reader {
            live: u64::from(live),
            lines: lines as u64,
            left: self.limit - counted as u64,
            passed,
            word: word
                .filter(|rows| !rows.is_empty())
                .last()
                .map_or(0, word_of),
        }
    }

    /// What an offer of the bytes from `at` to `to` takes.
    fn taken(&self, at: usize, to: usize) -> usize {
        let mut ends = self.records.iter().filter_map(|record| record.end);
        ends.find(|&end| end > at).map_or(to, |end| end.min(to)) - at
    }

    fn line(&self, number: usize) -> String {
        format!("{} {}\n", number + 1, self.lines[number])
    }

    /// The last lines after so many bytes.
    fn last(&self, at: usize) -> String {
        let lines = self.ended(at);
        if self.reader(at, true).passed == 0 {
            format!("end {lines}\n")
        } else {
            format!("{} refused 8\nend {}\n", lines + 1, lines + 1)
        }
    }

    fn wanted(&self, session: &Session) -> Vec<Wanted> {
        let mut at = 0;
        let mut live = true;
        let mut wanted = Vec::new();
        for &offer in &session.offers {
            let refusal = if live { 0 } else { 12 };
            let before = at;
            let mut text = String::new();
            if offer == THE_END {
                if live {
                    text = self.last(at);
                }
                live = false;
            } else if live {
                let to = session.bytes.len().min(at.saturating_add(offer as usize));
                at += self.taken(at, to);
                if self.ended(at) > self.ended(before) {
                    text = self.line(self.ended(before));
                }
            }
            let fed = Fed::of(refusal, at - before, text.len(), self.reader(at, live));
            wanted.push(Wanted { fed, text });
        }
        wanted
    }

    /// What the memory must hold after so many bytes.
    fn memory(&self, at: usize) -> Result<(Vec<u8>, Vec<f64>), String> {
        let mut head = vec![HEAD_BEFORE; HEAD];
        let mut rows = vec![ROW_BEFORE; FLOATS];
        let ended = self.ended(at);
        for (number, seen) in self.begun(at).enumerate() {
            head[..seen.kept].copy_from_slice(&seen.bytes[..seen.kept]);
            for (float, eight) in rows.iter_mut().zip(seen.rows.chunks_exact(8)) {
                *float = f64::from_bits(number_at(eight, 0));
            }
            let solved = number < ended && !seen.rows.is_empty();
            if solved && let Some(left) = rows_left(&seen.bytes[HEADER..])? {
                rows[..left.len()].copy_from_slice(&left);
            }
        }
        Ok((head, rows))
    }
}

// ---- the judgement

fn judge_step(number: usize, wanted: &Wanted, got: &Step) -> Result<(), String> {
    let differs = |what: String| Err(format!("offer {number}: {what}"));
    if !wanted.fed.same_words(&got.fed) {
        return differs(format!("{:?} in place of {:?}", got.fed, wanted.fed));
    }
    let (text, behind) = got.text.split_at(wanted.text.len());
    let text = String::from_utf8_lossy(text);
    let lines: (Vec<&str>, Vec<&str>) = (
        wanted.text.split('\n').collect(),
        text.split('\n').collect(),
    );
    let alike = lines.0.len() == lines.1.len()
        && lines.0.iter().zip(&lines.1).all(|(w, g)| same_line(w, g));
    if !alike {
        return differs(format!("{text:?} in place of {:?}", wanted.text));
    }
    if behind.iter().any(|&byte| byte != TEXT_BEFORE) {
        return differs("bytes behind the text changed".to_string());
    }
    Ok(())
}

fn judge(session: &Session, left: &Left) -> Result<(), String> {
    let reading = Reading::of(session)?;
    let wanted = reading.wanted(session);
    if wanted.len() != left.steps.len() {
        return Err("an offer was not answered".to_string());
    }
    for (number, (wanted, got)) in wanted.iter().zip(&left.steps).enumerate() {
        judge_step(number, wanted, got)?;
    }
    let taken = wanted.iter().map(|step| step.fed.taken).sum();
    let (head, rows) = reading.memory(taken)?;
    if head != left.head {
        return Err(format!("held {:?} in place of {head:?}", left.head));
    }
    let shown = rows.iter().zip(&left.rows);
    if left.rows.len() != session.shown || !shown.clone().all(|(w, g)| same(*w, *g)) {
        return Err("the rows that are held differ".to_string());
    }
    let behind = rows[session.shown..].iter();
    let changed = behind.filter(|row| row.to_bits() != ROW_BEFORE.to_bits());
    if left.changed != changed.count() as u64 {
        return Err(format!("{} floats behind the rows changed", left.changed));
    }
    Ok(())
}

// ---- the vectors

/// A file of a folder of vectors for the request, `None` where there is none.
fn vector(folder: &Path, number: usize, ending: &str) -> Option<Vec<u8>> {
    fs::read(folder.join(format!("requests/fed-{number}.{ending}"))).ok()
}

/// The bytes offered and taken, a portion to a line.
fn cuts(text: &str) -> Vec<(u64, usize)> {
    let pair = |line: &str| {
        let (offered, taken) = line.split_once(' ')?;
        Some((offered.parse().ok()?, taken.parse().ok()?))
    };
    text.lines().filter_map(pair).collect()
}

fn check_vector(
    number: usize,
    bytes: Vec<u8>,
    folder: &Path,
    kernel: &mut Kernel,
) -> Result<u64, String> {
    let differs = |what: String| format!("vectors, fed-{number}: {what}");
    let text_of = |ending: &str| {
        let bytes =
            vector(folder, number, ending).ok_or(differs(format!("there is no .{ending}")))?;
        String::from_utf8(bytes).map_err(|error| differs(error.to_string()))
    };
    let cuts = cuts(&text_of("cuts")?);
    let session = Session {
        limit: 1 << 63,
        bytes,
        offers: cuts
            .iter()
            .map(|&(offered, _)| offered)
            .chain([THE_END])
            .collect(),
        shown: FLOATS,
    };
    let mut calls = [Call::link(session.clone())];
    kernel.make(&mut calls)?;
    let [Call::Link { left, .. }] = &calls else {
        return Err(differs("no link".to_string()));
    };
    judge(&session, left).map_err(differs)?;
    let mut said = String::new();
    for (step, wanted) in left
        .steps
        .iter()
        .zip(cuts.iter().map(|&(_, taken)| taken).chain([0]))
    {
        if step.fed.taken != wanted {
            return Err(differs(format!(
                "{} bytes taken in place of {wanted}",
                step.fed.taken
            )));
        }
        said += &String::from_utf8_lossy(&step.text[..step.fed.printed]);
    }
    let lines = text_of("2.out")?;
    let lines: Vec<String> = lines.lines().map(str::to_string).collect();
    match first_difference(str::eq, &lines, &said) {
        None => Ok(cuts.len() as u64),
        Some(what) => Err(differs(what)),
    }
}

/// Runs the vectors for the request that a folder has; gives the number of portions.
pub fn check_vectors(folder: &Path, kernel: &mut Kernel) -> Result<u64, String> {
    let mut portions = 0;
    for number in 1.. {
        let Some(bytes) = vector(folder, number, "bin") else {
            break;
        };
        portions += check_vector(number, bytes, folder, kernel)?;
    }
    Ok(portions)
}

// ---- the sessions

fn some_offers(rng: &mut Rng, length: usize) -> Vec<u64> {
    let most = rng
        .pick(&[1, 7, 64, 300, 5000, 100_000])
        .max(length / 60 + 1);
    let mut offers = Vec::new();
    let mut offered = 0;
    while offered < length + length / 4 && offers.len() < 300 {
        let offer = if rng.once_in(12) {
            0
        } else {
            rng.size(1, most)
        };
        offers.push(offer as u64);
        offered += offer;
        if rng.once_in(200) {
            offers.push(THE_END);
        }
    }
    offers.extend([length as u64; 3]);
    offers.push(THE_END);
    offers.extend([0, 5, THE_END]);
    offers
}

fn some_limit(rng: &mut Rng, length: usize) -> u64 {
    match rng.below(8) {
        0 => rng.size(0, length) as u64,
        1 => length as u64,
        2 => rng.bits(),
        _ => 1 << 63,
    }
}

fn draw(rng: &mut Rng) -> Session {
    let mut bytes = Vec::new();
    for _ in 0..rng.size(0, 3) {
        bytes.extend(damaged_record(rng));
    }
    if rng.once_in(3) {
        bytes.truncate(rng.size(0, bytes.len()));
    }
    let shown = if bytes.len() > 2000 { FLOATS } else { 256 };
    Session {
        limit: some_limit(rng, bytes.len()),
        offers: some_offers(rng, bytes.len()),
        bytes,
        shown,
    }
}

/// Drawn sessions, each held to the second reading.
pub fn links(kernel: &mut Kernel, rng: &mut Rng, cases: u64) -> Verdict {
    let kind: Kind<Session> = Kind {
        at_once: 32,
        draw: &|rng: &mut Rng, _| -> Drawn<Session> {
            let session = draw(rng);
            let call = Call::link(session.clone());
            (session, vec![call])
        },
        judge: &|session: &Session, calls: &[Call]| match &calls[0] {
            Call::Link { left, .. } => judge(session, left),
            _ => Err("not a link".to_string()),
        },
        tell: &|session: &Session, what: String| {
            let what = format!(
                "{what} (limit {}, offers {:?})",
                session.limit, session.offers
            );
            differs_on_records(what, session.bytes.clone())
        },
    };
    batch::run(&kind, kernel, rng, cases)
}
