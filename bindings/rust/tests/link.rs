//! Records through a link: in whatever portions their bytes come, the lines are those of the whole.

use std::cell::Cell;
use std::fs;
use std::io::{self, ErrorKind, Read};

use ravelsickle::*;

/// The lines of 13.12 in `docs/RULES.md`.
const SAMPLE_LINES: &str = "\
1 point 3FF0000000000000 3FF0000000000000 0 1 7
2 point 0000000000000000 4000000000000000 1 - 23
end 2
";

/// A record of kind 9 with an empty body.
const STRANGE: [u8; 6] = [0, 0, 0, 0, 9, 0];

/// A record with the usual task, allowance 1000 and this normalise byte.
fn record(rows: &[Row], normalize: u8) -> Vec<u8> {
    let length = 49 + 24 * u32::try_from(rows.len()).expect("a few rows");
    let mut bytes = length.to_le_bytes().to_vec();
    bytes.extend(1u16.to_le_bytes());
    for x in [1e-9, 10.0, 0.0, BEYOND] {
        bytes.extend(x.to_le_bytes());
    }
    bytes.extend(0u64.to_le_bytes());
    bytes.extend(1000u64.to_le_bytes());
    bytes.push(normalize);
    for row in rows {
        for x in [row.a, row.b, row.c] {
            bytes.extend(x.to_le_bytes());
        }
    }
    bytes
}

/// The records of 13.12: S3 and S4.
fn sample() -> Vec<u8> {
    let s3 = [Row::new(1.0, 1.0, 2.0), Row::new(-1.0, 1.0, 0.0)];
    let s4 = [Row::new(0.0, 1.0, 1.0), Row::new(0.0, -1.0, -2.0)];
    [record(&s3, 0), record(&s4, 0)].concat()
}

/// What the program `rowrun` reads and prints in its test.
fn rowrun() -> (Vec<u8>, String) {
    let folder = concat!(env!("CARGO_MANIFEST_DIR"), "/../../crates/rowrun");
    let input = fs::read(format!("{folder}/stdin")).expect("rowrun has records");
    let lines = fs::read_to_string(format!("{folder}/stdout")).expect("rowrun has lines");
    (input, lines)
}

/// Numbers that look like chance, by Marsaglia's shifts.
struct Chance(u64);

impl Chance {
    /// A number from 1 to `most`.
    fn up_to(&mut self, most: usize) -> usize {
        self.0 ^= self.0 << 13;
        self.0 ^= self.0 >> 7;
        self.0 ^= self.0 << 17;
        1 + (self.0 >> 11) as usize % most
    }

    /// The bytes in portions of up to `most`, now and then of one.
    fn cut<'a>(&mut self, mut bytes: &'a [u8], most: usize) -> Vec<&'a [u8]> {
        let mut portions = Vec::new();
        while !bytes.is_empty() {
            let length = match self.up_to(8) {
                1 => 1,
                _ => self.up_to(most).min(bytes.len()),
            };
            let (portion, rest) = bytes.split_at(length);
            portions.push(portion);
            bytes = rest;
        }
        portions
    }
}

/// Lines as a program prints them.
fn text(lines: impl IntoIterator<Item = Line>) -> String {
    lines.into_iter().map(|line| format!("{line}\n")).collect()
}

/// All that a link gives for these portions and the end.
fn fed_to(link: &mut Link, portions: &[&[u8]]) -> String {
    let mut said = String::new();
    for portion in portions {
        said += &text(link.feed(portion).expect("the link listens"));
    }
    said + &text(link.end().expect("the link listens"))
}

fn fed(portions: &[&[u8]]) -> String {
    fed_to(&mut Link::new(), portions)
}

#[test]
fn the_sample_in_every_cut() {
    let records = sample();
    assert_eq!(fed(&[&records]), SAMPLE_LINES);
    for at in 0..=records.len() {
        let (first, second) = records.split_at(at);
        assert_eq!(fed(&[first, second]), SAMPLE_LINES, "cut at {at}");
    }
    let bytes: Vec<&[u8]> = records.chunks(1).collect();
    assert_eq!(fed(&bytes), SAMPLE_LINES);
}

#[test]
fn the_records_of_rowrun_cut_at_random() {
    let (records, lines) = rowrun();
    assert_eq!(fed(&[&records]), lines);
    for (seed, most) in [(1, 100), (2, 1000), (3, 30_000)] {
        assert_eq!(fed(&Chance(seed).cut(&records, most)), lines, "seed {seed}");
    }
}

#[test]
fn a_step_ends_with_a_record() {
    let records = sample();
    let (first, second) = records.split_at(103);
    let mut link = Link::new();
    let taken = link.take(&records).expect("the link listens");
    assert_eq!(taken.bytes, first.len());
    assert_eq!(
        taken.line.map(|line| line.to_string()).as_deref(),
        SAMPLE_LINES.lines().next()
    );
    let taken = link.take(&second[..40]).expect("the link listens");
    assert_eq!((taken.bytes, taken.line), (40, None));
}

#[test]
fn an_empty_body_has_its_line_with_the_sixth_byte() {
    for (kind, line) in [(1, "1 refused 10"), (9, "1 refused 9")] {
        let mut link = Link::new();
        for byte in [0, 0, 0, 0, kind] {
            assert_eq!(
                link.take(&[byte]),
                Ok(Taken {
                    bytes: 1,
                    line: None
                })
            );
        }
        let taken = link.take(&[0]).expect("the link listens");
        assert_eq!(taken.line.expect("the record ended").as_str(), line);
    }
}

#[test]
fn a_body_that_never_comes_is_cut() {
    let mut link = Link::new();
    let header = [1, 0, 0, 0, 9, 0];
    assert_eq!(link.feed(&header).map(Iterator::count), Ok(0));
    let end = link.end().expect("the link listens");
    assert_eq!(end.cut.expect("the record is cut").as_str(), "1 refused 8");
    assert_eq!(end.closing.as_str(), "end 1");
    assert_eq!(fed(&[&header[..1]]), "1 refused 8\nend 1\n");
    assert_eq!(fed(&[&header, &[7]]), "1 refused 9\nend 1\n");
    assert_eq!(fed(&[]), "end 0\n");
}

#[test]
fn a_skipped_body_of_too_many_rows() {
    let rows = vec![Row::new(0.0, 1.0, 1.0); 2049];
    for (normalize, refusal) in [(0, 2), (1, 2), (2, 10), (255, 10)] {
        let records = [record(&rows, normalize), STRANGE.to_vec()].concat();
        let lines = format!("1 refused {refusal}\n2 refused 9\nend 2\n");
        assert_eq!(fed(&[&records]), lines);
        let portions: Vec<&[u8]> = records.chunks(997).collect();
        assert_eq!(fed(&portions), lines);
    }
}

#[test]
fn portions_of_no_bytes_change_nothing() {
    let records = sample();
    let mut portions: Vec<&[u8]> = vec![&[]];
    for portion in records.chunks(11) {
        portions.extend([portion, &[], &[]]);
    }
    assert_eq!(fed(&portions), SAMPLE_LINES);
}

#[test]
fn after_the_end_everything_is_refused() {
    let mut link = Link::new();
    assert_eq!(fed_to(&mut link, &[&sample()]), SAMPLE_LINES);
    let before = format!("{link:?}");
    for _ in 0..2 {
        assert_eq!(link.take(&STRANGE), Err(Refusal::Ended));
        assert_eq!(link.take(&[]), Err(Refusal::Ended));
        assert_eq!(link.feed(&STRANGE).unwrap_err(), Refusal::Ended);
        assert_eq!(link.feed(&[]).unwrap_err(), Refusal::Ended);
        assert_eq!(link.end(), Err(Refusal::Ended));
    }
    assert_eq!(format!("{link:?}"), before);
}

#[test]
fn bytes_past_a_limit_count_as_not_there() {
    let records = STRANGE.repeat(3);
    for limit in 0..=records.len() + 1 {
        let counted = limit.min(records.len());
        let said = fed(&[&records[..counted]]);
        let bytes: Vec<&[u8]> = records.chunks(1).collect();
        for portions in [vec![records.as_slice()], bytes] {
            let mut link = Link::within(limit as u64);
            assert_eq!(fed_to(&mut link, &portions), said, "limit {limit}");
        }
    }
    assert_eq!(
        Link::within(0).take(&records),
        Ok(Taken {
            bytes: 18,
            line: None
        })
    );
    for limit in [MOST_BYTES, u64::MAX] {
        let limited = format!("{:?}", Link::within(limit));
        assert_eq!(limited, format!("{:?}", Link::default()));
    }
}

#[test]
fn a_feed_that_is_dropped_takes_its_bytes() {
    let records = [sample(), STRANGE.to_vec(), sample()].concat();
    for lines in 0..5 {
        let mut link = Link::new();
        let feed = link.feed(&records[..250]).expect("the link listens");
        assert_eq!(feed.take(lines).count(), lines.min(3));
        let said = fed_to(&mut link, &[&records[250..]]);
        assert!(said.starts_with("4 point 3FF0000000000000"), "{said}");
        assert!(said.ends_with("\nend 5\n"), "{said}");
    }
}

#[test]
fn a_feed_that_is_stopped_gives_its_rest_back() {
    let records = sample();
    let mut link = Link::new();
    let mut feed = link.feed(&records).expect("the link listens");
    let first = feed.next().expect("a record ended");
    let rest = feed.rest();
    assert_eq!(rest, &records[103..]);
    let said = text([first]) + &fed_to(&mut link, &[rest]);
    assert_eq!(said, SAMPLE_LINES);
}

#[test]
fn a_line_is_text() {
    let line = Link::new().end().expect("the link listens").closing;
    assert_eq!(line.as_str(), "end 0");
    assert_eq!(line.as_ref(), "end 0");
    assert_eq!(
        format!("{line}|{line:>7}|{line:?}"),
        "end 0|  end 0|\"end 0\""
    );
    assert_eq!(Link::new().end().map(|end| end.closing), Ok(line));
}

/// An input that gives 1 to 5 bytes at a time, and now and then something else first.
struct Stutter<'a> {
    rest: &'a [u8],
    chance: Chance,
    /// How many bytes it gave.
    given: &'a Cell<usize>,
    /// What it says at its end.
    end: Option<ErrorKind>,
}

impl Read for Stutter<'_> {
    fn read(&mut self, portion: &mut [u8]) -> io::Result<usize> {
        match self.chance.up_to(8) {
            1 => return Err(ErrorKind::Interrupted.into()),
            2 => return Err(ErrorKind::WouldBlock.into()),
            _ => {}
        }
        if let (true, Some(kind)) = (self.rest.is_empty(), self.end) {
            return Err(kind.into());
        }
        let bytes = self.chance.up_to(5).min(self.rest.len());
        let got = self.rest.read(&mut portion[..bytes])?;
        self.given.set(self.given.get() + got);
        Ok(got)
    }
}

fn stutter<'a>(rest: &'a [u8], given: &'a Cell<usize>, end: Option<ErrorKind>) -> Stutter<'a> {
    Stutter {
        rest,
        chance: Chance(7),
        given,
        end,
    }
}

#[test]
fn lines_of_an_input_that_stutters() {
    let records = sample();
    let given = Cell::new(0);
    let lines: io::Result<Vec<Line>> = Lines::new(stutter(&records, &given, None)).collect();
    assert_eq!(text(lines.expect("every read succeeds")), SAMPLE_LINES);
}

#[test]
fn a_line_comes_before_more_is_read() {
    let records = STRANGE.repeat(20);
    let given = Cell::new(0);
    let lines = Lines::new(stutter(&records, &given, None));
    for (number, line) in lines.take(20).enumerate() {
        assert!(line.is_ok());
        assert!((6 * (number + 1)..6 * (number + 1) + 5).contains(&given.get()));
    }
}

#[test]
fn lines_of_an_input_of_more_than_a_portion() {
    let (records, said) = rowrun();
    let mut lines = Lines::new(records.as_slice());
    let got: io::Result<Vec<Line>> = lines.by_ref().collect();
    assert_eq!(text(got.expect("every read succeeds")), said);
    assert!(lines.next().is_none());
}

#[test]
fn an_input_that_fails_has_no_closing_line() {
    let records = sample();
    let given = Cell::new(0);
    for (bytes, whole) in [(206, 2), (205, 1), (103, 1), (5, 0), (0, 0)] {
        let failing = stutter(&records[..bytes], &given, Some(ErrorKind::ConnectionReset));
        let mut lines = Lines::new(failing);
        for line in SAMPLE_LINES.lines().take(whole) {
            let got = lines.next().expect("a line").expect("every read succeeds");
            assert_eq!(got.as_str(), line);
        }
        let error = lines.next().expect("the error").expect_err("it failed");
        assert_eq!(error.kind(), ErrorKind::ConnectionReset);
        assert!(lines.next().is_none());
        assert!(lines.next().is_none());
    }
}
