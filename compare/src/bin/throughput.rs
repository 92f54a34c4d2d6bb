//! How many records a second `rowrun` answers from a file, beside another build of it, how many the library's reader answers that is
//! fed the same bytes in portions, and how many solves a second the library makes of the same rows.
//!
//! Records of 30 planner rows, started at the box's edge, not normalised. The least time over some rounds counts. It is told
//! where the library is linked and the program runs without an emulator: on x86-64, and with `compare/run --native` elsewhere.

use std::env;
use std::fs::File;
use std::path::Path;
use std::process::{Command, ExitCode, Stdio};
use std::time::Instant;

use compare::rng::Rng;
use compare::solves::planner_rows;
use compare::task::Task;

const USAGE: &str = "throughput --rowrun PROGRAM [--beside PROGRAM] [--records N] [--rounds N] [--room FOLDER]
  --rowrun PROGRAM  the program that answers records
  --beside PROGRAM  another build of it: both take turns
  --records N       records in the file (400000)
  --rounds N        rounds (10)
  --room FOLDER     where the file of records is written and removed (the folder for temporary files)";

/// Rows of a record.
const ROWS: usize = 30;
/// Different records, repeated through the file.
const DIFFERENT: usize = 2000;
/// Readings that no record of these needs.
const ALLOWANCE: u64 = 1_000_000;

/// The sizes of portions that a reader is fed.
const PORTIONS: [usize; 3] = [1, 16, 4096];

struct Options {
    rowrun: String,
    beside: Option<String>,
    records: usize,
    rounds: u64,
    room: String,
}

fn parse_options() -> Result<Options, String> {
    let mut options = Options {
        rowrun: String::new(),
        beside: None,
        records: 400_000,
        rounds: 10,
        room: env::temp_dir().display().to_string(),
    };
    let mut given = env::args().skip(1);
    while let Some(option) = given.next() {
        let value = given.next().ok_or(format!("{option} needs a value"))?;
        let number = value.parse::<u64>();
        let number = number.map_err(|_| format!("not a number: {value}"));
        match option.as_str() {
            "--rowrun" => options.rowrun = value,
            "--beside" => options.beside = Some(value),
            "--room" => options.room = value,
            "--records" => options.records = number?.max(1) as usize,
            "--rounds" => options.rounds = number?.max(1),
            _ => return Err(format!("unknown option {option}\n{USAGE}")),
        }
    }
    if options.rowrun.is_empty() {
        return Err(format!("the program is not named\n{USAGE}"));
    }
    Ok(options)
}

fn tasks() -> Vec<Task> {
    let mut rng = Rng::new(1, 30);
    (0..DIFFERENT)
        .map(|_| {
            let mut task = Task::plain();
            task.rows = planner_rows(&mut rng, ROWS);
            task
        })
        .collect()
}

fn record_bytes(tasks: &[Task], records: usize) -> Vec<u8> {
    (0..records)
        .flat_map(|number| tasks[number % tasks.len()].record(ALLOWANCE))
        .collect()
}

fn write_records(path: &Path, bytes: &[u8]) -> Result<(), String> {
    std::fs::write(path, bytes).map_err(|error| format!("{}: {error}", path.display()))
}

/// Runs the program on the file, and gives the seconds that it took. Its last line must count the records.
fn answer(rowrun: &str, path: &Path, records: usize) -> Result<f64, String> {
    let input = File::open(path).map_err(|error| format!("{}: {error}", path.display()))?;
    let begun = Instant::now();
    let output = Command::new(rowrun)
        .stdin(input)
        .stdout(Stdio::piped())
        .output()
        .map_err(|error| format!("{rowrun}: {error}"))?;
    let seconds = begun.elapsed().as_secs_f64();
    if !output
        .stdout
        .ends_with(format!("\nend {records}\n").as_bytes())
    {
        return Err(format!("{rowrun} did not answer {records} records"));
    }
    Ok(seconds)
}

#[cfg(direct)]
mod solves {
    //! The solves alone.

    use std::hint::black_box;
    use std::time::Instant;

    use compare::kernel::direct::{self, Link};
    use compare::records::Setting;
    use compare::task::Task;

    /// The seconds in which a reader that is fed portions of so many bytes gives the records' lines, and how many these are.
    pub fn fed_seconds(bytes: &[u8], portion: usize) -> (f64, u64) {
        let mut link = Box::new(Link::new(1 << 63));
        let mut lines = 0;
        let begun = Instant::now();
        for portion in bytes.chunks(portion) {
            let mut rest = portion;
            while !rest.is_empty() {
                let fed = link.feed(black_box(rest));
                black_box(&link.text);
                lines = fed.lines;
                rest = &rest[fed.taken..];
            }
        }
        (begun.elapsed().as_secs_f64(), lines)
    }

    /// The seconds that the solves of the records take, each of rows that are restored first.
    pub fn seconds(tasks: &[Task], records: usize) -> f64 {
        let flat: Vec<Vec<f64>> = tasks.iter().map(Task::flat).collect();
        let mut rows = flat[0].clone();
        let begun = Instant::now();
        for number in 0..records {
            let place = number % tasks.len();
            rows.copy_from_slice(&flat[place]);
            let setting = Setting::of(&tasks[place], super::ALLOWANCE);
            black_box(direct::solve(black_box(&mut rows), setting));
        }
        begun.elapsed().as_secs_f64()
    }
}

#[cfg(not(direct))]
mod solves {
    //! Under an emulator a time says nothing.

    use compare::task::Task;

    pub fn seconds(_: &[Task], _: usize) -> f64 {
        f64::NAN
    }

    pub fn fed_seconds(_: &[u8], _: usize) -> (f64, u64) {
        (f64::NAN, 0)
    }
}

fn run(options: &Options) -> Result<(), String> {
    if !cfg!(direct) {
        return Err("no times: the program and the library run under an emulator here".to_string());
    }
    let tasks = tasks();
    let path = Path::new(&options.room).join(format!("records-{}.bin", std::process::id()));
    let bytes = record_bytes(&tasks, options.records);
    write_records(&path, &bytes)?;
    let programs: Vec<&String> = [&options.rowrun]
        .into_iter()
        .chain(&options.beside)
        .collect();
    let mut least = vec![f64::INFINITY; programs.len()];
    let mut solved = f64::INFINITY;
    let mut fed = [f64::INFINITY; PORTIONS.len()];
    let mut outcome = Ok(());
    for _ in 0..options.rounds {
        for (least, program) in least.iter_mut().zip(&programs) {
            match answer(program, &path, options.records) {
                Ok(seconds) => *least = least.min(seconds),
                Err(what) => outcome = Err(what),
            }
        }
        if outcome.is_err() {
            break;
        }
        solved = solved.min(solves::seconds(&tasks, options.records));
        for (least, portion) in fed.iter_mut().zip(PORTIONS) {
            let (seconds, lines) = solves::fed_seconds(&bytes, portion);
            if lines != options.records as u64 {
                outcome = Err(format!("fed {portion} bytes at a time: {lines} lines"));
            }
            *least = least.min(seconds);
        }
    }
    std::fs::remove_file(&path).map_err(|error| format!("{}: {error}", path.display()))?;
    outcome?;
    let records = options.records as f64;
    let whole = least[0];
    println!("records of {ROWS} rows: {} from a file", options.records);
    println!("rowrun answers {:.0} a second", records / whole);
    for (program, seconds) in programs.iter().zip(&least).skip(1) {
        println!(
            "{program} answers {:.0} a second, {:.3} of rowrun's time",
            records / seconds,
            seconds / whole
        );
    }
    for (seconds, portion) in fed.iter().zip(PORTIONS) {
        println!(
            "fed {portion} bytes at a time: {:.0} a second, {:.2} of rowrun's time",
            records / seconds,
            seconds / whole
        );
    }
    println!(
        "the solves alone: {:.0} a second, {:.2} of rowrun's time",
        records / solved,
        solved / whole
    );
    Ok(())
}

fn main() -> ExitCode {
    match parse_options().and_then(|options| run(&options)) {
        Ok(()) => ExitCode::SUCCESS,
        Err(what) => {
            eprintln!("{what}");
            ExitCode::FAILURE
        }
    }
}
