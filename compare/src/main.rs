//! Compares the kernel with the original, family by family.

use std::env;
use std::path::PathBuf;
use std::process::{ExitCode, exit};
use std::sync::Mutex;
use std::thread;
use std::time::Instant;

use compare::kernel::Kernel;
use compare::report::{Difference, Verdict, differs_on_line};
use compare::rng::Rng;
use compare::task::Task;
use compare::{
    entries, floats, kernel, link, original, probe, refusals, signs, solves, standard, stream,
    values,
};

const USAGE: &str = "compare [options]
  --quick            a hundredth of everything
  --share N          the Nth part of everything
  --seed N           seed of all families (1)
  --threads N        threads (2)
  --only NAME        the families whose name begins so
  --list             the families and their sizes
  --vectors FOLDER   records.bin and its lines, or stdin and stdout (else RAVELSICKLE_VECTORS, else the repository's own)
  --rowrun PROGRAM   the program that is fed damaged streams
  --no-rowrun        leave the program out
  --no-vectors       leave the vectors out
  --spoil            change one bit of the library's answers: every family but vectors and rowrun-streams must find it
  --signalling       give the original signalling NaNs even where this processor's max passes them on
  --branches         how often each branch of the original was taken";

struct Options {
    share: u64,
    seed: u64,
    threads: u64,
    only: String,
    list: bool,
    vectors: Option<PathBuf>,
    rowrun: Option<PathBuf>,
    branches: bool,
    spoil: bool,
}

/// Where the repository's own vectors and program lie, from its root.
const VECTORS: &str = "crates/rowrun";
const ROWRUN: &str = "crates/rowrun/out/rowrun";
/// The variable that names another folder of vectors.
const VECTORS_FROM: &str = "RAVELSICKLE_VECTORS";

fn repository() -> PathBuf {
    PathBuf::from(env!("CARGO_MANIFEST_DIR")).join("..")
}

fn default_vectors() -> PathBuf {
    match env::var_os(VECTORS_FROM) {
        Some(folder) if !folder.is_empty() => folder.into(),
        _ => repository().join(VECTORS),
    }
}

fn parse_options() -> Result<Options, String> {
    let mut options = Options {
        share: 1,
        seed: 1,
        threads: 2,
        only: String::new(),
        list: false,
        vectors: Some(default_vectors()),
        rowrun: Some(repository().join(ROWRUN)),
        branches: false,
        spoil: false,
    };
    let mut given = env::args().skip(1);
    while let Some(option) = given.next() {
        let mut value = || given.next().ok_or(format!("{option} needs a value"));
        let number = |text: String| {
            text.parse::<u64>()
                .map_err(|_| format!("not a number: {text}"))
        };
        match option.as_str() {
            "--quick" => options.share = 100,
            "--share" => options.share = number(value()?)?.max(1),
            "--seed" => options.seed = number(value()?)?,
            "--threads" => options.threads = number(value()?)?.max(1),
            "--only" => options.only = value()?,
            "--list" => options.list = true,
            "--vectors" => options.vectors = Some(value()?.into()),
            "--no-vectors" => options.vectors = None,
            "--rowrun" => options.rowrun = Some(value()?.into()),
            "--no-rowrun" => options.rowrun = None,
            "--signalling" => values::give_signalling_too(),
            "--spoil" => options.spoil = true,
            "--branches" => options.branches = true,
            "--help" => return Err(USAGE.to_string()),
            _ => return Err(format!("unknown option {option}\n{USAGE}")),
        }
    }
    Ok(options)
}

/// What a family runs: solves of drawn tasks, or cases of its own.
enum Runs {
    Solves(fn(&mut Rng) -> Task),
    Cases(fn(&mut Kernel, &mut Rng, u64) -> Verdict),
}

struct Family {
    name: &'static str,
    cases: u64,
    runs: Runs,
}

impl Family {
    fn compares_signs(&self) -> bool {
        self.name.starts_with(SIGNS)
    }

    /// The bit that is changed in spoilt answers: a number's sign where that is compared of zeros too, else the lowest.
    fn spoilt_bit(&self) -> u64 {
        if self.compares_signs() { 1 << 63 } else { 1 }
    }
}

const fn solve_family(name: &'static str, cases: u64, make: fn(&mut Rng) -> Task) -> Family {
    Family {
        name,
        cases,
        runs: Runs::Solves(make),
    }
}

const fn case_family(
    name: &'static str,
    cases: u64,
    run: fn(&mut Kernel, &mut Rng, u64) -> Verdict,
) -> Family {
    Family {
        name,
        cases,
        runs: Runs::Cases(run),
    }
}

const STREAMS: &str = "rowrun-streams";
/// The family, and the beginning of the names of those, that compare the signs of zeros.
const SIGNS: &str = "signs";
/// The place of the last family of solves in a row of them.
const LAST_SOLVES: usize = 15;

/// A family's place is part of its seed, so a new one stands at the end.
const FAMILIES: [Family; 28] = [
    solve_family("solve-random", 1_000_000, solves::random),
    solve_family("solve-parallel", 1_000_000, solves::parallel),
    solve_family("solve-duplicated", 700_000, solves::duplicated),
    solve_family("solve-scaled", 1_000_000, solves::scaled),
    solve_family("solve-grid", 1_500_000, solves::grid),
    solve_family("solve-planner", 700_000, solves::planner),
    solve_family("solve-special", 1_000_000, solves::special),
    solve_family("solve-zeros", 700_000, solves::zeros),
    solve_family("solve-warm", 700_000, solves::warm),
    solve_family("solve-skips", 700_000, solves::skips),
    solve_family("solve-tolerances", 1_000_000, solves::tolerances),
    solve_family("solve-bits", 700_000, solves::any_bits),
    solve_family("solve-edges", 700_000, solves::edges),
    solve_family("solve-coincident", 1_500_000, solves::coincident),
    solve_family("solve-boxes", 500_000, solves::boxes),
    solve_family("solve-large", 400, solves::large),
    case_family("refusals", 200_000, refusals::refusals),
    case_family("normalize", 2_000_000, entries::normalizings),
    case_family("solve-2x2", 5_000_000, entries::systems),
    case_family("lp-1d", 2_000_000, entries::lines),
    case_family("recover", 3_000_000, entries::recoveries),
    case_family("root", 100_000_000, floats::roots),
    case_family("fused", 100_000_000, floats::fuseds),
    case_family(STREAMS, 1_000_000, stream::streams),
    solve_family("solve-thresholds", 500_000, solves::thresholds),
    case_family("link", 1_000_000, link::links),
    case_family(SIGNS, 10_000_000, signs::signs),
    case_family("signs-entries", 2_000_000, entries::signs),
];

/// Streams that the kernel's calls take: the place of a family, its part, and apart from these what is spoilt.
const SPOILT: u64 = 1 << 63;

/// Runs one part of a family; with `spoil`, on answers of which some are changed.
fn run_part(family: &Family, stream: u64, cases: u64, options: &Options, spoil: bool) -> Verdict {
    let mut rng = Rng::new(options.seed, stream);
    let made = if spoil {
        Kernel::spoilt(family.spoilt_bit(), Rng::new(options.seed, SPOILT | stream))
    } else {
        Kernel::new()
    };
    let mut kernel = made.map_err(|what| differs_on_line(what, "(no call)".to_string()))?;
    let verdict = match family.runs {
        Runs::Solves(make) => solves::compare(make, &mut kernel, &mut rng, cases),
        Runs::Cases(run) => run(&mut kernel, &mut rng, cases),
    };
    probe::hand_in();
    verdict
}

/// Says the family's line and its difference, and ends the program. Of several threads the first does.
fn end_with(family: &Family, cases: u64, since: Instant, difference: &Difference) -> ! {
    static ENDING: Mutex<()> = Mutex::new(());
    let _first = ENDING.lock();
    say_family(family.name, cases, 1, since);
    difference.keep(family.name);
    exit(1)
}

/// Runs a family on all threads; each has a part of the cases and a generator of its own.
fn run_family(family: &Family, place: usize, cases: u64, options: &Options) {
    let since = Instant::now();
    let parts = options.threads;
    thread::scope(|scope| {
        for part in 0..parts {
            let own = cases / parts + u64::from(part < cases % parts);
            let stream = (place as u64) << 32 | part;
            scope.spawn(move || {
                if let Err(difference) = run_part(family, stream, own, options, false) {
                    end_with(family, cases, since, &difference);
                }
            });
        }
    });
    say_family(family.name, cases, 0, since);
}

/// How often each family is run on spoilt answers.
const SPOILT_RUNS: u64 = 100;

/// Runs each family on answers that are changed in one bit a batch: every run must find a difference.
fn run_spoilt(options: &Options) -> bool {
    let mut all = true;
    println!("{:<18} {:>11} {:>11}", "family", "spoilt", "found");
    for (place, family) in FAMILIES.iter().enumerate() {
        if family.name == STREAMS || !family.name.starts_with(options.only.as_str()) {
            continue;
        }
        let found = (0..SPOILT_RUNS)
            .filter(|run| {
                let stream = (place as u64) << 32 | 1 << 16 | run;
                run_part(family, stream, 1 + run % 8, options, true).is_err()
            })
            .count() as u64;
        println!("{:<18} {SPOILT_RUNS:>11} {found:>11}", family.name);
        all &= found == SPOILT_RUNS;
    }
    all
}

fn say_family(name: &str, cases: u64, differences: u64, since: Instant) {
    println!(
        "{name:<18} {cases:>11} {differences:>11} {:>9.1}",
        since.elapsed().as_secs_f64()
    );
}

fn say_branches(by: &str, all: bool) {
    let never: Vec<&str> = (0..probe::NAMES.len())
        .filter(|&branch| probe::total(branch) == 0)
        .map(|branch| probe::NAMES[branch])
        .collect();
    println!(
        "branches reached by {by}: {} of {}",
        probe::NAMES.len() - never.len(),
        probe::NAMES.len()
    );
    for name in never {
        println!("never reached: {name}");
    }
    if all {
        for (branch, name) in probe::NAMES.iter().enumerate() {
            println!("{:>14}  {name}", probe::total(branch));
        }
    }
}

/// A run of so many cases must have an answer in which the sign of a zero shows the rule.
const SIGNS_SHOW: u64 = 100_000;

/// Says in how many answers of a family the sign of a zero shows the rule; whether that is as often as it must be.
fn say_signs(shown: u64, cases: u64) -> bool {
    println!("answers whose zero has another sign than by the left one: {shown} of {cases}");
    let enough = shown > 0 || cases < SIGNS_SHOW;
    if !enough {
        eprintln!("no answer shows which rule the kernel has");
    }
    enough
}

/// Says which of the library's symbols no family called; whether there is none.
fn say_symbols() -> bool {
    let (all, uncalled) = kernel::uncalled_symbols();
    println!(
        "symbols of the library called: {} of {all}",
        all - uncalled.len()
    );
    for name in &uncalled {
        eprintln!("never called: {name}");
    }
    uncalled.is_empty()
}

fn say_text() {
    println!("original lp.rs      SHA-256 {}", original::LP_SUM);
    println!("original general.rs SHA-256 {}", original::GENERAL_SUM);
    println!("kernel's library    SHA-256 {}", kernel::LIBRARY_SUM);
    if !original::is_published() {
        println!("NOT the published text: nothing here says anything about the original");
    }
    if values::signalling_passes_max() {
        println!(
            "this processor's max of a signalling NaN is NaN: the original is given quiet ones as start, tolerance and box"
        );
    }
}

/// The vectors, as a family of their own.
fn run_vectors(options: &Options) -> Result<u64, String> {
    let Some(folder) = &options.vectors else {
        return Ok(0);
    };
    let since = Instant::now();
    let verdict = Kernel::new().and_then(|mut kernel| {
        let records = stream::check_vectors(folder, &mut kernel)?;
        Ok(records + link::check_vectors(folder, &mut kernel)?)
    });
    probe::hand_in();
    let (cases, differences) = match &verdict {
        Ok(records) => (*records, 0),
        Err(_) => (0, 1),
    };
    say_family("vectors", cases, differences, since);
    verdict
}

fn run_all(options: &Options) -> Result<u64, ()> {
    let mut total = 0;
    if "vectors".starts_with(options.only.as_str()) {
        match run_vectors(options) {
            Ok(records) => total += records,
            Err(what) => {
                eprintln!("{what}");
                return Err(());
            }
        }
    }
    for (place, family) in FAMILIES.iter().enumerate() {
        let left_out = family.name == STREAMS && options.rowrun.is_none();
        if !family.name.starts_with(options.only.as_str()) || left_out {
            continue;
        }
        let cases = (family.cases / options.share).max(1);
        let shown_before = standard::SIGNS.other_signs();
        run_family(family, place, cases, options);
        total += cases;
        let shown = standard::SIGNS.other_signs() - shown_before;
        if family.compares_signs() && !say_signs(shown, cases) {
            return Err(());
        }
        if place == LAST_SOLVES && options.only.is_empty() {
            say_branches("solves alone", false);
        }
    }
    Ok(total)
}

fn main() -> ExitCode {
    let options = match parse_options() {
        Ok(options) => options,
        Err(message) => {
            eprintln!("{message}");
            return ExitCode::from(2);
        }
    };
    if options.list {
        for family in &FAMILIES {
            println!("{:<18} {:>11}", family.name, family.cases);
        }
        return ExitCode::SUCCESS;
    }
    say_text();
    println!(
        "seed {}, part 1/{}, threads {}",
        options.seed, options.share, options.threads
    );
    if options.spoil {
        return if run_spoilt(&options) {
            ExitCode::SUCCESS
        } else {
            ExitCode::FAILURE
        };
    }
    let mut missing = false;
    if let Some(program) = &options.rowrun
        && STREAMS.starts_with(options.only.as_str())
    {
        missing = !program.is_file();
        stream::set_rowrun(program.clone());
    }
    println!(
        "{:<18} {:>11} {:>11} {:>9}",
        "family", "cases", "differences", "seconds"
    );
    let since = Instant::now();
    let checked = Options {
        rowrun: if missing {
            None
        } else {
            options.rowrun.clone()
        },
        vectors: options.vectors.clone(),
        only: options.only.clone(),
        ..options
    };
    let Ok(total) = run_all(&checked) else {
        return ExitCode::FAILURE;
    };
    say_family("total", total, 0, since);
    if checked.only.is_empty() || checked.branches {
        say_branches("everything", checked.branches);
    }
    if checked.only.is_empty() && !say_symbols() {
        return ExitCode::FAILURE;
    }
    if missing {
        eprintln!(
            "{STREAMS}: skipped, there is no program at the path of rowrun (--no-rowrun leaves it out)"
        );
        return ExitCode::FAILURE;
    }
    ExitCode::SUCCESS
}
