//! Times the kernel beside the original, on the same rows and from the same driver.
//!
//! Each line is a case of several instances. A round solves all instances on one side and then on the other; the least time
//! of a side over all rounds counts, and only ratios are printed. Both sides restore the rows from a pristine copy before each
//! solve. Before anything is timed, both sides must give the same answers.
//!
//! The library is for x86-64, so ratios are printed there alone. One side can be run by itself everywhere, for a tool that
//! counts instructions: `--side kernel --case planner-64 --repeat 100`; what `--repeat 0` counts is the rest of the program.

use std::env;
use std::hint::black_box;
use std::process::ExitCode;

use compare::kernel::{Call, Kernel};
use compare::original::{COUNTED, UNMODIFIED};
use compare::probe;
use compare::records::Setting;
use compare::rng::Rng;
use compare::same::same;
use compare::solves::{ENOUGH, grid, planner_rows};
use compare::task::{Row, Task};

const USAGE: &str = "bench [options]
  --rounds N      rounds of each case (200)
  --only NAME     the cases whose name begins so
  --side SIDE     run one side alone: original (its own entry), collecting (the original with a collector) or kernel
  --case NAME     the case that the one side runs
  --repeat N      how often it runs all instances (1)
  --list          the cases and their numbers of instances
  --bridge        the path of the program that an emulator runs";

const SIZES: [usize; 7] = [8, 16, 32, 64, 128, 512, 2048];

/// The instances of a case.
struct Case {
    name: String,
    tasks: Vec<Task>,
}

/// Planner rows of a length that is not 1, so that normalising has something to do; with or without the opposite of each.
fn planner_task(rng: &mut Rng, size: usize, normalize: bool, paired: bool) -> Task {
    let mut task = Task::plain();
    task.rows = planner_rows(rng, size);
    task.normalize = normalize;
    if !paired {
        for row in &mut task.rows {
            let by = rng.between(0.5, 2.0);
            *row = (row.0 * by, row.1 * by, row.2 * by);
        }
    }
    task
}

/// A task of whole numbers in whose solve a trial fails, so that recovery runs.
fn recovering_task(rng: &mut Rng) -> Task {
    loop {
        let task = grid(rng);
        let before = probe::taken("forward: trial failed");
        COUNTED.solve(&mut task.rows.clone(), &task);
        if probe::taken("forward: trial failed") > before && task.rows.len() >= 8 {
            return task;
        }
    }
}

/// Fewer instances of long ones, so that a round stays short.
fn instances(size: usize) -> usize {
    (8192 / size).clamp(4, 256)
}

/// Planner rows without pairs that were normalised before, by the original, and are to be normalised again.
fn normalized_task(rng: &mut Rng, size: usize) -> Task {
    let mut task = planner_task(rng, size, true, false);
    UNMODIFIED.normalize(&mut task.rows);
    task
}

fn cases() -> Vec<Case> {
    let mut rng = Rng::new(1, 77);
    let mut found = Vec::new();
    let modes = [
        ("planner", false, true),
        ("normalize-pairs", true, true),
        ("normalize-single", true, false),
    ];
    for (name, normalize, paired) in modes {
        for size in SIZES {
            found.push(Case {
                name: format!("{name}-{size}"),
                tasks: (0..instances(size))
                    .map(|_| planner_task(&mut rng, size, normalize, paired))
                    .collect(),
            });
        }
    }
    found.push(Case {
        name: "recovery".to_string(),
        tasks: (0..256).map(|_| recovering_task(&mut rng)).collect(),
    });
    for size in SIZES {
        found.push(Case {
            name: format!("normalized-{size}"),
            tasks: (0..instances(size))
                .map(|_| normalized_task(&mut rng, size))
                .collect(),
        });
    }
    found
}

/// An instance with the room that its rows are restored to.
struct Instance {
    task: Task,
    rows: Vec<Row>,
}

fn instances_of(case: &Case) -> Vec<Instance> {
    case.tasks
        .iter()
        .map(|task| Instance {
            task: task.clone(),
            rows: task.rows.clone(),
        })
        .collect()
}

fn run_original(instances: &mut [Instance]) {
    for instance in instances {
        instance.rows.copy_from_slice(&instance.task.rows);
        black_box(UNMODIFIED.solve_silent(black_box(&mut instance.rows), &instance.task));
    }
}

fn run_collecting(instances: &mut [Instance]) {
    for instance in instances {
        instance.rows.copy_from_slice(&instance.task.rows);
        black_box(UNMODIFIED.solve(black_box(&mut instance.rows), &instance.task));
    }
}

fn calls_of(case: &Case) -> Vec<Call> {
    case.tasks
        .iter()
        .map(|task| Call::solve(task.flat(), Setting::of(task, ENOUGH)))
        .collect()
}

/// Both sides must give the same answers before they are timed.
fn check_answers(case: &Case) -> Result<(), String> {
    let mut calls = calls_of(case);
    Kernel::new()?.make(&mut calls)?;
    for (task, call) in case.tasks.iter().zip(&calls) {
        let wanted = UNMODIFIED.solve(&mut task.rows.clone(), task);
        let Call::Solve { out, .. } = call else {
            continue;
        };
        if out.refusal != 0 || !same(out.x, wanted.x) || !same(out.y, wanted.y) {
            return Err(format!("{}: the two sides answer differently", case.name));
        }
    }
    Ok(())
}

/// Runs one side alone, for a tool that counts.
fn run_side(side: &str, case: &Case, repeat: u64) -> Result<(), String> {
    match side {
        "original" | "collecting" => {
            let mut instances = instances_of(case);
            for _ in 0..repeat {
                match side {
                    "original" => run_original(&mut instances),
                    _ => run_collecting(&mut instances),
                }
            }
            Ok(())
        }
        "kernel" => timed::run_side(case, repeat),
        _ => Err(format!("no such side: {side}\n{USAGE}")),
    }
}

#[cfg(direct)]
mod timed {
    //! Ratios, where the kernel's code runs on the processor itself.

    use std::time::Instant;

    use super::*;
    use compare::kernel::direct;
    use compare::values;

    unsafe extern "C" {
        /// The C library's fused multiply-add.
        fn fma(x: f64, y: f64, z: f64) -> f64;
    }

    fn fma_of_libm(x: f64, y: f64, z: f64) -> f64 {
        unsafe { fma(x, y, z) }
    }

    /// Rows, lent flat, beside the pristine copy.
    struct Flat {
        pristine: Vec<f64>,
        rows: Vec<f64>,
        setting: Setting,
    }

    fn flat_of(case: &Case) -> Vec<Flat> {
        case.tasks
            .iter()
            .map(|task| Flat {
                pristine: task.flat(),
                rows: task.flat(),
                setting: Setting::of(task, ENOUGH),
            })
            .collect()
    }

    fn run_kernel(instances: &mut [Flat]) {
        for instance in instances {
            instance.rows.copy_from_slice(&instance.pristine);
            black_box(direct::solve(
                black_box(&mut instance.rows),
                instance.setting,
            ));
        }
    }

    fn seconds(mut run: impl FnMut()) -> f64 {
        let since = Instant::now();
        run();
        since.elapsed().as_secs_f64()
    }

    /// The least time of each of three sides over all rounds, which take turns.
    fn least(rounds: u64, mut sides: [&mut dyn FnMut(); 3]) -> [f64; 3] {
        let mut best = [f64::INFINITY; 3];
        for _ in 0..rounds {
            for (time, side) in best.iter_mut().zip(&mut sides) {
                *time = time.min(seconds(&mut **side));
            }
        }
        best
    }

    pub fn solve_ratios(case: &Case, rounds: u64) {
        let mut silent = instances_of(case);
        let mut collecting = instances_of(case);
        let mut flat = flat_of(case);
        let [own, with_rows, kernel] = least(
            rounds,
            [
                &mut || run_original(&mut silent),
                &mut || run_collecting(&mut collecting),
                &mut || run_kernel(&mut flat),
            ],
        );
        println!(
            "{:<22} {:>12.2} {:>12.2}",
            case.name,
            kernel / own,
            kernel / with_rows
        );
    }

    /// One number after the other, each from the one before: the time of a call in a chain.
    fn chain(count: usize, mut step: impl FnMut(f64) -> f64) -> f64 {
        let mut x = 2.0;
        for _ in 0..count {
            x = step(x);
        }
        x
    }

    fn print_ratio(name: &str, rounds: u64, machine: &mut dyn FnMut(), kernel: &mut dyn FnMut()) {
        let [machine, kernel, _] = least(rounds, [machine, kernel, &mut || {}]);
        println!("{name:<22} {:>12.2}", kernel / machine);
    }

    pub fn float_ratios(rounds: u64) {
        const COUNT: usize = 4096;
        let mut rng = Rng::new(1, 78);
        let numbers: Vec<f64> = (0..COUNT)
            .map(|_| values::ordinary(&mut rng).abs())
            .collect();
        let sum = |f: &dyn Fn(f64) -> f64| numbers.iter().map(|&x| f(x)).sum::<f64>();
        print_ratio(
            "root, many",
            rounds,
            &mut || _ = black_box(sum(&|x| black_box(x).sqrt())),
            &mut || _ = black_box(sum(&direct::root)),
        );
        print_ratio(
            "root, chain",
            rounds,
            &mut || _ = black_box(chain(COUNT, |x| x.sqrt() + 1.0)),
            &mut || _ = black_box(chain(COUNT, |x| direct::root(x) + 1.0)),
        );
        print_ratio(
            "fused, many",
            rounds,
            &mut || _ = black_box(sum(&|x| fma_of_libm(x, 0.7, -0.3))),
            &mut || _ = black_box(sum(&|x| direct::fused(x, 0.7, -0.3))),
        );
        print_ratio(
            "fused, chain",
            rounds,
            &mut || _ = black_box(chain(COUNT, |x| fma_of_libm(x, 0.7, 0.3))),
            &mut || _ = black_box(chain(COUNT, |x| direct::fused(x, 0.7, 0.3))),
        );
    }

    /// Runs the kernel alone, for a tool that counts.
    pub fn run_side(case: &Case, repeat: u64) -> Result<(), String> {
        let mut flat = flat_of(case);
        (0..repeat).for_each(|_| run_kernel(&mut flat));
        Ok(())
    }

    pub fn table(only: &str, rounds: u64) -> Result<(), String> {
        println!(
            "{:<22} {:>12} {:>12}",
            "kernel / original", "own entry", "collecting"
        );
        for case in cases().iter().filter(|case| case.name.starts_with(only)) {
            check_answers(case)?;
            solve_ratios(case, rounds);
        }
        println!("{:<22} {:>12}", "kernel / machine", "a call");
        float_ratios(rounds);
        Ok(())
    }
}

#[cfg(not(direct))]
mod timed {
    //! Under an emulator a time says nothing; that both sides answer alike can still be seen.

    use super::*;

    /// Runs the kernel alone, for a tool that counts.
    pub fn run_side(case: &Case, repeat: u64) -> Result<(), String> {
        let mut kernel = Kernel::new()?;
        (0..repeat).try_for_each(|_| kernel.make(&mut calls_of(case)))
    }

    pub fn table(only: &str, _: u64) -> Result<(), String> {
        for case in cases().iter().filter(|case| case.name.starts_with(only)) {
            check_answers(case)?;
            println!(
                "{:<22} answers alike, {} instances",
                case.name,
                case.tasks.len()
            );
        }
        Err(
            "no ratios: the kernel's code is for x86-64 and runs under an emulator here"
                .to_string(),
        )
    }
}

struct Options {
    rounds: u64,
    only: String,
    side: Option<String>,
    case: String,
    repeat: u64,
    list: bool,
    bridge: bool,
}

fn parse_options() -> Result<Options, String> {
    let mut options = Options {
        rounds: 200,
        only: String::new(),
        side: None,
        case: "planner-64".to_string(),
        repeat: 1,
        list: false,
        bridge: false,
    };
    let mut given = env::args().skip(1);
    while let Some(option) = given.next() {
        let mut value = || given.next().ok_or(format!("{option} needs a value"));
        let number = |text: String| {
            text.parse::<u64>()
                .map_err(|_| format!("not a number: {text}"))
        };
        match option.as_str() {
            "--rounds" => options.rounds = number(value()?)?.max(1),
            "--only" => options.only = value()?,
            "--side" => options.side = Some(value()?),
            "--case" => options.case = value()?,
            "--repeat" => options.repeat = number(value()?)?,
            "--list" => options.list = true,
            "--bridge" => options.bridge = true,
            _ => return Err(format!("unknown option {option}\n{USAGE}")),
        }
    }
    Ok(options)
}

fn run(options: &Options) -> Result<(), String> {
    if options.bridge {
        println!("{}", option_env!("COMPARE_BRIDGE").unwrap_or("none"));
        return Ok(());
    }
    if options.list {
        for case in cases() {
            println!("{} {}", case.name, case.tasks.len());
        }
        return Ok(());
    }
    match &options.side {
        None => timed::table(&options.only, options.rounds),
        Some(side) => {
            let all = cases();
            let case = all
                .iter()
                .find(|case| case.name == options.case)
                .ok_or(format!("no such case: {}", options.case))?;
            run_side(side, case, options.repeat)
        }
    }
}

fn main() -> ExitCode {
    match parse_options().and_then(|options| run(&options)) {
        Ok(()) => ExitCode::SUCCESS,
        Err(what) => {
            eprintln!("{what}");
            ExitCode::FAILURE
        }
    }
}
