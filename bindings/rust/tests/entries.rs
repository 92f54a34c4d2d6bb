//! The entries through the safe calls: the worked examples, and every refusal with what it leaves.

use ravelsickle::*;

const S3: [Row; 2] = [Row::new(1.0, 1.0, 2.0), Row::new(-1.0, 1.0, 0.0)];
const S4: [Row; 2] = [Row::new(0.0, 1.0, 1.0), Row::new(0.0, -1.0, -2.0)];
const S5: [Row; 2] = [Row::new(-1.0, 0.0, 0.0), Row::new(1.0, 0.0, 1.0)];
const Z1: [Row; 2] = [Row::new(0.0, 1.0, 0.0), Row::new(1.0, 0.0, -1.0)];
const TILTED: [Row; 2] = [Row::new(3.0, 4.0, 10.0), Row::new(-3.0, 4.0, 10.0)];
const TILTED_UNIT: [Row; 2] = [
    Row::new(3.0 * 0.2, 0.8, 2.0),
    Row::new(-3.0 * 0.2, 0.8, 2.0),
];
const FRAME: Frame = Frame {
    bound: 1e6,
    epsilon: 1e-9,
    reduced: 1e-8,
};

fn flat(rows: &[Row]) -> Vec<f64> {
    rows.iter().flat_map(|row| [row.a, row.b, row.c]).collect()
}

fn bits(rows: &[Row]) -> Vec<u64> {
    flat(rows).iter().map(|x| x.to_bits()).collect()
}

/// One row more than an entry takes.
fn too_many() -> Vec<Row> {
    vec![Row::new(3.0, 4.0, 10.0); ROW_LIMIT + 1]
}

/// Solves copies of the rows in both layouts and, where readings have no limit, by the original's own entry. All have to
/// do the same. Gives the rows that were left too.
fn solve_each_way(
    rows: &[Row],
    task: &Task,
    allowance: u64,
) -> (Result<Solved, Refusal>, Vec<Row>) {
    let mut records = rows.to_vec();
    let mut floats = flat(rows);
    let got = solve(&mut records, task, allowance);
    assert_eq!(solve_flat(&mut floats, task, allowance), got);
    let left: Vec<u64> = floats.iter().map(|x| x.to_bits()).collect();
    assert_eq!(bits(&records), left);
    if allowance == u64::MAX {
        let mut again = rows.to_vec();
        let answer = lp_2d_incre_max_y(&mut again, task);
        assert_eq!(answer, got.map(|solved| solved.answer));
        assert_eq!(bits(&again), left);
    }
    (got, records)
}

fn usual(rows: &[Row]) -> Solved {
    let (got, left) = solve_each_way(rows, &Task::default(), u64::MAX);
    assert_eq!(bits(&left), bits(rows));
    got.expect("the solve finishes")
}

fn solved(answer: Answer, first: Option<usize>, second: Option<usize>, count: u64) -> Solved {
    Solved {
        answer,
        active: (first, second),
        count,
    }
}

fn point(x: f64, y: f64) -> Answer {
    Answer::Point { x, y }
}

#[test]
fn s1_and_s2_no_row_and_one() {
    assert_eq!(usual(&[]), solved(Answer::Nothing, None, None, 0));
    let level = Answer::Level { y: 3.0 };
    assert_eq!(
        usual(&[Row::new(0.0, 2.0, 6.0)]),
        solved(level, None, None, 1)
    );
    assert_eq!(
        usual(&[Row::new(0.0, -2.0, 6.0)]),
        solved(Answer::Nothing, None, None, 1)
    );
}

#[test]
fn s3_to_s5_two_rows() {
    assert_eq!(usual(&S3), solved(point(1.0, 1.0), Some(0), Some(1), 7));
    assert_eq!(usual(&S4), solved(point(0.0, 2.0), Some(1), None, 23));
    assert_eq!(usual(&S5), solved(point(0.0, 1e24), None, None, 28));
}

#[test]
fn z1_negative_zero_is_the_lesser() {
    let mut task = Task::default();
    task.start.y = -0.0;
    let (got, _) = solve_each_way(&Z1, &task, u64::MAX);
    let got = got.expect("the solve finishes");
    assert_eq!(got, solved(point(-1.0, -0.0), Some(0), Some(1), 6));
    assert!(matches!(got.answer, Answer::Point { y, .. } if y.is_sign_negative()));
}

#[test]
fn every_number_of_a_task_reaches_the_solve() {
    let mut task = Task::default();
    task.start.y = 999_999.0;
    let (got, _) = solve_each_way(&S5, &task, u64::MAX);
    assert_eq!(got, Ok(solved(point(0.0, 999_999.0), None, None, 8)));

    task.start.x = 0.25;
    task.start.y = 0.125;
    let (got, _) = solve_each_way(&S3, &task, u64::MAX);
    assert_eq!(got, Ok(solved(point(0.25, 0.125), None, None, 4)));

    task.start.x = 0.0;
    task.start.y = 0.5;
    task.start.skip = 2;
    task.tolerances.feasibility = 1.0;
    let (got, _) = solve_each_way(&S3, &task, u64::MAX);
    assert_eq!(got, Ok(solved(point(0.0, 0.5), None, None, 2)));

    let mut task = Task::default();
    task.start.x = 0.5;
    task.start.y = f64::NAN;
    let (got, _) = solve_each_way(&S5, &task, u64::MAX);
    assert_eq!(got, Ok(solved(Answer::Across { x: 0.5 }, None, None, 4)));

    let mut task = Task::default();
    task.start.skip = 1;
    let (got, _) = solve_each_way(&S3, &task, u64::MAX);
    assert_eq!(got, Ok(solved(point(1.0, 1.0), Some(0), Some(1), 5)));

    let mut task = Task::default();
    task.tolerances.feasibility = 1.0;
    task.start.y = 0.0;
    let trial = [Row::new(1.0, 0.0, -0.5), Row::new(0.0, 1.0, 0.0)];
    let (got, _) = solve_each_way(&trial, &task, u64::MAX);
    assert_eq!(got.map(|solved| solved.count), Ok(6));

    let mut task = Task::default();
    task.tolerances.scale = -1.0;
    task.start.y = 0.0;
    let zero_row = [Row::new(0.0, 0.0, 0.0), Row::new(1.0, 0.0, -1.0)];
    let (got, _) = solve_each_way(&zero_row, &task, u64::MAX);
    assert_eq!(got, Ok(solved(Answer::Nothing, None, None, 4)));
}

#[test]
fn a_solve_normalises_the_lent_rows_in_place() {
    let task = Task {
        normalize: Normalize::Source,
        ..Task::default()
    };
    let (got, left) = solve_each_way(&TILTED, &task, u64::MAX);
    assert!(got.is_ok());
    assert_eq!(bits(&left), bits(&TILTED_UNIT));
    let (got, _) = solve_each_way(&S5, &task, u64::MAX);
    assert_eq!(got, Ok(solved(point(0.0, 1e24), None, None, 42)));
}

#[test]
fn refusal_3_comes_exactly_below_the_count() {
    let (got, _) = solve_each_way(&S3, &Task::default(), 7);
    assert_eq!(got.map(|solved| solved.count), Ok(7));
    for allowance in 0..7 {
        let (got, left) = solve_each_way(&S3, &Task::default(), allowance);
        assert_eq!(got, Err(Refusal::Stopped { count: allowance }));
        assert_eq!(bits(&left), bits(&S3));
    }
}

#[test]
fn refusal_3_leaves_the_rows_of_the_last_normalisation_that_fitted() {
    let task = Task {
        normalize: Normalize::Source,
        ..Task::default()
    };
    let (got, left) = solve_each_way(&TILTED, &task, 1);
    assert_eq!(got, Err(Refusal::Stopped { count: 1 }));
    assert_eq!(bits(&left), bits(&TILTED));
    let (got, left) = solve_each_way(&TILTED, &task, 2);
    assert_eq!(got, Err(Refusal::Stopped { count: 2 }));
    assert_eq!(bits(&left), bits(&TILTED_UNIT));
}

#[test]
fn refusals_1_and_2_leave_the_rows() {
    let task = Task {
        normalize: Normalize::Source,
        ..Task::default()
    };
    let mut floats = flat(&TILTED);
    floats.pop();
    let before = floats.clone();
    assert_eq!(solve_flat(&mut floats, &task, 0), Err(Refusal::NotWhole));
    assert_eq!(normalize_flat(&mut floats), Err(Refusal::NotWhole));
    assert_eq!(floats, before);

    let (got, left) = solve_each_way(&too_many(), &task, 0);
    assert_eq!(got, Err(Refusal::TooMany));
    assert_eq!(bits(&left), bits(&too_many()));

    let mut rows = too_many();
    assert_eq!(normalize(&mut rows), Err(Refusal::TooMany));
    assert_eq!(lp_2d_incre_max_y(&mut rows, &task), Err(Refusal::TooMany));
    assert_eq!(bits(&rows), bits(&too_many()));

    rows.pop();
    assert_eq!(normalize(&mut rows), Ok(()));
    assert_eq!(bits(&rows[..1]), bits(&TILTED_UNIT[..1]));
}

#[test]
fn the_original_entry_gives_the_answer_alone() {
    let task = Task::default();
    assert_eq!(
        lp_2d_incre_max_y(&mut S3.to_vec(), &task),
        Ok(point(1.0, 1.0))
    );
    assert_eq!(
        lp_2d_incre_max_y(&mut S4.to_vec(), &task),
        Ok(point(0.0, 2.0))
    );
    assert_eq!(lp_2d_incre_max_y(&mut [], &task), Ok(Answer::Nothing));
    assert_eq!(
        lp_2d_incre_max_y(&mut [Row::new(0.0, 2.0, 6.0)], &task),
        Ok(Answer::Level { y: 3.0 })
    );
    let mut rows = TILTED;
    let task = Task {
        start: WarmStart {
            x: 0.25,
            y: 0.125,
            skip: 0,
        },
        normalize: Normalize::Source,
        ..Task::default()
    };
    assert_eq!(lp_2d_incre_max_y(&mut rows, &task), Ok(point(0.25, 0.125)));
    assert_eq!(bits(&rows), bits(&TILTED_UNIT));
}

#[test]
fn n1_and_n2_normalising() {
    let mut rows = [
        Row::new(3.0, 4.0, 10.0),
        Row::new(0.0, 0.0, -5.0),
        Row::new(1e200, 0.0, 1.0),
    ];
    assert_eq!(normalize(&mut rows), Ok(()));
    let unit = [TILTED_UNIT[0], Row::default(), Row::default()];
    assert_eq!(bits(&rows), bits(&unit));
    assert_ne!(rows[0].a, 0.6);
}

#[test]
fn d1_and_d2_two_equations() {
    let got = solve_2x2(Row::new(1.0, 2.0, 5.0), Row::new(3.0, 4.0, 6.0));
    assert_eq!(got, Ok((-4.0, 4.5)));
    let got = solve_2x2(Row::new(1.0, 2.0, 5.0), Row::new(2.0, 4.0, 6.0));
    assert_eq!(got, Err(Refusal::Singular));
}

#[test]
fn l1_and_l2_lines() {
    let usual = Tolerances::default();
    let between = |high, low| Ok(Bounds { high, low });
    let l1 = [[1.0, 5.0], [-1.0, -2.0]];
    assert_eq!(lp_1d(&l1, true, usual), between(5.0, 2.0));
    let l2 = [[1.0, 1.0], [-1.0, -2.0]];
    assert_eq!(lp_1d(&l2, false, usual), between(1.0, 2.0));
    let got = lp_1d(&l2, true, usual).expect("two pairs are a line");
    assert!(got.high.is_nan() && got.low.is_nan());
    let wide = Tolerances {
        feasibility: 1.0,
        ..usual
    };
    assert_eq!(lp_1d(&l2, true, wide), between(1.5, 1.5));
    let free = between(f64::INFINITY, f64::NEG_INFINITY);
    assert_eq!(lp_1d(&[], true, usual), free);
    let many = vec![[1.0, 5.0]; ROW_LIMIT + 1];
    assert_eq!(lp_1d(&many, true, usual), Err(Refusal::TooMany));
    assert!(lp_1d(&many[1..], true, usual).is_ok());
}

#[test]
fn r1_and_f1_rounding() {
    assert_eq!(root(2.0).to_bits(), 0x3FF6_A09E_667F_3BCD);
    assert_eq!(root(-0.0).to_bits(), (-0.0f64).to_bits());
    assert!(root(-1.0).is_nan());
    let x = 1.0 + 2f64.powi(-30);
    assert_eq!(fused(x, x, -1.0), 2f64.powi(-29) + 2f64.powi(-60));
    assert_eq!(fused(2.0, 3.0, 5.0), 11.0);
}

const HELD: Collector = Collector {
    first: Some(78),
    second: Some(79),
};

#[test]
fn recovery_gives_a_point_and_its_rows() {
    let mut collector = HELD;
    let got = recover(&S3, 2, (0.0, 2.0), FRAME, &mut collector);
    assert_eq!(got, Ok((1.0, 1.0)));
    assert_eq!((collector.first, collector.second), (Some(0), Some(1)));

    let levels = [Row::new(0.0, 1.0, 1.0), Row::new(0.0, 1.0, 2.0)];
    let mut collector = HELD;
    let got = recover(&levels, 2, (0.0, 2.0), FRAME, &mut collector);
    assert_eq!(got, Ok((0.0, 1.0)));
    assert_eq!((collector.first, collector.second), (Some(0), None));
}

#[test]
fn recovery_without_a_boundary_leaves_the_collector() {
    let mut collector = HELD;
    let got = recover(&S3, 0, (0.5, 7.0), FRAME, &mut collector);
    assert_eq!(got, Ok((0.5, 7.0)));
    assert_eq!(collector, HELD);
    collector.first = None;
    assert!(recover(&[], 0, (0.5, 7.0), FRAME, &mut collector).is_ok());
    assert_eq!((collector.first, collector.second), (None, Some(79)));
}

#[test]
fn every_number_of_a_frame_reaches_recovery() {
    let slanted = [Row::new(1.0, 2.0, 4.0)];
    let crossed = [Row::new(1.0, 0.0, 0.0), Row::new(-1.0, 0.0, -0.25)];
    let recovered = |rows: &[Row], at, bound, epsilon, reduced| {
        let frame = Frame {
            bound,
            epsilon,
            reduced,
        };
        recover(rows, rows.len(), at, frame, &mut HELD.clone())
    };
    let on_the_edge = recovered(&slanted, (0.0, 10.0), 16.0, 1e-9, 1e-8);
    assert_eq!(on_the_edge, Ok((-16.0, 10.0)));
    let inside = recovered(&slanted, (0.0, 10.0), 32.0, 1e-9, 1e-8);
    assert_eq!(inside, Err(Refusal::NotRecovered));
    let violated = recovered(&crossed, (0.125, 1.0), 1.0, 1e-9, 1e-8);
    assert_eq!(violated, Err(Refusal::NotRecovered));
    let kept = recovered(&crossed, (0.125, 1.0), 1.0, 0.25, 1e-8);
    assert_eq!(kept, Ok((0.125, 1.0)));
    let moved = recovered(&crossed, (0.125, 1.0), 1.0, 0.25, 1.0);
    assert_eq!(moved, Ok((0.0, 1.0)));
}

#[test]
fn refusals_of_recovery_leave_the_collector() {
    let mut collector = HELD;
    let many = too_many();
    let past = many.len() + 1;
    let got = recover(&many, past, (0.0, 2.0), FRAME, &mut collector);
    assert_eq!(got, Err(Refusal::TooMany));
    let got = recover(&S4, 3, (0.0, 2.0), FRAME, &mut collector);
    assert_eq!(got, Err(Refusal::PrefixTooLong));
    let got = recover(&S4, 2, (0.0, 2.0), FRAME, &mut collector);
    assert_eq!(got, Err(Refusal::NotRecovered));
    assert_eq!(collector, HELD);
}

#[test]
fn the_defaults_are_the_originals() {
    let task = Task::default();
    assert_eq!(task.tolerances.feasibility, 1e-9);
    assert_eq!(task.tolerances.scale, 10.0);
    assert_eq!((task.start.x, task.start.y, task.start.skip), (0.0, 1e6, 0));
    assert_eq!(task.normalize, Normalize::Off);
}

#[test]
fn a_row_is_made_of_the_originals_tuple() {
    let row = Row::from((1.0, 2.0, 3.0));
    assert_eq!(row, Row::new(1.0, 2.0, 3.0));
    assert_eq!(<(f64, f64, f64)>::from(row), (1.0, 2.0, 3.0));
}
