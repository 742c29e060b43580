//! Times the proved library beside plain Rust in one process: alternating rounds, medians, and the
//! same answers from all sides.
//!
//! `bench`: the table of ratios. `bench work NAME SIDE ROUNDS`: one side of one row, so often and
//! untimed, for counting instructions; `bench names`: the rows and their sides.
use bench::{charts, exported, rounds};
use std::hint::black_box;
use std::time::Instant;

type Side = Box<dyn Fn(u32) -> u64>;

/// The sides of a row, by the names that `work` has for them.
const SIDES: [&str; 3] = ["ours", "plain", "value"];

/// One measured row: its sides in the order of their names, how many rounds one sample has, and how
/// many units (boxes, calls) one round has.
struct Row {
    name: String,
    unit: &'static str,
    units: f64,
    rounds: u32,
    sides: [Option<Side>; 3],
}

/// Health checks by a mode, an allowed set and a limit.
fn checks(name: String, unit: &'static str, units: f64, count: u32, file: Vec<u8>, [mode, allowed, limit]: [u32; 3]) -> Row {
    let inputs: Vec<u32> = (0..u32::from(file[5])).map(|j| 7 + j).collect();
    let sides = (file.clone(), inputs.clone(), file.clone(), inputs.clone());
    Row {
        name,
        unit,
        units,
        rounds: count,
        sides: [
            Some(Box::new(move |n| exported::checks(&file, mode, &inputs, allowed, limit, n))),
            Some(Box::new(move |n| rounds::checks(&sides.0, mode, &sides.1, allowed, limit, n))),
            Some(Box::new(move |n| rounds::checks_by_value(&sides.2, mode, &sides.3, allowed, limit, n))),
        ],
    }
}

/// What bounds a box from below: byte 5 of each box is followed through the same table, and nothing
/// else is done.
fn next_boxes(name: &str, count: u32, file: Vec<u8>, steps: u32) -> Row {
    Row {
        name: format!("next boxes alone: {name}"),
        unit: "box",
        units: f64::from(steps),
        rounds: count,
        sides: [None, Some(Box::new(move |n| rounds::next_boxes(&file, steps, n))), None],
    }
}

/// Calls on files of sums; a conversion is of a file of products, since the editions differ in
/// sums.
fn files(edition: u8, name: String, count: u32, boxes: usize) -> Vec<Row> {
    let one = charts::straight(edition, 2, boxes);
    let both = [one.clone(), charts::straight(edition, 2, boxes - 1)].concat();
    let products = charts::straight(edition, 4, boxes);
    let (a, b, c, d, e, f, g, h) = (both.clone(), both, one.clone(), one.clone(), products.clone(), products, one.clone(), one);
    let row = |call: &str, ours: Side, plain: Side| Row {
        name: format!("{call} {name}"),
        unit: "call",
        units: 1.0,
        rounds: count,
        sides: [Some(ours), Some(plain), None],
    };
    vec![
        row(
            "load",
            Box::new(move |n| exported::loads(&a, n)),
            Box::new(move |n| rounds::loads(&b, n)),
        ),
        row(
            "write back",
            Box::new(move |n| exported::writes(&c, &mut [0; 2560], n)),
            Box::new(move |n| rounds::writes(&d, &mut [0; 2560], n)),
        ),
        row(
            "convert",
            Box::new(move |n| exported::converts(&e, &mut [0; 2560], n)),
            Box::new(move |n| rounds::converts(&f, &mut [0; 2560], n)),
        ),
        row(
            "show a box of",
            Box::new(move |n| exported::shows(&g, n)),
            Box::new(move |n| rounds::shows(&h, n)),
        ),
    ]
}

/// Rewritings of charts of 204 boxes, a third of which are replaced.
fn rewrites() -> Row {
    let both = [charts::forks(0), charts::forks(1)].concat();
    let same = both.clone();
    Row {
        name: "rewrite 204 boxes".to_string(),
        unit: "call",
        units: 1.0,
        rounds: 1000,
        sides: [
            Some(Box::new(move |n| exported::rewrites(&both, &mut [0; 2560], n))),
            Some(Box::new(move |n| rounds::rewrites(&same, &mut [0; 2560], n))),
            None,
        ],
    }
}

/// All charts have two inputs, and edition 1 where a row names none, but for the rewriting, which
/// edition 2 alone has. In long runs input 0 is withheld: its mark goes through the assignments
/// that read it and reaches no decision, so that the run goes on to the limit. Health checks allow
/// both inputs and end with a value.
fn rows() -> Vec<Row> {
    let mut rows = Vec::new();
    let editions = [(1, ""), (2, ", edition 2")];
    for (edition, named) in editions {
        let mut charts =
            vec![("counting", charts::counting(edition)), ("operations", charts::operations(edition)), ("decisions", charts::decisions(edition))];
        if edition == 2 {
            charts.push(("choices", charts::choices()));
        }
        for (name, chart) in charts {
            rows.push(next_boxes(&format!("{name}{named}"), 10, chart.clone(), 65535));
            for (mode, mode_name) in ["bare", "surveillance", "high-water"].iter().enumerate() {
                let name = format!("box: {name}{named}, {mode_name}");
                rows.push(checks(name, "box", 65535.0, 10, chart.clone(), [mode as u32, 2, 65535]));
            }
        }
    }
    for n in [3, 20, 200] {
        rows.push(checks(format!("health check of {n} boxes"), "check", 1.0, 400_000 / (20 + n as u32), charts::straight(1, 2, n), [1, 3, 0]));
    }
    for (edition, named) in editions {
        rows.extend(files(edition, format!("2 blocks{named}"), 2000, 51));
        rows.extend(files(edition, format!("5 blocks{named}"), 1000, 204));
    }
    rows.push(rewrites());
    for steps in [10, 100, 1000, 10_000, 65_535] {
        rows.push(checks(format!("growth: {steps} boxes"), "box", f64::from(steps), 600_000 / steps, charts::counting(1), [1, 2, steps]));
    }
    rows
}

fn median(mut times: Vec<f64>) -> f64 {
    times.sort_by(f64::total_cmp);
    times.get(times.len() / 2).copied().unwrap_or(f64::NAN)
}

/// The medians of a row's sides, in nanoseconds a unit; every side gives the same sum in every
/// sample.
fn measure(row: &Row, samples: usize) -> [f64; 3] {
    let mut times = vec![Vec::new(); SIDES.len()];
    for sample in 0..=samples {
        let mut sums = Vec::new();
        for (side, times) in row.sides.iter().zip(&mut times) {
            let Some(side) = side else { continue };
            let start = Instant::now();
            sums.push(black_box(side(black_box(row.rounds))));
            if sample > 0 {
                times.push(start.elapsed().as_nanos() as f64 / f64::from(row.rounds) / row.units);
            }
        }
        assert!(sums.iter().all(|sum| *sum == sums[0]), "{}: the sides differ: {sums:?}", row.name);
    }
    let mut medians = [f64::NAN; 3];
    for (median_of, times) in medians.iter_mut().zip(times) {
        *median_of = median(times);
    }
    medians
}

/// A number of the table; none where a row lacks a side.
fn cell(number: f64, width: usize) -> String {
    if number.is_nan() {
        format!("{:>width$}", "-")
    } else {
        format!("{number:width$.2}")
    }
}

fn table() {
    println!("{:40} {:>6} {:>9} {:>9} {:>9} {:>8} {:>8}", "row", "unit", "ours ns", "&mut ns", "value ns", "/ &mut", "/ value");
    for row in rows() {
        let [ours, plain, by_value] = measure(&row, 25);
        println!(
            "{:40} {:>6} {} {} {} {} {}",
            row.name,
            row.unit,
            cell(ours, 9),
            cell(plain, 9),
            cell(by_value, 9),
            cell(ours / plain, 8),
            cell(ours / by_value, 8)
        );
    }
}

/// A row's name and, after a tab, the sides that it has.
fn names(row: &Row) {
    let has: Vec<&str> = SIDES.into_iter().zip(&row.sides).filter(|(_, side)| side.is_some()).map(|(name, _)| name).collect();
    println!("{}\t{}", row.name, has.join(" "));
}

fn work(name: &str, side: &str, count: u32) {
    let row = rows().into_iter().find(|row| row.name == name).expect("no such row");
    let place = SIDES.iter().position(|known| *known == side).expect("no such side");
    println!("{}", row.sides[place].as_ref().expect("the row lacks this side")(count));
}

fn main() {
    let words: Vec<String> = std::env::args().skip(1).collect();
    match words.iter().map(String::as_str).collect::<Vec<_>>()[..] {
        [] => table(),
        ["names"] => rows().iter().for_each(names),
        ["work", name, side, count] => work(name, side, count.parse().unwrap()),
        _ => eprintln!("usage: bench | names | work NAME SIDE ROUNDS"),
    }
}
