//! The proved archive timed beside its twin, on the same inputs in the same run.
//!
//! - `bench [COUNTS]` prints a table of the usual cases, one of the worst, one of error files and one
//!   of sums; lines `ROW SIDE INSTRUCTIONS` of the file COUNTS fill their columns of instructions.
//! - `bench rows` lists the rows of all four.
//! - `bench count SIDE ROW REPS` makes the calls of a row and nothing else, for a counter of
//!   instructions. SIDE is `proved`, `twin`, or `none`, which only restores the ledger.

mod desks;
mod error_rows;
mod rows;
mod sum_rows;

use std::collections::HashMap;
use std::env;
use std::fs;
use std::hint::black_box;
use std::process::ExitCode;
use std::time::{Duration, Instant};

use desks::{Desk, Side};
use rows::Named;

const ROUNDS: usize = 31;
/// Time of each side in a round.
const SPAN: Duration = Duration::from_micros(1_500);

/// The tables: what stands above the names of their rows, and the rows.
fn tables() -> [(&'static str, Vec<&'static dyn Named>); 4] {
    fn named<R: Named>(rows: &'static [R]) -> Vec<&'static dyn Named> {
        rows.iter().map(|row| row as &dyn Named).collect()
    }
    [
        ("row", named(&rows::USUAL)),
        ("worst case", named(&rows::WORST)),
        ("error file", named(&error_rows::ERRORS)),
        ("sum", named(&sum_rows::SUMS)),
    ]
}

/// The rows of all tables.
fn all_rows() -> impl Iterator<Item = &'static dyn Named> {
    tables().into_iter().flat_map(|(_, rows)| rows)
}

/// Nanoseconds of one call, over a number of calls; the ledger is restored outside of them.
fn time(desk: &mut dyn Desk, side: Side, calls: u32) -> f64 {
    let mut spent = Duration::ZERO;
    for _ in 0..calls {
        desk.restore();
        let start = Instant::now();
        let _ = black_box(desk.call(side));
        spent += start.elapsed();
    }
    spent.as_nanos() as f64 / f64::from(calls)
}

/// Calls that take about the span of a round.
fn calls_of_a_round(desk: &mut dyn Desk) -> u32 {
    let once = time(desk, Side::Proved, 20).max(time(desk, Side::Twin, 20));
    ((SPAN.as_nanos() as f64 / once) as u32).clamp(3, 1_000)
}

fn median(mut values: Vec<f64>) -> f64 {
    values.sort_by(f64::total_cmp);
    values[values.len() / 2]
}

/// Times all rows in interleaved rounds: for each row, nanoseconds of the proved side and of the
/// twin.
fn measure(desks: &mut [Box<dyn Desk>]) -> Vec<(f64, f64)> {
    let calls: Vec<u32> = desks
        .iter_mut()
        .map(|desk| calls_of_a_round(desk.as_mut()))
        .collect();
    let mut times = vec![(Vec::new(), Vec::new()); desks.len()];
    for round in 0..ROUNDS {
        for ((desk, &calls), (proved, twin)) in desks.iter_mut().zip(&calls).zip(&mut times) {
            let desk = desk.as_mut();
            // The side that goes first changes from round to round.
            if round % 2 == 0 {
                proved.push(time(desk, Side::Proved, calls));
                twin.push(time(desk, Side::Twin, calls));
            } else {
                twin.push(time(desk, Side::Twin, calls));
                proved.push(time(desk, Side::Proved, calls));
            }
        }
    }
    let medians = times
        .into_iter()
        .map(|(proved, twin)| (median(proved), median(twin)));
    medians.collect()
}

/// Instructions of a call by row and side.
fn read_counts(path: &str) -> Option<HashMap<(String, String), u64>> {
    let text = fs::read_to_string(path).ok()?;
    let lines = text.lines().map(|line| {
        let mut words = line.split_whitespace();
        let key = (words.next()?.to_string(), words.next()?.to_string());
        Some((key, words.next()?.parse().ok()?))
    });
    lines.collect()
}

/// Prints the rows of one table, or says in which of them the two sides differ. Rows that write a
/// file or sum a text end with its bytes, and the instructions of the proved side for each of them.
fn print_rows(title: &str, rows: &[&dyn Named], counts: &HashMap<(String, String), u64>) -> bool {
    let mut desks: Vec<Box<dyn Desk>> = rows.iter().map(|row| row.desk()).collect();
    for (desk, row) in desks.iter_mut().zip(rows) {
        if !desk.agrees() {
            println!("the two sides differ in row {}", row.name());
            return false;
        }
    }
    let lengths: Vec<Option<usize>> = desks.iter().map(|desk| desk.bytes()).collect();
    let of_bytes = if lengths.iter().any(Option::is_some) {
        format!(" {:>7} {:>10}", "bytes", "instr/byte")
    } else {
        String::new()
    };
    println!(
        "{title:<17} {:>10} {:>10} {:>6}  {:>12} {:>12} {:>6}{of_bytes}",
        "proved ns", "twin ns", "ratio", "proved instr", "twin instr", "ratio"
    );
    let times = measure(&mut desks);
    for ((row, (proved, twin)), length) in rows.iter().zip(times).zip(lengths) {
        let name = row.name();
        let count = |side: &str| counts.get(&(name.to_string(), side.to_string())).copied();
        let instructions = match (count("proved"), count("twin")) {
            (Some(proved), Some(twin)) => {
                let ratio = proved as f64 / twin as f64;
                format!("{proved:>12} {twin:>12} {ratio:>6.2}")
            }
            _ => format!("{:>12} {:>12} {:>6}", "-", "-", "-"),
        };
        let of_byte = match (length, count("proved")) {
            (Some(length), Some(proved)) => {
                format!(" {length:>7} {:>10.2}", proved as f64 / length as f64)
            }
            (Some(length), None) => format!(" {length:>7} {:>10}", "-"),
            (None, _) => String::new(),
        };
        let ratio = proved / twin;
        println!("{name:<17} {proved:>10.0} {twin:>10.0} {ratio:>6.2}  {instructions}{of_byte}");
    }
    true
}

fn print_tables(counts: &HashMap<(String, String), u64>) -> ExitCode {
    for (at, (title, rows)) in tables().into_iter().enumerate() {
        if at > 0 {
            println!();
        }
        if !print_rows(title, &rows, counts) {
            return ExitCode::FAILURE;
        }
    }
    ExitCode::SUCCESS
}

/// Makes the calls of a row and nothing else.
fn count(side: &str, row: &str, reps: &str) -> Option<()> {
    let side = match side {
        "proved" => Side::Proved,
        "twin" => Side::Twin,
        "none" => Side::None,
        _ => return None,
    };
    let mut desk = all_rows().find(|known| known.name() == row)?.desk();
    for _ in 0..reps.parse().ok()? {
        desk.restore();
        let _ = black_box(desk.call(side));
    }
    Some(())
}

fn main() -> ExitCode {
    let arguments: Vec<String> = env::args().skip(1).collect();
    let arguments: Vec<&str> = arguments.iter().map(String::as_str).collect();
    match arguments[..] {
        [] => print_tables(&HashMap::new()),
        ["rows"] => {
            all_rows().for_each(|row| println!("{}", row.name()));
            ExitCode::SUCCESS
        }
        ["count", side, row, reps] if count(side, row, reps).is_some() => ExitCode::SUCCESS,
        [path] => match read_counts(path) {
            Some(counts) => print_tables(&counts),
            None => {
                eprintln!("cannot read the counts in {path}");
                ExitCode::FAILURE
            }
        },
        _ => {
            eprintln!("usage: bench [COUNTS] | bench rows | bench count SIDE ROW REPS");
            ExitCode::FAILURE
        }
    }
}
