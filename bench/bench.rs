//! The Rust original and this module in one process, asked the same of the same maps and sheets: their answers are held equal in
//! every field, and the times of both are printed as Markdown tables. bench/run builds and runs it; bench/count and bench/beside ask it
//! for single calls of the module (`calls.rs`).

mod calls;
mod maps;
mod questions;

// The comparison uses more of it.
#[allow(dead_code)]
#[path = "../oracle/src/module.rs"]
mod module;

use std::env;
use std::fmt::Debug;
use std::fs;
use std::hint::black_box;
use std::process::ExitCode;
use std::time::{Duration, Instant};

use maps::{SIZES, Spread, globe};
use module::{Module, entries_of, jadurphen::Ledger};
use oracle::api::{Map, Oracle, Sheet};
use questions::Before;

/// Of single circles.
const CIRCLES: [u32; 2] = [200, 10_000];
const RADII: [u32; 4] = [200, 2_000, 10_000, 20_016];
/// Beside the automatic one. With 1 every block is a cell, so that a search is a scan of all cells.
const SPACINGS: [u32; 5] = [1, 2, 4, 8, 16];
const SHARES: [f64; 3] = [0.05, 0.5, 1.0];

/// How often a call is timed: `fewest` times, and more while they take no longer than `within`.
#[derive(Clone, Copy)]
struct Rounds {
    fewest: u32,
    most: u32,
    within: Duration,
}

const MANY: Rounds = Rounds {
    fewest: 5,
    most: 50,
    within: Duration::from_millis(200),
};

/// The least time of a call. Short calls are timed many at once, so that the clock's own time does not count.
fn least<T>(rounds: Rounds, mut call: impl FnMut() -> T) -> f64 {
    let mut time = |calls: u32| {
        let start = Instant::now();
        for _ in 0..calls {
            black_box(call());
        }
        start.elapsed()
    };
    let once = time(1).max(Duration::from_nanos(20));
    let calls = (Duration::from_millis(2).as_nanos() / once.as_nanos()).clamp(1, 20_000) as u32;
    let (mut best, mut spent, mut done) = (f64::INFINITY, Duration::ZERO, 0);
    while done < rounds.fewest || (done < rounds.most && spent < rounds.within) {
        let taken = time(calls);
        best = best.min(taken.as_secs_f64() / f64::from(calls));
        spent += taken;
        done += 1;
    }
    best
}

/// Three digits.
fn shown(seconds: f64) -> String {
    let micros = seconds * 1e6;
    let (number, unit) = match micros {
        ..0.9995 => (micros * 1e3, "ns"),
        ..999.5 => (micros, "µs"),
        _ => (micros / 1e3, "ms"),
    };
    match number {
        ..9.995 => format!("{number:.2} {unit}"),
        ..99.95 => format!("{number:.1} {unit}"),
        _ => format!("{number:.0} {unit}"),
    }
}

fn ratio(theirs: f64, ours: f64) -> String {
    let times = theirs / ours;
    match times {
        ..0.1 => format!("{times:.3}"),
        ..1.0 => format!("{times:.2}"),
        ..9.95 => format!("{times:.1}"),
        _ => format!("{times:.0}"),
    }
}

fn equal<T: PartialEq + Debug>(call: &str, theirs: T, ours: T) {
    assert!(
        theirs == ours,
        "{call}\n  original {theirs:?}\n  module   {ours:?}"
    );
}

/// A size of map with its sheet, which the spread of the people does not change.
struct Size {
    name: String,
    maps: Vec<(Spread, Map, Oracle)>,
    sheet: Sheet,
    before: Before,
}

impl Size {
    fn new((width, height): (u32, u32)) -> Self {
        let maps: Vec<_> = Spread::ALL
            .iter()
            .map(|&spread| {
                let map = globe((width, height), spread);
                let oracle = Oracle::new(&map);
                (spread, map, oracle)
            })
            .collect();
        let mut sheet = maps[0].2.sheet();
        let before = Before::measured(&maps[0].1, &mut sheet);
        Self {
            name: format!("{width} × {height}"),
            maps,
            sheet,
            before,
        }
    }
}

fn circles(sizes: &[Size]) {
    println!(
        "\n| single circle | original | with its table built | module | ratio |\n|---|---|---|---|---|"
    );
    for size in sizes {
        let (_, map, oracle) = &size.maps[0];
        let mut module = Module::new(map, &size.sheet);
        let (row, col) = (map.height / 2, map.width / 2);
        for km in CIRCLES {
            let call = format!("{}, {km} km", size.name);
            equal(
                &call,
                Ok(oracle.circle(km, row, col)),
                module.circle(km, row, col),
            );
            let theirs = least(MANY, || oracle.circle(km, row, col));
            let table = least(MANY, || Oracle::new(map).circle(km, row, col));
            let ours = least(MANY, || module.circle(km, row, col));
            println!(
                "| {call} | {} | {} | {} | {} |",
                shown(theirs),
                shown(table),
                shown(ours),
                ratio(theirs, ours)
            );
        }
    }
}

fn searches(sizes: &[Size]) {
    println!("\n| search | original | module | ratio | of it the search |\n|---|---|---|---|---|");
    for size in sizes {
        for (spread, map, oracle) in &size.maps {
            let mut module = Module::new(map, &size.sheet);
            for km in RADII {
                let call = format!("{}, {}, {km} km", size.name, spread.name());
                equal(
                    &call,
                    Ok(oracle.most_populous(0, km)),
                    module.search(0, km).map(|found| found.most),
                );
                let theirs = least(MANY, || oracle.most_populous(0, km));
                let ours = least(MANY, || module.search(0, km));
                println!(
                    "| {call} | {} | {} | {} | {} |",
                    shown(theirs),
                    shown(ours),
                    ratio(theirs, ours),
                    shown(size.before.rest(ours))
                );
            }
        }
    }
}

/// The module's searches with other spacings: the same circle is found.
fn spacings(sizes: &[Size]) {
    let heads = SPACINGS.map(|spacing| format!(" {spacing} |")).concat();
    println!(
        "\n| search by spacing | automatic |{heads}\n|---|---|{}",
        "---|".repeat(SPACINGS.len())
    );
    for size in sizes {
        for (spread, map, _) in &size.maps {
            let mut module = Module::new(map, &size.sheet);
            for km in RADII {
                let call = format!("{}, {}, {km} km", size.name, spread.name());
                let centre = module.search(0, km).map(|found| found.most.centre);
                let mut cells = vec![shown(least(MANY, || module.search(0, km)))];
                for spacing in SPACINGS {
                    let found = module.search(spacing, km).map(|found| found.most.centre);
                    equal(&format!("{call}, spacing {spacing}"), centre, found);
                    cells.push(shown(least(MANY, || module.search(spacing, km))));
                }
                println!("| {call} | {} |", cells.join(" | "));
            }
        }
    }
}

/// Both sides' times of a share, from an empty ledger and from the one that this leaves.
fn smallest(call: &str, oracle: &Oracle, module: &mut Module, share: f64) -> [f64; 4] {
    let (mut entries, mut ledger) = (Vec::new(), Ledger::default());
    for state in ["fresh", "warm"] {
        let call = format!("{call}, {state} ledger");
        equal(
            &call,
            Ok(oracle.smallest(0, share, &mut entries)),
            module.smallest(0, share, &mut ledger),
        );
        equal(&call, entries.clone(), entries_of(&ledger));
    }
    let warm = least(MANY, || oracle.smallest(0, share, &mut entries));
    let our_warm = least(MANY, || module.smallest(0, share, &mut ledger));
    let fresh = least(MANY, || oracle.smallest(0, share, &mut Vec::new()));
    let our_fresh = least(MANY, || {
        ledger.clear();
        module.smallest(0, share, &mut ledger)
    });
    [fresh, our_fresh, warm, our_warm]
}

fn smallest_radii(sizes: &[Size]) {
    println!(
        "\n| smallest radius | original | module | ratio | of it the searches | warm: original | module | ratio |\n|---|---|---|---|---|---|---|---|"
    );
    for size in sizes {
        for (spread, map, oracle) in &size.maps {
            let mut module = Module::new(map, &size.sheet);
            for share in SHARES {
                let call = format!("{}, {}, share {share}", size.name, spread.name());
                let [fresh, our_fresh, warm, our_warm] =
                    smallest(&call, oracle, &mut module, share);
                println!(
                    "| {call} | {} | {} | {} | {} | {} | {} | {} |",
                    shown(fresh),
                    shown(our_fresh),
                    ratio(fresh, our_fresh),
                    shown(size.before.rest(our_fresh)),
                    shown(warm),
                    shown(our_warm),
                    ratio(warm, our_warm)
                );
            }
        }
    }
}

/// The processor, its cores and the load averages, where the system tells them.
fn machine() -> String {
    let cpu = fs::read_to_string("/proc/cpuinfo").unwrap_or_default();
    let name = cpu.lines().find_map(|line| line.strip_prefix("model name"));
    let name = name.map_or("unknown processor", |rest| {
        rest.trim_start_matches([' ', '\t', ':'])
    });
    let cores = std::thread::available_parallelism().map_or(0, |n| n.get());
    let load = fs::read_to_string("/proc/loadavg").unwrap_or_default();
    let load: Vec<_> = load.split_whitespace().take(3).collect();
    format!("{name}, {cores} cores, load average {}", load.join(" "))
}

fn tables() {
    println!("Before: {}.\n", machine());
    let sizes = SIZES.map(Size::new);
    questions::parts(&sizes);
    questions::passes(&sizes);
    circles(&sizes);
    searches(&sizes);
    spacings(&sizes);
    smallest_radii(&sizes);
    println!("\nAfter: {}.", machine());
}

fn main() -> ExitCode {
    let arguments: Vec<_> = env::args().skip(1).collect();
    match arguments.join(" ").as_str() {
        "" => tables(),
        "list" => calls::list(),
        "ask" => {
            if let Err(trouble) = calls::ask() {
                eprintln!("bench: {trouble}");
                return ExitCode::FAILURE;
            }
        }
        _ => {
            eprintln!("usage: bench [list | ask]");
            return ExitCode::from(2);
        }
    }
    ExitCode::SUCCESS
}
