//! The oracle's program: `ring`, `check`, `list`, `jobs` and `ask` (see oracle/README.md).

mod jobs;
mod lines;
mod list;

use std::fmt::Debug;
use std::io::{self, BufRead};
use std::process::ExitCode;

use lines::Lines;
use oracle::api::{Centre, Entry, Map, Oracle, Sheet};
use oracle::maps::{self, Rng, Size};
use oracle::reading::Reading;

/// The seed of the lists that the repository holds.
const LIST_SEED: u64 = 2026;

fn main() -> ExitCode {
    let words: Vec<String> = std::env::args().skip(1).collect();
    let number = |at: usize, other: u64| {
        words
            .get(at)
            .map_or(other, |word| word.parse().expect("a number"))
    };
    match words.first().map(String::as_str) {
        Some("ring") => ring(),
        Some("check") => return check(number(1, 1), number(2, 1000)),
        Some("list") => list::list(number(1, LIST_SEED)),
        Some("jobs") => jobs::jobs(number(1, LIST_SEED)),
        Some("ask") => ask(),
        _ => {
            eprintln!("answers ring | check [SEED] [MAPS] | list [SEED] | jobs [SEED] | ask");
            return ExitCode::FAILURE;
        }
    }
    ExitCode::SUCCESS
}

/// The specification's ring of four cells.
fn ring_map() -> Map {
    Map {
        width: 4,
        height: 1,
        origin_lat: 45.0,
        lon_step: 90.0,
        lat_step: -90.0,
        counts: vec![5, 1, 7, 3],
    }
}

/// The two lines of the ring, without the two counts that the original does not report.
fn ring() {
    let map = ring_map();
    let oracle = Oracle::new(&map);
    let sheet = oracle.sheet();
    println!("angles {:?} cosines {:?}", sheet.angles, sheet.cosines);
    let (km, most) = (10_008, oracle.most_populous(4, 10_008));
    let Centre {
        row,
        col,
        population,
    } = most.centre;
    let stats = most.stats;
    println!(
        "most {km} {row} {col} {population} {} {} {} {} {}",
        stats.levels,
        stats.blocks_examined,
        stats.blocks_pruned,
        stats.circles_evaluated,
        stats.kernels_built
    );
    let least = oracle.smallest(4, 0.5, &mut Vec::new());
    let Centre {
        row,
        col,
        population,
    } = least.centre;
    let short = least
        .short
        .map_or("- -".to_owned(), |(km, people)| format!("{km} {people}"));
    println!(
        "least {} {row} {col} {population} {short} {} {}",
        least.radius_km, least.evaluated, least.reused
    );
}

/// What `check` found, with the smallest map on which the two sides part.
#[derive(Default)]
struct Findings {
    disagreements: u64,
    smallest: Option<(u32, String)>,
}

impl Findings {
    /// The texts are compared, since they keep apart what `==` on floats does not.
    fn compare<T: Debug>(&mut self, map: &Map, call: &str, original: &T, other: &T) {
        let (original, other) = (format!("{original:?}"), format!("{other:?}"));
        if original == other {
            return;
        }
        self.disagreements += 1;
        let cells = map.width * map.height;
        if self
            .smallest
            .as_ref()
            .is_none_or(|(least, _)| cells < *least)
        {
            let text = format!("{call}: original {original}, reading {other}, on {map:?}");
            self.smallest = Some((cells, text));
        }
    }
}

/// Holds the original against the specification as read here: every circle, of whole and of widened
/// radii, against the cells that the sheet gives it; searches, spacings, smallest radii and the
/// ledgers they leave in every field. Says too how often a search names another cell than a scan of
/// all circles, which only an unfair sheet allows.
fn check(seed: u64, maps: u64) -> ExitCode {
    let mut rng = Rng::new(seed);
    let (mut refused, mut by_cosine) = (0u64, 0u64);
    let (mut circles, mut searches, mut least, mut missed) = (0u64, 0u64, 0u64, 0u64);
    let mut found = Findings::default();
    for _ in 0..maps {
        let size = match rng.range(0, 19) {
            0 => Size::Large,
            1..=9 => Size::Job,
            _ => Size::Small,
        };
        let map = maps::map(&mut rng, size);
        let oracle = Oracle::new(&map);
        let sheet = oracle.sheet();
        if !maps::sheet_accepted(&map, &sheet) {
            refused += 1;
            by_cosine += u64::from(!maps::cosines_accepted(&sheet));
            continue;
        }
        for _ in 0..12 {
            let km = maps::radius(&mut rng, &sheet);
            let wide = f64::from(km) + rng.unit() * 3000.0;
            for km in [f64::from(km), wide] {
                let mut cells = vec![(0, 0), (map.height - 1, map.width - 1)];
                for _ in 0..6 {
                    let row = rng.range(0, map.height - 1);
                    cells.push((row, rng.range(0, map.width - 1)));
                }
                for (row, col) in cells {
                    circles += 1;
                    found.compare(
                        &map,
                        &format!("circle of {km} km at ({row}, {col})"),
                        &oracle.circle_at(km, row, col),
                        &maps::population(&map, &sheet, km, row, col),
                    );
                }
            }
        }
        let reading = Reading {
            map: &map,
            sheet: &sheet,
        };
        // The reading is slow: a large map gets one search.
        let large = map.width * map.height > 300;
        for _ in 0..if large { 1 } else { 3 } {
            let (spacing, km) = (
                maps::spacing(&mut rng, &map),
                maps::radius(&mut rng, &sheet),
            );
            searches += 1;
            let call = format!("search, spacing {spacing}, {km} km");
            let theirs = oracle.most_populous(spacing, km);
            let ours = reading.search(spacing, km);
            found.compare(&map, &call, &theirs, &ours.most);
            let cells = u64::from(map.width * map.height) * u64::from(km > 0);
            let seen = ours.cells_pruned + ours.cells_settled;
            found.compare(
                &map,
                &format!("{call}: cells pruned and settled"),
                &cells,
                &seen,
            );
            found.compare(
                &map,
                &format!("automatic spacing, {km} km"),
                &oracle.initial_spacing(km),
                &reading.initial_spacing(km),
            );
            missed += u64::from(km > 0 && theirs.centre != best_circle(&map, &sheet, km));
        }
        if large {
            continue;
        }
        let mut ledger = if rng.one_in(2) {
            Vec::new()
        } else {
            let entries = rng.range(1, 40);
            maps::foreign_ledger(&mut rng, &map, entries)
        };
        for _ in 0..2 {
            let (spacing, share) = (maps::spacing(&mut rng, &map), maps::share(&mut rng, &map));
            least += 1;
            let call = format!("smallest radius, spacing {spacing}, share {share:e}, {ledger:?}");
            let mut other = ledger.clone();
            let theirs = oracle.smallest(spacing, share, &mut ledger);
            let ours = reading.smallest(spacing, share, &mut other);
            found.compare(&map, &call, &theirs, &ours);
            found.compare(&map, &format!("{call}: ledger after"), &ledger, &other);
        }
    }
    println!(
        "seed {seed}: {maps} maps, {refused} sheets refused by question 6, {by_cosine} of them for a cosine"
    );
    println!("{circles} circles, {searches} searches, {least} smallest radii compared");
    println!("{missed} searches named another cell than a scan of all circles");
    println!("{} disagreements", found.disagreements);
    match found.smallest {
        Some((_, text)) => {
            println!("on the smallest map: {text}");
            ExitCode::FAILURE
        }
        None => ExitCode::SUCCESS,
    }
}

/// The best circle by a scan of all cells: most people, then the first by row and column.
fn best_circle(map: &Map, sheet: &Sheet, km: u32) -> Centre {
    let mut best: Option<Centre> = None;
    for row in 0..map.height {
        for col in 0..map.width {
            let population = maps::population(map, sheet, f64::from(km), row, col);
            if best.is_none_or(|best| best.population < population) {
                best = Some(Centre {
                    row,
                    col,
                    population,
                });
            }
        }
    }
    best.expect("a grid has a cell")
}

/// Answers requests in the list's own lines, the answers left off: `G` and `C` give the map and
/// bring its `A` and `K`; `P km row col`, `S km`, `M spacing km`, `L ..` and `R spacing share`.
fn ask() {
    let mut lines = Lines::new(io::stdout().lock());
    let mut map: Option<Map> = None;
    let mut oracle: Option<Oracle> = None;
    let mut ledger: Vec<Entry> = Vec::new();
    for line in io::stdin().lock().lines() {
        let line = line.expect("text");
        let mut words = line.split_whitespace();
        let Some(tag) = words.next() else { continue };
        let numbers: Vec<u64> = words.map(|word| word.parse().expect("a number")).collect();
        let small = |at: usize| u32::try_from(numbers[at]).expect("a 32-bit number");
        if tag == "G" {
            map = Some(Map {
                width: small(0),
                height: small(1),
                origin_lat: f64::from_bits(numbers[2]),
                lon_step: f64::from_bits(numbers[3]),
                lat_step: f64::from_bits(numbers[4]),
                counts: Vec::new(),
            });
            oracle = None;
            ledger.clear();
            continue;
        }
        let map = map.as_mut().expect("a grid first");
        if tag == "C" {
            map.counts = (0..numbers.len()).map(small).collect();
            assert!(maps::admitted(map), "questions 1 to 3 admit the grid");
            let made = Oracle::new(map);
            lines.map(map, &made.sheet());
            if !maps::sheet_accepted(map, &made.sheet()) {
                lines.line('Q', [6]);
            }
            oracle = Some(made);
            continue;
        }
        let oracle = oracle.as_ref().expect("counts first");
        match tag {
            "P" => lines.circle(oracle, small(0), small(1), small(2)),
            "S" => lines.automatic(oracle, small(0)),
            "M" => lines.most(oracle, small(0), small(1)),
            "L" => {
                ledger = (0..numbers[0] as usize)
                    .map(|at| Entry {
                        km: small(1 + 4 * at),
                        centre: Centre {
                            row: small(2 + 4 * at),
                            col: small(3 + 4 * at),
                            population: numbers[4 + 4 * at],
                        },
                    })
                    .collect();
                lines.ledger('L', &ledger);
            }
            "R" => lines.least(oracle, small(0), f64::from_bits(numbers[1]), &mut ledger),
            _ => panic!("{tag} is no request"),
        }
    }
}
