//! The original and this module, asked the same of the same maps, every field compared: compare SEED MAPS.
//! Maps of all sizes, every call; fails on a disagreement.

mod module;

use std::fmt::Debug;
use std::process::ExitCode;

use module::{Module, entries_of, ledger_of};
use oracle::api::{Map, Oracle, Sheet};
use oracle::maps::{self, Rng, Size};

/// What was asked so far, and how often the two disagreed; of the disagreements the one on the fewest cells is told.
#[derive(Default)]
struct Tally {
    large: u64,
    refused: u64,
    circles: u64,
    searches: u64,
    puts: u64,
    smallest: u64,
    disagreements: u64,
    told: Option<(usize, String)>,
}

impl Tally {
    fn compare<T: PartialEq + Debug>(&mut self, map: &Map, call: &str, theirs: &T, ours: &T) {
        if theirs == ours {
            return;
        }
        self.disagreements += 1;
        let cells = map.counts.len();
        if self.told.as_ref().is_none_or(|(least, _)| cells < *least) {
            let told = format!("{call}\n  on {map:?}\n  original {theirs:?}\n  module   {ours:?}");
            self.told = Some((cells, told));
        }
    }
}

fn circles(tally: &mut Tally, rng: &mut Rng, map: &Map, sheet: &Sheet, oracle: &Oracle) {
    let mut module = Module::new(map, sheet);
    for _ in 0..4 {
        let km = maps::radius(rng, sheet);
        let (row, col) = (rng.range(0, map.height - 1), rng.range(0, map.width - 1));
        tally.circles += 1;
        tally.compare(
            map,
            &format!("circle of {km} km at ({row}, {col})"),
            &Ok(oracle.circle(km, row, col)),
            &module.circle(km, row, col),
        );
    }
}

fn searches(tally: &mut Tally, rng: &mut Rng, map: &Map, sheet: &Sheet, oracle: &Oracle) {
    let mut module = Module::new(map, sheet);
    for _ in 0..3 {
        let (spacing, km) = (maps::spacing(rng, map), maps::radius(rng, sheet));
        tally.searches += 1;
        let call = format!("search, spacing {spacing}, {km} km");
        let ours = module.search(spacing, km);
        tally.compare(
            map,
            &call,
            &Ok(oracle.most_populous(spacing, km)),
            &ours.map(|found| found.most),
        );
        let cells = u64::from(map.width * map.height) * u64::from(km > 0);
        let seen = ours.map(|found| found.cells_pruned + found.cells_settled);
        tally.compare(
            map,
            &format!("{call}: cells pruned and settled"),
            &Ok(cells),
            &seen,
        );
    }
}

/// Entries put in another order stand in rising order, each once.
fn puts(tally: &mut Tally, rng: &mut Rng, map: &Map, sheet: &Sheet) {
    let module = Module::new(map, sheet);
    let entries = rng.range(1, 20);
    let mut theirs = maps::foreign_ledger(rng, map, entries);
    let mut order = theirs.clone();
    for i in (1..order.len()).rev() {
        order.swap(i, rng.range(0, i as u32) as usize);
    }
    let mut ours = Ok(Vec::new());
    for entry in order {
        tally.puts += 1;
        ours = ours.and_then(|ledger| module.put(&ledger, entry));
    }
    let mut again = theirs[rng.range(0, theirs.len() as u32 - 1) as usize];
    again.centre.population /= 2;
    tally.puts += 1;
    ours = ours.and_then(|ledger| module.put(&ledger, again));
    for entry in &mut theirs {
        if entry.km == again.km {
            *entry = again;
        }
    }
    tally.compare(map, "entries put one by one", &Ok(theirs), &ours);
}

fn smallest(tally: &mut Tally, rng: &mut Rng, map: &Map, sheet: &Sheet, oracle: &Oracle) {
    let mut module = Module::new(map, sheet);
    let mut ledger = Vec::new();
    if rng.one_in(2) {
        let entries = rng.range(1, 40);
        ledger = maps::foreign_ledger(rng, map, entries);
    }
    for _ in 0..2 {
        let (spacing, share) = (maps::spacing(rng, map), maps::share(rng, map));
        tally.smallest += 1;
        let call = format!("smallest radius, spacing {spacing}, share {share:e}, {ledger:?}");
        let mut other = ledger_of(&ledger);
        let theirs = oracle.smallest(spacing, share, &mut ledger);
        let ours = module.smallest(spacing, share, &mut other);
        tally.compare(map, &call, &Ok(theirs), &ours);
        tally.compare(
            map,
            &format!("{call}: ledger after"),
            &ledger,
            &entries_of(&other),
        );
    }
}

fn compare(seed: u64, maps: u64) -> ExitCode {
    let mut rng = Rng::new(seed);
    let mut tally = Tally::default();
    for _ in 0..maps {
        let size = match rng.range(0, 49) {
            0 => Size::Large,
            1..=24 => Size::Job,
            _ => Size::Small,
        };
        let map = maps::map(&mut rng, size);
        tally.large += u64::from(size == Size::Large);
        let oracle = Oracle::new(&map);
        let sheet = oracle.sheet();
        if !maps::sheet_accepted(&map, &sheet) {
            tally.refused += 1;
            let number = Module::new(&map, &sheet).search(0, 1).map(|_| ());
            tally.compare(&map, "a sheet that question 6 refuses", &Err(6), &number);
            continue;
        }
        circles(&mut tally, &mut rng, &map, &sheet, &oracle);
        searches(&mut tally, &mut rng, &map, &sheet, &oracle);
        puts(&mut tally, &mut rng, &map, &sheet);
        smallest(&mut tally, &mut rng, &map, &sheet, &oracle);
    }
    println!(
        "seed {seed}: {maps} maps, {} of them large, {} refused with 6, {} circles, {} searches, {} puts, {} smallest radii: {} disagreements",
        tally.large,
        tally.refused,
        tally.circles,
        tally.searches,
        tally.puts,
        tally.smallest,
        tally.disagreements
    );
    match tally.told {
        None => ExitCode::SUCCESS,
        Some((_, told)) => {
            println!("{told}");
            ExitCode::FAILURE
        }
    }
}

fn main() -> ExitCode {
    let words: Vec<String> = std::env::args().skip(1).collect();
    if let [seed, maps] = &words[..]
        && let (Ok(seed), Ok(maps)) = (seed.parse(), maps.parse())
    {
        return compare(seed, maps);
    }
    println!("compare SEED MAPS");
    ExitCode::FAILURE
}
