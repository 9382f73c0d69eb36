//! A small world asked through `jadurphen.rs`: relay CITIES. The same as `relay.c`, which says more; `run` compares what both print.

mod jadurphen;

use std::process::ExitCode;

use jadurphen::{
    Buffers, CEILING_KM, Candidate, Entry, Grid, Ledger, Map, Refusal, Sheet, Spacing,
};

const STEP: i32 = 10;
const GRID: Grid = Grid {
    width: 36,
    height: 18,
    origin_lat: 90.0,
    lon_step: STEP as f64,
    lat_step: -STEP as f64,
};

/// The angle from (`from_lat`, 0) to (`to_lat`, `lon`), all in degrees, by the haversine.
fn angle_between(from_lat: f64, to_lat: f64, lon: f64) -> f64 {
    let (from, to) = (from_lat.to_radians(), to_lat.to_radians());
    let (south, east) = (((to - from) / 2.0).sin(), (lon.to_radians() / 2.0).sin());
    let h = (south * south + from.cos() * to.cos() * (east * east)).min(1.0);
    2.0 * h.sqrt().atan2((1.0 - h).sqrt())
}

fn sheet() -> Sheet {
    let lat = |row| GRID.centre_lat(row);
    Sheet::fill(
        &GRID,
        |centre, row, distance| {
            angle_between(lat(centre), lat(row), f64::from(distance) * GRID.lon_step)
        },
        |row| lat(row).to_radians().cos(),
    )
}

/// The counts, and how many cities they are of. Column 0 is put at 180 degrees west.
fn counts(cities: &str) -> (Vec<u32>, usize) {
    let mut counts = vec![0; GRID.cells()];
    for line in cities.lines() {
        let mut words = line.split_whitespace();
        let mut next = || words.next().expect("latitude, longitude, people");
        let lat: i32 = next().parse().expect("a latitude");
        let lon: i32 = next().parse().expect("a longitude");
        let people: u32 = next().parse().expect("people");
        counts[GRID.cell_at(((90 - lat) / STEP) as u32, ((lon + 180) / STEP) as u32)] += people;
    }
    (counts, cities.lines().count())
}

fn cell(row: u32, col: u32) -> String {
    let (lat, lon) = (
        90 - row as i32 * STEP - STEP / 2,
        col as i32 * STEP + STEP / 2 - 180,
    );
    let (north, east) = (
        if lat < 0 { 'S' } else { 'N' },
        if lon < 0 { 'W' } else { 'E' },
    );
    format!(
        "{} {north} {} {east} (row {row}, column {col})",
        lat.abs(),
        lon.abs()
    )
}

fn print_smallest(
    map: &Map,
    lent: &mut Buffers,
    share: f64,
    ledger: &mut Ledger,
) -> Result<(), Refusal> {
    let found = map.smallest_radius(lent, share, Spacing::Automatic, ledger)?;
    let Candidate {
        row,
        col,
        population,
    } = found.centre;
    println!(
        "{:.0} % of all people, {:.0}: {} km around {} reach {population}, {:.2} %",
        found.share * 100.0,
        found.persons,
        found.radius_km,
        cell(row, col),
        found.share_achieved * 100.0
    );
    if let Some((km, people)) = found.short_below {
        println!("  {km} km reach at most {people}");
    }
    println!(
        "  radii searched {}, taken from the ledger {}; the ledger has {}",
        found.radii_evaluated,
        found.radii_reused,
        ledger.len()
    );
    Ok(())
}

fn tell(cities: &str) -> Result<(), Refusal> {
    let (counts, cities) = counts(cities);
    let sheet = sheet();
    let map = Map {
        grid: GRID,
        counts: &counts,
        angles: &sheet.angles,
        cosines: &sheet.cosines,
    };
    let lent = &mut Buffers::new(&GRID);
    let ledger = &mut Ledger::default();

    let people = map.circle(lent, 2000, 5, 32)?;
    println!(
        "{} x {} cells, {cities} cities, {} people",
        GRID.width,
        GRID.height,
        lent.sums.last().expect("the sum of all cells")
    );
    println!("2000 km around {} reach {people}", cell(5, 32));

    let found = map.most_populous(lent, 2048, Spacing::Automatic)?;
    let centre = found.centre;
    println!(
        "2048 km reach most around {}: {}",
        cell(centre.row, centre.col),
        centre.population
    );
    println!(
        "  cells ruled out in blocks {}, circles evaluated {}",
        found.cells_pruned, found.stats.circles_evaluated
    );

    ledger.put(&GRID, Entry { km: 2048, centre })?;
    println!("  put into the ledger, which has {}", ledger.len());

    print_smallest(&map, lent, 0.5, ledger)?;
    print_smallest(&map, lent, 0.25, ledger)?;

    if let Err(refusal) = map.circle(lent, CEILING_KM + 1, 5, 32) {
        println!(
            "{} km: refused {}, {refusal}",
            CEILING_KM + 1,
            refusal as u32
        );
    }
    Ok(())
}

fn main() -> ExitCode {
    let Some(path) = std::env::args().nth(1) else {
        eprintln!("relay CITIES");
        return ExitCode::FAILURE;
    };
    let cities = std::fs::read_to_string(path).expect("the list of cities");
    match tell(&cities) {
        Ok(()) => ExitCode::SUCCESS,
        Err(refusal) => {
            println!("refused {}: {refusal}", refusal as u32);
            ExitCode::FAILURE
        }
    }
}
