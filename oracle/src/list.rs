//! The list of calls with the original's answers.

use std::io::{self, Write};

use oracle::api::{Map, Oracle, Sheet};
use oracle::maps::{self, Rng, Size};

use crate::lines::Lines;
use crate::ring_map;

/// The fixed list: the ring, then seeded maps with a handful of calls each.
pub fn list(seed: u64) {
    const VERSION: u64 = 1;
    const MAPS: u32 = 72;
    const REFUSED: u64 = 4;
    let mut rng = Rng::new(seed);
    let mut lines = Lines::new(io::BufWriter::new(io::stdout().lock()));
    lines.line('H', [VERSION, seed]);

    ring_calls(&mut lines);

    let (mut tried, mut refused, mut kept) = (0u64, 0u64, 0u64);
    let mut made = 0;
    // Sheets that question 6 refuses are rare: the last draws only look for enough of them.
    while made < MAPS || kept < REFUSED {
        let mut edge = None;
        let map = match made {
            // A few of a chosen shape, so that every list has many levels and both long sides.
            8 => maps::of_size(&mut rng, 180, 2),
            20 => maps::of_size(&mut rng, 120, 3),
            32 => maps::of_size(&mut rng, 1, 48),
            44 => maps::of_size(&mut rng, 24, 12),
            56 => globe(maps::of_size(&mut rng, 36, 18)),
            66 => globe(maps::of_size(&mut rng, 60, 24)),
            _ if made % 10 == 3 => {
                let (width, height) = (rng.range(1, 7), rng.range(2, 5));
                let (map, km) = maps::exact(&mut rng, width, height);
                edge = Some(km);
                map
            }
            _ if made % 9 == 4 => maps::map(&mut rng, Size::Job),
            _ => maps::map(&mut rng, Size::Small),
        };
        if !maps::admitted(&map) {
            continue;
        }
        tried += 1;
        let oracle = Oracle::new(&map);
        let sheet = oracle.sheet();
        if !maps::sheet_accepted(&map, &sheet) {
            refused += 1;
            if kept < REFUSED && map.width * map.height <= 24 {
                kept += 1;
                lines.map(&map, &sheet);
                lines.line('Q', [6]);
            }
            continue;
        }
        if made == MAPS {
            continue;
        }
        made += 1;
        lines.map(&map, &sheet);
        if let Some(km) = edge {
            for km in [km - 1, km] {
                lines.circle(&oracle, km, 0, 0);
                lines.most(&oracle, 0, km);
            }
        }
        map_calls(&mut lines, &mut rng, &map, &oracle, &sheet, made);
    }
    let before = lines.written;
    lines.line('Z', [before]);
    eprintln!("seed {seed}: {tried} maps tried, {refused} sheets refused by question 6");
    eprintln!(
        "{} lines; maps {}, refused {}; calls: P {}, S {}, M {}, R {}",
        lines.written,
        lines.count('G'),
        lines.count('Q'),
        lines.count('P'),
        lines.count('S'),
        lines.count('M'),
        lines.count('R')
    );
}

/// The same columns and counts from pole to pole.
fn globe(map: Map) -> Map {
    Map {
        origin_lat: 90.0,
        lat_step: -180.0 / f64::from(map.height),
        ..map
    }
}

fn ring_calls<W: Write>(lines: &mut Lines<W>) {
    let mut map = ring_map();
    let oracle = Oracle::new(&map);
    lines.map(&map, &oracle.sheet());
    for km in [0, 1, 10_007, 10_008, 20_015, 20_016] {
        lines.circle(&oracle, km, 0, 3);
        lines.automatic(&oracle, km);
        lines.most(&oracle, 4, km);
        lines.most(&oracle, 0, km);
    }
    for spacing in [1, 2, 3, 5] {
        lines.most(&oracle, spacing, 10_008);
    }
    let mut ledger = Vec::new();
    for (spacing, share) in [(4, 0.5), (0, 1.0), (1, 0.5), (2, 1e-300)] {
        // The first two from a fresh ledger, then what the second left.
        if share != 1e-300 && spacing != 1 {
            ledger.clear();
            lines.ledger('L', &ledger);
        }
        lines.least(&oracle, spacing, share, &mut ledger);
    }
    map.counts.fill(0);
    let empty = Oracle::new(&map);
    lines.map(&map, &empty.sheet());
    lines.most(&empty, 4, 10_008);
    lines.ledger('L', &[]);
    lines.least(&empty, 4, 0.5, &mut Vec::new());
}

fn map_calls<W: Write>(
    lines: &mut Lines<W>,
    rng: &mut Rng,
    map: &Map,
    oracle: &Oracle,
    sheet: &Sheet,
    made: u32,
) {
    let radius = maps::radius(rng, sheet);
    lines.circle(
        oracle,
        radius,
        rng.range(0, map.height - 1),
        rng.range(0, map.width - 1),
    );
    lines.automatic(oracle, maps::radius(rng, sheet));
    for _ in 0..2 {
        let (spacing, km) = (maps::spacing(rng, map), maps::radius(rng, sheet));
        lines.most(oracle, spacing, km);
    }
    // One smallest radius from a fresh ledger; on every other map a second call that finds some of
    // its radii there, and on every fourth one with a ledger that was another map's.
    let mut ledger = Vec::new();
    lines.ledger('L', &ledger);
    for _ in 0..1 + made % 2 {
        let (spacing, share) = (maps::spacing(rng, map), maps::share(rng, map));
        lines.least(oracle, spacing, share, &mut ledger);
    }
    if made % 4 == 2 {
        // Once as many as leave just the 28 places that a call wants free.
        let entries = if made == 6 { 484 } else { rng.range(1, 24) };
        let mut ledger = maps::foreign_ledger(rng, map, entries);
        lines.ledger('L', &ledger);
        let (spacing, share) = (maps::spacing(rng, map), maps::share(rng, map));
        lines.least(oracle, spacing, share, &mut ledger);
    }
}
