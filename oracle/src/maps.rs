//! Seeded maps and questions to put to them. The same seed gives the same maps everywhere: the
//! random numbers are made here, and no float of a map but the sheet's comes from the C library.

use std::collections::BTreeSet;

use crate::api::{Centre, Entry, Map, Oracle, Sheet};
use crate::reading::sheet_passes;

pub const EARTH_RADIUS_KM: f64 = 6371.0088;
pub const CEILING_KM: u32 = 20_016;
const LIMIT_DEG: f64 = 90.0 + 1e-9;

/// splitmix64.
pub struct Rng(u64);

impl Rng {
    pub fn new(seed: u64) -> Self {
        Self(seed)
    }

    pub fn next(&mut self) -> u64 {
        self.0 = self.0.wrapping_add(0x9e37_79b9_7f4a_7c15);
        let mut z = self.0;
        z = (z ^ (z >> 30)).wrapping_mul(0xbf58_476d_1ce4_e5b9);
        z = (z ^ (z >> 27)).wrapping_mul(0x94d0_49bb_1331_11eb);
        z ^ (z >> 31)
    }

    /// A whole number from `low` to `high`, both included.
    pub fn range(&mut self, low: u32, high: u32) -> u32 {
        low + (self.next() % (u64::from(high - low) + 1)) as u32
    }

    pub fn one_in(&mut self, n: u32) -> bool {
        self.range(1, n) == 1
    }

    /// From 0, included, to 1, not included.
    pub fn unit(&mut self) -> f64 {
        (self.next() >> 11) as f64 / 9_007_199_254_740_992.0
    }

    pub fn pick<T: Copy>(&mut self, from: &[T]) -> T {
        from[self.range(0, from.len() as u32 - 1) as usize]
    }
}

/// How large a map may be.
#[derive(Debug, Clone, Copy, PartialEq, Eq)]
pub enum Size {
    /// Up to 8 × 5.
    Small,
    /// Up to 24 × 12, as a job has it.
    Job,
    /// Up to 180 × 90.
    Large,
}

/// Questions 1 to 3, which decide the grids that the oracle is asked about.
pub fn admitted(map: &Map) -> bool {
    let (width, height) = (f64::from(map.width), f64::from(map.height));
    (1..=180).contains(&map.width)
        && (1..=90).contains(&map.height)
        && map.origin_lat.is_finite()
        && map.lon_step.is_finite()
        && map.lat_step.is_finite()
        && map.lat_step != 0.0
        && map.origin_lat.abs() <= LIMIT_DEG
        && (map.origin_lat + height * map.lat_step).abs() <= LIMIT_DEG
        && (width * map.lon_step.abs() - 360.0).abs() <= 1e-9
}

/// Question 6 of the cosines.
pub fn cosines_accepted(sheet: &Sheet) -> bool {
    sheet.cosines.iter().all(|&x| 0.0 < x && x <= 1.0)
}

/// Question 6: whether the sheet is one that a call accepts.
pub fn sheet_accepted(map: &Map, sheet: &Sheet) -> bool {
    cosines_accepted(sheet) && sheet_passes(map.width, map.height, &sheet.angles)
}

/// Whether a cell is in a circle, by the sheet alone. The radius may be a widened one.
pub fn in_circle(map: &Map, sheet: &Sheet, km: f64, from: (u32, u32), to: (u32, u32)) -> bool {
    if km == 0.0 {
        return false;
    }
    let apart = from.1.abs_diff(to.1);
    let offset = apart.min(map.width - apart);
    let at = (from.0 * map.height + to.0) * (map.closing() + 1) + offset;
    sheet.angles[at as usize] <= (km / EARTH_RADIUS_KM).min(std::f64::consts::PI)
}

/// A circle's population by the sheet alone, cell by cell.
pub fn population(map: &Map, sheet: &Sheet, km: f64, row: u32, col: u32) -> u64 {
    let mut people = 0;
    for r in 0..map.height {
        for c in 0..map.width {
            if in_circle(map, sheet, km, (row, col), (r, c)) {
                people += u64::from(map.counts[(r * map.width + c) as usize]);
            }
        }
    }
    people
}

/// A map that questions 1 to 3 admit.
pub fn map(rng: &mut Rng, size: Size) -> Map {
    loop {
        let (width, height) = match size {
            Size::Small => (rng.range(1, 8), rng.range(1, 5)),
            Size::Job => (rng.range(1, 24), rng.range(1, 12)),
            // One long side is cheap, both are dear: a sheet has height × height × width / 2 angles.
            Size::Large => match rng.range(0, 3) {
                0 => (rng.range(25, 180), rng.range(1, 6)),
                1 => (rng.range(1, 6), rng.range(13, 90)),
                2 => (rng.range(25, 60), rng.range(6, 30)),
                _ => (rng.range(61, 180), rng.range(13, 90)),
            },
        };
        let made = of_size(rng, width, height);
        if admitted(&made) {
            return made;
        }
    }
}

/// A map of this size, which questions 2 and 3 may yet refuse.
pub fn of_size(rng: &mut Rng, width: u32, height: u32) -> Map {
    let mut lon_step = 360.0 / f64::from(width);
    if rng.one_in(4) {
        // Anywhere in the tolerance on a full turn.
        lon_step = (360.0 + (rng.unit() * 2.0 - 1.0) * 9e-10) / f64::from(width);
    }
    if rng.one_in(3) {
        lon_step = -lon_step;
    }
    let (origin_lat, lat_step) = latitudes(rng, height);
    Map {
        width,
        height,
        origin_lat,
        lon_step,
        lat_step,
        counts: counts(rng, (width * height) as usize),
    }
}

fn latitudes(rng: &mut Rng, height: u32) -> (f64, f64) {
    let rows = f64::from(height);
    let (origin, step) = match rng.range(0, 9) {
        // From pole to pole.
        0..=2 => (90.0, -180.0 / rows),
        // A band, often touching no pole.
        3 | 4 => {
            let north = rng.unit() * 180.0 - 90.0;
            let south = -90.0 + (north + 90.0) * rng.unit();
            (north, (south - north) / rows)
        }
        // Whole degrees.
        5 => {
            let step = f64::from(rng.range(1, 180 / height));
            let north = -90.0 + rows * step + f64::from(rng.range(0, 180 - height * step as u32));
            (north, -step)
        }
        // Tiny steps, down to the least float: rows that nearly or wholly coincide.
        6 => {
            let step = match rng.range(0, 3) {
                0 => f64::from_bits(u64::from(rng.range(1, 3))),
                1 => rng.unit() * 1e-12,
                2 => rng.unit() * 1e-7,
                _ => rng.unit() * 1e-3,
            };
            let anywhere = (rng.unit() - 0.5) * 170.0;
            let north = rng.pick(&[0.0, 1e-9, 45.0, anywhere, 89.0, 89.999999]);
            (north, -step)
        }
        // Hard by a pole, and a hair past it.
        7 => {
            let north = rng.pick(&[LIMIT_DEG, 90.0, 90.0 - 1e-9, 90.0 + 5e-10]);
            (north, -rng.pick(&[1e-9, 2e-9, 1e-6, 1e-3, 1.0]))
        }
        // The other pole's edge at the limit.
        8 => (90.0, (-LIMIT_DEG - 90.0) / rows),
        // Rows whose distance is a whole number of kilometres to the last bit.
        _ => {
            let (_, step) = exact_step(rng, height);
            (step, -step)
        }
    };
    if rng.one_in(3) {
        (-origin, -step)
    } else {
        (origin, step)
    }
}

/// A radius, and a latitude step such that the first two rows, either side of the equator, lie at
/// just its angle: the one place where "at most" and "less than" differ. Looked for among the
/// floats nearest to the step, and not there for every radius.
fn exact_step(rng: &mut Rng, height: u32) -> (u32, f64) {
    loop {
        // The last row's far edge must stay short of the pole.
        let km = rng.range(1, 10_000 / height.max(2));
        let angle = f64::from(km) / EARTH_RADIUS_KM;
        let near = (angle / 0.017453292519943295).to_bits();
        let step = (near - 32..near + 32).map(f64::from_bits).find(|&step| {
            let pair = Map {
                width: 1,
                height: 2,
                origin_lat: step,
                lon_step: 360.0,
                lat_step: -step,
                counts: vec![0; 2],
            };
            Oracle::new(&pair).sheet().angles[1] == angle
        });
        if let Some(step) = step {
            return (km, step);
        }
    }
}

/// A map whose first two rows lie at just the angle of a whole radius, and that radius.
pub fn exact(rng: &mut Rng, width: u32, height: u32) -> (Map, u32) {
    let (km, step) = exact_step(rng, height);
    let map = Map {
        origin_lat: step,
        lat_step: -step,
        ..of_size(rng, width, height)
    };
    (map, km)
}

fn counts(rng: &mut Rng, cells: usize) -> Vec<u32> {
    let kind = rng.range(0, 11);
    let same = rng.pick(&[0, 1, 7, u32::MAX]);
    let alone = rng.range(0, cells as u32 - 1) as usize;
    (0..cells)
        .map(|cell| match kind {
            0..=2 => rng.range(0, 9),
            3 | 4 => rng.range(0, 1_000_000),
            // Heavy-tailed: every order of magnitude as likely.
            5 | 6 => rng.next() as u32 >> rng.range(0, 31),
            // Sparse.
            7 | 8 if rng.one_in(8) => rng.range(1, 1000),
            7 | 8 => 0,
            9 => same,
            10 if cell == alone => rng.pick(&[1, 1000, u32::MAX]),
            10 => 0,
            _ => rng.pick(&[0, u32::MAX]),
        })
        .collect()
}

/// A radius from 0 to 20,016, with the ones where some circle changes well represented.
pub fn radius(rng: &mut Rng, sheet: &Sheet) -> u32 {
    match rng.range(0, 9) {
        0 => rng.pick(&[0, 0, 1, 2, CEILING_KM - 1, CEILING_KM]),
        1 => rng.range(1, 300),
        2 | 3 => rng.range(1, 6000),
        4 | 5 => rng.range(0, CEILING_KM),
        // Just below, at and just above the kilometres of one of the sheet's angles.
        _ => {
            let angle = rng.pick(&sheet.angles);
            let below = (angle * EARTH_RADIUS_KM) as u32;
            (below + rng.range(0, 2))
                .saturating_sub(u32::from(rng.one_in(4)))
                .min(CEILING_KM)
        }
    }
}

/// A spacing, 0 for the automatic one.
pub fn spacing(rng: &mut Rng, map: &Map) -> u32 {
    let side = map.width.max(map.height);
    match rng.range(0, 9) {
        0..=3 => 0,
        4 => rng.pick(&[1, 2, 3]),
        5 | 6 => rng.range(1, side),
        7 => side + rng.range(0, 1),
        8 => rng.range(1, 2 * side),
        _ => rng.pick(&[1000, 65_535, u32::MAX]),
    }
}

/// A share above 0 and at most 1, some of which make the target a population to the last bit.
pub fn share(rng: &mut Rng, map: &Map) -> f64 {
    let total: u64 = map.counts.iter().map(|&count| u64::from(count)).sum();
    match rng.range(0, 9) {
        0 => 1.0,
        1 => rng.pick(&[f64::from_bits(1), 1e-300, 1e-15, 1e-9]),
        2 => rng.pick(&[0.5, 0.25, 0.1, 0.75]),
        3 => f64::from_bits(1.0f64.to_bits() - u64::from(rng.range(1, 4))),
        4 | 5 if total > 0 => {
            let cell = u64::from(rng.pick(&map.counts)).max(1);
            (cell * u64::from(rng.range(1, 4))).min(total) as f64 / total as f64
        }
        _ => (rng.unit() + 1e-6).min(1.0),
    }
}

/// A ledger that another map might have left: its populations say nothing of this one.
pub fn foreign_ledger(rng: &mut Rng, map: &Map, entries: u32) -> Vec<Entry> {
    let total: u64 = map.counts.iter().map(|&count| u64::from(count)).sum();
    // Kilometres that a climb visits are the ones worth holding.
    let mut kms = BTreeSet::new();
    while kms.len() < entries as usize {
        kms.insert(match rng.range(0, 3) {
            0 | 1 => 1 << rng.range(0, 14),
            2 => rng.pick(&[0, 1, 3, 20_015, 10_007, 12_287]),
            _ => rng.range(0, 20_015),
        });
    }
    let entry = |km| Entry {
        km,
        centre: Centre {
            row: rng.range(0, map.height - 1),
            col: rng.range(0, map.width - 1),
            population: match rng.range(0, 4) {
                0 => rng.pick(&[0, 1, total, total + 1, 1 << 53]),
                1 => rng.next() >> 11,
                _ => rng.next() % (total + 1),
            },
        },
    };
    kms.into_iter().map(entry).collect()
}
