//! A second reading of the specification, plain and slow: the search and the smallest radius by the
//! sheet alone, every circle added up cell by cell. It is held against the original in every field,
//! so that a place where the two part is found here and not in the port. It also counts what the
//! original does not report: cells pruned and cells settled. Question 6 of a sheet's angles is read
//! here too, for the maps and for `oracle/sheets`.

use crate::api::{Centre, Entry, Least, Map, Most, Sheet};
use crate::maps::{CEILING_KM, EARTH_RADIUS_KM, population};
use crate::search::SearchStats;

const RADIANS: f64 = 0.017453292519943295;
const MARGIN: f64 = 1.0 + 32.0 * f64::EPSILON;

/// Question 6 of the angles, on as many places of a sheet as are given, from the first on; what is
/// given behind its last place is not looked at. Every two places that the question orders are
/// compared, and not only neighbours.
pub fn sheet_passes(width: u32, height: u32, angles: &[f64]) -> bool {
    let (rows, offsets) = (height as usize, width as usize / 2 + 1);
    let angles = &angles[..angles.len().min(rows * rows * offsets)];
    let at = |c: usize, r: usize, k: usize| angles.get((c * rows + r) * offsets + k).copied();
    let not_falling = |near: Option<f64>, far: Option<f64>| match (near, far) {
        (Some(near), Some(far)) => near <= far,
        _ => true,
    };
    let along = |c: usize, r: usize| {
        (0..offsets).all(|far| (0..far).all(|near| not_falling(at(c, r, near), at(c, r, far))))
    };
    // The rows passed on the way from the centre row to this one.
    let passed = |c: usize, r: usize| if r < c { r + 1..c + 1 } else { c..r };
    let away =
        |c: usize, r: usize| passed(c, r).all(|near| not_falling(at(c, near, 0), at(c, r, 0)));
    let half_turn = std::f64::consts::PI;
    angles.iter().all(|x| (0.0..=half_turn).contains(x))
        && (0..rows).all(|c| at(c, c, 0).is_none_or(|own| own == 0.0))
        && (0..rows).all(|c| (0..rows).all(|r| along(c, r) && away(c, r)))
}

#[derive(Clone, Copy)]
struct Block {
    north: u32,
    south: u32,
    first: u32,
    last: u32,
}

impl Block {
    fn probe(self) -> (u32, u32) {
        (
            self.north + (self.south - self.north) / 2,
            self.first + (self.last - self.first) / 2,
        )
    }

    fn cells(self) -> u64 {
        u64::from(self.south - self.north + 1) * u64::from(self.last - self.first + 1)
    }

    fn split(self) -> Vec<Self> {
        if self.cells() == 1 {
            return Vec::new();
        }
        let halves = |low: u32, high: u32| {
            let middle = low + (high - low) / 2;
            if low == high {
                vec![(low, high)]
            } else {
                vec![(low, middle), (middle + 1, high)]
            }
        };
        let mut children = Vec::new();
        for (north, south) in halves(self.north, self.south) {
            for (first, last) in halves(self.first, self.last) {
                children.push(Self {
                    north,
                    south,
                    first,
                    last,
                });
            }
        }
        children
    }
}

fn better(held: Centre, other: Centre) -> Centre {
    let first = (other.row, other.col) < (held.row, held.col);
    if other.population > held.population || (other.population == held.population && first) {
        other
    } else {
        held
    }
}

/// The last kernel of its kind in a chunk: another row or radius counts as one more.
struct Held {
    row: u32,
    km: u64,
    built: u64,
}

impl Held {
    fn ask(&mut self, row: u32, km: f64) {
        if (row, km.to_bits()) != (self.row, self.km) {
            (self.row, self.km) = (row, km.to_bits());
            self.built += 1;
        }
    }
}

pub struct Reading<'a> {
    pub map: &'a Map,
    pub sheet: &'a Sheet,
}

/// A search's answer, with the two counts that were added to the original's.
#[derive(Debug, Clone, Copy, PartialEq)]
pub struct Searched {
    pub most: Most,
    pub cells_pruned: u64,
    pub cells_settled: u64,
}

impl Reading<'_> {
    fn latitude(&self, row: u32) -> f64 {
        self.map.origin_lat + (f64::from(row) + 0.5) * self.map.lat_step
    }

    fn wide_km(&self, km: f64, block: Block) -> f64 {
        let (row, col) = block.probe();
        let at = self.latitude(row);
        let north = (self.latitude(block.north) - at).abs();
        let south = (self.latitude(block.south) - at).abs();
        let columns = (col - block.first).max(block.last - col);
        let along = f64::from(columns) * self.map.lon_step.abs();
        let hops = north.max(south) * RADIANS + along * RADIANS * self.sheet.cosines[row as usize];
        let slack = EARTH_RADIUS_KM * hops * MARGIN;
        let wide = km + slack;
        if wide.is_finite() {
            wide.max(km)
        } else {
            f64::MAX
        }
    }

    pub fn initial_spacing(&self, km: u32) -> u32 {
        let (width, height) = (self.map.width, self.map.height);
        let half = EARTH_RADIUS_KM * std::f64::consts::PI;
        let km = f64::from(km);
        if km >= half {
            return width.max(height);
        }
        let fits = |side: u32| {
            let (rows, cols) = (side.min(height) / 2, side.min(width) / 2);
            if rows == 0 && cols == 0 {
                return true;
            }
            let (lat_step, lon_step) = (self.map.lat_step.abs(), self.map.lon_step.abs());
            let mut latitude = 0.0;
            if rows > 0 {
                let extent = (f64::from(height) * lat_step).next_up();
                let reach = (self.map.origin_lat.abs() + extent).next_up();
                let rounding = (8.0 * f64::EPSILON * reach).next_up();
                latitude = ((f64::from(rows) * lat_step).next_up() + rounding).next_up();
            }
            let mut longitude = 0.0;
            if cols > 0 {
                longitude = (f64::from(cols) * lon_step).next_up();
            }
            let angle =
                ((latitude * RADIANS).next_up() + (longitude * RADIANS).next_up()).next_up();
            let slack = ((EARTH_RADIUS_KM * angle).next_up() * MARGIN).next_up();
            (km + slack).max(km).next_up() < half
        };
        let (mut low, mut high) = (1, width.max(height));
        while low < high {
            let middle = low + (high - low).div_ceil(2);
            if fits(middle) {
                low = middle;
            } else {
                high = middle - 1;
            }
        }
        low
    }

    fn tiles(&self, spacing: u32) -> Vec<Block> {
        let mut level = Vec::new();
        let pieces = |size: u32| {
            (0..size)
                .step_by(spacing as usize)
                .map(move |low| (low, low.saturating_add(spacing - 1).min(size - 1)))
        };
        for (north, south) in pieces(self.map.height) {
            for (first, last) in pieces(self.map.width) {
                level.push(Block {
                    north,
                    south,
                    first,
                    last,
                });
            }
        }
        level
    }

    pub fn search(&self, spacing: u32, km: u32) -> Searched {
        let mut stats = SearchStats::default();
        let (mut cells_pruned, mut cells_settled) = (0, 0);
        let mut best: Option<Centre> = None;
        let radius = f64::from(km);
        let mut level = match (km, spacing) {
            (0, _) => Vec::new(),
            (_, 0) => self.tiles(self.initial_spacing(km)),
            _ => self.tiles(spacing),
        };
        while !level.is_empty() {
            stats.levels += 1;
            level.sort_by_key(|block| block.probe());
            let size = level.len().div_ceil(level.len().min(4));
            let before = best;
            let mut next = Vec::new();
            for chunk in level.chunks(size) {
                let seed = || Held {
                    row: self.map.height / 2,
                    km: radius.to_bits(),
                    built: 1,
                };
                let (mut wide, mut exact) = (seed(), seed());
                let mut held = before;
                for &block in chunk {
                    let (row, col) = block.probe();
                    let wide_km = self.wide_km(radius, block);
                    wide.ask(row, wide_km);
                    stats.blocks_examined += 1;
                    let bound = population(self.map, self.sheet, wide_km, row, col);
                    if held.is_some_and(|held| bound < held.population) {
                        stats.blocks_pruned += 1;
                        cells_pruned += block.cells();
                        continue;
                    }
                    exact.ask(row, radius);
                    stats.circles_evaluated += 1;
                    cells_settled += u64::from(block.cells() == 1);
                    let found = Centre {
                        row,
                        col,
                        population: population(self.map, self.sheet, radius, row, col),
                    };
                    held = Some(held.map_or(found, |held| better(held, found)));
                    next.extend(block.split());
                }
                stats.kernels_built += wide.built + exact.built;
                best = match (best, held) {
                    (Some(best), Some(held)) => Some(better(best, held)),
                    (best, held) => best.or(held),
                };
            }
            level = next;
        }
        let nobody = Centre {
            row: 0,
            col: 0,
            population: 0,
        };
        Searched {
            most: Most {
                centre: best.unwrap_or(nobody),
                stats,
                tolerance: 0.0,
            },
            cells_pruned,
            cells_settled,
        }
    }

    pub fn smallest(&self, spacing: u32, share: f64, ledger: &mut Vec<Entry>) -> Least {
        let total: u64 = self.map.counts.iter().map(|&count| u64::from(count)).sum();
        let people = total as f64;
        let target = share * people;
        let rows = f64::from(self.map.height);
        let slack = rows * 4.0 * (people.next_up() - people) + rows * f64::EPSILON * people;

        let (mut evaluated, mut reused) = (0, 0);
        let mut stats = SearchStats::default();
        let mut probes: Vec<(u32, Centre)> = Vec::new();
        let mut reaches = |km: u32| {
            let found = match ledger.binary_search_by_key(&km, |entry| entry.km) {
                Ok(at) => {
                    reused += 1;
                    ledger[at].centre
                }
                Err(at) => {
                    evaluated += 1;
                    let most = self.search(spacing, km).most;
                    stats.levels += most.stats.levels;
                    stats.blocks_examined += most.stats.blocks_examined;
                    stats.blocks_pruned += most.stats.blocks_pruned;
                    stats.circles_evaluated += most.stats.circles_evaluated;
                    stats.kernels_built += most.stats.kernels_built;
                    let centre = most.centre;
                    ledger.insert(at, Entry { km, centre });
                    centre
                }
            };
            probes.push((km, found));
            found.population as f64 >= target
        };
        let climb = (0..15).map(|n| 1 << n).chain([CEILING_KM - 1]);
        let mut low = 0;
        let mut high = CEILING_KM;
        for km in climb {
            if reaches(km) {
                high = km;
                break;
            }
            low = km + 1;
        }
        while low < high {
            let middle = low + (high - low) / 2;
            if reaches(middle) {
                high = middle;
            } else {
                low = middle + 1;
            }
        }

        let probed = |km: u32| {
            probes
                .iter()
                .find(|probe| probe.0 == km)
                .map(|probe| probe.1)
        };
        let centre = probed(high).unwrap_or(Centre {
            row: 0,
            col: 0,
            population: total,
        });
        let near: Vec<u32> = probes
            .iter()
            .filter(|(_, found)| (found.population as f64 - target).abs() <= slack)
            .map(|probe| probe.0)
            .collect();
        let below = high.checked_sub(1);
        let short = below.and_then(|km| probed(km).map(|found| (km, found.population)));
        let everywhere = (0..self.map.height).all(|row| {
            let places = self.map.closing() + 1;
            let last = (centre.row * self.map.height + row + 1) * places - 1;
            high > 0 && {
                let angle = (f64::from(high) / EARTH_RADIUS_KM).min(std::f64::consts::PI);
                self.sheet.angles[last as usize] <= angle
            }
        });
        Least {
            radius_km: high,
            centre,
            share,
            persons: target,
            total: people,
            share_achieved: if total > 0 {
                centre.population as f64 / people
            } else {
                0.0
            },
            short: short.filter(|&(_, held)| (held as f64) < target),
            covers_whole_grid: everywhere,
            slack,
            ambiguity: near.iter().min().map(|&low| {
                let high = near.iter().max().copied().unwrap_or(low);
                (low, high, near.len() as u32)
            }),
            tolerance: 0.0,
            evaluated,
            reused,
            stats,
        }
    }
}
