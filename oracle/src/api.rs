//! What is asked of the original, in the terms of the specification: whole kilometres, whole
//! populations, indices as plain numbers, 0 for the automatic spacing.

use std::collections::BTreeMap;
use std::convert::Infallible;
use std::num::NonZeroU32;

use crate::circle;
use crate::geodesy::{LatLon, RadiusKm, angular_distance_rad};
use crate::grid::{Col, Grid, Row};
use crate::kernel::Kernel;
use crate::search::{self, Candidate, SearchStats};
use crate::smallest::{self, RadiusLedger, Share};
use crate::table::Table;

/// A grid with its counts, row by row from row 0. The origin longitude is 0.
#[derive(Debug, Clone, PartialEq)]
pub struct Map {
    pub width: u32,
    pub height: u32,
    pub origin_lat: f64,
    pub lon_step: f64,
    pub lat_step: f64,
    pub counts: Vec<u32>,
}

impl Map {
    pub fn closing(&self) -> u32 {
        self.width / 2
    }
}

/// Angles by centre row, row and offset: those of c, r and k at `(c * height + r) * (closing + 1) + k`.
#[derive(Debug, Clone, PartialEq)]
pub struct Sheet {
    pub angles: Vec<f64>,
    pub cosines: Vec<f64>,
}

#[derive(Debug, Clone, Copy, PartialEq, Eq)]
pub struct Centre {
    pub row: u32,
    pub col: u32,
    pub population: u64,
}

#[derive(Debug, Clone, Copy, PartialEq, Eq)]
pub struct Entry {
    pub km: u32,
    pub centre: Centre,
}

#[derive(Debug, Clone, Copy, PartialEq)]
pub struct Most {
    pub centre: Centre,
    pub stats: SearchStats,
    pub tolerance: f64,
}

#[derive(Debug, Clone, Copy, PartialEq)]
pub struct Least {
    pub radius_km: u32,
    pub centre: Centre,
    pub share: f64,
    pub persons: f64,
    pub total: f64,
    pub share_achieved: f64,
    /// Kilometre and population of the witness one kilometre below.
    pub short: Option<(u32, u64)>,
    pub covers_whole_grid: bool,
    pub slack: f64,
    /// Lowest and highest kilometre, and how many radii.
    pub ambiguity: Option<(u32, u32, u32)>,
    pub tolerance: f64,
    pub evaluated: u64,
    pub reused: u64,
    pub stats: SearchStats,
}

/// A population of whole counts is whole: anything else is a fault of the oracle, not an answer.
fn whole(population: f64) -> u64 {
    assert!(
        (0.0..=9_007_199_254_740_992.0).contains(&population) && population.fract() == 0.0,
        "{population} is not a whole population"
    );
    population as u64
}

fn centre(found: Candidate) -> Centre {
    Centre {
        row: found.row.get(),
        col: found.col.get(),
        population: whole(found.population),
    }
}

/// The ledger in memory: get and put by kilometre, and nothing on disk.
struct Memory(BTreeMap<u32, Candidate>);

impl RadiusLedger for Memory {
    type Error = Infallible;

    fn get(&self, km: u32) -> Option<Candidate> {
        self.0.get(&km).copied()
    }

    fn put(&mut self, km: u32, found: Candidate) -> Result<(), Infallible> {
        self.0.insert(km, found);
        Ok(())
    }
}

/// A map made ready for questions: the original's grid, and its table of sums.
pub struct Oracle {
    grid: Grid,
    sums: Vec<f64>,
}

impl Oracle {
    pub fn new(map: &Map) -> Self {
        let grid = Grid::raw(
            map.width,
            map.height,
            map.origin_lat,
            map.lon_step,
            map.lat_step,
        );
        // Filled here and not by the original's builder, which takes cells of 32-bit floats and so
        // cannot hold every count. Each sum is a whole number below 2^53: nothing is rounded.
        let (width, height) = (map.width as usize, map.height as usize);
        assert_eq!(map.counts.len(), width * height, "one count for each cell");
        let stride = width + 1;
        let mut sums = vec![0.0; stride * (height + 1)];
        for row in 0..height {
            let mut along = 0.0;
            for col in 0..width {
                along += f64::from(map.counts[row * width + col]);
                sums[(row + 1) * stride + col + 1] = sums[row * stride + col + 1] + along;
            }
        }
        Self { grid, sums }
    }

    fn table(&self) -> Table<'_> {
        Table::new(self.grid, &self.sums).expect("the sums have the padded length")
    }

    fn row(&self, row: u32) -> Row {
        self.grid.row(row).expect("a row of the grid")
    }

    fn col(&self, col: u32) -> Col {
        self.grid.col(col).expect("a column of the grid")
    }

    fn centre_lat(&self, row: u32) -> f64 {
        self.grid
            .centre_lat(self.row(row))
            .expect("a row of the grid")
    }

    /// The angles as a kernel asks for them: from the centre row's latitude at longitude 0 to the
    /// row's latitude at a whole number of longitude steps. The cosines as the bound takes them.
    pub fn sheet(&self) -> Sheet {
        let (width, height) = (self.grid.width(), self.grid.height());
        let mut angles = Vec::new();
        for c in 0..height {
            let from = LatLon {
                lat: self.centre_lat(c),
                lon: 0.0,
            };
            for r in 0..height {
                for k in 0..=width / 2 {
                    let to = LatLon {
                        lat: self.centre_lat(r),
                        lon: f64::from(k) * self.grid.lon_step(),
                    };
                    angles.push(angular_distance_rad(from, to));
                }
            }
        }
        let cosines = (0..height)
            .map(|row| self.centre_lat(row).to_radians().cos())
            .collect();
        Sheet { angles, cosines }
    }

    /// The population of one circle of a radius that need not be whole, as a widened one is not.
    pub fn circle_at(&self, km: f64, row: u32, col: u32) -> u64 {
        let radius = RadiusKm::new(km).expect("a length");
        let kernel = Kernel::new(self.grid, self.row(row), radius).expect("the columns close");
        whole(circle::population(&self.table(), &kernel, self.col(col)).expect("a cell"))
    }

    pub fn circle(&self, km: u32, row: u32, col: u32) -> u64 {
        self.circle_at(f64::from(km), row, col)
    }

    pub fn initial_spacing(&self, km: u32) -> u32 {
        search::initial_spacing(&self.grid, RadiusKm::from(km)).get()
    }

    pub fn most_populous(&self, spacing: u32, km: u32) -> Most {
        let found = search::most_populous(
            &self.table(),
            RadiusKm::from(km),
            NonZeroU32::new(spacing),
            &mut (),
        )
        .expect("the columns close");
        Most {
            centre: centre(found.centre),
            stats: found.stats,
            tolerance: found.tolerance_persons,
        }
    }

    /// The smallest radius; the ledger comes back as the original left it, kilometres rising.
    pub fn smallest(&self, spacing: u32, share: f64, ledger: &mut Vec<Entry>) -> Least {
        let entries = ledger.iter().map(|entry| {
            let found = Candidate {
                row: self.row(entry.centre.row),
                col: self.col(entry.centre.col),
                population: entry.centre.population as f64,
            };
            (entry.km, found)
        });
        let mut memory = Memory(entries.collect());
        let found = smallest::smallest(
            &self.table(),
            Share::new(share).expect("a share"),
            NonZeroU32::new(spacing),
            &mut memory,
            &mut (),
        )
        .unwrap_or_else(|_| panic!("the columns close"));
        ledger.clear();
        ledger.extend(memory.0.iter().map(|(&km, &found)| Entry {
            km,
            centre: centre(found),
        }));
        Least {
            radius_km: found.radius_km,
            centre: centre(found.centre),
            share: found.target.share.get(),
            persons: found.target.persons,
            total: found.target.total,
            share_achieved: found.share_achieved,
            short: found.short_below.map(|(km, people)| (km, whole(people))),
            covers_whole_grid: found.covers_whole_grid,
            slack: found.predicate_slack_persons,
            ambiguity: found
                .ambiguity
                .map(|span| (span.lowest_km, span.highest_km, span.radii)),
            tolerance: found.tolerance_persons,
            evaluated: found.stats.radii_evaluated,
            reused: found.stats.radii_reused,
            stats: found.stats.searched,
        }
    }
}
