//! This module's calls through its static library, in the terms of `oracle::api`. The functions of the library are
//! declared in `examples/jadurphen.rs` and nowhere else.

#[path = "../../examples/jadurphen.rs"]
pub mod jadurphen;

use jadurphen::{Buffers, Candidate, Grid, Ledger, Refusal, Spacing};
use oracle::api::{Centre, Entry, Least, Map, Most, Sheet};
use oracle::search::SearchStats;

/// A map with its sheet and the buffers that its calls are lent.
pub struct Module<'a> {
    map: jadurphen::Map<'a>,
    pub lent: Buffers,
}

/// The search's answer with the two counts that the original does not report.
#[derive(Debug, Clone, Copy, PartialEq)]
pub struct Searched {
    pub most: Most,
    pub cells_pruned: u64,
    pub cells_settled: u64,
}

fn spacing_of(cells: u32) -> Spacing {
    match cells {
        0 => Spacing::Automatic,
        n => Spacing::Cells(n),
    }
}

fn centre(found: Candidate) -> Centre {
    Centre {
        row: found.row,
        col: found.col,
        population: found.population,
    }
}

fn stats(found: jadurphen::SearchStats) -> SearchStats {
    SearchStats {
        levels: found.levels,
        blocks_examined: found.blocks_examined,
        blocks_pruned: found.blocks_pruned,
        circles_evaluated: found.circles_evaluated,
        kernels_built: found.kernels_built,
    }
}

fn number(refusal: Refusal) -> u32 {
    refusal as u32
}

fn entry_for_module(entry: &Entry) -> jadurphen::Entry {
    jadurphen::Entry {
        km: entry.km,
        centre: Candidate {
            row: entry.centre.row,
            col: entry.centre.col,
            population: entry.centre.population,
        },
    }
}

pub fn ledger_of(entries: &[Entry]) -> Ledger {
    Ledger::of(&entries.iter().map(entry_for_module).collect::<Vec<_>>())
}

pub fn entries_of(ledger: &Ledger) -> Vec<Entry> {
    let entry = |entry: jadurphen::Entry| Entry {
        km: entry.km,
        centre: centre(entry.centre),
    };
    ledger.entries().map(entry).collect()
}

impl<'a> Module<'a> {
    pub fn new(map: &'a Map, sheet: &'a Sheet) -> Self {
        let grid = Grid {
            width: map.width,
            height: map.height,
            origin_lat: map.origin_lat,
            lon_step: map.lon_step,
            lat_step: map.lat_step,
        };
        let mut lent = Buffers::new(&grid);
        // No call may count on what it finds there.
        lent.sums.fill(3);
        lent.current.fill(5);
        lent.following.fill(7);
        let map = jadurphen::Map {
            grid,
            counts: &map.counts,
            angles: &sheet.angles,
            cosines: &sheet.cosines,
        };
        Self { map, lent }
    }

    pub fn circle(&mut self, km: u32, row: u32, col: u32) -> Result<u64, u32> {
        self.map
            .circle(&mut self.lent, km, row, col)
            .map_err(number)
    }

    pub fn search(&mut self, spacing: u32, km: u32) -> Result<Searched, u32> {
        let found = self
            .map
            .most_populous(&mut self.lent, km, spacing_of(spacing))
            .map_err(number)?;
        Ok(Searched {
            most: Most {
                centre: centre(found.centre),
                stats: stats(found.stats),
                tolerance: found.tolerance_persons,
            },
            cells_pruned: found.cells_pruned,
            cells_settled: found.cells_settled,
        })
    }

    /// The ledger with an entry put into it.
    pub fn put(&self, ledger: &[Entry], entry: Entry) -> Result<Vec<Entry>, u32> {
        let mut places = ledger_of(ledger);
        places
            .put(&self.map.grid, entry_for_module(&entry))
            .map_err(number)?;
        Ok(entries_of(&places))
    }

    pub fn smallest(
        &mut self,
        spacing: u32,
        share: f64,
        ledger: &mut Ledger,
    ) -> Result<Least, u32> {
        let found = self
            .map
            .smallest_radius(&mut self.lent, share, spacing_of(spacing), ledger)
            .map_err(number)?;
        let ambiguity = |span: jadurphen::Ambiguity| (span.lowest_km, span.highest_km, span.radii);
        Ok(Least {
            radius_km: found.radius_km,
            centre: centre(found.centre),
            share: found.share,
            persons: found.persons,
            total: found.total,
            share_achieved: found.share_achieved,
            short: found.short_below,
            covers_whole_grid: found.covers_whole_grid,
            slack: found.predicate_slack_persons,
            ambiguity: found.ambiguity.map(ambiguity),
            tolerance: found.tolerance_persons,
            evaluated: found.radii_evaluated,
            reused: found.radii_reused,
            stats: stats(found.searched),
        })
    }
}
