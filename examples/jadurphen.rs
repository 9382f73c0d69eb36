//! Jadurphen's calls from Rust, over the static library that `tools/library` writes. A studio can take this file as it is.
//!
//! `include/jadurphen.h` says what each field means; lengths are judged by the calls, so nothing here can fail but by a `Refusal`.
//! After a refusal everything lent is as it was.

#![allow(dead_code)]

use std::fmt;

pub const CEILING_KM: u32 = 20_016;
const PLACES: usize = 512;
const LEDGER_WORDS: usize = 1 + 4 * PLACES;

// As `include/jadurphen.h` declares them: a slice crosses as a pointer and a length.
unsafe extern "C" {
    fn jadurphen_circle(
        width: u32,
        height: u32,
        origin_lat: f64,
        lon_step: f64,
        lat_step: f64,
        counts: *const u32,
        counts_len: usize,
        angles: *const f64,
        angles_len: usize,
        cosines: *const f64,
        cosines_len: usize,
        sums: *mut u64,
        sums_len: usize,
        km: u32,
        row: u32,
        col: u32,
        population: *mut u64,
    ) -> u32;

    fn jadurphen_search(
        width: u32,
        height: u32,
        origin_lat: f64,
        lon_step: f64,
        lat_step: f64,
        counts: *const u32,
        counts_len: usize,
        angles: *const f64,
        angles_len: usize,
        cosines: *const f64,
        cosines_len: usize,
        km: u32,
        automatic: bool,
        spacing: u32,
        sums: *mut u64,
        sums_len: usize,
        current: *mut u64,
        current_len: usize,
        following: *mut u64,
        following_len: usize,
        words: *mut [u64; 10],
        tolerance: *mut f64,
    ) -> u32;

    fn jadurphen_smallest(
        width: u32,
        height: u32,
        origin_lat: f64,
        lon_step: f64,
        lat_step: f64,
        counts: *const u32,
        counts_len: usize,
        angles: *const f64,
        angles_len: usize,
        cosines: *const f64,
        cosines_len: usize,
        share: f64,
        automatic: bool,
        spacing: u32,
        ledger: *mut u64,
        ledger_len: usize,
        sums: *mut u64,
        sums_len: usize,
        current: *mut u64,
        current_len: usize,
        following: *mut u64,
        following_len: usize,
        words: *mut [u64; 19],
        floats: *mut [f64; 6],
    ) -> u32;

    fn jadurphen_put(
        width: u32,
        height: u32,
        origin_lat: f64,
        lon_step: f64,
        lat_step: f64,
        ledger: *mut u64,
        ledger_len: usize,
        km: u32,
        row: u32,
        col: u32,
        population: u64,
    ) -> u32;
}

/// The first question of a call that is answered no. Its number is `refusal as u32`.
#[derive(Debug, Clone, Copy, PartialEq, Eq)]
pub enum Refusal {
    Size = 1,
    Latitudes,
    Longitudes,
    Counts,
    SheetLength,
    Sheet,
    Buffers,
    Radius,
    Share,
    Spacing,
    Ledger,
    LedgerFull,
}

impl Refusal {
    const ALL: [(Self, &'static str); 12] = [
        (Self::Size, "size of the grid"),
        (Self::Latitudes, "latitudes"),
        (Self::Longitudes, "longitudes"),
        (Self::Counts, "number of counts"),
        (Self::SheetLength, "number of angles or cosines"),
        (Self::Sheet, "values of the sheet"),
        (Self::Buffers, "room in the buffers"),
        (Self::Radius, "radius or centre"),
        (Self::Share, "share"),
        (Self::Spacing, "spacing"),
        (Self::Ledger, "ledger"),
        (Self::LedgerFull, "room in the ledger"),
    ];

    /// The answer, read only where the number is 0.
    fn or<T>(number: u32, answer: impl FnOnce() -> T) -> Result<T, Self> {
        match number {
            0 => Ok(answer()),
            n => Err(Self::ALL[n as usize - 1].0),
        }
    }
}

impl fmt::Display for Refusal {
    fn fmt(&self, f: &mut fmt::Formatter<'_>) -> fmt::Result {
        f.write_str(Self::ALL[*self as usize - 1].1)
    }
}

#[derive(Debug, Clone, Copy, PartialEq)]
pub struct Grid {
    pub width: u32,
    pub height: u32,
    pub origin_lat: f64,
    pub lon_step: f64,
    pub lat_step: f64,
}

impl Grid {
    pub fn cells(&self) -> usize {
        self.width as usize * self.height as usize
    }

    /// The greatest distance between two columns around the globe.
    pub fn closing(&self) -> u32 {
        self.width / 2
    }

    pub fn centre_lat(&self, row: u32) -> f64 {
        self.origin_lat + (f64::from(row) + 0.5) * self.lat_step
    }

    pub fn cell_at(&self, row: u32, col: u32) -> usize {
        row as usize * self.width as usize + col as usize
    }
}

/// The angles and cosines of a grid's rows.
#[derive(Debug, Clone, PartialEq)]
pub struct Sheet {
    pub angles: Vec<f64>,
    pub cosines: Vec<f64>,
}

impl Sheet {
    /// From the angle of a centre row, a row and a column distance, and the cosine of a row.
    pub fn fill(
        grid: &Grid,
        angle: impl Fn(u32, u32, u32) -> f64,
        cosine: impl Fn(u32) -> f64,
    ) -> Self {
        let mut angles = Vec::new();
        for centre in 0..grid.height {
            for row in 0..grid.height {
                angles.extend((0..=grid.closing()).map(|distance| angle(centre, row, distance)));
            }
        }
        let cosines = (0..grid.height).map(cosine).collect();
        Self { angles, cosines }
    }
}

/// Working space of the calls on one grid.
#[derive(Debug, Clone)]
pub struct Buffers {
    pub sums: Vec<u64>,
    pub current: Vec<u64>,
    pub following: Vec<u64>,
}

impl Buffers {
    pub fn new(grid: &Grid) -> Self {
        let sums = (grid.width as usize + 1) * (grid.height as usize + 1);
        Self {
            sums: vec![0; sums],
            current: vec![0; grid.cells()],
            following: vec![0; grid.cells()],
        }
    }
}

/// The side of a search's first blocks.
#[derive(Debug, Clone, Copy, PartialEq, Eq)]
pub enum Spacing {
    Automatic,
    Cells(u32),
}

impl Spacing {
    fn crossing(self) -> (bool, u32) {
        match self {
            Self::Automatic => (true, 0),
            Self::Cells(n) => (false, n),
        }
    }
}

/// A centre and the people of its circle.
#[derive(Debug, Clone, Copy, PartialEq, Eq)]
pub struct Candidate {
    pub row: u32,
    pub col: u32,
    pub population: u64,
}

#[derive(Debug, Clone, Copy, PartialEq, Eq)]
pub struct SearchStats {
    pub levels: u32,
    pub blocks_examined: u64,
    pub blocks_pruned: u64,
    pub circles_evaluated: u64,
    pub kernels_built: u64,
}

#[derive(Debug, Clone, Copy, PartialEq)]
pub struct MostPopulous {
    pub centre: Candidate,
    pub stats: SearchStats,
    pub cells_pruned: u64,
    pub cells_settled: u64,
    pub tolerance_persons: f64,
}

#[derive(Debug, Clone, Copy, PartialEq, Eq)]
pub struct Ambiguity {
    pub lowest_km: u32,
    pub highest_km: u32,
    pub radii: u32,
}

#[derive(Debug, Clone, Copy, PartialEq)]
pub struct Smallest {
    pub radius_km: u32,
    pub centre: Candidate,
    pub share: f64,
    pub persons: f64,
    pub total: f64,
    pub share_achieved: f64,
    /// Kilometre and population of the short probe right below the answer.
    pub short_below: Option<(u32, u64)>,
    pub covers_whole_grid: bool,
    pub predicate_slack_persons: f64,
    pub ambiguity: Option<Ambiguity>,
    pub tolerance_persons: f64,
    pub radii_evaluated: u64,
    pub radii_reused: u64,
    pub searched: SearchStats,
}

fn candidate(words: &[u64]) -> Candidate {
    Candidate {
        row: words[0] as u32,
        col: words[1] as u32,
        population: words[2],
    }
}

fn search_stats(words: &[u64]) -> SearchStats {
    SearchStats {
        levels: words[0] as u32,
        blocks_examined: words[1],
        blocks_pruned: words[2],
        circles_evaluated: words[3],
        kernels_built: words[4],
    }
}

/// A map as a call is lent it: `angles` and `cosines` are those of its sheet.
#[derive(Debug, Clone, Copy)]
pub struct Map<'a> {
    pub grid: Grid,
    pub counts: &'a [u32],
    pub angles: &'a [f64],
    pub cosines: &'a [f64],
}

// In each call a pointer goes with the length of what it points at, lent slices are borrowed apart, and no pointer is kept.
impl Map<'_> {
    /// The people of a single circle.
    pub fn circle(&self, lent: &mut Buffers, km: u32, row: u32, col: u32) -> Result<u64, Refusal> {
        let grid = self.grid;
        let mut population = 0;
        let number = unsafe {
            jadurphen_circle(
                grid.width,
                grid.height,
                grid.origin_lat,
                grid.lon_step,
                grid.lat_step,
                self.counts.as_ptr(),
                self.counts.len(),
                self.angles.as_ptr(),
                self.angles.len(),
                self.cosines.as_ptr(),
                self.cosines.len(),
                lent.sums.as_mut_ptr(),
                lent.sums.len(),
                km,
                row,
                col,
                &mut population,
            )
        };
        Refusal::or(number, || population)
    }

    /// The most populous circle of a radius.
    pub fn most_populous(
        &self,
        lent: &mut Buffers,
        km: u32,
        spacing: Spacing,
    ) -> Result<MostPopulous, Refusal> {
        let grid = self.grid;
        let (automatic, cells) = spacing.crossing();
        let mut words = [0; 10];
        let mut tolerance_persons = 0.0;
        let number = unsafe {
            jadurphen_search(
                grid.width,
                grid.height,
                grid.origin_lat,
                grid.lon_step,
                grid.lat_step,
                self.counts.as_ptr(),
                self.counts.len(),
                self.angles.as_ptr(),
                self.angles.len(),
                self.cosines.as_ptr(),
                self.cosines.len(),
                km,
                automatic,
                cells,
                lent.sums.as_mut_ptr(),
                lent.sums.len(),
                lent.current.as_mut_ptr(),
                lent.current.len(),
                lent.following.as_mut_ptr(),
                lent.following.len(),
                &mut words,
                &mut tolerance_persons,
            )
        };
        Refusal::or(number, || MostPopulous {
            centre: candidate(&words),
            stats: search_stats(&words[3..]),
            cells_pruned: words[8],
            cells_settled: words[9],
            tolerance_persons,
        })
    }

    /// The smallest radius whose best circle holds a share of the people. The ledger is this map's own.
    pub fn smallest_radius(
        &self,
        lent: &mut Buffers,
        share: f64,
        spacing: Spacing,
        ledger: &mut Ledger,
    ) -> Result<Smallest, Refusal> {
        let grid = self.grid;
        let (automatic, cells) = spacing.crossing();
        let mut words = [0; 19];
        let mut floats = [0.0; 6];
        let number = unsafe {
            jadurphen_smallest(
                grid.width,
                grid.height,
                grid.origin_lat,
                grid.lon_step,
                grid.lat_step,
                self.counts.as_ptr(),
                self.counts.len(),
                self.angles.as_ptr(),
                self.angles.len(),
                self.cosines.as_ptr(),
                self.cosines.len(),
                share,
                automatic,
                cells,
                ledger.0.as_mut_ptr(),
                ledger.0.len(),
                lent.sums.as_mut_ptr(),
                lent.sums.len(),
                lent.current.as_mut_ptr(),
                lent.current.len(),
                lent.following.as_mut_ptr(),
                lent.following.len(),
                &mut words,
                &mut floats,
            )
        };
        Refusal::or(number, || Smallest {
            radius_km: words[0] as u32,
            centre: candidate(&words[1..]),
            share: floats[0],
            persons: floats[1],
            total: floats[2],
            share_achieved: floats[3],
            short_below: (words[4] == 1).then(|| (words[5] as u32, words[6])),
            covers_whole_grid: words[7] == 1,
            predicate_slack_persons: floats[4],
            ambiguity: (words[8] == 1).then(|| Ambiguity {
                lowest_km: words[9] as u32,
                highest_km: words[10] as u32,
                radii: words[11] as u32,
            }),
            tolerance_persons: floats[5],
            radii_evaluated: words[12],
            radii_reused: words[13],
            searched: search_stats(&words[14..]),
        })
    }
}

#[derive(Debug, Clone, Copy, PartialEq, Eq)]
pub struct Entry {
    pub km: u32,
    pub centre: Candidate,
}

/// Best circles by radius, of one map: empty it when that map changes.
#[derive(Debug, Clone, PartialEq, Eq)]
pub struct Ledger(Box<[u64]>);

impl Default for Ledger {
    fn default() -> Self {
        Self(vec![0; LEDGER_WORDS].into())
    }
}

impl Ledger {
    /// A ledger of these entries, whether or not a call will accept it. There are 512 places.
    pub fn of(entries: &[Entry]) -> Self {
        let mut ledger = Self::default();
        ledger.0[0] = entries.len() as u64;
        for (entry, place) in entries.iter().zip(ledger.0[1..].chunks_mut(4)) {
            let Candidate {
                row,
                col,
                population,
            } = entry.centre;
            place.copy_from_slice(&[entry.km.into(), row.into(), col.into(), population]);
        }
        ledger
    }

    pub fn len(&self) -> usize {
        self.0[0] as usize
    }

    pub fn is_empty(&self) -> bool {
        self.len() == 0
    }

    pub fn clear(&mut self) {
        self.0[0] = 0;
    }

    pub fn entries(&self) -> impl Iterator<Item = Entry> + '_ {
        self.0[1..].chunks(4).take(self.len()).map(|place| Entry {
            km: place[0] as u32,
            centre: candidate(&place[1..]),
        })
    }

    /// The best circle of a radius, put in place of an entry of that radius.
    pub fn put(&mut self, grid: &Grid, entry: Entry) -> Result<(), Refusal> {
        let number = unsafe {
            jadurphen_put(
                grid.width,
                grid.height,
                grid.origin_lat,
                grid.lon_step,
                grid.lat_step,
                self.0.as_mut_ptr(),
                self.0.len(),
                entry.km,
                entry.centre.row,
                entry.centre.col,
                entry.centre.population,
            )
        };
        Refusal::or(number, || ())
    }
}
