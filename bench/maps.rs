//! The maps that are measured: the whole globe in three sizes, with people spread in three ways.

use oracle::api::Map;
use oracle::maps::Rng;

/// Columns and rows.
pub const SIZES: [(u32, u32); 3] = [(24, 12), (90, 45), (180, 90)];
const SEED: u64 = 7;

/// How people are spread over the cells.
#[derive(Clone, Copy, PartialEq, Eq, PartialOrd, Ord)]
pub enum Spread {
    /// Every order of magnitude as likely.
    HeavyTailed,
    Uniform,
    Equal,
}

impl Spread {
    pub const ALL: [Self; 3] = [Self::HeavyTailed, Self::Uniform, Self::Equal];

    pub fn name(self) -> &'static str {
        match self {
            Self::HeavyTailed => "heavy-tailed",
            Self::Uniform => "uniform",
            Self::Equal => "equal",
        }
    }

    fn counts(self, cells: u32) -> Vec<u32> {
        let mut rng = Rng::new(SEED);
        let mut count = || match self {
            Self::HeavyTailed => rng.next() as u32 >> rng.range(0, 31),
            Self::Uniform => rng.range(0, 1_000_000),
            Self::Equal => 1_000,
        };
        (0..cells).map(|_| count()).collect()
    }
}

/// A map of the whole globe.
pub fn globe((width, height): (u32, u32), spread: Spread) -> Map {
    Map {
        width,
        height,
        origin_lat: 90.0,
        lon_step: 360.0 / f64::from(width),
        lat_step: -180.0 / f64::from(height),
        counts: spread.counts(width * height),
    }
}
