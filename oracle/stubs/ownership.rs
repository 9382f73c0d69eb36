// Type stub: which country owns a cell. No ownership is ever made here.

use crate::domain::FeatureId;
use crate::grid::Grid;

pub const OWNERSHIP_RULE_VERSION: u32 = 0;

#[derive(Debug)]
pub enum OwnershipError {
    CellOutsideGrid { row: u32, col: u32 },
}

#[derive(Debug)]
pub enum UnassignedReason {
    OutsideFeatures,
    MultipleFeatures(Vec<FeatureId>),
}

#[derive(Debug)]
pub enum CellOwner {
    Feature(FeatureId),
    Unassigned(UnassignedReason),
}

#[derive(Debug)]
pub struct OwnerInterval {
    start: u32,
    end: u32,
    owner: CellOwner,
}

impl OwnerInterval {
    pub fn start(&self) -> u32 {
        self.start
    }

    pub fn end(&self) -> u32 {
        self.end
    }

    pub fn owner(&self) -> &CellOwner {
        &self.owner
    }
}

#[derive(Debug)]
pub struct CellOwnership {
    grid: Grid,
}

impl CellOwnership {
    pub fn grid(&self) -> &Grid {
        &self.grid
    }

    pub fn row_intervals(&self, _row: u32) -> Option<&[OwnerInterval]> {
        None
    }
}
