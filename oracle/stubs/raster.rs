// Type stub: a raster that is read row by row. The oracle fills its tables from counts instead.

use crate::grid::{Grid, Row};

#[derive(Debug)]
pub struct RasterError;

#[derive(Debug, Clone, Copy, PartialEq)]
pub struct CellTallies;

pub struct RasterRow<'a> {
    pub row: Row,
    pub values: &'a [f32],
}

pub trait RasterSource {
    fn grid(&self) -> Grid;
    fn next_row(&mut self) -> Option<Result<RasterRow<'_>, RasterError>>;
    fn finish(self) -> CellTallies;
}
