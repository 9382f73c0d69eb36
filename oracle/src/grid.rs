// The original's grid, with one more way in. Its fields are private and its constructor refuses
// grids that questions 1 to 3 admit (a northward step, an origin a hair past the pole), so the raw
// constructor stands in the same module and sets the fields itself.

include!(concat!(env!("ORACLE_PUBLISHED"), "/grid.rs"));

impl Grid {
    #[must_use]
    pub const fn raw(
        width: u32,
        height: u32,
        origin_lat: f64,
        lon_step: f64,
        lat_step: f64,
    ) -> Self {
        Self {
            width,
            height,
            origin: LatLon {
                lat: origin_lat,
                lon: 0.0,
            },
            lon_step,
            lat_step,
        }
    }
}
