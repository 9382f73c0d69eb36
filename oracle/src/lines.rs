//! Lines of the list's format (crates/test_replay/README.md).

use std::io::Write;

use oracle::api::{Centre, Entry, Least, Map, Most, Oracle, Sheet};
use oracle::search::SearchStats;

/// Lines of the list's format, and how many of each kind were written.
pub struct Lines<W: Write> {
    out: W,
    pub written: u64,
    tally: [u64; 26],
}

impl<W: Write> Lines<W> {
    pub fn new(out: W) -> Self {
        Self {
            out,
            written: 0,
            tally: [0; 26],
        }
    }

    pub fn line(&mut self, tag: char, numbers: impl IntoIterator<Item = u64>) {
        let mut text = tag.to_string();
        for number in numbers {
            text += &format!(" {number}");
        }
        text.push('\n');
        self.out
            .write_all(text.as_bytes())
            .expect("a place to write");
        self.written += 1;
        self.tally[tag as usize - 'A' as usize] += 1;
    }

    pub fn count(&self, tag: char) -> u64 {
        self.tally[tag as usize - 'A' as usize]
    }

    pub fn map(&mut self, map: &Map, sheet: &Sheet) {
        self.line(
            'G',
            [
                u64::from(map.width),
                u64::from(map.height),
                map.origin_lat.to_bits(),
                map.lon_step.to_bits(),
                map.lat_step.to_bits(),
            ],
        );
        self.line('C', map.counts.iter().map(|&count| u64::from(count)));
        self.sheet(sheet);
    }

    pub fn sheet(&mut self, sheet: &Sheet) {
        self.line('A', sheet.angles.iter().map(|angle| angle.to_bits()));
        self.line('K', sheet.cosines.iter().map(|cosine| cosine.to_bits()));
    }

    pub fn circle(&mut self, oracle: &Oracle, km: u32, row: u32, col: u32) {
        let population = oracle.circle(km, row, col);
        self.line('P', [km.into(), row.into(), col.into(), population]);
    }

    pub fn automatic(&mut self, oracle: &Oracle, km: u32) {
        self.line('S', [km.into(), oracle.initial_spacing(km).into()]);
    }

    pub fn most(&mut self, oracle: &Oracle, spacing: u32, km: u32) {
        let Most {
            centre,
            stats,
            tolerance,
        } = oracle.most_populous(spacing, km);
        let mut numbers = vec![spacing.into(), km.into()];
        numbers.extend(centre_numbers(centre));
        numbers.extend(stats_numbers(stats));
        numbers.push(tolerance.to_bits());
        self.line('M', numbers);
    }

    pub fn ledger(&mut self, tag: char, ledger: &[Entry]) {
        let mut numbers = vec![ledger.len() as u64];
        for entry in ledger {
            numbers.push(entry.km.into());
            numbers.extend(centre_numbers(entry.centre));
        }
        self.line(tag, numbers);
    }

    /// The call and the ledger after it.
    pub fn least(&mut self, oracle: &Oracle, spacing: u32, share: f64, ledger: &mut Vec<Entry>) {
        let least: Least = oracle.smallest(spacing, share, ledger);
        let mut numbers = vec![spacing.into(), share.to_bits(), least.radius_km.into()];
        numbers.extend(centre_numbers(least.centre));
        numbers.extend([
            least.share.to_bits(),
            least.persons.to_bits(),
            least.total.to_bits(),
            least.share_achieved.to_bits(),
        ]);
        let (km, people) = least.short.unwrap_or_default();
        numbers.extend([u64::from(least.short.is_some()), km.into(), people]);
        numbers.extend([u64::from(least.covers_whole_grid), least.slack.to_bits()]);
        let (low, high, radii) = least.ambiguity.unwrap_or_default();
        numbers.push(u64::from(least.ambiguity.is_some()));
        numbers.extend([u64::from(low), u64::from(high), u64::from(radii)]);
        numbers.extend([least.tolerance.to_bits(), least.evaluated, least.reused]);
        numbers.extend(stats_numbers(least.stats));
        self.line('R', numbers);
        self.ledger('E', ledger);
    }
}

fn centre_numbers(centre: Centre) -> [u64; 3] {
    [centre.row.into(), centre.col.into(), centre.population]
}

fn stats_numbers(stats: SearchStats) -> [u64; 5] {
    [
        stats.levels.into(),
        stats.blocks_examined,
        stats.blocks_pruned,
        stats.circles_evaluated,
        stats.kernels_built,
    ]
}
