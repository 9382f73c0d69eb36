//! Jobs with the lines that the original's answers give them (crates/test_jobs/README.md). Cells pruned and cells settled, which the
//! original does not report, are the second reading's, after its other fields were held against the original's.

use oracle::api::{Centre, Entry, Map, Oracle, Sheet};
use oracle::maps::{self, Rng, Size};
use oracle::reading::Reading;

use crate::ring_map;

/// A job under way: its text, the map as its commands have set it, the ledger, and the lines so far.
struct Job {
    text: String,
    map: Map,
    sheet: Sheet,
    ledger: Vec<Entry>,
    lines: String,
}

/// The bytes in hexadecimal, the least first.
fn hex(bytes: &[u8]) -> String {
    bytes.iter().map(|byte| format!("{byte:02x}")).collect()
}

fn short(number: u32) -> String {
    hex(&u16::try_from(number).expect("two bytes").to_le_bytes())
}

fn byte(number: u32) -> String {
    hex(&[u8::try_from(number).expect("a byte")])
}

fn float(number: f64) -> String {
    hex(&number.to_le_bytes())
}

impl Job {
    /// G, then every count but 0, every cosine and every angle.
    fn new(map: Map) -> Self {
        let sheet = Oracle::new(&map).sheet();
        let mut job = Self {
            text: String::from("J"),
            map,
            sheet,
            ledger: Vec::new(),
            lines: String::new(),
        };
        let (map, sheet) = (job.map.clone(), job.sheet.clone());
        job.word(&["G".to_owned(), byte(map.width), byte(map.height)]);
        job.word(&[map.origin_lat, map.lon_step, map.lat_step].map(float));
        for (at, &count) in (0..).zip(&map.counts) {
            if count > 0 {
                job.count(at, count);
            }
        }
        for (row, &cosine) in (0..).zip(&sheet.cosines) {
            job.word(&["K".to_owned(), byte(row), float(cosine)]);
        }
        let places = map.closing() + 1;
        for (at, &angle) in (0..).zip(&sheet.angles) {
            job.angle(
                at / places / map.height,
                at / places % map.height,
                at % places,
                angle,
            );
        }
        job
    }

    fn word(&mut self, words: &[String]) {
        for word in words {
            self.text.push(' ');
            self.text += word;
        }
    }

    /// C, by the place of the cell; it empties the ledger, as K and A do.
    fn count(&mut self, at: u32, count: u32) {
        let (row, col) = (at / self.map.width, at % self.map.width);
        self.word(&[
            "C".to_owned(),
            byte(row),
            byte(col),
            hex(&count.to_le_bytes()),
        ]);
        self.map.counts[at as usize] = count;
        self.ledger.clear();
    }

    fn cosine(&mut self, row: u32) {
        let cosine = self.sheet.cosines[row as usize];
        self.word(&["K".to_owned(), byte(row), float(cosine)]);
        self.ledger.clear();
    }

    fn angle(&mut self, centre: u32, row: u32, offset: u32, angle: f64) {
        self.word(&[
            "A".to_owned(),
            byte(centre),
            byte(row),
            byte(offset),
            float(angle),
        ]);
        self.ledger.clear();
    }

    fn line(&mut self, name: &str, fields: &[String]) {
        self.lines += &format!("{name} {}\n", fields.join(" "));
    }

    fn most(&mut self, spacing: u32, km: u32) {
        self.word(&["M".to_owned(), short(spacing), short(km)]);
        let found = Oracle::new(&self.map).most_populous(spacing, km);
        let (map, sheet) = (&self.map, &self.sheet);
        let read = Reading { map, sheet }.search(spacing, km);
        assert_eq!(
            found, read.most,
            "the original and the second reading agree"
        );
        let (centre, stats) = (found.centre, found.stats);
        let fields = [
            km.into(),
            centre.row.into(),
            centre.col.into(),
            centre.population,
            stats.levels.into(),
            stats.blocks_examined,
            stats.blocks_pruned,
            stats.circles_evaluated,
            stats.kernels_built,
            read.cells_pruned,
            read.cells_settled,
        ];
        self.line("most", &fields.map(|field: u64| field.to_string()));
    }

    fn least(&mut self, spacing: u32, share: f64) {
        self.word(&["R".to_owned(), short(spacing), float(share)]);
        let least = Oracle::new(&self.map).smallest(spacing, share, &mut self.ledger);
        let Centre {
            row,
            col,
            population,
        } = least.centre;
        let (km, people) = least
            .short
            .map_or(("-".to_owned(), "-".to_owned()), |(km, people)| {
                (km.to_string(), people.to_string())
            });
        let first = [least.radius_km.into(), row.into(), col.into(), population];
        let mut fields: Vec<String> = first.map(|field: u64| field.to_string()).into();
        fields.extend([
            km,
            people,
            least.evaluated.to_string(),
            least.reused.to_string(),
        ]);
        self.line("least", &fields);
    }

    /// A few calls drawn for the map as it stands.
    fn calls(&mut self, rng: &mut Rng) {
        for _ in 0..2 {
            let (spacing, km) = (
                maps::spacing(rng, &self.map),
                maps::radius(rng, &self.sheet),
            );
            self.most(spacing.min(65_535), km);
            let (spacing, share) = (maps::spacing(rng, &self.map), maps::share(rng, &self.map));
            self.least(spacing.min(65_535), share);
        }
    }

    fn print(&self) {
        println!("{}", self.text);
        print!("{}", self.lines);
    }

    fn end(mut self) {
        self.word(&["E".to_owned()]);
        self.print();
    }
}

/// Smallest radii of many shares, until the ledger has fewer than 28 free places: the next one is refused by 12, and in a second
/// job answered, since a count set again empties the ledger.
fn full(rng: &mut Rng) {
    const MOST_ENTRIES: usize = 484;
    let mut job = Job::new(Map {
        width: 20,
        height: 6,
        origin_lat: 81.3,
        lon_step: 18.0,
        lat_step: -27.1,
        counts: (0..120).map(|_| rng.range(1, 1000)).collect(),
    });
    // Spread out, so that each answer lies far from those before it.
    let mut shares = (0..512).map(|n| f64::from(n * 317 % 512 + 1) / 512.0);
    while job.ledger.len() <= MOST_ENTRIES {
        job.least(0, shares.next().expect("a share left"));
    }
    let (text, lines) = (job.text.clone(), job.lines.clone());
    job.word(&["R".to_owned(), short(0), float(0.5)]);
    job.lines += "refused 12\n";
    job.print();
    (job.text, job.lines) = (text, lines);
    job.count(0, job.map.counts[0]);
    job.least(0, 0.5);
    job.end();
}

/// The ring, then seeded maps; in each the map is changed between calls, or one of its values set again. Last, a ledger that fills up.
pub fn jobs(seed: u64) {
    const JOBS: u32 = 24;
    let mut rng = Rng::new(seed);
    println!("# seed {seed}");
    let mut ring = Job::new(ring_map());
    ring.most(4, 10_008);
    ring.least(4, 0.5);
    ring.end();
    let mut made = 1;
    while made < JOBS {
        let map = match made {
            8 => maps::of_size(&mut rng, 24, 12),
            _ if made % 6 == 3 => maps::map(&mut rng, Size::Job),
            _ => maps::map(&mut rng, Size::Small),
        };
        let cells = map.width * map.height;
        if !maps::admitted(&map)
            || (made != 8 && cells > 96)
            || !maps::sheet_accepted(&map, &Oracle::new(&map).sheet())
        {
            continue;
        }
        made += 1;
        let mut job = Job::new(map);
        job.calls(&mut rng);
        match made % 3 {
            0 => {
                let count = rng.range(0, 1000);
                job.count(rng.range(0, cells - 1), count);
            }
            1 => job.cosine(rng.range(0, job.map.height - 1)),
            _ => job.angle(0, 0, 0, 0.0),
        }
        job.calls(&mut rng);
        job.end();
    }
    full(&mut rng);
}
