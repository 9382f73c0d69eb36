//! The judge of a sheet, the call's question 6 and a second reading, asked of the same sheets: sheets PROGRAM SEED COUNT.
//! The module is asked by lists of cases that PROGRAM, that of `crates/test_edges`, plays; fails on a disagreement.

mod damage;

use std::fmt::Write;
use std::fs;
use std::path::{Path, PathBuf};
use std::process::{Command, ExitCode};

use damage::{KINDS, Made};
use oracle::maps::Rng;
use oracle::reading::sheet_passes;

/// What the program has room for.
const LIST: usize = 65_536;

/// A sheet, the lines that ask of it, and those that are owed.
struct Case {
    made: Made,
    passes: bool,
    asked: String,
    owed: Vec<String>,
}

#[derive(Default)]
struct Tally {
    passed: u64,
    fewer: u64,
    more: u64,
    verdicts: u64,
    calls: u64,
    /// Of each kind of damage: the sheets that have it alone, and those of them that were refused.
    alone: [(u64, u64); KINDS.len()],
    whole: (u64, u64),
    several: (u64, u64),
    disagreements: u64,
    told: Option<(usize, String)>,
}

impl Tally {
    fn count(&mut self, case: &Case) {
        let made = &case.made;
        self.passed += u64::from(case.passes);
        self.fewer += u64::from(made.angles.len() < made.places());
        self.more += u64::from(made.places() < made.angles.len());
        let called = u64::from(made.places() == made.angles.len());
        self.calls += called;
        self.verdicts += case.owed.len() as u64 - called;
        let (sheets, refused) = match &made.kinds[..] {
            [] => &mut self.whole,
            [kind] => {
                let place = KINDS.iter().position(|(other, _)| other == kind);
                &mut self.alone[place.expect("every kind is listed")]
            }
            _ => &mut self.several,
        };
        *sheets += 1;
        *refused += u64::from(!case.passes);
    }

    /// Of the disagreements the one on the fewest angles is told.
    fn disagree(&mut self, made: &Made, what: &str) {
        self.disagreements += 1;
        let angles = made.angles.len();
        if self.told.as_ref().is_none_or(|(least, _)| angles < *least) {
            let told = format!(
                "{} x {}, angles {:?}\n  damage {:?}\n  {what}",
                made.width, made.height, made.angles, made.kinds
            );
            self.told = Some((angles, told));
        }
    }

    fn tell(&self, seed: u64, count: u64) -> ExitCode {
        println!("{:<30}{:>9}{:>9}", "damage", "sheets", "refused");
        let line = |name, (sheets, refused)| println!("{name:<30}{sheets:>9}{refused:>9}");
        line("none", self.whole);
        for ((_, name), counts) in KINDS.iter().zip(self.alone) {
            line(name, counts);
        }
        line("two or three", self.several);
        println!(
            "seed {seed}: {count} sheets, {} passed, {} refused; {} given in part, {} with more behind; {} verdicts, {} calls: {} disagreements",
            self.passed,
            count - self.passed,
            self.fewer,
            self.more,
            self.verdicts,
            self.calls,
            self.disagreements
        );
        match &self.told {
            None => ExitCode::SUCCESS,
            Some((_, told)) => {
                println!("{told}");
                ExitCode::FAILURE
            }
        }
    }
}

/// The lines that set a map of one person in each cell, with the sheet's angles lent.
fn map_lines(made: &Made) -> String {
    let (width, height) = (made.width, made.height);
    let steps = (360.0 / f64::from(width), -180.0 / f64::from(height));
    let bits: Vec<String> = made
        .angles
        .iter()
        .map(|x| x.to_bits().to_string())
        .collect();
    let (cells, sums) = (width * height, (width + 1) * (height + 1));
    format!(
        "G {width} {height} {} {} {}\nC 1\nK {}\nA {}\nN {cells} {} {height} {sums} {cells} {cells} {sums}\n",
        90.0f64.to_bits(),
        f64::to_bits(steps.0),
        f64::to_bits(steps.1),
        1.0f64.to_bits(),
        bits.join(" "),
        bits.len(),
    )
}

/// The sheet is fed one by one, by runs and in pieces of another length, and lent to a circle of all cells.
fn case(rng: &mut Rng, number: u64) -> Case {
    let made = damage::sheet(rng);
    let passes = sheet_passes(made.width, made.height, &made.angles);
    let mut asked = map_lines(&made);
    let mut owed = Vec::new();
    let piece = rng.range(1, made.places() as u32 + 2) as usize;
    for length in [0, made.offsets(), piece] {
        let _ = write!(asked, "= {number} by {length}\nJ {length}\n");
        let verdict = if passes { "well" } else { "refused" };
        owed.push(format!("{number} by {length}: {verdict}"));
    }
    if made.angles.len() == made.places() {
        let _ = write!(asked, "= {number} called\nP 20016 0 0\n");
        let cells = made.width * made.height;
        owed.push(match passes {
            true => format!("{number} called: {cells} of {cells}, changed 0"),
            false => format!("{number} called: refused 6, changed 0"),
        });
    }
    Case {
        made,
        passes,
        asked,
        owed,
    }
}

/// What the program prints of a list.
fn played(program: &Path, folder: &Path, list: &str) -> Result<String, String> {
    fs::write(folder.join("cases.txt"), list).map_err(|error| error.to_string())?;
    let run = Command::new(program)
        .current_dir(folder)
        .output()
        .map_err(|error| format!("{}: {error}", program.display()))?;
    if run.status.success() {
        String::from_utf8(run.stdout).map_err(|error| error.to_string())
    } else {
        Err(format!("{}: {}", program.display(), run.status))
    }
}

fn judge(tally: &mut Tally, batch: &[Case], printed: &str) {
    let mut lines = printed.lines();
    for case in batch {
        tally.count(case);
        if case.made.known().is_some_and(|known| known != case.passes) {
            tally.disagree(&case.made, &format!("second reading {}", case.passes));
        }
        for owed in &case.owed {
            let line = lines.next().unwrap_or("nothing");
            if line != owed {
                tally.disagree(&case.made, &format!("reading {owed}\n  module  {line}"));
            }
        }
    }
    if let Some(line) = lines.next() {
        tally.disagree(&batch[0].made, &format!("a line too many: {line}"));
    }
}

fn sheets(seed: u64, count: u64, program: &Path, folder: &Path) -> Result<ExitCode, String> {
    let mut rng = Rng::new(seed);
    let mut tally = Tally::default();
    let (mut batch, mut list) = (Vec::new(), String::new());
    for number in 0..count {
        let next = case(&mut rng, number);
        if LIST < list.len() + next.asked.len() {
            judge(&mut tally, &batch, &played(program, folder, &list)?);
            batch.clear();
            list.clear();
        }
        list += &next.asked;
        batch.push(next);
    }
    if !batch.is_empty() {
        judge(&mut tally, &batch, &played(program, folder, &list)?);
    }
    Ok(tally.tell(seed, count))
}

/// The program that plays the lists, and a scratch folder below the repository's root.
fn places(program: &str) -> std::io::Result<(PathBuf, PathBuf)> {
    let folder = Path::new("target/oracle/lists");
    fs::create_dir_all(folder)?;
    Ok((fs::canonicalize(program)?, fs::canonicalize(folder)?))
}

fn main() -> ExitCode {
    let words: Vec<String> = std::env::args().skip(1).collect();
    let [program, seed, count] = &words[..] else {
        println!("oracle/sheets SEED COUNT");
        return ExitCode::FAILURE;
    };
    let (Ok(seed), Ok(count)) = (seed.parse(), count.parse()) else {
        println!("oracle/sheets SEED COUNT");
        return ExitCode::FAILURE;
    };
    let done = places(program)
        .map_err(|error| format!("{program}, target: {error}"))
        .and_then(|(program, folder)| sheets(seed, count, &program, &folder));
    done.unwrap_or_else(|error| {
        println!("{error}");
        ExitCode::FAILURE
    })
}
