//! The module's calls by name, for bench/count and bench/beside: `bench list` prints them all, and `bench ask` reads lines and answers
//! each with one line:
//!
//!   once SIZE SPREAD CALL     makes the call once; the answer in every field
//!   time SIZE SPREAD CALL     the least time of a few rounds, in seconds
//!   machine                   the processor, its cores and the load averages

use std::collections::BTreeMap;
use std::fmt::{Debug, Display};
use std::hash::{DefaultHasher, Hash, Hasher};
use std::io::{self, BufRead, Write};
use std::time::Duration;

use oracle::api::{Centre, Entry, Map, Oracle, Sheet};

use crate::maps::{SIZES, Spread, globe};
use crate::module::{Module, entries_of, jadurphen::Ledger};
use crate::questions::{Spoilt, refused, shorten, spoiling};
use crate::{CIRCLES, RADII, Rounds, SHARES, least, machine};

/// A turn is short, since two programs take turns.
const TURN: Rounds = Rounds {
    fewest: 2,
    most: 10,
    within: Duration::from_millis(20),
};

#[derive(Clone, Copy)]
enum Call {
    /// Questions 1 to 6, refused by the last of them where an angle is spoilt.
    Questions(Option<Spoilt>),
    /// Of so many kilometres around the middle cell.
    Circle(u32),
    /// Of so many kilometres, with that spacing; 0 is automatic.
    Search(u32, u32),
    /// From an empty ledger.
    Smallest(f64),
    /// With the ledger that this share leaves: every radius is reused.
    Again(f64),
    /// A new kilometre amid 256 entries.
    Put,
}

impl Call {
    fn named(words: &[&str]) -> Option<Self> {
        Some(match words {
            ["questions"] => Self::Questions(None),
            ["questions", spoilt] => {
                let named = |one: &Spoilt| one.name() == *spoilt;
                Self::Questions(Some(Spoilt::ALL.into_iter().find(named)?))
            }
            ["circle", km] => Self::Circle(km.parse().ok()?),
            ["search", km] => Self::Search(km.parse().ok()?, 0),
            ["search", km, spacing] => Self::Search(km.parse().ok()?, spacing.parse().ok()?),
            ["smallest", share] => Self::Smallest(share.parse().ok()?),
            ["again", share] => Self::Again(share.parse().ok()?),
            ["put"] => Self::Put,
            _ => return None,
        })
    }

    fn spoilt(self) -> Option<Spoilt> {
        match self {
            Self::Questions(spoilt) => spoilt,
            _ => None,
        }
    }
}

/// Prints every call, a line each; one that asks again comes after its first. Where the spread does not matter, it is the first one.
pub fn list() {
    fn each<T: Display>(call: &str, numbers: &[T]) -> Vec<String> {
        numbers.iter().map(|n| format!("{call} {n}")).collect()
    }
    let all = &Spread::ALL[..];
    let any = &all[..1];
    let mut questions = vec!["questions".to_string()];
    questions.extend(each("questions", &Spoilt::ALL.map(Spoilt::name)));
    let calls = [
        (questions, any),
        (each("circle", &CIRCLES), any),
        (each("search", &RADII), all),
        (each("smallest", &SHARES), all),
        (each("again", &SHARES), all),
        (vec!["put".to_string()], any),
    ];
    for (names, spreads) in calls {
        for (width, height) in SIZES {
            for spread in spreads {
                for name in &names {
                    println!("{width}x{height} {} {name}", spread.name());
                }
            }
        }
    }
}

#[derive(Clone, Copy)]
enum Turn {
    Once,
    Time,
}

impl Turn {
    fn made<T: Debug>(self, mut call: impl FnMut() -> T) -> String {
        match self {
            Self::Once => format!("{:?}", call()),
            Self::Time => format!("{:e}", least(TURN, call)),
        }
    }
}

/// A map with the ledgers that its calls left, by the bits of the share.
struct World {
    map: Map,
    ledgers: BTreeMap<u64, Ledger>,
}

/// What was made so far. The spread of the people does not change a size's sheet.
#[derive(Default)]
struct Made {
    sheets: BTreeMap<(u32, u32), Sheet>,
    worlds: BTreeMap<((u32, u32), Spread), World>,
}

/// A ledger of every second kilometre, and an entry between two of them.
fn half_full() -> (Vec<Entry>, Entry) {
    let entry = |km: u32| Entry {
        km,
        centre: Centre {
            row: 0,
            col: 0,
            population: u64::from(km),
        },
    };
    ((0..256).map(|place| entry(2 * place)).collect(), entry(255))
}

fn hash(words: &[u64]) -> u64 {
    let mut hasher = DefaultHasher::new();
    words.hash(&mut hasher);
    hasher.finish()
}

impl World {
    fn answer(&mut self, turn: Turn, call: Call, sheet: &Sheet) -> String {
        let Self { map, ledgers } = self;
        let mut module = Module::new(map, sheet);
        let mut ledger = Ledger::default();
        let made = match call {
            Call::Questions(spoilt) => {
                shorten(&mut module);
                turn.made(|| refused(&mut module, spoilt))
            }
            Call::Circle(km) => {
                let (row, col) = (map.height / 2, map.width / 2);
                turn.made(|| module.circle(km, row, col))
            }
            Call::Search(km, spacing) => turn.made(|| module.search(spacing, km)),
            Call::Smallest(share) => {
                let made = turn.made(|| {
                    ledger.clear();
                    module.smallest(0, share, &mut ledger)
                });
                ledgers.insert(share.to_bits(), ledger.clone());
                made
            }
            Call::Again(share) => {
                match ledgers.get(&share.to_bits()) {
                    Some(left) => ledger = left.clone(),
                    // Refused if the call below is.
                    None => {
                        let _ = module.smallest(0, share, &mut ledger);
                    }
                }
                turn.made(|| module.smallest(0, share, &mut ledger))
            }
            Call::Put => {
                let (entries, entry) = half_full();
                turn.made(|| module.put(&entries, entry))
            }
        };
        match turn {
            Turn::Once => {
                let (sums, entries) = (hash(&module.lent.sums), entries_of(&ledger));
                format!("{made}, sums {sums:x}, ledger {entries:?}")
            }
            Turn::Time => made,
        }
    }
}

impl Made {
    fn answer(&mut self, turn: Turn, size: (u32, u32), spread: Spread, call: Call) -> String {
        let world = self.worlds.entry((size, spread)).or_insert_with(|| World {
            map: globe(size, spread),
            ledgers: BTreeMap::new(),
        });
        let sheet = self
            .sheets
            .entry(size)
            .or_insert_with(|| Oracle::new(&world.map).sheet());
        spoiling(sheet, call.spoilt(), |sheet| {
            world.answer(turn, call, sheet)
        })
    }

    fn asked(&mut self, line: &str) -> Option<String> {
        let words: Vec<_> = line.split_whitespace().collect();
        let [turn, size, spread, call @ ..] = &words[..] else {
            return (words == ["machine"]).then(machine);
        };
        let turn = match *turn {
            "once" => Turn::Once,
            "time" => Turn::Time,
            _ => return None,
        };
        let (width, height) = size.split_once('x')?;
        let size = (width.parse().ok()?, height.parse().ok()?);
        let spread = Spread::ALL.into_iter().find(|one| one.name() == *spread)?;
        Some(self.answer(turn, size, spread, Call::named(call)?))
    }
}

/// Answers the lines of standard input until it ends.
pub fn ask() -> Result<(), String> {
    let mut made = Made::default();
    let mut out = io::stdout();
    for line in io::stdin().lock().lines() {
        let line = line.map_err(|error| error.to_string())?;
        let answer = made.asked(&line);
        let answer = answer.ok_or_else(|| format!("no request: {line}"))?;
        writeln!(out, "{answer}").map_err(|error| error.to_string())?;
    }
    Ok(())
}
