//! Questions 1 to 6 alone: on an accepted sheet, on the same sheet with one angle spoilt, and plain passes over its angles.

use std::hint::black_box;
use std::mem;

use oracle::api::{Map, Sheet};

use crate::module::Module;
use crate::{MANY, Size, least, ratio, shown};

/// The one angle of a sheet that is spoilt.
#[derive(Clone, Copy)]
pub enum Spoilt {
    First,
    Middle,
    Last,
}

impl Spoilt {
    pub const ALL: [Self; 3] = [Self::First, Self::Middle, Self::Last];

    pub fn name(self) -> &'static str {
        match self {
            Self::First => "first",
            Self::Middle => "middle",
            Self::Last => "last",
        }
    }

    fn place(self, angles: usize) -> usize {
        match self {
            Self::First => 0,
            Self::Middle => angles / 2,
            Self::Last => angles - 1,
        }
    }
}

/// Makes a call while that angle is no number, as a failed computation leaves it. The sheet stays where it lies, so that all calls read
/// the same memory, and is whole again afterwards.
pub fn spoiling<T>(sheet: &mut Sheet, spoilt: Option<Spoilt>, call: impl FnOnce(&Sheet) -> T) -> T {
    let Some(spoilt) = spoilt else {
        return call(sheet);
    };
    let place = spoilt.place(sheet.angles.len());
    let whole = mem::replace(&mut sheet.angles[place], f64::NAN);
    let made = call(sheet);
    sheet.angles[place] = whole;
    made
}

/// Sums that are one word short are question 7: a call is refused when questions 1 to 6 are answered.
pub fn shorten(module: &mut Module) {
    module.lent.sums.pop();
}

/// Asks a shortened module. The refusal is held each time, timed or not: 6 where an angle is spoilt, else 7.
pub fn refused(module: &mut Module, spoilt: Option<Spoilt>) -> u32 {
    let number = if spoilt.is_some() { 6 } else { 7 };
    let answer = module.search(0, 0).map(|_| ());
    assert!(answer == Err(number), "not refused by {number}: {answer:?}");
    number
}

/// What memory allows: every angle is read once, in order, and its bits are gathered with one `or`. Nothing is compared and there is no
/// way out, so that the compiler takes several at a time, with the instructions that the library too is compiled to. 64 to a round of the
/// loop: the time of a short one was seen to double by where it came to lie in the program.
#[inline(never)]
fn read(angles: &[f64]) -> u64 {
    let bits = |part: &[f64]| part.iter().fold(0, |bits, angle| bits | angle.to_bits());
    let (parts, rest) = angles.as_chunks::<64>();
    parts.iter().fold(bits(rest), |all, part| all | bits(part))
}

/// The plainest judging: each angle is compared with the one before it, without a way out, and nothing else is asked.
#[inline(never)]
fn compared(angles: &[f64]) -> bool {
    let pairs = angles.windows(2);
    pairs.fold(true, |rises, pair| rises & (pair[0] <= pair[1]))
}

/// What every call of a map spends before its own work; what it spends where it is refused; and plain passes over its sheet.
#[derive(Clone, Copy)]
pub struct Before {
    judged: f64,
    summed: f64,
    refused: [f64; 3],
    read: f64,
    compared: f64,
}

impl Before {
    /// All in turn, since they are held against each other.
    pub fn measured(map: &Map, sheet: &mut Sheet) -> Self {
        fn lower(best: &mut f64, time: f64) {
            *best = best.min(time);
        }
        let judging = |sheet: &mut Sheet, spoilt| {
            spoiling(sheet, spoilt, |sheet| {
                let mut module = Module::new(map, sheet);
                shorten(&mut module);
                least(MANY, || refused(&mut module, spoilt))
            })
        };
        let mut answered = f64::INFINITY;
        let mut before = Self {
            judged: f64::INFINITY,
            summed: 0.0,
            refused: [f64::INFINITY; 3],
            read: f64::INFINITY,
            compared: f64::INFINITY,
        };
        for _ in 0..5 {
            // At 0 km a search only fills the sums.
            let mut module = Module::new(map, sheet);
            lower(&mut answered, least(MANY, || module.search(0, 0)));
            lower(&mut before.judged, judging(sheet, None));
            for (best, spoilt) in before.refused.iter_mut().zip(Spoilt::ALL) {
                lower(best, judging(sheet, Some(spoilt)));
            }
            let angles = &sheet.angles;
            lower(&mut before.read, least(MANY, || read(black_box(angles))));
            let time = least(MANY, || compared(black_box(angles)));
            lower(&mut before.compared, time);
        }
        before.summed = (answered - before.judged).max(0.0);
        before
    }

    /// The rest of a call.
    pub fn rest(self, call: f64) -> f64 {
        (call - self.judged - self.summed).max(0.0)
    }
}

/// The parts of a call, and refusals.
pub fn parts(sizes: &[Size]) {
    println!(
        "| size | angles | questions 1 to 6 | refused at the first angle | at the middle one | at the last | sums filled |\n|{}",
        "---|".repeat(7)
    );
    for size in sizes {
        let before = size.before;
        println!(
            "| {} | {} | {} | {} | {} |",
            size.name,
            size.sheet.angles.len(),
            shown(before.judged),
            before.refused.map(shown).join(" | "),
            shown(before.summed)
        );
    }
}

/// Questions 1 to 6 beside plain passes over the same memory.
pub fn passes(sizes: &[Size]) {
    println!(
        "\n| what memory allows | bytes | angles read | GB/s | read and compared | GB/s | questions 1 to 6 | GB/s | by read |\n|{}",
        "---|".repeat(9)
    );
    for size in sizes {
        let before = size.before;
        let bytes = size_of_val(&size.sheet.angles[..]);
        let times = [before.read, before.compared, before.judged];
        let times = times.map(|time| {
            let speed = bytes as f64 / time / 1e9;
            format!("{} | {speed:.1}", shown(time))
        });
        println!(
            "| {} | {bytes} | {} | {} |",
            size.name,
            times.join(" | "),
            ratio(before.judged, before.read)
        );
    }
}
