//! Sheets of angles: made so that question 6 passes them, then damaged.

use std::f64::consts::PI;

use oracle::maps::Rng;

const LEAST: f64 = f64::from_bits(1);
/// Few values, so that many angles are equal.
const FEW: [f64; 8] = [
    0.0,
    -0.0,
    LEAST,
    1.0,
    1.0f64.next_up(),
    2.0,
    PI.next_down(),
    PI,
];
const NOT_NUMBERS: [u64; 4] = [
    0x7ff8_0000_0000_0000,
    0xfff8_0000_0000_0001,
    0x7ff0_0000_0000_0001,
    0x7fff_ffff_ffff_ffff,
];

/// Damage may also leave the sheet passing.
#[derive(Debug, Clone, Copy, PartialEq, Eq)]
pub enum Kind {
    NotANumber,
    Infinite,
    MinusInfinite,
    BelowZero,
    PastHalfATurn,
    BelowBefore,
    AboveAfter,
    Swapped,
    OwnLeast,
    BelowInnerRow,
    AboveOuterRow,
    RowMoved,
    MinusZero,
    HalfATurn,
    AnyBits,
    SignOfZero,
    AsBeside,
}

use Kind::*;

pub const KINDS: [(Kind, &str); 17] = [
    (NotANumber, "not a number"),
    (Infinite, "infinite"),
    (MinusInfinite, "-infinite"),
    (BelowZero, "-5e-324"),
    (PastHalfATurn, "next above half a turn"),
    (BelowBefore, "next below the offset before"),
    (AboveAfter, "next above the offset behind"),
    (Swapped, "two offsets swapped"),
    (OwnLeast, "own angle 5e-324"),
    (BelowInnerRow, "next below the row nearer"),
    (AboveOuterRow, "next above the row farther"),
    (RowMoved, "offset 0 of a row another"),
    (MinusZero, "-0"),
    (HalfATurn, "half a turn"),
    (AnyBits, "any 64 bits"),
    (SignOfZero, "a 0 of the other sign"),
    (AsBeside, "as the offset beside"),
];

impl Kind {
    /// What question 6 says of a passing sheet with this damage alone, where it is always the same.
    fn always(self) -> Option<bool> {
        match self {
            NotANumber | Infinite | MinusInfinite | BelowZero | PastHalfATurn | BelowBefore
            | AboveAfter | OwnLeast | BelowInnerRow | AboveOuterRow => Some(false),
            SignOfZero | AsBeside => Some(true),
            Swapped | RowMoved | MinusZero | HalfATurn | AnyBits => None,
        }
    }
}

pub struct Made {
    pub width: u32,
    pub height: u32,
    pub angles: Vec<f64>,
    pub kinds: Vec<Kind>,
}

impl Made {
    pub fn offsets(&self) -> usize {
        self.width as usize / 2 + 1
    }

    /// How many angles the sheet has, whatever is given.
    pub fn places(&self) -> usize {
        (self.height * self.height) as usize * self.offsets()
    }

    /// The verdict that follows from how the sheet was made, if it does.
    pub fn known(&self) -> Option<bool> {
        match &self.kinds[..] {
            [] => Some(true),
            [kind] if self.places() <= self.angles.len() => kind.always(),
            _ => None,
        }
    }

    fn place(&self, c: u32, r: u32) -> usize {
        (c * self.height + r) as usize * self.offsets()
    }
}

pub fn sheet(rng: &mut Rng) -> Made {
    let (width, height) = match rng.range(0, 15) {
        // Runs long enough that several angles are compared at a time.
        0 => (rng.range(7, 180), 1),
        1 => (rng.range(7, 60), 2),
        _ => (rng.range(1, 6), rng.range(1, 4)),
    };
    let mut made = passing(rng, width, height);
    if !rng.one_in(5) {
        for _ in 0..rng.pick(&[1, 1, 1, 2, 3]) {
            damage(rng, &mut made);
        }
    }
    match rng.range(0, 7) {
        0 => {
            let given = rng.range(0, made.places() as u32 - 1);
            made.angles.truncate(given as usize);
        }
        1 => {
            for _ in 0..rng.range(1, 3) {
                let any = anything(rng);
                made.angles.push(any);
            }
        }
        _ => {}
    }
    made
}

fn anything(rng: &mut Rng) -> f64 {
    match rng.range(0, 2) {
        0 => f64::from_bits(rng.pick(&NOT_NUMBERS)),
        1 => f64::from_bits(rng.next()),
        _ => rng.pick(&FEW),
    }
}

/// An angle from 0 to half a turn.
fn angle(rng: &mut Rng, mood: u32) -> f64 {
    match (mood, rng.range(0, 9)) {
        (0, _) => rng.pick(&FEW[..2]),
        (1, _) | (_, 0..=3) => rng.pick(&FEW),
        (_, 4..=6) => rng.unit() * PI,
        // Every order of magnitude.
        _ => f64::from_bits(rng.next() % (PI.to_bits() + 1)),
    }
}

fn rising(rng: &mut Rng, mood: u32, least: f64, n: u32) -> Vec<f64> {
    let mut angles: Vec<f64> = (0..n).map(|_| angle(rng, mood)).collect();
    for angle in &mut angles {
        if *angle < least {
            *angle = least;
        }
    }
    // Stable, so that 0 and -0 stay mixed.
    angles.sort_by(|a, b| a.partial_cmp(b).expect("numbers"));
    angles
}

fn passing(rng: &mut Rng, width: u32, height: u32) -> Made {
    let mood = rng.range(0, 7);
    let mut angles = Vec::new();
    for c in 0..height {
        let mut heads = rising(rng, mood, 0.0, c);
        heads.reverse();
        heads.push(rng.pick(&FEW[..2]));
        heads.extend(rising(rng, mood, 0.0, height - 1 - c));
        for head in heads {
            angles.push(head);
            angles.extend(rising(rng, mood, head, width / 2));
        }
    }
    Made {
        width,
        height,
        angles,
        kinds: Vec::new(),
    }
}

/// One more damage, of a kind that the sheet has a place for.
fn damage(rng: &mut Rng, made: &mut Made) {
    loop {
        let (kind, _) = rng.pick(&KINDS);
        let done = match kind {
            OwnLeast | BelowInnerRow | AboveOuterRow | RowMoved => in_rows(rng, made, kind),
            BelowBefore | AboveAfter | Swapped | AsBeside => in_offsets(rng, made, kind),
            _ => anywhere(rng, made, kind),
        };
        if done {
            made.kinds.push(kind);
            return;
        }
    }
}

fn anywhere(rng: &mut Rng, made: &mut Made, kind: Kind) -> bool {
    let last = made.angles.len() as u32 - 1;
    // The two ends as often as all places.
    let any = rng.range(0, last);
    let at = rng.pick(&[0, last, any, any]) as usize;
    let before = made.angles[at];
    made.angles[at] = match kind {
        NotANumber => f64::from_bits(rng.pick(&NOT_NUMBERS)),
        Infinite => f64::INFINITY,
        MinusInfinite => f64::NEG_INFINITY,
        BelowZero => -LEAST,
        PastHalfATurn => PI.next_up(),
        MinusZero => -0.0,
        HalfATurn => PI,
        SignOfZero if before == 0.0 => -before,
        SignOfZero => return false,
        _ => f64::from_bits(rng.next()),
    };
    true
}

fn in_offsets(rng: &mut Rng, made: &mut Made, kind: Kind) -> bool {
    let offsets = made.offsets() as u32;
    if offsets < 2 {
        return false;
    }
    let (c, r) = (rng.range(0, made.height - 1), rng.range(0, made.height - 1));
    let any = rng.range(1, offsets - 1);
    let k = rng.pick(&[any, any, any, offsets - 1]) as usize;
    let at = made.place(c, r) + k;
    match kind {
        BelowBefore => made.angles[at] = made.angles[at - 1].next_down(),
        AboveAfter => made.angles[at - 1] = made.angles[at].next_up(),
        Swapped => made.angles.swap(at - 1, at),
        _ => made.angles[at] = made.angles[at - 1],
    }
    true
}

/// At offset 0. Above a row farther away the whole row is lifted, so that its offsets stay in order.
fn in_rows(rng: &mut Rng, made: &mut Made, kind: Kind) -> bool {
    let (c, r) = (rng.range(0, made.height - 1), rng.range(0, made.height - 1));
    let at = made.place(c, r);
    let inner = if r < c { r + 1 } else { r.wrapping_sub(1) };
    let outer = if r < c { r.wrapping_sub(1) } else { r + 1 };
    match kind {
        OwnLeast => {
            let own = made.place(c, c);
            made.angles[own] = LEAST;
        }
        BelowInnerRow if r != c => {
            made.angles[at] = made.angles[made.place(c, inner)].next_down();
        }
        AboveOuterRow if r != c && outer < made.height => {
            let head = made.angles[made.place(c, outer)].next_up();
            let row = at..at + made.offsets();
            for angle in &mut made.angles[row] {
                *angle = if *angle < head { head } else { *angle };
            }
        }
        RowMoved => made.angles[at] = angle(rng, 2),
        _ => return false,
    }
    true
}
