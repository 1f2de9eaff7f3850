//! Lists as a caller may lend them: full of what earlier work left there, which a call must clear
//! or leave alone, entry by entry.

use std::fmt::Debug;

use crate::ours;
use crate::rng::Rng;

/// Entries behind the lent part of a list, where no call may write.
const BEHIND: usize = 8;

/// Entries that are compared by their bits, as one word.
pub trait Entry: Copy + Debug {
    fn of(word: u64) -> Self;
    fn word(self) -> u64;
}

impl Entry for u8 {
    fn of(word: u64) -> Self {
        word as u8
    }
    fn word(self) -> u64 {
        self.into()
    }
}

impl Entry for u32 {
    fn of(word: u64) -> Self {
        word as u32
    }
    fn word(self) -> u64 {
        self.into()
    }
}

impl Entry for u64 {
    fn of(word: u64) -> Self {
        word
    }
    fn word(self) -> u64 {
        self
    }
}

impl Entry for f64 {
    fn of(word: u64) -> Self {
        f64::from_bits(word)
    }
    fn word(self) -> u64 {
        self.to_bits()
    }
}

pub struct List<T> {
    entries: Vec<T>,
    lent: usize,
    seed: u64,
}

impl<T: Entry> List<T> {
    pub fn new() -> Self {
        Self {
            entries: Vec::new(),
            lent: 0,
            seed: 0,
        }
    }

    /// Makes it `len` entries long, none of them as another call left it.
    pub fn soil(&mut self, len: usize, rng: &mut Rng) {
        self.lent = len;
        self.seed = rng.word();
        let seed = self.seed;
        self.entries.clear();
        self.entries
            .extend((0..len + BEHIND).map(|i| T::of(soil(seed, i))));
    }

    pub fn lend(&mut self) -> &mut [T] {
        &mut self.entries[..self.lent]
    }

    /// Whether it starts with `answer` and every other entry is as it came.
    pub fn holds(&self, answer: &[T]) -> bool {
        let mut written = self.entries.iter().zip(answer);
        written.all(|(a, b)| a.word() == b.word()) && self.soiled_from(answer.len())
    }

    pub fn untouched(&self) -> bool {
        self.holds(&[])
    }

    /// Whether every lent entry is 0, a float +0.0, and none behind is touched.
    pub fn zeroed(&self) -> bool {
        let mut lent = self.entries[..self.lent].iter();
        lent.all(|e| e.word() == 0) && self.soiled_from(self.lent)
    }

    fn soiled_from(&self, at: usize) -> bool {
        let mut rest = self.entries.iter().zip(0..).skip(at);
        rest.all(|(e, i)| e.word() == T::of(soil(self.seed, i)).word())
    }
}

/// What a soiled list holds at `i`: any bits, so that floats are of every kind.
fn soil(seed: u64, i: usize) -> u64 {
    seed.wrapping_add((i as u64).wrapping_mul(0x9e37_79b9_7f4a_7c15))
}

/// The work lists of an operation.
pub struct Work {
    u32s: List<u32>,
    u64s: List<u64>,
    f64s: List<f64>,
}

impl Work {
    pub fn new() -> Self {
        Self {
            u32s: List::new(),
            u64s: List::new(),
            f64s: List::new(),
        }
    }

    pub fn soil(&mut self, lens: [usize; 3], rng: &mut Rng) {
        self.u32s.soil(lens[0], rng);
        self.u64s.soil(lens[1], rng);
        self.f64s.soil(lens[2], rng);
    }

    pub fn lend(&mut self) -> ours::Work<'_> {
        ours::Work {
            u32s: self.u32s.lend(),
            u64s: self.u64s.lend(),
            f64s: self.f64s.lend(),
        }
    }

    pub fn untouched(&self) -> bool {
        self.u32s.untouched() && self.u64s.untouched() && self.f64s.untouched()
    }

    pub fn zeroed(&self) -> bool {
        self.u32s.zeroed() && self.u64s.zeroed() && self.f64s.zeroed()
    }
}

/// Lengths for work lists of an operation that needs `least` entries of each: often exactly so
/// many.
pub fn enough(rng: &mut Rng, least: usize) -> [usize; 3] {
    [(); 3].map(|()| {
        least
            + if rng.one_in(2) {
                0
            } else {
                rng.below(40) as usize
            }
    })
}

/// The first row of `width` entries that differs by its bits.
#[cfg(feature = "candidates")]
pub fn first_fault<T: Entry>(given: &[T], expected: &[T], width: usize) -> String {
    let words = |row: &[T]| row.iter().map(|e| e.word()).collect::<Vec<_>>();
    let mut rows = given.chunks(width).zip(expected.chunks(width)).enumerate();
    match rows.find(|(_, (a, b))| words(a) != words(b)) {
        Some((i, (a, b))) => format!("{i}: {a:?}, expected {b:?}"),
        None => "written beyond the answer".to_string(),
    }
}
