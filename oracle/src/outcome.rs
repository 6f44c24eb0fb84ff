//! What a call leaves: its answer, the planes it may write, and whether all else stayed as it was.

use crate::calls::{Answer, Refusal};
use std::cell::Cell as Setting;
use std::fmt;
use std::hint::black_box;

/// A number of an answer; floats are compared bit for bit.
#[derive(Clone, Copy)]
pub enum Value {
    Whole(i64),
    Float(f64),
}

impl PartialEq for Value {
    fn eq(&self, other: &Self) -> bool {
        match (self, other) {
            (Value::Whole(a), Value::Whole(b)) => a == b,
            (Value::Float(a), Value::Float(b)) => a.to_bits() == b.to_bits(),
            _ => false,
        }
    }
}

impl fmt::Debug for Value {
    fn fmt(&self, f: &mut fmt::Formatter<'_>) -> fmt::Result {
        match self {
            Value::Whole(number) => write!(f, "{number}"),
            Value::Float(float) => write!(f, "{float:e} (bits {:#018x})", float.to_bits()),
        }
    }
}

/// A plane as a call leaves it.
#[derive(Clone, PartialEq)]
pub enum Plane {
    Bytes(Vec<u8>),
    Words(Vec<u32>),
    /// by their bits
    Floats(Vec<u64>),
}

impl Plane {
    pub fn floats(plane: &[f64]) -> Self {
        Plane::Floats(plane.iter().map(|float| float.to_bits()).collect())
    }

    pub fn len(&self) -> usize {
        match self {
            Plane::Bytes(cells) => cells.len(),
            Plane::Words(cells) => cells.len(),
            Plane::Floats(cells) => cells.len(),
        }
    }

    /// For mutants: the bits of the first NaN.
    pub fn nan(&mut self) -> Option<&mut u64> {
        match self {
            Plane::Floats(cells) => cells.iter_mut().find(|bits| f64::from_bits(**bits).is_nan()),
            Plane::Bytes(_) | Plane::Words(_) => None,
        }
    }

    /// For mutants: one bit of one cell.
    pub fn flip(&mut self, at: usize) {
        match self {
            Plane::Bytes(cells) => cells[at] ^= 1,
            Plane::Words(cells) => cells[at] ^= 1,
            Plane::Floats(cells) => cells[at] ^= 1,
        }
    }

    pub fn value(&self, at: usize) -> Value {
        match self {
            Plane::Bytes(cells) => Value::Whole(i64::from(cells[at])),
            Plane::Words(cells) => Value::Whole(i64::from(cells[at])),
            Plane::Floats(cells) => Value::Float(f64::from_bits(cells[at])),
        }
    }
}

#[derive(Clone, PartialEq)]
pub struct Outcome {
    pub answer: Result<Vec<Value>, Refusal>,
    /// the planes that the call may write
    pub planes: Vec<Plane>,
    /// the planes it only reads and the guard words round all of them are as they were
    pub intact: bool,
}

impl Outcome {
    pub fn new(answer: Answer<Vec<Value>>, planes: Vec<Plane>) -> Self {
        Self { answer, planes, intact: true }
    }

    /// How many numbers a comparison of this outcome compares.
    pub fn values(&self) -> u64 {
        let answer = self.answer.as_ref().map_or(1, Vec::len);
        (answer + self.planes.iter().map(Plane::len).sum::<usize>()) as u64
    }

    /// Where the two differ, in words; nothing if they do not.
    pub fn difference(&self, observed: &Outcome) -> Option<String> {
        if self == observed {
            return None;
        }
        let mut found = Vec::new();
        if self.answer != observed.answer {
            found.push(format!("answer: expected {:?}, the port says {:?}", self.answer, observed.answer));
        }
        for (number, (expected, observed)) in self.planes.iter().zip(&observed.planes).enumerate() {
            if expected.len() != observed.len() {
                found.push(format!("plane {number}: {} cells, the port's has {}", expected.len(), observed.len()));
                continue;
            }
            let differing: Vec<usize> =
                (0..expected.len()).filter(|&at| expected.value(at) != observed.value(at)).collect();
            for &at in differing.iter().take(4) {
                found.push(format!(
                    "plane {number}, cell {at}: expected {:?}, the port's is {:?}",
                    expected.value(at),
                    observed.value(at)
                ));
            }
            if differing.len() > 4 {
                found.push(format!("plane {number}: {} cells differ in all", differing.len()));
            }
        }
        if self.intact != observed.intact {
            found.push("memory that the call may not write was written".into());
        }
        Some(found.join("\n  "))
    }
}

/// A lent slice with guard words on both sides.
pub struct Lent<T> {
    cells: Vec<T>,
    given: Vec<T>,
}

const GUARDS: usize = 24;

/// A NaN whose sign, quiet bit and payload are those of any bits. A payload of 0 is made 1: it is that of an infinity, and
/// of the NaNs that Rust and processors make.
pub fn nan(bits: u64) -> f64 {
    let payload = bits & ((1 << 51) - 1);
    f64::from_bits(bits | 0x7ff0_0000_0000_0000 | u64::from(payload == 0))
}

/// Guard words are outside every bound, so that reading one shows as well.
pub trait Guarded: Copy {
    /// for mutants
    const OTHER: Self;
    fn guard(at: usize) -> Self;
    fn same(self, other: Self) -> bool;
}

impl Guarded for u8 {
    const OTHER: u8 = 0xa4;
    fn guard(_: usize) -> u8 {
        0xa5
    }
    fn same(self, other: u8) -> bool {
        self == other
    }
}

impl Guarded for u32 {
    const OTHER: u32 = 0xfa5a_fa5b;
    fn guard(_: usize) -> u32 {
        0xfa5a_fa5a
    }
    fn same(self, other: u32) -> bool {
        self == other
    }
}

impl Guarded for i32 {
    const OTHER: i32 = -0x5afa_5afb;
    fn guard(_: usize) -> i32 {
        -0x5afa_5afa
    }
    fn same(self, other: i32) -> bool {
        self == other
    }
}

impl Guarded for u64 {
    const OTHER: u64 = 0xfa5a_fa5a_fa5a_fa5b;
    fn guard(_: usize) -> u64 {
        0xfa5a_fa5a_fa5a_fa5a
    }
    fn same(self, other: u64) -> bool {
        self == other
    }
}

impl Guarded for f64 {
    const OTHER: f64 = f64::NAN;
    /// NaNs of all sorts; the first, which is lent where a single float is answered, is negative and signalling.
    fn guard(at: usize) -> f64 {
        nan(0x9e37_79b9_7f4a_7c15_u64.wrapping_mul(at as u64 + 1))
    }
    fn same(self, other: f64) -> bool {
        self.to_bits() == other.to_bits()
    }
}

/// What a mutant does to memory that a call may not write.
#[derive(Clone, Copy, PartialEq, Eq)]
pub enum Damage {
    None,
    /// the word after a lent slice
    After,
    /// the word before it
    Before,
    /// a cell of a slice that is only read
    Read,
}

thread_local! {
    static DAMAGE: Setting<Damage> = const { Setting::new(Damage::None) };
}

pub fn set_damage(damage: Damage) {
    DAMAGE.set(damage);
}

impl<T: Guarded> Lent<T> {
    pub fn new(plane: &[T]) -> Self {
        let mut cells = Vec::with_capacity(plane.len() + 2 * GUARDS);
        cells.extend((0..GUARDS).map(T::guard));
        cells.extend_from_slice(plane);
        cells.extend((GUARDS..2 * GUARDS).map(T::guard));
        // the port writes behind the compiler's back, so it may assume nothing of these cells
        Self { cells: black_box(cells), given: plane.to_vec() }
    }

    pub fn cells(&self) -> &[T] {
        &self.cells[GUARDS..GUARDS + self.given.len()]
    }

    pub fn cells_mut(&mut self) -> &mut [T] {
        let len = self.given.len();
        &mut self.cells[GUARDS..GUARDS + len]
    }

    /// Whether the guard words are as they were. Asked once, after the call.
    pub fn guarded(&mut self) -> bool {
        let end = GUARDS + self.given.len();
        match DAMAGE.get() {
            Damage::After => self.cells[end] = T::OTHER,
            Damage::Before => self.cells[GUARDS - 1] = T::OTHER,
            _ => {}
        }
        let cells = black_box(&self.cells);
        cells[..GUARDS].iter().chain(&cells[end..]).enumerate().all(|(at, &cell)| cell.same(T::guard(at)))
    }

    /// Whether the guard words and the plane itself are as they were.
    pub fn untouched(&mut self) -> bool {
        if DAMAGE.get() == Damage::Read && !self.given.is_empty() {
            self.cells[GUARDS] = T::OTHER;
        }
        self.guarded() && self.cells().iter().zip(&self.given).all(|(&cell, &given)| cell.same(given))
    }
}

#[cfg(test)]
mod tests {
    use super::*;

    #[test]
    fn nans() {
        for head in [0, 1 << 51, 1 << 63, 1 << 63 | 1 << 51] {
            assert!([0, 1, 2].iter().all(|&payload| nan(head | payload).is_nan()));
            assert_eq!(nan(head).to_bits(), 0x7ff0_0000_0000_0001 | head);
            let guards = (0..2 * GUARDS).map(|at| f64::guard(at).to_bits());
            assert!(guards.map(|bits| bits & (1 << 63 | 1 << 51)).any(|found| found == head));
        }
        assert_eq!(f64::guard(0).to_bits() >> 51, 0x1ffe);
    }
}
