//! The copy of a plane into a larger one, for u32 and f64.

use super::{Input, Shows};
use crate::calls::*;
use crate::inputs::{self, Cut, TileList};
use crate::outcome::{Guarded, Lent, Outcome, Plane};
use crate::random::Random;
use crate::{refusals, side};
use oracle::steps;
use std::fmt::Debug;

pub type CopyU32 = CopyInput<u32>;
pub type CopyF64 = CopyInput<f64>;

#[derive(Clone, Debug)]
pub struct CopyInput<T> {
    plane: Vec<T>,
    rows: usize,
    cols: usize,
    pads: Pads,
    target: Vec<T>,
}

/// What the two copies have each for its own.
pub trait Copied: Guarded + Copy + PartialEq + Debug {
    const NAME: &'static [(&'static str, u64, ())];
    const FLOATS: bool;
    const PLAIN: Self;
    fn random(random: &mut Random, len: usize) -> Vec<Self>;
    fn spoil(random: &mut Random, plane: &mut [Self]);
    fn lend_nans(random: &mut Random, target: &mut [Self]);
    fn refusal(input: &CopyInput<Self>) -> Option<Refusal>;
    fn by_text(plane: &[Self], sides: [usize; 2], pads: [usize; 4]) -> Vec<Self>;
    fn by_port(input: &CopyInput<Self>, plane: &[Self], target: &mut [Self]) -> Answer<()>;
    fn plane(cells: &[Self]) -> Plane;
}

impl Copied for u32 {
    const NAME: &'static [(&'static str, u64, ())] = &[("copy-u32", 400, ())];
    const FLOATS: bool = false;
    const PLAIN: u32 = 0;
    fn random(random: &mut Random, len: usize) -> Vec<u32> {
        (0..len).map(|_| random.pick(&[0, 1, 2, 7, u32::MAX, 4_000_000_001])).collect()
    }
    fn spoil(_: &mut Random, _: &mut [u32]) {}
    fn lend_nans(_: &mut Random, _: &mut [u32]) {}
    fn refusal(input: &CopyInput<u32>) -> Option<Refusal> {
        refusals::copy_u32(&input.plane, input.rows, input.cols, input.pads, &input.target)
    }
    fn by_text(plane: &[u32], sides: [usize; 2], pads: [usize; 4]) -> Vec<u32> {
        steps::copy_u32(plane, sides, pads)
    }
    fn by_port(input: &CopyInput<u32>, plane: &[u32], target: &mut [u32]) -> Answer<()> {
        side::extend_array_2d_u32(plane, input.rows, input.cols, input.pads, target)
    }
    fn plane(cells: &[u32]) -> Plane {
        Plane::Words(cells.to_vec())
    }
}

impl Copied for f64 {
    const NAME: &'static [(&'static str, u64, ())] = &[("copy-f64", 400, ())];
    const FLOATS: bool = true;
    const PLAIN: f64 = 0.0;
    fn random(random: &mut Random, len: usize) -> Vec<f64> {
        inputs::floats(random, len, true)
    }
    fn spoil(random: &mut Random, plane: &mut [f64]) {
        inputs::spoil_float(random, plane);
    }
    fn lend_nans(random: &mut Random, target: &mut [f64]) {
        inputs::put_nans(random, target, 100);
    }
    fn refusal(input: &CopyInput<f64>) -> Option<Refusal> {
        refusals::copy_f64(&input.plane, input.rows, input.cols, input.pads, &input.target)
    }
    fn by_text(plane: &[f64], sides: [usize; 2], pads: [usize; 4]) -> Vec<f64> {
        steps::copy_f64(plane, sides, pads)
    }
    fn by_port(input: &CopyInput<f64>, plane: &[f64], target: &mut [f64]) -> Answer<()> {
        side::extend_array_2d_f64(plane, input.rows, input.cols, input.pads, target)
    }
    fn plane(cells: &[f64]) -> Plane {
        Plane::floats(cells)
    }
}

/// Two pads on a side of the grid, so that it stays a board's side.
pub fn pads_along(random: &mut Random, side: usize) -> (usize, usize) {
    let most = 64 - side;
    let likely = if random.percent(70) { 4 } else { 64 };
    let before = random.below(most.min(likely) + 1);
    let room = most - before;
    let after = if random.percent(20) { room } else { random.below(room.min(4) + 1) };
    (before, after)
}

impl<T: Copied> CopyInput<T> {
    /// With a target of the length that the pads ask for.
    fn fitted(mut self) -> Self {
        let (rows, cols) = refusals::padded(self.rows, self.cols, self.pads);
        self.target = (0..rows.min(64) * cols.min(64)).map(T::guard).collect();
        self
    }
}

impl<T: Copied> Input for CopyInput<T> {
    type Step = ();

    const STEPS: &'static [(&'static str, u64, ())] = T::NAME;

    fn shows(_: ()) -> Shows {
        Shows { answer: false, planes: true, floats: T::FLOATS, refusals: true, lends: true, reads: true }
    }

    fn random(_: (), random: &mut Random, _: &TileList) -> Self {
        let (rows, cols) = (inputs::side(random), inputs::side(random));
        let (left, right) = pads_along(random, rows);
        let (top, bottom) = pads_along(random, cols);
        let pads = if random.percent(10) {
            Pads { left: 0, right: 0, top: 0, bottom: 0 }
        } else {
            Pads { left, right, top, bottom }
        };
        // the target's old contents are not read: they are garbage
        Self { plane: T::random(random, rows * cols), rows, cols, pads, target: Vec::new() }.fitted()
    }

    fn spoil(&mut self, random: &mut Random) {
        match random.below(6) {
            0 => inputs::spoil_side(random, &mut self.rows),
            1 => inputs::spoil_side(random, &mut self.cols),
            2 => {
                let pad = random.pick(&[64, 65, 1 << 32, usize::MAX, usize::MAX - 3]);
                match random.below(4) {
                    0 => self.pads.left = pad,
                    1 => self.pads.right = pad,
                    2 => self.pads.top = pad,
                    _ => self.pads.bottom = pad,
                }
            }
            3 => inputs::spoil_length(random, &mut self.plane, T::PLAIN),
            4 => inputs::spoil_length(random, &mut self.target, T::PLAIN),
            _ => T::spoil(random, &mut self.plane),
        }
    }

    fn lend_nans(&mut self, random: &mut Random) {
        T::lend_nans(random, &mut self.target);
    }

    fn disturb(&mut self, random: &mut Random) {
        let at = random.below(self.plane.len());
        self.plane[at] = T::random(random, 1)[0];
    }

    fn smaller(&self) -> Vec<Self> {
        let mut all = Vec::new();
        for cut in Cut::ALL {
            if let Some((_, _, rows, cols)) = cut.sides(self.rows, self.cols) {
                let plane = cut.plane(&self.plane, self.rows, self.cols);
                all.push(Self { plane, rows, cols, ..self.clone() }.fitted());
            }
        }
        let pads = inputs::smaller_pads(self.pads).into_iter();
        all.extend(pads.map(|pads| Self { pads, ..self.clone() }.fitted()));
        all.extend(inputs::plainer(&self.plane, T::PLAIN).into_iter().map(|plane| Self { plane, ..self.clone() }));
        all
    }

    fn refusal(&self) -> Option<Refusal> {
        T::refusal(self)
    }

    fn expected(&self) -> Outcome {
        match T::refusal(self) {
            Some(number) => Outcome::new(Err(number), vec![T::plane(&self.target)]),
            None => {
                let Pads { left, right, top, bottom } = self.pads;
                let copy = T::by_text(&self.plane, [self.rows, self.cols], [left, right, top, bottom]);
                Outcome::new(Ok(Vec::new()), vec![T::plane(&copy)])
            }
        }
    }

    fn observed(&self) -> Outcome {
        let mut plane = Lent::new(&self.plane);
        let mut target = Lent::new(&self.target);
        let answer = T::by_port(self, plane.cells(), target.cells_mut()).map(|()| Vec::new());
        Outcome { answer, planes: vec![T::plane(target.cells())], intact: plane.untouched() && target.guarded() }
    }
}
