//! Normalising, products, quotients.

use super::{Input, Shows};
use crate::calls::*;
use crate::inputs::{self, Cut, TileList};
use crate::outcome::{Lent, Outcome, Plane};
use crate::random::Random;
use crate::{refusals, side};
use oracle::steps;

#[derive(Clone, Copy, Debug, PartialEq)]
pub enum Step {
    Normalise,
    Product,
    Quotient,
}

#[derive(Clone, Debug)]
pub struct ProbabilityInput {
    step: Step,
    rows: usize,
    cols: usize,
    count: u32,
    probabilities: Vec<f64>,
    block: Vec<f64>,
    block_rows: usize,
    block_cols: usize,
    world: World,
    offset: Offset,
    radius: usize,
    out: Vec<f64>,
}

fn block_side(random: &mut Random, radius: usize) -> usize {
    match random.below(6) {
        0 => random.pick(&[1, 2, 126, 127]),
        1 => 1 + random.below(127),
        // a block that just fits, or is a little too small or too large
        2 | 3 => (2 * radius + 1).clamp(1, 127),
        _ => (2 * radius + random.below(4)).clamp(1, 127),
    }
}

impl ProbabilityInput {
    fn place(&self) -> ([i32; 2], [i32; 2]) {
        ([self.world.0, self.world.1], [self.offset.0, self.offset.1])
    }
}

impl Input for ProbabilityInput {
    type Step = Step;

    const STEPS: &'static [(&'static str, u64, Step)] =
        &[("normalise", 500, Step::Normalise), ("product", 200, Step::Product), ("quotient", 200, Step::Quotient)];

    fn shows(_: Step) -> Shows {
        Shows { answer: false, planes: true, floats: true, refusals: true, lends: true, reads: true }
    }

    fn random(step: Step, random: &mut Random, _: &TileList) -> Self {
        let count = inputs::count(random);
        // many colours on large boards make large planes, so those are rarer
        let (mut rows, mut cols) = (inputs::side(random), inputs::side(random));
        let mut radius = inputs::radius(random);
        if rows * cols * count as usize > 4_000 && !random.percent(10) {
            (rows, cols) = (1 + random.below(8), 1 + random.below(8));
        }
        let offset = inputs::offset(random);
        let world = if step == Step::Normalise && random.percent(20) {
            inputs::world_near(random, offset)
        } else {
            inputs::world_on(random, rows, cols, offset)
        };
        let probabilities = inputs::floats(random, rows * cols * count as usize, step == Step::Normalise);
        let (mut block_rows, mut block_cols) = (1, 1);
        let (mut block, mut out) = (Vec::new(), Vec::new());
        if step == Step::Normalise {
            radius = 0;
            // its old contents are not read, and come with `lend_nans`
            out = vec![0.0; count as usize];
        } else {
            if count > 4 && !random.percent(10) {
                radius = radius.min(4);
            }
            (block_rows, block_cols) = (block_side(random, radius), block_side(random, radius));
            if block_rows * block_cols * count as usize > 8_000 && !random.percent(10) {
                (block_rows, block_cols) = (1 + random.below(9), 1 + random.below(9));
            }
            block = inputs::floats(random, block_rows * block_cols * count as usize, false);
        }
        Self { step, rows, cols, count, probabilities, block, block_rows, block_cols, world, offset, radius, out }
    }

    fn spoil(&mut self, random: &mut Random) {
        let normalising = self.step == Step::Normalise;
        match random.below(12) {
            0 => inputs::spoil_side(random, &mut self.rows),
            1 => inputs::spoil_side(random, &mut self.cols),
            2 if !normalising => inputs::spoil_side(random, &mut self.block_rows),
            3 if !normalising => inputs::spoil_side(random, &mut self.block_cols),
            4 if !normalising => self.radius = random.pick(&[64, 65, 1 << 32, usize::MAX]),
            5 => inputs::spoil_length(random, &mut self.probabilities, 1.0),
            6 if !normalising => inputs::spoil_length(random, &mut self.block, 1.0),
            6 => inputs::spoil_length(random, &mut self.out, 1.0),
            7 => {
                self.count = inputs::spoil_count(random);
                // lengths that go with the count, so that COUNT is what speaks
                if self.count <= 64 && self.rows.saturating_mul(self.cols) <= 64 && random.percent(70) {
                    let count = self.count as usize;
                    self.probabilities = vec![1.0; self.rows.saturating_mul(self.cols).min(64) * count];
                    self.block = vec![1.0; self.block_rows.min(127) * self.block_cols.min(127) * count];
                    self.out = vec![1.0; if normalising { count } else { 0 }];
                }
            }
            8 => inputs::spoil_float(random, &mut self.probabilities),
            9 if !normalising => inputs::spoil_float(random, &mut self.block),
            10 => inputs::spoil_offset(random, &mut self.offset),
            11 => inputs::spoil_place(random, self.rows, self.cols, &mut self.world, self.offset),
            _ => inputs::spoil_wall(random, &mut self.world),
        }
    }

    fn lend_nans(&mut self, random: &mut Random) {
        if self.step == Step::Normalise {
            inputs::put_nans(random, &mut self.out, 100);
        } else {
            let refused = self.refusal();
            inputs::put_nans_if_refused(random, &mut self.probabilities, refused);
        }
    }

    fn disturb(&mut self, random: &mut Random) {
        let plane = if self.block.is_empty() || random.percent(50) { &mut self.probabilities } else { &mut self.block };
        let at = random.below(plane.len());
        plane[at] = if plane[at] == 0.5 { 0.25 } else { 0.5 };
    }

    fn smaller(&self) -> Vec<Self> {
        let mut all = Vec::new();
        for cut in Cut::ALL {
            if let Some((row, col, rows, cols)) = cut.sides(self.rows, self.cols) {
                all.push(Self {
                    rows,
                    cols,
                    probabilities: cut.plane(&self.probabilities, self.rows, self.cols),
                    offset: Offset(self.offset.0.saturating_sub(row as i32), self.offset.1.saturating_sub(col as i32)),
                    ..self.clone()
                });
            }
            if self.step != Step::Normalise
                && let Some((_, _, block_rows, block_cols)) = cut.sides(self.block_rows, self.block_cols)
            {
                let block = cut.plane(&self.block, self.block_rows, self.block_cols);
                all.push(Self { block, block_rows, block_cols, ..self.clone() });
            }
        }
        // without the last colour
        let cells = self.rows.saturating_mul(self.cols);
        let block_cells = self.block_rows.saturating_mul(self.block_cols);
        if self.count > 1 && self.probabilities.len() == cells.saturating_mul(self.count as usize) {
            let count = self.count as usize - 1;
            all.push(Self {
                count: count as u32,
                probabilities: self.probabilities[..cells * count].to_vec(),
                block: self.block[..self.block.len().min(block_cells.saturating_mul(count))].to_vec(),
                out: self.out[..self.out.len().min(count)].to_vec(),
                ..self.clone()
            });
        }
        let planes = inputs::plainer(&self.probabilities, 0.5);
        all.extend(planes.into_iter().map(|probabilities| Self { probabilities, ..self.clone() }));
        all.extend(inputs::plainer(&self.block, 0.5).into_iter().map(|block| Self { block, ..self.clone() }));
        for (world, offset) in inputs::plainer_places(self.world, self.offset) {
            all.push(Self { world, offset, ..self.clone() });
        }
        all.extend(inputs::fewer(self.radius).into_iter().map(|radius| Self { radius, ..self.clone() }));
        all
    }

    fn refusal(&self) -> Option<Refusal> {
        let Self { rows, cols, count, block_rows, block_cols, world, offset, radius, .. } = *self;
        match self.step {
            Step::Normalise => refusals::normalise(&self.probabilities, rows, cols, count, world, offset, &self.out),
            _ => refusals::product(
                &self.probabilities,
                rows,
                cols,
                count,
                &self.block,
                block_rows,
                block_cols,
                world,
                offset,
                radius,
            ),
        }
    }

    fn expected(&self) -> Outcome {
        let (world, offset) = self.place();
        let (sides, count) = ([self.rows, self.cols], self.count as usize);
        let block_sides = [self.block_rows, self.block_cols];
        let written = if self.step == Step::Normalise { &self.out } else { &self.probabilities };
        if let Some(number) = self.refusal() {
            return Outcome::new(Err(number), vec![Plane::floats(written)]);
        }
        let step = if self.step == Step::Product { steps::product } else { steps::quotient };
        let after = match self.step {
            Step::Normalise => steps::normalise(&self.probabilities, sides, count, world, offset),
            _ => step(&self.probabilities, sides, count, &self.block, block_sides, world, offset, self.radius),
        };
        Outcome::new(Ok(Vec::new()), vec![Plane::floats(&after)])
    }

    fn observed(&self) -> Outcome {
        let Self { rows, cols, count, block_rows, block_cols, world, offset, radius, .. } = *self;
        let mut probabilities = Lent::new(&self.probabilities);
        if self.step == Step::Normalise {
            let mut out = Lent::new(&self.out);
            let answer = side::normalise(probabilities.cells(), rows, cols, count, world, offset, out.cells_mut());
            return Outcome {
                answer: answer.map(|()| Vec::new()),
                planes: vec![Plane::floats(out.cells())],
                intact: probabilities.untouched() && out.guarded(),
            };
        }
        let mut block = Lent::new(&self.block);
        let step = if self.step == Step::Product { side::product } else { side::quotient };
        let answer = step(
            probabilities.cells_mut(),
            rows,
            cols,
            count,
            block.cells(),
            block_rows,
            block_cols,
            world,
            offset,
            radius,
        );
        Outcome {
            answer: answer.map(|()| Vec::new()),
            planes: vec![Plane::floats(probabilities.cells())],
            intact: probabilities.guarded() && block.untouched(),
        }
    }
}
