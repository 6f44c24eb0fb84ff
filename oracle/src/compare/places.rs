//! Spans, boxes, extension.

use super::{Input, Shows};
use crate::calls::*;
use crate::inputs::{self, TileList};
use crate::outcome::{Outcome, Value};
use crate::random::Random;
use crate::{refusals, side};
use oracle::steps;

#[derive(Clone, Copy, Debug, PartialEq)]
pub enum Step {
    Spans,
    Contains,
    Extension,
    BoxedExtension,
}

#[derive(Clone, Debug)]
pub struct PlaceInput {
    step: Step,
    rows: usize,
    cols: usize,
    world: World,
    offset: Offset,
    radius: usize,
    bounds: BoundingBox,
}

fn spans_values(rows: Span, cols: Span) -> Vec<Value> {
    [rows.0, rows.1, cols.0, cols.1].iter().map(|&end| Value::Whole(end as i64)).collect()
}

fn extension_values(pads: [usize; 4], offset: [i32; 2], needed: bool) -> Vec<Value> {
    let mut values: Vec<Value> = pads.iter().map(|&pad| Value::Whole(pad as i64)).collect();
    values.extend(offset.iter().map(|&part| Value::Whole(i64::from(part))));
    values.push(Value::Whole(i64::from(needed)));
    values
}

fn info_values(info: ExtensionInfo) -> Vec<Value> {
    let Pads { left, right, top, bottom } = info.pads;
    extension_values([left, right, top, bottom], [info.offset.0, info.offset.1], info.needed)
}

impl Input for PlaceInput {
    type Step = Step;

    const STEPS: &'static [(&'static str, u64, Step)] = &[
        ("spans", 800, Step::Spans),
        ("box", 800, Step::Contains),
        ("extension", 800, Step::Extension),
        ("boxed-extension", 800, Step::BoxedExtension),
    ];

    fn shows(_: Step) -> Shows {
        Shows { answer: true, planes: false, floats: false, refusals: true, lends: false, reads: false }
    }

    fn random(step: Step, random: &mut Random, _: &TileList) -> Self {
        let offset = inputs::offset(random);
        let world = inputs::world_near(random, offset);
        // sometimes a box round the grid and not round the place
        let about = if random.percent(50) { world } else { World(-offset.0, -offset.1) };
        Self {
            step,
            rows: inputs::side(random),
            cols: inputs::side(random),
            world,
            offset,
            radius: inputs::radius(random),
            bounds: inputs::bounds(random, about),
        }
    }

    fn spoil(&mut self, random: &mut Random) {
        match (self.step, random.below(6)) {
            (Step::Extension | Step::BoxedExtension, 0) => inputs::spoil_side(random, &mut self.rows),
            (Step::Extension | Step::BoxedExtension, 1) => inputs::spoil_side(random, &mut self.cols),
            (Step::Spans | Step::Extension | Step::BoxedExtension, 2) => {
                self.radius = random.pick(&[64, 65, 1 << 31, 1 << 32, usize::MAX]);
            }
            (Step::Contains | Step::BoxedExtension, 3) => inputs::spoil_bounds(random, &mut self.bounds),
            (Step::Spans | Step::Extension | Step::BoxedExtension, 4) => {
                inputs::spoil_offset(random, &mut self.offset);
            }
            _ => inputs::spoil_wall(random, &mut self.world),
        }
    }

    fn disturb(&mut self, _: &mut Random) {
        self.world.0 -= if self.world.0 > 0 { 1 } else { -1 };
        self.bounds.min.1 = 0;
    }

    fn smaller(&self) -> Vec<Self> {
        let mut all = Vec::new();
        for (world, offset) in inputs::plainer_places(self.world, self.offset) {
            all.push(Self { world, offset, ..self.clone() });
        }
        all.extend(inputs::fewer(self.rows).into_iter().map(|rows| Self { rows, ..self.clone() }));
        all.extend(inputs::fewer(self.cols).into_iter().map(|cols| Self { cols, ..self.clone() }));
        all.extend(inputs::fewer(self.radius).into_iter().map(|radius| Self { radius, ..self.clone() }));
        let BoundingBox { min, max } = self.bounds;
        for (min, _) in inputs::plainer_places(min, Offset(0, 0)) {
            all.push(Self { bounds: BoundingBox { min, max }, ..self.clone() });
        }
        for (max, _) in inputs::plainer_places(max, Offset(0, 0)) {
            all.push(Self { bounds: BoundingBox { min, max }, ..self.clone() });
        }
        all
    }

    fn refusal(&self) -> Option<Refusal> {
        let Self { step, rows, cols, world, offset, radius, bounds } = *self;
        match step {
            Step::Spans => refusals::get_region_spans(offset, world, radius),
            Step::Contains => refusals::contains(bounds, world),
            Step::Extension => refusals::extension(rows, cols, offset, world, radius, None),
            Step::BoxedExtension => refusals::extension(rows, cols, offset, world, radius, Some(bounds)),
        }
    }

    fn expected(&self) -> Outcome {
        let Self { step, rows, cols, world, offset, radius, bounds } = *self;
        let (place, shift) = ([world.0, world.1], [offset.0, offset.1]);
        let (min, max) = ([bounds.min.0, bounds.min.1], [bounds.max.0, bounds.max.1]);
        let answer = || match step {
            Step::Spans => {
                let (rows, cols) = steps::spans(shift, place, radius);
                spans_values(Span(rows.start, rows.end), Span(cols.start, cols.end))
            }
            Step::Contains => vec![Value::Whole(i64::from(steps::contains(min, max, place)))],
            Step::Extension => {
                let found = steps::extension([rows, cols], shift, place, radius);
                extension_values(found.pads, found.offset, found.needed)
            }
            Step::BoxedExtension => {
                let found = steps::constrain_extension([rows, cols], shift, place, radius, min, max);
                extension_values(found.pads, found.offset, found.needed)
            }
        };
        Outcome::new(self.refusal().map_or_else(|| Ok(answer()), Err), Vec::new())
    }

    fn observed(&self) -> Outcome {
        let Self { step, rows, cols, world, offset, radius, bounds } = *self;
        let answer = match step {
            Step::Spans => side::get_region_spans(offset, world, radius).map(|(rows, cols)| spans_values(rows, cols)),
            Step::Contains => side::contains(bounds, world).map(|inside| vec![Value::Whole(i64::from(inside))]),
            Step::Extension => side::calculate_extension(rows, cols, offset, world, radius).map(info_values),
            Step::BoxedExtension => {
                side::constrain_extension(rows, cols, offset, world, radius, bounds).map(info_values)
            }
        };
        Outcome::new(answer, Vec::new())
    }
}
