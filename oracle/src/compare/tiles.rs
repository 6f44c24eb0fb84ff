//! Extraction, rotation, reflection, membership.

use super::{Input, Shows};
use crate::calls::*;
use crate::inputs::{self, Cut, TileList};
use crate::outcome::{Lent, Outcome, Plane, Value};
use crate::random::Random;
use crate::record::Parts;
use crate::{refusals, side};
use oracle::steps;

#[derive(Clone, Debug)]
pub struct ExtractInput {
    sample: Vec<u8>,
    rows: usize,
    cols: usize,
    count: u32,
    rotations: bool,
    reflections: bool,
    store: Vec<u8>,
}

fn sample_side(random: &mut Random) -> usize {
    match random.below(8) {
        0 => random.pick(&[1, 2, 3, 31, 32]),
        1 => 1 + random.below(32),
        _ => 1 + random.below(8),
    }
}

impl Input for ExtractInput {
    type Step = ();

    const STEPS: &'static [(&'static str, u64, ())] = &[("extract", 300, ())];

    fn shows(_: ()) -> Shows {
        Shows { answer: true, planes: true, floats: false, refusals: true, lends: true, reads: true }
    }

    fn random(_: (), random: &mut Random, _: &TileList) -> Self {
        let (rows, cols) = (sample_side(random), sample_side(random));
        let count = inputs::count(random);
        let sample = inputs::sample(random, rows, cols, count);
        let (rotations, reflections) = (random.percent(50), random.percent(50));
        let tiles = steps::extract(&sample, [rows, cols], rotations, reflections).len();
        // exactly enough, more than enough (a part of a tile too), or too little: ROOM is in the domain
        let store = match random.below(6) {
            0 => tiles,
            1 => 7_200 * 9,
            2 => tiles + random.below(30),
            3 => random.below(tiles),
            4 => (tiles - 9) + random.below(9),
            _ => tiles + 9,
        };
        let filling = random.pick(&[0, 1, 255]);
        Self { sample, rows, cols, count, rotations, reflections, store: vec![filling; store] }
    }

    /// Every sample to 2x3 and 3x2 with two colours and the unknown, each option, room for all and for one tile.
    fn small(_: (), each: &mut dyn FnMut(Self)) {
        for (rows, cols) in [(1, 1), (1, 2), (2, 1), (1, 3), (3, 1), (2, 2), (2, 3), (3, 2), (1, 4), (4, 1)] {
            for number in 0..3usize.pow((rows * cols) as u32) {
                let mut rest = number;
                let sample: Vec<u8> = (0..rows * cols)
                    .map(|_| {
                        let cell = (rest % 3) as u8;
                        rest /= 3;
                        cell
                    })
                    .collect();
                for options in 0..4 {
                    let (rotations, reflections) = (options & 1 == 1, options & 2 == 2);
                    for store in [9, 16 * 9] {
                        let store = vec![7; store];
                        each(Self { sample: sample.clone(), rows, cols, count: 2, rotations, reflections, store });
                    }
                }
            }
        }
    }

    fn spoil(&mut self, random: &mut Random) {
        match random.below(6) {
            0 => inputs::spoil_side(random, &mut self.rows),
            1 => inputs::spoil_side(random, &mut self.cols),
            2 => inputs::spoil_length(random, &mut self.sample, 0),
            3 => self.count = inputs::spoil_count(random),
            4 => {
                let past = self.count.saturating_add(1).min(255) as u8;
                inputs::spoil_cell(random, &mut self.sample, &[past, 255]);
            }
            _ => self.store.truncate(random.pick(&[0, 8, 9])),
        }
    }

    fn disturb(&mut self, random: &mut Random) {
        match random.below(3) {
            0 => self.rotations = !self.rotations,
            1 => self.reflections = !self.reflections,
            _ => {
                let at = random.below(self.sample.len());
                self.sample[at] = if self.sample[at] == 1 { 0 } else { 1 };
            }
        }
    }

    fn smaller(&self) -> Vec<Self> {
        let mut all = Vec::new();
        for cut in Cut::ALL {
            if let Some((_, _, rows, cols)) = cut.sides(self.rows, self.cols) {
                all.push(Self { sample: cut.plane(&self.sample, self.rows, self.cols), rows, cols, ..self.clone() });
            }
        }
        all.extend(inputs::plainer(&self.sample, 0).into_iter().map(|sample| Self { sample, ..self.clone() }));
        for rotations in inputs::fewer(usize::from(self.rotations)) {
            all.push(Self { rotations: rotations == 1, ..self.clone() });
        }
        for reflections in inputs::fewer(usize::from(self.reflections)) {
            all.push(Self { reflections: reflections == 1, ..self.clone() });
        }
        for store in inputs::fewer(self.store.len()) {
            all.push(Self { store: self.store[..store].to_vec(), ..self.clone() });
        }
        all
    }

    /// All but ROOM.
    fn refusal(&self) -> Option<Refusal> {
        refusals::extract_tiles(&self.sample, self.rows, self.cols, self.count)
    }

    fn expected(&self) -> Outcome {
        let mut store = self.store.clone();
        if let Some(number) = self.refusal() {
            return Outcome::new(Err(number), vec![Plane::Bytes(store)]);
        }
        let tiles = steps::extract(&self.sample, [self.rows, self.cols], self.rotations, self.reflections);
        let (distinct, room) = (tiles.len() / 9, store.len() / 9);
        let written = distinct.min(room) * 9;
        store[..written].copy_from_slice(&tiles[..written]);
        // ROOM leaves the first tiles, as many as fit whole
        let answer = if distinct > room { Err(ROOM) } else { Ok(vec![Value::Whole(distinct as i64)]) };
        Outcome::new(answer, vec![Plane::Bytes(store)])
    }

    fn observed(&self) -> Outcome {
        let mut sample = Lent::new(&self.sample);
        let mut store = Lent::new(&self.store);
        let answer = side::extract_tiles(
            sample.cells(),
            self.rows,
            self.cols,
            self.count,
            self.rotations,
            self.reflections,
            store.cells_mut(),
        );
        Outcome {
            answer: answer.map(|tiles| vec![Value::Whole(tiles as i64)]),
            planes: vec![Plane::Bytes(store.cells().to_vec())],
            intact: sample.untouched() && store.guarded(),
        }
    }

    fn arguments(&self) -> Option<Parts> {
        let parts = Parts::new().slice(&self.sample).pair(self.rows, self.cols).number(self.count);
        Some(parts.number(self.rotations).number(self.reflections).slice(&self.store))
    }
}

#[derive(Clone, Copy, Debug, PartialEq)]
pub enum Step {
    Rotate,
    Reflect,
    Membership,
}

#[derive(Clone, Debug)]
pub struct TileInput {
    step: Step,
    tile: [u8; 9],
    count: u32,
}

impl Input for TileInput {
    type Step = Step;

    const STEPS: &'static [(&'static str, u64, Step)] =
        &[("rotate", 200, Step::Rotate), ("reflect", 200, Step::Reflect), ("membership", 400, Step::Membership)];

    fn shows(step: Step) -> Shows {
        Shows {
            answer: true,
            planes: false,
            floats: false,
            refusals: step == Step::Membership,
            lends: false,
            reads: false,
        }
    }

    fn random(step: Step, random: &mut Random, _: &TileList) -> Self {
        let count = inputs::count(random);
        let most = if step == Step::Membership { count as usize } else { 255 };
        let few = random.percent(30);
        let tile =
            std::array::from_fn(|_| if few { random.pick(&[0, 1, most as u8]) } else { random.below(most + 1) as u8 });
        Self { step, tile, count }
    }

    fn spoil(&mut self, random: &mut Random) {
        if random.percent(50) {
            self.count = inputs::spoil_count(random);
        } else {
            let past = self.count.saturating_add(1).min(255) as u8;
            inputs::spoil_cell(random, &mut self.tile, &[past, 255]);
        }
    }

    fn disturb(&mut self, random: &mut Random) {
        let at = random.below(9);
        self.tile[at] = if self.tile[at] == 0 { 1 } else { 0 };
    }

    fn smaller(&self) -> Vec<Self> {
        let plain = |tile: Vec<u8>| Self { tile: tile.try_into().unwrap(), ..self.clone() };
        let mut all: Vec<Self> = inputs::plainer(&self.tile, 0).into_iter().map(plain).collect();
        all.extend(
            inputs::fewer(self.count as usize).into_iter().map(|count| Self { count: count as u32, ..self.clone() }),
        );
        all
    }

    fn refusal(&self) -> Option<Refusal> {
        if self.step == Step::Membership { refusals::membership(self.tile, self.count) } else { None }
    }

    fn expected(&self) -> Outcome {
        let tile_values = |tile: [u8; 9]| tile.iter().map(|&cell| Value::Whole(i64::from(cell))).collect();
        let answer = match self.step {
            Step::Rotate => Ok(tile_values(steps::rotate(&self.tile))),
            Step::Reflect => Ok(tile_values(steps::reflect(&self.tile))),
            Step::Membership => self.refusal().map_or_else(
                || {
                    let bits = steps::membership(&self.tile, self.count as usize);
                    Ok(vec![Value::Whole(i64::from(bits)), Value::Whole(i64::from(self.count))])
                },
                Err,
            ),
        };
        Outcome::new(answer, Vec::new())
    }

    fn observed(&self) -> Outcome {
        let tile_values = |tile: [u8; 9]| tile.iter().map(|&cell| Value::Whole(i64::from(cell))).collect();
        let answer = match self.step {
            Step::Rotate => Ok(tile_values(side::rotate_90(self.tile))),
            Step::Reflect => Ok(tile_values(side::reflect(self.tile))),
            Step::Membership => side::membership(self.tile, self.count)
                .map(|set| vec![Value::Whole(i64::from(set.bits)), Value::Whole(i64::from(set.size))]),
        };
        Outcome::new(answer, Vec::new())
    }
}
