//! Sets of colours.

use super::{Input, Shows};
use crate::calls::*;
use crate::inputs::{self, TileList};
use crate::outcome::{Outcome, Value};
use crate::random::Random;
use crate::{refusals, side};
use oracle::steps;

#[derive(Clone, Copy, Debug, PartialEq)]
pub enum Step {
    New,
    All,
    Insert,
    Contains,
    Intersection,
    IsEmpty,
    Count,
    ToVec,
}

#[derive(Clone, Debug)]
pub struct SetInput {
    step: Step,
    set: TileBitset,
    other: TileBitset,
    colour: u32,
}

fn set_values(bits: u32, size: u32) -> Vec<Value> {
    vec![Value::Whole(i64::from(bits)), Value::Whole(i64::from(size))]
}

fn whole(number: usize) -> Vec<Value> {
    vec![Value::Whole(number as i64)]
}

/// The members, then 0 up to thirty, then how many.
fn list_values(colours: &[u8], len: usize) -> Vec<Value> {
    let padded = colours.iter().copied().chain(std::iter::repeat(0)).take(30);
    padded.map(|colour| Value::Whole(i64::from(colour))).chain(whole(len)).collect()
}

fn bits(random: &mut Random, size: u32) -> u32 {
    let all = ((1u64 << size) - 1) as u32;
    match random.below(5) {
        0 => 0,
        1 => all,
        2 => 1 << random.below(size as usize),
        _ => random.next() as u32 & all,
    }
}

impl Input for SetInput {
    type Step = Step;

    const STEPS: &'static [(&'static str, u64, Step)] = &[
        ("set-new", 100, Step::New),
        ("set-all", 100, Step::All),
        ("set-insert", 400, Step::Insert),
        ("set-contains", 400, Step::Contains),
        ("set-intersection", 400, Step::Intersection),
        ("set-is-empty", 200, Step::IsEmpty),
        ("set-count", 200, Step::Count),
        ("set-to-vec", 200, Step::ToVec),
    ];

    fn shows(_: Step) -> Shows {
        Shows { answer: true, planes: false, floats: false, refusals: true, lends: false, reads: false }
    }

    fn random(step: Step, random: &mut Random, _: &TileList) -> Self {
        let size = if random.percent(50) { 1 + random.below(30) as u32 } else { inputs::count(random) };
        let colour = match random.below(4) {
            0 => random.pick(&[0, 1, size, size + 1, 31, 32, 33, 64, u32::MAX]),
            _ => random.below(size as usize + 2) as u32,
        };
        Self {
            step,
            set: TileBitset { bits: bits(random, size), size },
            other: TileBitset { bits: bits(random, size), size },
            colour,
        }
    }

    /// Every set of up to five colours with every colour to one past it; every pair of sets of up to three.
    fn small(step: Step, each: &mut dyn FnMut(Self)) {
        for size in 1..=5 {
            for bits in 0..1 << size {
                let set = TileBitset { bits, size };
                match step {
                    Step::New | Step::All if bits > 0 => {}
                    Step::Intersection if size > 3 => {}
                    Step::Insert | Step::Contains => {
                        (0..=size + 1).for_each(|colour| each(Self { step, set, other: set, colour }));
                    }
                    Step::Intersection => (0..1 << size)
                        .for_each(|bits| each(Self { step, set, other: TileBitset { bits, size }, colour: 0 })),
                    _ => each(Self { step, set, other: set, colour: 0 }),
                }
            }
        }
    }

    fn spoil(&mut self, random: &mut Random) {
        let set = if self.step == Step::Intersection && random.percent(50) { &mut self.other } else { &mut self.set };
        match random.below(3) {
            0 => set.size = inputs::spoil_count(random),
            1 => set.size = 1 + random.below(30) as u32,
            _ => set.bits |= random.pick(&[1 << 31, 1 << 30, 1 << set.size.min(31), u32::MAX]),
        }
    }

    fn disturb(&mut self, random: &mut Random) {
        match self.step {
            Step::New | Step::All => self.set.size = self.set.size % 30 + 1,
            Step::Contains => self.colour = self.colour % self.set.size + 1,
            _ => self.set.bits ^= 1 << random.below(self.set.size as usize),
        }
    }

    fn smaller(&self) -> Vec<Self> {
        let mut all = Vec::new();
        for at in (0..32).filter(|at| self.set.bits >> at & 1 == 1) {
            all.push(Self { set: TileBitset { bits: self.set.bits ^ 1 << at, ..self.set }, ..self.clone() });
        }
        for at in (0..32).filter(|at| self.other.bits >> at & 1 == 1) {
            all.push(Self { other: TileBitset { bits: self.other.bits ^ 1 << at, ..self.other }, ..self.clone() });
        }
        for size in inputs::fewer(self.set.size as usize) {
            let size = size as u32;
            let other = TileBitset { size, ..self.other };
            all.push(Self { set: TileBitset { size, ..self.set }, other, ..self.clone() });
        }
        all.extend(
            inputs::fewer(self.colour as usize)
                .into_iter()
                .map(|colour| Self { colour: colour as u32, ..self.clone() }),
        );
        all
    }

    fn refusal(&self) -> Option<Refusal> {
        match self.step {
            Step::New | Step::All => refusals::set_size(self.set.size),
            Step::Intersection => refusals::sets(self.set, self.other),
            _ => refusals::set(self.set),
        }
    }

    fn expected(&self) -> Outcome {
        let Self { step, set, other, colour } = *self;
        let (size, colour) = (set.size as usize, colour as usize);
        let answer = || match step {
            Step::New => set_values(steps::set_new(size), set.size),
            Step::All => set_values(steps::set_all(size), set.size),
            Step::Insert => set_values(steps::set_insert(set.bits, size, colour), set.size),
            Step::Contains => whole(usize::from(steps::set_contains(set.bits, size, colour))),
            Step::Intersection => set_values(steps::set_intersection(set.bits, other.bits, size), set.size),
            Step::IsEmpty => whole(usize::from(steps::set_is_empty(set.bits, size))),
            Step::Count => whole(steps::set_count(set.bits, size)),
            Step::ToVec => {
                let members: Vec<u8> = steps::set_to_vec(set.bits, size).iter().map(|&t| t as u8).collect();
                list_values(&members, members.len())
            }
        };
        Outcome::new(self.refusal().map_or_else(|| Ok(answer()), Err), Vec::new())
    }

    fn observed(&self) -> Outcome {
        let Self { step, set, other, colour } = *self;
        let as_set = |answer: Answer<TileBitset>| answer.map(|set| set_values(set.bits, set.size));
        let answer = match step {
            Step::New => as_set(side::set_new(set.size)),
            Step::All => as_set(side::set_all(set.size)),
            Step::Insert => as_set(side::set_insert(set, colour)),
            Step::Contains => side::set_contains(set, colour).map(|has| whole(usize::from(has))),
            Step::Intersection => as_set(side::set_intersection(set, other)),
            Step::IsEmpty => side::set_is_empty(set).map(|empty| whole(usize::from(empty))),
            Step::Count => side::set_count(set).map(whole),
            Step::ToVec => side::set_to_vec(set).map(|list| list_values(&list.colours, list.len)),
        };
        Outcome::new(answer, Vec::new())
    }
}
