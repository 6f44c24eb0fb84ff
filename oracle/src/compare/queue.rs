//! The queue of forced places.

use super::{Input, Shows};
use crate::calls::*;
use crate::inputs::{self, TileList};
use crate::outcome::{Outcome, Plane, Value};
use crate::random::Random;
use crate::{refusals, side};
use oracle::steps;

#[derive(Clone, Copy, Debug, PartialEq)]
pub enum Step {
    Add,
    Take,
    IsEmpty,
    Len,
}

#[derive(Clone)]
pub struct QueueInput {
    step: Step,
    queue: ForcedPipeline,
    added: ForcedPositions,
}

/// Entries past the length are not read; they are shown only where they matter, which is never.
impl std::fmt::Debug for QueueInput {
    fn fmt(&self, f: &mut std::fmt::Formatter<'_>) -> std::fmt::Result {
        let plain = |entries: &[ForcedPosition], len: usize| -> Vec<String> {
            let entry = |e: &ForcedPosition| format!("({}, {}) {}", e.coordinates.0, e.coordinates.1, e.colour);
            entries[..len.min(entries.len())].iter().map(entry).collect()
        };
        f.debug_struct("QueueInput")
            .field("step", &self.step)
            .field("queue length", &self.queue.len)
            .field("queue", &plain(&self.queue.entries, self.queue.len))
            .field("added length", &self.added.len)
            .field("added", &plain(&self.added.entries, self.added.len))
            .finish()
    }
}

fn entry(random: &mut Random) -> ForcedPosition {
    let coordinates = match random.below(6) {
        0 => World(random.pick(&[-1_000_000, 1_000_000]), random.pick(&[-1_000_000, 1_000_000])),
        _ => World(random.within(-4, 4), random.within(-4, 4)),
    };
    // colours are not checked
    let colour = if random.percent(10) { random.pick(&[0, 31, u32::MAX]) } else { 1 + random.below(30) as u32 };
    ForcedPosition { coordinates, colour }
}

/// What stands past the length: it may be anything.
fn garbage(random: &mut Random) -> ForcedPosition {
    let colour = random.next() as u32;
    ForcedPosition { coordinates: World(random.next() as i32, random.next() as i32), colour }
}

fn list<const N: usize>(random: &mut Random, len: usize) -> [ForcedPosition; N] {
    std::array::from_fn(|at| if at < len { entry(random) } else { garbage(random) })
}

fn entry_values(entry: &ForcedPosition) -> [Value; 3] {
    [
        Value::Whole(i64::from(entry.coordinates.0)),
        Value::Whole(i64::from(entry.coordinates.1)),
        Value::Whole(i64::from(entry.colour)),
    ]
}

/// The queue that comes back, as a plane: all 64 entries and the length. A refused call gives it back as it went in.
fn queue_plane(queue: &ForcedPipeline) -> Plane {
    let entry = |e: &ForcedPosition| [e.coordinates.0 as u32, e.coordinates.1 as u32, e.colour];
    let len = [queue.len as u32, (queue.len as u64 >> 32) as u32];
    Plane::Words(queue.entries.iter().flat_map(entry).chain(len).collect())
}

fn of_text(entries: &[steps::Entry]) -> ForcedPipeline {
    let mut queue = ForcedPipeline { entries: [NO_POSITION; 64], len: entries.len() };
    for (to, &([row, col], colour)) in queue.entries.iter_mut().zip(entries) {
        *to = ForcedPosition { coordinates: World(row, col), colour: colour as u32 };
    }
    queue
}

fn to_text(entries: &[ForcedPosition]) -> Vec<steps::Entry> {
    entries.iter().map(|e| ([e.coordinates.0, e.coordinates.1], e.colour as usize)).collect()
}

impl Input for QueueInput {
    type Step = Step;

    const STEPS: &'static [(&'static str, u64, Step)] = &[
        ("queue-add", 400, Step::Add),
        ("queue-take", 200, Step::Take),
        ("queue-is-empty", 100, Step::IsEmpty),
        ("queue-len", 100, Step::Len),
    ];

    fn shows(step: Step) -> Shows {
        Shows {
            answer: step != Step::Add,
            planes: matches!(step, Step::Add | Step::Take),
            floats: false,
            refusals: true,
            lends: false,
            reads: false,
        }
    }

    fn random(step: Step, random: &mut Random, _: &TileList) -> Self {
        let len = match random.below(5) {
            0 => random.pick(&[0, 1, 55, 56, 57, 63, 64]),
            1 => random.below(65),
            _ => random.below(6),
        };
        let offered = random.pick(&[0, 1, 2, 3, 7, 8, 8]);
        let mut queue = ForcedPipeline { entries: list(random, len), len };
        let added = ForcedPositions { entries: list(random, offered), len: offered };
        if random.percent(40) {
            // places of their own, or a long queue would hold the few places many times over
            for (at, entry) in queue.entries.iter_mut().enumerate().take(len) {
                entry.coordinates = World(at as i32 / 9 - 4, at as i32 % 9 - 4);
            }
        }
        Self { step, queue, added }
    }

    /// Queues to two entries and lists to two over two places and two colours.
    fn small(step: Step, each: &mut dyn FnMut(Self)) {
        let lists = |longest: usize| {
            let mut lists: Vec<Vec<ForcedPosition>> = vec![vec![]];
            let mut last = lists.clone();
            for _ in 0..longest {
                let mut next = Vec::new();
                for list in &last {
                    for kind in 0..4 {
                        let mut list = list.clone();
                        list.push(ForcedPosition { coordinates: World(0, kind % 2), colour: 1 + kind as u32 / 2 });
                        next.push(list);
                    }
                }
                lists.extend(next.clone());
                last = next;
            }
            lists
        };
        for queued in lists(2) {
            for offered in if step == Step::Add { lists(2) } else { vec![vec![]] } {
                let mut queue = ForcedPipeline { entries: [NO_POSITION; 64], len: queued.len() };
                queue.entries[..queued.len()].copy_from_slice(&queued);
                let mut added = ForcedPositions { entries: [NO_POSITION; 8], len: offered.len() };
                added.entries[..offered.len()].copy_from_slice(&offered);
                each(Self { step, queue, added });
            }
        }
    }

    fn spoil(&mut self, random: &mut Random) {
        let bad_len = random.pick(&[65, 66, 128, 1 << 32, usize::MAX]);
        match random.below(5) {
            0 => self.queue.len = bad_len,
            1 if self.step == Step::Add => self.added.len = random.pick(&[9, 16, 64, usize::MAX]),
            2 if self.step == Step::Add => {
                let at = random.below(self.added.len.clamp(1, 8));
                spoil_entry(random, &mut self.added.entries[at]);
            }
            // full, with other places than those offered
            3 if self.step == Step::Add => {
                self.queue.len = random.pick(&[58, 63, 64]);
                for (at, entry) in self.queue.entries.iter_mut().enumerate() {
                    *entry = ForcedPosition { coordinates: World(100 + at as i32, 0), colour: 1 };
                }
            }
            _ => {
                let at = random.below(self.queue.len.clamp(1, 64));
                spoil_entry(random, &mut self.queue.entries[at]);
            }
        }
    }

    fn disturb(&mut self, random: &mut Random) {
        if self.queue.len > 0 && random.percent(50) {
            self.queue.len -= 1;
        } else if self.queue.len < 64 && random.percent(50) {
            self.queue.entries[self.queue.len] = entry(random);
            self.queue.len += 1;
        } else {
            self.queue.entries[0].colour ^= 1;
            self.added.entries[0].coordinates = World(777, 777);
        }
    }

    fn smaller(&self) -> Vec<Self> {
        let mut all = Vec::new();
        if (1..=64).contains(&self.queue.len) {
            for at in 0..self.queue.len {
                let mut small = self.clone();
                small.queue.entries[at..].rotate_left(1);
                small.queue.entries[63] = NO_POSITION;
                small.queue.len -= 1;
                all.push(small);
            }
        }
        if (1..=8).contains(&self.added.len) {
            for at in 0..self.added.len {
                let mut small = self.clone();
                small.added.entries[at..].rotate_left(1);
                small.added.entries[7] = NO_POSITION;
                small.added.len -= 1;
                all.push(small);
            }
        }
        all
    }

    fn refusal(&self) -> Option<Refusal> {
        match self.step {
            Step::Add => refusals::queue_add(&self.queue, &self.added),
            _ => refusals::queue(&self.queue),
        }
    }

    fn expected(&self) -> Outcome {
        // emptiness and length answer no queue
        let planes = |queue: &ForcedPipeline| match self.step {
            Step::Add | Step::Take => vec![queue_plane(queue)],
            Step::IsEmpty | Step::Len => Vec::new(),
        };
        if let Some(number) = self.refusal() {
            return Outcome::new(Err(number), planes(&self.queue));
        }
        let queued = to_text(&self.queue.entries[..self.queue.len]);
        let (answer, queue) = match self.step {
            Step::Add => {
                let offered = to_text(&self.added.entries[..self.added.len]);
                (Vec::new(), of_text(&steps::queue_add(&queued, &offered)))
            }
            Step::Take => {
                let (taken, left) = steps::queue_take(&queued);
                let taken = taken.map_or_else(Vec::new, |taken| entry_values(&of_text(&[taken]).entries[0]).to_vec());
                (taken, of_text(&left))
            }
            Step::IsEmpty => (vec![Value::Whole(i64::from(steps::queue_is_empty(&queued)))], self.queue),
            Step::Len => (vec![Value::Whole(steps::queue_len(&queued) as i64)], self.queue),
        };
        Outcome::new(Ok(answer), planes(&queue))
    }

    fn observed(&self) -> Outcome {
        match self.step {
            Step::Add => {
                let (answer, queue) = side::queue_add(self.queue, self.added);
                Outcome::new(answer.map(|()| Vec::new()), vec![queue_plane(&queue)])
            }
            Step::Take => {
                let (answer, queue) = side::queue_take(self.queue);
                // nothing taken: an answer of no values
                let taken = answer.map(|taken| taken.map_or_else(Vec::new, |e| entry_values(&e).to_vec()));
                Outcome::new(taken, vec![queue_plane(&queue)])
            }
            Step::IsEmpty => {
                let answer = side::queue_is_empty(self.queue);
                Outcome::new(answer.map(|empty| vec![Value::Whole(i64::from(empty))]), Vec::new())
            }
            Step::Len => {
                let answer = side::queue_len(self.queue);
                Outcome::new(answer.map(|len| vec![Value::Whole(len as i64)]), Vec::new())
            }
        }
    }
}

fn spoil_entry(random: &mut Random, entry: &mut ForcedPosition) {
    inputs::spoil_wall(random, &mut entry.coordinates);
}
