//! The comparisons: what a step's inputs must offer, and how a step is run, shrunk and disturbed.

pub mod board;
pub mod copies;
pub mod forced_run;
pub mod places;
pub mod plain_score;
pub mod probabilities;
pub mod queue;
pub mod sequences;
pub mod sets;
pub mod tiles;
pub mod widen;

use crate::calls::{NUMBER, Refusal};
use crate::inputs::{self, TileList};
use crate::outcome::{Damage, Outcome, Plane, Value, set_damage};
use crate::random::{Random, name_seed};
use crate::record::{self, Parts};
use std::fmt::Debug;
use std::panic::{AssertUnwindSafe, catch_unwind};
use std::time::Instant;

/// An input of one of several steps that share its form.
pub trait Input: Clone + Debug {
    type Step: Copy + PartialEq + Debug + 'static;

    /// Each step with its name and its share: inputs a hundred of a run's size.
    const STEPS: &'static [(&'static str, u64, Self::Step)];

    /// Whether the step takes a tile list.
    fn uses_tiles(_step: Self::Step) -> bool {
        false
    }

    fn shows(step: Self::Step) -> Shows;

    /// Inside the domain.
    fn random(step: Self::Step, random: &mut Random, tiles: &TileList) -> Self;

    /// Small inputs, all of them.
    fn small(_step: Self::Step, _each: &mut dyn FnMut(Self)) {}

    /// Puts in one fault, whatever else is wrong already; now and then it is none.
    fn spoil(&mut self, random: &mut Random);

    /// Puts NaNs of any sign and payload into the plane of floats that the call may write, where its answer stays the same.
    /// A contract cannot tell one NaN from another, so only here is it seen that a refused call leaves their bits alone.
    fn lend_nans(&mut self, _random: &mut Random) {}

    /// Another input of the same step, inside the domain if this one is.
    fn disturb(&mut self, random: &mut Random);

    fn smaller(&self) -> Vec<Self>;

    /// The refusal table on this input.
    fn refusal(&self) -> Option<Refusal>;

    /// By the table if it is refused, by the text if not; widening, the forced run and the plain score, which the text has
    /// not, by document 02's rules.
    fn expected(&self) -> Outcome;

    /// By the port.
    fn observed(&self) -> Outcome;

    /// For the fixed list: the arguments of the port's exported function in their order, without the slices lent for its
    /// answer. Nothing of a step that the list does not have.
    fn arguments(&self) -> Option<Parts> {
        None
    }

    /// For the fixed list: what each slice lent for an answer holds after the call; nothing where it is refused.
    fn told(&self, answer: Option<&[Value]>) -> Parts {
        Parts::new().slice(answer.unwrap_or_default())
    }
}

/// What there is to compare in a step: it decides which mutants it has.
#[derive(Clone, Copy, Debug)]
pub struct Shows {
    /// numbers in its answer
    pub answer: bool,
    /// planes that it writes
    pub planes: bool,
    /// those planes are of floats, and the step answers NUMBER
    pub floats: bool,
    pub refusals: bool,
    /// lent slices, with guard words
    pub lends: bool,
    /// slices that it only reads
    pub reads: bool,
}

/// How the port's side is disturbed, to show that a comparison can fail.
#[derive(Clone, Copy, Debug, PartialEq, Eq)]
pub enum Meddle {
    /// the port gets another input
    Feed,
    /// one number of its answer is changed
    Answer,
    /// one cell of a plane that it may write is changed
    Plane,
    /// the word before, the word after a lent slice, or a cell of one that it only reads, is changed
    Before,
    After,
    Read,
    /// a refusal's number is changed
    Refusal,
    /// a plane is changed although the call is refused
    RefusedWrite,
    /// a NaN of a plane is rewritten before the call answers this number: a port that does so can be proved
    Nan(Refusal, Rewrite),
}

/// What becomes of the NaN.
#[derive(Clone, Copy, Debug, PartialEq, Eq)]
pub enum Rewrite {
    /// `f64::NAN`
    Plain,
    /// its sign is the other one
    Negated,
    /// it signals no more, as after any operation
    Quieted,
}

impl Meddle {
    pub const ALL: [(&'static str, Meddle); 11] = [
        ("feed", Meddle::Feed),
        ("answer", Meddle::Answer),
        ("plane", Meddle::Plane),
        ("before", Meddle::Before),
        ("after", Meddle::After),
        ("read", Meddle::Read),
        ("refusal", Meddle::Refusal),
        ("refused-write", Meddle::RefusedWrite),
        ("plain-nan", Meddle::Nan(NUMBER, Rewrite::Plain)),
        ("negated-nan", Meddle::Nan(NUMBER, Rewrite::Negated)),
        ("quieted-nan", Meddle::Nan(NUMBER, Rewrite::Quieted)),
    ];

    pub fn applies(self, shows: Shows) -> bool {
        match self {
            Meddle::Feed => true,
            Meddle::Answer => shows.answer,
            Meddle::Plane => shows.planes,
            Meddle::Before | Meddle::After => shows.lends,
            Meddle::Read => shows.reads,
            Meddle::Refusal => shows.refusals,
            Meddle::RefusedWrite => shows.refusals && shows.planes,
            Meddle::Nan(..) => shows.refusals && shows.floats,
        }
    }

    fn damage(self) -> Damage {
        match self {
            Meddle::Before => Damage::Before,
            Meddle::After => Damage::After,
            Meddle::Read => Damage::Read,
            _ => Damage::None,
        }
    }

    fn alter(self, outcome: &mut Outcome, random: &mut Random) {
        let refused = outcome.answer.is_err();
        match self {
            Meddle::Answer => {
                if let Ok(answer) = &mut outcome.answer
                    && !answer.is_empty()
                {
                    let at = random.below(answer.len());
                    answer[at] = match answer[at] {
                        Value::Whole(number) => Value::Whole(number ^ 1),
                        Value::Float(float) => Value::Float(f64::from_bits(float.to_bits() ^ 1)),
                    };
                }
            }
            Meddle::Refusal => {
                if let Err(number) = &mut outcome.answer {
                    *number += 1;
                }
            }
            Meddle::Plane | Meddle::RefusedWrite => {
                if refused == (self == Meddle::RefusedWrite)
                    && let Some(plane) = outcome.planes.iter_mut().find(|plane| plane.len() > 0)
                {
                    plane.flip(random.below(plane.len()));
                }
            }
            Meddle::Nan(number, rewrite) => {
                if outcome.answer == Err(number)
                    && let Some(bits) = outcome.planes.iter_mut().find_map(Plane::nan)
                {
                    *bits = match rewrite {
                        Rewrite::Plain => f64::NAN.to_bits(),
                        Rewrite::Negated => *bits ^ 1 << 63,
                        Rewrite::Quieted => *bits | 1 << 51,
                    };
                }
            }
            Meddle::Feed | Meddle::Before | Meddle::After | Meddle::Read => {}
        }
    }
}

/// What a run does.
#[derive(Clone, Debug)]
pub struct Plan {
    pub seed: u64,
    /// inputs of a step with share 100
    pub inputs: u64,
    pub meddle: Option<Meddle>,
    /// stop at the first difference and do not shrink it
    pub first_only: bool,
    pub small: bool,
    pub random: bool,
    pub faults: bool,
}

/// What a run of one step compared: the inputs by where they come from, and how many of all were refused, by number.
#[derive(Clone, Debug, Default)]
pub struct Tally {
    pub name: &'static str,
    pub small: u64,
    pub random: u64,
    pub spoilt: u64,
    pub refused: [u64; 11],
    pub values: u64,
    pub seconds: f64,
    pub differences: u64,
    /// the first difference, with its smallest input
    pub report: Option<String>,
}

impl Tally {
    pub fn answers(&self) -> u64 {
        self.small + self.random + self.spoilt
    }
}

/// The two sides on one input: a refusal if it is one and how many values, or where they differ. A panic of either side
/// is a difference too. The salt varies what a mutant does.
pub fn check<I: Input>(input: &I, meddle: Option<Meddle>, salt: u64) -> Result<(Option<Refusal>, u64), String> {
    let both = catch_unwind(AssertUnwindSafe(|| {
        let mut random = Random::new(&[salt]);
        let expected = input.expected();
        set_damage(meddle.map_or(Damage::None, Meddle::damage));
        let mut observed = if meddle == Some(Meddle::Feed) {
            let mut other = input.clone();
            other.disturb(&mut random);
            other.observed()
        } else {
            input.observed()
        };
        if let Some(meddle) = meddle {
            meddle.alter(&mut observed, &mut random);
        }
        match expected.difference(&observed) {
            Some(difference) => Err(difference),
            None => Ok((expected.answer.as_ref().err().copied(), expected.values())),
        }
    }));
    set_damage(Damage::None);
    both.unwrap_or_else(|panic| {
        let said = panic.downcast_ref::<String>().cloned();
        let said = said.or_else(|| panic.downcast_ref::<&str>().map(|said| (*said).to_string()));
        Err(format!("a panic: {}", said.unwrap_or_default()))
    })
}

const SHRINK_TRIES: usize = 4_000;

/// The smallest input with a difference that steps of `smaller` lead to.
pub fn shrink<I: Input>(input: &I, meddle: Option<Meddle>, salt: u64) -> (I, String) {
    let mut smallest = input.clone();
    let mut difference = check(&smallest, meddle, salt).expect_err("an input without a difference");
    let mut tries = 0;
    'shrinking: loop {
        for candidate in smallest.smaller() {
            tries += 1;
            if tries > SHRINK_TRIES {
                break 'shrinking;
            }
            if let Err(found) = check(&candidate, meddle, salt) {
                (smallest, difference) = (candidate, found);
                continue 'shrinking;
            }
        }
        break;
    }
    (smallest, difference)
}

/// Tile lists are dear for the oracle, so this many inputs in turn share one.
const INPUTS_A_LIST: u64 = 40;

pub fn run<I: Input>(name: &'static str, share: u64, step: I::Step, plan: &Plan) -> Tally {
    let start = Instant::now();
    let mut tally = Tally { name, ..Tally::default() };

    let judge =
        |tally: &mut Tally, input: &I, salt: u64, from: &dyn Fn() -> String| match check(input, plan.meddle, salt) {
            Ok((refused, values)) => {
                tally.values += values;
                if let Some(number) = refused {
                    tally.refused[usize::from(number)] += 1;
                }
            }
            Err(first) => {
                tally.differences += 1;
                if tally.report.is_none() {
                    tally.report = Some(if plan.first_only {
                        first
                    } else {
                        let (smallest, difference) = shrink(input, plan.meddle, salt);
                        format!("{name}: a difference, from {}\n  {difference}\n  smallest input: {smallest:?}", from())
                    });
                }
            }
        };
    let stop = |tally: &Tally| plan.first_only && tally.report.is_some();

    if plan.small {
        I::small(step, &mut |input| {
            if !stop(&tally) {
                let salt = tally.small;
                judge(&mut tally, &input, salt, &|| "the small inputs".into());
                tally.small += 1;
            }
        });
    }

    let inputs = (plan.inputs * share).div_ceil(100);
    let mut tiles = TileList::new(vec![1; 9], 1);
    for number in 0..inputs {
        if stop(&tally) {
            break;
        }
        if I::uses_tiles(step) && number % INPUTS_A_LIST == 0 {
            let mut random = Random::new(&[plan.seed, name_seed(name), number, 1]);
            tiles = inputs::tile_list(&mut random);
        }
        let mut random = Random::new(&[plan.seed, name_seed(name), number, 2]);
        let mut input = I::random(step, &mut random, &tiles);
        // numbers of their own, so that the input and its faults are the same without them
        let mut nans = Random::new(&[plan.seed, name_seed(name), number, 3]);
        input.lend_nans(&mut nans);
        let from = || format!("seed {}, input {number}", plan.seed);
        if plan.random {
            judge(&mut tally, &input, number, &from);
            tally.random += 1;
        }
        if plan.faults && I::shows(step).refusals {
            let mut spoilt = spoil(&input, &mut random);
            spoilt.lend_nans(&mut nans);
            judge(&mut tally, &spoilt, number, &|| format!("{}, spoilt", from()));
            tally.spoilt += 1;
        }
    }
    tally.seconds = start.elapsed().as_secs_f64();
    tally
}

/// The input with one to four faults. The lowest number speaks, so of several such inputs that with the highest is taken,
/// or the high ones would hardly be heard.
pub fn spoil<I: Input>(input: &I, random: &mut Random) -> I {
    let spoil_once = |random: &mut Random| {
        let mut spoilt = input.clone();
        for _ in 0..1 + random.below(4) {
            spoilt.spoil(random);
        }
        spoilt
    };
    let mut spoilt = spoil_once(random);
    for _ in 0..random.pick(&[0, 0, 3, 15]) {
        let other = spoil_once(random);
        if other.refusal() > spoilt.refusal() {
            spoilt = other;
        }
    }
    spoilt
}

/// A step under its name, whatever the form of its inputs.
pub struct Named {
    pub name: &'static str,
    pub shows: Shows,
    pub run: Box<dyn Fn(&Plan) -> Tally>,
    /// lines of the fixed list, by the seed
    pub records: Box<dyn Fn(u64) -> Vec<String>>,
}

fn family<I: Input + 'static>(all: &mut Vec<Named>) {
    for &(name, share, step) in I::STEPS {
        let run = Box::new(move |plan: &Plan| run::<I>(name, share, step, plan));
        let records = Box::new(move |seed: u64| record::records::<I>(name, step, seed));
        all.push(Named { name, shows: I::shows(step), run, records });
    }
}

pub fn all() -> Vec<Named> {
    let mut all = Vec::new();
    family::<places::PlaceInput>(&mut all);
    family::<copies::CopyU32>(&mut all);
    family::<copies::CopyF64>(&mut all);
    family::<tiles::ExtractInput>(&mut all);
    family::<tiles::TileInput>(&mut all);
    family::<sets::SetInput>(&mut all);
    family::<board::BoardInput>(&mut all);
    family::<widen::WidenInput>(&mut all);
    family::<forced_run::RunInput>(&mut all);
    family::<plain_score::ScoreInput>(&mut all);
    family::<queue::QueueInput>(&mut all);
    family::<probabilities::ProbabilityInput>(&mut all);
    family::<sequences::SequenceInput>(&mut all);
    all
}
