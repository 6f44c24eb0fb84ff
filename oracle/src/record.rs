//! The fixed list: a sample of the oracle's answers, written so that a program replays it with no Rust at hand.
//!
//! A file for the extraction of tiles, for each step on a board that has whole numbers alone, and for the desk's fitting
//! colours, lay and lift; a record for each line. A record has the arguments of the port's exported function in their
//! order, without the slices lent for its answer; after `=` 0 or the refusal's number, what each slice lent for the
//! answer then holds (nothing where the call is refused), and what each plane that the call may write then holds. The
//! parts are kept apart by `|`; a part is a number, or the entries of a slice, in decimal. An i32 is written as the u32
//! of the same bits, a bool as 0 or 1.

use crate::calls::Refusal;
use crate::compare::{Input, spoil};
use crate::inputs::{self, TileList};
use crate::outcome::{Plane, Value};
use crate::random::{Random, name_seed};
use std::collections::{BTreeMap, BTreeSet};

/// Parts of a record.
#[derive(Clone, Debug, Default)]
pub struct Parts(Vec<Vec<u64>>);

/// What a part is made of.
pub trait Word: Copy {
    fn word(self) -> u64;
}

impl Word for u8 {
    fn word(self) -> u64 {
        u64::from(self)
    }
}

impl Word for u32 {
    fn word(self) -> u64 {
        u64::from(self)
    }
}

impl Word for i32 {
    fn word(self) -> u64 {
        u64::from(self as u32)
    }
}

impl Word for usize {
    fn word(self) -> u64 {
        self as u64
    }
}

impl Word for u64 {
    fn word(self) -> u64 {
        self
    }
}

impl Word for bool {
    fn word(self) -> u64 {
        u64::from(self)
    }
}

impl Word for Value {
    fn word(self) -> u64 {
        match self {
            Value::Whole(number) if number < 0 => i32::try_from(number).expect("an i32").word(),
            Value::Whole(number) => number as u64,
            Value::Float(float) => float.to_bits(),
        }
    }
}

impl Parts {
    pub fn new() -> Self {
        Self::default()
    }

    pub fn number(self, number: impl Word) -> Self {
        self.slice(&[number])
    }

    pub fn slice(mut self, entries: &[impl Word]) -> Self {
        self.0.push(entries.iter().map(|entry| entry.word()).collect());
        self
    }

    pub fn pair(self, row: impl Word, col: impl Word) -> Self {
        self.number(row).number(col)
    }

    pub fn plane(self, plane: &Plane) -> Self {
        match plane {
            Plane::Bytes(cells) => self.slice(cells),
            Plane::Words(cells) => self.slice(cells),
            Plane::Floats(bits) => self.slice(bits),
        }
    }

    fn longest(&self) -> usize {
        self.0.iter().map(Vec::len).max().unwrap_or(0)
    }

    fn line(&self) -> String {
        let part = |words: &Vec<u64>| words.iter().map(u64::to_string).collect::<Vec<_>>().join(" ");
        self.0.iter().map(part).collect::<Vec<_>>().join("|")
    }
}

/// The program that replays has room for slices of this length. A longer record is not taken.
const LONGEST_SLICE: usize = 192;
const LONGEST_LINE: usize = 1_100;

/// So many accepted inputs of a step are drawn, and so many of them are kept; of the refused ones, one for each number.
const DRAWN: usize = 320;
const KEPT: usize = 16;
const TRIES: u64 = 4_000;

/// Inputs in turn that share a tile list, and its most tiles.
const INPUTS_A_LIST: u64 = 4;
const MOST_TILES: usize = 20;

/// A record, and what tells whether it is kept.
#[derive(PartialEq, Eq, PartialOrd, Ord)]
struct Line {
    length: usize,
    text: String,
    refused: Option<Refusal>,
    /// different numbers in the outcome
    numbers: usize,
}

/// The records of a step; none where the list does not have it.
pub fn records<I: Input>(name: &str, step: I::Step, seed: u64) -> Vec<String> {
    let (mut accepted, mut refused) = (BTreeSet::new(), BTreeMap::new());
    let mut tiles = TileList::new(vec![1; 9], 1);
    for number in 0..TRIES {
        if I::uses_tiles(step) && number % INPUTS_A_LIST == 0 {
            tiles = few_tiles(&mut Random::new(&[seed, name_seed(name), number, 1]));
        }
        let mut random = Random::new(&[seed, name_seed(name), number, 2]);
        let input = I::random(step, &mut random, &tiles);
        if input.arguments().is_none() {
            return Vec::new();
        }
        for input in [spoil(&input, &mut random), input] {
            match record(step, &input) {
                Some(Line { refused: Some(number), text, .. }) => _ = refused.entry(number).or_insert(text),
                Some(line) if accepted.len() < DRAWN => _ = accepted.insert(line),
                _ => {}
            }
        }
    }
    kept(accepted.into_iter().collect()).chain(refused.into_values()).collect()
}

/// From the short ones to the long ones; by turns just one of a length, and that which has most to compare.
fn kept(lines: Vec<Line>) -> impl Iterator<Item = String> {
    let kept = KEPT.min(lines.len());
    (0..kept).map(move |turn| {
        let alike = &lines[turn * lines.len() / kept..(turn + 1) * lines.len() / kept];
        let most = alike.iter().max_by_key(|line| line.numbers);
        let line = if turn % 2 == 1 { most } else { alike.first() };
        line.expect("lines for each turn").text.clone()
    })
}

fn few_tiles(random: &mut Random) -> TileList {
    loop {
        let tiles = inputs::tile_list(random);
        if (1..=MOST_TILES).contains(&tiles.number()) {
            return tiles;
        }
    }
}

/// An input with its outcome, unless the line is too long.
fn record<I: Input>(step: I::Step, input: &I) -> Option<Line> {
    let arguments = input.arguments()?;
    if arguments.longest() > LONGEST_SLICE || arguments.line().len() > LONGEST_LINE {
        return None;
    }
    let outcome = input.expected();
    let refused = outcome.answer.as_ref().err().copied();
    let mut left = Parts::new().number(refused.unwrap_or(0));
    if I::shows(step).answer {
        left.0.extend(input.told(outcome.answer.as_deref().ok()).0);
    }
    left = outcome.planes.iter().fold(left, Parts::plane);
    let text = format!("{}={}", arguments.line(), left.line());
    let numbers = left.0.iter().flatten().collect::<BTreeSet<_>>().len();
    let fits = left.longest() <= LONGEST_SLICE && text.len() <= LONGEST_LINE;
    fits.then_some(Line { length: text.len(), text, refused, numbers })
}
