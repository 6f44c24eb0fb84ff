//! Runs of lay, lift, widen and forced runs from a fresh board, refused calls among them. After every call the board is held
//! against the text's own steps, and against a board of the port's, of the size and offset that it then has, that is laid
//! afresh with the standing pieces only, in another order. The text cannot widen: there the board it goes on with is one of
//! the new size and offset, on which it has laid the standing pieces at their wall coordinates. Its forced run is that of
//! forced_run.rs. Some acts name another colour count than the job's; the board laid afresh names one that has all colours.
//! With the board goes a plane of plain scores, rescored after every accepted call, near the place alone after a lay or a
//! lift: it is held against the rule of plain_score.rs on the text's counts, and against the board's laid afresh.

use super::board::board_planes;
use super::{Input, Shows};
use super::{forced_run, plain_score};
use crate::calls::*;
use crate::inputs::{self, TileList};
use crate::outcome::{Guarded, Lent, Outcome, Plane, Value};
use crate::random::Random;
use crate::{refusals, side};
use oracle::steps::{Board, Job};
use std::cell::RefMut;

#[derive(Clone, Copy, Debug, PartialEq)]
enum Call {
    Lay(World, u32),
    Lift(World),
    /// all pieces at most one cell from a place: lifts one by one, and for the text its whole resolution at once
    Clear(World),
    /// with a plane of a wrong length it is refused
    Widen(Pads, Option<WrongLength>),
    /// from a place, in a box or not, with a budget
    RunOut(World, Option<BoundingBox>, usize),
}

/// One of a widening's planes, the three new ones and then the three old ones, is lent with a cell too many or too few.
#[derive(Clone, Copy, Debug, PartialEq)]
struct WrongLength {
    plane: usize,
    longer: bool,
}

/// A call and the colour count that it names, the job's where it is none. Clearing names one that has all colours.
#[derive(Clone, Copy, Debug, PartialEq)]
struct Act {
    call: Call,
    count: Option<u32>,
}

impl Act {
    fn plain(call: Call) -> Self {
        Self { call, count: None }
    }

    fn smaller(self) -> Vec<Self> {
        let mut all: Vec<Self> = self.count.iter().map(|_| Self::plain(self.call)).collect();
        if let Call::Widen(pads, wrong) = self.call {
            all.extend(wrong.map(|_| Self { call: Call::Widen(pads, None), ..self }));
            let with = |pads: Pads| Self { call: Call::Widen(pads, wrong), ..self };
            all.extend(inputs::smaller_pads(pads).into_iter().map(with));
        }
        if let Call::RunOut(world, bounds, budget) = self.call {
            all.extend(bounds.map(|_| Self { call: Call::RunOut(world, None, budget), ..self }));
            let with = |budget: usize| Self { call: Call::RunOut(world, bounds, budget), ..self };
            all.extend(inputs::fewer(budget).into_iter().map(with));
        }
        all
    }
}

/// A board's sides, and the offset that puts it on the wall.
#[derive(Clone, Copy, Debug)]
struct Frame {
    rows: usize,
    cols: usize,
    offset: Offset,
}

impl Frame {
    fn sides(self) -> [usize; 2] {
        [self.rows, self.cols]
    }

    fn cell(self, world: World) -> Option<Cell> {
        refusals::cell_of(self.rows, self.cols, world, self.offset)
    }

    /// The places at most one cell from this one, if it is on the board.
    fn round(self, world: World) -> Vec<World> {
        let Some(cell) = self.cell(world) else { return Vec::new() };
        let rows = cell.0.saturating_sub(1)..(cell.0 + 2).min(self.rows);
        let cols = cell.1.saturating_sub(1)..(cell.1 + 2).min(self.cols);
        let place = |row: usize, col: usize| inputs::world_of(Cell(row, col), self.offset);
        rows.flat_map(|row| cols.clone().map(move |col| place(row, col))).collect()
    }

    /// The standing pieces by their places.
    fn standing(self, pieces: &[u32]) -> Vec<(World, u32)> {
        let laid = (0..pieces.len()).filter(|&at| pieces[at] > 1);
        laid.map(|at| (inputs::world_of(Cell(at / self.cols, at % self.cols), self.offset), pieces[at] - 1)).collect()
    }

    /// With an offset that the caller knows.
    fn widened(self, pads: Pads, offset: Offset) -> Self {
        let (rows, cols) = refusals::padded(self.rows, self.cols, pads);
        assert!(rows <= 64 && cols <= 64, "a side past 64 was accepted");
        Self { rows, cols, offset }
    }

    /// The planes that a widening is lent: the new pieces, weights and counts, and the old ones.
    fn lent(self, pads: Pads, old: [Vec<u32>; 3], wrong: Option<WrongLength>) -> [[Vec<u32>; 3]; 2] {
        let (rows, cols) = refusals::padded(self.rows, self.cols, pads);
        let new = vec![GARBAGE; rows.min(65) * cols.min(65)];
        let mut lent = [[new.clone(), new.clone(), new], old];
        if let Some(WrongLength { plane, longer }) = wrong {
            let plane = &mut lent[plane / 3][plane % 3];
            plane.resize(if longer { plane.len() + 1 } else { plane.len() - 1 }, 1);
        }
        lent
    }
}

#[derive(Clone, Debug)]
pub struct SequenceInput {
    frame: Frame,
    tiles: TileList,
    acts: Vec<Act>,
}

impl SequenceInput {
    /// The largest of the job's count and those that the acts name: no piece that stands has a colour above it.
    fn most(&self) -> u32 {
        let named = self.acts.iter().filter_map(|act| act.count).filter(|&count| count <= 30);
        named.fold(self.tiles.count(), u32::max)
    }
}

/// Boards with more pieces than this are laid afresh after the last call only.
const FEW_PIECES: usize = 30;

fn few(pieces: &[u32], last: bool) -> bool {
    last || pieces.iter().filter(|&&stored| stored > 1).count() <= FEW_PIECES
}

fn said(answer: Answer<()>) -> Value {
    Value::Whole(answer.err().map_or(0, i64::from))
}

/// Of a widening also the offset that is then in force.
fn said_with(answer: Answer<()>, offset: Offset) -> Vec<Value> {
    vec![said(answer), Value::Whole(i64::from(offset.0)), Value::Whole(i64::from(offset.1))]
}

/// Of a forced run also the slice lent for what it tells, which a refused one leaves as it was.
fn said_and(answer: Answer<()>, told: &[u64]) -> Vec<Value> {
    std::iter::once(said(answer)).chain(told.iter().map(|&number| Value::Whole(number as i64))).collect()
}

const UNTOLD: [u64; 3] = [70, 71, 72];
const NO_BOX: BoundingBox = BoundingBox { min: World(i32::MIN, i32::MIN), max: World(i32::MIN, i32::MIN) };

// ---- the port's side

/// A board of the port's: its frame, the tiles, the three planes and the scores, each with its guard words.
struct Lending {
    frame: Frame,
    /// the job's colour count
    count: u32,
    /// a count that has all colours
    most: u32,
    tiles: Lent<u8>,
    pieces: Lent<u32>,
    weights: Lent<u32>,
    counts: Lent<u32>,
    scores: Lent<f64>,
    /// the widenings and scorings so far wrote nothing that they may not write
    kept: bool,
}

const GARBAGE: u32 = 0xdead_beef;

impl Lending {
    fn fresh(frame: Frame, tiles: &[u8], count: u32, most: u32) -> Self {
        let garbage = vec![GARBAGE; frame.rows * frame.cols];
        let [mut pieces, mut weights, mut counts] = [(); 3].map(|()| Lent::new(&garbage));
        let [a, b, c] = [&mut pieces, &mut weights, &mut counts].map(Lent::cells_mut);
        let answer = side::fresh(a, b, c, frame.rows, frame.cols, tiles.len() / 9);
        assert_eq!(answer, Ok(()), "fresh was refused");
        let (tiles, scores) = (Lent::new(tiles), Lent::new(&[]));
        let mut board = Self { frame, count, most, tiles, pieces, weights, counts, scores, kept: true };
        board.score();
        board
    }

    fn lay(&mut self, count: u32, world: World, colour: u32) -> Answer<()> {
        side::lay(
            self.pieces.cells_mut(),
            self.weights.cells_mut(),
            self.counts.cells_mut(),
            self.frame.rows,
            self.frame.cols,
            self.tiles.cells(),
            count,
            world,
            self.frame.offset,
            colour,
        )
    }

    fn lift(&mut self, count: u32, world: World) -> Answer<()> {
        side::lift(
            self.pieces.cells_mut(),
            self.weights.cells_mut(),
            self.counts.cells_mut(),
            self.frame.rows,
            self.frame.cols,
            self.tiles.cells(),
            count,
            world,
            self.frame.offset,
        )
    }

    fn clear(&mut self, world: World) {
        for place in self.frame.round(world) {
            let Cell(row, col) = self.frame.cell(place).expect("a place on the board");
            if self.pieces.cells()[row * self.frame.cols + col] > 1 {
                assert_eq!(self.lift(self.most, place), Ok(()), "a standing piece was not lifted");
            }
        }
    }

    /// The old planes are lent anew, so that they can be held against what they were.
    fn widen(&mut self, count: u32, pads: Pads, wrong: Option<WrongLength>) -> Vec<Value> {
        let Frame { rows, cols, offset } = self.frame;
        let old = [&self.pieces, &self.weights, &self.counts].map(|plane| plane.cells().to_vec());
        let lent = self.frame.lent(pads, old, wrong);
        let [mut wide, mut old] = lent.map(|planes| planes.map(|plane| Lent::new(&plane)));
        let mut told = Lent::new(&[7, -7]);
        let [wide_pieces, wide_weights, wide_counts] = wide.each_mut().map(Lent::cells_mut);
        let [pieces, weights, counts] = old.each_ref().map(Lent::cells);
        let answer = side::widen(
            wide_pieces,
            wide_weights,
            wide_counts,
            pieces,
            weights,
            counts,
            rows,
            cols,
            pads,
            self.tiles.cells(),
            count,
            offset,
            told.cells_mut(),
        );
        self.kept &= old.iter_mut().all(Lent::untouched);
        if answer.is_ok() {
            self.kept &= told.guarded() && self.guarded();
            [self.pieces, self.weights, self.counts] = wide;
            self.frame = self.frame.widened(pads, Offset(told.cells()[0], told.cells()[1]));
        } else {
            self.kept &= told.untouched() && wide.iter_mut().all(Lent::untouched);
        }
        said_with(answer, self.frame.offset)
    }

    fn run_out(&mut self, count: u32, world: World, bounds: Option<BoundingBox>, budget: usize) -> Vec<Value> {
        let mut told = Lent::new(&UNTOLD);
        let answer = side::forced_run(
            self.pieces.cells_mut(),
            self.weights.cells_mut(),
            self.counts.cells_mut(),
            self.frame.rows,
            self.frame.cols,
            self.tiles.cells(),
            count,
            world,
            self.frame.offset,
            bounds.is_some(),
            bounds.unwrap_or(NO_BOX),
            budget,
            told.cells_mut(),
        );
        self.kept &= told.guarded();
        said_and(answer, told.cells())
    }

    /// These counts scored over NaNs.
    fn scored(&self, counts: &[u32]) -> Lent<f64> {
        let Frame { rows, cols, .. } = self.frame;
        let mut scores = Lent::new(&(0..rows * cols).map(f64::guard).collect::<Vec<_>>());
        let answer = side::plain_score(scores.cells_mut(), counts, rows, cols, self.tiles.cells().len() / 9);
        assert_eq!(answer, Ok(()), "a scoring of the whole board was refused");
        scores
    }

    /// The whole board anew.
    fn score(&mut self) {
        self.kept &= self.scores.guarded();
        self.scores = self.scored(self.counts.cells());
    }

    /// After a lay or a lift: at most two cells from the place, on the plane as it was. It must be as if scored whole.
    fn score_near(&mut self, world: World) {
        let Frame { rows, cols, .. } = self.frame;
        let Cell(row, col) = self.frame.cell(world).expect("a place on the board");
        let span = |at: usize, side: usize| Span(at.saturating_sub(2), (at + 3).min(side));
        let (down, across, number) = (span(row, rows), span(col, cols), self.tiles.cells().len() / 9);
        let scores = self.scores.cells_mut();
        let answer = side::plain_score_near(scores, self.counts.cells(), rows, cols, number, down, across);
        assert_eq!(answer, Ok(()), "a scoring near a place was refused");
        let whole = self.scored(self.counts.cells());
        assert!(same(self.scores.cells(), whole.cells()), "scored near the place it is not as if scored whole");
    }

    /// After a lay, before its scoring: lifted at once, on planes of its own, the board has the scores that it had.
    fn try_lifting(&self, world: World) {
        let Frame { rows, cols, offset } = self.frame;
        let [mut pieces, mut weights, mut counts] =
            [&self.pieces, &self.weights, &self.counts].map(|plane| plane.cells().to_vec());
        let (tiles, most) = (self.tiles.cells(), self.most);
        let answer = side::lift(&mut pieces, &mut weights, &mut counts, rows, cols, tiles, most, world, offset);
        assert_eq!(answer, Ok(()), "a piece just laid was not lifted");
        let scores = self.scored(&counts);
        assert!(same(scores.cells(), self.scores.cells()), "laid and lifted, the board has other scores");
    }

    /// A refused call leaves the board, and its scores are still right.
    fn act(&mut self, act: Act) -> Vec<Value> {
        let count = act.count.unwrap_or(self.count);
        match act.call {
            Call::Lay(world, colour) => {
                let answer = self.lay(count, world, colour);
                if answer.is_ok() {
                    self.try_lifting(world);
                    self.score_near(world);
                }
                vec![said(answer)]
            }
            Call::Lift(world) => {
                let answer = self.lift(count, world);
                if answer.is_ok() {
                    self.score_near(world);
                }
                vec![said(answer)]
            }
            Call::Clear(world) => {
                self.clear(world);
                self.score();
                Vec::new()
            }
            Call::Widen(pads, wrong) => {
                let said = self.widen(count, pads, wrong);
                self.score();
                said
            }
            Call::RunOut(world, bounds, budget) => {
                let said = self.run_out(count, world, bounds, budget);
                self.score();
                said
            }
        }
    }

    /// A board of this frame with the standing pieces only, laid in an order of leaps.
    fn afresh(&self) -> Self {
        let mut board = Self::fresh(self.frame, self.tiles.cells(), self.count, self.most);
        let mut standing = self.frame.standing(self.pieces.cells());
        let cell = |world: World| self.frame.cell(world).map_or(0, |cell| cell.0 * self.frame.cols + cell.1);
        standing.sort_by_key(|&(world, _)| cell(world).wrapping_mul(0x9e37_79b9) % 1009);
        for (world, colour) in standing {
            assert_eq!(board.lay(self.most, world, colour), Ok(()), "a standing piece was refused");
        }
        board.score();
        board
    }

    fn planes(&self) -> Vec<Plane> {
        let planes = [&self.pieces, &self.weights, &self.counts].map(|lent| Plane::Words(lent.cells().to_vec()));
        planes.into_iter().chain([Plane::floats(self.scores.cells())]).collect()
    }

    fn guarded(&mut self) -> bool {
        self.pieces.guarded() && self.weights.guarded() && self.counts.guarded()
    }

    fn intact(&mut self) -> bool {
        self.tiles.untouched() && self.guarded() && self.scores.guarded() && self.kept
    }
}

/// Bit for bit.
fn same(scores: &[f64], others: &[f64]) -> bool {
    scores.len() == others.len() && scores.iter().zip(others).all(|(&score, &other)| score.same(other))
}

// ---- the text's side

/// A board of the text's, with its job.
struct Judge<'a> {
    frame: Frame,
    tiles: &'a TileList,
    job: RefMut<'a, Job>,
    board: Board,
}

fn place(world: World) -> [i32; 2] {
    [world.0, world.1]
}

impl<'a> Judge<'a> {
    /// A job with more colours than the tiles' count if the acts name more.
    fn new(frame: Frame, tiles: &'a TileList, most: u32) -> Self {
        let job = if most > tiles.count() { tiles.job_of_all() } else { tiles.job() };
        Self { frame, tiles, job, board: Board::fresh(frame.sides(), tiles.number()) }
    }

    fn shift(&self) -> [i32; 2] {
        [self.frame.offset.0, self.frame.offset.1]
    }

    /// What the table says of a lay or a lift under this colour count on the board as it stands.
    fn refused(&self, count: u32, world: World, colour: Option<u32>) -> Option<Refusal> {
        let (pieces, weights, counts) = (self.board.pieces(), self.board.weights(), self.board.counts());
        let Frame { rows, cols, offset } = self.frame;
        let tiles = self.tiles.bytes();
        refusals::lay_or_lift(&pieces, &weights, &counts, rows, cols, tiles, count, world, offset, colour)
    }

    fn lay(&mut self, count: u32, world: World, colour: u32) -> Value {
        let refused = self.refused(count, world, Some(colour));
        if refused.is_none() {
            let shift = self.shift();
            self.job.lay(&mut self.board, place(world), shift, colour as usize);
        }
        said(refused.map_or(Ok(()), Err))
    }

    fn lift(&mut self, count: u32, world: World) -> Value {
        let refused = self.refused(count, world, None);
        if refused.is_none() {
            let shift = self.shift();
            self.job.lift(&mut self.board, place(world), shift);
        }
        said(refused.map_or(Ok(()), Err))
    }

    fn widen(&mut self, count: u32, pads: Pads, wrong: Option<WrongLength>) -> Vec<Value> {
        let old = [self.board.pieces(), self.board.weights(), self.board.counts()];
        let Frame { rows, cols, offset } = self.frame;
        let tiles = self.tiles.bytes();
        let [wide, [pieces, weights, counts]] = self.frame.lent(pads, old, wrong);
        let wide = wide.map(|plane| plane.len());
        let refused = refusals::widen(wide, &pieces, &weights, &counts, rows, cols, pads, tiles, count, offset);
        if refused.is_none() {
            let standing = self.frame.standing(&pieces);
            self.frame = self.frame.widened(pads, Offset(offset.0 + pads.left as i32, offset.1 + pads.top as i32));
            self.board = Board::fresh(self.frame.sides(), self.tiles.number());
            let shift = self.shift();
            for (world, colour) in standing {
                self.job.lay(&mut self.board, place(world), shift, colour as usize);
            }
        }
        said_with(refused.map_or(Ok(()), Err), self.frame.offset)
    }

    fn run_out(&mut self, count: u32, world: World, bounds: Option<BoundingBox>, budget: usize) -> Vec<Value> {
        let (pieces, weights, counts) = (self.board.pieces(), self.board.weights(), self.board.counts());
        let Frame { rows, cols, offset } = self.frame;
        let tiles = self.tiles.bytes();
        if let Some(number) =
            refusals::forced_run(&pieces, &weights, &counts, rows, cols, tiles, count, world, offset, bounds, budget)
        {
            return said_and(Err(number), &UNTOLD);
        }
        let shift = self.shift();
        self.board.set_box(forced_run::text_box(bounds));
        let ran = forced_run::run_out(&mut self.job, &mut self.board, place(world), shift, budget);
        self.board.set_box(None);
        said_and(Ok(()), &ran.told())
    }

    fn act(&mut self, act: Act) -> Vec<Value> {
        let count = act.count.unwrap_or(self.tiles.count());
        match act.call {
            Call::Lay(world, colour) => vec![self.lay(count, world, colour)],
            Call::Lift(world) => vec![self.lift(count, world)],
            Call::Clear(world) => {
                if let Some(Cell(row, col)) = self.frame.cell(world) {
                    let shift = self.shift();
                    self.job.resolve(&mut self.board, [row, col], shift);
                }
                Vec::new()
            }
            Call::Widen(pads, wrong) => self.widen(count, pads, wrong),
            Call::RunOut(world, bounds, budget) => self.run_out(count, world, bounds, budget),
        }
    }

    /// The text's board, and its scores by the rule.
    fn planes(&self) -> Vec<Plane> {
        let scores = plain_score::scores(&self.board.counts(), self.frame.cols, self.tiles.number());
        board_planes(&self.board).into_iter().chain([Plane::floats(&scores)]).collect()
    }
}

// ---- the inputs

/// Mostly few rows and columns; now and then a side of just 64, or one past it.
fn pads(random: &mut Random, frame: Frame) -> Pads {
    let mut pad = |side: usize| match random.below(60) {
        0 => 64 - side,
        1 => 65 - side,
        2 => random.pick(&[64, usize::MAX, usize::MAX - side, side.wrapping_neg()]),
        3..=25 => 0,
        _ => 1 + random.below(3),
    };
    Pads { left: pad(frame.rows), right: pad(frame.rows), top: pad(frame.cols), bottom: pad(frame.cols) }
}

/// The frame after a widening, if it is accepted.
fn after(frame: Frame, pads: Pads) -> Option<Frame> {
    let (rows, cols) = refusals::padded(frame.rows, frame.cols, pads);
    let fits = rows <= 64 && cols <= 64;
    let moved = |part: i32, pad: usize| fits.then(|| part + pad as i32).filter(|&part| part <= 1_000_000);
    Some(Frame { rows, cols, offset: Offset(moved(frame.offset.0, pads.left)?, moved(frame.offset.1, pads.top)?) })
}

/// The board as the acts drawn so far leave it.
struct Draft<'a> {
    frame: Frame,
    tiles: &'a TileList,
    standing: Vec<(World, u32)>,
    /// the greatest colour in the tiles
    in_tiles: u32,
    /// the count that an act mostly names
    usual: Option<u32>,
    /// how many lays and lifts of a hundred name another one; of widenings, which are fewer, twice as many
    others: usize,
}

impl<'a> Draft<'a> {
    fn new(random: &mut Random, frame: Frame, tiles: &'a TileList) -> Self {
        let in_tiles = tiles.bytes().iter().copied().max().map_or(0, u32::from);
        let others = random.pick(&[0, 0, 15, 35]);
        Self { frame, tiles, standing: Vec::new(), in_tiles, usual: None, others }
    }

    /// The greatest colour in use: with a smaller count an act is refused.
    fn greatest(&self) -> u32 {
        self.standing.iter().map(|piece| piece.1).fold(self.in_tiles, u32::max)
    }

    /// The usual count; or one just large enough, one too small, one with more colours than the job's, or one out of bounds.
    fn count(&mut self, random: &mut Random, others: usize) -> Option<u32> {
        if !random.percent(others) {
            return self.usual;
        }
        let job = self.tiles.count();
        let count = match random.below(8) {
            0 => 1,
            1 => 1 + random.below(job as usize) as u32,
            2 => self.greatest(),
            3 => self.greatest().saturating_sub(1),
            4 => (job + 1).min(30),
            5 => 1 + random.below(30) as u32,
            6 => 30,
            _ => inputs::spoil_count(random),
        };
        if (job..=30).contains(&count) && random.percent(30) {
            self.usual = Some(count);
        }
        Some(count)
    }

    /// Any on the board, but often near a piece, where steps meet.
    fn place(&self, random: &mut Random) -> World {
        let place = inputs::world_on(random, self.frame.rows, self.frame.cols, self.frame.offset);
        if self.standing.is_empty() || random.percent(50) {
            return place;
        }
        let (World(row, col), _) = random.pick(&self.standing);
        let near = World(row + random.within(-2, 2), col + random.within(-2, 2));
        if self.frame.cell(near).is_some() { near } else { place }
    }

    fn off_the_board(&self, random: &mut Random, mut place: World) -> World {
        if random.percent(50) {
            inputs::spoil_wall(random, &mut place);
        } else {
            inputs::spoil_place(random, self.frame.rows, self.frame.cols, &mut place, self.frame.offset);
        }
        place
    }

    /// A lay, a lift or a clearing.
    fn piece(&mut self, random: &mut Random) -> Act {
        let count = self.count(random, self.others);
        let (job, place) = (self.tiles.count(), self.place(random));
        let named = count.unwrap_or(job);
        let most = if random.percent(50) { job } else { named.clamp(1, 30) };
        let colour = 1 + random.below(most as usize) as u32;
        let call = match random.below(20) {
            0..=9 => Call::Lay(place, colour),
            10..=14 if !self.standing.is_empty() => Call::Lift(random.pick(&self.standing).0),
            15 => Call::Lay(place, random.pick(&[0, named.saturating_add(1), u32::MAX])),
            16 if random.percent(50) => Call::Lay(self.off_the_board(random, place), colour),
            16 => Call::Lift(self.off_the_board(random, place)),
            17 => return Act { call: Call::Lay(place, colour), count: Some(inputs::spoil_count(random)) },
            18 => {
                let cell = Cell(random.below(self.frame.rows), random.below(self.frame.cols));
                return Act::plain(Call::Clear(inputs::world_of(cell, self.frame.offset)));
            }
            // often bare
            _ => Call::Lift(place),
        };
        Act { call, count }
    }

    /// One of ten has a plane of a wrong length.
    fn widening(&mut self, random: &mut Random) -> Act {
        let mut wrong = None;
        if random.percent(10) {
            wrong = Some(WrongLength { plane: random.below(6), longer: random.percent(50) });
        }
        let call = Call::Widen(pads(random, self.frame), wrong);
        Act { call, count: self.count(random, 2 * self.others) }
    }

    /// From a place near a piece or any; one of ten has a box or a budget out of bounds.
    fn running(&mut self, random: &mut Random) -> Act {
        let place = self.place(random);
        let mut bounds = random.percent(30).then(|| inputs::bounds(random, place));
        let wanted = random.pick(&[0, 1, 2, 3, 5, 8, 12, 4_096]);
        let mut budget = forced_run::affordable(random, self.tiles.number(), wanted);
        if random.percent(10) {
            match &mut bounds {
                Some(bounds) => inputs::spoil_bounds(random, bounds),
                None => budget = random.pick(&[4_097, usize::MAX, 1 << 32]),
            }
        }
        Act { call: Call::RunOut(place, bounds, budget), count: self.count(random, self.others) }
    }

    /// What stands after a forced run, if it is accepted.
    fn ran(&self, count: u32, world: World, bounds: Option<BoundingBox>, budget: usize) -> Vec<(World, u32)> {
        let Frame { rows, cols, offset } = self.frame;
        let mut pieces = vec![1; rows * cols];
        for &(world, colour) in &self.standing {
            let Cell(row, col) = self.frame.cell(world).expect("a place on the board");
            pieces[row * cols + col] = colour + 1;
        }
        let (ones, tiles) = (vec![1; rows * cols], self.tiles.bytes());
        if refusals::forced_run(&pieces, &ones, &ones, rows, cols, tiles, count, world, offset, bounds, budget)
            .is_some()
        {
            return self.standing.clone();
        }
        let mut job = if self.greatest() > self.tiles.count() { self.tiles.job_of_all() } else { self.tiles.job() };
        let mut board = Board::with_pieces(&pieces, [rows, cols]);
        board.set_box(forced_run::text_box(bounds));
        forced_run::run_out(&mut job, &mut board, place(world), [offset.0, offset.1], budget);
        self.frame.standing(&board.pieces())
    }

    /// The board goes on if the act is accepted.
    fn follow(&mut self, act: Act) {
        let count = act.count.unwrap_or(self.tiles.count());
        let fits = (self.greatest().max(1)..=30).contains(&count);
        match act.call {
            Call::Lay(world, colour) => {
                let bare = self.frame.cell(world).is_some() && self.standing.iter().all(|piece| piece.0 != world);
                if fits && bare && (1..=count).contains(&colour) {
                    self.standing.push((world, colour));
                }
            }
            Call::Lift(world) if fits => self.standing.retain(|piece| piece.0 != world),
            Call::Clear(world) => {
                let cleared = self.frame.round(world);
                self.standing.retain(|piece| !cleared.contains(&piece.0));
            }
            Call::Widen(pads, None) if fits => self.frame = after(self.frame, pads).unwrap_or(self.frame),
            Call::RunOut(world, bounds, budget) => self.standing = self.ran(count, world, bounds, budget),
            _ => {}
        }
    }
}

/// Every run of so many calls of these, from a board at the wall's origin, with the two chequer tiles.
fn all_runs(sides: (usize, usize), calls: &[Call], number: u32, each: &mut dyn FnMut(SequenceInput)) {
    let tiles = TileList::new(vec![1, 2, 1, 2, 1, 2, 1, 2, 1, 2, 1, 2, 1, 2, 1, 2, 1, 2], 2);
    let frame = Frame { rows: sides.0, cols: sides.1, offset: Offset(0, 0) };
    for run in 0..calls.len().pow(number) {
        let call = |turn: u32| calls[run / calls.len().pow(turn) % calls.len()];
        let acts = (0..number).map(|turn| Act::plain(call(turn))).collect();
        each(SequenceInput { frame, tiles: tiles.clone(), acts });
    }
}

impl Input for SequenceInput {
    type Step = ();

    const STEPS: &'static [(&'static str, u64, ())] = &[("sequences", 150, ())];

    fn uses_tiles(_: ()) -> bool {
        true
    }

    /// A refusal is a call's answer here, and not the sequence's.
    fn shows(_: ()) -> Shows {
        Shows { answer: true, planes: true, floats: false, refusals: false, lends: true, reads: true }
    }

    /// Two of three have widenings among their acts, two of three forced runs, mostly with tiles that force much, and one of
    /// two has acts that name another count than the job's.
    fn random(_: (), random: &mut Random, tiles: &TileList) -> Self {
        let (mut rows, mut cols) = (inputs::side(random), inputs::side(random));
        if rows * cols > 200 && !random.percent(15) {
            (rows, cols) = (1 + random.below(8), 1 + random.below(8));
        }
        let frame = Frame { rows, cols, offset: inputs::offset(random) };
        let widens = random.pick(&[0, 8, 20]);
        let runs = random.pick(&[0, 8, 20]);
        let tiles = if runs > 0 && random.percent(60) { forced_run::any_forcing(random) } else { tiles.clone() };
        let mut draft = Draft::new(random, frame, &tiles);
        let mut acts = Vec::new();
        for _ in 0..1 + random.below(40) {
            let act = match random.below(100) {
                at if at < widens => draft.widening(random),
                at if at < widens + runs => draft.running(random),
                _ => draft.piece(random),
            };
            draft.follow(act);
            acts.push(act);
        }
        Self { frame, tiles, acts }
    }

    /// Every run of three calls on a 1x3 and on a 3x3 board, where a call is a lay or a lift at any cell; the colour laid
    /// goes with the cell: 1 and 2 by turns. And every run of four calls from a single cell, where a call is a lay or a lift
    /// there or at a place next to its corner, or one of five widenings; or a lay or a lift there, one of two widenings, or
    /// a forced run with one of two budgets.
    fn small(_: (), each: &mut dyn FnMut(Self)) {
        for (rows, cols) in [(1, 3), (3, 3)] {
            let places = (0..rows * cols).map(|at| (World((at / cols) as i32, (at % cols) as i32), 1 + at as u32 % 2));
            let calls: Vec<Call> =
                places.flat_map(|(world, colour)| [Call::Lay(world, colour), Call::Lift(world)]).collect();
            all_runs((rows, cols), &calls, 3, each);
        }
        let places = [(World(0, 0), 1), (World(-1, 1), 2)];
        let pads = [[1, 1, 1, 1], [1, 0, 0, 0], [0, 2, 0, 0], [0, 0, 2, 0], [0, 0, 0, 1]];
        let widenings = pads.map(|[left, right, top, bottom]| Call::Widen(Pads { left, right, top, bottom }, None));
        let pieces = places.into_iter().flat_map(|(world, colour)| [Call::Lay(world, colour), Call::Lift(world)]);
        all_runs((1, 1), &pieces.clone().chain(widenings).collect::<Vec<_>>(), 4, each);
        let runs = [1, 4_096].map(|budget| Call::RunOut(World(0, 0), None, budget));
        all_runs((1, 1), &pieces.take(2).chain(widenings.into_iter().take(2)).chain(runs).collect::<Vec<_>>(), 4, each);
    }

    /// Refused calls are among the calls already.
    fn spoil(&mut self, _: &mut Random) {}

    fn disturb(&mut self, random: &mut Random) {
        let at = random.below(self.acts.len());
        self.acts.remove(at);
        self.acts.push(Act::plain(Call::Lift(World(i32::MAX, 0))));
    }

    fn smaller(&self) -> Vec<Self> {
        let mut all = Vec::new();
        let acts = &self.acts;
        if acts.len() > 3 {
            all.push(Self { acts: acts[..acts.len() / 2].to_vec(), ..self.clone() });
            all.push(Self { acts: acts[acts.len() / 2..].to_vec(), ..self.clone() });
        }
        for at in 0..acts.len() {
            let mut fewer = acts.clone();
            fewer.remove(at);
            all.push(Self { acts: fewer, ..self.clone() });
        }
        for rows in inputs::fewer(self.frame.rows).into_iter().filter(|&rows| rows > 0) {
            all.push(Self { frame: Frame { rows, ..self.frame }, ..self.clone() });
        }
        for cols in inputs::fewer(self.frame.cols).into_iter().filter(|&cols| cols > 0) {
            all.push(Self { frame: Frame { cols, ..self.frame }, ..self.clone() });
        }
        all.extend(self.tiles.smaller().into_iter().map(|tiles| Self { tiles, ..self.clone() }));
        for (at, act) in acts.iter().enumerate() {
            all.extend(act.smaller().into_iter().map(|act| {
                let mut acts = acts.clone();
                acts[at] = act;
                Self { acts, ..self.clone() }
            }));
        }
        all
    }

    fn refusal(&self) -> Option<Refusal> {
        None
    }

    /// The answers of all calls; the board and its scores after each, and again as the board laid afresh must be.
    fn expected(&self) -> Outcome {
        let mut judge = Judge::new(self.frame, &self.tiles, self.most());
        let (mut answers, mut planes) = (Vec::new(), Vec::new());
        for (number, &act) in self.acts.iter().enumerate() {
            answers.extend(judge.act(act));
            let after = judge.planes();
            planes.extend(after.clone());
            if few(&judge.board.pieces(), number + 1 == self.acts.len()) {
                planes.extend(after);
            }
        }
        Outcome::new(Ok(answers), planes)
    }

    fn observed(&self) -> Outcome {
        let mut board = Lending::fresh(self.frame, self.tiles.bytes(), self.tiles.count(), self.most());
        let mut intact = true;
        let (mut answers, mut planes) = (Vec::new(), Vec::new());
        for (number, &act) in self.acts.iter().enumerate() {
            answers.extend(board.act(act));
            planes.extend(board.planes());
            if few(board.pieces.cells(), number + 1 == self.acts.len()) {
                let mut afresh = board.afresh();
                planes.extend(afresh.planes());
                intact &= afresh.intact();
            }
        }
        Outcome { answer: Ok(answers), planes, intact: intact && board.intact() }
    }
}

#[cfg(test)]
mod tests {
    use super::*;
    use std::cmp::Ordering::{self, Greater, Less};
    use std::collections::BTreeSet;

    /// The judge's answers to acts that name a count, by the sort of act and how the count compares with the job's.
    fn answers(input: &SequenceInput) -> Vec<(&'static str, i64, Ordering)> {
        let mut judge = Judge::new(input.frame, &input.tiles, input.most());
        let mut found = Vec::new();
        for &act in &input.acts {
            let sort = match act.call {
                Call::Lay(..) => "lay",
                Call::Lift(_) => "lift",
                Call::Clear(_) => "clear",
                Call::Widen(..) => "widen",
                Call::RunOut(..) => "run",
            };
            let answer = judge.act(act);
            if let (Some(count), Some(&Value::Whole(number))) = (act.count, answer.first()) {
                found.push((sort, number, count.cmp(&input.tiles.count())));
            }
        }
        found
    }

    /// Each sort of act is accepted under a smaller and under a larger count, and refused by COUNT and by CELL: also under a
    /// larger one, where a piece of a colour above it stands.
    #[test]
    fn other_counts_in_runs() {
        // colours 1 and 2 of three
        let tiles = TileList::new(vec![1, 2, 1, 2, 1, 2, 1, 2, 1], 3);
        let mut seen = BTreeSet::new();
        for number in 0..300 {
            seen.extend(answers(&SequenceInput::random((), &mut Random::new(&[number]), &tiles)));
        }
        let (count, cell) = (i64::from(COUNT), i64::from(CELL));
        for sort in ["lay", "lift", "widen", "run"] {
            for (answer, order) in [(0, Less), (0, Greater), (count, Greater), (cell, Less), (cell, Greater)] {
                assert!(seen.contains(&(sort, answer, order)), "{sort}: no answer {answer} under a count {order:?}");
            }
        }
    }
}
