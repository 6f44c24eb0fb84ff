//! Running out the forced pieces, document 02's request 2. The text has no such call, but it has the steps: the judge tells
//! the rule by the text's own forced neighbours, queue, listing and laying, and adds the budget and the queue's room. On
//! boards of demand 3 the lays of the run are then made once more as calls of lay, and must leave the same.

use super::board::board_planes;
use super::{Input, Shows};
use crate::calls::*;
use crate::inputs::{self, Cut, TileList};
use crate::outcome::{Lent, Outcome, Plane, Value};
use crate::random::Random;
use crate::{refusals, side};
use oracle::steps::{self, Board, Cache, Entry, Job, Place};

// ---- the rule

const QUEUE_ROOM: usize = 64;
const MOST_BUDGET: usize = 4_096;

/// What a run tells, and which entries it laid, in order.
pub struct Ran {
    end: u64,
    taken: usize,
    lays: Vec<Entry>,
}

impl Ran {
    pub fn told(&self) -> [u64; 3] {
        [self.end, self.taken as u64, self.lays.len() as u64]
    }
}

/// On a board of the text's, whose box, if it has one, is the run's.
pub fn run_out(job: &mut Job, board: &mut Board, place: Place, offset: Place, budget: usize) -> Ran {
    run_with_room(QUEUE_ROOM, job, board, place, offset, budget)
}

fn run_with_room(room: usize, job: &mut Job, board: &mut Board, place: Place, offset: Place, budget: usize) -> Ran {
    let mut queue = steps::queue_add(&[], &job.forced(board, place, offset, Cache::Kept));
    let (mut taken, mut lays) = (0, Vec::new());
    let end = loop {
        let (Some((at, colour)), rest) = steps::queue_take(&queue) else { break DONE };
        if taken == budget {
            break SPENT;
        }
        (queue, taken) = (rest, taken + 1);
        if !board.is_bare(at, offset) || job.listing(board, at, offset, Cache::Kept) != [colour] {
            continue;
        }
        job.lay(board, at, offset, colour);
        lays.push((at, colour));
        let more = steps::queue_add(&queue, &job.forced(board, at, offset, Cache::Kept));
        if more.len() > room {
            break FULL;
        }
        queue = more;
    };
    Ran { end, taken, lays }
}

/// A box as the text has it.
pub fn text_box(bounds: Option<BoundingBox>) -> Option<(Place, Place)> {
    bounds.map(|BoundingBox { min, max }| ([min.0, min.1], [max.0, max.1]))
}

/// Tiles times entries above which a run is mostly given a smaller budget: each lay asks all tiles some hundred times.
const DEAR_RUN: usize = 1 << 13;

pub fn affordable(random: &mut Random, tiles: usize, budget: usize) -> usize {
    if random.percent(1) { budget } else { budget.min(1 + DEAR_RUN / tiles) }
}

// ---- the inputs

#[derive(Clone, Copy, Debug, PartialEq)]
pub enum Step {
    Any,
    /// mostly runs in which the queue fills
    Full,
}

#[derive(Clone, Debug)]
pub struct RunInput {
    rows: usize,
    cols: usize,
    tiles: TileList,
    pieces: Vec<u32>,
    weights: Vec<u32>,
    counts: Vec<u32>,
    world: World,
    offset: Offset,
    within: bool,
    /// any numbers where there is no box
    corners: BoundingBox,
    budget: usize,
    /// the slice lent for what the run tells, of any length
    told: Vec<u64>,
}

/// Lists that force much: one plain tile; the chequer; stripes; and three under which a lay often leaves a cell that waits
/// with no colour.
const FORCING: [&[u8]; 6] = [
    &[1; 9],
    &[1, 2, 1, 2, 1, 2, 1, 2, 1, 2, 1, 2, 1, 2, 1, 2, 1, 2],
    &[1, 1, 1, 2, 2, 2, 1, 1, 1, 2, 2, 2, 1, 1, 1, 2, 2, 2],
    &[1, 1, 2, 1, 2, 1, 1, 2, 1, 1, 2, 1, 2, 1, 1, 2, 1, 1],
    &[1, 1, 1, 2, 1, 1, 1, 1, 1, 1, 1, 1, 1, 2, 2, 1, 2, 2],
    &[0, 1, 1, 2, 1, 0, 1, 0, 0, 2, 2, 0, 1, 0, 1, 0, 1, 0, 1, 1, 0, 1, 0, 1, 2, 2, 0, 1, 2, 0, 1, 1, 1, 0, 1, 0],
];

fn forcing(list: usize) -> TileList {
    TileList::new(FORCING[list].to_vec(), 2)
}

/// Now and then with more colours than the tiles have.
pub fn any_forcing(random: &mut Random) -> TileList {
    let tiles = forcing(random.below(FORCING.len()));
    if random.percent(70) { tiles } else { tiles.with_count(random.pick(&[3, 4, 30])) }
}

fn few_pieces(random: &mut Random, cells: usize) -> Vec<u32> {
    let mut pieces = vec![1; cells];
    for _ in 0..random.below(3) {
        pieces[random.below(cells)] = 2 + random.below(2) as u32;
    }
    pieces
}

/// Mostly next to a piece.
fn cell(random: &mut Random, rows: usize, cols: usize, pieces: &[u32]) -> Cell {
    let laid: Vec<usize> = (0..pieces.len()).filter(|&at| pieces[at] > 1).collect();
    if laid.is_empty() || random.percent(20) {
        return Cell(inputs::place(random, rows), inputs::place(random, cols));
    }
    let at = random.pick(&laid);
    let mut near = |at: usize, side: usize| (at as i32 + random.within(-1, 1)).clamp(0, side as i32 - 1) as usize;
    Cell(near(at / cols, rows), near(at % cols, cols))
}

/// Round the place, or with the place at its edge or outside; often some cells across.
fn corners(random: &mut Random, world: World) -> BoundingBox {
    if random.percent(50) {
        return inputs::bounds(random, world);
    }
    let mut corner = |at: i32, outward: i32| (at + outward * random.within(-1, 12)).clamp(-1_000_000, 1_000_000);
    let (min, max) = (World(corner(world.0, -1), corner(world.1, -1)), World(corner(world.0, 1), corner(world.1, 1)));
    BoundingBox { min, max }
}

fn any_corners(random: &mut Random) -> BoundingBox {
    let mut corner = || World(random.next() as i32, random.next() as i32);
    BoundingBox { min: corner(), max: corner() }
}

impl RunInput {
    /// A bare board of demand 3, with the run from its middle, no box, and the largest budget.
    fn bare(rows: usize, cols: usize, tiles: TileList) -> Self {
        let cells = rows * cols;
        let corners = BoundingBox { min: World(i32::MIN, 0), max: World(0, i32::MAX) };
        Self {
            rows,
            cols,
            pieces: vec![1; cells],
            weights: vec![1; cells],
            counts: vec![tiles.number() as u32; cells],
            tiles,
            world: World(rows as i32 / 2, cols as i32 / 2),
            offset: Offset(0, 0),
            within: false,
            corners,
            budget: MOST_BUDGET,
            told: vec![0; 3],
        }
    }

    /// With these pieces, and the weights and counts that demand 3 says of them.
    fn with_pieces(self, pieces: Vec<u32>) -> Self {
        let input = Self { pieces, ..self };
        let (weights, counts) = input.by_the_pieces();
        Self { weights, counts, ..input }
    }

    fn at(self, world: World) -> Self {
        Self { world, ..self }
    }

    fn with_budget(self, budget: usize) -> Self {
        Self { budget, ..self }
    }

    /// What the run with the largest budget takes, or one more or less; or any.
    fn telling_budget(self, random: &mut Random) -> Self {
        let most = affordable(random, self.tiles.number(), MOST_BUDGET);
        let taken = || self.clone().with_budget(most).judged().0.taken;
        let budget = match random.below(10) {
            0 => random.below(2),
            1 => random.below(MOST_BUDGET + 1),
            2 => MOST_BUDGET,
            3..=5 => taken(),
            6 => taken().saturating_sub(1),
            7 => taken() + 1,
            _ => random.below(taken() + 1),
        };
        self.with_budget(budget.min(most))
    }

    /// The offset, the box and the slice are any.
    fn placed(self, random: &mut Random, cell: Cell, boxed: usize) -> Self {
        let offset = inputs::offset(random);
        let world = inputs::world_of(cell, offset);
        let within = random.percent(boxed);
        let corners = if within { corners(random, world) } else { any_corners(random) };
        let told = (0..random.pick(&[0, 1, 2, 3, 3, 3, 4])).map(|_| random.next()).collect();
        Self { world, offset, within, corners, told, ..self }
    }

    /// With any weights and counts, or those of demand 3.
    fn with_planes(self, random: &mut Random, pieces: Vec<u32>) -> Self {
        if random.percent(40) {
            return self.with_pieces(pieces);
        }
        let weights = inputs::weights(random, &pieces, self.rows, self.cols);
        let counts = inputs::counts(random, pieces.len(), self.tiles.number());
        Self { pieces, weights, counts, ..self }
    }

    /// Two of three with a list that forces much, and of these two of three with few pieces, which leaves more to force.
    fn any(random: &mut Random, tiles: &TileList) -> Self {
        let (mut rows, mut cols) = (inputs::side(random), inputs::side(random));
        if !(6..=200).contains(&(rows * cols)) && !random.percent(5) {
            (rows, cols) = (1 + random.below(8), 2 + random.below(7));
        }
        let forces = random.percent(67);
        let tiles = if forces { any_forcing(random) } else { tiles.clone() };
        let pieces = if forces && random.percent(67) {
            few_pieces(random, rows * cols)
        } else {
            inputs::pieces(random, rows, cols, &tiles)
        };
        let cell = cell(random, rows, cols, &pieces);
        Self::bare(rows, cols, tiles).with_planes(random, pieces).placed(random, cell, 25)
    }

    fn forces_something(&self) -> bool {
        self.clone().with_budget(1).judged().0.taken == 1
    }

    /// A board on which one piece forces all others, from that piece: the queue fills, or nearly. With the plain tile some
    /// other pieces lie about.
    fn full(random: &mut Random) -> Self {
        let list = random.pick(&[0, 0, 1, 2]);
        let mut side = || if random.percent(3) { 64 } else { 17 + random.below(5) };
        let (rows, cols) = (side(), side());
        let middle = Cell(rows / 2, cols / 2);
        let mut pieces = vec![1; rows * cols];
        for _ in 0..if list == 0 { random.below(12) } else { 0 } {
            pieces[random.below(rows * cols)] = 2;
        }
        pieces[middle.0 * cols + middle.1] = 2;
        Self::bare(rows, cols, forcing(list)).with_planes(random, pieces).placed(random, middle, 10)
    }

    fn bounds(&self) -> Option<BoundingBox> {
        self.within.then_some(self.corners)
    }

    fn sides(&self) -> [usize; 2] {
        [self.rows, self.cols]
    }

    fn place(&self) -> ([i32; 2], [i32; 2]) {
        ([self.world.0, self.world.1], [self.offset.0, self.offset.1])
    }

    fn table(&self) -> Option<Refusal> {
        let Self { ref pieces, ref weights, ref counts, rows, cols, ref tiles, world, offset, budget, .. } = *self;
        let (bytes, count) = (tiles.bytes(), tiles.count());
        refusals::forced_run(pieces, weights, counts, rows, cols, bytes, count, world, offset, self.bounds(), budget)
    }

    /// The board as it is lent, with the run's box.
    fn board(&self) -> Board {
        let Self { ref pieces, ref weights, ref counts, ref tiles, .. } = *self;
        let mut board = Board::with_planes(pieces, weights, counts, self.sides(), tiles.number());
        board.set_box(text_box(self.bounds()));
        board
    }

    /// The run by the rule, and the board that it leaves.
    fn judged(&self) -> (Ran, Board) {
        let Self { ref pieces, ref tiles, budget, .. } = *self;
        let (mut board, (place, offset)) = (self.board(), self.place());
        let ran = run_out(&mut tiles.job(), &mut board, place, offset, budget);
        let bare = pieces.iter().filter(|&&stored| stored == 1).count();
        assert!(ran.end != SPENT || budget < bare, "a budget of as many entries as there are bare cells was spent");
        (ran, board)
    }

    /// Weights and counts as demand 3 says them: by the text, on a board with these pieces alone.
    fn by_the_pieces(&self) -> (Vec<u32>, Vec<u32>) {
        let laid = (0..self.pieces.len()).filter(|&at| self.pieces[at] > 1);
        let standing: Vec<Entry> =
            laid.map(|at| ([(at / self.cols) as i32, (at % self.cols) as i32], self.pieces[at] as usize - 1)).collect();
        let board = self.tiles.job().afresh(&standing, self.sides(), [0, 0]);
        (board.weights(), board.counts())
    }

    /// The cheaper question first.
    fn stands(&self) -> bool {
        self.weights == inputs::weights_of(&self.pieces, self.rows, self.cols) && self.counts == self.by_the_pieces().1
    }

    fn called(&self) -> Outcome {
        let mut tiles = Lent::new(self.tiles.bytes());
        let mut planes = [&self.pieces, &self.weights, &self.counts].map(|plane| Lent::new(plane));
        let mut told = Lent::new(&self.told);
        let [pieces, weights, counts] = planes.each_mut().map(Lent::cells_mut);
        let answer = side::forced_run(
            pieces,
            weights,
            counts,
            self.rows,
            self.cols,
            tiles.cells(),
            self.tiles.count(),
            self.world,
            self.offset,
            self.within,
            self.corners,
            self.budget,
            told.cells_mut(),
        );
        // a refused call leaves the slice for what it tells as it was
        let kept = if answer.is_ok() { told.guarded() } else { told.untouched() };
        let answer = answer.map(|()| told.cells().iter().map(|&number| Value::Whole(number as i64)).collect());
        let left = planes.each_ref().map(|plane| Plane::Words(plane.cells().to_vec())).to_vec();
        Outcome { answer, planes: left, intact: kept && tiles.untouched() && planes.iter_mut().all(Lent::guarded) }
    }

    /// What the same lays leave as calls of lay, and whether these wrote nothing else.
    fn laid(&self) -> (Vec<Plane>, bool) {
        let mut tiles = Lent::new(self.tiles.bytes());
        let mut planes = [&self.pieces, &self.weights, &self.counts].map(|plane| Lent::new(plane));
        for ([row, col], colour) in self.judged().0.lays {
            let [pieces, weights, counts] = planes.each_mut().map(Lent::cells_mut);
            let answer = side::lay(
                pieces,
                weights,
                counts,
                self.rows,
                self.cols,
                tiles.cells(),
                self.tiles.count(),
                World(row, col),
                self.offset,
                colour as u32,
            );
            assert_eq!(answer, Ok(()), "a lay of the run is refused as a call");
        }
        let left = planes.each_ref().map(|plane| Plane::Words(plane.cells().to_vec())).to_vec();
        (left, tiles.untouched() && planes.iter_mut().all(Lent::guarded))
    }

    fn spoil_place(&mut self, random: &mut Random) {
        match random.below(5) {
            0 => inputs::spoil_wall(random, &mut self.world),
            1 => inputs::spoil_offset(random, &mut self.offset),
            2 => inputs::spoil_place(random, self.rows, self.cols, &mut self.world, self.offset),
            // where there was no box these are any numbers
            3 => self.within = true,
            _ => inputs::spoil_bounds(random, &mut self.corners),
        }
    }

    fn smaller_boards(&self) -> Vec<Self> {
        let cut = |cut: Cut| {
            let (row, col, rows, cols) = cut.sides(self.rows, self.cols)?;
            let [pieces, weights, counts] =
                [&self.pieces, &self.weights, &self.counts].map(|plane| cut.plane(plane, self.rows, self.cols));
            // the same cell, if it is still there
            let offset = Offset(self.offset.0.saturating_sub(row as i32), self.offset.1.saturating_sub(col as i32));
            Some(Self { rows, cols, pieces, weights, counts, offset, ..self.clone() })
        };
        Cut::ALL.into_iter().filter_map(cut).collect()
    }
}

/// All boards of these sides with two colours and at most so many pieces, as stored.
fn boards(rows: usize, cols: usize, most: usize) -> Vec<Vec<u32>> {
    let cells = rows * cols;
    let board = |number: usize| (0..cells).map(|at| 1 + (number / 3usize.pow(at as u32) % 3) as u32).collect();
    let all = (0..3usize.pow(cells as u32)).map(board);
    all.filter(|pieces: &Vec<u32>| pieces.iter().filter(|&&stored| stored > 1).count() <= most).collect()
}

/// A board of the plain tile whose bare cells are one lane, a cell wide, to and fro over all 64 rows. The tile fits everywhere.
fn lane() -> RunInput {
    let wall = |row: usize, col: usize| row % 2 == 1 && col != if row % 4 == 1 { 63 } else { 0 };
    let pieces: Vec<u32> = (0..64 * 64).map(|at| if wall(at / 64, at % 64) { 2 } else { 1 }).collect();
    let weights = inputs::weights_of(&pieces, 64, 64);
    RunInput { pieces, weights, ..RunInput::bare(64, 64, forcing(0)) }.at(World(0, 0))
}

/// A board in which the last adding has just one entry too many: with one entry less of room, or one more, it ends otherwise.
fn one_too_many() -> RunInput {
    RunInput::bare(17, 18, forcing(0)).with_budget(226)
}

/// Runs on the largest boards: four in which the queue fills, with offsets at their limits and from the wall's last corner,
/// and with weights at theirs; and a long one that ends done. Each with a budget of what it takes, and one short of it.
fn extremes(each: &mut dyn FnMut(RunInput)) {
    let plain = || RunInput::bare(64, 64, forcing(0));
    let far = |offset: i32, cell: i32| RunInput {
        world: World(cell - offset, cell - offset),
        offset: Offset(offset, offset),
        ..plain()
    };
    let heavy = RunInput { weights: vec![4_000_000_000; 64 * 64], ..plain() };
    for (input, taken) in
        [(plain(), 226), (far(-999_937, 63), 901), (far(1_000_000, 32), 226), (heavy, 226), (lane(), 2_080)]
    {
        each(input.clone().with_budget(taken - 1));
        each(input.with_budget(taken));
    }
    for budget in [0, 1, MOST_BUDGET, MOST_BUDGET + 1, usize::MAX] {
        each(plain().with_budget(budget));
    }
}

impl Input for RunInput {
    type Step = Step;

    const STEPS: &'static [(&'static str, u64, Step)] = &[("forced-run", 200, Step::Any), ("full-run", 10, Step::Full)];

    fn uses_tiles(step: Step) -> bool {
        step == Step::Any
    }

    /// The answer is the slice lent for what the run tells. Full runs are dear, and are compared as the others are: they have
    /// few mutants, and no faults.
    fn shows(step: Step) -> Shows {
        let any = step == Step::Any;
        Shows { answer: true, planes: true, floats: false, refusals: any, lends: any, reads: any }
    }

    fn random(step: Step, random: &mut Random, tiles: &TileList) -> Self {
        match step {
            Step::Any => {
                let mut input = Self::any(random, tiles);
                for _ in 0..4 {
                    if !input.forces_something() {
                        input = Self::any(random, tiles);
                    }
                }
                input.telling_budget(random)
            }
            Step::Full => Self::full(random).telling_budget(random),
        }
    }

    /// All boards of the smallest sides with two colours over the lists that force, and those of 3x3 with at most two pieces;
    /// every place of each, with a box round it or none, and budgets by turns. Of full runs the one that tells most, and the
    /// extremes.
    fn small(step: Step, each: &mut dyn FnMut(Self)) {
        if step == Step::Full {
            each(one_too_many());
            return extremes(each);
        }
        let mut turn = 0;
        for tiles in (0..FORCING.len()).map(forcing) {
            for (rows, cols, most) in [(1, 1, 1), (1, 3, 3), (3, 1, 3), (2, 2, 4), (2, 3, 6), (3, 3, 2)] {
                for pieces in boards(rows, cols, most) {
                    let board = Self::bare(rows, cols, tiles.clone()).with_pieces(pieces);
                    for at in 0..rows * cols {
                        let world = World((at / cols) as i32, (at % cols) as i32);
                        let corners = BoundingBox { min: World(0, world.1), max: World(world.0, 2) };
                        let (within, budget) = (turn % 7 < 2, [0, 1, 2, 3, 9, MOST_BUDGET][turn % 6]);
                        each(Self { within, corners, budget, ..board.clone() }.at(world));
                        turn += 1 + usize::from(at == 0);
                    }
                }
            }
        }
    }

    fn spoil(&mut self, random: &mut Random) {
        let past_colours = self.tiles.count().saturating_add(2);
        let past_tiles = self.tiles.number() as u32 + 1;
        match random.below(14) {
            0 if random.percent(50) => inputs::spoil_side(random, &mut self.rows),
            0 => inputs::spoil_side(random, &mut self.cols),
            // the fourth and the fifth are small in 32 bits
            1 => self.budget = random.pick(&[4_097, 4_098, usize::MAX, 1 << 32, (1 << 32) + 5, 1 << 63]),
            2 => inputs::spoil_length(random, &mut self.pieces, 1),
            3 => inputs::spoil_length(random, &mut self.weights, 1),
            4 => inputs::spoil_length(random, &mut self.counts, 0),
            5 => self.tiles.spoil(random),
            6 => inputs::spoil_cell(random, &mut self.pieces, &[0, past_colours, u32::MAX]),
            7 => inputs::spoil_cell(random, &mut self.weights, &[4_000_000_001, u32::MAX]),
            8 => inputs::spoil_cell(random, &mut self.counts, &[past_tiles, u32::MAX]),
            _ => self.spoil_place(random),
        }
    }

    fn disturb(&mut self, random: &mut Random) {
        let at = random.below(self.pieces.len());
        match random.below(3) {
            0 => self.pieces[at] = if self.pieces[at] == 1 { 2 } else { 1 },
            1 => self.weights[at] = if self.weights[at] < 2 { 2 } else { 1 },
            _ => self.budget = if self.budget == 0 { 1 } else { self.budget - 1 },
        }
    }

    fn smaller(&self) -> Vec<Self> {
        let mut all = self.smaller_boards();
        all.extend(self.tiles.smaller().into_iter().map(|tiles| {
            let most = tiles.number() as u32;
            let counts = self.counts.iter().map(|&count| count.min(most)).collect();
            Self { tiles, counts, ..self.clone() }
        }));
        all.extend(inputs::fewer(self.budget).into_iter().map(|budget| self.clone().with_budget(budget)));
        all.extend(self.within.then(|| Self { within: false, ..self.clone() }));
        all.extend(inputs::plainer(&self.pieces, 1).into_iter().map(|pieces| Self { pieces, ..self.clone() }));
        all.extend(inputs::plainer(&self.weights, 1).into_iter().map(|weights| Self { weights, ..self.clone() }));
        all.extend(inputs::plainer(&self.counts, 0).into_iter().map(|counts| Self { counts, ..self.clone() }));
        for (world, offset) in inputs::plainer_places(self.world, self.offset) {
            all.push(Self { world, offset, ..self.clone() });
        }
        all.extend(inputs::plainer(&self.told, 0).into_iter().map(|told| Self { told, ..self.clone() }));
        all
    }

    fn refusal(&self) -> Option<Refusal> {
        self.table()
    }

    fn expected(&self) -> Outcome {
        let lent = [&self.pieces, &self.weights, &self.counts].map(|plane| Plane::Words(plane.clone()));
        if let Some(number) = self.table() {
            return Outcome::new(Err(number), lent.to_vec());
        }
        let (ran, board) = self.judged();
        let mut told = self.told.clone();
        told.iter_mut().zip(ran.told()).for_each(|(entry, number)| *entry = number);
        let answer = told.into_iter().map(|number| Value::Whole(number as i64)).collect();
        let mut planes = board_planes(&board);
        if self.stands() {
            planes.extend(planes.clone());
        }
        Outcome::new(Ok(answer), planes)
    }

    /// The call once and again, since it is to keep nothing; then its lays as calls.
    fn observed(&self) -> Outcome {
        let mut outcome = self.called();
        assert!(self.called() == outcome, "the same call a second time does otherwise");
        if outcome.answer.is_ok() && self.table().is_none() && self.stands() {
            let (laid, intact) = self.laid();
            outcome.planes.extend(laid);
            outcome.intact &= intact;
        }
        outcome
    }
}

#[cfg(test)]
mod tests {
    use super::*;

    fn told(input: &RunInput) -> [u64; 3] {
        input.judged().0.told()
    }

    /// Chequer 3x3 with a 1 in the middle: all eight others are forced.
    #[test]
    fn the_rule_by_hand() {
        let run = |pieces: [u32; 9], budget| {
            RunInput::bare(3, 3, forcing(1)).with_pieces(pieces.to_vec()).with_budget(budget)
        };
        let middle = [1, 1, 1, 1, 2, 1, 1, 1, 1];
        assert_eq!(told(&run(middle, 8)), [DONE, 8, 8]);
        assert_eq!(told(&run(middle, 7)), [SPENT, 7, 7]);
        assert_eq!(told(&run(middle, 0)), [SPENT, 0, 0]);
        assert_eq!(told(&run([1; 9], 0)), [DONE, 0, 0]);
        let (_, board) = run(middle, 3).judged();
        assert_eq!(board.pieces(), [2, 3, 2, 1, 2, 1, 1, 1, 1]);
        // first in, first out: after the three of the first row comes the middle row's first
        let (_, board) = run(middle, 4).judged();
        assert_eq!(board.pieces(), [2, 3, 2, 3, 2, 1, 1, 1, 1]);
        // a box of the first two columns, also for what is queued later
        let corners = BoundingBox { min: World(-5, 0), max: World(2, 1) };
        let boxed = RunInput { within: true, corners, ..run(middle, 4_096) };
        assert_eq!(told(&boxed), [DONE, 5, 5]);
        assert_eq!(boxed.judged().1.pieces(), [2, 3, 1, 3, 2, 1, 2, 3, 1]);
    }

    /// Three cells in a row that list 1 each: with the first and then the third laid, the one between, queued by the
    /// first, lists nothing any more.
    #[test]
    fn a_dead_cell_is_dropped() {
        let input = RunInput::bare(1, 3, forcing(3)).at(World(0, 1));
        let (ran, board) = input.judged();
        assert_eq!(ran.told(), [DONE, 3, 2]);
        assert_eq!(board.pieces(), [2, 1, 2]);
    }

    /// Full is said over spent, and with 64 entries of room, no more and no less.
    #[test]
    fn the_queue_fills() {
        let input = one_too_many();
        assert_eq!(told(&input), [FULL, 226, 226]);
        assert_eq!(told(&input.clone().with_budget(225)), [SPENT, 225, 225]);
        let with_room = |room| {
            let (mut board, (place, offset)) = (input.board(), input.place());
            run_with_room(room, &mut input.tiles.job(), &mut board, place, offset, MOST_BUDGET).told()
        };
        assert_eq!([63, 64, 65].map(with_room), [[FULL, 211, 211], [FULL, 226, 226], [DONE, 306, 306]]);
    }

    /// Among few random inputs: every end, with drops and without, in a box and on boards of demand 3, and budgets that are
    /// just enough and one short.
    #[test]
    fn telling_inputs() {
        let (mut ends, mut tiles) = ([[0; 2]; 3], forcing(0));
        let (mut boxed, mut stood, mut short, mut empty) = (0, 0, 0, 0);
        for number in 0..120 {
            if number % 20 == 0 {
                tiles = inputs::tile_list(&mut Random::new(&[number]));
            }
            let input = RunInput::random(Step::Any, &mut Random::new(&[number]), &tiles);
            let Ran { end, taken, lays } = input.judged().0;
            ends[end as usize][usize::from(taken > lays.len())] += 1;
            boxed += u32::from(input.within && taken > 8);
            stood += u32::from(lays.len() > 1 && input.stands());
            short += u32::from(end == SPENT && input.clone().with_budget(input.budget + 1).judged().0.end == DONE);
            empty += u32::from(end == DONE && taken == input.budget);
        }
        let [[done, dropped], [spent, _], _] = ends;
        let least = [done, dropped, spent, boxed, stood, short, empty];
        assert!(least.iter().all(|&found| found >= 2), "{least:?}");
    }
}
