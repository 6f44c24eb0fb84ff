//! Fit counts, fractions, listing, forced neighbours, scan; weights, recount, fresh; the desk's fitting colours, lay and
//! lift; the two scores.

use super::{Input, Shows};
use crate::calls::*;
use crate::inputs::{self, Cut, TileList};
use crate::outcome::{Lent, Outcome, Plane, Value};
use crate::random::Random;
use crate::record::Parts;
use crate::{refusals, side};
use oracle::steps::{self, Board, Cache};

#[derive(Clone, Copy, Debug, PartialEq)]
pub enum Step {
    RegionCount,
    Fraction,
    Listing,
    Forced,
    BoxedForced,
    Scan,
    Raise,
    Lower,
    Recount,
    Fresh,
    FittingColours,
    Lay,
    Lift,
    LayScore,
    LiftScore,
}

impl Step {
    fn pieces(self) -> bool {
        !matches!(self, Step::Fraction | Step::Raise | Step::Lower | Step::LayScore | Step::LiftScore)
    }
    fn weights(self) -> bool {
        matches!(self, Step::Scan | Step::Raise | Step::Lower | Step::Fresh | Step::Lay | Step::Lift)
    }
    fn counts(self) -> bool {
        self.scores() || matches!(self, Step::Fraction | Step::Recount | Step::Fresh | Step::Lay | Step::Lift)
    }
    fn scores(self) -> bool {
        matches!(self, Step::LayScore | Step::LiftScore)
    }
    fn tiles(self) -> bool {
        self.pieces() && self != Step::Fresh
    }
    /// a number of tiles without a list
    fn number(self) -> bool {
        self.scores() || matches!(self, Step::Fraction | Step::Fresh)
    }
    fn spot(self) -> bool {
        !matches!(self, Step::RegionCount | Step::Fraction | Step::Scan | Step::Fresh | Step::LiftScore)
    }
    fn cell(self) -> bool {
        matches!(self, Step::RegionCount | Step::Fraction)
    }
}

/// What a step does not use is empty or 0.
#[derive(Clone, Debug)]
pub struct BoardInput {
    step: Step,
    rows: usize,
    cols: usize,
    tiles: TileList,
    number: usize,
    pieces: Vec<u32>,
    weights: Vec<u32>,
    counts: Vec<u32>,
    scores: Vec<f64>,
    world: World,
    offset: Offset,
    bounds: Option<BoundingBox>,
    cell: Cell,
    colour: u32,
    row_span: Span,
    col_span: Span,
}

/// On a board's side: whole, empty, or any.
pub fn span(random: &mut Random, side: usize) -> Span {
    let end = match random.below(4) {
        0 => side,
        _ => random.below(side + 1),
    };
    match random.below(5) {
        0 => Span(0, side),
        // empty, the start past the end
        1 => Span(random.pick(&[end, side, 64, usize::MAX]), end),
        _ => Span(random.below(end + 1), end),
    }
}

fn whole(number: usize) -> Vec<Value> {
    vec![Value::Whole(number as i64)]
}

/// All eight entries, unused ones 0, and the length.
fn forced_values(found: &ForcedPositions) -> Vec<Value> {
    let entry = |e: &ForcedPosition| [i64::from(e.coordinates.0), i64::from(e.coordinates.1), i64::from(e.colour)];
    found.entries.iter().flat_map(entry).chain([found.len as i64]).map(Value::Whole).collect()
}

fn of_text(forced: &[(steps::Place, usize)]) -> ForcedPositions {
    let mut found = ForcedPositions { entries: [NO_POSITION; 8], len: forced.len() };
    for (entry, &([row, col], colour)) in found.entries.iter_mut().zip(forced) {
        *entry = ForcedPosition { coordinates: World(row, col), colour: colour as u32 };
    }
    found
}

impl BoardInput {
    fn empty(step: Step, rows: usize, cols: usize, tiles: &TileList) -> Self {
        Self {
            step,
            rows,
            cols,
            tiles: tiles.clone(),
            number: 0,
            pieces: Vec::new(),
            weights: Vec::new(),
            counts: Vec::new(),
            scores: Vec::new(),
            world: World(0, 0),
            offset: Offset(0, 0),
            bounds: None,
            cell: Cell(0, 0),
            colour: 0,
            row_span: Span(0, 0),
            col_span: Span(0, 0),
        }
    }

    fn place(&self) -> ([i32; 2], [i32; 2]) {
        ([self.world.0, self.world.1], [self.offset.0, self.offset.1])
    }

    /// The planes that the step may write.
    fn planes(&self) -> Vec<Plane> {
        let words = |plane: &Vec<u32>| Plane::Words(plane.clone());
        match self.step {
            Step::Raise | Step::Lower => vec![words(&self.weights)],
            Step::Recount => vec![words(&self.counts)],
            Step::Fresh | Step::Lay | Step::Lift => {
                vec![words(&self.pieces), words(&self.weights), words(&self.counts)]
            }
            Step::LayScore | Step::LiftScore => vec![Plane::floats(&self.scores)],
            _ => Vec::new(),
        }
    }

    fn table(&self) -> Option<Refusal> {
        let Self { step, rows, cols, ref tiles, number, ref pieces, ref weights, ref counts, ref scores, .. } = *self;
        let Self { world, offset, bounds, cell, colour, row_span, col_span, .. } = *self;
        let (bytes, count) = (tiles.bytes(), tiles.count());
        match step {
            Step::RegionCount => refusals::region_count(pieces, rows, cols, bytes, count, cell),
            Step::Fraction => refusals::fraction(counts, rows, cols, number, cell),
            Step::Listing | Step::FittingColours | Step::Forced | Step::BoxedForced => {
                refusals::listing(pieces, rows, cols, bytes, count, world, offset, bounds)
            }
            Step::Scan => refusals::scan(pieces, weights, rows, cols, bytes, count),
            Step::Raise | Step::Lower => refusals::weights(weights, rows, cols, world, offset),
            Step::Recount => refusals::recount(counts, pieces, rows, cols, bytes, count, world, offset),
            Step::Fresh => refusals::fresh(pieces, weights, counts, rows, cols, number),
            Step::Lay | Step::Lift => {
                let colour = (step == Step::Lay).then_some(colour);
                refusals::lay_or_lift(pieces, weights, counts, rows, cols, bytes, count, world, offset, colour)
            }
            Step::LayScore => refusals::lay_score(scores, counts, rows, cols, number, world, offset),
            Step::LiftScore => refusals::lift_score(scores, counts, rows, cols, number, row_span, col_span),
        }
    }

    /// The oracle's answer to an accepted input. Where the text can be asked in several ways, all are, and must agree:
    /// with a new cache, the kept one and none (there with an index on demand), by both recounts, with two offsets where
    /// the offset cancels out.
    fn accepted(&self) -> (Vec<Value>, Vec<Plane>) {
        let sides = [self.rows, self.cols];
        let (world, offset) = self.place();
        let cell = [self.cell.0, self.cell.1];
        match self.step {
            Step::RegionCount => (whole(self.tiles.job().region_count(&self.pieces, sides, cell)), Vec::new()),
            Step::Fraction => (vec![Value::Float(steps::fraction(&self.counts, sides, self.number, cell))], Vec::new()),
            Step::Listing | Step::FittingColours => {
                let board = Board::with_pieces(&self.pieces, sides);
                let mut job = self.tiles.job();
                let listed = job.listing(&board, world, offset, Cache::New);
                assert_eq!(listed, job.listing(&board, world, offset, Cache::Kept), "the cache changed a listing");
                let board = uncached::steps::Board::with_pieces(&self.pieces, sides);
                let bare = self.tiles.uncached_job().listing(&board, world, offset, uncached::steps::Cache::New);
                assert_eq!(listed, bare, "the cache or the index on demand changed a listing");
                let bits = listed.iter().fold(0, |bits, colour| bits | 1i64 << (colour - 1));
                let mut answer = vec![Value::Whole(bits)];
                if self.step == Step::Listing {
                    answer.push(Value::Whole(i64::from(self.tiles.count())));
                }
                (answer, Vec::new())
            }
            Step::Forced | Step::BoxedForced => {
                let bounds = self.bounds.map(|b| ([b.min.0, b.min.1], [b.max.0, b.max.1]));
                let mut board = Board::with_pieces(&self.pieces, sides);
                board.set_box(bounds);
                let mut job = self.tiles.job();
                let forced = job.forced(&board, world, offset, Cache::New);
                assert_eq!(forced, job.forced(&board, world, offset, Cache::Kept), "the cache changed what is forced");
                let mut board = uncached::steps::Board::with_pieces(&self.pieces, sides);
                board.set_box(bounds);
                let bare = self.tiles.uncached_job().forced(&board, world, offset, uncached::steps::Cache::New);
                assert_eq!(forced, bare, "the cache or the index on demand changed what is forced");
                (forced_values(&of_text(&forced)), Vec::new())
            }
            Step::Scan => {
                let mut board = Board::with_pieces(&self.pieces, sides);
                board.set_weights(&self.weights);
                let mut job = self.tiles.job();
                let found = job.scan(&board, offset, Cache::New);
                assert_eq!(found, job.scan(&board, [0, 0], Cache::Kept), "the cache or the offset changed a scan");
                let mut board = uncached::steps::Board::with_pieces(&self.pieces, sides);
                board.set_weights(&self.weights);
                let bare = self.tiles.uncached_job().scan(&board, offset, uncached::steps::Cache::New);
                assert_eq!(found, bare, "the cache or the index on demand changed a scan");
                (scan_values(found.map(|[row, col]| Cell(row, col))), Vec::new())
            }
            Step::Raise => {
                let raised = steps::raise_weights(&self.weights, sides, world, offset);
                (Vec::new(), vec![Plane::Words(raised)])
            }
            Step::Lower => {
                let lowered = steps::lower_weights(&self.weights, sides, world, offset);
                (Vec::new(), vec![Plane::Words(lowered)])
            }
            Step::Recount => {
                let plain = vec![1; self.pieces.len()];
                let board = || Board::with_planes(&self.pieces, &plain, &self.counts, sides, self.tiles.number());
                let (mut laying, mut lifting) = (board(), board());
                let mut job = self.tiles.job();
                job.recount_as_laying(&mut laying, world, offset);
                job.recount(&mut lifting, world, offset);
                assert_eq!(laying.counts(), lifting.counts(), "the text's two recounts differ");
                (Vec::new(), vec![Plane::Words(laying.counts())])
            }
            Step::Fresh => {
                let board = Board::fresh(sides, self.number);
                (Vec::new(), board_planes(&board))
            }
            Step::Lay | Step::Lift => {
                let number = self.tiles.number();
                let mut board = Board::with_planes(&self.pieces, &self.weights, &self.counts, sides, number);
                let mut job = self.tiles.job();
                if self.step == Step::Lay {
                    job.lay(&mut board, world, offset, self.colour as usize);
                } else {
                    job.lift(&mut board, world, offset);
                }
                (Vec::new(), board_planes(&board))
            }
            Step::LayScore => {
                let scores = steps::lay_score(&self.scores, &self.counts, sides, self.number, world, offset);
                (Vec::new(), vec![Plane::floats(&scores)])
            }
            Step::LiftScore => {
                let (rows, cols) = (self.row_span.0..self.row_span.1, self.col_span.0..self.col_span.1);
                let scores = steps::lift_score(&self.scores, &self.counts, sides, self.number, rows, cols);
                (Vec::new(), vec![Plane::floats(&scores)])
            }
        }
    }
}

pub fn board_planes(board: &Board) -> Vec<Plane> {
    vec![Plane::Words(board.pieces()), Plane::Words(board.weights()), Plane::Words(board.counts())]
}

/// Nowhere is -1.
fn scan_values(found: Option<Cell>) -> Vec<Value> {
    found.map_or_else(|| vec![Value::Whole(-1)], |cell| vec![Value::Whole(cell.0 as i64), Value::Whole(cell.1 as i64)])
}

impl Input for BoardInput {
    type Step = Step;

    const STEPS: &'static [(&'static str, u64, Step)] = &[
        ("region-count", 500, Step::RegionCount),
        ("fraction", 300, Step::Fraction),
        ("listing", 1000, Step::Listing),
        ("forced", 500, Step::Forced),
        ("boxed-forced", 500, Step::BoxedForced),
        ("scan", 200, Step::Scan),
        ("weights-up", 400, Step::Raise),
        ("weights-down", 400, Step::Lower),
        ("recount", 400, Step::Recount),
        ("fresh", 100, Step::Fresh),
        ("fitting-colours", 500, Step::FittingColours),
        ("lay", 500, Step::Lay),
        ("lift", 500, Step::Lift),
        ("lay-score", 400, Step::LayScore),
        ("lift-score", 400, Step::LiftScore),
    ];

    fn uses_tiles(step: Step) -> bool {
        step.tiles()
    }

    fn shows(step: Step) -> Shows {
        match step {
            Step::RegionCount
            | Step::Fraction
            | Step::Listing
            | Step::Forced
            | Step::BoxedForced
            | Step::Scan
            | Step::FittingColours => {
                Shows { answer: true, planes: false, floats: false, refusals: true, lends: true, reads: true }
            }
            _ => {
                let reads = !matches!(step, Step::Raise | Step::Lower | Step::Fresh);
                Shows { answer: false, planes: true, floats: step.scores(), refusals: true, lends: true, reads }
            }
        }
    }

    fn random(step: Step, random: &mut Random, tiles: &TileList) -> Self {
        let (rows, cols) = (inputs::side(random), inputs::side(random));
        let cells = rows * cols;
        let mut input = Self::empty(step, rows, cols, tiles);
        if step.number() {
            input.number = inputs::tile_number(random);
        }
        if step == Step::Fresh {
            // planes that the call fills whole: their old contents are garbage
            let garbage = |random: &mut Random| (0..cells).map(|_| random.next() as u32).collect();
            (input.pieces, input.weights, input.counts) = (garbage(random), garbage(random), garbage(random));
            return input;
        }
        let pieces = if step.tiles() { inputs::pieces(random, rows, cols, tiles) } else { vec![1; cells] };
        if step.weights() {
            input.weights = inputs::weights(random, &pieces, rows, cols);
        }
        if step.counts() {
            let number = if step.tiles() { tiles.number() } else { input.number };
            input.counts = inputs::counts(random, cells, number);
        }
        if step.scores() {
            input.scores = inputs::floats(random, cells, false);
        }
        input.offset = inputs::offset(random);
        if step.pieces() {
            input.pieces = pieces;
        }
        let mut cell = Cell(inputs::place(random, rows), inputs::place(random, cols));
        // next to a piece there is more to see than far from all
        let laid: Vec<usize> = (0..input.pieces.len()).filter(|&at| input.pieces[at] > 1).collect();
        if !laid.is_empty() && random.percent(50) {
            let at = random.pick(&laid);
            let near = |random: &mut Random, at: usize, side: usize| {
                (at as i32 + random.within(-2, 2)).clamp(0, side as i32 - 1) as usize
            };
            cell = Cell(near(random, at / cols, rows), near(random, at % cols, cols));
        }
        match step {
            Step::Lay => {
                input.pieces[cell.0 * cols + cell.1] = 1;
                input.colour = match random.below(3) {
                    0 => random.pick(&[1, tiles.count()]),
                    _ => 1 + random.below(tiles.count() as usize) as u32,
                };
            }
            Step::Lift => {
                let stored = &mut input.pieces[cell.0 * cols + cell.1];
                if *stored == 1 {
                    *stored = 2 + random.below(tiles.count() as usize) as u32;
                }
            }
            Step::BoxedForced => {
                input.bounds = Some(inputs::bounds(random, inputs::world_of(cell, input.offset)));
            }
            Step::LiftScore => (input.row_span, input.col_span) = (span(random, rows), span(random, cols)),
            _ => {}
        }
        if step.cell() {
            input.cell = cell;
        }
        if step.spot() {
            input.world = inputs::world_of(cell, input.offset);
        }
        input
    }

    /// All boards to 2x3 with two colours over several tile lists, and but for the desk's steps all 3x3 boards over two;
    /// every cell of each.
    fn small(step: Step, each: &mut dyn FnMut(Self)) {
        let desk = matches!(step, Step::FittingColours | Step::Lay | Step::Lift);
        if !desk && !matches!(step, Step::RegionCount | Step::Listing | Step::Forced | Step::Scan) {
            return;
        }
        let chequer = vec![1, 2, 1, 2, 1, 2, 1, 2, 1, 2, 1, 2, 1, 2, 1, 2, 1, 2];
        let lists = [
            chequer,
            vec![1, 2, 0, 2, 1, 0, 0, 0, 0],
            steps::extract(&[1, 1, 2, 1, 2, 2, 1, 1, 1, 1, 2, 1, 2, 2, 1, 1], [4, 4], true, true),
            vec![1; 9],
            vec![0; 9],
        ]
        .map(|bytes| TileList::new(bytes, 2));
        let all_boards = |rows: usize, cols: usize, tiles: &TileList, each: &mut dyn FnMut(BoardInput)| {
            let cells = rows * cols;
            for number in 0..3usize.pow(cells as u32) {
                let mut rest = number;
                let pieces: Vec<u32> = (0..cells)
                    .map(|_| {
                        let stored = 1 + (rest % 3) as u32;
                        rest /= 3;
                        stored
                    })
                    .collect();
                let mut input = Self::empty(step, rows, cols, tiles);
                if step.weights() {
                    input.weights = inputs::weights_of(&pieces, rows, cols);
                }
                if step.counts() {
                    input.counts = vec![tiles.number() as u32; cells];
                }
                input.pieces = pieces;
                if step == Step::Scan {
                    each(input.clone());
                    input.weights = vec![2; cells];
                    each(input);
                    continue;
                }
                for at in 0..cells {
                    let mut input = input.clone();
                    if step.cell() {
                        input.cell = Cell(at / cols, at % cols);
                    } else {
                        input.world = World((at / cols) as i32, (at % cols) as i32);
                    }
                    input.colour = if step == Step::Lay { 1 + at as u32 % 2 } else { 0 };
                    each(input);
                }
            }
        };
        for (rows, cols) in [(1, 1), (1, 2), (2, 1), (1, 3), (3, 1), (2, 2), (2, 3), (3, 2)] {
            for tiles in &lists {
                all_boards(rows, cols, tiles, each);
            }
        }
        if !desk {
            all_boards(3, 3, &lists[0], each);
            all_boards(3, 3, &lists[2], each);
        }
    }

    fn spoil(&mut self, random: &mut Random) {
        let step = self.step;
        let number = if step.tiles() { self.tiles.number() } else { self.number };
        // a fault that the step has no place for is put elsewhere
        for _ in 0..50 {
            match random.below(16) {
                0 if random.percent(50) => inputs::spoil_side(random, &mut self.rows),
                0 => inputs::spoil_side(random, &mut self.cols),
                1 if step.pieces() => inputs::spoil_length(random, &mut self.pieces, 1),
                2 if step.weights() => inputs::spoil_length(random, &mut self.weights, 1),
                3 if step.counts() => inputs::spoil_length(random, &mut self.counts, 0),
                4 if step.scores() => inputs::spoil_length(random, &mut self.scores, 0.0),
                5 if step.tiles() => self.tiles.spoil(random),
                6 if step.number() => self.number = random.pick(&[0, 7_201, 1 << 32, usize::MAX]),
                7 if step.pieces() => {
                    let past = self.tiles.count().saturating_add(2);
                    inputs::spoil_cell(random, &mut self.pieces, &[0, past, u32::MAX]);
                }
                8 if step.weights() => {
                    inputs::spoil_cell(random, &mut self.weights, &[4_000_000_001, u32::MAX]);
                }
                9 if step.counts() => {
                    let past = u32::try_from(number).unwrap_or(u32::MAX).saturating_add(1);
                    inputs::spoil_cell(random, &mut self.counts, &[past, u32::MAX]);
                }
                10 if step.scores() => inputs::spoil_float(random, &mut self.scores),
                11 if step.spot() => match random.below(3) {
                    0 => inputs::spoil_wall(random, &mut self.world),
                    1 => inputs::spoil_offset(random, &mut self.offset),
                    _ => inputs::spoil_place(random, self.rows, self.cols, &mut self.world, self.offset),
                },
                12 if step.cell() => {
                    let bad = random.pick(&[self.rows, self.cols, 64, 65, usize::MAX]);
                    if random.percent(50) { self.cell.0 = bad } else { self.cell.1 = bad }
                }
                13 if step == Step::BoxedForced => {
                    if let Some(bounds) = &mut self.bounds {
                        inputs::spoil_bounds(random, bounds);
                    }
                }
                14 if step == Step::Lay || step == Step::Lift => {
                    if step == Step::Lay && random.percent(50) {
                        self.colour = random.pick(&[0, self.tiles.count().saturating_add(1), 255, u32::MAX]);
                    } else if let Some(Cell(row, col)) =
                        refusals::cell_of(self.rows, self.cols, self.world, self.offset)
                        && let Some(stored) =
                            row.checked_mul(self.cols).and_then(|at| self.pieces.get_mut(at.saturating_add(col)))
                    {
                        *stored = if step == Step::Lay { 2 } else { 1 };
                    }
                }
                15 if step == Step::LiftScore => {
                    let past = random.pick(&[self.rows.saturating_add(1), self.cols.saturating_add(1), usize::MAX]);
                    if random.percent(50) { self.row_span.1 = past } else { self.col_span.1 = past }
                }
                _ => continue,
            }
            return;
        }
    }

    fn lend_nans(&mut self, random: &mut Random) {
        if self.step.scores() {
            let refused = self.table();
            inputs::put_nans_if_refused(random, &mut self.scores, refused);
        }
    }

    fn disturb(&mut self, random: &mut Random) {
        let step = self.step;
        for _ in 0..50 {
            match random.below(6) {
                0 if step.tiles() => self.tiles.disturb(random),
                1 if step.tiles() => {
                    let at = random.below(self.pieces.len());
                    let stored = self.pieces[at];
                    let count = self.tiles.count();
                    // where the piece stands or is to stand is left as it is
                    let own = refusals::cell_of(self.rows, self.cols, self.world, self.offset)
                        .map(|cell| cell.0 * self.cols + cell.1);
                    if own != Some(at) {
                        self.pieces[at] = if stored == 1 { 1 + count } else { 1 };
                    }
                }
                2 if step.counts() && step != Step::Fresh => {
                    let at = random.below(self.counts.len());
                    self.counts[at] = if self.counts[at] == 0 { 1 } else { 0 };
                }
                3 if step.weights() && step != Step::Fresh => {
                    let at = random.below(self.weights.len());
                    self.weights[at] = if self.weights[at] < 2 { 2 } else { 1 };
                }
                4 if step.cell() => {
                    self.cell = Cell(random.below(self.rows), random.below(self.cols));
                }
                5 if step.number() => self.number = self.number % 7_200 + 1,
                _ => continue,
            }
            return;
        }
    }

    fn smaller(&self) -> Vec<Self> {
        let mut all = Vec::new();
        for cut in Cut::ALL {
            if let Some((row, col, rows, cols)) = cut.sides(self.rows, self.cols) {
                let words = |plane: &Vec<u32>| cut.plane(plane, self.rows, self.cols);
                all.push(Self {
                    rows,
                    cols,
                    pieces: words(&self.pieces),
                    weights: words(&self.weights),
                    counts: words(&self.counts),
                    scores: cut.plane(&self.scores, self.rows, self.cols),
                    // the same cell, if it is still there
                    offset: Offset(self.offset.0.saturating_sub(row as i32), self.offset.1.saturating_sub(col as i32)),
                    cell: Cell(self.cell.0.saturating_sub(row), self.cell.1.saturating_sub(col)),
                    row_span: Span(self.row_span.0.saturating_sub(row), self.row_span.1.min(rows)),
                    col_span: Span(self.col_span.0.saturating_sub(col), self.col_span.1.min(cols)),
                    ..self.clone()
                });
            }
        }
        if self.step.tiles() {
            all.extend(self.tiles.smaller().into_iter().map(|tiles| {
                let most = tiles.number() as u32;
                let counts = self.counts.iter().map(|&count| count.min(most)).collect();
                Self { tiles, counts, ..self.clone() }
            }));
        }
        all.extend(inputs::plainer(&self.pieces, 1).into_iter().map(|pieces| Self { pieces, ..self.clone() }));
        all.extend(inputs::plainer(&self.weights, 1).into_iter().map(|weights| Self { weights, ..self.clone() }));
        all.extend(inputs::plainer(&self.counts, 0).into_iter().map(|counts| Self { counts, ..self.clone() }));
        all.extend(inputs::plainer(&self.scores, 0.0).into_iter().map(|scores| Self { scores, ..self.clone() }));
        if self.step.spot() {
            for (world, offset) in inputs::plainer_places(self.world, self.offset) {
                all.push(Self { world, offset, ..self.clone() });
            }
        }
        for number in inputs::fewer(self.number) {
            let counts = self.counts.iter().map(|&count| count.min(number as u32)).collect();
            all.push(Self { number, counts, ..self.clone() });
        }
        all.extend(
            inputs::fewer(self.colour as usize)
                .into_iter()
                .map(|colour| Self { colour: colour as u32, ..self.clone() }),
        );
        if self.step == Step::LiftScore {
            let Self { row_span, col_span, .. } = *self;
            let spans = [
                (Span(row_span.0, row_span.1.saturating_sub(1)), col_span),
                (Span(row_span.0.saturating_add(1), row_span.1), col_span),
                (row_span, Span(col_span.0, col_span.1.saturating_sub(1))),
                (row_span, Span(col_span.0.saturating_add(1), col_span.1)),
            ];
            let nonempty = |(rows, cols): &(Span, Span)| rows.0 < rows.1 && cols.0 < cols.1;
            all.extend(spans.into_iter().filter(nonempty).map(|(row_span, col_span)| Self {
                row_span,
                col_span,
                ..self.clone()
            }));
        }
        all
    }

    fn refusal(&self) -> Option<Refusal> {
        self.table()
    }

    fn expected(&self) -> Outcome {
        match self.table() {
            Some(number) => Outcome::new(Err(number), self.planes()),
            None => {
                let (answer, planes) = self.accepted();
                Outcome::new(Ok(answer), planes)
            }
        }
    }

    fn observed(&self) -> Outcome {
        let Self { step, rows, cols, world, offset, bounds, cell, colour, number, row_span, col_span, .. } = *self;
        let count = self.tiles.count();
        let mut tiles = Lent::new(self.tiles.bytes());
        let mut pieces = Lent::new(&self.pieces);
        let mut weights = Lent::new(&self.weights);
        let mut counts = Lent::new(&self.counts);
        let mut scores = Lent::new(&self.scores);
        let done = |answer: Answer<()>| answer.map(|()| Vec::new());
        let answer = match step {
            Step::RegionCount => side::region_count(pieces.cells(), rows, cols, tiles.cells(), count, cell).map(whole),
            Step::Fraction => {
                side::fraction(counts.cells(), rows, cols, number, cell).map(|fraction| vec![Value::Float(fraction)])
            }
            Step::Listing => side::listing(pieces.cells(), rows, cols, tiles.cells(), count, world, offset)
                .map(|set| vec![Value::Whole(i64::from(set.bits)), Value::Whole(i64::from(set.size))]),
            Step::Forced | Step::BoxedForced => {
                side::forced(pieces.cells(), rows, cols, tiles.cells(), count, world, offset, bounds)
                    .map(|found| forced_values(&found))
            }
            Step::Scan => {
                side::scan(pieces.cells(), weights.cells(), rows, cols, tiles.cells(), count).map(scan_values)
            }
            Step::Raise => done(side::raise_weights(weights.cells_mut(), rows, cols, world, offset)),
            Step::Lower => done(side::lower_weights(weights.cells_mut(), rows, cols, world, offset)),
            Step::Recount => {
                done(side::recount(counts.cells_mut(), pieces.cells(), rows, cols, tiles.cells(), count, world, offset))
            }
            Step::Fresh => {
                done(side::fresh(pieces.cells_mut(), weights.cells_mut(), counts.cells_mut(), rows, cols, number))
            }
            Step::FittingColours => {
                side::fitting_colours(pieces.cells(), rows, cols, tiles.cells(), count, world, offset)
                    .map(|colours| vec![Value::Whole(colours as i64)])
            }
            Step::Lay => done(side::lay(
                pieces.cells_mut(),
                weights.cells_mut(),
                counts.cells_mut(),
                rows,
                cols,
                tiles.cells(),
                count,
                world,
                offset,
                colour,
            )),
            Step::Lift => done(side::lift(
                pieces.cells_mut(),
                weights.cells_mut(),
                counts.cells_mut(),
                rows,
                cols,
                tiles.cells(),
                count,
                world,
                offset,
            )),
            Step::LayScore => {
                done(side::lay_score(scores.cells_mut(), counts.cells(), rows, cols, number, world, offset))
            }
            Step::LiftScore => {
                done(side::lift_score(scores.cells_mut(), counts.cells(), rows, cols, number, row_span, col_span))
            }
        };
        let words = |lent: &Lent<u32>| Plane::Words(lent.cells().to_vec());
        // written planes are compared, read ones must be as they were
        let (planes, kept) = match step {
            Step::Raise | Step::Lower => (vec![words(&weights)], weights.guarded()),
            Step::Recount => (vec![words(&counts)], counts.guarded() && pieces.untouched()),
            Step::Fresh | Step::Lay | Step::Lift => (
                vec![words(&pieces), words(&weights), words(&counts)],
                pieces.guarded() && weights.guarded() && counts.guarded(),
            ),
            Step::LayScore | Step::LiftScore => {
                (vec![Plane::floats(scores.cells())], scores.guarded() && counts.untouched())
            }
            _ => (Vec::new(), pieces.untouched() && weights.untouched() && counts.untouched()),
        };
        Outcome { answer, planes, intact: kept && tiles.untouched() }
    }

    fn arguments(&self) -> Option<Parts> {
        let Self { step, rows, cols, ref pieces, ref weights, ref counts, number, world, offset, cell, .. } = *self;
        let planes = match step {
            Step::RegionCount | Step::FittingColours => Parts::new().slice(pieces),
            Step::Scan => Parts::new().slice(pieces).slice(weights),
            Step::Raise | Step::Lower => Parts::new().slice(weights),
            Step::Recount => Parts::new().slice(counts).slice(pieces),
            Step::Fresh | Step::Lay | Step::Lift => Parts::new().slice(pieces).slice(weights).slice(counts),
            Step::Fraction | Step::Listing | Step::Forced | Step::BoxedForced | Step::LayScore | Step::LiftScore => {
                return None;
            }
        };
        let board = planes.pair(rows, cols);
        let job = if step.tiles() { board.slice(self.tiles.bytes()).number(self.tiles.count()) } else { board };
        let job = if step.number() { job.number(number) } else { job };
        let placed = if step.cell() { job.pair(cell.0, cell.1) } else { job };
        let placed = if step.spot() { placed.pair(world.0, world.1).pair(offset.0, offset.1) } else { placed };
        Some(if step == Step::Lay { placed.number(self.colour) } else { placed })
    }

    fn told(&self, answer: Option<&[Value]>) -> Parts {
        match (self.step, answer.unwrap_or_default()) {
            // a dead end is told as 1 with its cell, none as 0
            (Step::Scan, &[row, col]) => Parts::new().slice(&[Value::Whole(1), row, col]),
            (Step::Scan, [_]) => Parts::new().number(0_u32),
            (_, values) => Parts::new().slice(values),
        }
    }
}
