//! Random parts of inputs over document 01's domain, with its extremes made likely; faults to put in; smaller parts.

use crate::calls::*;
use crate::outcome::nan;
use crate::random::Random;
use oracle::steps::{self, Board, Cache, Job};
use std::cell::{OnceCell, RefCell, RefMut};
use std::fmt;
use std::rc::Rc;

// ---- numbers

pub fn side(random: &mut Random) -> usize {
    match random.below(10) {
        0..=5 => 1 + random.below(6),
        6 | 7 => 1 + random.below(16),
        8 => random.pick(&[1, 2, 3, 63, 64]),
        _ => 1 + random.below(64),
    }
}

pub fn count(random: &mut Random) -> u32 {
    match random.below(4) {
        0 => 1 + random.below(30) as u32,
        _ => random.pick(&[1, 2, 2, 3, 3, 4, 5, 12, 12, 13, 30, 30]),
    }
}

pub fn tile_number(random: &mut Random) -> usize {
    match random.below(4) {
        0 => random.pick(&[1, 2, 3, 7_199, 7_200]),
        1 => 1 + random.below(7_200),
        _ => 1 + random.below(40),
    }
}

/// An index on a side, its ends likely.
pub fn place(random: &mut Random, side: usize) -> usize {
    match random.below(6) {
        0 => 0,
        1 => side - 1,
        2 => 1.min(side - 1),
        3 => side.saturating_sub(2),
        _ => random.below(side),
    }
}

fn offset_part(random: &mut Random) -> i32 {
    match random.below(6) {
        0 | 1 => 0,
        2 => random.within(-70, 70),
        3 => random.pick(&[-999_937, 1_000_000]),
        4 => random.pick(&[-999_936, 999_999, -1, 1]),
        _ => random.within(-999_937, 1_000_000),
    }
}

pub fn offset(random: &mut Random) -> Offset {
    Offset(offset_part(random), offset_part(random))
}

/// A wall coordinate anywhere in bounds; often near the grid that the offset puts on the wall.
fn coordinate(random: &mut Random, offset: i32) -> i32 {
    let near = |by: i32| (by - offset).clamp(-1_000_000, 1_000_000);
    match random.below(6) {
        0 => random.pick(&[-1_000_000, 1_000_000, -999_999, 999_999]),
        1 => random.within(-1_000_000, 1_000_000),
        2 => near(random.within(-3, 3)),
        _ => near(random.within(-140, 140)),
    }
}

pub fn world_near(random: &mut Random, offset: Offset) -> World {
    World(coordinate(random, offset.0), coordinate(random, offset.1))
}

pub fn world_on(random: &mut Random, rows: usize, cols: usize, offset: Offset) -> World {
    world_of(Cell(place(random, rows), place(random, cols)), offset)
}

pub fn world_of(cell: Cell, offset: Offset) -> World {
    World(cell.0 as i32 - offset.0, cell.1 as i32 - offset.1)
}

pub fn radius(random: &mut Random) -> usize {
    match random.below(3) {
        0 => random.pick(&[0, 1, 2, 62, 63]),
        1 => random.below(7),
        _ => random.below(64),
    }
}

/// A box; often round a place, sometimes empty.
pub fn bounds(random: &mut Random, world: World) -> BoundingBox {
    let mut corner = |at: i32, outward: i32| match random.below(12) {
        0 => 1_000_000 * outward,
        1 => random.pick(&[-1_000_000, 1_000_000]),
        2 => random.within(-1_000_000, 1_000_000),
        _ => (at + outward * random.within(-1, 3)).clamp(-1_000_000, 1_000_000),
    };
    let (min, max) = (World(corner(world.0, -1), corner(world.1, -1)), World(corner(world.0, 1), corner(world.1, 1)));
    BoundingBox { min, max }
}

/// A float that NUMBER lets pass.
pub fn float(random: &mut Random, infinite: bool) -> f64 {
    match random.below(12) {
        0 => 0.0,
        1 => -0.0,
        2 => random.pick(&[5e-324, 1e-323, f64::MIN_POSITIVE, f64::from_bits(0x000f_ffff_ffff_ffff)]),
        3 => random.pick(&[f64::MAX, 1e308, 1.7e308, 1e-300, 1e300]),
        4 if infinite => f64::INFINITY,
        // any exponent
        4 | 5 => f64::from_bits(random.next() % 0x7ff0_0000_0000_0000),
        // any subnormal
        6 => f64::from_bits(random.next() % 0x0010_0000_0000_0000),
        7 => random.pick(&[0.1, 0.5, 1.0, 2.0, 3.0]),
        _ => random.next() as f64 / u64::MAX as f64,
    }
}

/// A plane of floats: of one sort, or mixed.
pub fn floats(random: &mut Random, len: usize, infinite: bool) -> Vec<f64> {
    match random.below(8) {
        0 => vec![float(random, infinite); len],
        1 => (0..len).map(|_| random.pick(&[0.0, -0.0])).collect(),
        2 | 3 => (0..len).map(|_| random.next() as f64 / u64::MAX as f64).collect(),
        4 => (0..len).map(|_| f64::from_bits(random.next() % 0x0020_0000_0000_0000)).collect(),
        _ => (0..len).map(|_| float(random, infinite)).collect(),
    }
}

/// Any floats at all, for a plane that a call fills whole; NaNs are put in apart.
pub fn any_floats(random: &mut Random, len: usize) -> Vec<f64> {
    let telling = [f64::INFINITY, f64::NEG_INFINITY, f64::MIN, -1.0, -0.0, 0.0];
    let any = |random: &mut Random| {
        if random.percent(30) { random.pick(&telling) } else { f64::from_bits(random.next()) }
    };
    (0..len).map(|_| any(random)).collect()
}

/// NaNs of any sign and payload, quiet and signalling, in so many cells of a hundred.
pub fn put_nans(random: &mut Random, plane: &mut [f64], percent: usize) {
    for cell in plane {
        if random.percent(percent) {
            *cell = nan(random.next());
        }
    }
}

/// The same for a plane that the call checks: where it is refused by NUMBER or a lower number, they do not change that.
pub fn put_nans_if_refused(random: &mut Random, plane: &mut [f64], refused: Option<Refusal>) {
    if refused.is_some_and(|number| number <= NUMBER) {
        let percent = random.pick(&[0, 10, 50, 100]);
        put_nans(random, plane, percent);
    }
}

// ---- faults

pub fn spoil_side(random: &mut Random, side: &mut usize) {
    *side = random.pick(&[0, 33, 65, 66, 128, 129, 1 << 32, 1 << 63, usize::MAX, usize::MAX - 1]);
}

pub fn spoil_length<T: Clone>(random: &mut Random, plane: &mut Vec<T>, filling: T) {
    match random.below(5) {
        0 => plane.truncate(plane.len().saturating_sub(1)),
        1 => plane.clear(),
        2 => plane.truncate(plane.len() / 2),
        3 => plane.extend(plane.clone()),
        _ => plane.push(filling),
    }
}

pub fn spoil_count(random: &mut Random) -> u32 {
    random.pick(&[0, 31, 32, 33, 64, 255, 256, u32::MAX, 1 << 31])
}

pub fn spoil_wall(random: &mut Random, world: &mut World) {
    let bad = random.pick(&[-1_000_001, 1_000_001, i32::MIN, i32::MAX, -2_000_000, 2_000_000]);
    if random.percent(50) { world.0 = bad } else { world.1 = bad }
}

pub fn spoil_offset(random: &mut Random, offset: &mut Offset) {
    let bad = random.pick(&[-999_938, 1_000_001, i32::MIN, i32::MAX, -1_000_000]);
    if random.percent(50) { offset.0 = bad } else { offset.1 = bad }
}

/// Off the board, but inside the bounds where the offset allows it: just past an edge, or anywhere.
pub fn spoil_place(random: &mut Random, rows: usize, cols: usize, world: &mut World, offset: Offset) {
    let past = |side: usize| i32::try_from(side).unwrap_or(64);
    let (row, col) = match random.below(5) {
        0 => (-1, 0),
        1 => (0, -1),
        2 => (past(rows), 0),
        3 => (0, past(cols)),
        _ => (random.within(-2_000_000, 2_000_000), random.within(-2_000_000, 2_000_000)),
    };
    *world = World(row.saturating_sub(offset.0), col.saturating_sub(offset.1));
}

pub fn spoil_bounds(random: &mut Random, bounds: &mut BoundingBox) {
    if random.percent(50) { spoil_wall(random, &mut bounds.min) } else { spoil_wall(random, &mut bounds.max) }
}

pub fn spoil_cell<T: Copy>(random: &mut Random, plane: &mut [T], bad: &[T]) {
    if !plane.is_empty() {
        let at = place(random, plane.len());
        plane[at] = random.pick(bad);
    }
}

pub fn spoil_float(random: &mut Random, plane: &mut [f64]) {
    // of a clone, so that no other draw moves
    let nan = nan(random.clone().next());
    spoil_cell(random, plane, &[f64::NAN, nan, -1.0, -5e-324, f64::INFINITY, f64::NEG_INFINITY, f64::MIN]);
}

// ---- tiles

/// A tile list, its colour count, and the oracle's jobs for both, made when first asked for.
#[derive(Clone)]
pub struct TileList {
    bytes: Rc<Vec<u8>>,
    count: u32,
    job: Rc<OnceCell<RefCell<Job>>>,
    of_all: Rc<OnceCell<RefCell<Job>>>,
    uncached: Rc<OnceCell<RefCell<uncached::steps::Job>>>,
}

impl fmt::Debug for TileList {
    fn fmt(&self, f: &mut fmt::Formatter<'_>) -> fmt::Result {
        write!(f, "{} colours, {} tile bytes:", self.count, self.bytes.len())?;
        for tile in self.bytes.chunks(9).take(40) {
            write!(f, " {}", tile.iter().map(u8::to_string).collect::<Vec<_>>().join(","))?;
        }
        if self.bytes.len() > 40 * 9 { write!(f, " ..") } else { Ok(()) }
    }
}

/// Tiles times patterns above which a smaller list, made while shrinking, gets its index on demand.
const DEAR_INDEX: usize = 1 << 21;

impl TileList {
    pub fn new(bytes: Vec<u8>, count: u32) -> Self {
        Self { bytes: Rc::new(bytes), count, job: Rc::default(), of_all: Rc::default(), uncached: Rc::default() }
    }

    pub fn bytes(&self) -> &[u8] {
        &self.bytes
    }

    pub fn count(&self) -> u32 {
        self.count
    }

    pub fn number(&self) -> usize {
        self.bytes.len() / 9
    }

    pub fn with_count(&self, count: u32) -> Self {
        Self::new(self.bytes.to_vec(), count)
    }

    pub fn with_bytes(&self, change: impl FnOnce(&mut Vec<u8>)) -> Self {
        let mut bytes = self.bytes.to_vec();
        change(&mut bytes);
        Self::new(bytes, self.count)
    }

    /// Only for lists inside the domain.
    pub fn job(&self) -> RefMut<'_, Job> {
        let make = || RefCell::new(Job::new(&self.bytes, self.count as usize));
        self.job.get_or_init(make).borrow_mut()
    }

    /// With all 30 colours, whatever the count, and an index on demand.
    pub fn job_of_all(&self) -> RefMut<'_, Job> {
        let make = || RefCell::new(Job::on_demand(&self.bytes, 30));
        self.of_all.get_or_init(make).borrow_mut()
    }

    /// Without the cache, and with an index on demand whatever the count.
    pub fn uncached_job(&self) -> RefMut<'_, uncached::steps::Job> {
        let make = || RefCell::new(uncached::steps::Job::on_demand(&self.bytes, self.count as usize));
        self.uncached.get_or_init(make).borrow_mut()
    }

    /// As it is, but `job` will make a dear index on demand.
    fn shrunk(self) -> Self {
        if self.count <= 12 && self.number() << self.count > DEAR_INDEX {
            let _ = self.job.set(RefCell::new(Job::on_demand(&self.bytes, self.count as usize)));
        }
        self
    }

    pub fn smaller(&self) -> Vec<Self> {
        let number = self.number();
        let mut lists = Vec::new();
        if self.bytes.len().is_multiple_of(9) && number > 1 {
            lists.push(self.with_bytes(|bytes| bytes.truncate(number / 2 * 9)));
            lists.push(self.with_bytes(|bytes| drop(bytes.drain(..number / 2 * 9))));
            // without one of sixteen parts, which are single tiles in the end
            let part = (number / 16).max(1);
            let without =
                |from: usize| self.with_bytes(|bytes| drop(bytes.drain(from * 9..(from + part).min(number) * 9)));
            lists.extend((0..number).step_by(part).map(without));
        }
        let used = self.bytes.iter().copied().max().unwrap_or(0);
        if u32::from(used.max(1)) < self.count {
            lists.push(self.with_count(u32::from(used.max(1))));
        }
        if number <= 3 {
            let zeroed = |at: usize| self.with_bytes(|bytes| bytes[at] = 0);
            lists.extend((0..self.bytes.len()).filter(|&at| self.bytes[at] != 0).map(zeroed));
        }
        lists.into_iter().map(Self::shrunk).collect()
    }

    pub fn spoil(&mut self, random: &mut Random) {
        *self = match random.below(4) {
            0 => self.with_count(spoil_count(random)),
            1 => {
                let past = self.count.saturating_add(1).min(255) as u8;
                self.with_bytes(|bytes| spoil_cell(random, bytes, &[past, 255]))
            }
            2 => self.with_bytes(|bytes| spoil_length(random, bytes, 0)),
            _ => self.with_bytes(|bytes| bytes.resize(random.pick(&[0, 1, 8, 10, 7_201 * 9]), 0)),
        }
    }

    /// Another tile list inside the domain.
    pub fn disturb(&mut self, random: &mut Random) {
        let cell = random.below(self.count as usize + 1) as u8;
        *self = self
            .with_bytes(|bytes| {
                let at = random.below(bytes.len());
                bytes[at] = cell;
            })
            .shrunk();
    }
}

/// A palette: some of the colours, the first and the last likely.
fn palette(random: &mut Random, count: u32) -> Vec<u8> {
    let most = match random.below(3) {
        0 => count as usize,
        1 => 2,
        _ => 1 + random.below(6),
    };
    let mut colours: Vec<u8> = (0..most.min(count as usize)).map(|_| 1 + random.below(count as usize) as u8).collect();
    colours[0] = if random.percent(50) { count as u8 } else { 1 };
    colours
}

pub fn sample(random: &mut Random, rows: usize, cols: usize, count: u32) -> Vec<u8> {
    let colours = palette(random, count);
    let unknown = random.pick(&[0, 0, 0, 10, 50]);
    let noise = random.pick(&[0, 5, 30, 100]);
    let (down, across) = (random.below(3), random.below(3));
    (0..rows * cols)
        .map(|k| {
            if random.percent(unknown) {
                0
            } else if random.percent(noise) {
                random.pick(&colours)
            } else {
                colours[(k / cols * down + k % cols * across) % colours.len()]
            }
        })
        .collect()
}

/// A list of a kind and size; big ones are rare, and rarer where the text's index of them is dear.
pub fn tile_list(random: &mut Random) -> TileList {
    let count = count(random);
    let size = random.below(100);
    let dear = (9..=12).contains(&count) && !random.percent(4);
    let most: usize = match size {
        0..=24 => 3,
        25..=69 => 30,
        _ if dear => 60,
        70..=93 => 300,
        _ => 7_200,
    };
    let kind = random.below(8);
    let mut bytes = match kind {
        0..=4 => {
            let widest = match most {
                3 => 4,
                30 => 7,
                60 => 9,
                300 => 16,
                _ => 32,
            };
            let rows = 1 + random.below(widest);
            let cols = if most > 300 { widest } else { 1 + random.below(widest) };
            let cells = sample(random, rows, cols, count);
            steps::extract(&cells, [rows, cols], random.percent(40), random.percent(40))
        }
        5 => {
            let number = if random.percent(30) { most } else { 1 + random.below(most) };
            (0..number * 9).map(|_| random.below(count as usize + 1) as u8).collect()
        }
        6 => {
            let colours = palette(random, count);
            (0..(1 + random.below(most)) * 9).map(|_| random.pick(&colours)).collect()
        }
        // few tiles, each several times
        _ => {
            let few: Vec<u8> = (0..18).map(|_| random.below(count as usize + 1) as u8).collect();
            few.iter().copied().cycle().take((1 + random.below(most)) * 9).collect()
        }
    };
    bytes.truncate(most.max(1) * 9);
    TileList::new(bytes, count)
}

// ---- boards

pub fn pieces(random: &mut Random, rows: usize, cols: usize, tiles: &TileList) -> Vec<u32> {
    let cells = rows * cols;
    let mut pieces = vec![1; cells];
    let any = random.percent(15);
    let colour = |random: &mut Random| {
        let of_tile = tiles.bytes()[random.below(tiles.bytes().len())];
        if any || of_tile == 0 { 1 + random.below(tiles.count() as usize) as u32 } else { u32::from(of_tile) }
    };
    match random.below(10) {
        0 => {}
        1 => {
            for _ in 0..1 + random.below(3) {
                pieces[random.below(cells)] = colour(random) + 1;
            }
        }
        2 | 3 => {
            let laid = random.pick(&[5, 30, 70, 100]);
            for piece in &mut pieces {
                if random.percent(laid) {
                    *piece = colour(random) + 1;
                }
            }
        }
        // pieces of whole tiles, so that colours are listed; some then lifted
        4..=7 => {
            let stamps = 1 + random.below(1 + cells / 6);
            for _ in 0..stamps.min(300) {
                let tile = &tiles.bytes()[random.below(tiles.number()) * 9..][..9];
                let (row, col) = (random.below(rows), random.below(cols));
                for (k, &cell) in tile.iter().enumerate() {
                    let (r, c) = (row + k / 3, col + k % 3);
                    if r < rows && c < cols && cell != 0 {
                        pieces[r * cols + c] = u32::from(cell) + 1;
                    }
                }
            }
            let lifted = random.pick(&[0, 20, 60]);
            for piece in &mut pieces {
                if random.percent(lifted) {
                    *piece = 1;
                }
            }
        }
        // laid one by one as the oracle lists, and now and then one more as it may not
        _ => {
            let mut job = tiles.job();
            let mut board = Board::with_pieces(&pieces, [rows, cols]);
            for _ in 0..1 + random.below(12) {
                let (row, col) = (random.below(rows), random.below(cols));
                if pieces[row * cols + col] == 1 {
                    let listed = job.listing(&board, [row as i32, col as i32], [0, 0], Cache::Kept);
                    if !listed.is_empty() {
                        pieces[row * cols + col] = random.pick(&listed) as u32 + 1;
                        board = Board::with_pieces(&pieces, [rows, cols]);
                    }
                }
            }
            if random.percent(30) {
                pieces[random.below(cells)] = colour(random) + 1;
            }
        }
    }
    pieces
}

/// What demand 3 says of the standing pieces: 1, plus 3 for each at most one cell away, plus 1 for each exactly two away.
pub fn weights_of(pieces: &[u32], rows: usize, cols: usize) -> Vec<u32> {
    let mut weights = vec![1; rows * cols];
    for at in (0..rows * cols).filter(|&at| pieces[at] > 1) {
        let (row, col) = (at / cols, at % cols);
        for r in row.saturating_sub(2)..(row + 3).min(rows) {
            for c in col.saturating_sub(2)..(col + 3).min(cols) {
                let near = row.abs_diff(r) <= 1 && col.abs_diff(c) <= 1;
                weights[r * cols + c] += if near { 3 } else { 1 };
            }
        }
    }
    weights
}

pub fn weights(random: &mut Random, pieces: &[u32], rows: usize, cols: usize) -> Vec<u32> {
    let cells = rows * cols;
    match random.below(8) {
        0 => vec![random.pick(&[0, 1, 2, 4_000_000_000]); cells],
        1 => (0..cells).map(|_| random.below(6) as u32).collect(),
        2 => (0..cells).map(|_| random.pick(&[0, 1, 2, 3, 3_999_999_999, 4_000_000_000])).collect(),
        3 => (0..cells).map(|_| random.below(4_000_000_001) as u32).collect(),
        _ => weights_of(pieces, rows, cols),
    }
}

pub fn counts(random: &mut Random, cells: usize, number: usize) -> Vec<u32> {
    let number = number as u32;
    match random.below(4) {
        0 => vec![random.pick(&[0, 1, number]); cells],
        1 => (0..cells).map(|_| random.pick(&[0, number])).collect(),
        _ => (0..cells).map(|_| random.below(number as usize + 1) as u32).collect(),
    }
}

// ---- smaller planes, for shrinking

#[derive(Clone, Copy)]
pub enum Cut {
    FirstRow,
    LastRow,
    FirstCol,
    LastCol,
    LowerHalf,
    RightHalf,
}

impl Cut {
    pub const ALL: [Cut; 6] =
        [Cut::LowerHalf, Cut::RightHalf, Cut::LastRow, Cut::LastCol, Cut::FirstRow, Cut::FirstCol];

    /// The first row and column that stay, and the sides that are left; nothing where there is too little to cut.
    pub fn sides(self, rows: usize, cols: usize) -> Option<(usize, usize, usize, usize)> {
        let left = match self {
            Cut::FirstRow => (1, 0, rows.checked_sub(1)?, cols),
            Cut::LastRow => (0, 0, rows.checked_sub(1)?, cols),
            Cut::FirstCol => (0, 1, rows, cols.checked_sub(1)?),
            Cut::LastCol => (0, 0, rows, cols.checked_sub(1)?),
            Cut::LowerHalf => (0, 0, rows / 2, cols),
            Cut::RightHalf => (0, 0, rows, cols / 2),
        };
        (left.2 > 0 && left.3 > 0).then_some(left)
    }

    /// A plane of one or more layers; one of another length stays as it is.
    pub fn plane<T: Copy>(self, plane: &[T], rows: usize, cols: usize) -> Vec<T> {
        let Some((row, col, new_rows, new_cols)) = self.sides(rows, cols) else { return plane.to_vec() };
        let Some(cells) = rows.checked_mul(cols).filter(|&cells| cells > 0 && plane.len().is_multiple_of(cells)) else {
            return plane.to_vec();
        };
        let mut left = Vec::new();
        for layer in plane.chunks(cells) {
            for r in row..row + new_rows {
                left.extend_from_slice(&layer[r * cols + col..][..new_cols]);
            }
        }
        left
    }
}

/// The plane with cells set to a plain value: all, halves, then one by one.
pub fn plainer<T: Copy + PartialEq>(plane: &[T], value: T) -> Vec<Vec<T>> {
    let odd: Vec<usize> = (0..plane.len()).filter(|&at| plane[at] != value).collect();
    let with = |cells: &[usize]| {
        let mut plain = plane.to_vec();
        cells.iter().for_each(|&at| plain[at] = value);
        plain
    };
    let mut planes = Vec::new();
    if odd.len() > 1 {
        planes.push(with(&odd));
        planes.push(with(&odd[..odd.len() / 2]));
        planes.push(with(&odd[odd.len() / 2..]));
    }
    if odd.len() <= 40 {
        planes.extend(odd.iter().map(|&at| with(&[at])));
    }
    planes
}

/// Numbers nearer to 0.
pub fn nearer(number: i32) -> Vec<i32> {
    let mut smaller = vec![0, number.signum(), 2 * number.signum(), number / 2, number - number.signum()];
    smaller.retain(|&other| other.unsigned_abs() < number.unsigned_abs());
    smaller
}

pub fn fewer(number: usize) -> Vec<usize> {
    let mut smaller = vec![0, 1, number / 2, number.saturating_sub(1)];
    smaller.retain(|&other| other < number);
    smaller
}

pub fn smaller_pads(pads: Pads) -> Vec<Pads> {
    let mut all: Vec<Pads> = fewer(pads.left).into_iter().map(|left| Pads { left, ..pads }).collect();
    all.extend(fewer(pads.right).into_iter().map(|right| Pads { right, ..pads }));
    all.extend(fewer(pads.top).into_iter().map(|top| Pads { top, ..pads }));
    all.extend(fewer(pads.bottom).into_iter().map(|bottom| Pads { bottom, ..pads }));
    all
}

/// The same cell with a plainer offset, and places nearer to the origin.
pub fn plainer_places(world: World, offset: Offset) -> Vec<(World, Offset)> {
    let mut places = Vec::new();
    let same_cell = World(world.0.wrapping_add(offset.0), world.1.wrapping_add(offset.1));
    if offset != Offset(0, 0) {
        places.push((same_cell, Offset(0, 0)));
        places.push((world, Offset(0, 0)));
        places.extend(nearer(offset.0).into_iter().map(|row| (world, Offset(row, offset.1))));
        places.extend(nearer(offset.1).into_iter().map(|col| (world, Offset(offset.0, col))));
    }
    places.extend(nearer(world.0).into_iter().map(|row| (World(row, world.1), offset)));
    places.extend(nearer(world.1).into_iter().map(|col| (World(world.0, col), offset)));
    places
}
