//! Document 01's refusal table, said once more and on its own, with what document 02 adds for widening, for the forced run
//! and for the plain score: for each call, every rule that applies to it. Of those that hold, the lowest number is the
//! answer. Only the tile store's ROOM stands with its step, which knows the tiles.

use crate::calls::*;

const MAX_BOARD_SIDE: usize = 64;
const MAX_SAMPLE_SIDE: usize = 32;
const MAX_TILES: usize = 7_200;
const MAX_RADIUS: usize = 63;
const MAX_BLOCK_SIDE: usize = 127;
const MAX_COLOURS: u32 = 30;
const MAX_WEIGHT: u32 = 4_000_000_000;
const MAX_BUDGET: usize = 4_096;

fn lowest(rules: &[(bool, Refusal)]) -> Option<Refusal> {
    rules.iter().filter(|rule| rule.0).map(|rule| rule.1).min()
}

// ---- the rules; each is true where the input is at fault

fn sides(rows: usize, cols: usize) -> bool {
    rows < 1 || cols < 1 || rows > MAX_BOARD_SIDE || cols > MAX_BOARD_SIDE
}

fn radius(radius: usize) -> bool {
    radius > MAX_RADIUS
}

/// The wanted length is a product, and may be larger than any length can be.
fn length(len: usize, wanted: &[usize]) -> bool {
    wanted.contains(&0) && len != 0
        || !wanted.contains(&0) && wanted.iter().try_fold(1usize, |all, &side| all.checked_mul(side)) != Some(len)
}

fn tile_list(tiles: &[u8]) -> bool {
    !tiles.len().is_multiple_of(9) || tile_number(tiles.len() / 9)
}

fn tile_number(number: usize) -> bool {
    !(1..=MAX_TILES).contains(&number)
}

fn count(count: u32) -> bool {
    !(1..=MAX_COLOURS).contains(&count)
}

fn byte_cells(cells: &[u8], count: u32) -> bool {
    cells.iter().any(|&cell| u32::from(cell) > count)
}

fn pieces_cells(pieces: &[u32], count: u32) -> bool {
    pieces.iter().any(|&stored| stored == 0 || u64::from(stored) > u64::from(count) + 1)
}

fn weights_cells(weights: &[u32]) -> bool {
    weights.iter().any(|&weight| weight > MAX_WEIGHT)
}

fn counts_cells(counts: &[u32], number: usize) -> bool {
    counts.iter().any(|&fits| fits as usize > number)
}

fn marks(set: TileBitset) -> bool {
    set.size < 32 && set.bits >> set.size != 0
}

/// NaN or below zero; -0.0 is not below zero.
fn numbers(floats: &[f64]) -> bool {
    floats.iter().any(|float| float.is_nan() || *float < 0.0)
}

fn finite_numbers(floats: &[f64]) -> bool {
    numbers(floats) || floats.iter().any(|float| float.is_infinite())
}

fn wall(world: World) -> bool {
    [world.0, world.1].iter().any(|coordinate| !(-1_000_000..=1_000_000).contains(coordinate))
}

fn offset(offset: Offset) -> bool {
    [offset.0, offset.1].iter().any(|part| !(-999_937..=1_000_000).contains(part))
}

fn corners(bounds: BoundingBox) -> bool {
    wall(bounds.min) || wall(bounds.max)
}

/// The cell of a wall coordinate, if it is on the board.
pub fn cell_of(rows: usize, cols: usize, world: World, offset: Offset) -> Option<Cell> {
    let row = usize::try_from(i64::from(world.0) + i64::from(offset.0)).ok().filter(|&row| row < rows)?;
    let col = usize::try_from(i64::from(world.1) + i64::from(offset.1)).ok().filter(|&col| col < cols)?;
    Some(Cell(row, col))
}

fn place(rows: usize, cols: usize, world: World, given: Offset) -> bool {
    wall(world) || offset(given) || cell_of(rows, cols, world, given).is_none()
}

// ---- places

pub fn get_region_spans(given: Offset, world: World, reach: usize) -> Option<Refusal> {
    lowest(&[(radius(reach), SHAPE), (wall(world) || offset(given), PLACE)])
}

pub fn contains(bounds: BoundingBox, world: World) -> Option<Refusal> {
    lowest(&[(corners(bounds) || wall(world), PLACE)])
}

pub fn extension(
    rows: usize,
    cols: usize,
    given: Offset,
    world: World,
    reach: usize,
    bounds: Option<BoundingBox>,
) -> Option<Refusal> {
    lowest(&[
        (sides(rows, cols) || radius(reach), SHAPE),
        (wall(world) || offset(given) || bounds.is_some_and(corners), PLACE),
    ])
}

/// The sides that the pads make, or `usize::MAX` where they pass it.
pub fn padded(rows: usize, cols: usize, pads: Pads) -> (usize, usize) {
    let sum = |a: usize, b: usize, c: usize| a.saturating_add(b).saturating_add(c);
    (sum(pads.left, rows, pads.right), sum(pads.top, cols, pads.bottom))
}

fn copy(plane: usize, rows: usize, cols: usize, pads: Pads, target: usize) -> [(bool, Refusal); 2] {
    let (new_rows, new_cols) = padded(rows, cols, pads);
    [
        (sides(rows, cols) || sides(new_rows, new_cols), SHAPE),
        (length(plane, &[rows, cols]) || length(target, &[new_rows, new_cols]), LENGTH),
    ]
}

pub fn copy_u32(plane: &[u32], rows: usize, cols: usize, pads: Pads, target: &[u32]) -> Option<Refusal> {
    lowest(&copy(plane.len(), rows, cols, pads, target.len()))
}

pub fn copy_f64(plane: &[f64], rows: usize, cols: usize, pads: Pads, target: &[f64]) -> Option<Refusal> {
    let [shape, length] = copy(plane.len(), rows, cols, pads, target.len());
    lowest(&[shape, length, (numbers(plane), NUMBER)])
}

// ---- sets

pub fn set_size(size: u32) -> Option<Refusal> {
    lowest(&[(count(size), COUNT)])
}

pub fn set(given: TileBitset) -> Option<Refusal> {
    lowest(&[(count(given.size), COUNT), (marks(given), CELL)])
}

pub fn sets(given: TileBitset, other: TileBitset) -> Option<Refusal> {
    lowest(&[
        (count(given.size) || count(other.size) || given.size != other.size, COUNT),
        (marks(given) || marks(other), CELL),
    ])
}

// ---- tiles

/// All but ROOM.
pub fn extract_tiles(sample: &[u8], rows: usize, cols: usize, colours: u32) -> Option<Refusal> {
    lowest(&[
        (rows < 1 || cols < 1 || rows > MAX_SAMPLE_SIDE || cols > MAX_SAMPLE_SIDE, SHAPE),
        (length(sample.len(), &[rows, cols]), LENGTH),
        (count(colours), COUNT),
        (byte_cells(sample, colours), CELL),
    ])
}

pub fn membership(tile: [u8; 9], colours: u32) -> Option<Refusal> {
    lowest(&[(count(colours), COUNT), (byte_cells(&tile, colours), CELL)])
}

// ---- fit, the board

/// What all calls that read pieces and tiles have in common.
fn laid(pieces: &[u32], rows: usize, cols: usize, tiles: &[u8], colours: u32) -> [(bool, Refusal); 4] {
    [
        (sides(rows, cols), SHAPE),
        (length(pieces.len(), &[rows, cols]) || tile_list(tiles), LENGTH),
        (count(colours), COUNT),
        (byte_cells(tiles, colours) || pieces_cells(pieces, colours), CELL),
    ]
}

pub fn region_count(
    pieces: &[u32],
    rows: usize,
    cols: usize,
    tiles: &[u8],
    colours: u32,
    start: Cell,
) -> Option<Refusal> {
    let [a, b, c, d] = laid(pieces, rows, cols, tiles, colours);
    lowest(&[a, b, c, d, (start.0 >= rows || start.1 >= cols, PLACE)])
}

pub fn listing(
    pieces: &[u32],
    rows: usize,
    cols: usize,
    tiles: &[u8],
    colours: u32,
    world: World,
    given: Offset,
    bounds: Option<BoundingBox>,
) -> Option<Refusal> {
    let [a, b, c, d] = laid(pieces, rows, cols, tiles, colours);
    lowest(&[a, b, c, d, (place(rows, cols, world, given) || bounds.is_some_and(corners), PLACE)])
}

pub fn scan(pieces: &[u32], weights: &[u32], rows: usize, cols: usize, tiles: &[u8], colours: u32) -> Option<Refusal> {
    let [a, b, c, d] = laid(pieces, rows, cols, tiles, colours);
    lowest(&[a, b, c, d, (length(weights.len(), &[rows, cols]), LENGTH), (weights_cells(weights), CELL)])
}

pub fn weights(weights: &[u32], rows: usize, cols: usize, world: World, given: Offset) -> Option<Refusal> {
    lowest(&[
        (sides(rows, cols), SHAPE),
        (length(weights.len(), &[rows, cols]), LENGTH),
        (weights_cells(weights), CELL),
        (place(rows, cols, world, given), PLACE),
    ])
}

pub fn recount(
    counts: &[u32],
    pieces: &[u32],
    rows: usize,
    cols: usize,
    tiles: &[u8],
    colours: u32,
    world: World,
    given: Offset,
) -> Option<Refusal> {
    let [a, b, c, d] = laid(pieces, rows, cols, tiles, colours);
    lowest(&[
        a,
        b,
        c,
        d,
        (length(counts.len(), &[rows, cols]), LENGTH),
        (counts_cells(counts, tiles.len() / 9), CELL),
        (place(rows, cols, world, given), PLACE),
    ])
}

pub fn fresh(
    pieces: &[u32],
    weights: &[u32],
    counts: &[u32],
    rows: usize,
    cols: usize,
    number: usize,
) -> Option<Refusal> {
    let wrong = |plane: &[u32]| length(plane.len(), &[rows, cols]);
    lowest(&[
        (sides(rows, cols), SHAPE),
        (wrong(pieces) || wrong(weights) || wrong(counts) || tile_number(number), LENGTH),
    ])
}

/// Lay with a colour, lift without.
pub fn lay_or_lift(
    pieces: &[u32],
    weights: &[u32],
    counts: &[u32],
    rows: usize,
    cols: usize,
    tiles: &[u8],
    colours: u32,
    world: World,
    given: Offset,
    colour: Option<u32>,
) -> Option<Refusal> {
    let [a, b, c, d] = laid(pieces, rows, cols, tiles, colours);
    let wrong = |plane: &[u32]| length(plane.len(), &[rows, cols]);
    let stored = cell_of(rows, cols, world, given)
        .and_then(|cell| cell.0.checked_mul(cols)?.checked_add(cell.1))
        .and_then(|at| pieces.get(at).copied());
    lowest(&[
        a,
        b,
        c,
        d,
        (wrong(weights) || wrong(counts), LENGTH),
        (weights_cells(weights) || counts_cells(counts, tiles.len() / 9), CELL),
        (place(rows, cols, world, given), PLACE),
        (colour.is_some_and(|colour| colour == 0 || colour > colours), TYPE),
        (colour.is_some() && stored.is_some_and(|stored| stored > 1), TAKEN),
        (colour.is_none() && stored.is_some_and(|stored| stored <= 1), BARE),
    ])
}

/// Of the new planes only the lengths: what stands in them is not read. The new offset is one of document 01's offsets too.
pub fn widen(
    wide: [usize; 3],
    pieces: &[u32],
    weights: &[u32],
    counts: &[u32],
    rows: usize,
    cols: usize,
    pads: Pads,
    tiles: &[u8],
    colours: u32,
    given: Offset,
) -> Option<Refusal> {
    let [a, b, c, d] = laid(pieces, rows, cols, tiles, colours);
    let wrong = |plane: &[u32]| length(plane.len(), &[rows, cols]);
    let (new_rows, new_cols) = padded(rows, cols, pads);
    let moved = |part: i32, pad: usize| i128::from(part) + pad as i128 > 1_000_000;
    lowest(&[
        a,
        b,
        c,
        d,
        (sides(new_rows, new_cols), SHAPE),
        (wrong(weights) || wrong(counts), LENGTH),
        (wide.iter().any(|&len| length(len, &[new_rows, new_cols])), LENGTH),
        (weights_cells(weights) || counts_cells(counts, tiles.len() / 9), CELL),
        (offset(given) || moved(given.0, pads.left) || moved(given.1, pads.top), PLACE),
    ])
}

/// Corners are looked at only where there is a box.
pub fn forced_run(
    pieces: &[u32],
    weights: &[u32],
    counts: &[u32],
    rows: usize,
    cols: usize,
    tiles: &[u8],
    colours: u32,
    world: World,
    given: Offset,
    bounds: Option<BoundingBox>,
    budget: usize,
) -> Option<Refusal> {
    let [a, b, c, d] = laid(pieces, rows, cols, tiles, colours);
    let wrong = |plane: &[u32]| length(plane.len(), &[rows, cols]);
    lowest(&[
        a,
        b,
        c,
        d,
        (budget > MAX_BUDGET, SHAPE),
        (wrong(weights) || wrong(counts), LENGTH),
        (weights_cells(weights) || counts_cells(counts, tiles.len() / 9), CELL),
        (place(rows, cols, world, given) || bounds.is_some_and(corners), PLACE),
    ])
}

// ---- the queue

fn queue_rules(queue: &ForcedPipeline) -> [(bool, Refusal); 2] {
    let entries = &queue.entries[..queue.len.min(64)];
    [(queue.len > 64, SHAPE), (entries.iter().any(|entry| wall(entry.coordinates)), PLACE)]
}

pub fn queue(queue: &ForcedPipeline) -> Option<Refusal> {
    lowest(&queue_rules(queue))
}

pub fn queue_add(queue: &ForcedPipeline, added: &ForcedPositions) -> Option<Refusal> {
    let [a, b] = queue_rules(queue);
    let offered = &added.entries[..added.len.min(8)];
    let mut places: Vec<World> = queue.entries[..queue.len.min(64)].iter().map(|entry| entry.coordinates).collect();
    let before = places.len();
    for entry in offered {
        if !places.contains(&entry.coordinates) {
            places.push(entry.coordinates);
        }
    }
    let new = places.len() - before;
    lowest(&[
        a,
        b,
        (added.len > 8, SHAPE),
        (offered.iter().any(|entry| wall(entry.coordinates)), PLACE),
        (64 - before < new, ROOM),
    ])
}

// ---- fractions, scores, probabilities

pub fn fraction(counts: &[u32], rows: usize, cols: usize, number: usize, cell: Cell) -> Option<Refusal> {
    lowest(&[
        (sides(rows, cols), SHAPE),
        (length(counts.len(), &[rows, cols]) || tile_number(number), LENGTH),
        (counts_cells(counts, number), CELL),
        (cell.0 >= rows || cell.1 >= cols, PLACE),
    ])
}

fn score(scores: &[f64], counts: &[u32], rows: usize, cols: usize, number: usize) -> [(bool, Refusal); 4] {
    [
        (sides(rows, cols), SHAPE),
        (length(scores.len(), &[rows, cols]) || length(counts.len(), &[rows, cols]) || tile_number(number), LENGTH),
        (counts_cells(counts, number), CELL),
        (finite_numbers(scores), NUMBER),
    ]
}

pub fn lay_score(
    scores: &[f64],
    counts: &[u32],
    rows: usize,
    cols: usize,
    number: usize,
    world: World,
    given: Offset,
) -> Option<Refusal> {
    let [a, b, c, d] = score(scores, counts, rows, cols, number);
    lowest(&[a, b, c, d, (place(rows, cols, world, given), PLACE)])
}

pub fn lift_score(
    scores: &[f64],
    counts: &[u32],
    rows: usize,
    cols: usize,
    number: usize,
    row_span: Span,
    col_span: Span,
) -> Option<Refusal> {
    let [a, b, c, d] = score(scores, counts, rows, cols, number);
    lowest(&[a, b, c, d, (row_span.1 > rows || col_span.1 > cols, SHAPE)])
}

/// The plane of scores is filled whole: only its length is looked at.
pub fn plain_score(scores: usize, counts: &[u32], rows: usize, cols: usize, number: usize) -> Option<Refusal> {
    lowest(&[
        (sides(rows, cols), SHAPE),
        (length(scores, &[rows, cols]) || length(counts.len(), &[rows, cols]) || tile_number(number), LENGTH),
        (counts_cells(counts, number), CELL),
    ])
}

/// What the lift score is asked.
pub fn plain_score_near(
    scores: &[f64],
    counts: &[u32],
    rows: usize,
    cols: usize,
    number: usize,
    row_span: Span,
    col_span: Span,
) -> Option<Refusal> {
    lift_score(scores, counts, rows, cols, number, row_span, col_span)
}

pub fn normalise(
    probabilities: &[f64],
    rows: usize,
    cols: usize,
    colours: u32,
    world: World,
    given: Offset,
    out: &[f64],
) -> Option<Refusal> {
    lowest(&[
        (sides(rows, cols), SHAPE),
        (length(probabilities.len(), &[colours as usize, rows, cols]) || out.len() != colours as usize, LENGTH),
        (count(colours), COUNT),
        (numbers(probabilities), NUMBER),
        (wall(world) || offset(given), PLACE),
    ])
}

pub fn product(
    probabilities: &[f64],
    rows: usize,
    cols: usize,
    colours: u32,
    block: &[f64],
    block_rows: usize,
    block_cols: usize,
    world: World,
    given: Offset,
    reach: usize,
) -> Option<Refusal> {
    let block_sides = [block_rows, block_cols].iter().any(|side| !(1..=MAX_BLOCK_SIDE).contains(side));
    lowest(&[
        (sides(rows, cols) || block_sides || radius(reach), SHAPE),
        (
            length(probabilities.len(), &[colours as usize, rows, cols])
                || length(block.len(), &[colours as usize, block_rows, block_cols]),
            LENGTH,
        ),
        (count(colours), COUNT),
        (finite_numbers(probabilities) || finite_numbers(block), NUMBER),
        (place(rows, cols, world, given), PLACE),
    ])
}

#[cfg(test)]
mod tests {
    use super::*;

    /// Document 01's bench: 30 colours pass, 31 gives 3; side 64 passes, 65 gives 1; queue entry 64 passes, 65 gives 10.
    #[test]
    fn bench() {
        let (tile, here, none) = ([0; 9], World(0, 0), Offset(0, 0));
        let listed = |pieces: &[u32], rows, count| listing(pieces, rows, 1, &tile, count, here, none, None);
        assert_eq!(listed(&[1], 1, 30), None);
        assert_eq!(listed(&[1], 1, 31), Some(COUNT));
        assert_eq!(listed(&[1; 64], 64, 30), None);
        assert_eq!(listed(&[1; 65], 65, 30), Some(SHAPE));

        let entry = |at: usize| ForcedPosition { coordinates: World(at as i32, 0), colour: 1 };
        let queue = ForcedPipeline { entries: std::array::from_fn(entry), len: 63 };
        let added = |len| ForcedPositions { entries: std::array::from_fn(|at| entry(100 + at)), len };
        assert_eq!(queue_add(&queue, &added(1)), None);
        assert_eq!(queue_add(&queue, &added(2)), Some(ROOM));
    }

    /// The lowest number speaks, and -0.0 is a number.
    #[test]
    fn order() {
        let here = World(2_000_000, 0);
        assert_eq!(
            lay_or_lift(&[5], &[u32::MAX], &[9, 9], 1, 1, &[9; 9], 31, here, Offset(0, 0), Some(0)),
            Some(LENGTH)
        );
        assert_eq!(lay_or_lift(&[5], &[u32::MAX], &[9], 1, 1, &[9; 9], 31, here, Offset(0, 0), Some(0)), Some(COUNT));
        assert_eq!(lay_or_lift(&[5], &[u32::MAX], &[9], 1, 1, &[9; 9], 30, here, Offset(0, 0), Some(0)), Some(CELL));
        assert_eq!(lay_or_lift(&[5], &[1], &[0], 1, 1, &[9; 9], 30, here, Offset(0, 0), Some(0)), Some(PLACE));
        assert_eq!(lay_or_lift(&[5], &[1], &[0], 1, 1, &[9; 9], 30, World(0, 0), Offset(0, 0), Some(0)), Some(TYPE));
        assert_eq!(lay_or_lift(&[5], &[1], &[0], 1, 1, &[9; 9], 30, World(0, 0), Offset(0, 0), Some(1)), Some(TAKEN));
        assert_eq!(lay_or_lift(&[1], &[1], &[0], 1, 1, &[9; 9], 30, World(0, 0), Offset(0, 0), None), Some(BARE));
        assert_eq!(normalise(&[-0.0], 1, 1, 1, World(0, 0), Offset(0, 0), &[f64::NAN]), None);
        assert_eq!(normalise(&[f64::INFINITY], 1, 1, 1, World(9, 9), Offset(0, 0), &[0.0]), None);
        assert_eq!(normalise(&[f64::NAN], 1, 1, 1, World(9, 9), Offset(0, 0), &[0.0]), Some(NUMBER));
    }

    /// Of a widening: the new sides and planes before COUNT and CELL, the new offset last; no sum of pads wraps round.
    #[test]
    fn widening() {
        let pads = |left, bottom| Pads { left, right: 0, top: 0, bottom };
        let refused = |wide: usize, pads, weight, count, down| {
            widen([wide; 3], &[1], &[weight], &[0], 1, 1, pads, &[0; 9], count, Offset(down, 0))
        };
        assert_eq!(refused(64 * 3, pads(63, 2), 0, 30, 1_000_000 - 63), None);
        assert_eq!(refused(64 * 3, pads(63, 2), 0, 30, 1_000_000 - 62), Some(PLACE));
        assert_eq!(refused(64 * 3, pads(63, 2), 4_000_000_001, 30, i32::MAX), Some(CELL));
        assert_eq!(refused(64 * 3, pads(63, 2), 4_000_000_001, 31, i32::MAX), Some(COUNT));
        assert_eq!(refused(64 * 3 + 1, pads(63, 2), 4_000_000_001, 31, i32::MAX), Some(LENGTH));
        assert_eq!(refused(65 * 3, pads(64, 2), 4_000_000_001, 31, i32::MAX), Some(SHAPE));
        assert_eq!(refused(1, pads(0, 0), 4_000_000_000, 1, -999_937), None);
        assert_eq!(refused(0, pads(usize::MAX, 0), 0, 1, 0), Some(SHAPE));
        assert_eq!(refused(3, pads(usize::MAX, 2), 0, 1, i32::MIN), Some(SHAPE));
    }

    /// Of a forced run: the budget with the sides, a corner with the place, and no corner without a box.
    #[test]
    fn forced_runs() {
        let bounds = |corner| Some(BoundingBox { min: World(0, corner), max: World(0, 0) });
        let refused = |counts: &[u32], weight, count, bounds, budget| {
            forced_run(&[1], &[weight], counts, 1, 1, &[0; 9], count, World(0, 0), Offset(0, 0), bounds, budget)
        };
        assert_eq!(refused(&[0], 4_000_000_000, 30, bounds(-1_000_000), 4_096), None);
        assert_eq!(refused(&[0], 4_000_000_000, 30, bounds(-1_000_001), 0), Some(PLACE));
        assert_eq!(refused(&[2], 0, 30, bounds(i32::MAX), 0), Some(CELL));
        assert_eq!(refused(&[2], 0, 31, bounds(i32::MAX), 0), Some(COUNT));
        assert_eq!(refused(&[], 0, 31, bounds(i32::MAX), 0), Some(LENGTH));
        assert_eq!(refused(&[], 0, 31, bounds(i32::MAX), 4_097), Some(SHAPE));
        assert_eq!(refused(&[0], 0, 1, None, usize::MAX), Some(SHAPE));
        assert_eq!(refused(&[0], 0, 1, None, 0), None);
    }

    /// Of plain scores: of a whole board's no float is looked at; of spans' all are, in the spans or not, and the ends.
    #[test]
    fn plain_scores() {
        let whole = |scores, counts: &[u32], rows, number| plain_score(scores, counts, rows, 2, number);
        assert_eq!(whole(2, &[0, 7_200], 1, 7_200), None);
        assert_eq!(whole(2, &[0, 7_200], 1, 7_199), Some(CELL));
        assert_eq!(whole(2, &[0, 9_999], 1, 7_201), Some(LENGTH));
        assert_eq!(whole(3, &[0, 9_999], 1, 7_200), Some(LENGTH));
        assert_eq!(whole(3, &[0, 9_999], 65, 0), Some(SHAPE));

        let near =
            |scores: &[f64], count, number, span| plain_score_near(scores, &[0, count], 1, 2, number, Span(0, 1), span);
        assert_eq!(near(&[0.0, -0.0], 1, 1, Span(0, 2)), None);
        assert_eq!(near(&[f64::MAX, 0.0], 1, 1, Span(usize::MAX, 0)), None);
        for bad in [f64::NAN, f64::INFINITY, f64::NEG_INFINITY, -5e-324] {
            assert_eq!(near(&[0.0, bad], 1, 1, Span(0, 1)), Some(NUMBER));
        }
        assert_eq!(near(&[f64::NAN, 0.0], 2, 1, Span(0, 1)), Some(CELL));
        assert_eq!(near(&[f64::NAN], 2, 1, Span(0, 1)), Some(LENGTH));
        assert_eq!(near(&[f64::NAN], 2, 0, Span(0, 3)), Some(SHAPE));
        assert_eq!(near(&[0.0, 0.0], 0, 1, Span(usize::MAX, usize::MAX)), Some(SHAPE));
    }

    /// Products of sides that no length reaches.
    #[test]
    fn lengths() {
        assert!(length(0, &[usize::MAX, 2]));
        assert!(!length(0, &[usize::MAX, 0]));
        assert!(!length(6, &[2, 3]));
    }
}
