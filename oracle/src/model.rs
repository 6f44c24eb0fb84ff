//! The rules of document 01, and document 02's widening, forced run and plain score, in plain Rust, under the names of
//! src/port.rs. It stands in the port's place so that the driver can be tried with no port at hand, and shows where the text
//! and document 01 part. Nothing is concluded from it about the port. Refusals are those of src/refusals.rs, so of these it
//! says nothing.

use crate::calls::*;
use crate::refusals;
use std::cell::Cell as Setting;
use std::collections::VecDeque;
use std::ops::Range;

/// Errors that tempt, to be put in one at a time: they show that the inputs of a run are telling.
#[derive(Clone, Copy, Debug, PartialEq, Eq)]
pub enum Slip {
    SkipBottomWindows,
    SkipRightWindows,
    KeepTopWindows,
    OneTileForAllWindows,
    OwnPieceIgnored,
    ZeroListsAColour,
    CentredBlock,
    BlockNotBeyond,
    ZeroFactorDivides,
    CountPastTheEdge,
    RecountTooNear,
    WeightTwoAway,
    LiftWraps,
    PadsSwapped,
    BoxUsesExcessOnce,
    SpanEndUnclipped,
    ReflectionsFirst,
    LaterOfEqualTiles,
    QueueTakesColourToo,
    ForcedTakesLaid,
    ScanTakesAnyWeight,
    ScanColumnFirst,
    LayScoreAtTarget,
    LiftScoreCentred,
    LiftScoreUnsquared,
    SumByColumns,
    NormaliseBySumOnly,
    InfiniteLargestDivides,
    /// as the text's copy has them
    WidenedWeightsOne,
    WidenedOldWeightsAnew,
    WidenedCountsCopied,
    /// regions that passed the old bottom or right edge keep their counts
    WidenedEdgeCountsStay,
    /// left and top
    WidenedPadsExchanged,
    WidenedOffsetStays,
    /// right for left and bottom for top
    WidenedOffsetByFarPads,
    /// its two entries
    WidenedOffsetExchanged,
    WidenReadsNewPlanes,
    RefusedWidenFills,
    /// it stores the offset
    RefusedWidenStores,
    /// an entry is laid without asking again whether it is forced
    RunLaysUnasked,
    /// the budget counts lays, not takings
    RunBudgetOfLays,
    /// the lay after which the queue is full is taken back
    RunFullTakesBack,
    /// an adding that meets ROOM keeps what fits, and the run goes on
    RunAddsWhatFits,
    RunSpentOverEmpty,
    /// where both hold
    RunSpentBeforeFull,
    /// from call to call
    RunKeepsQueue,
    /// of 63 entries
    RunRoomOneLess,
    RunRoomOneMore,
    /// last in, first out
    RunTakesLast,
    /// only the forced neighbours of the place are kept to the box
    RunBoxAtFirst,
    /// an entry whose lay, as a call, would be refused is dropped
    RunChecksEachLay,
    /// they are checked although no box is given
    RunReadsCorners,
    /// one past 4,096 counts as 4,096
    RunBudgetCut,
    RefusedRunStores,
    PlainSquared,
    /// R..=R+2
    PlainRowsAhead,
    PlainColsAhead,
    /// the lay score's neighbours: rows R-1..=R+1 and columns C-1..=C+1
    PlainCentred,
    /// regions that pass the edge are left out
    PlainWholeRegions,
    /// divided by 9 at the edge too
    PlainOverNine,
    PlainByColumns,
    /// the rows are summed each, and then their sums
    PlainRowsApart,
    /// the sum starts at what stands in the cell
    PlainSumFromOld,
    /// the counts are multiplied by 1 / tiles
    PlainByReciprocal,
    /// as whole numbers, then divided by the tiles and by the cells
    PlainCountsSummed,
    /// each fraction is divided by the cells, then they are summed
    PlainSharesSummed,
    /// by the whole call, as it was
    PlainLastRowLeft,
    PlainLastColLeft,
    /// NUMBER, by the whole call
    PlainAsksOld,
    RefusedPlainFills,
    /// an empty span has its first cell written
    NearWritesEmpty,
    NearEndIncluded,
    /// as far as a count of the spans is read
    NearReachesOn,
    NearClearsOthers,
    /// NUMBER
    NearUnasked,
    /// NUMBER, of the scores in the spans alone
    NearAsksSpans,
    /// regions that start outside the spans are left out of the mean
    NearMeanInSpans,
    NearSpansExchanged,
}

impl Slip {
    pub const ALL: [Slip; 78] = [
        Slip::SkipBottomWindows,
        Slip::SkipRightWindows,
        Slip::KeepTopWindows,
        Slip::OneTileForAllWindows,
        Slip::OwnPieceIgnored,
        Slip::ZeroListsAColour,
        Slip::CentredBlock,
        Slip::BlockNotBeyond,
        Slip::ZeroFactorDivides,
        Slip::CountPastTheEdge,
        Slip::RecountTooNear,
        Slip::WeightTwoAway,
        Slip::LiftWraps,
        Slip::PadsSwapped,
        Slip::BoxUsesExcessOnce,
        Slip::SpanEndUnclipped,
        Slip::ReflectionsFirst,
        Slip::LaterOfEqualTiles,
        Slip::QueueTakesColourToo,
        Slip::ForcedTakesLaid,
        Slip::ScanTakesAnyWeight,
        Slip::ScanColumnFirst,
        Slip::LayScoreAtTarget,
        Slip::LiftScoreCentred,
        Slip::LiftScoreUnsquared,
        Slip::SumByColumns,
        Slip::NormaliseBySumOnly,
        Slip::InfiniteLargestDivides,
        Slip::WidenedWeightsOne,
        Slip::WidenedOldWeightsAnew,
        Slip::WidenedCountsCopied,
        Slip::WidenedEdgeCountsStay,
        Slip::WidenedPadsExchanged,
        Slip::WidenedOffsetStays,
        Slip::WidenedOffsetByFarPads,
        Slip::WidenedOffsetExchanged,
        Slip::WidenReadsNewPlanes,
        Slip::RefusedWidenFills,
        Slip::RefusedWidenStores,
        Slip::RunLaysUnasked,
        Slip::RunBudgetOfLays,
        Slip::RunFullTakesBack,
        Slip::RunAddsWhatFits,
        Slip::RunSpentOverEmpty,
        Slip::RunSpentBeforeFull,
        Slip::RunKeepsQueue,
        Slip::RunRoomOneLess,
        Slip::RunRoomOneMore,
        Slip::RunTakesLast,
        Slip::RunBoxAtFirst,
        Slip::RunChecksEachLay,
        Slip::RunReadsCorners,
        Slip::RunBudgetCut,
        Slip::RefusedRunStores,
        Slip::PlainSquared,
        Slip::PlainRowsAhead,
        Slip::PlainColsAhead,
        Slip::PlainCentred,
        Slip::PlainWholeRegions,
        Slip::PlainOverNine,
        Slip::PlainByColumns,
        Slip::PlainRowsApart,
        Slip::PlainSumFromOld,
        Slip::PlainByReciprocal,
        Slip::PlainCountsSummed,
        Slip::PlainSharesSummed,
        Slip::PlainLastRowLeft,
        Slip::PlainLastColLeft,
        Slip::PlainAsksOld,
        Slip::RefusedPlainFills,
        Slip::NearWritesEmpty,
        Slip::NearEndIncluded,
        Slip::NearReachesOn,
        Slip::NearClearsOthers,
        Slip::NearUnasked,
        Slip::NearAsksSpans,
        Slip::NearMeanInSpans,
        Slip::NearSpansExchanged,
    ];
}

thread_local! {
    static SLIP: Setting<Option<Slip>> = const { Setting::new(None) };
}

pub fn set_slip(slip: Option<Slip>) {
    SLIP.set(slip);
}

fn slips(slip: Slip) -> bool {
    SLIP.get() == Some(slip)
}

fn unless<T>(refused: Option<Refusal>, value: impl FnOnce() -> T) -> Answer<T> {
    match refused {
        Some(number) => Err(number),
        None => Ok(value()),
    }
}

// ---- places

fn index(world: World, offset: Offset) -> (i64, i64) {
    (i64::from(world.0) + i64::from(offset.0), i64::from(world.1) + i64::from(offset.1))
}

fn cut(number: i64) -> usize {
    number.max(0) as usize
}

fn span(at: i64, radius: usize) -> Span {
    let radius = radius as i64;
    if slips(Slip::SpanEndUnclipped) {
        return Span(cut(at - radius), cut(at - radius) + 2 * radius as usize + 1);
    }
    Span(cut(at - radius), cut(at + radius + 1))
}

pub fn get_region_spans(offset: Offset, world: World, radius: usize) -> Answer<(Span, Span)> {
    unless(refusals::get_region_spans(offset, world, radius), || {
        let (row, col) = index(world, offset);
        (span(row, radius), span(col, radius))
    })
}

fn inside(bounds: BoundingBox, world: World) -> bool {
    bounds.min.0 <= world.0 && world.0 <= bounds.max.0 && bounds.min.1 <= world.1 && world.1 <= bounds.max.1
}

pub fn contains(bounds: BoundingBox, world: World) -> Answer<bool> {
    unless(refusals::contains(bounds, world), || inside(bounds, world))
}

/// The pads before and after along one side, with or without the box's least and most.
fn pads(side: usize, offset: i32, coordinate: i32, radius: usize, bounds: Option<(i32, i32)>) -> (usize, usize) {
    let (first, last) = (-i64::from(offset), side as i64 - 1 - i64::from(offset));
    let (least, most) = (i64::from(coordinate) - radius as i64, i64::from(coordinate) + radius as i64);
    let before = cut(first - least);
    let after = cut(most - last);
    let Some((min, max)) = bounds else { return (before, after) };
    let short = cut(i64::from(min) - (first - before as i64));
    let past = cut((last + after as i64) - i64::from(max));
    if slips(Slip::BoxUsesExcessOnce) {
        return (if short > 0 { 0 } else { before }, if past > 0 { 0 } else { after });
    }
    (before.saturating_sub(short), after.saturating_sub(past))
}

fn extension(
    rows: usize,
    cols: usize,
    offset: Offset,
    world: World,
    radius: usize,
    bounds: Option<BoundingBox>,
) -> ExtensionInfo {
    let (mut left, mut right) = pads(rows, offset.0, world.0, radius, bounds.map(|b| (b.min.0, b.max.0)));
    let (mut top, mut bottom) = pads(cols, offset.1, world.1, radius, bounds.map(|b| (b.min.1, b.max.1)));
    if slips(Slip::PadsSwapped) {
        (left, right, top, bottom) = (top, bottom, left, right);
    }
    ExtensionInfo {
        pads: Pads { left, right, top, bottom },
        offset: Offset(offset.0 + left as i32, offset.1 + top as i32),
        needed: left + right + top + bottom > 0,
    }
}

pub fn calculate_extension(
    rows: usize,
    cols: usize,
    offset: Offset,
    world: World,
    radius: usize,
) -> Answer<ExtensionInfo> {
    unless(refusals::extension(rows, cols, offset, world, radius, None), || {
        extension(rows, cols, offset, world, radius, None)
    })
}

pub fn constrain_extension(
    rows: usize,
    cols: usize,
    offset: Offset,
    world: World,
    radius: usize,
    bounds: BoundingBox,
) -> Answer<ExtensionInfo> {
    unless(refusals::extension(rows, cols, offset, world, radius, Some(bounds)), || {
        extension(rows, cols, offset, world, radius, Some(bounds))
    })
}

fn copy<T: Copy>(plane: &[T], rows: usize, cols: usize, pads: Pads, fill: T, target: &mut [T]) {
    target.fill(fill);
    let new_cols = pads.top + cols + pads.bottom;
    for row in 0..rows {
        for col in 0..cols {
            target[(row + pads.left) * new_cols + col + pads.top] = plane[row * cols + col];
        }
    }
}

pub fn extend_array_2d_u32(plane: &[u32], rows: usize, cols: usize, pads: Pads, target: &mut [u32]) -> Answer<()> {
    unless(refusals::copy_u32(plane, rows, cols, pads, target), || copy(plane, rows, cols, pads, 1, target))
}

pub fn extend_array_2d_f64(plane: &[f64], rows: usize, cols: usize, pads: Pads, target: &mut [f64]) -> Answer<()> {
    unless(refusals::copy_f64(plane, rows, cols, pads, target), || copy(plane, rows, cols, pads, 1.0, target))
}

// ---- sets

pub fn set_new(size: u32) -> Answer<TileBitset> {
    unless(refusals::set_size(size), || TileBitset { bits: 0, size })
}

pub fn set_all(size: u32) -> Answer<TileBitset> {
    unless(refusals::set_size(size), || TileBitset { bits: (1 << size) - 1, size })
}

fn has(set: TileBitset, colour: u32) -> bool {
    (1..=set.size).contains(&colour) && set.bits >> (colour - 1) & 1 == 1
}

pub fn set_insert(set: TileBitset, colour: u32) -> Answer<TileBitset> {
    unless(refusals::set(set), || {
        let mark = if (1..=set.size).contains(&colour) { 1 << (colour - 1) } else { 0 };
        TileBitset { bits: set.bits | mark, size: set.size }
    })
}

pub fn set_contains(set: TileBitset, colour: u32) -> Answer<bool> {
    unless(refusals::set(set), || has(set, colour))
}

pub fn set_intersection(set: TileBitset, other: TileBitset) -> Answer<TileBitset> {
    unless(refusals::sets(set, other), || TileBitset { bits: set.bits & other.bits, size: set.size })
}

pub fn set_is_empty(set: TileBitset) -> Answer<bool> {
    unless(refusals::set(set), || set.bits == 0)
}

pub fn set_count(set: TileBitset) -> Answer<usize> {
    unless(refusals::set(set), || set.bits.count_ones() as usize)
}

pub fn set_to_vec(set: TileBitset) -> Answer<ColourList> {
    unless(refusals::set(set), || {
        let mut list = ColourList { colours: [0; 30], len: 0 };
        for colour in (1..=set.size).filter(|&colour| has(set, colour)) {
            list.colours[list.len] = colour as u8;
            list.len += 1;
        }
        list
    })
}

// ---- tiles

pub fn rotate_90(tile: [u8; 9]) -> [u8; 9] {
    std::array::from_fn(|k| tile[(2 - k % 3) * 3 + k / 3])
}

pub fn reflect(tile: [u8; 9]) -> [u8; 9] {
    std::array::from_fn(|k| tile[k / 3 * 3 + 2 - k % 3])
}

fn forms(tile: [u8; 9], rotations: bool, reflections: bool) -> Vec<[u8; 9]> {
    let mut forms = vec![tile];
    if slips(Slip::ReflectionsFirst) && reflections {
        forms.push(reflect(tile));
        if rotations {
            for turn in 0..6 {
                forms.push(rotate_90(forms[turn]));
            }
        }
        return forms;
    }
    if rotations {
        for turn in 0..3 {
            forms.push(rotate_90(forms[turn]));
        }
    }
    if reflections {
        let turned = forms.clone();
        forms.extend(turned.into_iter().map(reflect));
    }
    forms
}

fn extracted(sample: &[u8], rows: usize, cols: usize, rotations: bool, reflections: bool) -> Vec<[u8; 9]> {
    let mut all = Vec::new();
    for row in 0..=rows.saturating_sub(3) {
        for col in 0..=cols.saturating_sub(3) {
            let window = std::array::from_fn(|k| {
                let (r, c) = (row + k / 3, col + k % 3);
                if r < rows && c < cols { sample[r * cols + c] } else { 0 }
            });
            all.extend(forms(window, rotations, reflections));
        }
    }
    if slips(Slip::LaterOfEqualTiles) {
        all.reverse();
    }
    let mut seen = std::collections::HashSet::new();
    all.retain(|tile| seen.insert(*tile));
    if slips(Slip::LaterOfEqualTiles) {
        all.reverse();
    }
    all
}

pub fn extract_tiles(
    sample: &[u8],
    rows: usize,
    cols: usize,
    count: u32,
    rotations: bool,
    reflections: bool,
    store: &mut [u8],
) -> Answer<usize> {
    if let Some(number) = refusals::extract_tiles(sample, rows, cols, count) {
        return Err(number);
    }
    let tiles = extracted(sample, rows, cols, rotations, reflections);
    for (room, tile) in store.chunks_exact_mut(9).zip(&tiles) {
        room.copy_from_slice(tile);
    }
    if tiles.len() > store.len() / 9 { Err(ROOM) } else { Ok(tiles.len()) }
}

pub fn membership(tile: [u8; 9], count: u32) -> Answer<TileBitset> {
    unless(refusals::membership(tile, count), || {
        let bits = tile.iter().filter(|&&cell| cell > 0).fold(0, |bits, cell| bits | 1 << (cell - 1));
        TileBitset { bits, size: count }
    })
}

// ---- fit

/// What the region that starts at a cell shows; bare past the edge.
fn pattern(pieces: &[u32], rows: usize, cols: usize, row: usize, col: usize) -> [u32; 9] {
    std::array::from_fn(|k| {
        let (r, c) = (row + k / 3, col + k % 3);
        if r < rows && c < cols { pieces[r * cols + c] - 1 } else { 0 }
    })
}

fn fits(pattern: &[u32; 9], tile: &[u8]) -> bool {
    pattern.iter().zip(tile).all(|(&shown, &cell)| shown == 0 || shown == u32::from(cell))
}

fn fit_count(pattern: &[u32; 9], tiles: &[u8]) -> u32 {
    tiles.chunks_exact(9).filter(|tile| fits(pattern, tile)).count() as u32
}

pub fn region_count(pieces: &[u32], rows: usize, cols: usize, tiles: &[u8], count: u32, start: Cell) -> Answer<usize> {
    unless(refusals::region_count(pieces, rows, cols, tiles, count, start), || {
        fit_count(&pattern(pieces, rows, cols, start.0, start.1), tiles) as usize
    })
}

pub fn fraction(counts: &[u32], rows: usize, cols: usize, number: usize, cell: Cell) -> Answer<f64> {
    unless(refusals::fraction(counts, rows, cols, number, cell), || {
        f64::from(counts[cell.0 * cols + cell.1]) / number as f64
    })
}

fn listed(pieces: &[u32], rows: usize, cols: usize, tiles: &[u8], count: u32, cell: Cell) -> u32 {
    let mut left = u32::MAX;
    for place in 0..9 {
        let (up, over) = (place / 3, place % 3);
        if (cell.0 < up || cell.1 < over) && !slips(Slip::KeepTopWindows) {
            continue;
        }
        let (row, col) = (cell.0.saturating_sub(up), cell.1.saturating_sub(over));
        if slips(Slip::SkipBottomWindows) && row + 2 >= rows || slips(Slip::SkipRightWindows) && col + 2 >= cols {
            continue;
        }
        let mut pattern = pattern(pieces, rows, cols, row, col);
        if slips(Slip::OwnPieceIgnored) {
            pattern[place] = 0;
        }
        let mut here = 0;
        for tile in tiles.chunks_exact(9).filter(|tile| fits(&pattern, tile)) {
            let colour = tile[place];
            if colour > 0 {
                here |= 1 << (colour - 1);
            } else if slips(Slip::ZeroListsAColour) {
                here |= 1;
            }
        }
        left &= here;
    }
    if slips(Slip::OneTileForAllWindows) {
        let serves = |tile: &&[u8]| {
            (0..9).all(|place| {
                cell.0 < place / 3
                    || cell.1 < place % 3
                    || fits(&pattern(pieces, rows, cols, cell.0 - place / 3, cell.1 - place % 3), tile)
            })
        };
        let cells = tiles.chunks_exact(9).filter(serves).flatten().filter(|&&cell| cell > 0);
        left &= cells.fold(0, |bits, cell| bits | 1 << (cell - 1));
    }
    left & ((1u64 << count) - 1) as u32
}

pub fn listing(
    pieces: &[u32],
    rows: usize,
    cols: usize,
    tiles: &[u8],
    count: u32,
    world: World,
    offset: Offset,
) -> Answer<TileBitset> {
    unless(refusals::listing(pieces, rows, cols, tiles, count, world, offset, None), || {
        let cell = refusals::cell_of(rows, cols, world, offset).unwrap();
        TileBitset { bits: listed(pieces, rows, cols, tiles, count, cell), size: count }
    })
}

pub fn fitting_colours(
    pieces: &[u32],
    rows: usize,
    cols: usize,
    tiles: &[u8],
    count: u32,
    world: World,
    offset: Offset,
) -> Answer<u64> {
    listing(pieces, rows, cols, tiles, count, world, offset).map(|set| u64::from(set.bits))
}

pub fn forced(
    pieces: &[u32],
    rows: usize,
    cols: usize,
    tiles: &[u8],
    count: u32,
    world: World,
    offset: Offset,
    bounds: Option<BoundingBox>,
) -> Answer<ForcedPositions> {
    unless(refusals::listing(pieces, rows, cols, tiles, count, world, offset, bounds), || {
        let mut forced = ForcedPositions { entries: [NO_POSITION; 8], len: 0 };
        for place in (0..9).filter(|&place| place != 4) {
            let there = World(world.0 + place / 3 - 1, world.1 + place % 3 - 1);
            let Some(cell) = refusals::cell_of(rows, cols, there, offset) else { continue };
            let laid = pieces[cell.0 * cols + cell.1] > 1 && !slips(Slip::ForcedTakesLaid);
            if laid || bounds.is_some_and(|bounds| !inside(bounds, there)) {
                continue;
            }
            let bits = listed(pieces, rows, cols, tiles, count, cell);
            if bits.count_ones() == 1 {
                let colour = bits.trailing_zeros() + 1;
                forced.entries[forced.len] = ForcedPosition { coordinates: there, colour };
                forced.len += 1;
            }
        }
        forced
    })
}

// ---- the queue

fn queue_of(list: &[ForcedPosition]) -> ForcedPipeline {
    let mut queue = ForcedPipeline { entries: [NO_POSITION; 64], len: list.len() };
    queue.entries[..list.len()].copy_from_slice(list);
    queue
}

pub fn queue_add(queue: ForcedPipeline, added: ForcedPositions) -> (Answer<()>, ForcedPipeline) {
    if let Some(number) = refusals::queue_add(&queue, &added) {
        return (Err(number), queue);
    }
    let mut list = queue.entries[..queue.len].to_vec();
    for &entry in &added.entries[..added.len] {
        let known = |old: &ForcedPosition| {
            old.coordinates == entry.coordinates && (!slips(Slip::QueueTakesColourToo) || old.colour == entry.colour)
        };
        if !list.iter().any(known) {
            list.push(entry);
        }
    }
    list.truncate(64);
    (Ok(()), queue_of(&list))
}

pub fn queue_take(queue: ForcedPipeline) -> (Answer<Option<ForcedPosition>>, ForcedPipeline) {
    if let Some(number) = refusals::queue(&queue) {
        return (Err(number), queue);
    }
    let list = &queue.entries[..queue.len];
    (Ok(list.first().copied()), queue_of(list.get(1..).unwrap_or(&[])))
}

pub fn queue_is_empty(queue: ForcedPipeline) -> Answer<bool> {
    unless(refusals::queue(&queue), || queue.len == 0)
}

pub fn queue_len(queue: ForcedPipeline) -> Answer<usize> {
    unless(refusals::queue(&queue), || queue.len)
}

// ---- the board

pub fn scan(
    pieces: &[u32],
    weights: &[u32],
    rows: usize,
    cols: usize,
    tiles: &[u8],
    count: u32,
) -> Answer<Option<Cell>> {
    unless(refusals::scan(pieces, weights, rows, cols, tiles, count), || {
        let mut cells: Vec<Cell> = (0..rows * cols).map(|k| Cell(k / cols, k % cols)).collect();
        if slips(Slip::ScanColumnFirst) {
            cells.sort_by_key(|cell| (cell.1, cell.0));
        }
        cells.into_iter().find(|&cell| {
            let at = cell.0 * cols + cell.1;
            let heavy = weights[at] > 1 || slips(Slip::ScanTakesAnyWeight);
            pieces[at] == 1 && heavy && listed(pieces, rows, cols, tiles, count, cell) == 0
        })
    })
}

fn apart(a: Cell, b: Cell) -> usize {
    a.0.abs_diff(b.0).max(a.1.abs_diff(b.1))
}

fn reach(a: Cell, b: Cell) -> u32 {
    match apart(a, b) {
        0 | 1 => 3,
        2 if slips(Slip::WeightTwoAway) => 2,
        2 => 1,
        _ => 0,
    }
}

fn raise(weights: &mut [u32], cols: usize, cell: Cell) {
    for (k, weight) in weights.iter_mut().enumerate() {
        *weight += reach(cell, Cell(k / cols, k % cols));
    }
}

fn lower(weights: &mut [u32], cols: usize, cell: Cell) {
    for (k, weight) in weights.iter_mut().enumerate() {
        let reach = reach(cell, Cell(k / cols, k % cols));
        *weight = if slips(Slip::LiftWraps) { weight.wrapping_sub(reach) } else { weight.saturating_sub(reach) };
    }
}

fn recounted(counts: &mut [u32], pieces: &[u32], rows: usize, cols: usize, tiles: &[u8], cell: Cell) {
    let near = if slips(Slip::RecountTooNear) { 1 } else { 2 };
    for (k, count) in counts.iter_mut().enumerate() {
        let start = Cell(k / cols, k % cols);
        let whole = start.0 + 2 < rows && start.1 + 2 < cols || slips(Slip::CountPastTheEdge);
        if apart(start, cell) <= near && whole {
            *count = fit_count(&pattern(pieces, rows, cols, start.0, start.1), tiles);
        }
    }
}

pub fn raise_weights(weights: &mut [u32], rows: usize, cols: usize, world: World, offset: Offset) -> Answer<()> {
    unless(refusals::weights(weights, rows, cols, world, offset), || {
        raise(weights, cols, refusals::cell_of(rows, cols, world, offset).unwrap())
    })
}

pub fn lower_weights(weights: &mut [u32], rows: usize, cols: usize, world: World, offset: Offset) -> Answer<()> {
    unless(refusals::weights(weights, rows, cols, world, offset), || {
        lower(weights, cols, refusals::cell_of(rows, cols, world, offset).unwrap())
    })
}

pub fn recount(
    counts: &mut [u32],
    pieces: &[u32],
    rows: usize,
    cols: usize,
    tiles: &[u8],
    count: u32,
    world: World,
    offset: Offset,
) -> Answer<()> {
    unless(refusals::recount(counts, pieces, rows, cols, tiles, count, world, offset), || {
        recounted(counts, pieces, rows, cols, tiles, refusals::cell_of(rows, cols, world, offset).unwrap())
    })
}

pub fn fresh(
    pieces: &mut [u32],
    weights: &mut [u32],
    counts: &mut [u32],
    rows: usize,
    cols: usize,
    number: usize,
) -> Answer<()> {
    unless(refusals::fresh(pieces, weights, counts, rows, cols, number), || {
        pieces.fill(1);
        weights.fill(1);
        counts.fill(number as u32);
    })
}

/// A board's three planes.
type Planes<'a> = (&'a mut [u32], &'a mut [u32], &'a mut [u32]);

fn lay_at((pieces, weights, counts): Planes, rows: usize, cols: usize, tiles: &[u8], cell: Cell, colour: u32) {
    pieces[cell.0 * cols + cell.1] = colour + 1;
    raise(weights, cols, cell);
    recounted(counts, pieces, rows, cols, tiles, cell);
}

fn lift_at((pieces, weights, counts): Planes, rows: usize, cols: usize, tiles: &[u8], cell: Cell) {
    pieces[cell.0 * cols + cell.1] = 1;
    lower(weights, cols, cell);
    recounted(counts, pieces, rows, cols, tiles, cell);
}

pub fn lay(
    pieces: &mut [u32],
    weights: &mut [u32],
    counts: &mut [u32],
    rows: usize,
    cols: usize,
    tiles: &[u8],
    count: u32,
    world: World,
    offset: Offset,
    colour: u32,
) -> Answer<()> {
    let refused = refusals::lay_or_lift(pieces, weights, counts, rows, cols, tiles, count, world, offset, Some(colour));
    unless(refused, || {
        let cell = refusals::cell_of(rows, cols, world, offset).unwrap();
        lay_at((pieces, weights, counts), rows, cols, tiles, cell, colour);
    })
}

pub fn lift(
    pieces: &mut [u32],
    weights: &mut [u32],
    counts: &mut [u32],
    rows: usize,
    cols: usize,
    tiles: &[u8],
    count: u32,
    world: World,
    offset: Offset,
) -> Answer<()> {
    let refused = refusals::lay_or_lift(pieces, weights, counts, rows, cols, tiles, count, world, offset, None);
    unless(refused, || {
        let cell = refusals::cell_of(rows, cols, world, offset).unwrap();
        lift_at((pieces, weights, counts), rows, cols, tiles, cell);
    })
}

// ---- widening

/// The entry of the old planes that goes to a cell of the new ones; none where the cell is new.
fn old_entry(rows: usize, cols: usize, pads: Pads, cell: Cell) -> Option<usize> {
    let (before_rows, before_cols) =
        if slips(Slip::WidenedPadsExchanged) { (pads.top, pads.left) } else { (pads.left, pads.top) };
    let row = cell.0.checked_sub(before_rows).filter(|&row| row < rows)?;
    let col = cell.1.checked_sub(before_cols).filter(|&col| col < cols)?;
    Some(row * cols + col)
}

/// Demand 3's weight of a cell: the pieces in the 5x5 patch round it.
fn weight_from_pieces(pieces: &[u32], rows: usize, cols: usize, cell: Cell) -> u32 {
    let mut weight = 1;
    for row in cell.0.saturating_sub(2)..(cell.0 + 3).min(rows) {
        for col in cell.1.saturating_sub(2)..(cell.1 + 3).min(cols) {
            if pieces[row * cols + col] > 1 {
                weight += reach(cell, Cell(row, col));
            }
        }
    }
    weight
}

fn widened_weight(wide: &[u32], rows: usize, cols: usize, cell: Cell, old: Option<u32>) -> u32 {
    match old {
        Some(weight) if !slips(Slip::WidenedOldWeightsAnew) => weight,
        None if slips(Slip::WidenedWeightsOne) => 1,
        _ => weight_from_pieces(wide, rows, cols, cell),
    }
}

/// Demand 3's count of a region.
fn count_from_pieces(pieces: &[u32], rows: usize, cols: usize, tiles: &[u8], start: Cell) -> u32 {
    if start.0 + 2 < rows && start.1 + 2 < cols {
        fit_count(&pattern(pieces, rows, cols, start.0, start.1), tiles)
    } else {
        (tiles.len() / 9) as u32
    }
}

/// Whether a slip keeps the old count at this entry.
fn count_stays(rows: usize, cols: usize, entry: usize) -> bool {
    let past = entry / cols + 2 >= rows || entry % cols + 2 >= cols;
    slips(Slip::WidenedCountsCopied) || slips(Slip::WidenedEdgeCountsStay) && past
}

fn store_offset(new_offset: &mut [i32], offset: Offset, pads: Pads) {
    let by = if slips(Slip::WidenedOffsetByFarPads) { (pads.right, pads.bottom) } else { (pads.left, pads.top) };
    let by = if slips(Slip::WidenedOffsetStays) { (0, 0) } else { by };
    // out of bounds only where a refused call stores it
    let mut moved = [offset.0.wrapping_add(by.0 as i32), offset.1.wrapping_add(by.1 as i32)];
    if slips(Slip::WidenedOffsetExchanged) {
        moved.reverse();
    }
    new_offset.iter_mut().zip(moved).for_each(|(entry, part)| *entry = part);
}

/// What a slip writes although the call is refused.
fn refused_writes(wide_pieces: &mut [u32], new_offset: &mut [i32], offset: Offset, pads: Pads) {
    if slips(Slip::RefusedWidenFills) {
        wide_pieces.fill(1);
    }
    if slips(Slip::RefusedWidenStores) {
        store_offset(new_offset, offset, pads);
    }
}

/// Document 02's request 1, cell by cell of the new planes.
pub fn widen(
    wide_pieces: &mut [u32],
    wide_weights: &mut [u32],
    wide_counts: &mut [u32],
    pieces: &[u32],
    weights: &[u32],
    counts: &[u32],
    rows: usize,
    cols: usize,
    pads: Pads,
    tiles: &[u8],
    count: u32,
    offset: Offset,
    new_offset: &mut [i32],
) -> Answer<()> {
    let lengths = [wide_pieces.len(), wide_weights.len(), wide_counts.len()];
    let mut refused = refusals::widen(lengths, pieces, weights, counts, rows, cols, pads, tiles, count, offset);
    if refused.is_none() && slips(Slip::WidenReadsNewPlanes) && wide_pieces.iter().any(|&old| old > count + 1) {
        refused = Some(CELL);
    }
    if refused.is_some() {
        refused_writes(wide_pieces, new_offset, offset, pads);
    }
    unless(refused, || {
        let (new_rows, new_cols) = (pads.left + rows + pads.right, pads.top + cols + pads.bottom);
        let cell = |k: usize| Cell(k / new_cols, k % new_cols);
        let old = |k: usize| old_entry(rows, cols, pads, cell(k));
        for (k, piece) in wide_pieces.iter_mut().enumerate() {
            *piece = old(k).map_or(1, |entry| pieces[entry]);
        }
        for (k, weight) in wide_weights.iter_mut().enumerate() {
            *weight = widened_weight(wide_pieces, new_rows, new_cols, cell(k), old(k).map(|entry| weights[entry]));
        }
        for (k, count) in wide_counts.iter_mut().enumerate() {
            let kept = old(k).filter(|&entry| count_stays(rows, cols, entry)).map(|entry| counts[entry]);
            *count = kept.unwrap_or_else(|| count_from_pieces(wide_pieces, new_rows, new_cols, tiles, cell(k)));
        }
        store_offset(new_offset, offset, pads);
    })
}

// ---- the forced run

thread_local! {
    /// for a slip: what waited when the last run ended
    static LEFT: Setting<VecDeque<ForcedPosition>> = const { Setting::new(VecDeque::new()) };
}

/// A run so far: the entries that wait, how many were taken and how many of them laid, and whether an adding met ROOM.
struct Run {
    queue: VecDeque<ForcedPosition>,
    taken: usize,
    laid: usize,
    full: bool,
}

impl Run {
    fn new() -> Self {
        let queue = if slips(Slip::RunKeepsQueue) { LEFT.take() } else { VecDeque::new() };
        Self { queue, taken: 0, laid: 0, full: false }
    }

    /// Those whose places do not wait yet, all or none.
    fn add(&mut self, forced: ForcedPositions) {
        let mut more = self.queue.clone();
        for entry in &forced.entries[..forced.len] {
            if more.iter().all(|old| old.coordinates != entry.coordinates) {
                more.push_back(*entry);
            }
        }
        let room = if slips(Slip::RunRoomOneLess) { 63 } else { 64 + usize::from(slips(Slip::RunRoomOneMore)) };
        self.full = more.len() > room;
        if self.full && slips(Slip::RunAddsWhatFits) {
            more.truncate(room);
            self.full = false;
        }
        if !self.full {
            self.queue = more;
        }
    }

    /// The next entry; none where the run ends.
    fn next(&mut self, budget: usize) -> Option<ForcedPosition> {
        let used = if slips(Slip::RunBudgetOfLays) { self.laid } else { self.taken };
        if self.full || used >= budget {
            return None;
        }
        let next = if slips(Slip::RunTakesLast) { self.queue.pop_back() } else { self.queue.pop_front() }?;
        self.taken += 1;
        Some(next)
    }

    /// How it ended, and the two numbers.
    fn told(&self, budget: usize) -> [u64; 3] {
        let empty = self.queue.is_empty();
        let tempting = if empty { Slip::RunSpentOverEmpty } else { Slip::RunSpentBeforeFull };
        let end = match (self.full, empty) {
            _ if self.taken == budget && slips(tempting) => SPENT,
            (true, _) => FULL,
            (false, true) => DONE,
            (false, false) => SPENT,
        };
        [end, self.taken as u64, self.laid as u64]
    }
}

fn store(ran: &mut [u64], told: [u64; 3]) {
    ran.iter_mut().zip(told).for_each(|(entry, number)| *entry = number);
}

/// Document 02's request 2, an entry at a time.
pub fn forced_run(
    pieces: &mut [u32],
    weights: &mut [u32],
    counts: &mut [u32],
    rows: usize,
    cols: usize,
    tiles: &[u8],
    count: u32,
    world: World,
    offset: Offset,
    within: bool,
    corners: BoundingBox,
    budget: usize,
    ran: &mut [u64],
) -> Answer<()> {
    let budget = if slips(Slip::RunBudgetCut) { budget.min(4_096) } else { budget };
    let checked = (within || slips(Slip::RunReadsCorners)).then_some(corners);
    let refused =
        refusals::forced_run(pieces, weights, counts, rows, cols, tiles, count, world, offset, checked, budget);
    if refused.is_some() && slips(Slip::RefusedRunStores) {
        store(ran, [DONE, 0, 0]);
    }
    unless(refused, || {
        let first = within.then_some(corners);
        let later = first.filter(|_| !slips(Slip::RunBoxAtFirst));
        let forced = |pieces: &[u32], round: World, bounds: Option<BoundingBox>| {
            forced(pieces, rows, cols, tiles, count, round, offset, bounds).expect("checked on entry")
        };
        let mut run = Run::new();
        run.add(forced(pieces, world, first));
        while let Some(ForcedPosition { coordinates, colour }) = run.next(budget) {
            // always on the board, but for entries of another run's
            let Some(cell) = refusals::cell_of(rows, cols, coordinates, offset) else { continue };
            let still = pieces[cell.0 * cols + cell.1] == 1
                && listed(pieces, rows, cols, tiles, count, cell) == 1 << (colour - 1);
            if !still && !slips(Slip::RunLaysUnasked) {
                continue;
            }
            if slips(Slip::RunChecksEachLay) && refusals::weights(weights, rows, cols, coordinates, offset).is_some() {
                continue;
            }
            lay_at((pieces, weights, counts), rows, cols, tiles, cell, colour);
            run.laid += 1;
            run.add(forced(pieces, coordinates, later));
            if run.full && slips(Slip::RunFullTakesBack) {
                lift_at((pieces, weights, counts), rows, cols, tiles, cell);
                run.laid -= 1;
            }
        }
        store(ran, run.told(budget));
        LEFT.set(run.queue);
    })
}

// ---- probabilities and scores

pub fn normalise(
    probabilities: &[f64],
    rows: usize,
    cols: usize,
    count: u32,
    world: World,
    offset: Offset,
    out: &mut [f64],
) -> Answer<()> {
    unless(refusals::normalise(probabilities, rows, cols, count, world, offset, out), || {
        let cell = refusals::cell_of(rows, cols, world, offset);
        let at = |colour: usize| cell.map_or(0.0, |cell| probabilities[colour * rows * cols + cell.0 * cols + cell.1]);
        let given: Vec<f64> = (0..count as usize).map(at).collect();
        let largest = given.iter().fold(0.0, |largest, &p| if largest < p { p } else { largest });
        let unusable = largest == 0.0 || largest.is_infinite() && !slips(Slip::InfiniteLargestDivides);
        if unusable {
            out.fill(1.0 / f64::from(count));
        } else if slips(Slip::NormaliseBySumOnly) {
            let total: f64 = given.iter().sum();
            out.iter_mut().zip(&given).for_each(|(out, p)| *out = p / total);
        } else {
            let total = given.iter().fold(0.0, |total, p| total + p / largest);
            out.iter_mut().zip(&given).for_each(|(out, p)| *out = p / largest / total);
        }
    })
}

/// The cells of the clipped region, each with its place in the block.
fn region(rows: usize, cols: usize, world: World, offset: Offset, radius: usize) -> Vec<(Cell, (usize, usize))> {
    let (row, col) = index(world, offset);
    let (down, across) = (span(row, radius), span(col, radius));
    let mut cells = Vec::new();
    for r in down.0..down.1.min(rows) {
        for c in across.0..across.1.min(cols) {
            let place = if slips(Slip::CentredBlock) {
                (cut(r as i64 - row + radius as i64), cut(c as i64 - col + radius as i64))
            } else {
                (r - down.0, c - across.0)
            };
            cells.push((Cell(r, c), place));
        }
    }
    cells
}

pub fn product(
    probabilities: &mut [f64],
    rows: usize,
    cols: usize,
    count: u32,
    block: &[f64],
    block_rows: usize,
    block_cols: usize,
    world: World,
    offset: Offset,
    radius: usize,
) -> Answer<()> {
    let refused =
        refusals::product(probabilities, rows, cols, count, block, block_rows, block_cols, world, offset, radius);
    unless(refused, || {
        for (cell, (i, j)) in region(rows, cols, world, offset, radius) {
            for colour in 0..count as usize {
                let factor = if i < block_rows && j < block_cols {
                    block[colour * block_rows * block_cols + i * block_cols + j]
                } else if slips(Slip::BlockNotBeyond) {
                    0.0
                } else {
                    1.0
                };
                probabilities[colour * rows * cols + cell.0 * cols + cell.1] *= factor;
            }
        }
    })
}

pub fn quotient(
    probabilities: &mut [f64],
    rows: usize,
    cols: usize,
    count: u32,
    block: &[f64],
    block_rows: usize,
    block_cols: usize,
    world: World,
    offset: Offset,
    radius: usize,
) -> Answer<()> {
    let refused =
        refusals::product(probabilities, rows, cols, count, block, block_rows, block_cols, world, offset, radius);
    unless(refused, || {
        for (cell, (i, j)) in region(rows, cols, world, offset, radius) {
            for colour in 0..count as usize {
                if i < block_rows && j < block_cols {
                    let factor = block[colour * block_rows * block_cols + i * block_cols + j];
                    if factor != 0.0 || slips(Slip::ZeroFactorDivides) {
                        probabilities[colour * rows * cols + cell.0 * cols + cell.1] /= factor;
                    }
                }
            }
        }
    })
}

/// The mean of a term over rows R-2..=R and columns C-2..=C within the grid.
fn mean(counts: &[u32], rows: usize, cols: usize, number: usize, corner: Cell, squared: bool) -> f64 {
    let (mut sum, mut cells) = (0.0, 0.0);
    for k in 0..9 {
        let (i, j) = if slips(Slip::SumByColumns) { (k % 3, k / 3) } else { (k / 3, k % 3) };
        let (Some(row), Some(col)) = ((corner.0 + i).checked_sub(2), (corner.1 + j).checked_sub(2)) else { continue };
        if row < rows && col < cols {
            let fraction = f64::from(counts[row * cols + col]) / number as f64;
            sum += if squared { fraction * fraction } else { fraction };
            cells += 1.0;
        }
    }
    sum / cells
}

pub fn lay_score(
    scores: &mut [f64],
    counts: &[u32],
    rows: usize,
    cols: usize,
    number: usize,
    world: World,
    offset: Offset,
) -> Answer<()> {
    unless(refusals::lay_score(scores, counts, rows, cols, number, world, offset), || {
        let (row, col) = index(world, offset);
        let (down, across) = (span(row, 2), span(col, 2));
        for target_row in down.0 + 1..down.1.min(rows) {
            for target_col in across.0 + 1..across.1.min(cols) {
                let corner = Cell(target_row + 1, target_col + 1);
                let mean = mean(counts, rows, cols, number, corner, false);
                let Cell(row, col) = if slips(Slip::LayScoreAtTarget) { Cell(target_row, target_col) } else { corner };
                if row < rows && col < cols {
                    scores[row * cols + col] = mean;
                }
            }
        }
    })
}

pub fn lift_score(
    scores: &mut [f64],
    counts: &[u32],
    rows: usize,
    cols: usize,
    number: usize,
    row_span: Span,
    col_span: Span,
) -> Answer<()> {
    unless(refusals::lift_score(scores, counts, rows, cols, number, row_span, col_span), || {
        for row in row_span.0..row_span.1 {
            for col in col_span.0..col_span.1 {
                let shift = usize::from(slips(Slip::LiftScoreCentred));
                let corner = Cell(row + shift, col + shift);
                scores[row * cols + col] = mean(counts, rows, cols, number, corner, !slips(Slip::LiftScoreUnsquared));
            }
        }
    })
}

// ---- the plain score

/// R-2..=R in the grid, from a first row on that is 0 but for a slip; and of columns likewise.
fn two_back(at: usize, side: usize, first: usize, ahead: Slip) -> Range<usize> {
    let shift = if slips(ahead) { 2 } else { usize::from(slips(Slip::PlainCentred)) };
    let side = if slips(Slip::PlainWholeRegions) { side.saturating_sub(2) } else { side };
    (at + shift).saturating_sub(2).max(first)..(at + shift + 1).min(side)
}

/// Document 02's request 4: the mean of the unsquared fractions at rows R-2..=R and columns C-2..=C in the grid.
fn plain_mean(counts: &[u32], rows: usize, cols: usize, number: usize, cell: Cell, first: Cell, old: f64) -> f64 {
    let down = two_back(cell.0, rows, first.0, Slip::PlainRowsAhead);
    let across = two_back(cell.1, cols, first.1, Slip::PlainColsAhead);
    let lines: Vec<&[u32]> = down.map(|row| &counts[row * cols..][across.clone()]).collect();
    if let Some(mean) = tempting_mean(&lines, number as f64) {
        return mean;
    }
    let (mut sum, mut cells) = (if slips(Slip::PlainSumFromOld) { old } else { 0.0 }, 0.0);
    for line in lines {
        for &count in line {
            sum += f64::from(count) / number as f64;
            cells += 1.0;
        }
    }
    sum / cells
}

/// Other ways to a mean of these counts, a line a row.
fn tempting_mean(lines: &[&[u32]], number: f64) -> Option<f64> {
    let fraction = |count: u32| f64::from(count) / number;
    let all: Vec<u32> = lines.concat();
    let cells = all.len() as f64;
    let sum = |terms: Vec<f64>| terms.iter().fold(0.0, |sum, term| sum + term);
    let of = |counts: &[u32], term: &dyn Fn(u32) -> f64| sum(counts.iter().map(|&count| term(count)).collect());
    match SLIP.get()? {
        Slip::PlainSquared => Some(of(&all, &|count| fraction(count) * fraction(count)) / cells),
        Slip::PlainOverNine => Some(of(&all, &fraction) / 9.0),
        Slip::PlainByColumns => {
            let column = |col: usize| lines.iter().map(move |line| line[col]);
            let across = lines.first().map_or(0, |line| line.len());
            Some(of(&(0..across).flat_map(column).collect::<Vec<_>>(), &fraction) / cells)
        }
        Slip::PlainRowsApart => Some(sum(lines.iter().map(|line| of(line, &fraction)).collect()) / cells),
        Slip::PlainByReciprocal => Some(of(&all, &|count| f64::from(count) * (1.0 / number)) / cells),
        Slip::PlainCountsSummed => Some(f64::from(all.iter().sum::<u32>()) / number / cells),
        Slip::PlainSharesSummed => Some(of(&all, &|count| fraction(count) / cells)),
        _ => None,
    }
}

pub fn plain_score(scores: &mut [f64], counts: &[u32], rows: usize, cols: usize, number: usize) -> Answer<()> {
    let mut refused = refusals::plain_score(scores.len(), counts, rows, cols, number);
    if refused.is_none() && slips(Slip::PlainAsksOld) {
        refused = refusals::plain_score_near(scores, counts, rows, cols, number, Span(0, 0), Span(0, 0));
    }
    if refused.is_some() && slips(Slip::RefusedPlainFills) {
        scores.fill(0.0);
    }
    unless(refused, || {
        for row in 0..rows - usize::from(slips(Slip::PlainLastRowLeft)) {
            for col in 0..cols - usize::from(slips(Slip::PlainLastColLeft)) {
                let at = row * cols + col;
                scores[at] = plain_mean(counts, rows, cols, number, Cell(row, col), Cell(0, 0), scores[at]);
            }
        }
    })
}

/// The indices of a span, as a slip may have them; on the board.
fn near_span(Span(start, end): Span, side: usize) -> Range<usize> {
    let end = match SLIP.get() {
        Some(Slip::NearEndIncluded) => end.saturating_add(1),
        Some(Slip::NearReachesOn) if start < end => end.saturating_add(2),
        Some(Slip::NearWritesEmpty) => end.max(start.saturating_add(1)),
        _ => end,
    };
    start..end.min(side)
}

/// Whether a slip lets these old scores pass: asked where NUMBER speaks.
fn unasked(scores: &[f64], cols: usize, down: Range<usize>, across: Range<usize>) -> bool {
    let bad = |at: usize| !scores[at].is_finite() || scores[at] < 0.0;
    let in_spans = |at: usize| down.contains(&(at / cols)) && across.contains(&(at % cols));
    slips(Slip::NearUnasked) || slips(Slip::NearAsksSpans) && !(0..scores.len()).any(|at| bad(at) && in_spans(at))
}

pub fn plain_score_near(
    scores: &mut [f64],
    counts: &[u32],
    rows: usize,
    cols: usize,
    number: usize,
    row_span: Span,
    col_span: Span,
) -> Answer<()> {
    let mut refused = refusals::plain_score_near(scores, counts, rows, cols, number, row_span, col_span);
    let (row_span, col_span) =
        if slips(Slip::NearSpansExchanged) { (col_span, row_span) } else { (row_span, col_span) };
    let (down, across) = (near_span(row_span, rows), near_span(col_span, cols));
    if refused == Some(NUMBER) && unasked(scores, cols, down.clone(), across.clone()) {
        refused = None;
    }
    if refused.is_some() && slips(Slip::RefusedPlainFills) {
        scores.fill(0.0);
    }
    unless(refused, || {
        if slips(Slip::NearClearsOthers) {
            scores.fill(0.0);
        }
        let first = if slips(Slip::NearMeanInSpans) { Cell(down.start, across.start) } else { Cell(0, 0) };
        for row in down {
            for col in across.clone() {
                let at = row * cols + col;
                scores[at] = plain_mean(counts, rows, cols, number, Cell(row, col), first, scores[at]);
            }
        }
    })
}
