//! One plain function a step, over slices and numbers; planes row by row, tiles nine bytes each. All inputs are inside
//! document 01's domain: the text has no refusals, and what it does elsewhere is not asked here.

use crate::algorithm::bitset::TileBitset;
use crate::algorithm::cache::ViableTilesCache;
use crate::algorithm::deadlock::{
    DeadlockState, reach_aggregate_feasibility, reach_recount_feasibility, reach_revert_adjacency_weights,
    reach_revert_probabilities, resolve_spatial_deadlock,
};
use crate::algorithm::feasibility::FeasibilityCountLayer;
use crate::algorithm::propagation::{
    ForcedPipeline, ForcedPosition, StepData, check_for_contradiction, detect_forced_positions,
    update_feasibility_counts, update_grid_state, update_probabilities_and_entropy,
};
use crate::algorithm::selection::{
    compute_viable_tiles_at_position, get_tile_probabilities_at_position, reach_compatible_values,
};
use crate::spatial::GridState;
use crate::spatial::extension::{self, Extendable, ExtensionInfo};
use crate::spatial::grid::{self, BoundingBox};
use crate::spatial::tiles::{Tile, TileExtractor, convert_tile_to_membership_booleans};
use ndarray::{Array2, Array4};
use std::collections::{BTreeMap, BTreeSet};
use std::ops::Range;

/// Row and column: of a wall coordinate or an offset, of a cell, or a plane's sides.
pub type Place = [i32; 2];
pub type Cell = [usize; 2];
pub type Sides = [usize; 2];

// ---- places

pub fn spans(offset: Place, world: Place, radius: usize) -> (Range<usize>, Range<usize>) {
    grid::get_region_spans(offset, world, signed(radius))
}

pub fn contains(min: Place, max: Place, world: Place) -> bool {
    BoundingBox { min, max }.contains(world)
}

#[derive(Clone, Copy, Debug, PartialEq, Eq)]
pub struct Extension {
    /// left, right, top, bottom
    pub pads: [usize; 4],
    pub offset: Place,
    pub needed: bool,
}

fn plain(info: &ExtensionInfo) -> Extension {
    Extension {
        pads: [info.pad_left, info.pad_right, info.pad_top, info.pad_bottom],
        offset: info.new_offset,
        needed: info.needs_extension,
    }
}

pub fn extension(sides: Sides, offset: Place, world: Place, radius: usize) -> Extension {
    plain(&extension::calculate_extension(sides, offset, world, signed(radius)))
}

pub fn constrain_extension(
    sides: Sides,
    offset: Place,
    world: Place,
    radius: usize,
    min: Place,
    max: Place,
) -> Extension {
    let info = extension::calculate_extension(sides, offset, world, signed(radius));
    let grid = GridState::new(sides[0], sides[1], 0);
    plain(&grid.reach_constrain_extension(info, &BoundingBox { min, max }, offset))
}

pub fn copy_u32(plane: &[u32], sides: Sides, pads: [usize; 4]) -> Vec<u32> {
    copy(plane, sides, pads, u32::padding_value())
}

pub fn copy_f64(plane: &[f64], sides: Sides, pads: [usize; 4]) -> Vec<f64> {
    copy(plane, sides, pads, f64::padding_value())
}

fn copy<T: Clone>(plane: &[T], sides: Sides, pads: [usize; 4], fill: T) -> Vec<T> {
    // the copy reads no offset
    let info = ExtensionInfo {
        pad_left: pads[0],
        pad_right: pads[1],
        pad_top: pads[2],
        pad_bottom: pads[3],
        new_offset: [0, 0],
        needs_extension: pads.iter().sum::<usize>() > 0,
    };
    cells(&extension::extend_array_2d(&array(plane, sides), &info, fill))
}

// ---- tiles and sets

pub fn extract(sample: &[u8], sides: Sides, rotations: bool, reflections: bool) -> Vec<u8> {
    Sample::new(sample, sides).extract(rotations, reflections).source_tiles().iter().flat_map(bytes_of).collect()
}

/// A sample in the text's own form, so that its extraction can be timed alone.
pub struct Sample(Array2<usize>);

impl Sample {
    pub fn new(sample: &[u8], sides: Sides) -> Self {
        let sample: Vec<usize> = sample.iter().map(|&cell| usize::from(cell)).collect();
        Self(array(&sample, sides))
    }

    pub fn extract(&self, rotations: bool, reflections: bool) -> TileExtractor {
        TileExtractor::extract_tiles(&self.0, 3, rotations, reflections)
    }
}

pub fn rotate(tile: &[u8; 9]) -> [u8; 9] {
    bytes_of(&TileExtractor::reach_rotate_90(&tile_of(tile)))
}

pub fn reflect(tile: &[u8; 9]) -> [u8; 9] {
    bytes_of(&TileExtractor::reach_reflect(&tile_of(tile)))
}

/// The first of equal tiles, in order.
pub fn distinct(tiles: &[u8]) -> Vec<u8> {
    TileExtractor::reach_deduplicate_tiles(tiles_of(tiles)).iter().flat_map(bytes_of).collect()
}

/// Bit t-1 stands for colour t, here and in the sets below.
pub fn membership(tile: &[u8; 9], count: usize) -> u32 {
    bits_of_flags(&convert_tile_to_membership_booleans(&signed_tile(&tile_of(tile)), count))
}

pub fn set_new(size: usize) -> u32 {
    bits_of(&TileBitset::new(size))
}

pub fn set_all(size: usize) -> u32 {
    bits_of(&TileBitset::all(size))
}

pub fn set_insert(bits: u32, size: usize, colour: usize) -> u32 {
    let mut set = set_of(bits, size);
    set.insert(colour);
    bits_of(&set)
}

pub fn set_contains(bits: u32, size: usize, colour: usize) -> bool {
    set_of(bits, size).contains(colour)
}

pub fn set_intersection(bits: u32, other: u32, size: usize) -> u32 {
    bits_of(&set_of(bits, size).intersection(&set_of(other, size)))
}

pub fn set_is_empty(bits: u32, size: usize) -> bool {
    set_of(bits, size).is_empty()
}

pub fn set_count(bits: u32, size: usize) -> usize {
    set_of(bits, size).count()
}

pub fn set_to_vec(bits: u32, size: usize) -> Vec<usize> {
    set_of(bits, size).to_vec()
}

// ---- the job: tiles, colour count, index, cache

/// Above this the text's index, which has an entry for each of 2^count patterns, is not built.
pub const MOST_COLOURS_INDEXED: usize = 12;

#[derive(Clone, Copy, Debug, PartialEq, Eq)]
pub enum Cache {
    /// a new one for this call
    New,
    /// the job's own, which lasts from call to call
    Kept,
}

pub struct Job {
    step: StepData,
    cache: ViableTilesCache,
    wanted: Option<Wanted>,
}

/// For an index made on demand: what each tile holds, and the keys that have been looked at.
struct Wanted {
    held: Vec<u32>,
    seen: BTreeSet<u32>,
    open: bool,
}

impl Job {
    /// The index is the text's own up to 12 colours; above, it gets the keys that are looked up.
    pub fn new(tiles: &[u8], count: usize) -> Self {
        if count > MOST_COLOURS_INDEXED {
            return Self::on_demand(tiles, count);
        }
        let tiles = tiles_of(tiles);
        let index = TileExtractor::reach_rules_of(tiles.clone(), count);
        Self { step: step_data(tiles, index, count, 0), cache: ViableTilesCache::new(), wanted: None }
    }

    pub fn on_demand(tiles: &[u8], count: usize) -> Self {
        let tiles = tiles_of(tiles);
        let held = tiles
            .iter()
            .map(|tile| bits_of_flags(&convert_tile_to_membership_booleans(&signed_tile(tile), count)))
            .collect();
        Self {
            step: step_data(tiles, BTreeMap::new(), count, 0),
            cache: ViableTilesCache::new(),
            wanted: Some(Wanted { held, seen: BTreeSet::new(), open: true }),
        }
    }

    pub fn tiles(&self) -> usize {
        self.step.source_tiles.len()
    }

    pub fn index(&self) -> &BTreeMap<Vec<u8>, Vec<usize>> {
        &self.step.tile_compatibility_rules
    }

    pub fn forget_cache(&mut self) {
        self.cache = ViableTilesCache::new();
    }

    /// Hits and misses of the kept cache.
    pub fn cache_use(&self) -> (usize, usize) {
        (self.cache.stats.hits, self.cache.stats.misses)
    }

    /// From here on no key is added: for timing, after a first run has looked up all that the timed one will.
    pub fn close_index(&mut self) {
        if let Some(wanted) = &mut self.wanted {
            wanted.open = false;
        }
    }

    /// Gives an index made on demand the key of every pattern of a region that starts in the given spans.
    fn want(&mut self, grid: &GridState, rows: Range<usize>, cols: Range<usize>) {
        if self.wanted.as_ref().is_none_or(|wanted| !wanted.open) {
            return;
        }
        let mut keys = Vec::new();
        for row in rows.start..rows.end.min(grid.rows()) {
            for col in cols.start..cols.end.min(grid.cols()) {
                let mut pattern = [[0; 3]; 3];
                for (i, line) in pattern.iter_mut().enumerate() {
                    for (j, cell) in line.iter_mut().enumerate() {
                        // past the edge it is bare
                        *cell = grid.locked_tiles.get([row + i, col + j]).map_or(0, |&stored| stored as i32 - 1);
                    }
                }
                let key = convert_tile_to_membership_booleans(&pattern, self.step.unique_cell_count);
                keys.push(bits_of_flags(&key));
            }
        }
        self.want_keys(keys);
    }

    /// The keys of all 2^count patterns: to hold against the text's own index.
    pub fn want_all(&mut self) {
        self.want_keys(0..1 << self.step.unique_cell_count);
    }

    /// The keys of an index made on demand, each as a set of colours.
    pub fn keys(&self) -> Vec<u32> {
        self.wanted.iter().flat_map(|wanted| wanted.seen.iter().copied()).collect()
    }

    pub fn want_keys(&mut self, keys: impl IntoIterator<Item = u32>) {
        let Some(wanted) = self.wanted.as_mut().filter(|wanted| wanted.open) else { return };
        for flagged in keys {
            if wanted.seen.insert(flagged) {
                // the text's rule: the tile holds every type that the key flags; numbers from 1; no empty list
                let tiles: Vec<usize> =
                    (0..wanted.held.len()).filter(|&n| flagged & !wanted.held[n] == 0).map(|n| n + 1).collect();
                if !tiles.is_empty() {
                    let key = (0..self.step.unique_cell_count).map(|t| (flagged >> t & 1) as u8).collect();
                    self.step.tile_compatibility_rules.insert(key, tiles);
                }
            }
        }
    }

    /// Regions that hold one of the cells within `reach` of a cell start here.
    fn want_round(&mut self, board: &Board, cell: Cell, reach: usize) {
        let [row, col] = cell;
        self.want(
            &board.grid,
            row.saturating_sub(reach + 2)..row + reach + 1,
            col.saturating_sub(reach + 2)..col + reach + 1,
        );
    }

    pub fn want_board(&mut self, board: &Board) {
        self.want(&board.grid, 0..board.grid.rows(), 0..board.grid.cols());
    }

    // ---- fit

    pub fn listing(&mut self, board: &Board, world: Place, offset: Place, cache: Cache) -> Vec<usize> {
        self.want_round(board, index(world, offset), 0);
        let mut new = ViableTilesCache::new();
        let cache = if cache == Cache::Kept { &mut self.cache } else { &mut new };
        compute_viable_tiles_at_position(&board.grid, world, offset, &self.step.source_tiles, &self.step, cache)
    }

    /// The colours that the tiles fitting one window have at one of its places; 0 is bare. The listing is the
    /// intersection of these, and the cache stands before this step.
    pub fn window(&mut self, pattern: &[u8; 9], place: [usize; 2]) -> Vec<usize> {
        let pattern = signed_tile(&tile_of(pattern));
        let key = convert_tile_to_membership_booleans(&pattern, self.step.unique_cell_count);
        self.want_keys([bits_of_flags(&key)]);
        reach_compatible_values(&pattern, &self.step, place[0], place[1]).to_vec()
    }

    /// Places and colours. The board's box, if it has one, is the text's generation bounds.
    pub fn forced(&mut self, board: &Board, world: Place, offset: Place, cache: Cache) -> Vec<(Place, usize)> {
        self.want_round(board, index(world, offset), 1);
        let mut new = ViableTilesCache::new();
        let cache = if cache == Cache::Kept { &mut self.cache } else { &mut new };
        detect_forced_positions(&board.grid, world, offset, &self.step.source_tiles, &self.step, cache)
            .iter()
            .map(|position| (position.coordinates, position.tile_reference))
            .collect()
    }

    /// Within one scan the text's cache serves from cell to cell, new or not; `uncached` is built without it.
    pub fn scan(&mut self, board: &Board, offset: Place, cache: Cache) -> Option<Cell> {
        self.want_board(board);
        let mut new = ViableTilesCache::new();
        let cache = if cache == Cache::Kept { &mut self.cache } else { &mut new };
        check_for_contradiction(&board.grid, offset, &self.step, cache)
    }

    /// How many tiles fit the region that starts at a cell. The text only counts regions inside its grid, so it is asked
    /// on a board that its own copy has widened by two bare rows and columns.
    pub fn region_count(&mut self, pieces: &[u32], sides: Sides, start: Cell) -> usize {
        let wide = [sides[0] + 2, sides[1] + 2];
        let board = Board::with_pieces(&copy_u32(pieces, sides, [0, 2, 0, 2]), wide);
        let [row, col] = start;
        self.want(&board.grid, row..row + 1, col..col + 1);
        let mut layer = FeasibilityCountLayer::new(wide[0], wide[1], self.tiles());
        reach_recount_feasibility(&board.grid, &mut layer, &self.step, &(row..row + 1), &(col..col + 1));
        layer.reach_counts()[row * wide[1] + col] as usize
    }

    // ---- the board's steps

    /// The recount as laying does it: the first half of the text's update_feasibility_counts.
    pub fn recount_as_laying(&mut self, board: &mut Board, world: Place, offset: Place) {
        self.want_round(board, index(world, offset), 2);
        update_feasibility_counts(&mut board.grid, &mut board.layer, world, offset, &self.step);
    }

    /// The recount as the text's resolution does it, over the spans of radius 2.
    pub fn recount(&mut self, board: &mut Board, world: Place, offset: Place) {
        self.want_round(board, index(world, offset), 2);
        let (rows, cols) = grid::get_region_spans(offset, world, 2);
        reach_recount_feasibility(&board.grid, &mut board.layer, &self.step, &rows, &cols);
    }

    /// The text's laying: weights and piece, then counts and scores.
    pub fn lay(&mut self, board: &mut Board, world: Place, offset: Place, colour: usize) {
        update_grid_state(&mut board.grid, colour, world, offset, &mut None, 0);
        self.recount_as_laying(board, world, offset);
    }

    /// The same without scores, which the port's lay does not write: for timing.
    pub fn lay_unscored(&mut self, board: &mut Board, world: Place, offset: Place, colour: usize) {
        update_grid_state(&mut board.grid, colour, world, offset, &mut None, 0);
        self.recount(board, world, offset);
    }

    /// A board with these pieces alone: the text lays each, weights and piece, and then counts every region anew.
    pub fn afresh(&mut self, standing: &[(Place, usize)], sides: Sides, offset: Place) -> Board {
        let mut board = Board::fresh(sides, self.tiles());
        for &(world, colour) in standing {
            update_grid_state(&mut board.grid, colour, world, offset, &mut None, 0);
        }
        self.want_board(&board);
        reach_recount_feasibility(&board.grid, &mut board.layer, &self.step, &(0..sides[0]), &(0..sides[1]));
        board
    }

    /// The steps of the text's resolution for one piece: the piece back, weights down, recount.
    pub fn lift(&mut self, board: &mut Board, world: Place, offset: Place) {
        let stored = board.grid.locked_tiles.get_mut(index(world, offset)).unwrap();
        // as the text's resolution does, whose line has no function of its own
        let reference = *stored - 1;
        *stored = stored.saturating_sub(reference);
        reach_revert_adjacency_weights(&mut board.grid, offset, world);
        self.recount(board, world, offset);
    }

    /// The text's whole resolution round a cell that has had none yet: it lifts every piece at most one cell away.
    pub fn resolve(&mut self, board: &mut Board, cell: Cell, offset: Place) {
        // it counts on the board that it leaves, so the index gets the keys of that one
        let mut after = board.grid.clone();
        for row in cell[0].saturating_sub(1)..(cell[0] + 2).min(after.rows()) {
            for col in cell[1].saturating_sub(1)..(cell[1] + 2).min(after.cols()) {
                *after.locked_tiles.get_mut([row, col]).unwrap() = 1;
            }
        }
        self.want(&after, 0..after.rows(), 0..after.cols());
        // the text widens its reach each time the same cell comes up
        *board.grid.removal_count.get_mut(cell).unwrap() = 0;
        let _ = resolve_spatial_deadlock(
            DeadlockState {
                grid_state: &mut board.grid,
                feasibility_layer: &mut board.layer,
                selection_tally: &mut [],
                visualization: &mut None,
            },
            cell,
            offset,
            &self.step,
            // no influence of any colour
            &Array4::from_elem([0, 0, 0, 0], 1.0),
            0,
        );
    }
}

// ---- the board, in the text's own form

pub struct Board {
    grid: GridState,
    layer: FeasibilityCountLayer,
}

impl Board {
    pub fn fresh(sides: Sides, tiles: usize) -> Self {
        Self {
            grid: GridState::new(sides[0], sides[1], 0),
            layer: FeasibilityCountLayer::new(sides[0], sides[1], tiles),
        }
    }

    pub fn with_pieces(pieces: &[u32], sides: Sides) -> Self {
        let mut board = Self::fresh(sides, 1);
        board.grid.locked_tiles = array(pieces, sides);
        board
    }

    pub fn with_planes(pieces: &[u32], weights: &[u32], counts: &[u32], sides: Sides, tiles: usize) -> Self {
        let mut board = Self::with_pieces(pieces, sides);
        board.grid.adjacency_weights = array(weights, sides);
        board.layer = FeasibilityCountLayer::reach_from(sides[0], sides[1], counts, tiles);
        board
    }

    pub fn set_weights(&mut self, weights: &[u32]) {
        self.grid.adjacency_weights = array(weights, [self.grid.rows(), self.grid.cols()]);
    }

    /// A piece alone, without weights and counts: for timing, to set up a board quickly.
    pub fn put(&mut self, world: Place, colour: u32) {
        *self.grid.locked_tiles.get_mut(index(world, [0, 0])).unwrap() = colour + 1;
    }

    pub fn set_box(&mut self, bounds: Option<(Place, Place)>) {
        self.grid.generation_bounds = bounds.map(|(min, max)| BoundingBox { min, max });
    }

    pub fn pieces(&self) -> Vec<u32> {
        cells(&self.grid.locked_tiles)
    }

    pub fn is_bare(&self, world: Place, offset: Place) -> bool {
        self.grid.locked_tiles.get(index(world, offset)) == Some(&1)
    }

    pub fn weights(&self) -> Vec<u32> {
        cells(&self.grid.adjacency_weights)
    }

    pub fn counts(&self) -> Vec<u32> {
        self.layer.reach_counts()
    }

    pub fn scores(&self) -> Vec<f64> {
        cells(&self.grid.feasibility)
    }

    /// The text's own growing of a grid, all its planes at once; the new offset.
    pub fn extend(&mut self, offset: Place, world: Place, radius: usize) -> Place {
        self.grid.extend_if_needed(offset, world, signed(radius)).0
    }

    pub fn sides(&self) -> Sides {
        [self.grid.rows(), self.grid.cols()]
    }
}

/// The weights that laying leaves; no piece is written (colour 0).
pub fn raise_weights(weights: &[u32], sides: Sides, world: Place, offset: Place) -> Vec<u32> {
    let mut grid = GridState::new(sides[0], sides[1], 0);
    grid.adjacency_weights = array(weights, sides);
    update_grid_state(&mut grid, 0, world, offset, &mut None, 0);
    cells(&grid.adjacency_weights)
}

pub fn lower_weights(weights: &[u32], sides: Sides, world: Place, offset: Place) -> Vec<u32> {
    let mut grid = GridState::new(sides[0], sides[1], 0);
    grid.adjacency_weights = array(weights, sides);
    reach_revert_adjacency_weights(&mut grid, offset, world);
    cells(&grid.adjacency_weights)
}

// ---- the queue

/// A wall coordinate and a colour.
pub type Entry = (Place, usize);

fn pipeline(queue: &[Entry]) -> ForcedPipeline {
    ForcedPipeline { queue: queue.iter().map(position).collect() }
}

fn position(&(coordinates, tile_reference): &Entry) -> ForcedPosition {
    ForcedPosition { coordinates, tile_reference }
}

fn entries(queue: &ForcedPipeline) -> Vec<Entry> {
    queue.queue.iter().map(|entry| (entry.coordinates, entry.tile_reference)).collect()
}

pub fn queue_add(queue: &[Entry], added: &[Entry]) -> Vec<Entry> {
    let mut queue = pipeline(queue);
    queue.add_positions(added.iter().map(position).collect());
    entries(&queue)
}

pub fn queue_take(queue: &[Entry]) -> (Option<Entry>, Vec<Entry>) {
    let mut queue = pipeline(queue);
    let taken = queue.take_next().map(|entry| (entry.coordinates, entry.tile_reference));
    (taken, entries(&queue))
}

pub fn queue_is_empty(queue: &[Entry]) -> bool {
    pipeline(queue).is_empty()
}

pub fn queue_len(queue: &[Entry]) -> usize {
    pipeline(queue).len()
}

// ---- fractions and scores

pub fn fraction(counts: &[u32], sides: Sides, tiles: usize, cell: Cell) -> f64 {
    FeasibilityCountLayer::reach_from(sides[0], sides[1], counts, tiles).get_fraction(cell[0], cell[1])
}

/// The second half of the text's update_feasibility_counts. Its first half recounts, so it is fed a board of its own
/// where the recount gives the counts as lent: every cell that it reads has a colour of its own, so each region has its
/// own key in the index, and there the one tile that fits is named as often as the count says.
pub fn lay_score(scores: &[f64], counts: &[u32], sides: Sides, tiles: usize, world: Place, offset: Place) -> Vec<f64> {
    let (rows, cols) = grid::get_region_spans(offset, world, 2);
    let read_rows = rows.start..(rows.end + 2).min(sides[0]);
    let read_cols = cols.start..(cols.end + 2).min(sides[1]);

    let mut pieces = vec![1; sides[0] * sides[1]];
    let mut colours = 0;
    for row in read_rows {
        for col in read_cols.clone() {
            colours += 1;
            pieces[row * sides[1] + col] = colours + 1;
        }
    }

    let mut patterns = Vec::new();
    let mut rules = BTreeMap::new();
    for row in rows.start..rows.end.min(sides[0].saturating_sub(2)) {
        for col in cols.start..cols.end.min(sides[1].saturating_sub(2)) {
            let pattern: Tile =
                std::array::from_fn(|i| std::array::from_fn(|j| pieces[(row + i) * sides[1] + col + j] as usize - 1));
            patterns.push(pattern);
            let key = convert_tile_to_membership_booleans(&signed_tile(&pattern), colours as usize);
            rules.insert(key, vec![patterns.len(); counts[row * sides[1] + col] as usize]);
        }
    }

    let step = step_data(patterns, rules, colours as usize, 0);
    let mut board = Board::with_planes(&pieces, &vec![1; pieces.len()], counts, sides, tiles);
    board.grid.feasibility = array(scores, sides);
    update_feasibility_counts(&mut board.grid, &mut board.layer, world, offset, &step);
    assert_eq!(board.counts(), counts, "the feed of lay_score moved a count");
    board.scores()
}

pub fn lift_score(
    scores: &[f64],
    counts: &[u32],
    sides: Sides,
    tiles: usize,
    rows: Range<usize>,
    cols: Range<usize>,
) -> Vec<f64> {
    let mut grid = GridState::new(sides[0], sides[1], 0);
    grid.feasibility = array(scores, sides);
    let layer = FeasibilityCountLayer::reach_from(sides[0], sides[1], counts, tiles);
    reach_aggregate_feasibility(&mut grid, &layer, rows, cols);
    cells(&grid.feasibility)
}

// ---- probabilities: one plane, colour by colour, each row by row; a block likewise

pub fn normalise(probabilities: &[f64], sides: Sides, count: usize, world: Place, offset: Place) -> Vec<f64> {
    get_tile_probabilities_at_position(&with_probabilities(probabilities, sides, count), world, offset)
}

pub fn product(
    probabilities: &[f64],
    sides: Sides,
    count: usize,
    block: &[f64],
    block_sides: Sides,
    world: Place,
    offset: Place,
    radius: usize,
) -> Vec<f64> {
    let mut grid = with_probabilities(probabilities, sides, count);
    let step = step_data(Vec::new(), BTreeMap::new(), count, signed(radius));
    let influence = influence(block, count, block_sides);
    update_probabilities_and_entropy(&mut grid, &influence, CHOSEN, world, offset, &step);
    grid.tile_probabilities.iter().flat_map(cells).collect()
}

pub fn quotient(
    probabilities: &[f64],
    sides: Sides,
    count: usize,
    block: &[f64],
    block_sides: Sides,
    world: Place,
    offset: Place,
    radius: usize,
) -> Vec<f64> {
    let mut grid = with_probabilities(probabilities, sides, count);
    let step = step_data(Vec::new(), BTreeMap::new(), count, signed(radius));
    let influence = influence(block, count, block_sides);
    reach_revert_probabilities(&mut grid, &influence, CHOSEN, offset, world, &step);
    grid.tile_probabilities.iter().flat_map(cells).collect()
}

/// The text's influence array has a block for each chosen colour. Here there are two, and the one that is not chosen
/// holds NaN, which would be seen.
const CHOSEN: usize = 2;

fn influence(block: &[f64], count: usize, sides: Sides) -> Array4<f64> {
    let mut both = vec![f64::NAN; block.len()];
    both.extend_from_slice(block);
    Array4::from_shape_vec([2, count, sides[0], sides[1]], both).unwrap()
}

fn with_probabilities(probabilities: &[f64], sides: Sides, count: usize) -> GridState {
    let mut grid = GridState::new(sides[0], sides[1], 0);
    grid.unique_cell_count = count;
    grid.tile_probabilities = probabilities.chunks(sides[0] * sides[1]).map(|plane| array(plane, sides)).collect();
    grid
}

// ---- between the text's forms and plain ones

fn signed(number: usize) -> i32 {
    i32::try_from(number).unwrap()
}

fn index(world: Place, offset: Place) -> Cell {
    [0, 1].map(|axis| usize::try_from(world[axis] + offset[axis]).expect("a place off the board"))
}

fn array<T: Clone>(plane: &[T], sides: Sides) -> Array2<T> {
    Array2::from_shape_vec(sides, plane.to_vec()).unwrap()
}

fn cells<T: Clone>(plane: &Array2<T>) -> Vec<T> {
    plane.iter().cloned().collect()
}

fn tile_of(bytes: &[u8]) -> Tile {
    std::array::from_fn(|i| std::array::from_fn(|j| usize::from(bytes[i * 3 + j])))
}

fn tiles_of(bytes: &[u8]) -> Vec<Tile> {
    bytes.chunks_exact(9).map(tile_of).collect()
}

fn bytes_of(tile: &Tile) -> [u8; 9] {
    std::array::from_fn(|k| u8::try_from(tile[k / 3][k % 3]).unwrap())
}

fn signed_tile(tile: &Tile) -> [[i32; 3]; 3] {
    tile.map(|row| row.map(signed))
}

fn set_of(bits: u32, size: usize) -> TileBitset {
    let mut set = TileBitset::new(size);
    (1..=size).filter(|colour| bits >> (colour - 1) & 1 == 1).for_each(|colour| set.insert(colour));
    set
}

fn bits_of(set: &TileBitset) -> u32 {
    set.to_vec().iter().fold(0, |bits, colour| bits | 1 << (colour - 1))
}

fn bits_of_flags(flags: &[u8]) -> u32 {
    flags.iter().enumerate().fold(0, |bits, (at, &flag)| bits | u32::from(flag) << at)
}

fn step_data(tiles: Vec<Tile>, index: BTreeMap<Vec<u8>, Vec<usize>>, count: usize, radius: i32) -> StepData {
    StepData {
        source_ratios: Vec::new(),
        unique_cell_count: count,
        grid_extension_radius: radius,
        density_correction_threshold: 0.0,
        density_correction_steepness: 0.0,
        density_minimum_strength: 0.0,
        source_tiles: tiles,
        tile_compatibility_rules: index,
    }
}
