//! Everything that touches the port: its exported functions as declared, and one safe function a call.
//!
//! The boundary is numbers and slices. A slice goes over as a pointer and its number of elements. Each exported function
//! answers 0 or a refusal's number; what it finds goes into lent slices of exactly the length named here, which a refused
//! call leaves as they were. Fitting colours, lay, lift, widen, the forced run and the plain score are the desk's own
//! functions, the others are exported for tests. Nothing checks these declarations against the port's source but the runs
//! themselves.

use crate::calls::*;
use crate::outcome::Guarded;
use std::hint::black_box;

unsafe extern "C" {
    // out: row start, row end, column start, column end
    fn port_get_region_spans(
        offset_row: i32, offset_col: i32, row: i32, col: i32, radius: usize, out: *mut u64, out_len: usize,
    ) -> u32;
    // out: 0 or 1
    fn port_contains(
        min_row: i32, min_col: i32, max_row: i32, max_col: i32, row: i32, col: i32, out: *mut u32, out_len: usize,
    ) -> u32;
    // pads: left, right, top, bottom; offset: row, column; needed: 0 or 1
    fn port_calculate_extension(
        rows: usize, cols: usize, offset_row: i32, offset_col: i32, row: i32, col: i32, radius: usize,
        pads: *mut u64, pads_len: usize, offset: *mut i32, offset_len: usize, needed: *mut u32, needed_len: usize,
    ) -> u32;
    fn port_constrain_extension(
        rows: usize, cols: usize, offset_row: i32, offset_col: i32, row: i32, col: i32, radius: usize,
        min_row: i32, min_col: i32, max_row: i32, max_col: i32,
        pads: *mut u64, pads_len: usize, offset: *mut i32, offset_len: usize, needed: *mut u32, needed_len: usize,
    ) -> u32;
    fn port_extend_u32(
        plane: *const u32, plane_len: usize, rows: usize, cols: usize,
        left: usize, right: usize, top: usize, bottom: usize, target: *mut u32, target_len: usize,
    ) -> u32;
    fn port_extend_f64(
        plane: *const f64, plane_len: usize, rows: usize, cols: usize,
        left: usize, right: usize, top: usize, bottom: usize, target: *mut f64, target_len: usize,
    ) -> u32;

    // a set in: bits, size; a set out: bits, size; a number out: one entry
    fn port_set_new(size: u32, out: *mut u32, out_len: usize) -> u32;
    fn port_set_all(size: u32, out: *mut u32, out_len: usize) -> u32;
    fn port_set_insert(bits: u32, size: u32, colour: u32, out: *mut u32, out_len: usize) -> u32;
    fn port_set_contains(bits: u32, size: u32, colour: u32, out: *mut u32, out_len: usize) -> u32;
    fn port_set_intersection(
        bits: u32, size: u32, other_bits: u32, other_size: u32, out: *mut u32, out_len: usize,
    ) -> u32;
    fn port_set_is_empty(bits: u32, size: u32, out: *mut u32, out_len: usize) -> u32;
    fn port_set_count(bits: u32, size: u32, out: *mut u64, out_len: usize) -> u32;
    // colours: 30 entries, 0 past the members; len: one entry
    fn port_set_to_vec(
        bits: u32, size: u32, colours: *mut u8, colours_len: usize, len: *mut u64, len_len: usize,
    ) -> u32;

    // out: the number of tiles
    fn port_extract_tiles(
        sample: *const u8, sample_len: usize, rows: usize, cols: usize, count: u32, rotations: bool,
        reflections: bool, store: *mut u8, store_len: usize, out: *mut u64, out_len: usize,
    ) -> u32;
    // nine bytes in, nine out
    fn port_rotate_90(tile: *const u8, tile_len: usize, out: *mut u8, out_len: usize);
    fn port_reflect(tile: *const u8, tile_len: usize, out: *mut u8, out_len: usize);
    fn port_membership(tile: *const u8, tile_len: usize, count: u32, out: *mut u32, out_len: usize) -> u32;

    // start: a cell index
    fn port_region_count(
        pieces: *const u32, pieces_len: usize, rows: usize, cols: usize, tiles: *const u8, tiles_len: usize, count: u32,
        start_row: usize, start_col: usize, out: *mut u64, out_len: usize,
    ) -> u32;
    fn port_fraction(
        counts: *const u32, counts_len: usize, rows: usize, cols: usize, number: usize, row: usize, col: usize,
        out: *mut f64, out_len: usize,
    ) -> u32;
    fn port_listing(
        pieces: *const u32, pieces_len: usize, rows: usize, cols: usize, tiles: *const u8, tiles_len: usize, count: u32,
        row: i32, col: i32, offset_row: i32, offset_col: i32, out: *mut u32, out_len: usize,
    ) -> u32;
    // coordinates: 16 entries, row and column by turns; colours: 8; len: one. Entries past the length are 0.
    fn port_forced(
        pieces: *const u32, pieces_len: usize, rows: usize, cols: usize, tiles: *const u8, tiles_len: usize, count: u32,
        row: i32, col: i32, offset_row: i32, offset_col: i32,
        within: bool, min_row: i32, min_col: i32, max_row: i32, max_col: i32,
        coordinates: *mut i32, coordinates_len: usize, colours: *mut u32, colours_len: usize,
        len: *mut u64, len_len: usize,
    ) -> u32;
    // the queue goes in and comes back in the same slices: coordinates 128 entries, colours 64, len one
    fn port_queue_add(
        coordinates: *mut i32, coordinates_len: usize, colours: *mut u32, colours_len: usize,
        len: *mut u64, len_len: usize,
        added_coordinates: *const i32, added_coordinates_len: usize, added_colours: *const u32,
        added_colours_len: usize, added_len: usize,
    ) -> u32;
    // taken: row, column; colour: one entry; found: 1, or 0 for nothing, and then the others are not read
    fn port_queue_take(
        coordinates: *mut i32, coordinates_len: usize, colours: *mut u32, colours_len: usize,
        len: *mut u64, len_len: usize, taken: *mut i32, taken_len: usize, colour: *mut u32, colour_len: usize,
        found: *mut u32, found_len: usize,
    ) -> u32;
    fn port_queue_is_empty(
        coordinates: *const i32, coordinates_len: usize, colours: *const u32, colours_len: usize, len: usize,
        out: *mut u32, out_len: usize,
    ) -> u32;
    fn port_queue_len(
        coordinates: *const i32, coordinates_len: usize, colours: *const u32, colours_len: usize, len: usize,
        out: *mut u64, out_len: usize,
    ) -> u32;
    // out: 1, row, column; or 0 for nowhere, and then the others are not read
    fn port_scan(
        pieces: *const u32, pieces_len: usize, weights: *const u32, weights_len: usize, rows: usize, cols: usize,
        tiles: *const u8, tiles_len: usize, count: u32, out: *mut u64, out_len: usize,
    ) -> u32;

    fn port_raise_weights(
        weights: *mut u32, weights_len: usize, rows: usize, cols: usize, row: i32, col: i32, offset_row: i32,
        offset_col: i32,
    ) -> u32;
    fn port_lower_weights(
        weights: *mut u32, weights_len: usize, rows: usize, cols: usize, row: i32, col: i32, offset_row: i32,
        offset_col: i32,
    ) -> u32;
    fn port_recount(
        counts: *mut u32, counts_len: usize, pieces: *const u32, pieces_len: usize, rows: usize, cols: usize,
        tiles: *const u8, tiles_len: usize, count: u32, row: i32, col: i32, offset_row: i32, offset_col: i32,
    ) -> u32;
    fn port_fresh(
        pieces: *mut u32, pieces_len: usize, weights: *mut u32, weights_len: usize, counts: *mut u32, counts_len: usize,
        rows: usize, cols: usize, number: usize,
    ) -> u32;

    // the desk's own functions, as include/desk.h has them; found: the set in the first entry, further ones are left alone
    fn desk_fitting_colours(
        pieces: *const u32, pieces_len: usize, rows: usize, cols: usize, tiles: *const u8, tiles_len: usize, count: u32,
        row: i32, col: i32, down: i32, across: i32, found: *mut u64, found_len: usize,
    ) -> u32;
    fn desk_lay(
        pieces: *mut u32, pieces_len: usize, weights: *mut u32, weights_len: usize, counts: *mut u32, counts_len: usize,
        rows: usize, cols: usize, tiles: *const u8, tiles_len: usize, count: u32, row: i32, col: i32, down: i32,
        across: i32, colour: u32,
    ) -> u32;
    fn desk_lift(
        pieces: *mut u32, pieces_len: usize, weights: *mut u32, weights_len: usize, counts: *mut u32, counts_len: usize,
        rows: usize, cols: usize, tiles: *const u8, tiles_len: usize, count: u32, row: i32, col: i32, down: i32,
        across: i32,
    ) -> u32;

    // the new planes come first; offset: down and across as they then are, further entries are left alone
    fn desk_widen(
        widepieces: *mut u32, widepieces_len: usize, wideweights: *mut u32, wideweights_len: usize,
        widecounts: *mut u32, widecounts_len: usize,
        pieces: *const u32, pieces_len: usize, weights: *const u32, weights_len: usize,
        counts: *const u32, counts_len: usize,
        rows: usize, cols: usize, left: usize, right: usize, top: usize, bottom: usize,
        tiles: *const u8, tiles_len: usize, count: u32, down: i32, across: i32, offset: *mut i32, offset_len: usize,
    ) -> u32;

    // ran: how it ended, how many entries were taken, how many of them laid; further entries are left alone
    fn desk_forced_run(
        pieces: *mut u32, pieces_len: usize, weights: *mut u32, weights_len: usize, counts: *mut u32, counts_len: usize,
        rows: usize, cols: usize, tiles: *const u8, tiles_len: usize, count: u32, row: i32, col: i32, down: i32,
        across: i32, within: bool, minrow: i32, mincol: i32, maxrow: i32, maxcol: i32, budget: usize,
        ran: *mut u64, ran_len: usize,
    ) -> u32;

    // of the whole board, and of the cells of two spans
    fn desk_plain_score(
        scores: *mut f64, scores_len: usize, counts: *const u32, counts_len: usize, rows: usize, cols: usize,
        tiles: usize,
    ) -> u32;
    fn desk_plain_score_near(
        scores: *mut f64, scores_len: usize, counts: *const u32, counts_len: usize, rows: usize, cols: usize,
        tiles: usize, rowstart: usize, rowend: usize, colstart: usize, colend: usize,
    ) -> u32;

    fn port_normalise(
        probabilities: *const f64, probabilities_len: usize, rows: usize, cols: usize, count: u32, row: i32, col: i32,
        offset_row: i32, offset_col: i32, out: *mut f64, out_len: usize,
    ) -> u32;
    fn port_product(
        probabilities: *mut f64, probabilities_len: usize, rows: usize, cols: usize, count: u32, block: *const f64,
        block_len: usize, block_rows: usize, block_cols: usize, row: i32, col: i32, offset_row: i32, offset_col: i32,
        radius: usize,
    ) -> u32;
    fn port_quotient(
        probabilities: *mut f64, probabilities_len: usize, rows: usize, cols: usize, count: u32, block: *const f64,
        block_len: usize, block_rows: usize, block_cols: usize, row: i32, col: i32, offset_row: i32, offset_col: i32,
        radius: usize,
    ) -> u32;
    fn port_lay_score(
        scores: *mut f64, scores_len: usize, counts: *const u32, counts_len: usize, rows: usize, cols: usize,
        number: usize, row: i32, col: i32, offset_row: i32, offset_col: i32,
    ) -> u32;
    fn port_lift_score(
        scores: *mut f64, scores_len: usize, counts: *const u32, counts_len: usize, rows: usize, cols: usize,
        number: usize, row_start: usize, row_end: usize, col_start: usize, col_end: usize,
    ) -> u32;
}

fn answer<T>(refused: u32, value: T) -> Answer<T> {
    match refused {
        0 => Ok(value),
        number => Err(Refusal::try_from(number).expect("a refusal's number")),
    }
}

/// A small slice lent for an answer, with guard words round it.
#[repr(C)]
struct Out<T, const N: usize> {
    before: [T; GUARDS],
    cells: [T; N],
    after: [T; GUARDS],
}

const GUARDS: usize = 4;

impl<T: Guarded, const N: usize> Out<T, N> {
    fn new() -> Self {
        Self::with(std::array::from_fn(T::guard))
    }

    fn with(cells: [T; N]) -> Self {
        Self { before: std::array::from_fn(T::guard), cells, after: std::array::from_fn(T::guard) }
    }

    /// Into the whole, so that writing past the cells is seen and no more.
    fn ptr(&mut self) -> *mut T {
        unsafe { (&raw mut *self).cast::<T>().add(GUARDS) }
    }

    fn len(&self) -> usize {
        N
    }

    /// What came back.
    fn cells(self) -> [T; N] {
        let out = black_box(self);
        assert!(kept(&out.before) && kept(&out.after), "the port wrote past a slice lent for an answer");
        out.cells
    }

    /// What came back from a call that only writes if it accepts.
    fn answered(self, refused: u32) -> [T; N] {
        let cells = self.cells();
        assert!(refused == 0 || kept(&cells), "a refused call wrote an answer");
        cells
    }
}

/// Whether these are the guard words from the first one on.
fn kept<T: Guarded>(cells: &[T]) -> bool {
    cells.iter().enumerate().all(|(at, cell)| cell.same(T::guard(at)))
}

fn flag(number: impl Into<u64>) -> bool {
    let number = number.into();
    assert!(number < 2, "neither 0 nor 1: {number}");
    number == 1
}

fn whole(number: u64) -> usize {
    usize::try_from(number).expect("a number of this machine")
}

// ---- places

pub fn get_region_spans(offset: Offset, world: World, radius: usize) -> Answer<(Span, Span)> {
    let mut out = Out::<u64, 4>::new();
    let refused = unsafe { port_get_region_spans(offset.0, offset.1, world.0, world.1, radius, out.ptr(), out.len()) };
    let out = out.answered(refused);
    answer(refused, out).map(|out| {
        let [a, b, c, d] = out.map(whole);
        (Span(a, b), Span(c, d))
    })
}

pub fn contains(bounds: BoundingBox, world: World) -> Answer<bool> {
    let BoundingBox { min, max } = bounds;
    let mut out = Out::<u32, 1>::new();
    let refused = unsafe { port_contains(min.0, min.1, max.0, max.1, world.0, world.1, out.ptr(), out.len()) };
    let [inside] = out.answered(refused);
    answer(refused, inside).map(flag)
}

fn extension((pads, offset, needed): ([u64; 4], [i32; 2], [u32; 1])) -> ExtensionInfo {
    let [left, right, top, bottom] = pads.map(whole);
    ExtensionInfo {
        pads: Pads { left, right, top, bottom },
        offset: Offset(offset[0], offset[1]),
        needed: flag(needed[0]),
    }
}

pub fn calculate_extension(
    rows: usize,
    cols: usize,
    offset: Offset,
    world: World,
    radius: usize,
) -> Answer<ExtensionInfo> {
    let (mut pads, mut new_offset, mut needed) = (Out::new(), Out::new(), Out::new());
    let refused = unsafe {
        port_calculate_extension(
            rows, cols, offset.0, offset.1, world.0, world.1, radius, pads.ptr(), pads.len(), new_offset.ptr(),
            new_offset.len(), needed.ptr(), needed.len(),
        )
    };
    let found = (pads.answered(refused), new_offset.answered(refused), needed.answered(refused));
    answer(refused, found).map(extension)
}

pub fn constrain_extension(
    rows: usize,
    cols: usize,
    offset: Offset,
    world: World,
    radius: usize,
    bounds: BoundingBox,
) -> Answer<ExtensionInfo> {
    let BoundingBox { min, max } = bounds;
    let (mut pads, mut new_offset, mut needed) = (Out::new(), Out::new(), Out::new());
    let refused = unsafe {
        port_constrain_extension(
            rows, cols, offset.0, offset.1, world.0, world.1, radius, min.0, min.1, max.0, max.1, pads.ptr(),
            pads.len(), new_offset.ptr(), new_offset.len(), needed.ptr(), needed.len(),
        )
    };
    let found = (pads.answered(refused), new_offset.answered(refused), needed.answered(refused));
    answer(refused, found).map(extension)
}

pub fn extend_array_2d_u32(plane: &[u32], rows: usize, cols: usize, pads: Pads, target: &mut [u32]) -> Answer<()> {
    let Pads { left, right, top, bottom } = pads;
    let refused = unsafe {
        port_extend_u32(
            plane.as_ptr(), plane.len(), rows, cols, left, right, top, bottom, target.as_mut_ptr(), target.len(),
        )
    };
    answer(refused, ())
}

pub fn extend_array_2d_f64(plane: &[f64], rows: usize, cols: usize, pads: Pads, target: &mut [f64]) -> Answer<()> {
    let Pads { left, right, top, bottom } = pads;
    let refused = unsafe {
        port_extend_f64(
            plane.as_ptr(), plane.len(), rows, cols, left, right, top, bottom, target.as_mut_ptr(), target.len(),
        )
    };
    answer(refused, ())
}

// ---- sets

fn set(out: [u32; 2]) -> TileBitset {
    TileBitset { bits: out[0], size: out[1] }
}

pub fn set_new(size: u32) -> Answer<TileBitset> {
    let mut out = Out::new();
    let refused = unsafe { port_set_new(size, out.ptr(), out.len()) };
    let out = out.answered(refused);
    answer(refused, set(out))
}

pub fn set_all(size: u32) -> Answer<TileBitset> {
    let mut out = Out::new();
    let refused = unsafe { port_set_all(size, out.ptr(), out.len()) };
    let out = out.answered(refused);
    answer(refused, set(out))
}

pub fn set_insert(given: TileBitset, colour: u32) -> Answer<TileBitset> {
    let mut out = Out::new();
    let refused = unsafe { port_set_insert(given.bits, given.size, colour, out.ptr(), out.len()) };
    let out = out.answered(refused);
    answer(refused, set(out))
}

pub fn set_contains(given: TileBitset, colour: u32) -> Answer<bool> {
    let mut out = Out::new();
    let refused = unsafe { port_set_contains(given.bits, given.size, colour, out.ptr(), out.len()) };
    let [out] = out.answered(refused);
    answer(refused, out).map(flag)
}

pub fn set_intersection(given: TileBitset, other: TileBitset) -> Answer<TileBitset> {
    let mut out = Out::new();
    let refused = unsafe { port_set_intersection(given.bits, given.size, other.bits, other.size, out.ptr(), out.len()) };
    let out = out.answered(refused);
    answer(refused, set(out))
}

pub fn set_is_empty(given: TileBitset) -> Answer<bool> {
    let mut out = Out::new();
    let refused = unsafe { port_set_is_empty(given.bits, given.size, out.ptr(), out.len()) };
    let [out] = out.answered(refused);
    answer(refused, out).map(flag)
}

pub fn set_count(given: TileBitset) -> Answer<usize> {
    let mut out = Out::new();
    let refused = unsafe { port_set_count(given.bits, given.size, out.ptr(), out.len()) };
    let [out] = out.answered(refused);
    answer(refused, out).map(whole)
}

pub fn set_to_vec(given: TileBitset) -> Answer<ColourList> {
    let (mut colours, mut len) = (Out::new(), Out::<u64, 1>::new());
    let refused = unsafe {
        port_set_to_vec(given.bits, given.size, colours.ptr(), colours.len(), len.ptr(), len.len())
    };
    let (colours, [len]) = (colours.answered(refused), len.answered(refused));
    answer(refused, (colours, len)).map(|(colours, len)| ColourList { colours, len: whole(len) })
}

// ---- tiles

pub fn extract_tiles(
    sample: &[u8],
    rows: usize,
    cols: usize,
    count: u32,
    rotations: bool,
    reflections: bool,
    store: &mut [u8],
) -> Answer<usize> {
    let mut out = Out::new();
    let refused = unsafe {
        port_extract_tiles(
            sample.as_ptr(), sample.len(), rows, cols, count, rotations, reflections, store.as_mut_ptr(), store.len(),
            out.ptr(), out.len(),
        )
    };
    let [out] = out.answered(refused);
    answer(refused, out).map(whole)
}

pub fn rotate_90(tile: [u8; 9]) -> [u8; 9] {
    let mut out = Out::new();
    unsafe { port_rotate_90(tile.as_ptr(), tile.len(), out.ptr(), out.len()) };
    out.cells()
}

pub fn reflect(tile: [u8; 9]) -> [u8; 9] {
    let mut out = Out::new();
    unsafe { port_reflect(tile.as_ptr(), tile.len(), out.ptr(), out.len()) };
    out.cells()
}

pub fn membership(tile: [u8; 9], count: u32) -> Answer<TileBitset> {
    let mut out = Out::new();
    let refused = unsafe { port_membership(tile.as_ptr(), tile.len(), count, out.ptr(), out.len()) };
    let out = out.answered(refused);
    answer(refused, set(out))
}

// ---- fit

pub fn region_count(pieces: &[u32], rows: usize, cols: usize, tiles: &[u8], count: u32, start: Cell) -> Answer<usize> {
    let mut out = Out::new();
    let refused = unsafe {
        port_region_count(
            pieces.as_ptr(), pieces.len(), rows, cols, tiles.as_ptr(), tiles.len(), count, start.0, start.1,
            out.ptr(), out.len(),
        )
    };
    let [out] = out.answered(refused);
    answer(refused, out).map(whole)
}

pub fn fraction(counts: &[u32], rows: usize, cols: usize, number: usize, cell: Cell) -> Answer<f64> {
    let mut out = Out::new();
    let refused = unsafe {
        port_fraction(counts.as_ptr(), counts.len(), rows, cols, number, cell.0, cell.1, out.ptr(), out.len())
    };
    let [out] = out.answered(refused);
    answer(refused, out)
}

pub fn listing(
    pieces: &[u32],
    rows: usize,
    cols: usize,
    tiles: &[u8],
    count: u32,
    world: World,
    offset: Offset,
) -> Answer<TileBitset> {
    let mut out = Out::new();
    let refused = unsafe {
        port_listing(
            pieces.as_ptr(), pieces.len(), rows, cols, tiles.as_ptr(), tiles.len(), count, world.0, world.1, offset.0,
            offset.1, out.ptr(), out.len(),
        )
    };
    let out = out.answered(refused);
    answer(refused, set(out))
}

/// The desk's listing. Three entries are lent, and then none: the first alone may be written, and the answer is the same.
pub fn fitting_colours(
    pieces: &[u32],
    rows: usize,
    cols: usize,
    tiles: &[u8],
    count: u32,
    world: World,
    offset: Offset,
) -> Answer<u64> {
    let ask = |found: *mut u64, found_len: usize| unsafe {
        desk_fitting_colours(
            pieces.as_ptr(), pieces.len(), rows, cols, tiles.as_ptr(), tiles.len(), count, world.0, world.1, offset.0,
            offset.1, found, found_len,
        )
    };
    let (mut found, mut nothing) = (Out::<u64, 3>::new(), Out::<u64, 0>::new());
    let refused = ask(found.ptr(), found.len());
    assert_eq!(ask(nothing.ptr(), nothing.len()), refused, "with no entry lent the answer is another");
    nothing.cells();
    let [colours, others @ ..] = found.answered(refused);
    let kept = others.iter().enumerate().all(|(at, word)| word.same(u64::guard(1 + at)));
    assert!(kept, "a listing wrote past its first entry");
    answer(refused, colours)
}

pub fn forced(
    pieces: &[u32],
    rows: usize,
    cols: usize,
    tiles: &[u8],
    count: u32,
    world: World,
    offset: Offset,
    bounds: Option<BoundingBox>,
) -> Answer<ForcedPositions> {
    let BoundingBox { min, max } = bounds.unwrap_or(BoundingBox { min: World(0, 0), max: World(0, 0) });
    let (mut coordinates, mut colours, mut len) = (Out::<i32, 16>::new(), Out::<u32, 8>::new(), Out::<u64, 1>::new());
    let refused = unsafe {
        port_forced(
            pieces.as_ptr(), pieces.len(), rows, cols, tiles.as_ptr(), tiles.len(), count, world.0, world.1, offset.0,
            offset.1, bounds.is_some(), min.0, min.1, max.0, max.1, coordinates.ptr(), coordinates.len(),
            colours.ptr(), colours.len(), len.ptr(), len.len(),
        )
    };
    let (coordinates, colours) = (coordinates.answered(refused), colours.answered(refused));
    let [len] = len.answered(refused);
    answer(refused, len).map(|len| ForcedPositions { entries: positions(&coordinates, &colours), len: whole(len) })
}

fn positions<const N: usize>(coordinates: &[i32], colours: &[u32]) -> [ForcedPosition; N] {
    std::array::from_fn(|at| ForcedPosition {
        coordinates: World(coordinates[2 * at], coordinates[2 * at + 1]),
        colour: colours[at],
    })
}

// ---- the queue

/// A queue or a list of forced places as the boundary has it.
struct Flat<const N: usize, const TWICE: usize> {
    coordinates: Out<i32, TWICE>,
    colours: Out<u32, N>,
    len: Out<u64, 1>,
}

impl<const N: usize, const TWICE: usize> Flat<N, TWICE> {
    fn new(entries: &[ForcedPosition; N], len: usize) -> Self {
        let coordinate = |at: usize| {
            let World(row, col) = entries[at / 2].coordinates;
            if at.is_multiple_of(2) { row } else { col }
        };
        Self {
            coordinates: Out::with(std::array::from_fn(coordinate)),
            colours: Out::with(std::array::from_fn(|at| entries[at].colour)),
            len: Out::with([len as u64]),
        }
    }

    /// What came back: a refused call gives back what went in, which the comparison sees.
    fn back(self) -> ([ForcedPosition; N], usize) {
        let [len] = self.len.cells();
        (positions(&self.coordinates.cells(), &self.colours.cells()), whole(len))
    }
}

fn flat_queue(queue: &ForcedPipeline) -> Flat<64, 128> {
    Flat::new(&queue.entries, queue.len)
}

fn queue_back(queue: Flat<64, 128>) -> ForcedPipeline {
    let (entries, len) = queue.back();
    ForcedPipeline { entries, len }
}

pub fn queue_add(given: ForcedPipeline, added: ForcedPositions) -> (Answer<()>, ForcedPipeline) {
    let mut queue = flat_queue(&given);
    let mut offered: Flat<8, 16> = Flat::new(&added.entries, added.len);
    let refused = unsafe {
        port_queue_add(
            queue.coordinates.ptr(), queue.coordinates.len(), queue.colours.ptr(), queue.colours.len(),
            queue.len.ptr(), queue.len.len(), offered.coordinates.ptr(), offered.coordinates.len(),
            offered.colours.ptr(), offered.colours.len(), added.len,
        )
    };
    assert_eq!(offered.back(), (added.entries, added.len), "the port wrote the list that it is offered");
    (answer(refused, ()), queue_back(queue))
}

pub fn queue_take(given: ForcedPipeline) -> (Answer<Option<ForcedPosition>>, ForcedPipeline) {
    let mut queue = flat_queue(&given);
    let (mut taken, mut colour, mut found) = (Out::<i32, 2>::new(), Out::<u32, 1>::new(), Out::<u32, 1>::new());
    let refused = unsafe {
        port_queue_take(
            queue.coordinates.ptr(), queue.coordinates.len(), queue.colours.ptr(), queue.colours.len(),
            queue.len.ptr(), queue.len.len(), taken.ptr(), taken.len(), colour.ptr(), colour.len(), found.ptr(),
            found.len(),
        )
    };
    let ([row, col], [colour]) = (taken.answered(refused), colour.answered(refused));
    let [found] = found.answered(refused);
    let entry = ForcedPosition { coordinates: World(row, col), colour };
    (answer(refused, found).map(|found| flag(found).then_some(entry)), queue_back(queue))
}

pub fn queue_is_empty(given: ForcedPipeline) -> Answer<bool> {
    let mut queue = flat_queue(&given);
    let mut out = Out::new();
    let refused = unsafe {
        port_queue_is_empty(
            queue.coordinates.ptr(), queue.coordinates.len(), queue.colours.ptr(), queue.colours.len(), given.len,
            out.ptr(), out.len(),
        )
    };
    assert_eq!(queue_back(queue), given, "the port wrote a queue that it only reads");
    let [out] = out.answered(refused);
    answer(refused, out).map(flag)
}

pub fn queue_len(given: ForcedPipeline) -> Answer<usize> {
    let mut queue = flat_queue(&given);
    let mut out = Out::new();
    let refused = unsafe {
        port_queue_len(
            queue.coordinates.ptr(), queue.coordinates.len(), queue.colours.ptr(), queue.colours.len(), given.len,
            out.ptr(), out.len(),
        )
    };
    assert_eq!(queue_back(queue), given, "the port wrote a queue that it only reads");
    let [out] = out.answered(refused);
    answer(refused, out).map(whole)
}

// ---- the board

pub fn scan(
    pieces: &[u32],
    weights: &[u32],
    rows: usize,
    cols: usize,
    tiles: &[u8],
    count: u32,
) -> Answer<Option<Cell>> {
    let mut out = Out::new();
    let refused = unsafe {
        port_scan(
            pieces.as_ptr(), pieces.len(), weights.as_ptr(), weights.len(), rows, cols, tiles.as_ptr(), tiles.len(),
            count, out.ptr(), out.len(),
        )
    };
    let [found, row, col] = out.answered(refused);
    answer(refused, found).map(|found| flag(found).then(|| Cell(whole(row), whole(col))))
}

pub fn raise_weights(weights: &mut [u32], rows: usize, cols: usize, world: World, offset: Offset) -> Answer<()> {
    let refused = unsafe {
        port_raise_weights(weights.as_mut_ptr(), weights.len(), rows, cols, world.0, world.1, offset.0, offset.1)
    };
    answer(refused, ())
}

pub fn lower_weights(weights: &mut [u32], rows: usize, cols: usize, world: World, offset: Offset) -> Answer<()> {
    let refused = unsafe {
        port_lower_weights(weights.as_mut_ptr(), weights.len(), rows, cols, world.0, world.1, offset.0, offset.1)
    };
    answer(refused, ())
}

pub fn recount(
    counts: &mut [u32],
    pieces: &[u32],
    rows: usize,
    cols: usize,
    tiles: &[u8],
    count: u32,
    world: World,
    offset: Offset,
) -> Answer<()> {
    let refused = unsafe {
        port_recount(
            counts.as_mut_ptr(), counts.len(), pieces.as_ptr(), pieces.len(), rows, cols, tiles.as_ptr(), tiles.len(),
            count, world.0, world.1, offset.0, offset.1,
        )
    };
    answer(refused, ())
}

pub fn fresh(
    pieces: &mut [u32],
    weights: &mut [u32],
    counts: &mut [u32],
    rows: usize,
    cols: usize,
    number: usize,
) -> Answer<()> {
    let refused = unsafe {
        port_fresh(
            pieces.as_mut_ptr(), pieces.len(), weights.as_mut_ptr(), weights.len(), counts.as_mut_ptr(), counts.len(),
            rows, cols, number,
        )
    };
    answer(refused, ())
}

pub fn lay(
    pieces: &mut [u32],
    weights: &mut [u32],
    counts: &mut [u32],
    rows: usize,
    cols: usize,
    tiles: &[u8],
    count: u32,
    world: World,
    offset: Offset,
    colour: u32,
) -> Answer<()> {
    let refused = unsafe {
        desk_lay(
            pieces.as_mut_ptr(), pieces.len(), weights.as_mut_ptr(), weights.len(), counts.as_mut_ptr(), counts.len(),
            rows, cols, tiles.as_ptr(), tiles.len(), count, world.0, world.1, offset.0, offset.1, colour,
        )
    };
    answer(refused, ())
}

pub fn lift(
    pieces: &mut [u32],
    weights: &mut [u32],
    counts: &mut [u32],
    rows: usize,
    cols: usize,
    tiles: &[u8],
    count: u32,
    world: World,
    offset: Offset,
) -> Answer<()> {
    let refused = unsafe {
        desk_lift(
            pieces.as_mut_ptr(), pieces.len(), weights.as_mut_ptr(), weights.len(), counts.as_mut_ptr(), counts.len(),
            rows, cols, tiles.as_ptr(), tiles.len(), count, world.0, world.1, offset.0, offset.1,
        )
    };
    answer(refused, ())
}

/// The new offset goes into a slice of any length that the caller lends: a short one gets less of it.
pub fn widen(
    wide_pieces: &mut [u32],
    wide_weights: &mut [u32],
    wide_counts: &mut [u32],
    pieces: &[u32],
    weights: &[u32],
    counts: &[u32],
    rows: usize,
    cols: usize,
    pads: Pads,
    tiles: &[u8],
    count: u32,
    offset: Offset,
    new_offset: &mut [i32],
) -> Answer<()> {
    let Pads { left, right, top, bottom } = pads;
    let refused = unsafe {
        desk_widen(
            wide_pieces.as_mut_ptr(), wide_pieces.len(), wide_weights.as_mut_ptr(), wide_weights.len(),
            wide_counts.as_mut_ptr(), wide_counts.len(),
            pieces.as_ptr(), pieces.len(), weights.as_ptr(), weights.len(), counts.as_ptr(), counts.len(),
            rows, cols, left, right, top, bottom, tiles.as_ptr(), tiles.len(), count, offset.0, offset.1,
            new_offset.as_mut_ptr(), new_offset.len(),
        )
    };
    answer(refused, ())
}

/// What the run tells goes into a slice of any length that the caller lends. Without `within` the corners are any numbers.
pub fn forced_run(
    pieces: &mut [u32],
    weights: &mut [u32],
    counts: &mut [u32],
    rows: usize,
    cols: usize,
    tiles: &[u8],
    count: u32,
    world: World,
    offset: Offset,
    within: bool,
    corners: BoundingBox,
    budget: usize,
    ran: &mut [u64],
) -> Answer<()> {
    let BoundingBox { min, max } = corners;
    let refused = unsafe {
        desk_forced_run(
            pieces.as_mut_ptr(), pieces.len(), weights.as_mut_ptr(), weights.len(), counts.as_mut_ptr(), counts.len(),
            rows, cols, tiles.as_ptr(), tiles.len(), count, world.0, world.1, offset.0, offset.1,
            within, min.0, min.1, max.0, max.1, budget, ran.as_mut_ptr(), ran.len(),
        )
    };
    answer(refused, ())
}

// ---- probabilities and scores

pub fn normalise(
    probabilities: &[f64],
    rows: usize,
    cols: usize,
    count: u32,
    world: World,
    offset: Offset,
    out: &mut [f64],
) -> Answer<()> {
    let refused = unsafe {
        port_normalise(
            probabilities.as_ptr(), probabilities.len(), rows, cols, count, world.0, world.1, offset.0, offset.1,
            out.as_mut_ptr(), out.len(),
        )
    };
    answer(refused, ())
}

pub fn product(
    probabilities: &mut [f64],
    rows: usize,
    cols: usize,
    count: u32,
    block: &[f64],
    block_rows: usize,
    block_cols: usize,
    world: World,
    offset: Offset,
    radius: usize,
) -> Answer<()> {
    let refused = unsafe {
        port_product(
            probabilities.as_mut_ptr(), probabilities.len(), rows, cols, count, block.as_ptr(), block.len(),
            block_rows, block_cols, world.0, world.1, offset.0, offset.1, radius,
        )
    };
    answer(refused, ())
}

pub fn quotient(
    probabilities: &mut [f64],
    rows: usize,
    cols: usize,
    count: u32,
    block: &[f64],
    block_rows: usize,
    block_cols: usize,
    world: World,
    offset: Offset,
    radius: usize,
) -> Answer<()> {
    let refused = unsafe {
        port_quotient(
            probabilities.as_mut_ptr(), probabilities.len(), rows, cols, count, block.as_ptr(), block.len(),
            block_rows, block_cols, world.0, world.1, offset.0, offset.1, radius,
        )
    };
    answer(refused, ())
}

pub fn lay_score(
    scores: &mut [f64],
    counts: &[u32],
    rows: usize,
    cols: usize,
    number: usize,
    world: World,
    offset: Offset,
) -> Answer<()> {
    let refused = unsafe {
        port_lay_score(
            scores.as_mut_ptr(), scores.len(), counts.as_ptr(), counts.len(), rows, cols, number, world.0, world.1,
            offset.0, offset.1,
        )
    };
    answer(refused, ())
}

pub fn lift_score(
    scores: &mut [f64],
    counts: &[u32],
    rows: usize,
    cols: usize,
    number: usize,
    row_span: Span,
    col_span: Span,
) -> Answer<()> {
    let refused = unsafe {
        port_lift_score(
            scores.as_mut_ptr(), scores.len(), counts.as_ptr(), counts.len(), rows, cols, number, row_span.0,
            row_span.1, col_span.0, col_span.1,
        )
    };
    answer(refused, ())
}

pub fn plain_score(scores: &mut [f64], counts: &[u32], rows: usize, cols: usize, number: usize) -> Answer<()> {
    let refused = unsafe {
        desk_plain_score(scores.as_mut_ptr(), scores.len(), counts.as_ptr(), counts.len(), rows, cols, number)
    };
    answer(refused, ())
}

pub fn plain_score_near(
    scores: &mut [f64],
    counts: &[u32],
    rows: usize,
    cols: usize,
    number: usize,
    row_span: Span,
    col_span: Span,
) -> Answer<()> {
    let refused = unsafe {
        desk_plain_score_near(
            scores.as_mut_ptr(), scores.len(), counts.as_ptr(), counts.len(), rows, cols, number, row_span.0,
            row_span.1, col_span.0, col_span.1,
        )
    };
    answer(refused, ())
}
