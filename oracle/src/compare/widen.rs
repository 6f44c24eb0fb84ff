//! Widening, document 02's request 1. The text has no such call, so the judge is the rule, stated once more and on the wall:
//! the pieces stand at their coordinates, and each cell of the new board asks all of them. The text's own laying of these
//! pieces on a fresh board of the new size and offset must agree, and so must the offset of its own extension.

use super::copies::pads_along;
use super::{Input, Shows};
use crate::calls::*;
use crate::inputs::{self, Cut, TileList};
use crate::outcome::{Lent, Outcome, Plane, Value};
use crate::random::Random;
use crate::{refusals, side};
use oracle::steps;
use std::collections::BTreeMap;

#[derive(Clone, Debug)]
pub struct WidenInput {
    rows: usize,
    cols: usize,
    pads: Pads,
    tiles: TileList,
    pieces: Vec<u32>,
    weights: Vec<u32>,
    counts: Vec<u32>,
    offset: Offset,
    /// the new pieces, weights and counts as they are lent: what stands there is not read
    wide: [Vec<u32>; 3],
    /// the slice lent for the new offset, of any length
    told: Vec<i32>,
}

const NO_PADS: Pads = Pads { left: 0, right: 0, top: 0, bottom: 0 };

/// Tiles times regions above which an input is mostly made smaller: every region is counted, and more than once.
const DEAR_COUNTS: usize = 1 << 16;

fn shape(random: &mut Random, tiles: usize) -> (usize, usize, Pads) {
    let (rows, cols) = (inputs::side(random), inputs::side(random));
    let ((left, right), (top, bottom)) = (pads_along(random, rows), pads_along(random, cols));
    let pads = if random.percent(5) { NO_PADS } else { Pads { left, right, top, bottom } };
    let (new_rows, new_cols) = refusals::padded(rows, cols, pads);
    if new_rows * new_cols * tiles <= DEAR_COUNTS || random.percent(1) {
        return (rows, cols, pads);
    }
    let mut pad = || random.below(4);
    let pads = Pads { left: pad(), right: pad(), top: pad(), bottom: pad() };
    (1 + random.below(5), 1 + random.below(5), pads)
}

fn garbage(random: &mut Random, len: usize) -> Vec<u32> {
    (0..len).map(|_| random.next() as u32).collect()
}

/// The standing pieces, each with its colour, by their places on the wall.
struct Panel(BTreeMap<[i32; 2], u32>);

impl Panel {
    fn of(input: &WidenInput) -> Self {
        let place = |at: usize| {
            let World(row, col) = inputs::world_of(Cell(at / input.cols, at % input.cols), input.offset);
            [row, col]
        };
        let standing = input.pieces.iter().enumerate().filter(|(_, stored)| **stored > 1);
        Self(standing.map(|(at, stored)| (place(at), stored - 1)).collect())
    }

    /// As a plane stores it.
    fn piece(&self, place: [i32; 2]) -> u32 {
        self.0.get(&place).map_or(1, |colour| colour + 1)
    }

    /// 1, plus 3 for each piece at most one cell away, plus 1 for each exactly two away.
    fn weight(&self, place: [i32; 2]) -> u32 {
        let gives = |piece: &[i32; 2]| match piece[0].abs_diff(place[0]).max(piece[1].abs_diff(place[1])) {
            0 | 1 => 3,
            2 => 1,
            _ => 0,
        };
        // all pieces of these rows, however far to the side
        let rows = [place[0] - 2, i32::MIN]..=[place[0] + 2, i32::MAX];
        1 + self.0.range(rows).map(|(piece, _)| gives(piece)).sum::<u32>()
    }

    /// How many tiles agree with all pieces in the region that starts here.
    fn fits(&self, start: [i32; 2], tiles: &[u8]) -> u32 {
        let within: Vec<(usize, u32)> = (0..9)
            .filter_map(|k| Some((k, *self.0.get(&[start[0] + (k / 3) as i32, start[1] + (k % 3) as i32])?)))
            .collect();
        let agrees = |tile: &&[u8]| within.iter().all(|&(k, colour)| u32::from(tile[k]) == colour);
        tiles.chunks_exact(9).filter(agrees).count() as u32
    }
}

impl WidenInput {
    fn new_sides(&self) -> (usize, usize) {
        refusals::padded(self.rows, self.cols, self.pads)
    }

    /// With new planes of the length that the pads ask for.
    fn fitted(mut self, random: &mut Random) -> Self {
        let (rows, cols) = self.new_sides();
        self.wide = [(); 3].map(|()| garbage(random, rows.min(65) * cols.min(65)));
        self
    }

    fn table(&self) -> Option<Refusal> {
        let Self { ref pieces, ref weights, ref counts, rows, cols, pads, ref tiles, offset, .. } = *self;
        let lengths = [0, 1, 2].map(|plane| self.wide[plane].len());
        refusals::widen(lengths, pieces, weights, counts, rows, cols, pads, tiles.bytes(), tiles.count(), offset)
    }

    /// The offset that the text's extension gives for the place of the new first cell.
    fn moved(&self) -> [i32; 2] {
        let Offset(down, across) = self.offset;
        let (left, top) = (self.pads.left as i32, self.pads.top as i32);
        let first = [-left - down, -top - across];
        let moved = steps::extension([self.rows, self.cols], [down, across], first, 0).offset;
        assert_eq!(moved, [down + left, across + top], "the text's extension moves the offset otherwise");
        moved
    }

    /// The new planes by the rule.
    fn by_rule(&self, panel: &Panel, offset: [i32; 2]) -> [Vec<u32>; 3] {
        let (rows, cols) = self.new_sides();
        let (mut pieces, mut weights, mut counts) = (Vec::new(), Vec::new(), Vec::new());
        for (row, col) in (0..rows).flat_map(|row| (0..cols).map(move |col| (row, col))) {
            let place = [row as i32 - offset[0], col as i32 - offset[1]];
            let old = refusals::cell_of(self.rows, self.cols, World(place[0], place[1]), self.offset);
            let whole = row + 2 < rows && col + 2 < cols;
            pieces.push(panel.piece(place));
            weights.push(old.map_or_else(|| panel.weight(place), |cell| self.weights[cell.0 * self.cols + cell.1]));
            counts.push(if whole { panel.fits(place, self.tiles.bytes()) } else { self.tiles.number() as u32 });
        }
        [pieces, weights, counts]
    }

    /// The new planes by the text's laying from fresh; only the old weights, which may be any, are put in.
    fn by_text(&self, panel: &Panel, offset: [i32; 2]) -> [Vec<u32>; 3] {
        let (rows, cols) = self.new_sides();
        let standing: Vec<([i32; 2], usize)> = panel.0.iter().map(|(&at, &colour)| (at, colour as usize)).collect();
        let board = self.tiles.job().afresh(&standing, [rows, cols], offset);
        let mut weights = board.weights();
        for (line, old) in self.weights.chunks_exact(self.cols).enumerate() {
            weights[(self.pads.left + line) * cols + self.pads.top..][..self.cols].copy_from_slice(old);
        }
        [board.pieces(), weights, board.counts()]
    }

    /// A pad that makes a side of 65, one that is huge, or one with which a sum that wraps round would be a board's side.
    /// The new planes mostly have the length that such a sum asks for.
    fn spoil_pads(&mut self, random: &mut Random) {
        let along_rows = random.percent(50);
        let Pads { left, right, top, bottom } = &mut self.pads;
        let ((pad, other), side) = if along_rows { ((left, right), self.rows) } else { ((top, bottom), self.cols) };
        let (pad, other) = if random.percent(50) { (pad, other) } else { (other, pad) };
        let rest = side.saturating_add(*other);
        *pad = match random.below(4) {
            0 => 65_usize.saturating_sub(rest),
            1 => random.pick(&[64, 65, 1 << 32, 1 << 63, usize::MAX, usize::MAX - 3]),
            _ => random.below(rest.clamp(1, 65)).wrapping_sub(rest),
        };
        let sum = |a: usize, b: usize, c: usize| a.wrapping_add(b).wrapping_add(c);
        let rows = sum(self.pads.left, self.rows, self.pads.right);
        let cols = sum(self.pads.top, self.cols, self.pads.bottom);
        if rows <= 65 && cols <= 65 && random.percent(70) {
            self.wide = [(); 3].map(|()| garbage(random, rows * cols));
        }
    }

    /// The old offset out of bounds, or the new one just past them.
    fn spoil_place(&mut self, random: &mut Random) {
        let past = |pad: usize| 1_000_001 - pad.min(1_000) as i32;
        match random.below(3) {
            0 => inputs::spoil_offset(random, &mut self.offset),
            1 => self.offset.0 = past(self.pads.left),
            _ => self.offset.1 = past(self.pads.top),
        }
    }

    fn smaller_boards(&self) -> Vec<Self> {
        let cut = |cut: Cut| {
            let (_, _, rows, cols) = cut.sides(self.rows, self.cols)?;
            let [pieces, weights, counts] =
                [&self.pieces, &self.weights, &self.counts].map(|plane| cut.plane(plane, self.rows, self.cols));
            Some(Self { rows, cols, pieces, weights, counts, ..self.clone() })
        };
        Cut::ALL.into_iter().filter_map(cut).collect()
    }
}

/// The boards of up to 2x2 cells and two colours, as stored pieces.
fn small_boards() -> Vec<(usize, usize, Vec<u32>)> {
    let mut all = Vec::new();
    for (rows, cols) in [(1, 1), (1, 2), (2, 1), (2, 2)] {
        for number in 0..3_u32.pow((rows * cols) as u32) {
            let pieces = (0..rows * cols).map(|at| 1 + number / 3_u32.pow(at as u32) % 3).collect();
            all.push((rows, cols, pieces));
        }
    }
    all
}

impl Input for WidenInput {
    type Step = ();

    const STEPS: &'static [(&'static str, u64, ())] = &[("widen", 300, ())];

    fn uses_tiles(_: ()) -> bool {
        true
    }

    /// The answer is the slice lent for the offset.
    fn shows(_: ()) -> Shows {
        Shows { answer: true, planes: true, floats: false, refusals: true, lends: true, reads: true }
    }

    fn random(_: (), random: &mut Random, tiles: &TileList) -> Self {
        let (rows, cols, pads) = shape(random, tiles.number());
        let pieces = inputs::pieces(random, rows, cols, tiles);
        let weights = inputs::weights(random, &pieces, rows, cols);
        let counts = inputs::counts(random, rows * cols, tiles.number());
        let Offset(down, across) = inputs::offset(random);
        let offset = Offset(down.min(1_000_000 - pads.left as i32), across.min(1_000_000 - pads.top as i32));
        let told = (0..random.pick(&[0, 1, 2, 2, 2, 3])).map(|_| random.next() as i32).collect();
        let tiles = tiles.clone();
        let wide = [Vec::new(), Vec::new(), Vec::new()];
        Self { rows, cols, pads, tiles, pieces, weights, counts, offset, wide, told }.fitted(random)
    }

    /// Each small board with pads of 0 to 2 on all four sides, over two tile lists. The old weights are not the pieces'.
    fn small(_: (), each: &mut dyn FnMut(Self)) {
        let lists = [vec![1, 2, 1, 2, 1, 2, 1, 2, 1, 2, 1, 2, 1, 2, 1, 2, 1, 2], vec![1, 2, 0, 2, 1, 0, 0, 0, 0]];
        let mut random = Random::new(&[1]);
        for tiles in lists.map(|bytes| TileList::new(bytes, 2)) {
            for (rows, cols, pieces) in small_boards() {
                for number in 0..81 {
                    let pads =
                        Pads { left: number % 3, right: number / 3 % 3, top: number / 9 % 3, bottom: number / 27 };
                    let input = Self {
                        rows,
                        cols,
                        pads,
                        tiles: tiles.clone(),
                        pieces: pieces.clone(),
                        weights: (100..100 + (rows * cols) as u32).collect(),
                        counts: vec![0; rows * cols],
                        offset: Offset(0, -7),
                        wide: [Vec::new(), Vec::new(), Vec::new()],
                        told: vec![0; 2],
                    };
                    each(input.fitted(&mut random));
                }
            }
        }
    }

    fn spoil(&mut self, random: &mut Random) {
        let past_colours = self.tiles.count().saturating_add(2);
        let past_tiles = self.tiles.number() as u32 + 1;
        match random.below(13) {
            0 if random.percent(50) => inputs::spoil_side(random, &mut self.rows),
            0 => inputs::spoil_side(random, &mut self.cols),
            1 | 2 => self.spoil_pads(random),
            3 => inputs::spoil_length(random, &mut self.pieces, 1),
            4 => inputs::spoil_length(random, &mut self.weights, 1),
            5 => inputs::spoil_length(random, &mut self.counts, 0),
            6 => {
                let plane = random.below(3);
                inputs::spoil_length(random, &mut self.wide[plane], 1);
            }
            7 => self.tiles.spoil(random),
            8 => inputs::spoil_cell(random, &mut self.pieces, &[0, past_colours, u32::MAX]),
            9 => inputs::spoil_cell(random, &mut self.weights, &[4_000_000_001, u32::MAX]),
            10 => inputs::spoil_cell(random, &mut self.counts, &[past_tiles, u32::MAX]),
            _ => self.spoil_place(random),
        }
    }

    fn disturb(&mut self, random: &mut Random) {
        let at = random.below(self.pieces.len());
        match random.below(3) {
            0 => self.pieces[at] = if self.pieces[at] == 1 { 2 } else { 1 },
            1 => self.weights[at] = if self.weights[at] < 2 { 2 } else { 1 },
            _ => self.offset.0 = (self.offset.0 - 1).max(-999_937),
        }
    }

    fn smaller(&self) -> Vec<Self> {
        let mut random = Random::new(&[2]);
        let mut all = self.smaller_boards();
        all.extend(inputs::smaller_pads(self.pads).into_iter().map(|pads| Self { pads, ..self.clone() }));
        let mut all: Vec<Self> = all.into_iter().map(|input| input.fitted(&mut random)).collect();
        all.extend(self.tiles.smaller().into_iter().map(|tiles| {
            let most = tiles.number() as u32;
            let counts = self.counts.iter().map(|&count| count.min(most)).collect();
            Self { tiles, counts, ..self.clone() }
        }));
        all.extend(inputs::plainer(&self.pieces, 1).into_iter().map(|pieces| Self { pieces, ..self.clone() }));
        all.extend(inputs::plainer(&self.weights, 1).into_iter().map(|weights| Self { weights, ..self.clone() }));
        all.extend(inputs::plainer(&self.counts, 0).into_iter().map(|counts| Self { counts, ..self.clone() }));
        let Offset(down, across) = self.offset;
        all.extend(inputs::nearer(down).into_iter().map(|down| Self { offset: Offset(down, across), ..self.clone() }));
        all.extend(
            inputs::nearer(across).into_iter().map(|across| Self { offset: Offset(down, across), ..self.clone() }),
        );
        all.extend(inputs::plainer(&self.told, 0).into_iter().map(|told| Self { told, ..self.clone() }));
        all
    }

    fn refusal(&self) -> Option<Refusal> {
        self.table()
    }

    fn expected(&self) -> Outcome {
        if let Some(number) = self.table() {
            return Outcome::new(Err(number), self.wide.clone().map(Plane::Words).to_vec());
        }
        let (panel, offset) = (Panel::of(self), self.moved());
        let planes = self.by_rule(&panel, offset);
        assert!(planes == self.by_text(&panel, offset), "the rule and the text's laying from fresh differ");
        let mut told = self.told.clone();
        told.iter_mut().zip(offset).for_each(|(entry, part)| *entry = part);
        let answer = told.into_iter().map(|part| Value::Whole(i64::from(part))).collect();
        Outcome::new(Ok(answer), planes.map(Plane::Words).to_vec())
    }

    fn observed(&self) -> Outcome {
        let mut tiles = Lent::new(self.tiles.bytes());
        let [mut pieces, mut weights, mut counts] =
            [&self.pieces, &self.weights, &self.counts].map(|plane| Lent::new(plane));
        let mut wide = self.wide.each_ref().map(|plane| Lent::new(plane));
        let mut told = Lent::new(&self.told);
        let [wide_pieces, wide_weights, wide_counts] = wide.each_mut().map(Lent::cells_mut);
        let answer = side::widen(
            wide_pieces,
            wide_weights,
            wide_counts,
            pieces.cells(),
            weights.cells(),
            counts.cells(),
            self.rows,
            self.cols,
            self.pads,
            tiles.cells(),
            self.tiles.count(),
            self.offset,
            told.cells_mut(),
        );
        // a refused call leaves the slice for the offset as it was
        let kept = if answer.is_ok() { told.guarded() } else { told.untouched() };
        let read = pieces.untouched() && weights.untouched() && counts.untouched() && tiles.untouched();
        let answer = answer.map(|()| told.cells().iter().map(|&part| Value::Whole(i64::from(part))).collect());
        let planes = wide.each_ref().map(|plane| Plane::Words(plane.cells().to_vec())).to_vec();
        Outcome { answer, planes, intact: kept && read && wide.iter_mut().all(Lent::guarded) }
    }
}

#[cfg(test)]
mod tests {
    use super::*;

    /// One piece and a weight that no pieces give, with a row before, two columns after: worked out by hand.
    #[test]
    fn the_rule_by_hand() {
        let input = WidenInput {
            rows: 2,
            cols: 1,
            pads: Pads { left: 1, right: 0, top: 0, bottom: 2 },
            tiles: TileList::new([[1; 9], [2; 9], [0; 9]].concat(), 2),
            pieces: vec![1, 3],
            weights: vec![0, 4_000_000_000],
            counts: vec![3, 0],
            offset: Offset(5, -5),
            wide: [vec![9; 9], vec![9; 9], vec![9; 9]],
            told: vec![70, 80, 90],
        };
        let outcome = input.expected();
        assert_eq!(outcome.answer, Ok([6, -5, 90].map(Value::Whole).to_vec()));
        let planes = [
            vec![1, 1, 1, 1, 1, 1, 3, 1, 1],
            vec![2, 2, 2, 0, 4, 2, 4_000_000_000, 4, 2],
            vec![1, 3, 3, 3, 3, 3, 3, 3, 3],
        ];
        assert!(outcome.planes == planes.map(Plane::Words));
    }
}
