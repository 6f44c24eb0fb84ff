//! The plain score, document 02's request 4, of a whole board and of the cells in two spans. The text has no such call, so the
//! judge is the rule, stated once more. The text's own scores must agree where they say the same: its lay score, which does
//! not square either, but leaves the first two rows and columns alone; and its lift score where each count is 0 or all
//! tiles, since these fractions are their own squares.

use super::board::span;
use super::{Input, Shows};
use crate::calls::*;
use crate::inputs::{self, Cut, TileList};
use crate::outcome::{Lent, Outcome, Plane};
use crate::random::Random;
use crate::{refusals, side};
use oracle::steps;

// ---- the rule

/// The mean of the unsquared fractions at rows R-2..=R and columns C-2..=C in the grid.
fn score(counts: &[u32], cols: usize, number: usize, cell: Cell) -> f64 {
    let in_grid = |at: usize| at.saturating_sub(2)..=at;
    let starts = in_grid(cell.0).flat_map(|row| in_grid(cell.1).map(move |col| row * cols + col));
    let (mut sum, mut cells) = (0.0, 0_u32);
    for start in starts {
        sum += f64::from(counts[start]) / number as f64;
        cells += 1;
    }
    sum / f64::from(cells)
}

/// Of every cell.
pub fn scores(counts: &[u32], cols: usize, number: usize) -> Vec<f64> {
    let scores: Vec<f64> =
        (0..counts.len()).map(|at| score(counts, cols, number, Cell(at / cols, at % cols))).collect();
    assert!(scores.iter().all(|score| (0.0..=1.0).contains(score)), "a score past 0 to 1");
    scores
}

// ---- the inputs

#[derive(Clone, Copy, Debug, PartialEq)]
pub enum Step {
    Whole,
    Near,
}

#[derive(Clone, Debug)]
pub struct ScoreInput {
    step: Step,
    rows: usize,
    cols: usize,
    /// of tiles
    number: usize,
    counts: Vec<u32>,
    /// as they are lent; the whole call does not read them
    scores: Vec<f64>,
    /// of the step that has them
    row_span: Span,
    col_span: Span,
}

/// Counts whose sums have other bits in another order, where the number is not small.
fn uneven(cells: usize, number: usize) -> Vec<u32> {
    (0..cells as u32).map(|at| at.wrapping_mul(0x9e37_79b9).rotate_left(13) % (number as u32 + 1)).collect()
}

impl ScoreInput {
    /// Over old scores that no scoring gives; those of the whole call could not be read either.
    fn plain(step: Step, [rows, cols]: [usize; 2], number: usize, counts: Vec<u32>) -> Self {
        let old = |at: usize| match step {
            Step::Whole => [f64::NAN, f64::NEG_INFINITY, -1.0, 2.0][at % 4],
            Step::Near => 2.0 + at as f64,
        };
        let scores = (0..rows * cols).map(old).collect();
        Self { step, rows, cols, number, counts, scores, row_span: Span(0, 0), col_span: Span(0, 0) }
    }

    fn table(&self) -> Option<Refusal> {
        let Self { step, rows, cols, number, ref counts, ref scores, row_span, col_span } = *self;
        match step {
            Step::Whole => refusals::plain_score(scores.len(), counts, rows, cols, number),
            Step::Near => refusals::plain_score_near(scores, counts, rows, cols, number, row_span, col_span),
        }
    }

    /// The plane of scores after an accepted call.
    fn by_rule(&self) -> Vec<f64> {
        let Self { step, cols, number, ref counts, row_span, col_span, .. } = *self;
        if step == Step::Whole {
            return scores(counts, cols, number);
        }
        let mut scores = self.scores.clone();
        for row in row_span.0..row_span.1 {
            for col in col_span.0..col_span.1 {
                scores[row * cols + col] = score(counts, cols, number, Cell(row, col));
            }
        }
        scores
    }

    /// Holds a whole board's scores against the text's. How many cells the text had its say on.
    fn ask_the_text(&self, scores: &[f64]) -> usize {
        let (sides, number) = ([self.rows, self.cols], self.number);
        let mut asked = 0;
        // a plane on which it shows what the text writes
        let unwritten = vec![f64::INFINITY; scores.len()];
        let mut hold = |by_text: Vec<f64>, what: &str| {
            for (at, said) in by_text.into_iter().enumerate().filter(|(_, said)| said.is_finite()) {
                assert_eq!(said.to_bits(), scores[at].to_bits(), "the rule and the text's {what} score differ at {at}");
                asked += 1;
            }
        };
        if self.counts.iter().all(|&count| count == 0 || count as usize == number) {
            hold(steps::lift_score(&unwritten, &self.counts, sides, number, 0..self.rows, 0..self.cols), "lift");
        }
        // a place's lay score begins at its own cell
        if self.rows > 2 && self.cols > 2 {
            let mut places = [[1, 1], [self.rows / 2, self.cols / 2], [self.rows - 2, self.cols - 2]].to_vec();
            places.dedup();
            for place in places.into_iter().map(|[row, col]| [row as i32, col as i32]) {
                hold(steps::lay_score(&unwritten, &self.counts, sides, number, place, [0, 0]), "lay");
            }
        }
        asked
    }

    fn smaller_boards(&self) -> Vec<Self> {
        let cut = |cut: Cut| {
            let (row, col, rows, cols) = cut.sides(self.rows, self.cols)?;
            let counts = cut.plane(&self.counts, self.rows, self.cols);
            let scores = cut.plane(&self.scores, self.rows, self.cols);
            let row_span = Span(self.row_span.0.saturating_sub(row), self.row_span.1.min(rows));
            let col_span = Span(self.col_span.0.saturating_sub(col), self.col_span.1.min(cols));
            Some(Self { rows, cols, counts, scores, row_span, col_span, ..self.clone() })
        };
        Cut::ALL.into_iter().filter_map(cut).collect()
    }

    /// With a row or a column less at either end.
    fn smaller_spans(&self) -> Vec<Self> {
        let Self { row_span: Span(top, bottom), col_span: Span(left, right), .. } = *self;
        let spans = [
            (Span(top, bottom.saturating_sub(1)), Span(left, right)),
            (Span(top.saturating_add(1), bottom), Span(left, right)),
            (Span(top, bottom), Span(left, right.saturating_sub(1))),
            (Span(top, bottom), Span(left.saturating_add(1), right)),
        ];
        let holds = |(rows, cols): &(Span, Span)| rows.0 < rows.1 && cols.0 < cols.1;
        let with = |(row_span, col_span)| Self { row_span, col_span, ..self.clone() };
        spans.into_iter().filter(holds).map(with).collect()
    }
}

/// All planes of these sides with so many tiles.
fn all_counts([rows, cols]: [usize; 2], number: usize) -> impl Iterator<Item = Vec<u32>> {
    let (cells, most) = (rows * cols, number + 1);
    (0..most.pow(cells as u32))
        .map(move |plane| (0..cells).map(|at| (plane / most.pow(at as u32) % most) as u32).collect())
}

/// Every span with an end up to one past the side.
fn all_spans(side: usize) -> Vec<Span> {
    (0..=side).flat_map(|start| (0..=side + 1).map(move |end| Span(start, end))).collect()
}

/// Whole, one cell at either end, empty in several ways, and ends past the side.
fn telling_spans(side: usize) -> Vec<Span> {
    let (last, most) = (side - 1, usize::MAX);
    let within = [(0, side), (0, 1), (last, side), (side, side), (0, 0), (most, side), (side, last)];
    let past = [(0, side + 1), (side, side + 1), (most, side + 1), (0, most), (most, most), (0, 1 << 32)];
    within.into_iter().chain(past).map(|(start, end)| Span(start, end)).collect()
}

impl ScoreInput {
    fn with_all(self, spans: impl Fn(usize) -> Vec<Span>, each: &mut dyn FnMut(Self)) {
        if self.step == Step::Whole {
            return each(self);
        }
        for row_span in spans(self.rows) {
            for col_span in spans(self.cols) {
                each(Self { row_span, col_span, ..self.clone() });
            }
        }
    }
}

impl Input for ScoreInput {
    type Step = Step;

    const STEPS: &'static [(&'static str, u64, Step)] =
        &[("plain-score", 400, Step::Whole), ("plain-score-near", 400, Step::Near)];

    /// The whole call has no NUMBER.
    fn shows(step: Step) -> Shows {
        let floats = step == Step::Near;
        Shows { answer: false, planes: true, floats, refusals: true, lends: true, reads: true }
    }

    fn random(step: Step, random: &mut Random, _: &TileList) -> Self {
        let sides = [inputs::side(random), inputs::side(random)];
        let (cells, number) = (sides[0] * sides[1], inputs::tile_number(random));
        let mut input = Self::plain(step, sides, number, inputs::counts(random, cells, number));
        match step {
            Step::Whole => input.scores = inputs::any_floats(random, cells),
            Step::Near => {
                input.scores = inputs::floats(random, cells, false);
                (input.row_span, input.col_span) = (span(random, sides[0]), span(random, sides[1]));
            }
        }
        input
    }

    /// The sides to 4x4, and the least and the largest, with few tiles and many: uneven counts, none and all. With spans all
    /// of the small sides, and the telling ones of the others. Without spans also all counts of up to six cells, three tiles.
    fn small(step: Step, each: &mut dyn FnMut(Self)) {
        for at in 0..16 {
            let sides = [1 + at / 4, 1 + at % 4];
            for number in [1, 7, 7_200] {
                Self::plain(step, sides, number, uneven(sides[0] * sides[1], number)).with_all(all_spans, each);
            }
        }
        for sides in [[1, 1], [1, 64], [64, 1], [64, 64], [63, 5]] {
            for number in [1, 7_200] {
                let cells = sides[0] * sides[1];
                for counts in [uneven(cells, number), vec![0; cells], vec![number as u32; cells]] {
                    Self::plain(step, sides, number, counts).with_all(telling_spans, each);
                }
            }
        }
        if step == Step::Whole {
            for sides in [[1, 1], [1, 2], [2, 1], [1, 3], [3, 1], [2, 2], [1, 4], [4, 1], [2, 3], [3, 2]] {
                all_counts(sides, 3).for_each(|counts| each(Self::plain(step, sides, 3, counts)));
            }
            all_counts([3, 3], 1).for_each(|counts| each(Self::plain(step, [3, 3], 1, counts)));
        }
    }

    fn spoil(&mut self, random: &mut Random) {
        let most = if self.step == Step::Near { 8 } else { 5 };
        match random.below(most) {
            0 if random.percent(50) => inputs::spoil_side(random, &mut self.rows),
            0 => inputs::spoil_side(random, &mut self.cols),
            1 => inputs::spoil_length(random, &mut self.scores, 0.0),
            2 => inputs::spoil_length(random, &mut self.counts, 0),
            // the fourth is one tile in 32 bits
            3 => self.number = random.pick(&[0, 7_201, 1 << 32, (1 << 32) + 1, usize::MAX]),
            4 => {
                let past = u32::try_from(self.number).unwrap_or(u32::MAX).saturating_add(1);
                inputs::spoil_cell(random, &mut self.counts, &[past, u32::MAX]);
            }
            5 => inputs::spoil_float(random, &mut self.scores),
            6 => self.row_span.1 = random.pick(&[self.rows.saturating_add(1), 65, 1 << 32, usize::MAX]),
            _ => self.col_span.1 = random.pick(&[self.cols.saturating_add(1), 65, 1 << 32, usize::MAX]),
        }
    }

    fn lend_nans(&mut self, random: &mut Random) {
        let refused = self.table();
        match self.step {
            Step::Whole => {
                let percent = random.pick(&[0, 10, 50, 100]);
                inputs::put_nans(random, &mut self.scores, percent);
            }
            Step::Near => inputs::put_nans_if_refused(random, &mut self.scores, refused),
        }
    }

    fn disturb(&mut self, random: &mut Random) {
        let at = random.below(self.counts.len());
        match random.below(3) {
            0 if self.number < 7_200 => self.number += 1,
            _ => self.counts[at] = u32::from(self.counts[at] == 0),
        }
    }

    fn smaller(&self) -> Vec<Self> {
        let mut all = self.smaller_boards();
        all.extend(inputs::fewer(self.number).into_iter().map(|number| {
            let counts = self.counts.iter().map(|&count| count.min(number as u32)).collect();
            Self { number, counts, ..self.clone() }
        }));
        all.extend(inputs::plainer(&self.counts, 0).into_iter().map(|counts| Self { counts, ..self.clone() }));
        all.extend(inputs::plainer(&self.scores, 0.0).into_iter().map(|scores| Self { scores, ..self.clone() }));
        all.extend(self.smaller_spans());
        all
    }

    fn refusal(&self) -> Option<Refusal> {
        self.table()
    }

    fn expected(&self) -> Outcome {
        if let Some(number) = self.table() {
            return Outcome::new(Err(number), vec![Plane::floats(&self.scores)]);
        }
        let scores = self.by_rule();
        if self.step == Step::Whole {
            self.ask_the_text(&scores);
        }
        Outcome::new(Ok(Vec::new()), vec![Plane::floats(&scores)])
    }

    fn observed(&self) -> Outcome {
        let Self { rows, cols, number, row_span, col_span, .. } = *self;
        let (mut scores, mut counts) = (Lent::new(&self.scores), Lent::new(&self.counts));
        let answer = match self.step {
            Step::Whole => side::plain_score(scores.cells_mut(), counts.cells(), rows, cols, number),
            Step::Near => {
                side::plain_score_near(scores.cells_mut(), counts.cells(), rows, cols, number, row_span, col_span)
            }
        };
        let planes = vec![Plane::floats(scores.cells())];
        Outcome { answer: answer.map(|()| Vec::new()), planes, intact: scores.guarded() && counts.untouched() }
    }
}

#[cfg(test)]
mod tests {
    use super::*;

    /// At the corner one region, at the edges up to three in a row, further in nine.
    #[test]
    fn the_rule_by_hand() {
        let counts = [4, 2, 0, 1, 3, 4, 2, 2, 0, 4, 4, 4];
        // the sums of these fractions are exact
        let [a, b, c] = [
            [1.0, 1.5 / 2.0, 1.5 / 3.0, 0.75 / 3.0],
            [1.75 / 2.0, 3.25 / 4.0, 3.75 / 6.0, 2.75 / 6.0],
            [1.75 / 3.0, 4.25 / 6.0, 5.75 / 9.0, 5.75 / 9.0],
        ];
        assert_eq!(scores(&counts, 4, 4), [a, b, c].concat());
    }

    /// Only the cells of the spans, and none where one of them is empty.
    #[test]
    fn spans_by_hand() {
        let near = |row_span, col_span| {
            let input = ScoreInput::plain(Step::Near, [2, 3], 2, vec![2, 0, 1, 1, 1, 0]);
            ScoreInput { row_span, col_span, ..input }.by_rule()
        };
        assert_eq!(near(Span(1, 2), Span(0, 2)), [2.0, 3.0, 4.0, 0.75, 0.5, 7.0]);
        assert_eq!(near(Span(0, 2), Span(1, 1)), [2.0, 3.0, 4.0, 5.0, 6.0, 7.0]);
        assert_eq!(near(Span(usize::MAX, 2), Span(0, 3)), [2.0, 3.0, 4.0, 5.0, 6.0, 7.0]);
    }

    /// Of the random inputs' cells the text has its say on many, by both its scores.
    #[test]
    fn the_text_is_asked() {
        let (mut lay, mut lift) = (0, 0);
        for number in 0..60 {
            let tiles = TileList::new(vec![1; 9], 1);
            let input = ScoreInput::random(Step::Whole, &mut Random::new(&[number]), &tiles);
            let asked = input.ask_the_text(&input.by_rule());
            if asked >= input.counts.len() { lift += asked } else { lay += asked }
        }
        assert!(lay > 300 && lift > 300, "{lay} {lift}");
    }
}
