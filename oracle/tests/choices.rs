//! Document 02, request 9, by running: laying never opens a choice. On every small board with a few pieces of two colours,
//! fitting or not: every lay of every colour on every bare cell, and its lift. First the text's own lists and counts, then,
//! with the port linked, those of its compiled functions, which on all these boards are the text's, and every widening by at
//! most two cells a side.

use oracle::steps::{Board, Cache, Job};

const COLOURS: usize = 2;

/// The two chequer tiles, the tile of the sample 12/21 with its unknown cells, one with a single other corner, and two that
/// differ in a block.
const TILES: [&[u8]; 4] = [
    &[1, 2, 1, 2, 1, 2, 1, 2, 1, 2, 1, 2, 1, 2, 1, 2, 1, 2],
    &[1, 2, 0, 2, 1, 0, 0, 0, 0],
    &[1, 2, 2, 2, 2, 2, 2, 2, 2],
    &[1, 1, 2, 1, 1, 2, 2, 2, 2, 2, 2, 2, 2, 2, 2, 2, 2, 2],
];

/// All boards of a side with at most so many pieces, and for each tile list: how many lays there are, after how many some
/// list is shorter, and some count lower. Worked out once from document 01's rules, by code that was neither the text's nor
/// the port's. A planner that lists everything, or nothing, has other numbers.
type Round = ((usize, usize), [Seen; 4]);

const ON_THE_TEXT: [Round; 2] = [
    ((3, 1), [seen(306, 162, 162), seen(306, 66, 66), seen(306, 81, 81), seen(306, 181, 137)]),
    ((4, 0), [seen(32, 32, 32), seen(32, 14, 31), seen(32, 9, 19), seen(32, 25, 25)]),
];

#[derive(Clone, Copy, Debug, Default, PartialEq)]
struct Seen {
    acts: usize,
    shorter: usize,
    lower: usize,
}

const fn seen(acts: usize, shorter: usize, lower: usize) -> Seen {
    Seen { acts, shorter, lower }
}

type Piece = ([i32; 2], usize);

/// Place by place, bit t-1 where colour t is listed; and the counts.
type Read = (Vec<u64>, Vec<u32>);

fn places(side: usize) -> impl Iterator<Item = [i32; 2]> + Clone {
    (0..side * side).map(move |at| [(at / side) as i32, (at % side) as i32])
}

/// Every set of at most so many pieces.
fn boards((side, most): (usize, usize)) -> Vec<Vec<Piece>> {
    let mut all: Vec<Vec<Piece>> = vec![Vec::new()];
    let mut larger = all.clone();
    for _ in 0..most {
        larger = larger.iter().flat_map(|board| one_more(side, board)).collect();
        all.extend(larger.iter().cloned());
    }
    all
}

/// The board with one piece more, at a place behind its last.
fn one_more(side: usize, board: &[Piece]) -> Vec<Vec<Piece>> {
    let last = board.last().map(|piece| piece.0);
    let behind = lays(side, board).into_iter().filter(|piece| last.is_none_or(|last| piece.0 > last));
    behind.map(|piece| [board, &[piece]].concat()).collect()
}

fn lays(side: usize, board: &[Piece]) -> Vec<Piece> {
    let bare = places(side).filter(|place| board.iter().all(|piece| piece.0 != *place));
    bare.flat_map(|place| (1..=COLOURS).map(move |colour| (place, colour))).collect()
}

/// A colour is listed after that was not listed before.
fn opens(before: &[u64], after: &[u64]) -> bool {
    before.iter().zip(after).any(|(before, after)| after & !before != 0)
}

fn rises(before: &[u32], after: &[u32]) -> bool {
    before.iter().zip(after).any(|(before, after)| after > before)
}

impl Seen {
    fn compare(&mut self, before: &Read, after: &Read, what: impl std::fmt::Debug) {
        assert!(!opens(&before.0, &after.0), "a list grew: {what:?}");
        assert!(!rises(&before.1, &after.1), "a count rose: {what:?}");
        self.acts += 1;
        self.shorter += usize::from(opens(&after.0, &before.0));
        self.lower += usize::from(rises(&after.1, &before.1));
    }
}

/// A lay, as request 9 has it, and what is left of the cell's own list; then its lift.
fn laid(seen: &mut Seen, side: usize, [before, after, lifted]: [&Read; 3], (place, colour): Piece) {
    let at = place[0] as usize * side + place[1] as usize;
    seen.compare(before, after, (place, colour));
    assert_eq!(after.0[at], before.0[at] & 1 << (colour - 1), "the cell's own list");
    assert_eq!(lifted, before, "lifted at once");
}

fn read(job: &mut Job, board: &Board, side: usize) -> Read {
    let listed = places(side).map(|place| job.listing(board, place, [0, 0], Cache::New));
    (listed.map(|colours| colours.iter().map(|colour| 1 << (colour - 1)).sum()).collect(), board.counts())
}

#[test]
fn laying_opens_nothing_on_the_text() {
    for (size, due) in ON_THE_TEXT {
        for (tiles, due) in TILES.iter().zip(due) {
            let (mut job, mut seen, side) = (Job::new(tiles, COLOURS), Seen::default(), size.0);
            for pieces in boards(size) {
                let mut board = job.afresh(&pieces, [side; 2], [0, 0]);
                let before = read(&mut job, &board, side);
                for (place, colour) in lays(side, &pieces) {
                    job.lay(&mut board, place, [0, 0], colour);
                    let after = read(&mut job, &board, side);
                    job.lift(&mut board, place, [0, 0]);
                    let lifted = read(&mut job, &board, side);
                    laid(&mut seen, side, [&before, &after, &lifted], (place, colour));
                }
            }
            assert_eq!(seen, due);
        }
    }
}

/// Only listed colours are laid, and a cell is left with none: each of three cells in a row lists 1, and with 1 laid on the
/// third the second lists nothing.
#[test]
fn a_listed_colour_closes_another_cell() {
    let tiles = [1, 1, 2, 1, 2, 1, 1, 2, 1, 1, 2, 1, 2, 1, 1, 2, 1, 1];
    let mut job = Job::new(&tiles, COLOURS);
    let mut board = Board::fresh([1, 3], 2);
    let mut lists = |board: &Board| [0, 1, 2].map(|col| job.listing(board, [0, col], [0, 0], Cache::New));
    assert_eq!(lists(&board), [[1], [1], [1]]);
    Job::new(&tiles, COLOURS).lay(&mut board, [0, 2], [0, 0], 1);
    assert_eq!(lists(&board), [vec![1], vec![], vec![1]]);
}

#[cfg(feature = "port")]
#[allow(dead_code)]
mod linked;
#[cfg(feature = "port")]
use linked::{calls, outcome, port};

#[cfg(feature = "port")]
mod compiled {
    use super::calls::{Offset, Pads, World};
    use super::*;

    /// The compiled functions are faster than the text with an emulator beneath it: more boards.
    const ON_THE_PORT: [Round; 2] = [
        ((3, 2), [seen(2322, 666, 666), seen(2322, 138, 138), seen(2322, 333, 333), seen(2322, 785, 611)]),
        ((4, 1), [seen(992, 824, 824), seen(992, 262, 741), seen(992, 207, 484), seen(992, 638, 686)]),
    ];

    /// Widenings of the 3x3 boards with at most one piece, by tile list; worked out likewise.
    const WIDENED: [Seen; 4] = [seen(1539, 0, 1008), seen(1539, 360, 792), seen(1539, 720, 639), seen(1539, 684, 936)];

    /// A board of the port's, on planes that are lent to its calls.
    struct Plan {
        sides: [usize; 2],
        offset: Offset,
        planes: [Vec<u32>; 3],
    }

    impl Plan {
        fn with(tiles: &[u8], side: usize, pieces: &[Piece]) -> Self {
            let planes = [0; 3].map(|stored| vec![stored; side * side]);
            let mut plan = Self { sides: [side; 2], offset: Offset(0, 0), planes };
            let [stored, weights, counts] = &mut plan.planes;
            assert_eq!(port::fresh(stored, weights, counts, side, side, tiles.len() / 9), Ok(()));
            pieces.iter().for_each(|&piece| plan.lay(tiles, piece));
            plan
        }

        fn lay(&mut self, tiles: &[u8], (place, colour): Piece) {
            let ([stored, weights, counts], [rows, cols]) = (&mut self.planes, self.sides);
            let (at, colours) = (World(place[0], place[1]), COLOURS as u32);
            let laid = port::lay(stored, weights, counts, rows, cols, tiles, colours, at, self.offset, colour as u32);
            assert_eq!(laid, Ok(()));
        }

        fn lift(&mut self, tiles: &[u8], place: [i32; 2]) {
            let ([stored, weights, counts], [rows, cols]) = (&mut self.planes, self.sides);
            let (at, colours) = (World(place[0], place[1]), COLOURS as u32);
            assert_eq!(port::lift(stored, weights, counts, rows, cols, tiles, colours, at, self.offset), Ok(()));
        }

        #[rustfmt::skip]
        fn widened(&self, tiles: &[u8], pads: Pads) -> Self {
            let [rows, cols] = self.sides;
            let sides = [pads.left + rows + pads.right, pads.top + cols + pads.bottom];
            let (mut planes, mut told) = ([0; 3].map(|stored| vec![stored; sides[0] * sides[1]]), [0; 2]);
            let ([pieces, weights, counts], [old_pieces, old_weights, old_counts]) = (&mut planes, &self.planes);
            let answer = port::widen(
                pieces, weights, counts, old_pieces, old_weights, old_counts,
                rows, cols, pads, tiles, COLOURS as u32, self.offset, &mut told,
            );
            assert_eq!(answer, Ok(()));
            Self { sides, offset: Offset(told[0], told[1]), planes }
        }

        /// At the places of a board of that side, which may have been widened since.
        fn read(&self, tiles: &[u8], side: usize) -> Read {
            let [rows, cols] = self.sides;
            let list = |place: [i32; 2]| {
                let at = World(place[0], place[1]);
                port::fitting_colours(&self.planes[0], rows, cols, tiles, COLOURS as u32, at, self.offset)
            };
            let count = |place: [i32; 2]| {
                let (row, col) = (place[0] + self.offset.0, place[1] + self.offset.1);
                self.planes[2][row as usize * cols + col as usize]
            };
            (places(side).map(|place| list(place).expect("no refusal")).collect(), places(side).map(count).collect())
        }
    }

    #[test]
    fn laying_opens_nothing() {
        for (size, due) in ON_THE_PORT {
            for (tiles, due) in TILES.iter().zip(due) {
                let (mut job, mut seen, side) = (Job::new(tiles, COLOURS), Seen::default(), size.0);
                for pieces in boards(size) {
                    let mut plan = Plan::with(tiles, side, &pieces);
                    let before = plan.read(tiles, side);
                    let board = job.afresh(&pieces, [side; 2], [0, 0]);
                    assert_eq!(before, super::read(&mut job, &board, side), "not as the text");
                    for (place, colour) in lays(side, &pieces) {
                        plan.lay(tiles, (place, colour));
                        let after = plan.read(tiles, side);
                        plan.lift(tiles, place);
                        let lifted = plan.read(tiles, side);
                        laid(&mut seen, side, [&before, &after, &lifted], (place, colour));
                    }
                }
                assert_eq!(seen, due);
            }
        }
    }

    #[test]
    fn widening_opens_nothing() {
        for (tiles, due) in TILES.iter().zip(WIDENED) {
            let mut seen = Seen::default();
            for pieces in boards((3, 1)) {
                let plan = Plan::with(tiles, 3, &pieces);
                let before = plan.read(tiles, 3);
                for pads in (0..81).map(|n| Pads { left: n / 27, right: n / 9 % 3, top: n / 3 % 3, bottom: n % 3 }) {
                    let after = plan.widened(tiles, pads).read(tiles, 3);
                    seen.compare(&before, &after, (&pieces, pads));
                    for (at, [row, col]) in places(3).enumerate() {
                        let stays = (pads.left == 0 || row >= 2) && (pads.top == 0 || col >= 2);
                        assert!(!stays || after.0[at] == before.0[at], "a list that had to stay: {pieces:?} {pads:?}");
                    }
                }
            }
            assert_eq!(seen, due);
        }
    }
}
