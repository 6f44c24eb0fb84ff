//! What document 02's request 4 is about, on the text: a piece is lifted and put back, and cells are darker than before, since
//! the text's lift score squares its fractions and its lay score writes few cells. With the port linked the same panel,
//! scored by the desk's plain score: it is the same before, between and after, bit for bit.

use oracle::steps::{Board, Job};

/// The two chequer tiles.
const TILES: [u8; 18] = [1, 2, 1, 2, 1, 2, 1, 2, 1, 2, 1, 2, 1, 2, 1, 2, 1, 2];
const COLOURS: usize = 2;

/// Two pieces of colour 1 in opposite corners of a 3x3 board; the second is lifted and put back. The one region that lies
/// whole on the board fits one tile of two all the while.
const STANDS: [i32; 2] = [0, 0];
const LIFTED: [i32; 2] = [2, 2];
const COUNTS: [u32; 9] = [1, 2, 2, 2, 2, 2, 2, 2, 2];

/// The text's scores with both laid: only the last cell is ever written.
const LAID: [f64; 9] = [1.0, 1.0, 1.0, 1.0, 1.0, 1.0, 1.0, 1.0, 8.5 / 9.0];
/// The text's lift scores: the one fraction of a half counts as a quarter.
const SQUARED: [f64; 9] =
    [0.25, 1.25 / 2.0, 2.25 / 3.0, 1.25 / 2.0, 3.25 / 4.0, 5.25 / 6.0, 2.25 / 3.0, 5.25 / 6.0, 8.25 / 9.0];

#[test]
fn darker_on_the_text() {
    let mut job = Job::new(&TILES, COLOURS);
    let mut board = Board::fresh([3, 3], 2);
    job.lay(&mut board, STANDS, [0, 0], 1);
    job.lay(&mut board, LIFTED, [0, 0], 1);
    assert_eq!((board.counts(), board.scores()), (COUNTS.to_vec(), LAID.to_vec()));

    job.resolve(&mut board, LIFTED.map(|at| at as usize), [0, 0]);
    assert_eq!((board.counts(), board.scores()), (COUNTS.to_vec(), SQUARED.to_vec()));

    job.lay(&mut board, LIFTED, [0, 0], 1);
    let back = board.scores();
    assert_eq!((board.counts(), &back[..8], back[8]), (COUNTS.to_vec(), &SQUARED[..8], LAID[8]));
    println!("{} cells are darker", back.iter().zip(LAID).filter(|(back, laid)| *back < laid).count());
}

#[cfg(feature = "port")]
#[allow(dead_code)]
mod linked;
#[cfg(feature = "port")]
use linked::{calls, outcome, port};

#[cfg(feature = "port")]
mod compiled {
    use super::calls::{Offset, World};
    use super::*;

    /// The fraction of a half counts as a half; in the last cell it is the text's lay score.
    const PLAIN: [f64; 9] = [0.5, 1.5 / 2.0, 2.5 / 3.0, 1.5 / 2.0, 3.5 / 4.0, 5.5 / 6.0, 2.5 / 3.0, 5.5 / 6.0, LAID[8]];

    struct Plan {
        planes: [[u32; 9]; 3],
    }

    impl Plan {
        fn lay(&mut self, [row, col]: [i32; 2]) {
            let ([pieces, weights, counts], here) = (&mut self.planes, Offset(0, 0));
            let laid = port::lay(pieces, weights, counts, 3, 3, &TILES, COLOURS as u32, World(row, col), here, 1);
            assert_eq!(laid, Ok(()));
        }

        fn lift(&mut self, [row, col]: [i32; 2]) {
            let ([pieces, weights, counts], here) = (&mut self.planes, Offset(0, 0));
            let lifted = port::lift(pieces, weights, counts, 3, 3, &TILES, COLOURS as u32, World(row, col), here);
            assert_eq!(lifted, Ok(()));
        }

        fn scores(&self) -> [u64; 9] {
            let mut scores = [f64::NAN; 9];
            assert_eq!(port::plain_score(&mut scores, &self.planes[2], 3, 3, 2), Ok(()));
            scores.map(f64::to_bits)
        }
    }

    #[test]
    fn the_plain_score_is_as_before() {
        let mut plan = Plan { planes: [[1; 9], [1; 9], [2; 9]] };
        assert_eq!(plan.scores(), [1.0; 9].map(f64::to_bits));
        plan.lay(STANDS);
        plan.lay(LIFTED);
        assert_eq!(plan.scores(), PLAIN.map(f64::to_bits));
        plan.lift(LIFTED);
        assert_eq!(plan.scores(), PLAIN.map(f64::to_bits));
        plan.lay(LIFTED);
        assert_eq!(plan.scores(), PLAIN.map(f64::to_bits));
        plan.lift(LIFTED);
        plan.lift(STANDS);
        assert_eq!(plan.scores(), [1.0; 9].map(f64::to_bits));
    }
}
