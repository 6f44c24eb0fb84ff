//! The smallest input of the works' accident, on the text and, with the port linked, on its compiled functions: a panel is
//! widened by the text's own growing, which gives new cells weight 1, and then a piece near the former edge is lifted.
//! The lift takes from the new cells what no lay gave them. So a piece that is laid two cells from one of them leaves it
//! at a weight that the scan for dead ends passes over, although no colour fits there. With the port linked also the
//! accident the other way round: widened by document 02's rule, the same panel has no such cell.

use oracle::steps::{self, Board, Cache, Job};

/// The one tile. On a 3x3 board its 2 stands, in the window at the left edge, on the last cell of the first row, and the
/// windows further right have a 1 there: no colour fits that cell, whatever is laid elsewhere.
const TILE: [u8; 9] = [1, 1, 2, 1, 1, 1, 1, 1, 1];
const COLOURS: usize = 2;

/// The weights of the widened board, by the copy: 4 everywhere would be right, each cell is at most one from the piece.
const WIDENED: [u32; 9] = [1, 1, 1, 1, 4, 1, 1, 1, 1];
/// After the lift: 1 everywhere would be right.
const LIFTED: [u32; 9] = [0, 0, 0, 0, 1, 0, 0, 0, 0];
/// After a lay in the corner, and what would be right.
const LAID: [u32; 9] = [3, 3, 1, 3, 4, 1, 1, 1, 1];
const LAID_FRESH: [u32; 9] = [4, 4, 2, 4, 4, 2, 2, 2, 2];

const BARE: [u32; 9] = [1; 9];
const MIDDLE: [u32; 9] = [1, 1, 1, 1, 2, 1, 1, 1, 1];
const CORNER: [u32; 9] = [2, 1, 1, 1, 1, 1, 1, 1, 1];

#[test]
fn lifted_after_widening() {
    let mut job = Job::new(&TILE, COLOURS);
    let mut board = Board::fresh([1, 1], 1);
    job.lay(&mut board, [0, 0], [0, 0], 1);
    assert_eq!(board.weights(), [4]);

    let offset = board.extend([0, 0], [0, 0], 1);
    assert_eq!((board.sides(), offset), ([3, 3], [1, 1]));
    assert_eq!(board.pieces(), MIDDLE);
    assert_eq!(board.weights(), WIDENED);
    assert_eq!(from_the_pieces(&board), [4; 9]);

    // the text's lift, weights only: its counts' plane has not grown
    let weights = steps::lower_weights(&board.weights(), [3, 3], [0, 0], offset);
    assert_eq!(weights, LIFTED);
    let mut fresh = Board::fresh([3, 3], 1);
    assert_eq!(fresh.weights(), from_the_pieces(&fresh));
    assert_eq!(fresh.weights(), [1; 9]);

    // the text's lay in the corner, two cells from the last of the first row
    let mut lifted = Board::with_planes(&BARE, &weights, &[1; 9], [3, 3], 1);
    job.lay(&mut lifted, [-1, -1], offset, 1);
    job.lay(&mut fresh, [-1, -1], offset, 1);
    assert_eq!((lifted.pieces(), lifted.weights()), (CORNER.to_vec(), LAID.to_vec()));
    assert_eq!((fresh.pieces(), fresh.weights()), (CORNER.to_vec(), LAID_FRESH.to_vec()));
    assert_eq!(fresh.weights(), from_the_pieces(&fresh));

    // no colour fits that cell, and the text's scan passes it over
    assert_eq!(job.listing(&lifted, [-1, 1], offset, Cache::New), Vec::<usize>::new());
    assert_eq!(job.scan(&lifted, offset, Cache::New), None);
    assert_eq!(job.scan(&fresh, offset, Cache::New), Some([0, 2]));
    println!("weights {:?}, right: {:?}; dead end none, right: 0 2", lifted.weights(), fresh.weights());
}

/// Demand 3: 1, plus 3 for each piece at most one cell away, plus 1 for each exactly two away.
fn from_the_pieces(board: &Board) -> Vec<u32> {
    let [rows, cols] = board.sides();
    let pieces = board.pieces();
    let weight = |cell: usize| {
        let reach = |piece: usize| {
            let far = (piece / cols).abs_diff(cell / cols).max((piece % cols).abs_diff(cell % cols));
            [3, 3, 1].get(far).copied().unwrap_or(0)
        };
        1 + (0..rows * cols).filter(|&piece| pieces[piece] > 1).map(reach).sum::<u32>()
    };
    (0..rows * cols).map(weight).collect()
}

#[cfg(feature = "port")]
#[allow(dead_code)]
mod linked;
#[cfg(feature = "port")]
use linked::{calls, outcome, port};

#[cfg(feature = "port")]
const PADS: calls::Pads = calls::Pads { left: 1, right: 1, top: 1, bottom: 1 };

/// The panel before it is widened: one cell with a piece of colour 1, at the wall's origin.
#[cfg(feature = "port")]
fn panel() -> ([u32; 1], [u32; 1], [u32; 1]) {
    use calls::{Offset, World};
    let (mut pieces, mut weights, mut counts) = ([0], [0], [0]);
    assert_eq!(port::fresh(&mut pieces, &mut weights, &mut counts, 1, 1, 1), Ok(()));
    let (colours, origin) = (COLOURS as u32, World(0, 0));
    let laid = port::lay(&mut pieces, &mut weights, &mut counts, 1, 1, &TILE, colours, origin, Offset(0, 0), 1);
    assert_eq!((laid, weights), (Ok(()), [4]));
    (pieces, weights, counts)
}

/// The same calls of the port: it keeps the text's copy, so a board put together with it goes the same way.
#[cfg(feature = "port")]
#[test]
fn the_port_does_the_same() {
    use calls::{Cell, Offset, World};
    let colours = COLOURS as u32;
    let (pieces, weights, counts) = panel();
    let (origin, corner) = (World(0, 0), World(-1, -1));
    let lay = port::lay;

    let (pads, offset) = (PADS, Offset(1, 1));
    let (mut wide_pieces, mut wide_weights, mut wide_counts) = ([0; 9], [0; 9], [0; 9]);
    for (plane, wide) in [(pieces, &mut wide_pieces), (weights, &mut wide_weights), (counts, &mut wide_counts)] {
        assert_eq!(port::extend_array_2d_u32(&plane, 1, 1, pads, wide), Ok(()));
    }
    assert_eq!((wide_pieces, wide_weights), (MIDDLE, WIDENED));

    // the weights step alone, and the lift
    let mut lowered = wide_weights;
    assert_eq!(port::lower_weights(&mut lowered, 3, 3, origin, offset), Ok(()));
    assert_eq!(lowered, LIFTED);
    let (pieces, weights, counts) = (&mut wide_pieces, &mut wide_weights, &mut wide_counts);
    assert_eq!(port::lift(pieces, weights, counts, 3, 3, &TILE, colours, origin, offset), Ok(()));
    assert_eq!((*pieces, *weights), (BARE, LIFTED));

    assert_eq!(lay(pieces, weights, counts, 3, 3, &TILE, colours, corner, offset, 1), Ok(()));
    assert_eq!((*pieces, *weights), (CORNER, LAID));
    assert_eq!(port::fitting_colours(pieces, 3, 3, &TILE, colours, World(-1, 1), offset), Ok(0));
    assert_eq!(port::scan(pieces, weights, 3, 3, &TILE, colours), Ok(None));

    // and from fresh by the port's lay
    assert_eq!(port::fresh(pieces, weights, counts, 3, 3, 1), Ok(()));
    assert_eq!(lay(pieces, weights, counts, 3, 3, &TILE, colours, corner, offset, 1), Ok(()));
    assert_eq!((*pieces, *weights), (CORNER, LAID_FRESH));
    assert_eq!(port::scan(pieces, weights, 3, 3, &TILE, colours), Ok(Some(Cell(0, 2))));
}

/// The same panel, lift, lay and scan, but the panel is widened by the port's widening: after each call the planes are those
/// of a fresh board with the same piece, and the dead end is found.
#[cfg(feature = "port")]
#[test]
fn the_other_way_round() {
    use calls::{Cell, Offset, World};
    let colours = COLOURS as u32;
    let (origin, corner, offset) = (World(0, 0), World(-1, -1), Offset(1, 1));
    let fresh = |piece: Option<World>| {
        let (mut pieces, mut weights, mut counts) = ([0; 9], [0; 9], [0; 9]);
        assert_eq!(port::fresh(&mut pieces, &mut weights, &mut counts, 3, 3, 1), Ok(()));
        let mut lay = |at| port::lay(&mut pieces, &mut weights, &mut counts, 3, 3, &TILE, colours, at, offset, 1);
        assert_eq!(piece.map_or(Ok(()), &mut lay), Ok(()));
        (pieces, weights, counts)
    };

    let (old_pieces, old_weights, old_counts) = panel();
    let (mut pieces, mut weights, mut counts, mut told) = ([0; 9], [0; 9], [0; 9], [0; 2]);
    let (wide, of) = ((&mut pieces, &mut weights, &mut counts), (&old_pieces, &old_weights, &old_counts));
    let before = Offset(0, 0);
    assert_eq!(
        port::widen(wide.0, wide.1, wide.2, of.0, of.1, of.2, 1, 1, PADS, &TILE, colours, before, &mut told),
        Ok(())
    );
    assert_eq!(told, [1, 1]);
    assert_eq!((pieces, weights), (MIDDLE, [4; 9]));
    assert_eq!((pieces, weights, counts), fresh(Some(origin)));

    assert_eq!(port::lift(&mut pieces, &mut weights, &mut counts, 3, 3, &TILE, colours, origin, offset), Ok(()));
    assert_eq!((pieces, weights), (BARE, [1; 9]));
    assert_eq!((pieces, weights, counts), fresh(None));

    assert_eq!(port::lay(&mut pieces, &mut weights, &mut counts, 3, 3, &TILE, colours, corner, offset, 1), Ok(()));
    assert_eq!((pieces, weights), (CORNER, LAID_FRESH));
    assert_eq!((pieces, weights, counts), fresh(Some(corner)));
    assert_eq!(port::fitting_colours(&pieces, 3, 3, &TILE, colours, World(-1, 1), offset), Ok(0));
    assert_eq!(port::scan(&pieces, &weights, 3, 3, &TILE, colours), Ok(Some(Cell(0, 2))));
}
