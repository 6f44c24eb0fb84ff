//! Document 01's bench cases on the oracle.

use oracle::steps::{self, Board, Cache, Job};

const SQUARE: [u8; 9] = [1, 2, 3, 4, 5, 6, 7, 8, 9];

/// The two tiles of the sample 1212/2121/1212.
fn chequer() -> Vec<u8> {
    steps::extract(&[1, 2, 1, 2, 2, 1, 2, 1, 1, 2, 1, 2], [3, 4], false, false)
}

fn laid(job: &mut Job, sides: [usize; 2], pieces: &[([i32; 2], usize)]) -> Board {
    let mut board = Board::fresh(sides, job.tiles());
    for &(world, colour) in pieces {
        job.lay(&mut board, world, [0, 0], colour);
    }
    board
}

#[test]
fn turned_and_mirrored() {
    assert_eq!(steps::rotate(&SQUARE), [7, 4, 1, 8, 5, 2, 9, 6, 3]);
    assert_eq!(steps::reflect(&SQUARE), [3, 2, 1, 6, 5, 4, 9, 8, 7]);
    assert_eq!(steps::extract(&SQUARE, [3, 3], true, true).len(), 8 * 9);
    assert_eq!(steps::extract(&SQUARE, [3, 3], true, false).len(), 4 * 9);
    assert_eq!(steps::extract(&SQUARE, [3, 3], false, true).len(), 2 * 9);
    assert_eq!(steps::distinct(&[SQUARE, [0; 9], SQUARE].concat()), [SQUARE, [0; 9]].concat());
}

#[test]
fn small_sample() {
    assert_eq!(steps::extract(&[1, 2, 2, 1], [2, 2], false, false), [1, 2, 0, 2, 1, 0, 0, 0, 0]);
}

#[test]
fn chequer_tiles() {
    assert_eq!(chequer(), [1, 2, 1, 2, 1, 2, 1, 2, 1, 2, 1, 2, 1, 2, 1, 2, 1, 2]);
}

#[test]
fn chequer_listings() {
    let mut job = Job::new(&chequer(), 2);
    let fresh = Board::fresh([3, 3], 2);
    assert_eq!(job.listing(&fresh, [0, 0], [0, 0], Cache::New), [1, 2]);
    let board = laid(&mut job, [3, 3], &[([1, 1], 1)]);
    assert_eq!(job.listing(&board, [0, 0], [0, 0], Cache::New), [1]);
    assert_eq!(job.listing(&board, [0, 1], [0, 0], Cache::New), [2]);
    let forced = job.forced(&board, [1, 1], [0, 0], Cache::New);
    assert_eq!(forced.iter().map(|forced| forced.1).collect::<Vec<_>>(), [1, 2, 1, 2, 2, 1, 2, 1]);
    assert_eq!(forced[0].0, [0, 0]);
    assert_eq!(forced[7].0, [2, 2]);
}

/// The private step behind the listing: one window at a time.
#[test]
fn chequer_windows() {
    let mut job = Job::new(&chequer(), 2);
    assert_eq!(job.window(&[0; 9], [0, 0]), [1, 2]);
    assert_eq!(job.window(&[0, 0, 0, 0, 1, 0, 0, 0, 0], [0, 0]), [1]);
    assert_eq!(job.window(&[0, 0, 0, 0, 1, 0, 0, 0, 0], [0, 1]), [2]);
    assert_eq!(job.window(&[1, 1, 0, 0, 0, 0, 0, 0, 0], [2, 2]), Vec::<usize>::new());
}

#[test]
fn chequer_dead_end() {
    let mut job = Job::new(&chequer(), 2);
    let board = laid(&mut job, [3, 3], &[([0, 0], 1), ([0, 1], 1)]);
    assert_eq!(job.scan(&board, [0, 0], Cache::New), Some([0, 2]));
    assert_eq!(board.weights()[2], 5);
}

#[test]
fn weights_up_and_down() {
    let mut job = Job::new(&chequer(), 2);
    let mut board = laid(&mut job, [3, 3], &[([0, 0], 1)]);
    assert_eq!(board.weights(), [4, 4, 2, 4, 4, 2, 2, 2, 2]);
    assert_eq!(board.pieces(), [2, 1, 1, 1, 1, 1, 1, 1, 1]);
    job.lift(&mut board, [0, 0], [0, 0]);
    assert_eq!(board.weights(), [1; 9]);
    assert_eq!(board.pieces(), [1; 9]);
    assert_eq!(board.counts(), [2; 9]);
    assert_eq!(steps::raise_weights(&[1; 9], [3, 3], [0, 0], [0, 0]), [4, 4, 2, 4, 4, 2, 2, 2, 2]);
    assert_eq!(steps::lower_weights(&[4, 4, 2, 4, 4, 2, 2, 2, 2], [3, 3], [0, 0], [0, 0]), [1; 9]);
}

/// The planes that the listing program's example prints.
#[test]
fn listing_program_planes() {
    let mut job = Job::new(&chequer(), 2);
    let board = laid(&mut job, [3, 3], &[([1, 1], 1)]);
    assert_eq!(board.pieces(), [1, 1, 1, 1, 2, 1, 1, 1, 1]);
    assert_eq!(board.weights(), [4; 9]);
    assert_eq!(board.counts(), [1, 2, 2, 2, 2, 2, 2, 2, 2]);
    assert_eq!(job.scan(&board, [0, 0], Cache::New), None);
}

#[test]
fn extension_pads() {
    let plain = steps::extension([5, 5], [0, 0], [0, 0], 2);
    assert_eq!((plain.pads, plain.offset, plain.needed), ([2, 0, 2, 0], [2, 2], true));
    let boxed = steps::constrain_extension([5, 5], [0, 0], [0, 0], 2, [-1, 0], [9, 9]);
    assert_eq!((boxed.pads, boxed.offset, boxed.needed), ([1, 0, 0, 0], [1, 0], true));
}

#[test]
fn probabilities() {
    assert_eq!(steps::normalise(&[2.0, 2.0], [1, 1], 2, [0, 0], [0, 0]), [0.5, 0.5]);
    assert_eq!(steps::normalise(&[0.0; 4], [1, 1], 4, [0, 0], [0, 0]), [0.25; 4]);
    // off the board counts as all zeros
    assert_eq!(steps::normalise(&[2.0, 6.0], [1, 1], 2, [-1, 0], [0, 0]), [0.5, 0.5]);
}

#[test]
fn scores() {
    let mut job = Job::new(&chequer(), 2);
    let board = laid(&mut job, [5, 5], &[([2, 2], 1)]);
    assert_eq!(board.scores()[12], 0.5);
    assert_eq!(board.scores()[0], 1.0);
    // the same from the counts alone, over scores of another value
    let scored = steps::lay_score(&[0.75; 25], &board.counts(), [5, 5], 2, [2, 2], [0, 0]);
    assert_eq!((scored[12], scored[0]), (0.5, 0.75));
    let lifted = steps::lift_score(&[0.75; 25], &board.counts(), [5, 5], 2, 0..5, 0..5);
    assert_eq!(lifted[12], 0.25);
}

#[test]
fn thirty_colours_and_side_64() {
    let tile: Vec<u8> = (22..=30).collect();
    let mut job = Job::new(&tile, 30);
    let board = Board::fresh([64, 64], 1);
    assert_eq!(job.listing(&board, [63, 63], [0, 0], Cache::New), Vec::<usize>::new());
    assert_eq!(job.listing(&board, [0, 0], [0, 0], Cache::New), [22]);
    assert_eq!(job.region_count(&vec![1; 64 * 64], [64, 64], [63, 63]), 1);
}
