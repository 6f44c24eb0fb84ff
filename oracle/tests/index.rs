//! The index on demand agrees with the text's own, and the cache changes no answer.

use oracle::steps::{self, Board, Cache, Job};

/// Tiles of a sample of `count` colours whose cells follow no simple rule.
fn tiles(count: u8, side: usize) -> Vec<u8> {
    let mut state = u32::from(count) * 7919 + side as u32;
    let cells: Vec<u8> = (0..side * side)
        .map(|_| {
            state = state.wrapping_mul(1_664_525).wrapping_add(1_013_904_223);
            (state >> 16) as u8 % (count + 1)
        })
        .collect();
    steps::extract(&cells, [side, side], true, true)
}

#[test]
fn on_demand_is_the_texts_index() {
    for (count, side) in [(1, 3), (1, 8), (2, 4), (4, 12), (7, 9), (12, 4), (12, 7)] {
        let list = tiles(count, side);
        let text = Job::new(&list, usize::from(count));
        let mut ours = Job::on_demand(&list, usize::from(count));
        ours.want_all();
        assert_eq!(text.index(), ours.index(), "{count} colours, side {side}");
    }
}

#[test]
fn looked_up_keys_suffice_and_the_cache_changes_nothing() {
    for (count, side) in [(2, 4), (4, 12), (12, 7)] {
        let list = tiles(count, side);
        let mut text = Job::new(&list, usize::from(count));
        let mut ours = Job::on_demand(&list, usize::from(count));
        // built without the cache
        let mut bare = uncached::steps::Job::on_demand(&list, usize::from(count));
        let sides = [6, 7];
        let mut board = Board::fresh(sides, text.tiles());
        // pieces as the listings allow, in an order of leaps
        for k in 0..42 {
            let world = [(k * 5 % 42) / 7, (k * 5 % 42) % 7];
            let before = uncached::steps::Board::with_pieces(&board.pieces(), sides);
            let listed = text.listing(&board, world, [0, 0], Cache::New);
            assert_eq!(listed, text.listing(&board, world, [0, 0], Cache::Kept));
            assert_eq!(listed, ours.listing(&board, world, [0, 0], Cache::New));
            assert_eq!(listed, ours.listing(&board, world, [0, 0], Cache::Kept));
            let forced = text.forced(&board, world, [0, 0], Cache::New);
            assert_eq!(forced, text.forced(&board, world, [0, 0], Cache::Kept));
            assert_eq!(forced, ours.forced(&board, world, [0, 0], Cache::New));
            if k % 3 != 0 {
                let colour = listed.last().copied().unwrap_or(1);
                text.lay(&mut board, world, [0, 0], colour);
            }
            let dead = text.scan(&board, [0, 0], Cache::New);
            assert_eq!(dead, text.scan(&board, [0, 0], Cache::Kept));
            assert_eq!(dead, ours.scan(&board, [0, 0], Cache::New));
            let same = uncached::steps::Board::with_planes(
                &board.pieces(),
                &board.weights(),
                &board.counts(),
                sides,
                text.tiles(),
            );
            assert_eq!(dead, bare.scan(&same, [0, 0], uncached::steps::Cache::New));
            assert_eq!(forced, bare.forced(&before, world, [0, 0], uncached::steps::Cache::New));
        }
        let (hits, misses) = text.cache_use();
        assert!(hits > misses && misses > 0, "{hits} hits, {misses} misses");
    }
}
