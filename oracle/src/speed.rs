//! Both sides timed on the same inputs, as a Markdown report; or the port alone, line by line.
//!
//! The board is 64x64. Its full picture repeats a random block, and the sample is that block with two rows and columns of
//! its repetition, so every window of the board is a tile: no dead end ends a scan early. A part of the picture is laid.
//! Times are the best of several batches, each of many calls, in time of the processor: other work on the machine can only
//! add to them.

use crate::calls::*;
use crate::random::Random;
use crate::{inputs, side};
use std::hint::black_box;
use std::ops::Sub;

const SIDE: usize = 64;
const CELLS: usize = SIDE * SIDE;
const COLOURS: [u32; 3] = [4, 12, 30];
const LAID: [usize; 3] = [5, 30, 70];
/// The block's sides, and the tiles that it gives with all turned and mirrored forms if no two are equal.
const BLOCKS: [(usize, usize, usize); 3] = [(5, 5, 200), (5, 25, 1_000), (30, 30, 7_200)];

const LISTINGS: usize = 200;
const LAYS: usize = 100;
const JOB_CALLS: usize = 1_000;

/// Whether the port is there to be timed.
const PORT: bool = cfg!(feature = "port");

struct Picture {
    colours: u32,
    sample: Vec<u8>,
    sample_sides: [usize; 2],
    tiles: Vec<u8>,
    /// the colour of each cell of the board if it were full
    full: Vec<u32>,
}

impl Picture {
    /// Of some random blocks that with the most distinct tiles: with few colours some are equal.
    fn new(colours: u32, block: (usize, usize, usize), random: &mut Random) -> Self {
        let mut picture = Self::of(colours, block, random);
        for _ in 0..200 {
            if picture.tiles.len() == block.2 * 9 || block.2 > 1_000 {
                break;
            }
            let other = Self::of(colours, block, random);
            if other.tiles.len() > picture.tiles.len() {
                picture = other;
            }
        }
        picture
    }

    fn of(colours: u32, (rows, cols, _): (usize, usize, usize), random: &mut Random) -> Self {
        let block: Vec<u8> = (0..rows * cols).map(|_| 1 + random.below(colours as usize) as u8).collect();
        let at = |row: usize, col: usize| block[row % rows * cols + col % cols];
        let sample_sides = [rows + 2, cols + 2];
        let sample: Vec<u8> =
            (0..sample_sides[0] * sample_sides[1]).map(|k| at(k / sample_sides[1], k % sample_sides[1])).collect();
        let tiles = oracle::steps::extract(&sample, sample_sides, true, true);
        let full = (0..CELLS).map(|k| u32::from(at(k / SIDE, k % SIDE))).collect();
        Self { colours, sample, sample_sides, tiles, full }
    }

    /// The board with a part of its cells laid.
    fn laid(&self, percent: usize, random: &mut Random) -> Vec<u32> {
        let mut pieces = vec![1; CELLS];
        for &cell in &shuffled(CELLS, random)[..CELLS * percent / 100] {
            pieces[cell] = self.full[cell] + 1;
        }
        pieces
    }
}

fn shuffled(number: usize, random: &mut Random) -> Vec<usize> {
    let mut all: Vec<usize> = (0..number).collect();
    for at in (1..number).rev() {
        all.swap(at, random.below(at + 1));
    }
    all
}

fn world(cell: usize) -> [i32; 2] {
    [(cell / SIDE) as i32, (cell % SIDE) as i32]
}

/// A moment of this thread's time on the processor.
#[derive(Clone, Copy)]
struct Moment(f64);

#[cfg(target_os = "linux")]
impl Moment {
    fn now() -> Self {
        #[repr(C)]
        struct Time {
            seconds: i64,
            nanos: i64,
        }
        unsafe extern "C" {
            fn clock_gettime(clock: i32, time: *mut Time) -> i32;
        }
        const THREAD_TIME: i32 = 3;
        let mut time = Time { seconds: 0, nanos: 0 };
        let failed = unsafe { clock_gettime(THREAD_TIME, &mut time) };
        assert_eq!(failed, 0, "no clock of the thread's time");
        Self(time.seconds as f64 + time.nanos as f64 * 1e-9)
    }
}

#[cfg(not(target_os = "linux"))]
impl Moment {
    fn now() -> Self {
        static START: std::sync::LazyLock<std::time::Instant> = std::sync::LazyLock::new(std::time::Instant::now);
        Self(START.elapsed().as_secs_f64())
    }
}

impl Moment {
    /// Seconds since then.
    fn passed(self) -> f64 {
        Self::now() - self
    }
}

impl Sub for Moment {
    type Output = f64;
    fn sub(self, earlier: Self) -> f64 {
        self.0 - earlier.0
    }
}

/// Seconds of the fastest of at least three runs, of more where they are short; `again` makes what a run uses up.
fn best<T>(mut again: impl FnMut() -> T, mut run: impl FnMut(&mut T)) -> f64 {
    let (mut least, mut all, mut runs) = (f64::INFINITY, 0.0, 0);
    while runs < 3 || all < 0.2 && runs < 50 {
        let mut given = again();
        let start = Moment::now();
        run(&mut given);
        let seconds = start.passed();
        black_box(&given);
        least = least.min(seconds);
        all += seconds;
        runs += 1;
    }
    least
}

/// The oracle with the text's cache and the one without it have the same functions over types of their own.
macro_rules! text_side {
    ($name:ident, $text:ident) => {
        // each of the two is asked for a part of these
        #[allow(dead_code)]
        mod $name {
            use super::*;
            use $text::steps::{Board, Cache, Job, Sample};

            /// A job whose index has every key that the board's windows need, and no more will be added.
            fn ready(picture: &Picture, pieces: &[u32], cells: &[usize]) -> Job {
                let mut job = Job::new(&picture.tiles, picture.colours as usize);
                let mut board = Board::with_pieces(pieces, [SIDE, SIDE]);
                job.want_board(&board);
                for &cell in cells {
                    job.lay_unscored(&mut board, world(cell), [0, 0], picture.full[cell] as usize);
                }
                for &cell in cells.iter().rev() {
                    job.lift(&mut board, world(cell), [0, 0]);
                }
                job.close_index();
                job
            }

            /// A board and the bare cells that calls go to. All answers are seconds a call.
            pub struct Case<'a> {
                picture: &'a Picture,
                pieces: &'a [u32],
                weights: &'a [u32],
                list: &'a [usize],
                lay: &'a [usize],
                job: Job,
            }

            impl<'a> Case<'a> {
                pub fn new(picture: &'a Picture, pieces: &'a [u32], weights: &'a [u32], bare: &'a [usize]) -> Self {
                    let (list, lay) = (&bare[..LISTINGS], &bare[..LAYS]);
                    Self { picture, pieces, weights, list, lay, job: ready(picture, pieces, lay) }
                }

                /// The second answer is how many colours all listings had.
                pub fn listing(&mut self, cache: Cache) -> (f64, u64) {
                    let Self { picture, pieces, weights, list, job, .. } = self;
                    let board = board(picture, pieces, weights);
                    let mut listed = 0;
                    let seconds = best(
                        || (),
                        |()| {
                            listed = 0;
                            for &cell in list.iter() {
                                listed += job.listing(&board, world(cell), [0, 0], cache).len() as u64;
                            }
                        },
                    );
                    (seconds / LISTINGS as f64, listed)
                }

                pub fn lay(&mut self) -> f64 {
                    let Self { picture, pieces, weights, lay, job, .. } = self;
                    let seconds = best(
                        || board(picture, pieces, weights),
                        |board| {
                            for &cell in lay.iter() {
                                job.lay_unscored(board, world(cell), [0, 0], picture.full[cell] as usize);
                            }
                        },
                    );
                    seconds / LAYS as f64
                }

                pub fn lift(&mut self) -> f64 {
                    let Self { picture, pieces, weights, lay, job, .. } = self;
                    let laid = || {
                        let mut board = board(picture, pieces, weights);
                        lay.iter().for_each(|&cell| board.put(world(cell), picture.full[cell]));
                        board
                    };
                    let seconds = best(laid, |board| {
                        for &cell in lay.iter().rev() {
                            job.lift(board, world(cell), [0, 0]);
                        }
                    });
                    seconds / LAYS as f64
                }

                pub fn scan(&mut self, cache: Cache) -> f64 {
                    let Self { picture, pieces, weights, job, .. } = self;
                    let board = board(picture, pieces, weights);
                    best(|| (), |()| assert_eq!(job.scan(&board, [0, 0], cache), None, "a dead end"))
                }
            }

            fn board(picture: &Picture, pieces: &[u32], weights: &[u32]) -> Board {
                let tiles = picture.tiles.len() / 9;
                Board::with_planes(pieces, weights, &[tiles as u32; CELLS], [SIDE, SIDE], tiles)
            }

            pub fn extraction(picture: &Picture) -> f64 {
                let sample = Sample::new(&picture.sample, picture.sample_sides);
                best(
                    || (),
                    |()| {
                        black_box(sample.extract(true, true));
                    },
                )
            }

            /// Set-up, lays, listings, scan. A job of many colours gets the keys of a run that went before.
            pub fn job(picture: &Picture, order: &[usize], cache: Cache) -> [f64; 4] {
                let lay = &order[..JOB_CALLS];
                let list = &order[JOB_CALLS..2 * JOB_CALLS];
                let mut keys = Vec::new();
                let run = |keys: &mut Vec<u32>| {
                    let start = Moment::now();
                    black_box(Sample::new(&picture.sample, picture.sample_sides).extract(true, true));
                    let mut job = Job::new(&picture.tiles, picture.colours as usize);
                    job.want_keys(keys.iter().copied());
                    if !keys.is_empty() {
                        job.close_index();
                    }
                    let mut board = Board::fresh([SIDE, SIDE], picture.tiles.len() / 9);
                    let set_up = start.passed();
                    let (mut lays, mut listings) = (0.0, 0.0);
                    for (&laid, &listed) in lay.iter().zip(list) {
                        let start = Moment::now();
                        job.lay_unscored(&mut board, world(laid), [0, 0], picture.full[laid] as usize);
                        let between = Moment::now();
                        black_box(job.listing(&board, world(listed), [0, 0], cache));
                        lays += between - start;
                        listings += between.passed();
                    }
                    let start = Moment::now();
                    assert_eq!(job.scan(&board, [0, 0], cache), None, "a dead end");
                    let scan = start.passed();
                    *keys = job.keys();
                    [set_up, lays, listings, scan]
                };
                let first = run(&mut keys);
                // up to 12 colours the index is the text's own, and there is nothing to look up beforehand
                let mut least = if keys.is_empty() { first } else { run(&mut keys) };
                for _ in 0..2 {
                    let times = run(&mut keys);
                    if times.iter().sum::<f64>() < least.iter().sum::<f64>() {
                        least = times;
                    }
                }
                least
            }
        }
    };
}

text_side!(cached, oracle);
text_side!(bare, uncached);

/// The port, with its checks, as a caller gets it.
mod port_side {
    use super::*;

    const ORIGIN: Offset = Offset(0, 0);

    fn place(cell: usize) -> World {
        World((cell / SIDE) as i32, (cell % SIDE) as i32)
    }

    struct Planes {
        pieces: Vec<u32>,
        weights: Vec<u32>,
        counts: Vec<u32>,
    }

    impl Planes {
        fn lay(&mut self, picture: &Picture, cell: usize) {
            let Self { pieces, weights, counts } = self;
            let (tiles, count, colour) = (&picture.tiles, picture.colours, picture.full[cell]);
            side::lay(pieces, weights, counts, SIDE, SIDE, tiles, count, place(cell), ORIGIN, colour)
                .expect("a lay was refused");
        }

        fn lift(&mut self, picture: &Picture, cell: usize) {
            let Self { pieces, weights, counts } = self;
            side::lift(pieces, weights, counts, SIDE, SIDE, &picture.tiles, picture.colours, place(cell), ORIGIN)
                .expect("a lift was refused");
        }

        fn listing(&self, picture: &Picture, cell: usize) -> u64 {
            side::listing(&self.pieces, SIDE, SIDE, &picture.tiles, picture.colours, place(cell), ORIGIN)
                .map(|set| u64::from(set.bits.count_ones()))
                .expect("a listing was refused")
        }

        fn scan(&self, picture: &Picture) {
            let found = side::scan(&self.pieces, &self.weights, SIDE, SIDE, &picture.tiles, picture.colours);
            assert_eq!(found, Ok(None), "a dead end");
        }
    }

    pub struct Times {
        pub listing: f64,
        pub lay: f64,
        pub lift: f64,
        pub scan: f64,
        pub listed: u64,
    }

    pub fn calls(picture: &Picture, pieces: &[u32], weights: &[u32], bare: &[usize]) -> Times {
        let (list, lay) = (&bare[..LISTINGS], &bare[..LAYS]);
        let counts = vec![picture.tiles.len() as u32 / 9; CELLS];
        let board = || Planes { pieces: pieces.to_vec(), weights: weights.to_vec(), counts: counts.clone() };
        let mut listed = 0;
        let listing = best(board, |board| listed = list.iter().map(|&cell| board.listing(picture, cell)).sum());
        let lays = best(board, |board| lay.iter().for_each(|&cell| board.lay(picture, cell)));
        let full = || {
            let mut board = board();
            lay.iter().for_each(|&cell| board.pieces[cell] = picture.full[cell] + 1);
            board
        };
        let lifts = best(full, |board| lay.iter().rev().for_each(|&cell| board.lift(picture, cell)));
        let scan = best(board, |board| board.scan(picture));
        let (listing, lay, lift) = (listing / LISTINGS as f64, lays / LAYS as f64, lifts / LAYS as f64);
        Times { listing, lay, lift, scan, listed }
    }

    /// The steps' calls made once, each step's between `counted` and its end.
    pub fn counted_calls(picture: &Picture, pieces: &[u32], weights: &[u32], bare: &[usize]) {
        let (list, lay) = (&bare[..LISTINGS / 10], &bare[..LAYS / 10]);
        let counts = vec![picture.tiles.len() as u32 / 9; CELLS];
        let mut board = Planes { pieces: pieces.to_vec(), weights: weights.to_vec(), counts };
        counted(&mut || {
            black_box(list.iter().map(|&cell| board.listing(picture, cell)).sum::<u64>());
        });
        counted(&mut || lay.iter().for_each(|&cell| board.lay(picture, cell)));
        counted(&mut || lay.iter().rev().for_each(|&cell| board.lift(picture, cell)));
        counted(&mut || board.scan(picture));
    }

    pub fn extraction(picture: &Picture) -> f64 {
        let [rows, cols] = picture.sample_sides;
        best(
            || vec![0; 7_200 * 9],
            |store| {
                let tiles = side::extract_tiles(&picture.sample, rows, cols, picture.colours, true, true, store);
                assert_eq!(tiles, Ok(picture.tiles.len() / 9));
            },
        )
    }

    pub fn job(picture: &Picture, order: &[usize]) -> [f64; 4] {
        let run = || {
            let [rows, cols] = picture.sample_sides;
            let start = Moment::now();
            let mut store = vec![0; 7_200 * 9];
            side::extract_tiles(&picture.sample, rows, cols, picture.colours, true, true, &mut store)
                .expect("the extraction was refused");
            let mut board = Planes { pieces: vec![0; CELLS], weights: vec![0; CELLS], counts: vec![0; CELLS] };
            let Planes { pieces, weights, counts } = &mut board;
            side::fresh(pieces, weights, counts, SIDE, SIDE, picture.tiles.len() / 9).expect("fresh was refused");
            let set_up = start.passed();
            let (mut lays, mut listings) = (0.0, 0.0);
            for (&laid, &listed) in order[..JOB_CALLS].iter().zip(&order[JOB_CALLS..2 * JOB_CALLS]) {
                let start = Moment::now();
                board.lay(picture, laid);
                let between = Moment::now();
                black_box(board.listing(picture, listed));
                lays += between - start;
                listings += between.passed();
            }
            let start = Moment::now();
            board.scan(picture);
            [set_up, lays, listings, start.passed()]
        };
        let runs = [run(), run(), run()];
        runs.into_iter().min_by(|a, b| a.iter().sum::<f64>().total_cmp(&b.iter().sum())).unwrap()
    }
}

/// Microseconds with three figures.
fn micros(seconds: f64) -> String {
    let micros = seconds * 1e6;
    match micros {
        0.0..10.0 => format!("{micros:.2}"),
        10.0..100.0 => format!("{micros:.1}"),
        _ => format!("{micros:.0}"),
    }
}

/// The port's time and its ratio to the text's without the cache.
fn against(port: Option<f64>, text: f64) -> String {
    port.map_or_else(|| "| - | -".into(), |port| format!("| {} | {:.2}", micros(port), port / text))
}

fn pictures(seed: u64, colours: Option<u32>) -> Vec<Picture> {
    COLOURS
        .into_iter()
        .filter(|&count| colours.is_none_or(|only| only == count))
        .flat_map(|count| BLOCKS.map(|block| (count, block)))
        .map(|(count, block)| Picture::new(count, block, &mut Random::new(&[seed, u64::from(count), block.2 as u64])))
        .collect()
}

/// A picture laid in part: its pieces, their weights and its bare cells in the order in which calls go to them.
fn laid_in_part(picture: &Picture, seed: u64, laid: usize) -> (Vec<u32>, Vec<u32>, Vec<usize>) {
    let mut random = Random::new(&[seed, u64::from(picture.colours), laid as u64]);
    let pieces = picture.laid(laid, &mut random);
    let weights = inputs::weights_of(&pieces, SIDE, SIDE);
    let cells = shuffled(CELLS, &mut random).into_iter().filter(|&cell| pieces[cell] == 1).collect();
    (pieces, weights, cells)
}

/// The order in which a job's calls go to the cells.
fn job_order(picture: &Picture, seed: u64) -> Vec<usize> {
    shuffled(CELLS, &mut Random::new(&[seed, u64::from(picture.colours), 0]))
}

const JOB_PARTS: [&str; 4] = ["set-up", "1,000 lays", "1,000 listings", "1 scan"];

/// The port alone, a line for each case: colours, tiles, part laid, step and nanoseconds, with tabs between. Two states of the
/// port are compared by their lines (oracle/side-by-side).
pub fn port_times(seed: u64, colours: Option<u32>) {
    for picture in &pictures(seed, colours) {
        let line = |laid: &str, step: &str, seconds: f64| {
            println!("{}\t{}\t{laid}\t{step}\t{:.0}", picture.colours, picture.tiles.len() / 9, seconds * 1e9);
        };
        line("-", "extraction", port_side::extraction(picture));
        for laid in LAID {
            let (pieces, weights, cells) = laid_in_part(picture, seed, laid);
            let times = port_side::calls(picture, &pieces, &weights, &cells);
            let steps = [("listing", times.listing), ("lay", times.lay), ("lift", times.lift), ("scan", times.scan)];
            steps.into_iter().for_each(|(step, seconds)| line(&format!("{laid}%"), step, seconds));
        }
        let times = port_side::job(picture, &job_order(picture, seed));
        JOB_PARTS.into_iter().zip(times).for_each(|(step, seconds)| line("job", step, seconds));
    }
}

/// What a counter of instructions counts: a function of its own, which it knows by its name.
#[inline(never)]
fn counted(calls: &mut dyn FnMut()) {
    calls();
}

/// The port alone under a counter of instructions: a line for each case that has been counted, in order, without a number.
pub fn port_counted(seed: u64, colours: Option<u32>) {
    for picture in &pictures(seed, colours) {
        for laid in LAID {
            let (pieces, weights, cells) = laid_in_part(picture, seed, laid);
            port_side::counted_calls(picture, &pieces, &weights, &cells);
            for step in ["listing", "lay", "lift", "scan"] {
                println!("{}\t{}\t{laid}%\t{step}", picture.colours, picture.tiles.len() / 9);
            }
        }
    }
}

pub fn report(seed: u64, colours: Option<u32>) {
    println!("seed {seed}; times in microseconds; {}", if PORT { "with the port" } else { "the oracle alone" });
    println!();
    println!("## A call, board 64x64");
    println!();
    println!(
        "The last column is the port's time by that of the text without its cache. Lay, lift and extraction use no"
    );
    println!(
        "cache. \"New cache\": new for each call; within one scan it serves from cell to cell. The text's lay is timed"
    );
    println!("without its scores, which the port's lay does not write.");
    println!();
    println!(
        "| colours | tiles | laid | step | text, no cache | text, new cache | text, kept cache | port | port / text |"
    );
    println!("|---:|---:|---:|---|---:|---:|---:|---:|---:|");
    let pictures = pictures(seed, colours);
    for picture in &pictures {
        extraction(picture);
        for laid in LAID {
            calls(picture, seed, laid);
        }
    }
    println!();
    println!("## A job: set-up, 1,000 lays, 1,000 listings, 1 scan");
    println!();
    println!(
        "Set-up is extraction and, for the text, its index: its own up to 12 colours, above that the keys that the job"
    );
    println!("looks up. Lays and listings take turns on a board that is bare at first.");
    println!();
    println!("| colours | tiles | part | text, no cache | text, kept cache | port | port / text |");
    println!("|---:|---:|---|---:|---:|---:|---:|");
    for picture in &pictures {
        job(picture, seed);
    }
}

fn extraction(picture: &Picture) {
    let (text, port) = (bare::extraction(picture), PORT.then(|| port_side::extraction(picture)));
    println!(
        "| {} | {} | - | extraction | {} | | {} |",
        picture.colours,
        picture.tiles.len() / 9,
        micros(text),
        against(port, text)
    );
}

fn calls(picture: &Picture, seed: u64, laid: usize) {
    let (pieces, weights, cells) = laid_in_part(picture, seed, laid);
    let mut plain = bare::Case::new(picture, &pieces, &weights, &cells);
    let mut cached = cached::Case::new(picture, &pieces, &weights, &cells);
    let port = PORT.then(|| port_side::calls(picture, &pieces, &weights, &cells));

    let (listing, listed) = plain.listing(uncached::steps::Cache::New);
    let with_new = cached.listing(oracle::steps::Cache::New);
    let with_kept = cached.listing(oracle::steps::Cache::Kept);
    let also = port.as_ref().map_or(listed, |port| port.listed);
    assert!([with_new.1, with_kept.1, also] == [listed; 3], "the sides list different colours");
    let scans = (cached.scan(oracle::steps::Cache::New), cached.scan(oracle::steps::Cache::Kept));
    let head = format!("| {} | {} | {laid}% ", picture.colours, picture.tiles.len() / 9);
    let rows = [
        ("listing", listing, Some((with_new.0, with_kept.0)), port.as_ref().map(|port| port.listing)),
        ("lay", plain.lay(), None, port.as_ref().map(|port| port.lay)),
        ("lift", plain.lift(), None, port.as_ref().map(|port| port.lift)),
        ("scan", plain.scan(uncached::steps::Cache::New), Some(scans), port.as_ref().map(|port| port.scan)),
    ];
    for (step, text, cached, port) in rows {
        let cached = cached.map_or_else(|| "| ".into(), |(new, kept)| format!("{} | {}", micros(new), micros(kept)));
        println!("{head}| {step} | {} | {cached} {} |", micros(text), against(port, text));
    }
}

fn job(picture: &Picture, seed: u64) {
    let order = job_order(picture, seed);
    let plain = bare::job(picture, &order, uncached::steps::Cache::New);
    let kept = cached::job(picture, &order, oracle::steps::Cache::Kept);
    let port = PORT.then(|| port_side::job(picture, &order));
    let head = format!("| {} | {} ", picture.colours, picture.tiles.len() / 9);
    let sum = |times: [f64; 4]| times.iter().sum::<f64>();
    for (at, part) in JOB_PARTS.into_iter().enumerate() {
        let (text, port) = (plain[at], port.map(|times| times[at]));
        println!("{head}| {part} | {} | {} {} |", micros(text), micros(kept[at]), against(port, text));
    }
    let (text, port) = (sum(plain), port.map(sum));
    println!("{head}| all | {} | {} {} |", micros(text), micros(sum(kept)), against(port, text));
}
