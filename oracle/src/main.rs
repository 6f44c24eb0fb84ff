//! The driver: the oracle (the text) and the port on the same inputs.

mod calls;
mod compare;
mod inputs;
mod outcome;
mod random;
mod record;
mod refusals;
mod speed;

// its calls have a pointer and a length for each slice: one a line would make it long
#[cfg(feature = "port")]
#[rustfmt::skip]
mod port;
#[cfg(feature = "port")]
use port as side;

#[cfg(not(feature = "port"))]
mod model;
#[cfg(not(feature = "port"))]
use model as side;

use compare::{Meddle, Named, Plan, Tally};
use std::path::{Path, PathBuf};
use std::process::ExitCode;
use std::time::Instant;

const USE: &str = "differential: the text and the port on the same inputs

  --seed N       reproduces a run (1)
  --inputs N     the run's size: random inputs of a step of share 100 (1000)
  --steps A,B    only these steps
  --no-small     without the small inputs, all of them
  --no-random    without random inputs inside the domain
  --no-faults    without spoilt inputs
  --list         names the steps and the mutants
  --mutant NAME  disturbs the port's side of one comparison; a difference must show
  --mutants      each mutant in turn; fails unless every one is seen
  --record DIR   writes the fixed list, a file for each of its steps, to a folder that is there
  --speed        times both sides, as Markdown; --colours N only those cases (4, 12, 30)
  --port-times   times the port alone, a line for each case of --speed, for oracle/side-by-side
  --port-counted makes the calls of those cases for a counter of instructions, for oracle/side-by-side";

struct Options {
    plan: Plan,
    steps: Vec<String>,
    mutant: Option<String>,
    mutants: bool,
    list: bool,
    record: Option<PathBuf>,
    speed: bool,
    port_times: bool,
    port_counted: bool,
    colours: Option<u32>,
}

fn options() -> Result<Options, String> {
    let plan =
        Plan { seed: 1, inputs: 1_000, meddle: None, first_only: false, small: true, random: true, faults: true };
    let mut options = Options {
        plan,
        steps: Vec::new(),
        mutant: None,
        mutants: false,
        list: false,
        record: None,
        speed: false,
        port_times: false,
        port_counted: false,
        colours: None,
    };
    let mut words = std::env::args().skip(1);
    while let Some(word) = words.next() {
        let mut value = || words.next().ok_or(format!("{word} wants a value"));
        let number = |text: String| text.parse::<u64>().map_err(|_| format!("not a number: {text}"));
        match word.as_str() {
            "--seed" => options.plan.seed = number(value()?)?,
            "--inputs" => options.plan.inputs = number(value()?)?,
            "--steps" => options.steps = value()?.split(',').map(str::to_string).collect(),
            "--no-small" => options.plan.small = false,
            "--no-random" => options.plan.random = false,
            "--no-faults" => options.plan.faults = false,
            "--mutant" => options.mutant = Some(value()?),
            "--mutants" => options.mutants = true,
            "--list" => options.list = true,
            "--record" => options.record = Some(value()?.into()),
            "--speed" => options.speed = true,
            "--port-times" => options.port_times = true,
            "--port-counted" => options.port_counted = true,
            "--colours" => options.colours = Some(number(value()?)? as u32),
            _ => return Err(USE.into()),
        }
    }
    Ok(options)
}

fn main() -> ExitCode {
    let chosen = options().and_then(|options| Ok((choose(&options.steps)?, options)));
    let (steps, options) = match chosen {
        Ok(chosen) => chosen,
        Err(why) => {
            eprintln!("{why}");
            return ExitCode::from(2);
        }
    };
    if options.port_times || options.port_counted {
        if !cfg!(feature = "port") {
            eprintln!("this driver was built without the port");
            return ExitCode::from(2);
        }
        let measure = if options.port_times { speed::port_times } else { speed::port_counted };
        measure(options.plan.seed, options.colours);
        return ExitCode::SUCCESS;
    }
    println!("{}; text {}", if cfg!(feature = "port") { "the port" } else { MODEL }, oracle::TEXT_SUM);
    if options.speed {
        speed::report(options.plan.seed, options.colours);
        return ExitCode::SUCCESS;
    }
    if let Some(folder) = &options.record {
        record_all(&steps, options.plan.seed, folder);
        return ExitCode::SUCCESS;
    }
    // a panic of either side is reported as a difference, or its place would be lost in the noise of the shrinking
    std::panic::set_hook(Box::new(|panic| {
        if std::env::var_os("RUST_BACKTRACE").is_some_and(|wanted| wanted == "full") {
            eprintln!("{panic}");
        }
    }));
    let fine = if options.list {
        list(&steps)
    } else if options.mutants {
        mutants(&steps, &options.plan)
    } else if let Some(name) = &options.mutant {
        mutant(&steps, &options.plan, name)
    } else {
        compare_all(&steps, &options.plan)
    };
    if fine { ExitCode::SUCCESS } else { ExitCode::FAILURE }
}

/// The steps of these names, or all where there are none. A name of no step is an error and not a run without it.
fn choose(names: &[String]) -> Result<Vec<Named>, String> {
    let mut steps = compare::all();
    if let Some(unknown) = names.iter().find(|name| steps.iter().all(|step| step.name != name.as_str())) {
        return Err(format!("no such step: {unknown}; --list names them"));
    }
    steps.retain(|step| names.is_empty() || names.iter().any(|name| name == step.name));
    Ok(steps)
}

const MODEL: &str =
    "built without the port: src/model.rs stands in its place, so this tries the driver and says nothing of the port";

fn list(steps: &[Named]) -> bool {
    println!("steps: {}", steps.iter().map(|step| step.name).collect::<Vec<_>>().join(" "));
    println!("mutants: {}", meddles(steps).iter().map(|(name, ..)| name.as_str()).collect::<Vec<_>>().join(" "));
    #[cfg(not(feature = "port"))]
    println!("of the model: {}", model::Slip::ALL.map(|slip| format!("model:{slip:?}")).join(" "));
    true
}

// ---- the fixed list

fn record_all(steps: &[Named], seed: u64, folder: &Path) {
    for step in steps {
        let lines = (step.records)(seed);
        if !lines.is_empty() {
            let text = lines.iter().map(|line| format!("{line}\n")).collect::<String>();
            std::fs::write(folder.join(step.name), &text).expect("a folder that can be written");
            println!("{}: {} records, {} bytes", step.name, lines.len(), text.len());
        }
    }
}

// ---- the comparison

fn compare_all(steps: &[Named], plan: &Plan) -> bool {
    println!("seed {}, size {}", plan.seed, plan.inputs);
    println!();
    println!("| step | small inputs | random | spoilt | refused, by number | values | differences | seconds |");
    println!("|---|---:|---:|---:|---|---:|---:|---:|");
    let tallies: Vec<Tally> = steps
        .iter()
        .map(|step| {
            let tally = (step.run)(plan);
            row(&tally);
            tally
        })
        .collect();
    let mut all = Tally { name: "all", ..Tally::default() };
    for tally in &tallies {
        all.small += tally.small;
        all.random += tally.random;
        all.spoilt += tally.spoilt;
        all.values += tally.values;
        all.differences += tally.differences;
        all.seconds += tally.seconds;
        (0..11).for_each(|number| all.refused[number] += tally.refused[number]);
    }
    row(&all);
    println!();
    println!("{} answers and {} values compared, {} differences", all.answers(), all.values, all.differences);
    tallies.iter().filter_map(|tally| tally.report.as_ref()).for_each(|report| println!("\n{report}"));

    // a run that leaves out what it is there to compare has not passed
    let mut left_out: Vec<String> = tallies
        .iter()
        .filter(|tally| tally.answers() == 0)
        .map(|tally| format!("{}: no answer was compared", tally.name))
        .collect();
    if plan.faults && steps.len() == compare::all().len() {
        let never = (1..=10).filter(|&number| all.refused[number] == 0);
        left_out.extend(never.map(|number| format!("refusal {number} never arose")));
    }
    left_out.iter().for_each(|what| println!("\nthe run fails: {what}"));
    all.differences == 0 && left_out.is_empty()
}

fn row(tally: &Tally) {
    let refused: Vec<String> = (1..=10)
        .filter(|&number| tally.refused[number] > 0)
        .map(|number| format!("{number}: {}", tally.refused[number]))
        .collect();
    println!(
        "| {} | {} | {} | {} | {} | {} | {} | {:.1} |",
        tally.name,
        tally.small,
        tally.random,
        tally.spoilt,
        refused.join(", "),
        tally.values,
        tally.differences,
        tally.seconds
    );
}

// ---- mutants

/// A mutant's name is the step's and the way in which its port's side is disturbed.
fn meddles(steps: &[Named]) -> Vec<(String, &Named, Meddle)> {
    let mut all = Vec::new();
    for step in steps {
        for (kind, meddle) in Meddle::ALL {
            if meddle.applies(step.shows) {
                all.push((format!("{}:{kind}", step.name), step, meddle));
            }
        }
    }
    all
}

fn with_meddle(plan: &Plan, meddle: Meddle) -> Plan {
    // an input that is refused in any case shows nothing of a disturbed feed
    let refusals = matches!(meddle, Meddle::Refusal | Meddle::RefusedWrite | Meddle::Nan(..));
    Plan { meddle: Some(meddle), faults: refusals, random: plan.random, ..plan.clone() }
}

fn mutants(steps: &[Named], plan: &Plan) -> bool {
    let start = Instant::now();
    let (mut seen, mut unseen) = (0, Vec::new());
    for (name, step, meddle) in meddles(steps) {
        // random inputs first: small ones are many, and some mutants show in few of them
        let plan = Plan { first_only: true, small: false, ..with_meddle(plan, meddle) };
        let mut tally = (step.run)(&plan);
        if tally.differences == 0 {
            tally = (step.run)(&Plan { small: true, random: false, faults: false, ..plan });
        }
        if tally.differences > 0 { seen += 1 } else { unseen.push(name) }
    }
    #[cfg(not(feature = "port"))]
    for slip in model::Slip::ALL {
        model::set_slip(Some(slip));
        let plan = Plan { first_only: true, small: false, ..plan.clone() };
        let by: Vec<&str> =
            steps.iter().filter(|step| (step.run)(&plan).differences > 0).map(|step| step.name).collect();
        println!("model:{slip:?} seen by {}", by.join(" "));
        if by.is_empty() {
            unseen.push(format!("model:{slip:?}"))
        } else {
            seen += 1
        }
        model::set_slip(None);
    }
    println!("mutants: {seen} seen, {} not seen, in {:.0} s", unseen.len(), start.elapsed().as_secs_f64());
    unseen.iter().for_each(|name| println!("not seen: {name}"));
    unseen.is_empty()
}

fn mutant(steps: &[Named], plan: &Plan, wanted: &str) -> bool {
    #[cfg(not(feature = "port"))]
    if let Some(slip) = model::Slip::ALL.into_iter().find(|slip| wanted == format!("model:{slip:?}")) {
        model::set_slip(Some(slip));
        return compare_all(steps, plan);
    }
    let Some((_, step, meddle)) = meddles(steps).into_iter().find(|(name, ..)| name == wanted) else {
        println!("no such mutant; --list names them");
        return false;
    };
    compare_all(std::slice::from_ref(step), &with_meddle(plan, meddle))
}

/// The driver itself, on the model.
#[cfg(all(test, not(feature = "port")))]
mod tests {
    use super::*;

    const PLAN: Plan =
        Plan { seed: 7, inputs: 20, meddle: None, first_only: false, small: false, random: true, faults: true };

    /// The steps with widenings take several times as long an input as the others: here with a third of theirs.
    #[test]
    fn no_difference() {
        let mut steps = compare::all();
        for step in steps.iter_mut().filter(|step| ["widen", "sequences"].contains(&step.name)) {
            let run = std::mem::replace(&mut step.run, Box::new(|_| Tally::default()));
            step.run = Box::new(move |plan| run(&Plan { inputs: plan.inputs.div_ceil(3), ..plan.clone() }));
        }
        assert!(compare_all(&steps, &PLAN));
    }

    #[test]
    fn every_mutant_is_seen() {
        let steps = compare::all();
        for (name, step, meddle) in meddles(&steps) {
            let plan = Plan { first_only: true, inputs: 300, ..with_meddle(&PLAN, meddle) };
            assert!((step.run)(&plan).differences > 0, "{name} is not seen");
        }
    }

    /// The mutants do it before NUMBER; the faults that speak before that one must come with NaNs in the plane as well. Of
    /// the plain score of a whole board, which has no NUMBER, all must.
    #[test]
    fn a_nan_rewritten_before_a_lower_number_is_seen() {
        for step in compare::all().iter().filter(|step| step.shows.floats || step.name == "plain-score") {
            let own = match step.name {
                "copy-f64" => None,
                "lay-score" | "lift-score" | "plain-score" | "plain-score-near" => Some(calls::CELL),
                _ => Some(calls::COUNT),
            };
            for number in [calls::SHAPE, calls::LENGTH].into_iter().chain(own) {
                let meddle = Some(Meddle::Nan(number, compare::Rewrite::Plain));
                let plan = Plan { meddle, first_only: true, inputs: 300, random: false, ..PLAN };
                assert!((step.run)(&plan).differences > 0, "{} does not see it before {number}", step.name);
            }
        }
    }

    /// The steps whose random inputs must tell an error that tempts.
    fn told_by(slip: model::Slip) -> &'static [&'static str] {
        use model::Slip::*;
        match slip {
            SkipBottomWindows | SkipRightWindows | KeepTopWindows | OneTileForAllWindows => &["listing"],
            OwnPieceIgnored | ZeroListsAColour => &["listing"],
            CentredBlock | BlockNotBeyond => &["product"],
            ZeroFactorDivides => &["quotient"],
            CountPastTheEdge | RecountTooNear => &["recount"],
            WeightTwoAway => &["weights-up"],
            LiftWraps => &["weights-down"],
            PadsSwapped => &["extension"],
            BoxUsesExcessOnce => &["boxed-extension"],
            SpanEndUnclipped => &["spans"],
            ReflectionsFirst | LaterOfEqualTiles => &["extract"],
            QueueTakesColourToo => &["queue-add"],
            ForcedTakesLaid => &["forced"],
            ScanTakesAnyWeight | ScanColumnFirst => &["scan"],
            LayScoreAtTarget => &["lay-score"],
            LiftScoreCentred | LiftScoreUnsquared | SumByColumns => &["lift-score"],
            NormaliseBySumOnly | InfiniteLargestDivides => &["normalise"],
            WidenedWeightsOne | WidenedCountsCopied | WidenedEdgeCountsStay => &["widen", "sequences"],
            WidenedPadsExchanged | WidenedOffsetStays => &["widen", "sequences"],
            WidenedOffsetByFarPads | WidenedOffsetExchanged => &["widen", "sequences"],
            WidenReadsNewPlanes | RefusedWidenFills | RefusedWidenStores => &["widen", "sequences"],
            // in a sequence the old weights are those that the pieces give
            WidenedOldWeightsAnew => &["widen"],
            RunLaysUnasked | RunBudgetOfLays | RunSpentOverEmpty | RunTakesLast => &["forced-run", "sequences"],
            RunKeepsQueue | RunReadsCorners | RunBudgetCut | RefusedRunStores => &["forced-run", "sequences"],
            // of runs in a sequence few have a box, and the weights are those that the pieces give
            RunBoxAtFirst | RunChecksEachLay => &["forced-run"],
            RunFullTakesBack | RunAddsWhatFits | RunSpentBeforeFull => &["full-run"],
            RunRoomOneLess | RunRoomOneMore => &["full-run"],
            PlainSquared | PlainRowsAhead | PlainColsAhead => &["plain-score", "plain-score-near", "sequences"],
            PlainCentred | PlainWholeRegions | PlainOverNine => &["plain-score", "plain-score-near", "sequences"],
            PlainByColumns | PlainRowsApart | PlainSumFromOld => &["plain-score", "plain-score-near", "sequences"],
            PlainCountsSummed | PlainSharesSummed => &["plain-score", "plain-score-near", "sequences"],
            // the tile lists of most sequences are too short for it
            PlainByReciprocal => &["plain-score", "plain-score-near"],
            PlainLastRowLeft | PlainLastColLeft | PlainAsksOld => &["plain-score", "sequences"],
            RefusedPlainFills => &["plain-score", "plain-score-near"],
            NearClearsOthers | NearMeanInSpans | NearSpansExchanged => &["plain-score-near", "sequences"],
            // in a sequence the scores outside the spans, and those lent, are right already
            NearWritesEmpty | NearEndIncluded | NearReachesOn => &["plain-score-near"],
            NearUnasked | NearAsksSpans => &["plain-score-near"],
        }
    }

    /// Document 01's three are the windows skipped at the bottom, one tile for all nine windows, and the centred block. Of
    /// the full runs, which are dear, the first small input tells all that they must.
    #[test]
    fn every_error_that_tempts_is_seen() {
        let steps = compare::all();
        for slip in model::Slip::ALL {
            for name in told_by(slip) {
                let step = steps.iter().find(|step| step.name == *name).unwrap();
                let (small, inputs) = if *name == "full-run" { (true, 0) } else { (false, 100) };
                model::set_slip(Some(slip));
                let seen = (step.run)(&Plan { first_only: true, small, inputs, ..PLAN }).differences > 0;
                model::set_slip(None);
                assert!(seen, "{slip:?} is not seen by {name}");
            }
        }
    }

    /// A difference is told with an input that cannot be made smaller.
    #[test]
    fn shrinks() {
        model::set_slip(Some(model::Slip::SkipBottomWindows));
        let steps = compare::all();
        let listing = steps.iter().find(|step| step.name == "listing").unwrap();
        let report = (listing.run)(&Plan { inputs: 100, ..PLAN }).report.unwrap();
        model::set_slip(None);
        assert!(report.contains("rows: 1, cols: 1"), "{report}");
    }
}
