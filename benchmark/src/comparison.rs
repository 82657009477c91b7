//! The three sides on the largest plans and on the smallest.

use crate::optimised::State;
use crate::plans::{Pairs, Size, LARGEST};
use crate::reads::{full_list, tick_that_drops, Call};
use crate::sides::{compared, first_words, run_timed, step_timed, Answer, Side, LIBRARY};
use crate::table::Table;
use crate::timing::{ratio, shown, timed};
use placement_reference::gen::Draft;
use placement_reference::plan::read;
use placement_reference::samples::{h, y};
use placement_reference::steps::End;

/// Spreads one, and spreads mixed.
pub const BOTH: [Size; 2] = [
    LARGEST,
    Size {
        mixed: true,
        ..LARGEST
    },
];

/// The heads of the columns that every comparison ends with.
const SIDES_HEAD: [&str; 5] = [
    "reference",
    "optimised",
    "library",
    "reference / library",
    "optimised / library",
];

/// A table of a comparison, with columns of its own in front.
fn table(own: &[&str]) -> Table {
    Table::new(&[own, &SIDES_HEAD].concat())
}

/// A row of a comparison: its own cells, then the times, and how they compare.
fn row(table: &mut Table, own: &[String], [reference, optimised, library]: [f64; 3]) {
    let times = [reference, optimised, library].map(shown);
    let ratios = [ratio(reference, library), ratio(optimised, library)];
    table.row(own.iter().cloned().chain(times).chain(ratios));
}

/// From bytes to listing, with smaller step budgets than the program's.
pub fn listings(budgets: &[u32]) {
    println!("## From bytes to listing\n");
    println!("64 machines, 1,024 blocks: reading, counts, first placement, run, text.\n");
    let mut table = table(&["spreads", "step budget"]);
    for size in BOTH {
        let bytes = size.fine();
        for &budget in budgets {
            let (times, _) = compared("listing", |side| timed(|| (side.listing)(&bytes, budget)));
            row(
                &mut table,
                &[size.spreads().to_string(), budget.to_string()],
                times,
            );
        }
    }
    table.print();
}

/// Time per step of a run from the first placement.
pub fn long_runs(steps: u32) {
    println!("## A run of {steps} steps from the first placement\n");
    println!("64 machines, 1,024 blocks, popularities random in 24 bits. Time per step; a call also reads the plan");
    println!("and judges the placement once, and makes one search after the last step.\n");
    let mut table = table(&["spreads", "steps"]);
    for size in BOTH {
        let bytes = size.fine();
        let start = first_words(&bytes, size.blocks);
        let (times, (_, taken, _)) = compared("run", |side| run_timed(side, &bytes, &start, steps));
        let per_step = times.map(|time| time / f64::from(taken.max(1)));
        row(
            &mut table,
            &[size.spreads().to_string(), taken.to_string()],
            per_step,
        );
    }
    table.print();
}

/// Time per step of short runs after the given numbers of steps, which the library takes.
pub fn windows(after: &[u32]) {
    let length = 60;
    println!("## Steps later in a run\n");
    println!(
        "The same plans: time per step of a call for {length} steps, after a number of steps.\n"
    );
    let mut table = table(&["spreads", "after"]);
    for size in BOTH {
        let bytes = size.fine();
        let mut words = first_words(&bytes, size.blocks);
        let mut taken = 0;
        for goal in after {
            let (end, more) =
                (LIBRARY.run)(&bytes, &mut words, goal - taken).expect("words of this plan");
            taken += more;
            if end == End::Rest {
                println!("Spreads {}: at rest after {taken} steps.\n", size.spreads());
                break;
            }
            let (times, (_, steps, _)) =
                compared("window", |side| run_timed(side, &bytes, &words, length));
            let per_step = times.map(|time| time / f64::from(steps.max(1)));
            row(
                &mut table,
                &[size.spreads().to_string(), taken.to_string()],
                per_step,
            );
        }
    }
    table.print();
}

/// A row of the table of pairs: the plan's own cells, then the times of one step.
fn pairs_row(table: &mut Table, call: &str, size: Size, steps: u32, times: [f64; 3]) {
    let own = [call, size.pairing(), &steps.to_string()].map(str::to_string);
    row(table, &own, times);
}

/// Steps of a run from the first placement without pairs and with them.
fn pairs_run(table: &mut Table, sizes: [Size; 2], steps: u32) {
    let mut library = Vec::new();
    for size in sizes {
        let bytes = size.fine();
        let start = first_words(&bytes, size.blocks);
        let (times, (_, taken, _)) =
            compared("pairs", |side| run_timed(side, &bytes, &start, steps));
        let per_step = times.map(|time| time / f64::from(taken.max(1)));
        pairs_row(table, "run", size, taken, per_step);
        library.push(per_step[2]);
    }
    let more = ratio(library[1], library[0]);
    println!("The library's mean step with pairs lasts {more} times as long as without.\n");
}

/// The mean step and the search at rest with pairs, beside the same plan without them.
pub fn pairs(steps: u32) {
    println!("## Pairs\n");
    println!("64 machines, 1,024 blocks, spreads mixed, in version 2; half of the blocks are alike by twos. With all pair bytes");
    println!("0, and with these twos as pairs. Time per step of a run from the first placement, popularities random in 24 bits,");
    println!("and of one step call at rest, popularities from 0 to 9.\n");
    let sizes = [Pairs::None, Pairs::Half].map(|pairs| Size {
        mixed: true,
        pairs,
        ..LARGEST
    });
    let mut table = table(&["call", "pairs", "steps"]);
    pairs_run(&mut table, sizes, steps);
    for size in sizes {
        let (bytes, words, taken) = rested(size);
        let (times, _) = compared("pairs at rest", |side| step_timed(side, &bytes, &words));
        pairs_row(&mut table, "step at rest", size, taken, times);
    }
    table.print();
}

/// A coarse plan, its placement at rest and the steps to it, which the library takes.
fn rested(size: Size) -> (Vec<u8>, Vec<u64>, u32) {
    let bytes = size.coarse();
    let mut words = first_words(&bytes, size.blocks);
    let (end, steps) = (LIBRARY.run)(&bytes, &mut words, 2_000_000).expect("words of this plan");
    assert_eq!(end, End::Rest, "a coarse plan comes to rest");
    (bytes, words, steps)
}

/// The search that finds no step.
pub fn at_rest() {
    println!("## A full search at rest\n");
    println!("64 machines, 1,024 blocks, popularities from 0 to 9. One step call on a placement at rest, on all sides with");
    println!("reading the plan and judging the placement; the optimised version's search alone stands in the third column.\n");
    let mut table = table(&["spreads", "steps to rest", "search alone (optimised)"]);
    for size in BOTH {
        let (bytes, words, steps) = rested(size);
        let (times, (step, _)) = compared("rest", |side| step_timed(side, &bytes, &words));
        assert_eq!(step, None, "no step is left at rest");
        let plan = read(&bytes).expect("an accepted plan");
        let state = State::new(&plan, &words);
        let (alone, _) = timed(|| state.next_step());
        row(
            &mut table,
            &[size.spreads().to_string(), steps.to_string(), shown(alone)],
            times,
        );
    }
    table.print();
}

/// The calls on reads with a plan of so many blocks.
fn reads_rows(table: &mut Table, bytes: &[u8], blocks: u16) {
    let list = &full_list(blocks)[..];
    let mut add = |call: &str, dropped: &str, times: [f64; 3]| {
        let own = [blocks.to_string(), call.to_string(), dropped.to_string()];
        row(table, &own, times);
    };
    let call = |tick| Call {
        bytes,
        block: u32::from(blocks) - 1,
        tick,
        list,
    };
    for number in [1, list.len() as u32 / 2] {
        let call = call(tick_that_drops(number));
        let (times, (count, _)) = compared("read", |side| (side.read)(&call));
        assert_eq!(count, list.len() as u64 - u64::from(number) + 1);
        add("read", &number.to_string(), times);
    }
    let (times, _) = compared("popularity", |side| (side.popularity)(&call(0)));
    add("popularity", "none", times);
}

/// A read and a popularity on a full list.
pub fn reads() {
    println!("## Reads\n");
    println!("A full list of 4,096 entries. A read that drops the oldest entry, a read that drops half of them, and a popularity,");
    println!("with plan H and with 64 machines and 1,024 blocks, half of them in pairs. Each call reads the plan; before each read");
    println!("the list is put in place, a copy of 32 KiB on all sides.\n");
    let largest = Size {
        pairs: Pairs::Half,
        ..LARGEST
    };
    let mut table = table(&["blocks", "call", "entries dropped"]);
    reads_rows(&mut table, &h().bytes(), 3);
    reads_rows(&mut table, &largest.fine(), largest.blocks);
    table.print();
}

/// The plans of one kind whose counts are chosen one after the other.
const PLANS: u64 = 32;

/// A call on several plans, each with a buffer of so many bytes: seconds for one of them, and the buffers.
fn several_timed<T>(
    plans: &[Vec<u8>],
    room: usize,
    call: impl Fn(&[u8], &mut [u8]) -> Answer<T>,
) -> (f64, Vec<Vec<u8>>) {
    let mut buffers = vec![vec![0; room]; plans.len()];
    let (seconds, ()) = timed(|| {
        for (bytes, buffer) in plans.iter().zip(&mut buffers) {
            call(bytes, buffer).expect("an accepted plan");
        }
    });
    (seconds / plans.len() as f64, buffers)
}

/// The chosen counts over several plans of a kind: on how many passes a single plan takes, chance has a say.
pub fn counts() {
    println!("## Counts\n");
    println!("64 machines. The chosen counts of {PLANS} plans of a kind, one after the other: the mean time for one plan.\n");
    let mut table = table(&["blocks", "popularities"]);
    for blocks in [64, 1024] {
        let size = Size { blocks, ..LARGEST };
        for (name, bound) in [("24 bits", 1 << 24), ("0 to 255", 256), ("0 to 9", 10)] {
            let plans = size.several(PLANS, bound);
            let (times, _) = compared("counts", |side| {
                several_timed(&plans, usize::from(blocks), side.counts)
            });
            row(&mut table, &[blocks.to_string(), name.to_string()], times);
        }
    }
    table.print();
}

/// The bytes of a converted plan of the largest size.
const CONVERTED: usize = 15 + 7 * LARGEST.blocks as usize;

/// The calls of one version: judging a plan, choosing the counts and, where there is one, the conversion.
fn version_rows(table: &mut Table, size: Size, popularities: &str, bound: u64) {
    let plans = size.several(PLANS, bound);
    let mut add = |call: &str, times: [f64; 3]| {
        let version = size.version().to_string();
        let own = [call, &version, popularities].map(str::to_string);
        row(table, &own, times);
    };
    let plan = compared("plan", |side| {
        several_timed(&plans, 0, |bytes, _| (side.plan)(bytes))
    });
    add("plan", plan.0);
    let blocks = usize::from(size.blocks);
    let counts = compared("counts", |side| several_timed(&plans, blocks, side.counts));
    add("counts", counts.0);
    if size.version() < 3 {
        let convert = compared("convert", |side| {
            several_timed(&plans, CONVERTED, side.convert)
        });
        add("convert", convert.0);
    }
}

/// The same plans in versions 2 to 4, and what the wider popularity costs; conversions.
pub fn versions() {
    println!("## Versions\n");
    println!("64 machines, 1,024 blocks. {PLANS} plans of a kind, one after the other: the mean time for one plan. In versions 2 to 4 half");
    println!("of the blocks are in pairs, and with 24 bits they are the same plans; version 4 has a feed for each rack. A conversion");
    println!("writes version 3.\n");
    let narrow = Size {
        pairs: Pairs::Half,
        ..LARGEST
    };
    let wide = Size {
        wide: true,
        ..narrow
    };
    let on_feeds = Size {
        feeds: Some(wide.racks),
        ..wide
    };
    let mut table = table(&["call", "version", "popularities"]);
    version_rows(&mut table, LARGEST, "24 bits", 1 << 24);
    version_rows(&mut table, narrow, "24 bits", 1 << 24);
    version_rows(&mut table, wide, "24 bits", 1 << 24);
    version_rows(&mut table, on_feeds, "24 bits", 1 << 24);
    version_rows(&mut table, wide, "32 bits", 1 << 32);
    version_rows(&mut table, on_feeds, "32 bits", 1 << 32);
    table.print();
}

/// A row of the table of ten copies.
fn copies_row(table: &mut Table, call: &str, size: Size, times: [f64; 3]) {
    let (version, most) = (size.version().to_string(), size.most_copies().to_string());
    row(table, &[call, &version, &most].map(str::to_string), times);
}

/// The calls on one plan with many copies, of which some blocks have the most that are allowed.
fn copies_rows(table: &mut Table, size: Size, steps: u32) {
    let bytes = size.fine();
    let blocks = usize::from(size.blocks);
    let plan = compared("plan", |side| timed(|| (side.plan)(&bytes)));
    copies_row(table, "plan", size, plan.0);
    let (times, counts) = compared("counts", |side| counts_timed(side, &bytes, blocks));
    assert_eq!(counts.iter().max(), Some(&size.most_copies()));
    copies_row(table, "counts", size, times);
    let (times, words) = compared("first", |side| first_timed(side, &bytes, blocks));
    copies_row(table, "first", size, times);
    let check = compared("check", |side| timed(|| (side.check)(&bytes, &words)));
    copies_row(table, "check", size, check.0);
    let (times, (_, taken, _)) = compared("run", |side| run_timed(side, &bytes, &words, steps));
    let per_step = times.map(|time| time / f64::from(taken.max(1)));
    copies_row(table, "step of a run", size, per_step);
    let listing = compared("listing", |side| timed(|| (side.listing)(&bytes, 0)));
    copies_row(table, "listing", size, listing.0);
}

/// The same plan in version 2, with at most eight copies of a block, and in version 3, with at most ten.
pub fn copies(steps: u32) {
    println!("## Ten copies\n");
    println!("64 machines, 1,024 blocks, spreads mixed, popularities random in 24 bits, and a budget of 8,000 copies, so that many");
    println!("blocks have as many as their version allows. Time per step of a run of {steps} steps from the first placement; the");
    println!("listing is that of the first placement.\n");
    let mut table = table(&["call", "version", "most copies"]);
    for wide in [false, true] {
        let size = Size {
            mixed: true,
            pairs: Pairs::None,
            wide,
            doubled: true,
            ..LARGEST
        };
        copies_rows(&mut table, size, steps);
    }
    table.print();
}

/// The calls on one plan on so many feeds, or in version 3.
fn feeds_rows(table: &mut Table, size: Size, steps: u32) {
    let (version, feeds) = (size.version(), size.feeds.unwrap_or(size.racks));
    let mut add = |call: &str, times: [f64; 3]| {
        let numbers = [version.to_string(), feeds.to_string()];
        let own = [call, size.spreads(), &numbers[0], &numbers[1]].map(str::to_string);
        row(table, &own, times);
    };
    let bytes = size.fine();
    let words = first_words(&bytes, size.blocks);
    let plan = compared("plan", |side| timed(|| (side.plan)(&bytes)));
    add("plan", plan.0);
    let check = compared("check", |side| timed(|| (side.check)(&bytes, &words)));
    add("check", check.0);
    let step = compared("step", |side| step_timed(side, &bytes, &words));
    add("step", step.0);
    let run = compared("run", |side| run_timed(side, &bytes, &words, steps));
    let per_step = run.0.map(|time| time / f64::from(run.1 .1.max(1)));
    add("step of a run", per_step);
    let (bytes, words, _) = rested(size);
    let rest = compared("rest", |side| step_timed(side, &bytes, &words));
    add("step at rest", rest.0);
}

/// The library's seconds for these calls on two plans, each the best of nine. The plans take turns, so that what slows the
/// machine for a while slows both.
fn in_turn(sizes: [Size; 2], steps: u32) -> [[f64; 5]; 2] {
    let plans = sizes.map(|size| {
        let bytes = size.fine();
        let words = first_words(&bytes, size.blocks);
        (bytes, words, rested(size))
    });
    let mut best = [[f64::INFINITY; 5]; 2];
    for _ in 0..9 {
        for ((bytes, words, rest), best) in plans.iter().zip(&mut best) {
            let taken = [
                timed(|| (LIBRARY.plan)(bytes)).0,
                timed(|| (LIBRARY.check)(bytes, words)).0,
                step_timed(&LIBRARY, bytes, words).0,
                run_timed(&LIBRARY, bytes, words, steps).0,
                step_timed(&LIBRARY, &rest.0, &rest.1).0,
            ];
            *best = std::array::from_fn(|call| best[call].min(taken[call]));
        }
    }
    best
}

/// The same plan in version 3 and in version 4 with a feed for each rack, and version 4 with fewer feeds.
pub fn feeds(steps: u32) {
    println!("## Feeds\n");
    println!("64 machines in 8 racks, 1,024 blocks, half of them in pairs. The same plan in version 3, whose spreads are over racks,");
    println!("and in version 4 with a feed for each rack and with fewer: one is for spreads of one, and where spreads are mixed fewer");
    println!("feeds allow fewer steps. Time per step of a run of {steps} steps from the first placement, popularities random in 24");
    println!("bits, and of one step call at rest, popularities from 0 to 9; the other calls are on the first placement.\n");
    let mut table = table(&["call", "spreads", "version", "feeds"]);
    for (mixed, fewer) in [(false, &[4, 1][..]), (true, &[4])] {
        let wide = Size {
            mixed,
            pairs: Pairs::Half,
            wide: true,
            ..LARGEST
        };
        let on_feeds = |feeds| Size {
            feeds: Some(feeds),
            ..wide
        };
        feeds_rows(&mut table, wide, steps);
        feeds_rows(&mut table, on_feeds(wide.racks), steps);
        let [by_rack, each] = in_turn([wide, on_feeds(wide.racks)], steps);
        let more = each.iter().zip(by_rack).map(|(e, r)| ratio(*e, r));
        let (spreads, more) = (wide.spreads(), more.collect::<Vec<_>>().join(", "));
        println!("Spreads {spreads}: taken in turn, these calls of the library last {more} times as long with a feed for each rack as in version 3.\n");
        for number in fewer {
            feeds_rows(&mut table, on_feeds(*number), steps);
        }
    }
    table.print();
}

/// Every call on one small plan.
fn small_calls(table: &mut Table, name: &str, draft: &Draft) {
    let bytes = draft.bytes();
    let blocks = draft.records.len();
    let words = first_words(&bytes, blocks as u16);
    let mut add = |call: &str, times: [f64; 3]| {
        let own = [name.to_string(), call.to_string()];
        row(table, &own, times);
    };
    let times = compared(name, |side| timed(|| (side.plan)(&bytes))).0;
    add("plan", times);
    let times = compared(name, |side| counts_timed(side, &bytes, blocks)).0;
    add("counts", times);
    let times = compared(name, |side| first_timed(side, &bytes, blocks)).0;
    add("first", times);
    let times = compared(name, |side| timed(|| (side.check)(&bytes, &words))).0;
    add("check", times);
    let times = compared(name, |side| timed(|| (side.report)(&bytes, &words))).0;
    add("report", times);
    let times = compared(name, |side| step_timed(side, &bytes, &words)).0;
    add("step", times);
    let times = compared(name, |side| run_timed(side, &bytes, &words, 100_000)).0;
    add("run", times);
    let times = compared(name, |side| timed(|| (side.listing)(&bytes, 100_000))).0;
    add("listing", times);
    let times = compared(name, |side| convert_timed(side, &bytes)).0;
    add("convert", times);
}

/// A conversion: seconds, and the plan written.
fn convert_timed(side: &Side, bytes: &[u8]) -> (f64, Vec<u8>) {
    let mut buffer = vec![0; CONVERTED];
    let (seconds, length) = timed(|| (side.convert)(bytes, &mut buffer));
    buffer.truncate(length.expect("an accepted plan"));
    (seconds, buffer)
}

/// The chosen counts: seconds, and the counts.
pub fn counts_timed(side: &Side, bytes: &[u8], blocks: usize) -> (f64, Vec<u8>) {
    let mut counts = vec![0; blocks];
    let (seconds, done) = timed(|| (side.counts)(bytes, &mut counts));
    done.expect("an accepted plan");
    (seconds, counts)
}

/// The first placement: seconds, and the words.
pub fn first_timed(side: &Side, bytes: &[u8], blocks: usize) -> (f64, Vec<u64>) {
    let mut words = vec![0; blocks];
    let (seconds, done) = timed(|| (side.first)(bytes, &mut words));
    done.expect("an accepted plan");
    (seconds, words)
}

/// The specification's plans H, whose first placement is at rest, and Y, which takes two steps.
pub fn smallest() {
    println!("## The smallest plans\n");
    println!("The specification's plans H (4 machines, 3 blocks, at rest from the start) and Y (2 machines, 3 blocks, two steps).\n");
    let mut table = table(&["plan", "call"]);
    small_calls(&mut table, "H", &h());
    small_calls(&mut table, "Y", &y());
    table.print();
}
