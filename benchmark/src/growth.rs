//! How the library's times grow with the number of blocks and with the number of machines.

use crate::comparison::{counts_timed, first_timed};
use crate::plans::{Size, LARGEST};
use crate::sides::{compared, run_timed, step_timed, LIBRARY, OPTIMISED};
use crate::table::Table;
use crate::timing::{shown, timed};
use placement_reference::steps::End;

const HEAD: [&str; 11] = [
    "size",
    "plan",
    "counts",
    "first",
    "check",
    "first step",
    "mean step",
    "(optimised)",
    "steps to rest",
    "search at rest",
    "(optimised)",
];

/// Steps over which the mean is taken.
const MEAN_OVER: u32 = 2000;

/// Times of the short calls on a plan: plan, counts, first, check, and one step from the first placement.
fn short_calls(size: Size, bytes: &[u8]) -> ([String; 5], Vec<u64>) {
    let blocks = usize::from(size.blocks);
    let plan = compared("plan", |side| timed(|| (side.plan)(bytes))).0;
    let counts = compared("counts", |side| counts_timed(side, bytes, blocks)).0;
    let (first, words) = compared("first", |side| first_timed(side, bytes, blocks));
    let check = compared("check", |side| timed(|| (side.check)(bytes, &words))).0;
    let step = compared("first step", |side| step_timed(side, bytes, &words)).0;
    (
        [plan, counts, first, check, step].map(|times| shown(times[2])),
        words,
    )
}

/// The mean time per step of a run from the first placement: the library's and the optimised version's.
fn mean_step(bytes: &[u8], words: &[u64]) -> [String; 2] {
    let library = run_timed(&LIBRARY, bytes, words, MEAN_OVER);
    let optimised = run_timed(&OPTIMISED, bytes, words, MEAN_OVER);
    assert!(
        library.1 == optimised.1,
        "mean step: the library and the optimised version differ"
    );
    let steps = f64::from(library.1 .1.max(1));
    [shown(library.0 / steps), shown(optimised.0 / steps)]
}

/// The steps to rest of a coarse plan, and the time of a step call there: the library's and the optimised version's.
fn at_rest(size: Size) -> [String; 3] {
    let bytes = size.coarse();
    let mut words = vec![0; usize::from(size.blocks)];
    (LIBRARY.first)(&bytes, &mut words).expect("an accepted plan");
    let (end, steps) = (LIBRARY.run)(&bytes, &mut words, 2_000_000).expect("words of this plan");
    assert_eq!(end, End::Rest, "a coarse plan comes to rest");
    let library = step_timed(&LIBRARY, &bytes, &words);
    let optimised = step_timed(&OPTIMISED, &bytes, &words);
    assert!(
        library.1 == optimised.1,
        "rest: the library and the optimised version differ"
    );
    [steps.to_string(), shown(library.0), shown(optimised.0)]
}

/// The row of one size.
fn row(table: &mut Table, name: String, size: Size) {
    let bytes = size.fine();
    let (short, words) = short_calls(size, &bytes);
    let mean = mean_step(&bytes, &words);
    table.row(
        [name]
            .into_iter()
            .chain(short)
            .chain(mean)
            .chain(at_rest(size)),
    );
}

/// Both growths, with mixed spreads.
pub fn growth() {
    println!("## Growth\n");
    println!("The library's time per call, and the optimised version's where marked, spreads mixed. The mean step is that of a");
    println!("call for {MEAN_OVER} steps from the first placement. The last three columns are of plans with popularities from 0");
    println!("to 9: a step call at rest. The answers of the short calls are compared with the reference's too.\n");
    let mixed = Size {
        mixed: true,
        ..LARGEST
    };
    let mut table = Table::new(&HEAD);
    for blocks in [64, 128, 256, 512, 1024] {
        row(
            &mut table,
            format!("M 64, B {blocks}"),
            Size { blocks, ..mixed },
        );
    }
    table.print();
    let mut table = Table::new(&HEAD);
    for (racks, per_rack) in [(2, 2), (2, 4), (4, 4), (4, 8), (8, 8)] {
        let size = Size {
            racks,
            per_rack,
            blocks: 512,
            ..mixed
        };
        row(&mut table, format!("M {}, B 512", size.machines()), size);
    }
    table.print();
}
