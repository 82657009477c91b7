//! `placement_benchmark [quick|check]`: prints all tables as markdown; see scripts/benchmark.

use placement_benchmark::{comparison, growth, machine, memory, timing};
use std::process::exit;

/// How far each table goes.
struct Mode {
    name: &'static str,
    /// The step budgets of the listings.
    budgets: &'static [u32],
    /// The steps of the long runs.
    steps: u32,
    /// The steps after which later ones are timed.
    after: &'static [u32],
    /// The program is run too, with its own step budget.
    program: bool,
}

const FULL: Mode = Mode {
    name: "full",
    budgets: &[300, 3000],
    steps: 10_000,
    after: &[0, 1000, 3000, 10_000, 50_000],
    program: true,
};

/// Fewer steps where the reference is slow.
const QUICK: Mode = Mode {
    name: "quick",
    budgets: &[300],
    steps: 1000,
    after: &[0, 1000, 3000],
    program: true,
};

/// Only that all sides answer the same: every call is made once, so the times say little.
const CHECK: Mode = Mode {
    name: "check",
    budgets: &[30],
    steps: 100,
    after: &[0, 300],
    program: false,
};

/// All tables.
fn all(mode: &Mode) {
    println!("{}\n", timing::RULE);
    machine::print();
    println!("- Mode: {}\n", mode.name);
    comparison::listings(mode.budgets);
    comparison::long_runs(mode.steps);
    comparison::windows(mode.after);
    comparison::at_rest();
    comparison::pairs(mode.steps.min(3000));
    comparison::reads();
    comparison::counts();
    comparison::versions();
    comparison::copies(mode.steps.min(1000));
    comparison::feeds(mode.steps.min(1000));
    growth::growth();
    comparison::smallest();
    memory::memory(mode.program);
    println!("\nLoad average at the end: {}", machine::load_average());
}

fn main() {
    let arguments: Vec<String> = std::env::args().skip(1).collect();
    match arguments.iter().map(String::as_str).collect::<Vec<_>>()[..] {
        [] => all(&FULL),
        ["quick"] => all(&QUICK),
        ["check"] => {
            timing::once();
            all(&CHECK);
        }
        ["memory", side] => memory::child(side),
        _ => {
            eprintln!("usage: placement_benchmark [quick|check]");
            exit(2);
        }
    }
}
