//! Reads a plan from standard input and writes its listing. First argument: the step budget, 100000 if absent.

use placement_reference::listing::{text, STEP_BUDGET};
use std::io::{Read, Write};

fn main() {
    let budget = match std::env::args().nth(1) {
        None => STEP_BUDGET,
        Some(number) => number
            .parse()
            .expect("the step budget is a number of 32 bits"),
    };
    let mut bytes = Vec::new();
    std::io::stdin()
        .read_to_end(&mut bytes)
        .expect("standard input can be read");
    std::io::stdout()
        .write_all(text(&bytes, budget).as_bytes())
        .expect("standard output can be written");
}
