//! How times are taken and printed.

use std::hint::black_box;
use std::sync::atomic::{AtomicBool, Ordering};
use std::time::Instant;

/// Every call is made once.
static ONCE: AtomicBool = AtomicBool::new(false);

/// From now on every call is made once, whatever the rule says.
pub fn once() {
    ONCE.store(true, Ordering::Relaxed);
}

/// The rule by which every time is taken, for the reader.
pub const RULE: &str = "Each time is for one call: one run where it lasts a second or more; else, after a first run, \
    the best of 5 runs where it lasts a millisecond or more, and the best of 5 batches of 10 ms where it is shorter.";

/// Seconds that a number of calls last, and the last answer.
fn lasting<T>(calls: u32, call: &mut impl FnMut() -> T) -> (f64, T) {
    let start = Instant::now();
    for _ in 1..calls {
        black_box(call());
    }
    let answer = black_box(call());
    (start.elapsed().as_secs_f64(), answer)
}

/// Seconds that one call lasts, and its answer. Every call has to make the same.
pub fn timed<T>(mut call: impl FnMut() -> T) -> (f64, T) {
    let (once, mut answer) = lasting(1, &mut call);
    if once >= 1.0 || ONCE.load(Ordering::Relaxed) {
        return (once, answer);
    }
    let calls = if once >= 0.001 {
        1
    } else {
        (0.01 / once.max(1e-8)) as u32
    };
    let mut best = f64::INFINITY;
    for _ in 0..5 {
        let (lasted, again) = lasting(calls, &mut call);
        best = best.min(lasted / f64::from(calls));
        answer = again;
    }
    (best, answer)
}

/// A number with three digits that count.
fn three_digits(number: f64) -> String {
    match number {
        n if n < 9.995 => format!("{n:.2}"),
        n if n < 99.95 => format!("{n:.1}"),
        n => format!("{n:.0}"),
    }
}

/// A time with its unit.
pub fn shown(seconds: f64) -> String {
    match seconds {
        s if s < 999.5e-9 => format!("{:.0} ns", s * 1e9),
        s if s < 999.5e-6 => format!("{} µs", three_digits(s * 1e6)),
        s if s < 999.5e-3 => format!("{} ms", three_digits(s * 1e3)),
        s => format!("{} s", three_digits(s)),
    }
}

/// How many times as long the one lasts as the other.
pub fn ratio(one: f64, other: f64) -> String {
    three_digits(one / other)
}
