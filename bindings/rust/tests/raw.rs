//! The archive's own functions: buffers of results that are too short, and what they leave in buffers of any length.
//! BPL_CASES sets the number of cases.

mod common;

use bpl::raw::*;
use bpl::Entry;
use common::*;
use placement_reference::gen::Rng;

/// Buffers as one call leaves them, with its code. A conversion writes to the text.
#[derive(Clone, Debug, PartialEq)]
struct Left {
    code: u32,
    words: Vec<u64>,
    list: Vec<Entry>,
    text: Vec<u8>,
    out: Vec<u64>,
}

/// The calls that answer numbers.
#[derive(Clone, Copy, Debug)]
enum Call {
    Report,
    Step,
    Run(u32),
    Listing(u32),
    Read { block: u32, tick: u32, count: u64 },
    Popularity { block: u32, count: u64 },
    Convert,
}

impl Call {
    /// The words of `out` that the call needs.
    fn need(self) -> usize {
        match self {
            Call::Report => REPORT_NUMBERS,
            Call::Step => STEP_NUMBERS,
            Call::Run(_) => RUN_NUMBERS,
            Call::Listing(_) => LISTING_NUMBERS,
            Call::Read { .. } => READ_NUMBERS,
            Call::Popularity { .. } => POPULARITY_NUMBERS,
            Call::Convert => CONVERT_NUMBERS,
        }
    }

    /// The call on these buffers, with the first `lent` words of `out`.
    fn made(self, bytes: &[u8], before: &Left, lent: usize) -> Left {
        let mut left = before.clone();
        let (words, words_len) = (left.words.as_mut_ptr(), left.words.len());
        let (list, list_len) = (left.list.as_mut_ptr(), left.list.len());
        let (text, text_len) = (left.text.as_mut_ptr(), left.text.len());
        let out = left.out[..lent].as_mut_ptr();
        let (plan, plan_len) = (bytes.as_ptr(), bytes.len());
        // SAFETY: the buffers are five vectors of their own, lent by pointers and lengths within them.
        left.code = unsafe {
            match self {
                Call::Report => bpl_report(plan, plan_len, words, words_len, out, lent),
                Call::Step => bpl_step(plan, plan_len, words, words_len, out, lent),
                Call::Run(step_limit) => {
                    bpl_run(plan, plan_len, words, words_len, step_limit, out, lent)
                }
                Call::Listing(step_limit) => {
                    bpl_listing(plan, plan_len, step_limit, text, text_len, out, lent)
                }
                Call::Read { block, tick, count } => bpl_read(
                    plan, plan_len, block, tick, list, list_len, count, out, lent,
                ),
                Call::Popularity { block, count } => {
                    bpl_popularity(plan, plan_len, block, list, list_len, count, out, lent)
                }
                Call::Convert => bpl_convert(plan, plan_len, text, text_len, out, lent),
            }
        };
        left
    }
}

/// Buffers before a call.
fn before(rng: &mut Rng, bytes: &[u8], room: usize) -> Left {
    Left {
        code: 0,
        words: lent_words(rng, bytes),
        list: any_list(rng),
        text: vec![0x7E; room],
        out: patterned(9),
    }
}

/// A few records whose ticks lie close together.
fn any_list(rng: &mut Rng) -> Vec<Entry> {
    let record = |rng: &mut Rng| Entry {
        block: rng.below(5) as u32,
        tick: rng.below(9_000_000) as u32,
    };
    (0..rng.below(6)).map(|_| record(rng)).collect()
}

fn any_call(rng: &mut Rng) -> Call {
    let (block, count) = (rng.below(5) as u32, rng.below(7));
    match rng.below(7) {
        0 => Call::Report,
        1 => Call::Step,
        2 => Call::Run(step_limit(rng)),
        3 => Call::Listing(step_limit(rng)),
        4 => {
            let tick = rng.below(9_000_000) as u32;
            Call::Read { block, tick, count }
        }
        5 => Call::Convert,
        _ => Call::Popularity { block, count },
    }
}

/// A short `out` is answered by 255 whatever the plan, the words, the list and the text are, and nothing is written.
#[test]
fn short_out() {
    for case in 0..cases(4000) {
        let rng = &mut Rng::new(3 << 32 | case);
        let bytes = any_bytes(rng);
        let call = any_call(rng);
        let room = rng.one_of(&[0, LISTING_ROOM - 1, LISTING_ROOM]);
        let before = before(rng, &bytes, room);
        for lent in 0..call.need() {
            let expected = Left {
                code: SHORT_BUFFER,
                ..before.clone()
            };
            assert_eq!(
                call.made(&bytes, &before, lent),
                expected,
                "{call:?} {lent}"
            );
        }
    }
}

/// A short text is answered by 255 before the plan is judged, and nothing is written.
#[test]
fn short_text() {
    for case in 0..cases(400) {
        let rng = &mut Rng::new(4 << 32 | case);
        let bytes = any_bytes(rng);
        let room = rng.one_of(&[0, 1, 1000, LISTING_ROOM - 1]);
        let before = before(rng, &bytes, room);
        let expected = Left {
            code: SHORT_BUFFER,
            ..before.clone()
        };
        assert_eq!(Call::Listing(5).made(&bytes, &before, 1), expected);
    }
}

/// With `out` long enough: a refused call writes to no buffer, an answered one not past its numbers.
#[test]
fn out_past_the_numbers() {
    let mut met = [0; 24];
    for case in 0..cases(8000) {
        let rng = &mut Rng::new(5 << 32 | case);
        let bytes = any_bytes(rng);
        let call = any_call(rng);
        let before = before(rng, &bytes, LISTING_ROOM + 3);
        let exact = call.made(&bytes, &before, call.need());
        assert_eq!(call.made(&bytes, &before, before.out.len()), exact);
        assert!(exact.code <= 23, "{call:?}: code {}", exact.code);
        met[exact.code as usize] += 1;
        if exact.code != 0 {
            let expected = Left {
                code: exact.code,
                ..before
            };
            assert_eq!(exact, expected, "{call:?} wrote where it refused");
            continue;
        }
        assert_eq!(
            exact.out[call.need()..],
            before.out[call.need()..],
            "{call:?}"
        );
        let written = match call {
            Call::Listing(_) | Call::Convert => exact.out[0] as usize,
            _ => 0,
        };
        assert_eq!(exact.text[written..], before.text[written..], "{call:?}");
    }
    assert!(
        cases(8000) < 3000 || met.iter().all(|seen| *seen > 0),
        "{met:?}"
    );
}

/// The numbers of a step: j is 0 for a move, and all are 0 at rest.
#[test]
fn numbers_of_a_step() {
    let mut kinds = [0; 5];
    for case in 0..cases(6000) {
        let rng = &mut Rng::new(6 << 32 | case);
        let bytes = accepted(rng).bytes();
        let before = before(rng, &bytes, 0);
        let left = Call::Step.made(&bytes, &before, STEP_NUMBERS);
        if left.code != 0 {
            continue;
        }
        match left.out[..STEP_NUMBERS] {
            [0, 0, 0, 0, 0, 0] => kinds[4] += 1,
            [1, kind @ (0 | 2), m, n, _, 0] if m != n => kinds[kind as usize] += 1,
            [1, kind @ (1 | 3), m, n, i, j] if m != n && i != j => kinds[kind as usize] += 1,
            _ => panic!("no step has the numbers {:?}", left.out),
        }
    }
    assert!(
        cases(6000) < 3000 || kinds.iter().all(|seen| *seen > 0),
        "{kinds:?}"
    );
}
