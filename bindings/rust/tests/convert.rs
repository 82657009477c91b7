//! Conversions to version 3 against the independent reference, on random and damaged plans of all versions; and every
//! other entry on the plan written, beside the plan handed in where there are at most 8 machines, and else beside the
//! reference. BPL_CASES sets the number of cases.

mod common;
#[path = "common/entries.rs"]
#[allow(dead_code)]
mod entries;

use bpl::{Call, Entry, Refusal, Reply, Report, Request, RunEnd, Step};
use common::*;
use placement_reference::gen::{sized, Rng, LARGE};
use placement_reference::plan::read;
use placement_reference::samples::{H, K};

/// With so many machines or fewer a plan answers alike in version 3. With more, a block may have more copies there.
const MACHINES_ALIKE: usize = 8;

/// What those entries answer and leave of a plan that do not look at its counts.
#[derive(Debug, PartialEq)]
struct OfTheFields {
    plan: Result<(), Refusal>,
    read: (Result<u64, Refusal>, Vec<Entry>),
    popularity: Result<u64, Refusal>,
}

/// What the others answer and leave of a plan and words that are lent with it.
#[derive(Debug, PartialEq)]
struct OfTheCounts {
    counts: (Result<(), Refusal>, Vec<u8>),
    first: (Result<(), Refusal>, Vec<u64>),
    check: Result<(), Refusal>,
    report: Result<Report, Refusal>,
    step: (Result<Option<Step>, Refusal>, Vec<u64>),
    run: (Result<RunEnd, Refusal>, Vec<u64>),
    play: (Reply, Vec<u64>),
    listing: Result<String, Refusal>,
}

/// A call's answer, with the buffer as it left it.
fn with_buffer<T: Clone, A>(before: &[T], call: impl FnOnce(&mut [T]) -> A) -> (A, Vec<T>) {
    let mut buffer = before.to_vec();
    let said = call(&mut buffer);
    (said, buffer)
}

/// The entries on the plan alone and on reads, with the same list.
fn of_the_fields(bytes: &[u8]) -> OfTheFields {
    let list = [Entry { block: 1, tick: 7 }; 3];
    OfTheFields {
        plan: bpl::plan(bytes),
        read: with_buffer(&list, |b| bpl::read(bytes, 1, 9, b, 2)),
        popularity: bpl::popularity(bytes, 1, &list, 2),
    }
}

/// Every other entry but the conversion, on the same words.
fn of_the_counts(bytes: &[u8], words: &[u64], step_limit: u32) -> OfTheCounts {
    let script = [Request::Step, Request::Run(step_limit)].map(Call::new);
    OfTheCounts {
        counts: with_buffer(&vec![0xEE; words.len()], |b| bpl::counts(bytes, b)),
        first: with_buffer(words, |b| bpl::first(bytes, b)),
        check: bpl::check(bytes, words),
        report: bpl::report(bytes, words),
        step: with_buffer(words, |b| bpl::step(bytes, b)),
        run: with_buffer(words, |b| bpl::run(bytes, b, step_limit)),
        play: with_buffer(words, |b| bpl::play(bytes, bytes, b, &script)),
        listing: bpl::listing(bytes, step_limit),
    }
}

/// These entries against the reference; scripts are in play.rs.
fn as_the_reference(bytes: &[u8], words: &[u64], step_limit: u32) {
    entries::counts(bytes, words.len());
    entries::first(bytes, &mut words.to_vec());
    let _ = entries::check(bytes, words);
    entries::report(bytes, words);
    let _ = entries::step(bytes, &mut words.to_vec());
    let _ = entries::run(bytes, &mut words.to_vec(), step_limit);
    entries::listing(bytes, step_limit);
}

/// The chosen counts of an accepted plan.
fn counts_of(bytes: &[u8]) -> Vec<u8> {
    let mut counts = vec![0; 1024];
    bpl::counts(bytes, &mut counts).expect("an accepted plan");
    counts
}

/// What a conversion wrote: it is as long as version 3 has it, has the same fields, and is not converted again. With few
/// machines it answers as the plan that it was made of, with more as the reference does. Answers whether it has other
/// counts.
fn judge_written(old: &[u8], new: &[u8], words: &[u64], step_limit: u32) -> bool {
    let [before, after] = [old, new].map(|bytes| read(bytes).expect("an accepted plan"));
    assert_eq!(new.len(), 15 + 7 * before.blocks.len());
    assert_eq!(version_of(new), Some(3));
    assert_eq!(new[5..15], old[5..15], "the header's other fields");
    assert_eq!(after.blocks, before.blocks, "{old:?}");
    assert_eq!(of_the_fields(new), of_the_fields(old), "{old:?}");
    if before.machines() <= MACHINES_ALIKE {
        assert_eq!(
            of_the_counts(new, words, step_limit),
            of_the_counts(old, words, step_limit),
            "{old:?}"
        );
    } else {
        as_the_reference(new, words, step_limit);
    }
    assert_eq!(entries::convert(new, new.len()), Err(3));
    counts_of(new) != counts_of(old)
}

/// Bytes of any sort with buffers of any length: every refusal, both versions that are converted, and other counts.
#[test]
fn any_plan() {
    let (mut refused, mut newer, mut written, mut other_counts) = ([0; 18], [0; 2], [0; 2], 0);
    for case in 0..cases(30_000) {
        let rng = &mut Rng::new(12 << 32 | case);
        let bytes = any_bytes(rng);
        let version = version_of(&bytes);
        for lent in buffer_lengths(rng, &bytes) {
            match entries::convert(&bytes, lent) {
                Err(row) => {
                    refused[usize::from(row)] += 1;
                    newer[0] += u64::from(version == Some(3) && row == 3);
                    newer[1] += u64::from(version == Some(4) && row == 3);
                }
                Ok(new) => {
                    written[usize::from(version == Some(2))] += 1;
                    let words = lent_words(rng, &new);
                    let differ = judge_written(&bytes, &new, &words, step_limit(rng));
                    other_counts += u64::from(differ);
                }
            }
        }
    }
    println!("refused {refused:?}, of versions 3 and 4 {newer:?}, written {written:?}, other counts {other_counts}");
    let rows = [1, 2, 3, 4, 5, 6, 7, 8, 9, 17, 10, 11, 12].map(|row: usize| refused[row]);
    let others = rows.iter().chain(&newer).chain([&other_counts]);
    let mut met = others.chain(&written);
    assert!(cases(30_000) < 5000 || met.all(|number| *number > 0));
}

/// The largest plans, into a buffer of just their length, one byte shorter and one longer.
#[test]
fn largest_plans() {
    for case in 0..cases(2000).div_ceil(200) {
        let rng = &mut Rng::new(13 << 32 | case);
        let size = any_version(rng, LARGE);
        let bytes = sized(rng, size, 8, 8, 1024).bytes();
        if size.version >= 3 {
            assert_eq!(bytes.len(), if size.version == 3 { 7183 } else { 7184 });
            assert_eq!(entries::convert(&bytes, 7183), Err(3));
            assert_eq!(entries::convert(&bytes, 7184), Err(3));
            continue;
        }
        assert_eq!(entries::convert(&bytes, 7182), Err(12));
        let new = entries::convert(&bytes, 7183).expect("an accepted plan");
        assert_eq!(entries::convert(&bytes, 7184), Ok(new.clone()));
        let mut words = vec![0; 1024];
        bpl::first(&new, &mut words).expect("an accepted plan");
        judge_written(&bytes, &new, &words, 20);
    }
}

/// Row 3 stands at its place, and 12 behind all others, where all that come later hold as well.
#[test]
fn order_of_the_rows() {
    let of_version = |version, plan: &[u8]| [&plan[..4], &[version], &plan[5..]].concat();
    let set = |plan: &[u8], at: usize, byte: u8| {
        let mut plan = plan.to_vec();
        plan[at] = byte;
        plan
    };
    for (bytes, row) in [
        (H[..14].to_vec(), 1),
        (set(&of_version(3, &H), 0, 0), 2),
        (set(&of_version(3, &H), 5, 0), 3),
        (set(&of_version(4, &H), 5, 0), 3),
        (set(&of_version(4, &H), 7, 3), 3),
        (of_version(0, &H), 3),
        (set(&H, 3, 1), 3),
        (set(&H, 5, 0), 4),
        (of_version(2, &H), 7),
        (set(&H, 18, 0), 8),
        (set(&K, 20, 2), 17),
        (set(&H, 12, 3), 10),
        (set(&H, 12, 13), 12),
        (set(&set(&H, 8, 1), 6, 1), 11),
        (H.to_vec(), 12),
    ] {
        for lent in [0, 1, 35] {
            assert_eq!(entries::convert(&bytes, lent), Err(row), "{bytes:?}");
        }
    }
}
