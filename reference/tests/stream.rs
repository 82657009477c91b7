//! The stream of trials: digests, records, and the stored stream's bounds.

use placement_reference::reads::Entry;
use placement_reference::samples::{y, H, H_3};
use placement_reference::stream::{digest, replay, Writer, PLAN_ROOM, RECORDS, UNTOUCHED};
use placement_reference::trials::stream;
use std::iter::repeat_n;

#[test]
fn digest_is_fnv() {
    assert_eq!(digest([].into_iter()), "cbf29ce484222325");
    assert_eq!(digest(b"a".iter().copied()), "af63dc4c8601ec8c");
    assert_eq!(digest(b"foobar".iter().copied()), "85944171f73967e8");
}

/// Some of each call but those on reads.
fn short_stream() -> Vec<u8> {
    let mut w = Writer::default();
    w.title("short");
    w.plan(&H);
    w.calls("p");
    w.counts(3);
    w.counts(2);
    w.convert(38);
    w.convert(35);
    w.plan(&y().bytes());
    w.lend(2);
    w.calls("f");
    w.words(&[1, 2, 1]);
    w.calls("krs");
    w.run(0);
    w.run(9);
    w.calls("sE");
    w.bytes
}

#[test]
fn a_short_stream() {
    let output = replay(&short_stream());
    let said: Vec<&str> = output.lines().map(|l| l.trim_end()).collect();
    let begins = [
        "# short",
        "plan 2 2 3 8 3",
        "counts 7560 ",
        "counts refused 12 ",
        "convert 36 ",
        "convert refused 12 ",
        "first refused 12 ",
        "check 3 ",
        "report 15120 2520 17640 10080 ",
        "step Move 0 1 0 ",
        "run spent 0 ",
        "run rest 1 ",
        "step rest ",
        "end",
    ];
    assert_eq!(said.len(), begins.len());
    for (line, begin) in said.iter().zip(begins) {
        assert!(line.starts_with(begin), "{line}");
    }
}

/// The line of a conversion has the digest of the whole buffer, of which the bytes past the result are untouched.
#[test]
fn conversions() {
    let mut w = Writer::default();
    for (bytes, number) in [(&H[..], 38), (&H, 36), (&H, 35), (&H_3, 36), (&H, 0)] {
        w.plan(bytes);
        w.convert(number);
    }
    w.calls("E");
    let untouched = |number: usize| digest(repeat_n(UNTOUCHED, number));
    let longer = H_3.into_iter().chain([UNTOUCHED, UNTOUCHED]);
    let expected = [
        format!("convert 36 {}", digest(longer)),
        format!("convert 36 {}", digest(H_3.into_iter())),
        format!("convert refused 12 {}", untouched(35)),
        format!("convert refused 3 {}", untouched(36)),
        format!("convert refused 12 {}", untouched(0)),
        "end".to_string(),
    ];
    let output = replay(&w.bytes);
    assert_eq!(output.lines().collect::<Vec<_>>(), expected);
}

/// The digest of a list of these records and 0 behind them, as a word each with the block above the tick.
fn list_digest(records: &[(u64, u64)]) -> String {
    let words = records.iter().map(|(block, tick)| block << 32 | tick);
    let all = words.chain(std::iter::repeat(0)).take(RECORDS);
    digest(all.flat_map(u64::to_le_bytes))
}

#[test]
fn a_short_stream_of_reads() {
    let entry = |block, tick| Entry { block, tick };
    let mut w = Writer::default();
    w.plan(&H);
    w.read(2, 5);
    w.list(&[entry(1, 7), entry(9, 9)]);
    w.count(1);
    w.read(2, 8);
    w.popularity(2);
    w.read(2, 7_200_006);
    w.read(3, 7_200_007);
    w.records(2, &[entry(6, 7)]);
    w.read(0, 7_200_007);
    w.count(1 << 40 | 1);
    w.read(0, 0);
    w.calls("E");
    let two = list_digest(&[(1, 7), (2, 8)]);
    let dropped = list_digest(&[(2, 8), (0, 7_200_007), (6, 7)]);
    let expected = [
        format!("read refused 21 {}", list_digest(&[])),
        format!("read 2 {two}"),
        format!("popularity 1 {two}"),
        format!("read refused 21 {two}"),
        format!("read refused 19 {two}"),
        format!("read 2 {dropped}"),
        format!("read refused 20 {dropped}"),
        "end".to_string(),
    ];
    let output = replay(&w.bytes);
    assert_eq!(output.lines().collect::<Vec<_>>(), expected);
}

#[test]
fn the_stored_stream_keeps_its_bounds() {
    let once = stream();
    assert_eq!(once, stream());
    assert!(once.len() < 1_430_000);
    assert!(once.ends_with(b"E\0\0\0\0\0\0\0"));
}

/// The largest plan of any version fits, and a plan of one block more, which row 6 refuses.
#[test]
fn the_largest_plan_fits() {
    const { assert!(16 + 7 * 1025 <= PLAN_ROOM) };
}
