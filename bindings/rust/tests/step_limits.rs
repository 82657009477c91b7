//! Step limits of more than 16 bits reach a run whole, also in a listing and in a script.

use bpl::{Call, Reply, Request, RunEnd};
use placement_reference::gen::{patient, Rng};
use placement_reference::listing;
use placement_reference::samples;
use std::fs;
use std::path::PathBuf;

/// A play of runs, one after the other.
fn runs(bytes: &[u8], words: &mut [u64], limits: &[u32]) -> Reply {
    let calls: Vec<Call> = limits
        .iter()
        .map(|limit| Call::new(Request::Run(*limit)))
        .collect();
    bpl::play(bytes, &[], words, &calls)
}

/// Plan Y rests after two steps, whichever bit of the step limit is set alone: none but the lowest is lost.
#[test]
fn every_bit() {
    let bytes = samples::y().bytes();
    for bit in 1..32 {
        let (mut at_once, mut in_script) = ([1, 2, 1], [1, 2, 1]);
        let limit = 1 << bit;
        let rest = RunEnd::Rest(2);
        assert_eq!(bpl::run(&bytes, &mut at_once, limit), Ok(rest), "{bit}");
        let reply = runs(&bytes, &mut in_script, &[limit]);
        assert_eq!(reply, Reply::Ran(rest), "{bit}");
        assert_eq!((at_once, in_script), ([2, 1, 1], [2, 1, 1]), "{bit}");
        let expected = listing::text(&bytes, limit);
        assert_eq!(bpl::listing(&bytes, limit), Ok(expected), "{bit}");
    }
}

/// A placement after a run.
#[derive(Clone, Debug, PartialEq)]
struct After {
    end: RunEnd,
    words: Vec<u64>,
}

/// A run from these words.
fn after(bytes: &[u8], words: &[u64], limit: u32) -> After {
    let mut words = words.to_vec();
    let end = bpl::run(bytes, &mut words, limit).expect("an accepted placement");
    After { end, words }
}

/// The words that a listing tells: the machines of each block.
fn listed_words(listing: &str) -> Vec<u64> {
    let blocks = listing.lines().filter(|line| line.starts_with("block "));
    let word = |line: &str| {
        let machines = line.split(' ').skip(4);
        machines
            .map(|m| 1 << m.parse::<u32>().expect("a machine"))
            .sum()
    };
    blocks.map(word).collect()
}

/// A plan that needs more than 65,536 steps to rest. After 100,000 its words are those of the reference's listing, which
/// is stored. Two runs are one run with the sum of their limits, also in a script.
#[test]
fn more_than_16_bits_of_steps() {
    let bytes = patient(&mut Rng::new(0)).bytes();
    let mut begin = vec![0; 76];
    bpl::first(&bytes, &mut begin).expect("an accepted plan");

    let folder = PathBuf::from(env!("CARGO_MANIFEST_DIR")).join("../../examples");
    assert_eq!(bytes, fs::read(folder.join("spent.plan")).expect("a plan"));
    let stored = fs::read_to_string(folder.join("spent.listing")).expect("its listing");
    let long = after(&bytes, &begin, 100_000);
    assert_eq!(long.end, RunEnd::Spent(100_000));
    assert_eq!(long.words, listed_words(&stored));

    let rest = after(&bytes, &begin, u32::MAX);
    let RunEnd::Rest(all) = rest.end else {
        panic!("the longest run rests: {:?}", rest.end);
    };
    assert!(all > 100_000, "{all}");

    let part = 65_536;
    let between = after(&bytes, &begin, part);
    assert_eq!(between.end, RunEnd::Spent(part));
    let longer = After {
        end: RunEnd::Spent(100_000 - part),
        ..long.clone()
    };
    assert_eq!(after(&bytes, &between.words, 100_000 - part), longer);
    let rested = After {
        end: RunEnd::Rest(all - part),
        ..rest
    };
    assert_eq!(after(&bytes, &between.words, all - part), rested);

    for (limits, expected) in [(&[100_000][..], long), (&[part, u32::MAX], rested)] {
        let mut words = begin.clone();
        assert_eq!(runs(&bytes, &mut words, limits), Reply::Ran(expected.end));
        assert_eq!(words, expected.words);
    }
}
