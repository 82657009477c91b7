//! Every entry on a plan or a placement against the independent reference, on random ones and over random lists of
//! calls; those on reads are in reads.rs, more of conversions is in convert.rs. BPL_CASES sets the number of cases.

mod common;
#[path = "common/entries.rs"]
mod entries;

use bpl::{RunEnd, Step};
use common::*;
use placement_reference::gen::{coarse, divisors, largest, leaning, sized, Draft, Rng, LARGE};
use placement_reference::placement;
use placement_reference::plan::{read, Plan};
use placement_reference::steps::step_plain;

/// The number of blocks that the bytes tell, if they are a plan.
fn blocks_of(bytes: &[u8]) -> usize {
    read(bytes).map_or(0, |plan| plan.blocks.len())
}

/// What the cases met: checks by number (0 is passed), steps by kind, ends of runs. And of accepted plans of version 4:
/// one feed for several racks, several feeds for more racks, and a feed for each rack; placements that 15 refuses though
/// the racks suffice; steps that are others than with a feed for each rack.
#[derive(Debug, Default)]
struct Met {
    checks: [u64; 24],
    steps: [u64; 5],
    ends: [u64; 2],
    feeds: [u64; 3],
    too_few_feeds: u64,
    other_steps: u64,
}

impl Met {
    /// The words of an accepted plan of version 4, beside the same plan with a feed for each rack.
    fn on_feeds(&mut self, plan: &Plan, words: &[u64]) {
        let (feeds, racks) = (plan.feeds, plan.racks);
        let kind = if feeds == racks {
            2
        } else {
            usize::from(feeds > 1)
        };
        self.feeds[kind] += 1;
        let by_rack = Plan {
            feeds: racks,
            ..plan.clone()
        };
        let said = [plan, &by_rack].map(|plan| placement::check(plan, words));
        self.too_few_feeds += u64::from(said[0] == Err(15) && said[1] != Err(15));
        if let [Ok(number), Ok(_)] = said {
            let [next, other] = [plan, &by_rack].map(|plan| step_plain(plan, &words[..number]));
            self.other_steps += u64::from(next != other);
        }
    }

    fn check(&mut self, said: Result<(), u8>) {
        self.checks[said.err().unwrap_or(0) as usize] += 1;
    }

    fn step(&mut self, said: Result<Option<Step>, u8>) {
        let Ok(step) = said else { return };
        let kind = match step {
            None => 0,
            Some(Step::Move { .. }) => 1,
            Some(Step::Swap { .. }) => 2,
            Some(Step::RackMove { .. }) => 3,
            Some(Step::RackSwap { .. }) => 4,
        };
        self.steps[kind] += 1;
    }

    fn run(&mut self, said: Result<RunEnd, u8>) {
        match said {
            Ok(RunEnd::Rest(_)) => self.ends[0] += 1,
            Ok(RunEnd::Spent(_)) => self.ends[1] += 1,
            Err(_) => {}
        }
    }

    /// Every check, kind and end was met, and all of feeds. 19 to 21 are of reads.
    fn all(&self) -> bool {
        let checks = self.checks[..=18].iter().chain(&self.checks[22..]);
        let others = [self.too_few_feeds, self.other_steps];
        let mut numbers = checks.chain(&self.steps).chain(&self.ends);
        let of_feeds = self.feeds.iter().chain(&others).all(|number| *number > 0);
        numbers.all(|number| *number > 0) && of_feeds
    }
}

/// All entries once, on bytes and words of any sort.
#[test]
fn each_entry() {
    let mut met = Met::default();
    for case in 0..cases(28_000) {
        let rng = &mut Rng::new(case);
        let bytes = any_bytes(rng);
        let words = lent_words(rng, &bytes);
        let blocks = blocks_of(&bytes);
        entries::plan(&bytes);
        entries::counts(&bytes, blocks);
        entries::counts(&bytes, blocks + 3);
        entries::counts(&bytes, blocks.saturating_sub(1));
        met.check(entries::check(&bytes, &words));
        if let Some(plan) = read(&bytes).ok().filter(|plan| plan.version == 4) {
            met.on_feeds(&plan, &words);
        }
        entries::report(&bytes, &words);
        met.step(entries::step(&bytes, &mut words.clone()));
        met.run(entries::run(&bytes, &mut words.clone(), step_limit(rng)));
        entries::first(&bytes, &mut patterned(words.len()));
        entries::first(&bytes, &mut patterned(blocks.saturating_sub(1)));
        entries::listing(&bytes, step_limit(rng));
        for lent in buffer_lengths(rng, &bytes) {
            let _ = entries::convert(&bytes, lent);
        }
    }
    assert!(
        cases(28_000) < 5000 || met.all(),
        "not all was met: {met:?}"
    );
    println!("{met:?}");
}

/// One call of a list: any entry, at times with other bytes or with too few words.
fn call(rng: &mut Rng, bytes: &[u8], words: &mut [u64]) {
    let other = damaged(rng);
    let bytes = if rng.once_in(6) { &other } else { bytes };
    let most = words.len() as u64;
    let lent = if rng.once_in(6) {
        rng.from_to(0, most)
    } else {
        most
    };
    let part = &mut words[..lent as usize];
    match rng.below(10) {
        0 => drop(entries::check(bytes, part)),
        1 => entries::report(bytes, part),
        2 => entries::counts(bytes, part.len()),
        3 if rng.once_in(4) => entries::first(bytes, part),
        4 | 5 => drop(entries::run(bytes, part, step_limit(rng))),
        6 => entries::listing(bytes, 3),
        7 => drop(entries::convert(bytes, part.len())),
        _ => drop(entries::step(bytes, part)),
    }
}

/// Lists of calls that share one plan and its words: what each call is handed is what the calls before it left.
#[test]
fn lists_of_calls() {
    for case in 0..cases(4000) {
        let rng = &mut Rng::new(1 << 32 | case);
        let draft = accepted(rng);
        let bytes = draft.bytes();
        let plan = draft.plan().expect("an accepted draft");
        let mut words = leaning(rng, &plan);
        words.extend(patterned(2));
        for _ in 0..rng.from_to(0, 14) {
            let before = words.clone();
            call(rng, &bytes, &mut words);
            let blocks = plan.blocks.len();
            assert_eq!(before[blocks..], words[blocks..], "a call wrote past B");
        }
    }
}

/// The largest plan of version 3 or 4, with popularities near the end of 32 bits.
fn widest(rng: &mut Rng) -> Draft {
    let size = rng.one_of(&[LARGE.wide(), LARGE.fed()]);
    let mut draft = sized(rng, size, 8, 8, 1024);
    for record in &mut draft.records {
        record.popularity = u32::MAX - record.popularity;
    }
    draft
}

/// All entries on a large plan, with few steps.
fn large_plan(rng: &mut Rng, draft: &Draft) {
    let bytes = draft.bytes();
    let mut words = patterned(draft.records.len() + 5);
    entries::plan(&bytes);
    entries::counts(&bytes, draft.records.len() + 5);
    entries::first(&bytes, &mut words);
    assert!(entries::check(&bytes, &words).is_ok());
    assert!(entries::step(&bytes, &mut words).is_ok());
    assert!(entries::run(&bytes, &mut words, 2).is_ok());
    entries::report(&bytes, &words);
    entries::listing(&bytes, 1);
    entries::listing(&bytes[..bytes.len() - 1], 1);
    for lent in buffer_lengths(rng, &bytes) {
        let _ = entries::convert(&bytes, lent);
    }
}

/// A few large plans of any version.
#[test]
fn large_plans() {
    for case in 0..cases(2000).div_ceil(100) {
        let rng = &mut Rng::new(2 << 32 | case);
        let draft = match rng.below(5) {
            0 => coarse(rng),
            1 => largest(rng).coupled(1024),
            2 => widest(rng),
            _ => {
                let size = any_version(rng, LARGE);
                sized(rng, size, 8, 8, 1024)
            }
        };
        large_plan(rng, &draft);
    }
}

/// The largest plan of version 4 with every number of feeds that its racks can have.
#[test]
fn large_plans_on_feeds() {
    let rng = &mut Rng::new(14 << 32);
    for feeds in divisors(8) {
        let mut draft = largest(rng).coupled(512).fed(feeds);
        for record in &mut draft.records {
            record.spread = record.spread.min(feeds);
        }
        assert_eq!(draft.bytes().len(), 7184);
        large_plan(rng, &draft);
    }
}

/// Calls in several threads at once answer as they do alone.
#[test]
fn threads() {
    let bytes = accepted(&mut Rng::new(7)).bytes();
    let alone = bpl::listing(&bytes, 1000);
    let together: Vec<_> = std::thread::scope(|scope| {
        let calls: Vec<_> = (0..4)
            .map(|_| {
                scope.spawn(|| {
                    (0..50)
                        .map(|_| bpl::listing(&bytes, 1000))
                        .collect::<Vec<_>>()
                })
            })
            .collect();
        calls
            .into_iter()
            .flat_map(|call| call.join().expect("no call panics"))
            .collect()
    });
    assert!(together.iter().all(|listing| *listing == alone));
}
