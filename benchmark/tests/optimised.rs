//! The optimised version against the reference on random plans: step by step, whole runs, checks, listings, reads and
//! conversions.

use placement_benchmark::optimised::{
    check, enter_convert, enter_read, enter_report, enter_run, enter_step, listing, State,
};
use placement_reference::calls;
use placement_reference::convert;
use placement_reference::counts::chosen;
use placement_reference::damage::{any_row, broken, flawed, mispaired, MISPAIRINGS};
use placement_reference::gen::*;
use placement_reference::histories::{history, manner, Caller, Event};
use placement_reference::listing::text;
use placement_reference::placement::{first, loads};
use placement_reference::samples::*;
use placement_reference::steps::{step_plain, End};
use placement_reference::{placement, plan::Plan};

/// Both take the same steps from these words, with the same words and loads after each, until rest or `most` steps.
fn same_steps(plan: &Plan, words: &[u64], most: usize) -> usize {
    let mut state = State::new(plan, words);
    for taken in 0..most {
        let step = step_plain(plan, state.words());
        assert_eq!(state.next_step(), step);
        let Some(step) = step else { return taken };
        let after = step.taken(state.words());
        state.take(&step);
        assert_eq!(state.words(), after);
        assert_eq!(state.loads(), loads(plan, &after));
    }
    most
}

/// Both make the same of a run from these words.
fn same_run(bytes: &[u8], words: &[u64], budget: u32) {
    let (mut ours, mut theirs) = (words.to_vec(), words.to_vec());
    let answer = enter_run(bytes, &mut ours, budget);
    assert_eq!(answer, calls::enter_run(bytes, &mut theirs, budget));
    assert_eq!(ours, theirs);
}

/// A size in all versions.
fn all_versions(size: Size) -> [Size; 4] {
    [1, 2, 3, 4].map(|version| Size { version, ..size })
}

#[test]
fn steps_of_random_plans() {
    let mut rng = Rng::new(1);
    let mut taken = 0;
    for size in [TINY, SMALL, MEDIUM].into_iter().flat_map(all_versions) {
        for _ in 0..100 {
            let plan = draft(&mut rng, size).plan().expect("accepted");
            taken += same_steps(&plan, &first(&plan), 60);
            let words = leaning(&mut rng, &plan);
            taken += same_steps(&plan, &words, 60);
        }
    }
    assert!(taken > 10_000, "only {taken} steps were compared");
}

/// Pairs of which one block cannot follow the other: in one rack and in two, by moves and by exchanges.
#[test]
fn steps_that_a_pair_forbids() {
    for shape in [(1, 2), (2, 1)] {
        for draft in [no_move_for_pair(shape), no_swap_for_pair(shape)] {
            let plan = draft.plan().expect("accepted");
            let without = draft.unpaired().plan().expect("accepted");
            assert_eq!(same_steps(&plan, &PAIR_WORDS, 9), 0);
            assert!(same_steps(&without, &PAIR_WORDS, 9) > 0);
        }
    }
}

/// Blocks that may change racks on one feed, and not to the racks of another one.
#[test]
fn steps_that_feeds_forbid() {
    let two = two_feeds().plan().expect("accepted");
    assert!(same_steps(&two, &TWO_FEEDS_WORDS, 9) > 0);
    for (draft, words) in [
        (no_move_for_feed(), &NO_MOVE_WORDS[..]),
        (no_swap_for_feed(), &NO_SWAP_WORDS),
    ] {
        let plan = draft.plan().expect("accepted");
        let by_rack = draft.fed(draft.racks).plan().expect("accepted");
        assert_eq!(same_steps(&plan, words, 9), 0);
        assert!(same_steps(&by_rack, words, 9) > 0);
    }
}

#[test]
fn steps_with_full_machines() {
    let mut rng = Rng::new(2);
    for size in all_versions(SMALL) {
        for _ in 0..100 {
            let plan = filled(&mut rng, size).plan().expect("accepted");
            let words = leaning(&mut rng, &plan);
            same_steps(&plan, &words, 60);
        }
    }
}

#[test]
fn steps_of_the_largest_plans() {
    let mut rng = Rng::new(3);
    for (racks, per_rack, size) in [
        (8, 8, LARGE),
        (1, 64, LARGE),
        (64, 1, LARGE),
        (8, 8, all_versions(LARGE)[1]),
        (8, 8, all_versions(LARGE)[2]),
        (8, 8, all_versions(LARGE)[3]),
        (32, 2, all_versions(LARGE)[3]),
    ] {
        let plan = sized(&mut rng, size, racks, per_rack, 1024)
            .plan()
            .expect("accepted");
        same_steps(&plan, &first(&plan), 12);
        let words = leaning(&mut rng, &plan);
        same_steps(&plan, &words, 12);
    }
}

/// The largest plans with room for ten copies of every block: in version 2 it has at most eight, in versions 3 and 4
/// ten.
#[test]
fn steps_of_ten_copies() {
    let mut rng = Rng::new(8);
    for (size, most) in all_versions(LARGE)[1..].iter().zip([8, 10, 10]) {
        let draft = Draft {
            capacity: 1024,
            budget: 10_240,
            ..sized(&mut rng, *size, 8, 8, 1024)
        };
        let plan = draft.plan().expect("accepted");
        assert_eq!(chosen(&plan).into_iter().max(), Some(most));
        let words = leaning(&mut rng, &plan);
        assert!(same_steps(&plan, &words, 12) > 0);
    }
}

#[test]
fn whole_runs() {
    let mut rng = Rng::new(4);
    for size in [
        TINY,
        SMALL,
        Size {
            coarse: true,
            ..MEDIUM
        },
    ]
    .into_iter()
    .flat_map(all_versions)
    {
        for _ in 0..70 {
            let draft = draft(&mut rng, size);
            let plan = draft.plan().expect("accepted");
            let words = leaning(&mut rng, &plan);
            for budget in [0, 1, 7, 3000] {
                same_run(&draft.bytes(), &words, budget);
            }
        }
    }
    same_run(&z().bytes(), &Z_WORDS, u32::MAX);
}

#[test]
fn rest_is_answered_at_rest() {
    let bytes = y().bytes();
    let mut words = [0; 3];
    calls::enter_first(&bytes, &mut words).expect("accepted");
    assert_eq!(enter_run(&bytes, &mut words, 2), Ok((End::Rest, 2)));
    let before = words;
    assert_eq!(enter_step(&bytes, &mut words), Ok(None));
    assert_eq!(words, before);
}

#[test]
fn checks_and_single_steps() {
    let mut rng = Rng::new(5);
    for k in 0..1600 {
        let size = all_versions(SMALL)[k / 400];
        let draft = draft(&mut rng, size);
        let plan = draft.plan().expect("accepted");
        let rows = [0, 1, 2, 3, 4].map(|r| k >> r & 1 == 1);
        let Some(words) = broken(&mut rng, &plan, rows) else {
            continue;
        };
        let (mut ours, mut theirs) = (words.clone(), words.clone());
        assert_eq!(
            check(&plan, &words),
            placement::check(&plan, &words).map(|_| ())
        );
        assert_eq!(check(&plan, &words[1..]), Err(12));
        let bytes = draft.bytes();
        assert_eq!(
            enter_report(&bytes, &words),
            calls::enter_report(&bytes, &words)
        );
        let answer = enter_step(&draft.bytes(), &mut ours);
        assert_eq!(answer, calls::enter_step(&draft.bytes(), &mut theirs));
        assert_eq!(ours, theirs);
    }
}

#[test]
fn listings() {
    let mut rng = Rng::new(6);
    for draft in [h(), y(), z(), k(), empty(), one_machine(), feeds()] {
        assert_eq!(listing(&draft.bytes(), 100), text(&draft.bytes(), 100));
    }
    for k in 0..600 {
        let size = all_versions(SMALL)[k / 150];
        let bytes = draft(&mut rng, size).bytes();
        let row = any_row(&mut rng, size.version);
        let damaged = flawed(&mut rng, bytes.clone(), row);
        for bytes in [bytes, damaged] {
            assert_eq!(listing(&bytes, 20), text(&bytes, 20));
        }
    }
    for how in MISPAIRINGS {
        for size in &all_versions(SMALL)[1..] {
            if let Some(draft) = mispaired(&mut rng, *size, how) {
                assert_eq!(listing(&draft.bytes(), 20), "refused 17\n");
            }
        }
    }
}

/// Both make the same of a conversion into a buffer of so many bytes.
fn same_conversion(bytes: &[u8], lent: usize) {
    let (mut ours, mut theirs) = (vec![0xEE; lent], vec![0xEE; lent]);
    let answer = enter_convert(bytes, &mut ours);
    assert_eq!(answer, convert::enter_convert(bytes, &mut theirs));
    assert_eq!(ours, theirs);
}

#[test]
fn conversions() {
    let mut rng = Rng::new(7);
    for k in 0..2000 {
        let size = all_versions(SMALL)[k / 500];
        let draft = draft(&mut rng, size);
        let need = 15 + 7 * draft.records.len();
        let row = any_row(&mut rng, size.version);
        let damaged = flawed(&mut rng, draft.bytes(), row);
        for bytes in [draft.bytes(), damaged] {
            for lent in [0, need - 1, need, need + 3] {
                same_conversion(&bytes, lent);
            }
        }
    }
}

/// Every read of random histories: the same answer, and the same list afterwards.
#[test]
fn histories_of_reads() {
    for seed in 0..5000 {
        let rng = &mut Rng::new(seed);
        let manner = manner(rng);
        let mut theirs = Caller::default();
        for event in history(rng, manner) {
            let mut ours = theirs.clone();
            let said = theirs.does(&event);
            if let Event::Read { block, tick } = event {
                let answer = enter_read(&ours.plan, block, tick, &mut ours.list, ours.count);
                assert_eq!(Some(answer), said);
                assert_eq!(ours.list, theirs.list);
            }
        }
    }
}
