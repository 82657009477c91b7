//! Lists of calls: the specification's examples played as lists, and what is claimed after every list.

use placement_reference::damage::over_capacity;
use placement_reference::gen::{draft, leaning, placement, Draft, Rng, Size, SMALL, TINY};
use placement_reference::lists::{play, within_bounds, Call, Reply, Request};
use placement_reference::placement::{check, feasible, first};
use placement_reference::plan::Plan;
use placement_reference::samples::{full_machines, h, h_budget, y, z, Z_WORDS};
use placement_reference::steps::{step_literal, step_plain, End, Kind, Step};

fn call(bytes: &[u8], lent: usize, request: Request) -> Call<'_> {
    Call {
        bytes,
        lent,
        request,
    }
}

fn step(kind: Kind, m: usize, n: usize, i: usize, j: Option<usize>) -> Reply {
    Reply::Stepped(Some(Step { kind, m, n, i, j }))
}

#[test]
fn the_list_may_be_empty() {
    let mut words = [1, 2, 3];
    assert_eq!(play(&[], &mut words), []);
    assert_eq!(words, [1, 2, 3]);
}

/// Plan Y step by step, with calls between that are refused: other bytes, and two words lent.
#[test]
fn plan_y_with_refused_calls_between() {
    let (plan, other) = (y().bytes(), h_budget(3).bytes());
    let mut words = [1, 2, 1, 77];
    let calls = [
        call(&plan, 3, Request::Check),
        call(&other, 3, Request::Step),
        call(&plan, 3, Request::Step),
        call(&plan, 2, Request::Run(9)),
        call(&plan, usize::MAX, Request::Run(1)),
        call(&[], 3, Request::Check),
        call(&plan, 4, Request::Step),
        call(&plan, 4, Request::Run(0)),
    ];
    let replies = [
        Reply::Checked,
        Reply::Refused(10),
        step(Kind::Move, 0, 1, 0, None),
        Reply::Refused(12),
        Reply::Ran(End::Rest, 1),
        Reply::Refused(1),
        Reply::Stepped(None),
        Reply::Ran(End::Rest, 0),
    ];
    assert_eq!(play(&calls, &mut words), replies);
    assert_eq!(words, [2, 1, 1, 77]);
    let rest: Vec<bool> = replies.iter().map(|reply| reply.says_rest()).collect();
    assert_eq!(rest, [false, false, false, false, true, false, true, true]);
    let stand = |(c, r): (&Call, &Reply)| c.stands(*r, &plan, 3);
    assert!(calls.iter().zip(&replies).all(stand));
}

/// Plan Z by a run of one step and a step.
#[test]
fn plan_z() {
    let plan = z().bytes();
    let mut words = Z_WORDS;
    let calls = [
        call(&plan, 4, Request::Run(1)),
        call(&plan, 4, Request::Step),
        call(&plan, 4, Request::Check),
    ];
    let replies = [
        Reply::Ran(End::Spent, 1),
        step(Kind::Swap, 1, 0, 0, Some(1)),
        Reply::Checked,
    ];
    assert_eq!(play(&calls, &mut words), replies);
    assert_eq!(words, [1, 2, 1, 2]);
}

/// Another plan that is accepted and passes the placement's check does not share the list's plan.
#[test]
fn an_accepted_other_plan_does_not_stand() {
    let (plan, other) = (h().bytes(), Draft { capacity: 4, ..h() }.bytes());
    let mut words = [15, 5, 2];
    let strange = call(&other, 3, Request::Check);
    assert_eq!(play(&[strange], &mut words), [Reply::Checked]);
    assert!(!strange.stands(Reply::Checked, &plan, 3));
}

/// Full machines with larger spreads, of which nothing is claimed: the bound does not hold of these loads.
#[test]
fn nothing_is_claimed_of_full_machines() {
    let (draft, rest, even) = full_machines();
    let mut plan = draft.plan().expect("an accepted plan");
    assert!(within_bounds(&plan, &rest, &even));
    plan.capacity += 1;
    assert!(!within_bounds(&plan, &rest, &even));
}

/// A list over the plan: some calls get other bytes or too few words.
fn calls<'a>(rng: &mut Rng, plan: &'a [u8], other: &'a [u8], blocks: usize) -> Vec<Call<'a>> {
    let number = rng.below(7);
    let one = |rng: &mut Rng| {
        let request = match rng.below(4) {
            0 => Request::Check,
            1 | 2 => Request::Step,
            _ => Request::Run(rng.one_of(&[0, 1, 2, 5, u32::MAX])),
        };
        let bytes = if rng.once_in(6) { other } else { plan };
        let lent = rng.below(blocks as u64 + 3) as usize;
        call(bytes, if rng.once_in(4) { lent } else { blocks }, request)
    };
    (0..number).map(|_| one(rng)).collect()
}

/// After a list, whatever its calls were: lawful with the chosen counts, at rest if the last call says so, and at
/// rest within the bounds.
fn claimed(plan: &Plan, words: &[u64], last: Option<Reply>, others: &[Vec<u64>]) {
    assert_eq!(check(plan, words), Ok(words.len()));
    let rests = step_plain(plan, words).is_none();
    assert!(rests || !last.is_some_and(Reply::says_rest));
    for other in others.iter().filter(|_| rests) {
        assert!(feasible(plan, other));
        assert!(within_bounds(plan, words, other));
    }
}

fn lists(seed: u64, number: u64, size: Size) {
    let rng = &mut Rng::new(seed);
    let mut rested = 0;
    for _ in 0..number {
        let draft = draft(rng, size);
        let (bytes, plan) = (draft.bytes(), draft.plan().expect("an accepted plan"));
        let version = size.version;
        let other = over_capacity(rng, Size { version, ..TINY }).bytes();
        let list = calls(rng, &bytes, &other, plan.blocks.len());
        let mut words = leaning(rng, &plan);
        let replies = play(&list, &mut words);
        let others = [first(&plan), placement(rng, &plan)];
        claimed(&plan, &words, replies.last().copied(), &others);
        let stand = |(c, r): (&Call, &Reply)| c.stands(*r, &bytes, plan.blocks.len());
        assert!(list.iter().zip(&replies).all(stand));
        rested += u64::from(step_plain(&plan, &words).is_none());
    }
    assert!(rested > number / 4 && rested < number, "{rested}");
}

#[test]
fn what_is_claimed_after_a_list() {
    lists(21, 3000, TINY);
    lists(22, 500, SMALL);
    lists(24, 3000, TINY.paired());
    lists(25, 500, SMALL.paired());
    lists(26, 1000, TINY.wide());
    lists(27, 200, SMALL.wide());
    lists(28, 2000, TINY.fed());
    lists(29, 400, SMALL.fed());
}

/// A run in a list is its steps, each found word for word as the specification says.
#[test]
fn a_run_is_the_steps_of_a_list() {
    let rng = &mut Rng::new(23);
    for number in 0..800 {
        let size = [TINY, TINY.paired(), TINY.wide(), TINY.fed()][number / 200];
        let draft = draft(rng, size);
        let (bytes, plan) = (draft.bytes(), draft.plan().expect("an accepted plan"));
        let begin = leaning(rng, &plan);
        let (mut at_once, mut one_by_one) = (begin.clone(), begin);
        let budget = rng.below(6) as u32;
        let blocks = plan.blocks.len();
        play(&[call(&bytes, blocks, Request::Run(budget))], &mut at_once);
        for _ in 0..budget {
            let next = step_literal(&plan, &one_by_one);
            let reply = play(&[call(&bytes, blocks, Request::Step)], &mut one_by_one);
            assert_eq!(reply, [Reply::Stepped(next)]);
        }
        assert_eq!(at_once, one_by_one);
    }
}
