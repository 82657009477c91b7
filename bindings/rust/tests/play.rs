//! Scripts of calls against the reference's lists of calls, through the archive's own function and the safe one; and
//! what is claimed of the placement after a list. BPL_CASES sets the number of cases.

mod common;

use bpl::raw::{bpl_play, PLAY_NUMBERS, SHORT_BUFFER};
use bpl::Source;
use common::*;
use placement_reference::gen::{leaning, placement, sized, Draft, Rng, LARGE};
use placement_reference::lists::{play, within_bounds, Call, Reply, Request};
use placement_reference::placement::{check, feasible, first, held_by};
use placement_reference::plan::{read, Plan};
use placement_reference::samples;
use placement_reference::steps::{step_plain, End, Kind, Step};

/// What a play is lent beside `out`.
#[derive(Debug)]
struct Scene {
    plan: Vec<u8>,
    other: Vec<u8>,
    words: Vec<u64>,
    script: Vec<u64>,
}

/// Buffers as a play leaves them, with its code.
#[derive(Debug, PartialEq)]
struct Left {
    code: u32,
    words: Vec<u64>,
    out: Vec<u64>,
}

impl Scene {
    /// Plays the first items of the script through the archive's own function, with an `out` of so many items.
    fn played(&self, items: usize, room: usize) -> Left {
        let (mut words, mut out) = (self.words.clone(), patterned(PLAY_NUMBERS + 2));
        let script = &self.script[..items];
        let lent = &mut out[..room];
        // SAFETY: the buffers are vectors of their own, lent by pointers and lengths within them.
        let code = unsafe {
            bpl_play(
                self.plan.as_ptr(),
                self.plan.len(),
                self.other.as_ptr(),
                self.other.len(),
                words.as_mut_ptr(),
                words.len(),
                script.as_ptr(),
                script.len(),
                lent.as_mut_ptr(),
                lent.len(),
            )
        };
        Left { code, words, out }
    }

    /// What the play has to leave: the words, and the reply over the first seven items of `out`.
    fn left(words: &[u64], reply: Reply) -> Left {
        let mut out = patterned(PLAY_NUMBERS + 2);
        out[..PLAY_NUMBERS].copy_from_slice(&numbers(reply));
        Left {
            code: 0,
            words: words.to_vec(),
            out,
        }
    }

    /// The call of an item, by the bits that the header names.
    fn call(&self, item: u64) -> Call<'_> {
        let request = match item >> 32 & 3 {
            0 => Request::Check,
            1 => Request::Step,
            _ => Request::Run(item as u32),
        };
        let other = item >> 34 & 1 == 1;
        Call {
            bytes: if other { &self.other } else { &self.plan },
            lent: (item >> 35) as usize,
            request,
        }
    }

    /// The largest number of blocks of the plans that are accepted: no word past them is ever written.
    fn most_blocks(&self) -> usize {
        let plans = [&self.plan, &self.other];
        let blocks = plans.map(|bytes| read(bytes).map_or(0, |plan| plan.blocks.len()));
        blocks[0].max(blocks[1])
    }
}

/// The seven numbers of a reply.
fn numbers(reply: Reply) -> [u64; PLAY_NUMBERS] {
    match reply {
        Reply::Refused(row) => [0, u64::from(row), 0, 0, 0, 0, 0],
        Reply::Checked => [1, 0, 0, 0, 0, 0, 0],
        Reply::Stepped(None) => [2, 0, 0, 0, 0, 0, 0],
        Reply::Stepped(Some(s)) => {
            let (kind, j) = (kind_number(s.kind), s.j.unwrap_or(0));
            [2, 1, kind, s.m as u64, s.n as u64, s.i as u64, j as u64]
        }
        Reply::Ran(End::Spent, steps) => [3, 0, u64::from(steps), 0, 0, 0, 0],
        Reply::Ran(End::Rest, steps) => [3, 1, u64::from(steps), 0, 0, 0, 0],
    }
}

fn kind_number(kind: Kind) -> u64 {
    match kind {
        Kind::Move => 0,
        Kind::Swap => 1,
        Kind::RackMove => 2,
        Kind::RackSwap => 3,
    }
}

/// Popularities passed on by one block, and perhaps another capacity: where the counts are the least copies, the same
/// words are often a placement of both plans.
fn relative(rng: &mut Rng, draft: &Draft) -> Vec<u8> {
    let mut other = draft.clone();
    let popularities: Vec<u32> = draft.records.iter().map(|r| r.popularity).collect();
    for (record, popularity) in other.records.iter_mut().zip(popularities.iter().skip(1)) {
        record.popularity = *popularity;
    }
    if rng.once_in(3) {
        other.capacity = (other.capacity + 1).min(1024);
    }
    other.bytes()
}

/// Other bytes: refused ones, the plan's own, another accepted plan, one that is much like the plan, or the plan without
/// its pairs, whose steps may bring them together, or with a feed for each rack, whose steps may lay a block on fewer, or
/// with the largest budget, which version 4 refuses.
fn other_bytes(rng: &mut Rng, draft: &Draft) -> Vec<u8> {
    match rng.below(11) {
        0 => Vec::new(),
        1..=3 => damaged(rng),
        4 => draft.bytes(),
        5 => accepted(rng).bytes(),
        6 => draft.unpaired().bytes(),
        7 => draft.fed(draft.racks).bytes(),
        8 => draft.with_budget(u32::MAX).bytes(),
        _ => relative(rng, draft),
    }
}

/// A lawful placement with the chosen counts: the first one, or another.
fn lawful(rng: &mut Rng, plan: &Plan) -> Vec<u64> {
    match rng.below(3) {
        0 => first(plan),
        1 => placement(rng, plan),
        _ => leaning(rng, plan),
    }
}

/// A step limit.
fn limit(rng: &mut Rng) -> u32 {
    match rng.below(8) {
        0 => 0,
        1 | 2 => 1,
        3 | 4 => rng.below(6) as u32,
        5 => 1 << rng.below(32),
        6 => u32::MAX,
        _ => rng.below(1 << 32) as u32,
    }
}

/// How many words a call is lent: all, so many as there are blocks, fewer, or more than there are.
fn lent(rng: &mut Rng, blocks: usize) -> usize {
    match rng.below(8) {
        0 => rng.below(blocks as u64 + 1) as usize,
        1 => blocks.saturating_sub(1),
        2 | 3 => blocks + rng.below(6) as usize,
        4 => 1 << rng.below(29),
        5 => (1 << 29) - 1,
        _ => blocks,
    }
}

/// An item of any parts. Checks and steps have a limit too, of which nothing is to be seen.
fn item(rng: &mut Rng, blocks: usize) -> u64 {
    if rng.once_in(20) {
        return rng.word();
    }
    let kind = rng.one_of(&[0, 1, 1, 1, 2, 2, 3]);
    let source = u64::from(rng.once_in(4));
    let lent = lent(rng, blocks) as u64;
    u64::from(limit(rng)) + (kind << 32) + (source << 34) + (lent << 35)
}

fn script(rng: &mut Rng, blocks: usize) -> Vec<u64> {
    let number = rng.below(9);
    (0..number).map(|_| item(rng, blocks)).collect()
}

/// Any plan, mostly accepted; words that are often lawful; other bytes and a script.
fn any_scene(rng: &mut Rng) -> Scene {
    let draft = accepted(rng);
    let plan = if rng.once_in(10) {
        damaged(rng)
    } else {
        draft.bytes()
    };
    let words = match draft.plan().filter(|_| rng.once_in(2)) {
        Some(read) => [lawful(rng, &read), patterned(2)].concat(),
        None => lent_words(rng, &plan),
    };
    Scene {
        other: other_bytes(rng, &draft),
        script: script(rng, draft.records.len()),
        plan,
        words,
    }
}

/// How often each reply was met: refusals by number, checks passed, steps by kind and none, and both ends of runs. And
/// how often a call with an accepted other plan did something.
#[derive(Debug, Default)]
struct Met {
    refused: [u64; 24],
    checked: u64,
    steps: [u64; 5],
    ends: [u64; 2],
    by_other: u64,
}

impl Met {
    fn reply(&mut self, reply: Reply) {
        match reply {
            Reply::Refused(row) => self.refused[usize::from(row)] += 1,
            Reply::Checked => self.checked += 1,
            Reply::Stepped(None) => self.steps[4] += 1,
            Reply::Stepped(Some(step)) => self.steps[kind_number(step.kind) as usize] += 1,
            Reply::Ran(End::Rest, _) => self.ends[0] += 1,
            Reply::Ran(End::Spent, _) => self.ends[1] += 1,
        }
    }

    fn all(&self) -> bool {
        let refused = self.refused[1..=18].iter().chain(&self.refused[22..]);
        let mut numbers = refused.chain(&self.steps).chain(&self.ends);
        numbers.all(|number| *number > 0) && self.checked > 0 && self.by_other > 0
    }
}

/// A script, and one of its beginnings: the last reply, all words and all of `out`.
#[test]
fn as_the_reference() {
    let mut met = Met::default();
    for case in 0..cases(6000) {
        let rng = &mut Rng::new(8 << 32 | case);
        let scene = any_scene(rng);
        let room = PLAY_NUMBERS + rng.below(3) as usize;
        let number = scene.script.len();
        let stops = [rng.below(number as u64 + 1) as usize, number];
        let (mut words, mut last) = (scene.words.clone(), Reply::Checked);
        for k in 0..=number {
            if stops.contains(&k) {
                let expected = Scene::left(&words, last);
                assert_eq!(scene.played(k, room), expected, "{k} calls of {scene:?}");
            }
            let Some(item) = scene.script.get(k) else {
                break;
            };
            let call = scene.call(*item);
            let before = words.clone();
            last = call.made(&mut words);
            met.reply(last);
            met.by_other += u64::from(call.bytes != scene.plan && before != words);
        }
        let past = scene.most_blocks().min(words.len());
        assert_eq!(words[past..], scene.words[past..], "past the blocks");
    }
    println!("{met:?}");
    assert!(cases(6000) < 4000 || met.all(), "not all was met: {met:?}");
}

/// An `out` of fewer than seven items is answered by 255 whatever the script is, and nothing is written.
#[test]
fn short_out() {
    for case in 0..cases(2000) {
        let rng = &mut Rng::new(9 << 32 | case);
        let scene = any_scene(rng);
        for room in 0..PLAY_NUMBERS {
            let expected = Left {
                code: SHORT_BUFFER,
                words: scene.words.clone(),
                out: patterned(PLAY_NUMBERS + 2),
            };
            let left = scene.played(scene.script.len(), room);
            assert_eq!(left, expected, "{room} items, {scene:?}");
        }
    }
}

/// A call for the safe function, at times lent more words than an item can name.
fn safe_call(rng: &mut Rng, blocks: usize) -> bpl::Call {
    let request = match rng.below(4) {
        0 => bpl::Request::Check,
        1 | 2 => bpl::Request::Step,
        _ => bpl::Request::Run(limit(rng)),
    };
    let lent = match rng.below(6) {
        0 => rng.one_of(&[0, 1 << 29, (1 << 29) + 1, usize::MAX]),
        _ => lent(rng, blocks),
    };
    let call = bpl::Call::new(request).lending(lent);
    if rng.once_in(5) {
        call.with_other()
    } else {
        call
    }
}

/// The safe function's call as the reference's.
fn call_of<'a>(call: &bpl::Call, plan: &'a [u8], other: &'a [u8]) -> Call<'a> {
    Call {
        bytes: match call.source {
            Source::Plan => plan,
            Source::Other => other,
        },
        lent: call.lent,
        request: match call.request {
            bpl::Request::Check => Request::Check,
            bpl::Request::Step => Request::Step,
            bpl::Request::Run(limit) => Request::Run(limit),
        },
    }
}

/// The safe function's reply is the reference's.
fn same_reply(said: bpl::Reply, expected: Reply) {
    match (said, expected) {
        (bpl::Reply::Refused(refusal), Reply::Refused(row)) => assert_eq!(refusal.number(), row),
        (bpl::Reply::Checked, Reply::Checked) => {}
        (bpl::Reply::Stepped(step), Reply::Stepped(next)) => assert_eq!(step, next.map(step_of)),
        (bpl::Reply::Ran(run), Reply::Ran(end, steps)) => assert_eq!(run, end_of((end, steps))),
        _ => panic!("{said:?} for {expected:?}"),
    }
    assert_eq!(said.says_rest(), expected.says_rest());
}

/// How many lists the claim is about, how many ended at rest, and to how many of these each bound applies.
#[derive(Debug, Default)]
struct Claims {
    lists: u64,
    rests: u64,
    one_spread: u64,
    none_full: u64,
}

/// Lawful placements that one at rest is held against: the first, any other, and the first at the least counts.
fn other_placements(rng: &mut Rng, plan: &Plan) -> [Vec<u64>; 3] {
    let least = Plan {
        budget: plan.least_sum(),
        ..plan.clone()
    };
    [first(plan), placement(rng, plan), first(&least)]
}

/// What is claimed of the plan's words after a list: they are lawful with the chosen counts, at rest if the last reply
/// says so, and at rest within the bounds.
fn claimed(rng: &mut Rng, plan: &Plan, words: &[u64], said: bpl::Reply, met: &mut Claims) {
    met.lists += 1;
    assert!(feasible(plan, words), "{plan:?} {words:?}");
    assert_eq!(check(plan, words), Ok(words.len()), "{plan:?} {words:?}");
    if step_plain(plan, words).is_some() {
        assert!(!said.says_rest(), "{plan:?} {words:?} {said:?}");
        return;
    }
    met.rests += 1;
    met.one_spread += u64::from(plan.blocks.iter().all(|b| b.spread == 1));
    let full = (0..plan.machines()).any(|m| held_by(words, m) == plan.capacity);
    met.none_full += u64::from(!full);
    for other in other_placements(rng, plan) {
        assert!(feasible(plan, &other));
        assert!(within_bounds(plan, words, &other), "{plan:?} {words:?}");
    }
}

/// Lists of calls from a lawful placement, played by the safe function and by the reference: the same last reply and the
/// same words. Where every call gets the plan and its words, or is refused, the claim holds of the words.
#[test]
fn what_is_claimed_after_a_list() {
    let mut met = Claims::default();
    for case in 0..cases(4000) {
        let rng = &mut Rng::new(10 << 32 | case);
        let draft = accepted(rng);
        let (bytes, plan) = (draft.bytes(), draft.plan().expect("an accepted draft"));
        let other = other_bytes(rng, &draft);
        let blocks = plan.blocks.len();
        let number = rng.below(9);
        let list: Vec<bpl::Call> = (0..number).map(|_| safe_call(rng, blocks)).collect();
        let calls: Vec<Call> = list.iter().map(|c| call_of(c, &bytes, &other)).collect();

        let before = [lawful(rng, &plan), patterned(2)].concat();
        let (mut words, mut theirs) = (before.clone(), before.clone());
        let said = bpl::play(&bytes, &other, &mut words, &list);
        let replies = play(&calls, &mut theirs);
        assert_eq!(words, theirs, "{list:?} over {bytes:?} from {before:?}");
        same_reply(said, replies.last().copied().unwrap_or(Reply::Checked));

        let mut answered = calls.iter().zip(&replies);
        if answered.all(|(call, reply)| call.stands(*reply, &bytes, blocks)) {
            assert_eq!(words[blocks..], before[blocks..], "past the blocks");
            claimed(rng, &plan, &words[..blocks], said, &mut met);
        }
    }
    println!("{met:?}");
    let few = met.one_spread.min(met.none_full) < cases(4000) / 10;
    let vain = few || met.lists == cases(4000) || met.rests == met.lists;
    assert!(cases(4000) < 1000 || !vain, "not all was met: {met:?}");
}

/// The largest plans, with few steps.
#[test]
fn large_plans() {
    for case in 0..cases(2000).div_ceil(400) {
        let rng = &mut Rng::new(11 << 32 | case);
        let size = any_version(rng, LARGE);
        let draft = sized(rng, size, 8, 8, 1024);
        let plan = draft.plan().expect("an accepted draft");
        let scene = Scene {
            plan: draft.bytes(),
            other: relative(rng, &draft),
            words: [first(&plan), patterned(2)].concat(),
            script: vec![
                1 << 32 | 1024 << 35,
                2 << 32 | 2 | 1025 << 35,
                1 << 32 | 1023 << 35,
                1 << 34 | 1024 << 35,
                3 << 32 | 1 | 1026 << 35,
            ],
        };
        let calls: Vec<Call> = scene.script.iter().map(|item| scene.call(*item)).collect();
        let mut words = scene.words.clone();
        let replies = play(&calls, &mut words);
        let expected = Scene::left(&words, replies[4]);
        assert_eq!(scene.played(5, PLAY_NUMBERS), expected);
        assert_eq!(replies[2], Reply::Refused(12));
    }
}

/// Plan Y's three words are lent by every number of one bit but 1 and 2.
#[test]
fn every_bit_of_the_number_lent() {
    for bit in 0..29 {
        let scene = Scene {
            plan: samples::y().bytes(),
            other: Vec::new(),
            words: vec![1, 2, 1],
            script: vec![1 << 32 | 1 << (35 + bit)],
        };
        let step = Step {
            kind: Kind::Move,
            m: 0,
            n: 1,
            i: 0,
            j: None,
        };
        let expected = match bit {
            0 | 1 => Scene::left(&[1, 2, 1], Reply::Refused(12)),
            _ => Scene::left(&[2, 2, 1], Reply::Stepped(Some(step))),
        };
        assert_eq!(scene.played(1, PLAY_NUMBERS), expected, "bit {bit}");
    }
}

/// The items of calls, bit by bit.
#[test]
fn items() {
    use bpl::Call as Safe;
    use bpl::Request::{Check, Run, Step};
    let all = 0xFFFF_FFF8_0000_0000;
    assert_eq!(Safe::new(Check).item(), all);
    assert_eq!(Safe::new(Step).item(), all | 1 << 32);
    assert_eq!(Safe::new(Run(u32::MAX)).item(), all | 0x2_FFFF_FFFF);
    assert_eq!(Safe::new(Check).lending(0).item(), 0);
    assert_eq!(Safe::new(Run(7)).lending(3).item(), 3 << 35 | 2 << 32 | 7);
    assert_eq!(Safe::new(Step).lending(1).with_other().item(), 0xD << 32);
    assert_eq!(Safe::new(Check).lending(1 << 29).item(), all);
}
