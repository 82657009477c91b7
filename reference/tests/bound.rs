//! Why the bound at rest reads as it does. For a placement at rest with hottest load X and largest share s, and any
//! lawful placement of the plan with hottest load Y, M × X is at most M × Y + k × (M - 1) × s: with k = 1 if every
//! spread is one, and with k = 3 for larger spreads if no machine is full. Here are plans on which less is false, with
//! spreads over racks, and the same ones in version 4 with spreads over feeds.

use placement_reference::calls::{enter_check, enter_report, enter_step};
use placement_reference::gen::Draft;
use placement_reference::placement::{feasible, first, held_by, loads};
use placement_reference::plan::{read, Plan};
use placement_reference::samples::{full_machines, plan_of};
use placement_reference::steps::step_literal;

/// The numbers of the bound: M, X, Y and s.
#[derive(Debug, PartialEq, Eq)]
struct Bound {
    machines: u64,
    at_rest: u64,
    other: u64,
    share: u64,
}

impl Bound {
    /// The bound with so many shares holds. All numbers are whole, so nothing is rounded.
    fn holds_with(&self, shares: u64) -> bool {
        self.machines * self.at_rest
            <= self.machines * self.other + shares * (self.machines - 1) * self.share
    }
}

/// The hottest load.
fn hottest(plan: &Plan, words: &[u64]) -> u64 {
    *loads(plan, words).iter().max().expect("a machine")
}

/// The number of machines that hold C copies.
fn full(plan: &Plan, words: &[u64]) -> usize {
    let is_full = |m: &usize| held_by(words, *m) == plan.capacity;
    (0..plan.machines()).filter(is_full).count()
}

/// The plan in these bytes, with spreads above one. The words are accepted by the check and are at rest, by both
/// searches; the other placement is lawful. Answers the plan and the bound's numbers.
fn bound(bytes: &[u8], words: &[u64], other: &[u64]) -> (Plan, Bound) {
    let plan = read(bytes).expect("an accepted plan");
    assert!(plan.blocks.iter().any(|b| b.spread > 1));
    assert_eq!(enter_check(bytes, words), Ok(words.len()));
    let mut after = words.to_vec();
    assert_eq!(enter_step(bytes, &mut after), Ok(None));
    assert_eq!(after, words);
    assert_eq!(step_literal(&plan, words), None);
    assert!(feasible(&plan, other));
    let report = enter_report(bytes, words).expect("an accepted placement");
    let bound = Bound {
        machines: plan.machines() as u64,
        at_rest: report.maximum,
        other: hottest(&plan, other),
        share: report.largest_share,
    };
    (plan, bound)
}

/// The plan in version 4: each machine is a rack of its own, and those of one rack before hang on one feed.
fn on_feeds(draft: &Draft) -> Draft {
    let mut fed = draft.fed(draft.racks);
    (fed.racks, fed.per_rack) = (draft.racks * draft.per_rack, 1);
    fed
}

/// The words with the machines' new numbers.
fn renumbered(draft: &Draft, words: &[u64]) -> Vec<u64> {
    let (racks, per_rack) = (u64::from(draft.racks), u64::from(draft.per_rack));
    let place = |m: u64| m % per_rack * racks + m / per_rack;
    let moved = |word: &u64| {
        let held = (0..racks * per_rack).filter(|m| word >> m & 1 == 1);
        held.fold(0, |w, m| w | 1 << place(m))
    };
    words.iter().map(moved).collect()
}

/// The plan's bound, which is the same on feeds. Answers the plan and the bound's numbers.
fn bound_of_both(draft: &Draft, words: &[u64], other: &[u64]) -> (Plan, Bound) {
    let (plan, by_rack) = bound(&draft.bytes(), words, other);
    let [moved, other] = [words, other].map(|words| renumbered(draft, words));
    let (fed, by_feed) = bound(&on_feeds(draft).bytes(), &moved, &other);
    assert!(1 < fed.feeds && fed.feeds < fed.racks);
    assert_eq!(full(&fed, &moved), full(&plan, words));
    assert_eq!(by_feed, by_rack);
    (plan, by_rack)
}

/// "No machine full" is needed. Every machine is full, so that only exchanges could be steps, and none is: three machines
/// with 45,360 each rest beside three with 30,240, though 37,800 on each is lawful. Three shares are not enough.
#[test]
fn full_machines_break_three_shares() {
    let (draft, rest, even) = full_machines();
    let (plan, bound) = bound_of_both(&draft, &rest, &even);
    assert_eq!(full(&plan, &rest), 6);
    let [hot, cool] = [45_360, 30_240];
    assert_eq!(loads(&plan, &rest), [hot, hot, hot, cool, cool, cool]);
    assert_eq!(loads(&plan, &even), [37_800; 6]);
    let expected = Bound {
        machines: 6,
        at_rest: 45_360,
        other: 37_800,
        share: 2520,
    };
    assert_eq!(bound, expected);
    assert!(!bound.holds_with(3));
}

/// One share is not enough for larger spreads, with room on every machine.
#[test]
fn one_share_is_too_few() {
    let records = [(2, 2, 2), (2, 2, 2), (2, 2, 2), (3, 3, 2), (3, 3, 2)];
    let draft = plan_of((2, 2), 10, 12, &records);
    let rest = [5, 5, 6, 11, 11];
    let even = first(&draft.plan().expect("an accepted plan"));
    let (plan, bound) = bound_of_both(&draft, &rest, &even);
    assert_eq!(full(&plan, &rest), 0);
    assert_eq!(loads(&plan, &even), [7560; 4]);
    let expected = Bound {
        machines: 4,
        at_rest: 10_080,
        other: 7560,
        share: 2520,
    };
    assert_eq!(bound, expected);
    assert!(!bound.holds_with(1));
    assert!(bound.holds_with(3));
}

/// Nor are two shares: 15 × 20,160 = 302,400 is above 15 × 15,120 + 2 × 14 × 2520 = 297,360.
#[test]
fn two_shares_are_too_few() {
    let records = [[(5, 5, 5); 12].as_slice(), &[(6, 6, 1); 5]].concat();
    let draft = plan_of((5, 3), 100, 90, &records);
    let rest = [
        [9361, 18721].repeat(4),
        vec![9362, 18722, 9364, 18724],
        vec![4686; 5],
    ]
    .concat();
    let begin = first(&draft.plan().expect("an accepted plan"));
    let (plan, bound) = bound_of_both(&draft, &rest, &begin);
    assert_eq!(full(&plan, &rest), 0);
    let expected = Bound {
        machines: 15,
        at_rest: 20_160,
        other: 15_120,
        share: 2520,
    };
    assert_eq!(bound, expected);
    assert!(!bound.holds_with(2));
    assert!(bound.holds_with(3));
}
