//! The stored trials: the specification's plans and examples first, generated ones after them; then the same for
//! version 2, for reads, for version 3, for the converter, for the most copies of a block, for version 4, and for budgets
//! about M × C.

mod budgets;
mod conversions;
mod copies;
mod feeds;
mod pairs;
mod reads;
mod wide;

use crate::damage::{broken, flawed, over_budget, over_capacity, over_feeds, two_records};
use crate::damage::{PLAN_ROWS, ROWS_BEFORE_FEEDS};
use crate::gen::*;
use crate::plan::{read, Plan};
use crate::samples::*;
use crate::stream::{Writer, WORDS};

/// Every call on a plan that a check refuses, with room enough lent.
fn refused_plan(w: &mut Writer, bytes: &[u8]) {
    w.plan(bytes);
    w.calls("p");
    w.counts(4);
    w.calls("fkrs");
    w.run(7);
}

/// A plan's judgement, counts and first placement, with too short, exact and longer buffers.
fn plan_calls(w: &mut Writer, draft: &Draft) {
    let number = draft.records.len();
    w.plan(&draft.bytes());
    w.calls("p");
    w.counts(number);
    w.counts(number + 7);
    if number > 0 {
        w.counts(number - 1);
        w.lend(number - 1);
        w.calls("fkrs");
        w.run(1);
    }
    w.lend(number);
    w.calls("fkr");
}

/// From the first placement to rest.
fn to_rest(w: &mut Writer, draft: &Draft) {
    plan_calls(w, draft);
    w.calls("sr");
    w.run(100_000);
    w.calls("r");
}

/// The plans with a star and their neighbours.
fn named_plans(w: &mut Writer) {
    w.title("the plans of the specification");
    for draft in [
        h(),
        h_budget(4),
        row_eleven(2),
        y(),
        z(),
        empty(),
        one_machine(),
        order_of_move(),
        order_of_kind(),
        ties(),
        spread_of_j(),
    ] {
        to_rest(w, &draft);
    }
    w.title("Y with step budgets 0, 1, 2 and the largest");
    w.plan(&y().bytes());
    for budget in [0, 1, 2, u32::MAX] {
        w.calls("f");
        w.run(budget);
        w.calls("rs");
    }
}

/// M 64 in three shapes.
fn widest_plans(w: &mut Writer) {
    w.title("M 64 accepted, in three shapes");
    for (racks, per_rack) in [(8, 8), (64, 1), (1, 64)] {
        let records = vec![h().records[1]; 70];
        let shape = Draft {
            racks,
            per_rack,
            records,
            budget: 200,
            ..h()
        };
        plan_calls(w, &shape);
        w.run(50);
        w.calls("r");
    }
}

/// Least copies and spread at their limits, and one above.
fn limits_of_records(w: &mut Writer) {
    w.title("least copies and spread at the limits and one above");
    for (racks, per_rack) in [(1, 8), (7, 1), (8, 1), (3, 3), (9, 1), (8, 8)] {
        for (least, spread) in [
            (7, 7),
            (7, 3),
            (8, 8),
            (8, 9),
            (8, 4),
            (8, 3),
            (9, 1),
            (9, 9),
        ] {
            let draft = plan_of((racks, per_rack), 2, 16, &[(9, least, spread)]);
            w.plan(&draft.bytes());
            w.lend(1);
            w.calls("pfr");
        }
    }
}

/// Placements handed in, of which the specification or our readings tell what follows.
fn named_placements(w: &mut Writer) {
    let (full, rest, even) = full_machines();
    w.title("placements handed in: Z, order of steps, ties, full machines");
    for (draft, words) in [
        (z(), &Z_WORDS[..]),
        (order_of_move(), &ORDER_WORDS),
        (order_of_kind(), &KIND_WORDS),
        (ties(), &TIES_WORDS),
        (full.clone(), &rest),
        (full, &even),
    ] {
        w.plan(&draft.bytes());
        w.words(words);
        w.calls("krssr");
        w.run(u32::MAX);
        w.calls("rs");
    }
}

/// A plan file with one byte changed.
fn changed(bytes: &[u8], at: usize, byte: u8) -> Vec<u8> {
    let mut bytes = bytes.to_vec();
    bytes[at] = byte;
    bytes
}

/// Plan H with one byte changed.
fn h_changed(at: usize, byte: u8) -> Vec<u8> {
    changed(&H, at, byte)
}

/// The examples of rows 1 to 11.
fn refused_examples(w: &mut Writer) {
    w.title("the examples of rows 1 to 11");
    w.words(&[15, 5, 2, 99]);
    refused_headers(w);
    refused_records(w);
}

/// The examples of rows 1 to 7.
fn refused_headers(w: &mut Writer) {
    refused_plan(w, &[]);
    refused_plan(w, &H[..14]);
    for (at, byte) in [(0, 0), (2, 0x4D), (4, 5), (3, 1)] {
        refused_plan(w, &h_changed(at, byte));
    }
    for (racks, per_rack) in [(13, 5), (5, 13), (0, 1), (1, 0), (16, 16), (65, 1), (1, 65)] {
        let shape = Draft {
            racks,
            per_rack,
            ..h()
        };
        refused_plan(w, &shape.bytes());
    }
    for capacity in [0, 1025] {
        refused_plan(w, &Draft { capacity, ..h() }.bytes());
    }
    let records = vec![h().records[1]; 1025];
    refused_plan(w, &Draft { records, ..h() }.bytes());
    refused_plan(w, &H[..29]);
    refused_plan(w, &[&H[..], &[0]].concat());
    refused_plan(w, &[&H[..15], &[0; 5000]].concat());
}

/// The examples of rows 8 to 11.
fn refused_records(w: &mut Writer) {
    for (at, byte) in [(23, 5), (23, 0), (19, 3), (19, 0), (24, 2)] {
        refused_plan(w, &h_changed(at, byte));
    }
    for (least, spread) in [(3, 3), (4, 3), (4, 4), (8, 1), (9, 1)] {
        let record = Record {
            popularity: 1,
            least,
            spread,
            pair: 0,
        };
        let records = vec![h().records[0], record];
        refused_plan(w, &Draft { records, ..h() }.bytes());
    }
    refused_plan(w, &h_budget(3).bytes());
    refused_plan(w, &row_eleven(1).bytes());
    refused_plan(w, &row_eleven(1).with_budget(1).bytes());
}

/// The examples of rows 12 to 16.
fn refused_placements(w: &mut Writer) {
    w.title("the examples of rows 12 to 16");
    let narrow = Draft { capacity: 2, ..h() };
    for (draft, words) in [
        (h(), &[15, 5][..]),
        (h(), &[15, 5, 16]),
        (h(), &[15, 1, 2]),
        (h_budget(4), &[3, 4, 8]),
        (narrow, &[15, 3, 1]),
        (h(), &[15, 5, 1 << 63]),
        (h(), &[]),
    ] {
        w.plan(&draft.bytes());
        w.words(words);
        w.calls("krs");
        w.run(3);
        w.run(0);
    }
}

/// A pattern in all words, so that a word written past the blocks shows.
fn pattern(w: &mut Writer, rng: &mut Rng) {
    w.title("a pattern in every word");
    let words: Vec<u64> = (0..WORDS).map(|_| rng.word()).collect();
    w.words(&words);
}

/// A plan damaged at each of these rows, which are in the order of the checks, and at each two of them.
fn damaged_at(w: &mut Writer, rng: &mut Rng, good: &[u8], rows: &[u8]) {
    for (at, a) in rows.iter().enumerate() {
        refused_plan(w, &flawed(rng, good.to_vec(), *a));
        for b in &rows[at + 1..] {
            let two = flawed(rng, good.to_vec(), *b);
            w.plan(&flawed(rng, two, *a));
            w.calls("ps");
        }
    }
}

/// Plans with blocks of rows 8 and 9 in this order or the other first, and plans of rows 10, 9 and 11.
fn at_fault(rng: &mut Rng, size: Size, least_first: bool) -> Vec<Draft> {
    let two = [least_first, !least_first].map(|first| two_records(rng, size, first));
    let over = [over_budget(rng, size), over_feeds(rng, size)];
    let all = two.into_iter().chain(over).flatten();
    let mut drafts: Vec<Draft> = all.collect();
    drafts.push(over_capacity(rng, size));
    drafts
}

/// Random bytes of a version.
fn random_bytes(w: &mut Writer, rng: &mut Rng, version: u8, times: usize) {
    for _ in 0..times {
        w.plan(&noise(rng, version));
        w.calls("pf");
    }
}

/// A plan damaged at each row, and at each two rows.
fn damaged_plans(w: &mut Writer, rng: &mut Rng) {
    w.title("generated plans, damaged at one row and at two");
    w.lend(40);
    for _ in 0..4 {
        let good = draft(rng, SMALL).bytes();
        damaged_at(w, rng, &good, &[1, 2, 3, 4, 5, 6, 7, 8, 9, 10, 11]);
    }
    w.title("generated plans: blocks of rows 8 and 9 in both orders, rows 10 and 11");
    for _ in 0..15 {
        for draft in at_fault(rng, SMALL, false) {
            refused_plan(w, &draft.bytes());
        }
    }
    w.title("random bytes");
    random_bytes(w, rng, 1, 40);
}

/// Damaged placements of one plan: every set of the rows 13 to 16, and 18, that can be broken, and too few words.
fn damaged_words(w: &mut Writer, rng: &mut Rng, plan: &Plan, sets: &[usize]) {
    for set in sets {
        let rows = [0, 1, 2, 3, 4].map(|r| set >> r & 1 == 1);
        let Some(words) = broken(rng, plan, rows) else {
            continue;
        };
        w.words(&words);
        w.calls(rng.one_of(&["k", "kr", "ks", "krs"]));
        w.run(rng.one_of(&[0, 1, 5]));
        w.lend(words.len() - 1);
        w.calls(rng.one_of(&["k", "r", "s"]));
    }
}

/// A list of calls on one placement, with refused ones in between.
fn call_list(w: &mut Writer, rng: &mut Rng, draft: &Draft) {
    let bytes = draft.bytes();
    let number = draft.records.len();
    for _ in 0..rng.from_to(2, 9) {
        match rng.below(7) {
            0 => w.calls("k"),
            1 => w.calls("s"),
            2 => w.run(rng.below(4) as u32),
            3 => w.calls("r"),
            4 => {
                w.plan(&flawed_surely(rng, &bytes));
                w.calls(rng.one_of(&["s", "f", "k", "r"]));
                w.run(2);
                w.plan(&bytes);
            }
            5 if number > 0 => {
                w.lend(rng.below(number as u64) as usize);
                w.calls(rng.one_of(&["s", "f", "k", "r"]));
                w.run(2);
                w.lend(number);
            }
            _ => w.calls("ss"),
        }
    }
}

/// Other bytes that are refused: a flaw of rows 1 to 7, in version 4 of row 22 too.
fn flawed_surely(rng: &mut Rng, bytes: &[u8]) -> Vec<u8> {
    let rows = match bytes[4] {
        4 => &PLAN_ROWS[..8],
        _ => &ROWS_BEFORE_FEEDS[..7],
    };
    let row = rng.one_of(rows);
    let other = flawed(rng, bytes.to_vec(), row);
    assert!(read(&other).is_err());
    other
}

/// One generated plan, from its judgement to rest.
fn visit(w: &mut Writer, rng: &mut Rng, draft: &Draft, sets: &[usize]) {
    let plan = draft.plan().expect("an accepted plan");
    let number = draft.records.len();
    plan_calls(w, draft);
    w.run(0);
    call_list(w, rng, draft);
    w.run(u32::MAX);
    w.calls("rs");
    w.words(&leaning(rng, &plan));
    w.lend(number + rng.below(9) as usize);
    w.calls("ks");
    w.run(1);
    w.run(rng.below(20) as u32);
    w.calls("r");
    w.run(u32::MAX);
    w.calls("rs");
    damaged_words(w, rng, &plan, sets);
}

/// Generated plans that the checks accept.
fn accepted_plans(w: &mut Writer, rng: &mut Rng) {
    for (title, size, number) in [
        (
            "generated plans of at most 6 machines and 7 blocks",
            TINY,
            200,
        ),
        (
            "generated plans of at most 12 machines and 20 blocks",
            SMALL,
            200,
        ),
        (
            "generated plans of at most 64 machines and 40 blocks",
            MEDIUM,
            90,
        ),
    ] {
        w.title(title);
        for k in 0..number {
            let draft = if k % 6 == 5 {
                filled(rng, size)
            } else {
                draft(rng, size)
            };
            let all: Vec<usize> = (1..16).collect();
            let some = rng.below(12) as usize;
            visit(w, rng, &draft, &all[some..some + 3]);
        }
    }
}

/// Single steps from a leaning placement, some of them after the first ones are done.
fn single_steps(w: &mut Writer, rng: &mut Rng) {
    w.title("single steps, one machine to a rack");
    for _ in 0..40 {
        let (racks, number) = (rng.from_to(2, 10) as u8, rng.from_to(3, 20));
        let draft = sized(rng, SMALL, racks, 1, number);
        one_by_one(w, rng, &draft, 0);
    }
    w.title("single steps, several racks of several machines");
    for _ in 0..60 {
        let (racks, per_rack) = rng.one_of(&[(2, 2), (2, 3), (3, 2), (5, 2), (2, 6), (3, 4)]);
        let number = rng.from_to(6, 24);
        let draft = sized(rng, SMALL, racks, per_rack, number);
        let before = rng.below(40) as u32;
        one_by_one(w, rng, &draft, before);
    }
}

/// A run of some steps, then single ones, then the rest.
fn one_by_one(w: &mut Writer, rng: &mut Rng, draft: &Draft, before: u32) {
    w.plan(&draft.bytes());
    w.words(&leaning(rng, &draft.plan().expect("an accepted plan")));
    w.run(before);
    w.calls("ssssssss");
    w.run(u32::MAX);
    w.calls("r");
}

/// Damaged placements in every way, on plans with several racks and tight machines.
fn damaged_placements(w: &mut Writer, rng: &mut Rng) {
    w.title("generated placements that break one or more of rows 13 to 16");
    let all: Vec<usize> = (1..16).collect();
    for k in 0..40 {
        let (racks, per_rack) = rng.one_of(&[(2, 3), (3, 3), (2, 8), (4, 3)]);
        let number = 6 + k % 6;
        let draft = sized(rng, SMALL, racks, per_rack, number);
        let plan = draft.plan().expect("an accepted plan");
        w.plan(&draft.bytes());
        damaged_words(w, rng, &plan, &all);
    }
}

/// The largest plans, with a few steps.
fn large_plans(w: &mut Writer, rng: &mut Rng) {
    w.title("plans of 64 machines and 1024 blocks");
    for (racks, per_rack) in [(8, 8), (1, 64), (64, 1), (4, 16), (2, 32)] {
        let draft = sized(rng, LARGE, racks, per_rack, 1024);
        let plan = draft.plan().expect("an accepted plan");
        plan_calls(w, &draft);
        w.calls("ss");
        w.run(200);
        w.calls("r");
        w.words(&leaning(rng, &plan));
        w.calls("krs");
        w.run(5);
        w.lend(1023);
        w.calls("fkrs");
        let set = rng.one_of(&[2, 4, 8, 12]);
        damaged_words(w, rng, &plan, &[set]);
    }
    w.title("1024 blocks with fine popularities, on 64 machines, two and one");
    let fine = Size {
        coarse: false,
        ..LARGE
    };
    for (racks, per_rack) in [(8, 8), (2, 1), (1, 1)] {
        let mut draft = sized(rng, fine, racks, per_rack, 1024);
        for record in &mut draft.records {
            record.popularity = 0xFF_FFFF - rng.below(1 << 20) as u32;
        }
        plan_calls(w, &draft);
        w.calls("s");
        w.run(100);
        w.calls("r");
    }
}

/// The whole stream.
pub fn stream() -> Vec<u8> {
    let mut w = Writer::default();
    let mut rng = Rng::new(1);
    w.lend(0);
    named_plans(&mut w);
    widest_plans(&mut w);
    limits_of_records(&mut w);
    named_placements(&mut w);
    refused_examples(&mut w);
    refused_placements(&mut w);
    pattern(&mut w, &mut rng);
    damaged_plans(&mut w, &mut rng);
    accepted_plans(&mut w, &mut rng);
    single_steps(&mut w, &mut rng);
    damaged_placements(&mut w, &mut rng);
    large_plans(&mut w, &mut rng);
    pairs::all(&mut w, &mut Rng::new(2));
    reads::all(&mut w, &mut Rng::new(3));
    wide::all(&mut w, &mut Rng::new(4));
    conversions::all(&mut w, &mut Rng::new(5));
    copies::all(&mut w, &mut Rng::new(6));
    feeds::all(&mut w, &mut Rng::new(7));
    budgets::all(&mut w, &mut Rng::new(8));
    w.calls("E");
    w.bytes
}
