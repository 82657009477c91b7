//! Compares two programs with the reference: fuzz PLACE CONVERT [COUNT] [SEED]. Each plan is given to both on standard
//! input. What the first prints is compared with the reference's listing, what the second writes with the plan as
//! version 3; and the first has to print the same listing for that, where there are more than 8 machines the reference's
//! listing of it. The largest plans and inputs longer than any plan come first, then COUNT random plans.

use placement_reference::convert::converted;
use placement_reference::damage::*;
use placement_reference::gen::*;
use placement_reference::listing::{listed, text, Verdict, STEP_BUDGET};
use placement_reference::plan::{most_copies, read};
use placement_reference::samples::*;
use placement_reference::steps::End;
use std::io::{Result, Write};
use std::process::{exit, Command, Stdio};

/// What a program writes on standard output and on standard error.
#[derive(PartialEq, Eq)]
struct Said {
    output: Vec<u8>,
    error: Vec<u8>,
}

impl Said {
    /// This on standard output alone.
    fn output(output: Vec<u8>) -> Said {
        let error = Vec::new();
        Said { output, error }
    }

    /// The refusal on standard error alone.
    fn refused(row: u8) -> Said {
        Said {
            output: Vec::new(),
            error: format!("refused {row}\n").into_bytes(),
        }
    }

    /// Both in letters, other bytes as numbers.
    fn text(&self) -> String {
        let text = |bytes: &[u8]| bytes.escape_ascii().to_string().replace("\\n", "\n");
        let (output, error) = (text(&self.output), text(&self.error));
        format!("{output}\n-- and on standard error:\n{error}")
    }
}

/// What the program writes for these bytes.
fn said(program: &str, bytes: &[u8]) -> Result<Said> {
    let mut child = Command::new(program)
        .stdin(Stdio::piped())
        .stdout(Stdio::piped())
        .stderr(Stdio::piped())
        .spawn()?;
    // A program may stop reading once it knows its answer: a closed pipe is no fault.
    let _ = child.stdin.take().expect("piped").write_all(bytes);
    let output = child.wait_with_output()?;
    Ok(Said {
        output: output.stdout,
        error: output.stderr,
    })
}

/// An input with its name.
type Named = (&'static str, Vec<u8>);

/// The first of these plans' version with the fields and the length of the second.
fn relabelled(version: &[u8], plan: &[u8]) -> Vec<u8> {
    [&version[..5], &plan[5..]].concat()
}

/// Plan H with a budget of all places and of one more, in versions 1, 3 and 4, and with the largest.
fn budgets() -> Vec<Named> {
    vec![
        ("budget-above-the-places", h_budget(13).bytes()),
        ("budget-above-in-version-3", h_budget(13).wide().bytes()),
        ("budget-of-all-places", h().fed(2).with_budget(12).bytes()),
        ("one-above-the-places", h().fed(2).with_budget(13).bytes()),
        ("largest-budget", h().fed(2).with_budget(u32::MAX).bytes()),
        (
            "three-feeds-and-the-largest-budget",
            h().fed(3).with_budget(u32::MAX).bytes(),
        ),
    ]
}

/// Small plans of versions 3 and 4, one that gets more copies there, each version in the length of another, and files of
/// version 4 in 15 and 16 bytes.
fn versions() -> Vec<Named> {
    vec![
        ("h-in-version-3", H_3.to_vec()),
        ("k-in-version-3", K_3.to_vec()),
        ("video", video().bytes()),
        ("calibration", calibration().bytes()),
        ("version-2-in-the-length-of-1", relabelled(&K, &H)),
        ("version-3-in-the-length-of-1", relabelled(&K_3, &H)),
        ("version-3-in-the-length-of-2", relabelled(&K_3, &K)),
        ("version-1-in-the-length-of-3", relabelled(&H, &H_3)),
        ("version-2-in-the-length-of-3", relabelled(&K, &K_3)),
        ("h-in-version-4", H_4.to_vec()),
        ("k-in-version-4", K_4.to_vec()),
        ("two-feeds", two_feeds().bytes()),
        ("one-feed", empty().fed(1).bytes()),
        ("no-feed", h().fed(0).bytes()),
        ("three-feeds-for-two-racks", h().fed(3).bytes()),
        ("spread-above-the-feeds", h().fed(1).bytes()),
        ("version-4-in-15-bytes", H_4[..15].to_vec()),
        ("more-blocks-in-15-bytes", [&H_4[..14], &[255]].concat()),
        ("version-4-in-the-length-of-1", relabelled(&H_4, &H)),
        ("version-4-in-the-length-of-3", relabelled(&H_4, &H_3)),
        ("version-3-in-the-length-of-4", relabelled(&H_3, &H_4)),
    ]
}

/// The largest plan of a version with a wrong length, up to one longer than any plan.
fn wrong_lengths(largest: &[u8], garbage: &[u8]) -> [Named; 4] {
    let longer = |more: &[u8]| [largest, more].concat();
    [
        ("one-byte-behind-the-largest", longer(&[0])),
        ("garbage-behind-the-largest", longer(garbage)),
        ("one-byte-less", largest[..largest.len() - 1].to_vec()),
        ("70000-bytes", longer(&vec![0; 70_000 - largest.len()])),
    ]
}

/// Inputs that are tried whatever the seed. The largest plan with pairs is tried in version 3 as its conversion, and in
/// version 4 with two racks on each feed.
fn named() -> Vec<Named> {
    let rng = &mut Rng::new(1024);
    let draft = largest(rng);
    let paired = draft.coupled(1024);
    let garbage: Vec<u8> = (0..8000).map(|_| rng.below(256) as u8).collect();
    let refused = relabelled(&[0x42, 0x50, 0x4C, 0, 5], &H);
    let pairs_listed = long_listing().coupled(1024);
    let ten_of_pairs = largest_grown().coupled(1024);
    let mut inputs = vec![
        ("long-listing", long_listing().bytes()),
        ("long-listing-of-pairs", pairs_listed.bytes()),
        ("largest-popularities", largest_wide().bytes()),
        ("ten-copies-of-pairs", ten_of_pairs.bytes()),
        ("largest-on-feeds", largest_fed().bytes()),
        ("largest", draft.bytes()),
        ("largest-of-pairs", paired.bytes()),
        ("largest-of-pairs-on-feeds", paired.fed(4).bytes()),
        ("garbage-behind-a-plan", [&H[..], &garbage].concat()),
        (
            "garbage-behind-a-refused-header",
            [&refused[..], &garbage].concat(),
        ),
    ];
    inputs.extend(versions());
    inputs.extend(budgets());
    for draft in [&draft, &paired, &paired.wide(), &paired.fed(8)] {
        inputs.extend(wrong_lengths(&draft.bytes(), &garbage));
    }
    inputs
}

/// A plan that row 17 refuses, perhaps with a flaw of rows 8 to 11 or 23 beside it.
fn wrongly_paired(rng: &mut Rng, size: Size) -> Option<Draft> {
    let how = rng.one_of(&MISPAIRINGS);
    let alone = mispaired(rng, size, how)?;
    Some(match rng.below(8) {
        row @ (0 | 1) => with_block_flaw(rng, alone, 8 + row as u8),
        row @ (2 | 3) => with_sum_flaw(rng, alone, 8 + row as u8),
        4 => with_sum_flaw(rng, alone, 23),
        _ => alone,
    })
}

/// A plan that some check refuses, or nearly so.
fn damaged(rng: &mut Rng, size: Size) -> Vec<u8> {
    let draft = match rng.below(10) {
        0 => two_records(rng, size, true),
        1 => two_records(rng, size, false),
        2 => over_budget(rng, size),
        3 => Some(over_capacity(rng, size)),
        4 => over_feeds(rng, size),
        5 if size.version >= 2 => wrongly_paired(rng, size),
        6 => Some(near_places(rng, size)),
        7 => Some(over_both(rng, size)),
        _ => None,
    };
    let bytes = draft.unwrap_or_else(|| placement_reference::gen::draft(rng, size));
    let mut bytes = bytes.bytes();
    if rng.once_in(2) {
        let row = match size.version {
            4 if rng.once_in(4) => 22,
            version => any_row(rng, version),
        };
        bytes = flawed(rng, bytes, row);
    }
    if size.version == 4 && bytes.len() > 15 && rng.once_in(8) {
        bytes = cut_short(rng, bytes);
    }
    bytes
}

/// The input of one trial, of any version.
fn input(rng: &mut Rng) -> Vec<u8> {
    let version = rng.from_to(1, 4) as u16;
    let of = |size: Size| Size { version, ..size };
    match rng.below(200) {
        0 => {
            let draft = coarse(rng);
            in_version(rng, draft, version).bytes()
        }
        1..=3 => too_long(rng),
        4..=13 => noise(rng, version as u8),
        14..=49 => damaged(rng, of(SMALL)),
        50..=69 => draft(rng, of(MEDIUM)).bytes(),
        70..=84 => filled(rng, of(SMALL)).bytes(),
        85..=89 => near_places(rng, of(SMALL)).bytes(),
        90..=129 => draft(rng, of(TINY)).bytes(),
        _ => draft(rng, of(SMALL)).bytes(),
    }
}

/// The plan in this version, from version 2 on with pairs back to back, in version 4 on so many feeds as its spreads allow.
fn in_version(rng: &mut Rng, draft: Draft, version: u16) -> Draft {
    let spread = draft.records.iter().map(|r| r.spread).max().unwrap_or(1);
    let feeds = divisors(draft.racks).into_iter();
    let feeds: Vec<u8> = feeds.filter(|feeds| *feeds >= spread).collect();
    let paired = if draft.machines() < 2 {
        draft.unpaired()
    } else {
        draft.coupled(draft.records.len())
    };
    match version {
        1 => draft,
        2 => paired,
        3 => paired.wide(),
        _ => paired.fed(rng.one_of(&feeds)),
    }
}

/// How many trials ended in which way.
#[derive(Default)]
struct Tally {
    refused: [u64; 24],
    rest: u64,
    spent: u64,
    converted: u64,
}

impl Tally {
    fn add(&mut self, verdict: Verdict, converted: bool) {
        self.converted += u64::from(converted);
        match verdict {
            Verdict::Refused(row) => self.refused[usize::from(row)] += 1,
            Verdict::Ended(End::Rest) => self.rest += 1,
            Verdict::Ended(End::Spent) => self.spent += 1,
        }
    }

    fn text(&self) -> String {
        let refused: Vec<String> = PLAN_ROWS
            .into_iter()
            .map(|row| format!("{row}:{}", self.refused[usize::from(row)]))
            .collect();
        format!(
            "accepted {} (at rest {}, spent {}), of them converted {}, refused {}",
            self.rest + self.spent,
            self.rest,
            self.spent,
            self.converted,
            refused.join(" ")
        )
    }
}

/// Gives the input to a program. Where it writes something else than is wanted, saves the input, says so, and stops.
fn demand(program: &str, name: &str, bytes: &[u8], wanted: &Said) -> Result<()> {
    let said = said(program, bytes)?;
    if said == *wanted {
        return Ok(());
    }
    let path = std::env::temp_dir().join(format!("fuzz-{name}.plan"));
    std::fs::write(&path, bytes)?;
    println!(
        "fuzz: {name}: {program} differs; the plan is in {}",
        path.display()
    );
    println!("-- the reference writes:\n{}", wanted.text());
    println!("-- the program writes:\n{}", said.text());
    exit(1)
}

/// The listing of a plan's conversion: that of the plan, unless there are machines for more copies than its version has.
fn listing_of_converted(plan: &[u8], result: &[u8], listing: Said) -> Said {
    let machines = read(plan).map_or(0, |plan| plan.machines());
    if machines <= most_copies(2) {
        listing
    } else {
        Said::output(text(result, STEP_BUDGET).into_bytes())
    }
}

/// The two programs.
struct Programs {
    place: String,
    convert: String,
}

impl Programs {
    /// Compares both with the reference on one input.
    fn compare(&self, tally: &mut Tally, name: &str, bytes: &[u8]) -> Result<()> {
        let (verdict, text) = listed(bytes, STEP_BUDGET);
        let listing = Said::output(text.into_bytes());
        demand(&self.place, name, bytes, &listing)?;
        let conversion = converted(bytes);
        tally.add(verdict, conversion.is_ok());
        match conversion {
            Err(row) => demand(&self.convert, name, bytes, &Said::refused(row)),
            Ok(result) => {
                demand(&self.convert, name, bytes, &Said::output(result.clone()))?;
                let listing = listing_of_converted(bytes, &result, listing);
                demand(&self.place, &format!("{name}-converted"), &result, &listing)
            }
        }
    }
}

/// The argument at `at` as a number, or `otherwise`.
fn number(at: usize, otherwise: u64) -> u64 {
    let argument = std::env::args().nth(at);
    argument.map_or(otherwise, |a| {
        a.parse().expect("COUNT and SEED are numbers")
    })
}

/// The argument at `at`, the path of a program.
fn path(at: usize) -> String {
    let argument = std::env::args().nth(at);
    argument.expect("usage: fuzz PLACE CONVERT [COUNT] [SEED]")
}

fn main() -> Result<()> {
    let programs = Programs {
        place: path(1),
        convert: path(2),
    };
    let (count, seed) = (number(3, 3000), number(4, 1));
    let mut tally = Tally::default();
    for (name, bytes) in named() {
        programs.compare(&mut tally, name, &bytes)?;
    }
    for k in 0..count {
        let mut rng = Rng::new(seed.wrapping_mul(1 << 32).wrapping_add(k));
        let bytes = if k % 3000 == 2999 {
            let version = rng.from_to(1, 4) as u16;
            let draft = patient(&mut rng);
            in_version(&mut rng, draft, version).bytes()
        } else {
            input(&mut rng)
        };
        programs.compare(&mut tally, &format!("seed-{seed}-plan-{k}"), &bytes)?;
    }
    println!(
        "fuzz: seed {seed}, {} named inputs and {count} random ones, no difference: {}",
        named().len(),
        tally.text()
    );
    Ok(())
}
