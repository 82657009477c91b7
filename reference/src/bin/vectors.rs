//! Writes the stored trials and examples into a folder: trials.stdin, trials.stdout, examples/*.plan, examples/*.listing.

use placement_reference::convert::converted;
use placement_reference::gen::{patient, sized, Draft, Rng, SMALL};
use placement_reference::listing::{text, STEP_BUDGET};
use placement_reference::samples::{
    calibration, empty, feeds, h_budget, over_places, video, y, H, H_4,
};
use placement_reference::stream::replay;
use placement_reference::trials::stream;
use std::fs::{create_dir_all, write};
use std::io::Result;
use std::path::Path;

/// Twelve machines in four racks and forty blocks with mixed spreads, some of them popular.
fn mixed() -> Draft {
    let mut rng = Rng::new(40);
    let mut draft = sized(&mut rng, SMALL, 4, 3, 40);
    for (i, record) in draft.records.iter_mut().enumerate() {
        record.popularity = 900 / (i as u32 + 1) + rng.below(30) as u32;
        record.least = 1 + (i % 4) as u8;
        record.spread = 1 + rng.below(u64::from(record.least)) as u8;
    }
    draft.capacity = 13;
    draft.budget = 140;
    draft
}

/// The same machines in version 2: first runs with their repeat runs, and blocks of one run alone between them.
fn pairs() -> Draft {
    let mut draft = mixed().coupled(40);
    for (i, record) in draft.records.iter_mut().enumerate() {
        if i % 10 >= 6 {
            record.popularity += 5 * i as u32;
            record.pair = 0;
        }
    }
    draft
}

/// A plan of version 1 or 2 as the converter writes it.
fn in_version_3(bytes: &[u8]) -> Vec<u8> {
    converted(bytes).expect("an accepted plan")
}

/// The plan of four places with a budget of nine in version 4, which row 23 refuses.
fn over_places_in_version_4() -> Draft {
    let budget = over_places().budget;
    over_places().fed(2).with_budget(budget)
}

/// The example plans with their names.
fn examples() -> Vec<(&'static str, Vec<u8>)> {
    vec![
        ("h", H.to_vec()),
        ("h-3", in_version_3(&H)),
        ("y", y().bytes()),
        ("empty", empty().bytes()),
        ("refused", h_budget(3).bytes()),
        ("mixed", mixed().bytes()),
        ("pairs", pairs().bytes()),
        ("pairs-3", in_version_3(&pairs().bytes())),
        ("calibration", calibration().bytes()),
        ("calibration-3", in_version_3(&calibration().bytes())),
        ("wide", video().bytes()),
        ("h-4", H_4.to_vec()),
        ("feeds", feeds().bytes()),
        ("budget", over_places().wide().bytes()),
        ("budget-refused", over_places_in_version_4().bytes()),
        // It needs 100,036 steps to rest, so the program's budget ends a little before.
        ("spent", patient(&mut Rng::new(0)).bytes()),
    ]
}

fn main() -> Result<()> {
    let folder = std::env::args().nth(1).expect("usage: vectors FOLDER");
    let folder = Path::new(&folder);
    let examples_folder = folder.join("examples");
    create_dir_all(&examples_folder)?;
    let stream = stream();
    write(folder.join("trials.stdin"), &stream)?;
    write(folder.join("trials.stdout"), replay(&stream))?;
    for (name, bytes) in examples() {
        write(examples_folder.join(format!("{name}.plan")), &bytes)?;
        let listing = text(&bytes, STEP_BUDGET);
        write(examples_folder.join(format!("{name}.listing")), listing)?;
    }
    Ok(())
}
