//! Plays a stream of trials and compares what it prints with what is stored: replay STDIN STDOUT. At the first line that
//! differs it says so and ends with status 1. Without STDOUT it writes what it prints.

use placement_reference::stream::{play, replay};
use std::fs::{read, read_to_string};
use std::io::Result;
use std::process::exit;

/// Says what differs, and stops.
fn differ(line: usize, printed: &str, stored: &str) {
    println!("line {line}: {printed}, stored is {stored}");
    exit(1)
}

fn main() -> Result<()> {
    let paths: Vec<String> = std::env::args().skip(1).collect();
    let (stream, stored) = match &paths[..] {
        [stream, stored] => (stream, read_to_string(stored)?),
        [stream] => {
            print!("{}", replay(&read(stream)?));
            return Ok(());
        }
        _ => {
            eprintln!("usage: replay STDIN [STDOUT]");
            exit(2);
        }
    };
    let mut lines = stored.lines();
    let mut count = 0;
    // A record prints one line or none.
    play(&read(stream)?, |text| {
        if let Some(line) = text.strip_suffix('\n') {
            count += 1;
            let wanted = lines.next().unwrap_or("the end");
            if line != wanted {
                differ(count, line, wanted);
            }
        }
    });
    if let Some(wanted) = lines.next() {
        differ(count + 1, "the end", wanted);
    }
    Ok(())
}
