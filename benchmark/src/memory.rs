//! Peak memory, read from the system.

use crate::machine::line_of;
use crate::plans::{Size, LARGEST};
use crate::reads::{full_list, tick_that_drops, Call};
use crate::sides::{Side, LIBRARY, SIDES};
use crate::table::Table;
use crate::timing::shown;
use std::io::{Read, Write};
use std::process::{Child, Command, Stdio};
use std::time::{Duration, Instant};

/// Steps of the run whose memory is read.
const STEPS: u32 = 60;

/// The stack of the thread on which the library is tried.
const STACK: usize = 256 * 1024;

/// The program, built by scripts/benchmark.
const PROGRAM: &str = "target/bin/place";

/// The peak memory of a process, as the system tells it.
fn peak_of(process: &str) -> Option<String> {
    line_of(&format!("/proc/{process}/status"), "VmHWM")
}

fn plan() -> Vec<u8> {
    let size = Size {
        mixed: true,
        ..LARGEST
    };
    size.fine()
}

/// In a process of its own: one listing on the named side, or nothing at all; prints the peak memory.
pub fn child(name: &str) {
    let bytes = plan();
    if let Some(side) = SIDES.into_iter().find(|side| side.name == name) {
        let text = (side.listing)(&bytes, STEPS);
        assert!(
            text.contains(&format!("spent {STEPS} ")),
            "{name}: the run is not as long as it should be"
        );
    }
    println!(
        "{}",
        peak_of("self").unwrap_or_else(|| "unknown".to_string())
    );
}

/// The peak memory of a child process for the named side.
fn of_child(name: &str) -> String {
    let program = std::env::current_exe().expect("this program has a path");
    let output = Command::new(program)
        .args(["memory", name])
        .output()
        .expect("this program starts");
    assert!(
        output.status.success(),
        "memory {name}: {}",
        String::from_utf8_lossy(&output.stderr)
    );
    String::from_utf8_lossy(&output.stdout).trim().to_string()
}

/// Starts the program and hands it the plan.
fn started(bytes: &[u8]) -> Child {
    let mut command = Command::new(PROGRAM);
    let mut child = command
        .stdin(Stdio::piped())
        .stdout(Stdio::piped())
        .spawn()
        .expect("the program starts");
    child
        .stdin
        .take()
        .expect("its input is ours")
        .write_all(bytes)
        .expect("it reads the plan");
    child
}

/// The peak memory and the seconds of the program on the largest plan; its listing has to be the library's.
fn of_program() -> (String, f64) {
    let bytes = plan();
    let start = Instant::now();
    let mut child = started(&bytes);
    let mut peak = None;
    while child.try_wait().expect("the program is ours").is_none() {
        peak = peak_of(&child.id().to_string()).or(peak);
        std::thread::sleep(Duration::from_millis(2));
    }
    let seconds = start.elapsed().as_secs_f64();
    let mut text = String::new();
    child
        .stdout
        .take()
        .expect("its output is ours")
        .read_to_string(&mut text)
        .expect("a listing is text");
    assert!(
        text == (LIBRARY.listing)(&bytes, 100_000),
        "the program's listing is not the library's"
    );
    (peak.unwrap_or_else(|| "unknown".to_string()), seconds)
}

/// Every call of the library on a thread with a small stack; an overflow would end the whole program.
fn on_small_stack() {
    let calls = |side: Side| {
        let bytes = plan();
        let mut words = vec![0; 1024];
        (side.counts)(&bytes, &mut [0; 1024]).expect("an accepted plan");
        (side.first)(&bytes, &mut words).expect("an accepted plan");
        (side.run)(&bytes, &mut words, STEPS).expect("words of this plan");
        (side.step)(&bytes, &mut words).expect("words of this plan");
        (side.report)(&bytes, &words).expect("words of this plan");
        let read = Call {
            bytes: &bytes,
            block: 0,
            tick: tick_that_drops(1),
            list: &full_list(LARGEST.blocks),
        };
        (side.read)(&read);
        (side.popularity)(&read);
        (side.convert)(&bytes, &mut [0; 7183]).expect("an accepted plan");
        (side.listing)(&bytes, STEPS)
    };
    let thread = std::thread::Builder::new().stack_size(STACK);
    thread
        .spawn(move || calls(LIBRARY))
        .expect("a thread starts")
        .join()
        .expect("the calls return");
}

/// The peak memory of all sides, and of the program where it is wanted.
pub fn memory(program: bool) {
    println!("## Memory\n");
    println!("Peak resident memory (VmHWM) of a process that makes one listing of the largest plan, spreads mixed, with {STEPS}");
    println!("steps, on one side alone; \"nothing\" makes the plan only.\n");
    let mut table = Table::new(&["process", "peak memory"]);
    for name in ["nothing", "reference", "optimised", "library"] {
        table.row([name.to_string(), of_child(name)]);
    }
    if program {
        let (peak, seconds) = of_program();
        table.row([
            format!("{PROGRAM}, 100,000 steps in {}", shown(seconds)),
            peak,
        ]);
    }
    table.row([
        "this whole benchmark".to_string(),
        peak_of("self").unwrap_or_default(),
    ]);
    table.print();
    on_small_stack();
    println!("The library takes no memory from the heap; its calls were also made on a thread with a stack of {} KiB.", STACK / 1024);
}
