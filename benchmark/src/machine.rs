//! Where and of what the figures are.

use std::fs::read_to_string;
use std::process::Command;

/// The value behind a name in a file of lines `name: value`.
pub fn line_of(path: &str, name: &str) -> Option<String> {
    let text = read_to_string(path).ok()?;
    let line = text.lines().find(|line| line.starts_with(name))?;
    Some(line.split_once(':')?.1.trim().to_string())
}

/// What a command prints.
fn output(command: &str, arguments: &[&str]) -> Option<String> {
    let output = Command::new(command).args(arguments).output().ok()?;
    let text = String::from_utf8(output.stdout).ok()?;
    output.status.success().then(|| text.trim().to_string())
}

/// The commit, and whether sources differ from it.
fn commit() -> Option<String> {
    let commit = output("git", &["rev-parse", "--short", "HEAD"])?;
    let changes = output("git", &["status", "--porcelain", "--untracked-files=no"])?;
    Some(if changes.is_empty() {
        commit
    } else {
        commit + " with changes"
    })
}

/// The load averages over 1, 5 and 15 minutes.
pub fn load_average() -> String {
    let text = read_to_string("/proc/loadavg").unwrap_or_default();
    text.split(' ').take(3).collect::<Vec<_>>().join(" ")
}

/// Prints the machine, the compiler and the commit.
pub fn print() {
    let unknown = || "unknown".to_string();
    let cores = std::thread::available_parallelism().map_or(0, usize::from);
    let processor = line_of("/proc/cpuinfo", "model name").unwrap_or_else(unknown);
    println!(
        "- Machine: {processor}, {cores} cores; load average at the start: {}",
        load_average()
    );
    println!(
        "- Compiler: {}",
        output("rustc", &["-V"]).unwrap_or_else(unknown)
    );
    println!("- Commit: {}", commit().unwrap_or_else(unknown));
}
