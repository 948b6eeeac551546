//! Running a program on a file: its time, and the most memory that it had.

use std::fs::{read_to_string, File};
use std::io::Read;
use std::path::Path;
use std::process::{Command, Stdio};
use std::time::Instant;

fn command(program: &str, input: &Path) -> Command {
    let mut command = Command::new(program);
    command.stdin(File::open(input).expect("the input"));
    command
}

/// The time of one run, from its start to its end, in seconds.
pub fn seconds(program: &str, input: &Path) -> f64 {
    let mut command = command(program, input);
    command.stdout(Stdio::null());
    let start = Instant::now();
    let status = command.status().expect("the program starts");
    let seconds = start.elapsed().as_secs_f64();
    assert!(status.success(), "{program} failed");
    seconds
}

/// The most memory of one run, in KiB: the largest resident size so far, VmHWM
/// in Linux's account of the running process. It is looked up whenever a piece
/// of the output has been taken, while the program waits to write the rest: its
/// output has to be larger than a pipe, 64 KiB.
///
/// What `wait4` says of an ended process (`ru_maxrss`) would not do. It begins
/// with what the process had before it became the program, here all of this one,
/// and it is coarser by a hundred KiB and more.
pub fn kibibytes(program: &str, input: &Path) -> f64 {
    let mut command = command(program, input);
    command.stdout(Stdio::piped());
    let mut child = command.spawn().expect("the program starts");
    let mut output = child.stdout.take().expect("it is piped");
    let mut piece = [0; 4096];
    let mut largest = None;
    while output.read(&mut piece).expect("its output") > 0 {
        largest = high_water(child.id()).or(largest);
    }
    assert!(child.wait().expect("it ends").success(), "{program} failed");
    largest.expect("an output larger than a pipe")
}

/// The line VmHWM of a process, which is not there once it has ended.
fn high_water(process: u32) -> Option<f64> {
    let status = read_to_string(format!("/proc/{process}/status")).ok()?;
    let line = status.lines().find_map(|l| l.strip_prefix("VmHWM:"))?;
    line.split_whitespace().next()?.parse().ok()
}
