//! Instructions counted by valgrind's callgrind, where it is there.

use std::env;
use std::process::{Command, Stdio};

/// The one function whose instructions are counted.
#[no_mangle]
#[inline(never)]
pub fn compare_counted(work: &mut dyn FnMut()) {
    work();
}

/// What the hidden command is called that does one piece of work once.
pub const ONCE: &str = "bench-once";

/// The valgrind that is used, if there is one.
pub fn version() -> Option<String> {
    let output = Command::new("valgrind").arg("--version").output().ok()?;
    Some(String::from_utf8_lossy(&output.stdout).trim().to_string())
}

/// The instructions of one piece of work on one side.
pub fn instructions(model: bool, pair: usize, side: &str) -> Option<u64> {
    let mut command = Command::new("valgrind");
    command.args([
        "--tool=callgrind",
        "--callgrind-out-file=/dev/null",
        "--collect-atstart=no",
        "--toggle-collect=compare_counted",
    ]);
    command.arg(env::current_exe().ok()?);
    if model {
        command.arg("--model");
    }
    let output = command
        .args([ONCE, &pair.to_string(), side])
        .stdout(Stdio::null())
        .stderr(Stdio::piped())
        .output()
        .ok()?;
    let said = String::from_utf8_lossy(&output.stderr).to_string();
    let line = said.lines().find(|l| l.contains("Collected :"))?;
    line.rsplit(' ').next()?.trim().parse().ok()
}
