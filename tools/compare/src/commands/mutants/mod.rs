//! `mutants` and `wrong`: the tool tried on wrong libraries. `exhaust 3`, `scalars` or 60 seconds of `fuzz` must notice each.

mod library;
mod model;
mod rules;

use std::fs;
use std::path::{Path, PathBuf};
use std::process::{Child, Command, Stdio};
use std::time::{Duration, Instant};

pub use library::of_library;
pub use model::of_model;

/// The trials that a wrong library has to be noticed by one of.
const TRIALS: [&[&str]; 3] = [&["exhaust", "3"], &["scalars"], &["fuzz", "60", "1"]];

/// How long a trial may take before it is said not to end.
const PATIENCE: Duration = Duration::from_secs(180);

/// The tool's own folder.
fn tool() -> &'static Path {
    Path::new(env!("CARGO_MANIFEST_DIR"))
}

/// Where wrong libraries are made.
fn work() -> PathBuf {
    tool().join("target/mutants")
}

/// Says which file could not be read or written.
fn about(file: &Path) -> impl Fn(std::io::Error) -> String + '_ {
    move |e| format!("{}: {e}", file.display())
}

/// Builds the tool anew, with settings in its environment. Answers the program.
fn build(settings: &[(&str, &Path)]) -> Result<PathBuf, String> {
    let built = Command::new("cargo")
        .args(["build", "--profile", "mutant", "--offline", "--quiet"])
        .current_dir(tool())
        .env("CARGO_TARGET_DIR", work())
        .envs(settings.iter().copied())
        .status()
        .map_err(|e| format!("cargo: {e}"))?;
    if !built.success() {
        return Err("the tool does not build with a wrong library".into());
    }
    Ok(work().join("mutant/compare"))
}

/// A text with an edit, which must fit exactly once.
fn edited(text: &str, old: &str, new: &str) -> Option<String> {
    (text.matches(old).count() == 1).then(|| text.replacen(old, new, 1))
}

/// The first trial that notices a wrong library, how long it took, and the call that shows it.
fn noticed(command: impl Fn() -> Command) -> Result<Option<String>, String> {
    for trial in TRIALS {
        let start = Instant::now();
        let mut command = command();
        // one thread, so that the calls up to the first difference are the same each time
        command.args(["--first", "--jobs", "1"]).args(trial);
        let child = command.stdout(Stdio::piped()).stderr(Stdio::null()).spawn();
        let ended = wait(child.map_err(|e| format!("the tool: {e}"))?)?;
        let took = format!(
            "{} after {:.1} s",
            trial.join(" "),
            start.elapsed().as_secs_f64()
        );
        match ended {
            None => return Ok(Some(format!("{took}: it does not end"))),
            Some((Some(0), _)) => {}
            Some((Some(1), said)) => return Ok(Some(format!("{took}, {}", shown(&said)))),
            Some(_) => return Ok(Some(format!("{took}: it ends by a signal"))),
        }
    }
    Ok(None)
}

/// How a trial ended and what it printed; nothing if it had to be stopped.
fn wait(mut child: Child) -> Result<Option<(Option<i32>, String)>, String> {
    let start = Instant::now();
    while child.try_wait().map_err(|e| e.to_string())?.is_none() {
        if start.elapsed() > PATIENCE {
            child.kill().ok();
            child.wait().ok();
            return Ok(None);
        }
        std::thread::sleep(Duration::from_millis(10));
    }
    let output = child.wait_with_output().map_err(|e| e.to_string())?;
    let said = String::from_utf8_lossy(&output.stdout).to_string();
    Ok(Some((output.status.code(), said)))
}

/// Which call showed a printed difference, and its reduced input.
fn shown(said: &str) -> String {
    let field = |name: &str| {
        let line = said.lines().find(|l| l.trim_start().starts_with(name));
        line.map_or("", |l| l.trim_start()[name.len()..].trim())
    };
    let input = match field("text") {
        "" => field("sheet"),
        text => text,
    };
    let input: String = input.chars().take(60).collect();
    let at = field("the first difference, at");
    format!("{at}: {} of {input}", field("call"))
}

/// Prints what became of a wrong library. Answers whether it was noticed.
fn told(number: usize, rule: &str, how: Option<String>) -> bool {
    match &how {
        Some(how) => println!("{number:>3}. {rule}: noticed by {how}"),
        None => println!("{number:>3}. {rule}: NOT NOTICED"),
    }
    how.is_some()
}

/// Makes an empty folder.
fn fresh(folder: &Path) -> Result<(), String> {
    if folder.exists() {
        fs::remove_dir_all(folder).map_err(about(folder))?;
    }
    fs::create_dir_all(folder).map_err(about(folder))
}
