//! The library itself with one rule broken. An edit changes the definition and the code alike, so that the copy is proved again,
//! against a wrong definition: an error that no proof can see, and that only the comparison can.

use std::collections::BTreeMap;
use std::fs;
use std::path::{Path, PathBuf};
use std::process::Command;
use std::time::Instant;

use super::{about, build, edited, fresh, noticed, told, tool, work};

/// One of the files of `wrong/`: what is broken, and the changes that break it.
struct Edit {
    name: String,
    rule: String,
    changes: Vec<Change>,
}

/// A change of a file of the repository: lines that stand there once, and those put in their place.
struct Change {
    file: String,
    old: String,
    new: String,
}

/// Tries each edit, or the named ones. Answers whether all were proved and noticed, or why that cannot be told.
pub fn of_library(names: &[&str]) -> Result<bool, String> {
    let edits = chosen(names)?;
    // each must fit before the first is proved, which takes minutes
    edits.iter().try_for_each(|edit| broken(edit).map(drop))?;
    let mut missed = 0;
    for (i, edit) in edits.iter().enumerate() {
        let copy = work().join("wrong");
        copied(edit, &copy)?;
        let start = Instant::now();
        let proved = proved(edit, &copy)?;
        let took = start.elapsed().as_secs();
        let title = format!("{} ({}; {took} s to prove)", edit.name, edit.rule);
        if !proved {
            println!(
                "{:>3}. {title}: NOT PROVED, see {}",
                i + 1,
                log(edit).display()
            );
            missed += 1;
            continue;
        }
        let program = build(&[("WITBOX_LIBRARY", &copy.join("target/staticlib"))])?;
        missed += !told(i + 1, &title, noticed(|| Command::new(&program))?) as usize;
    }
    println!("{} wrong libraries, {missed} not noticed", edits.len());
    Ok(missed == 0)
}

/// The edits of the folder by name, or those that are named.
fn chosen(names: &[&str]) -> Result<Vec<Edit>, String> {
    let folder = tool().join("wrong");
    let mut files = Vec::new();
    for entry in fs::read_dir(&folder).map_err(about(&folder))? {
        files.push(entry.map_err(about(&folder))?.path());
    }
    if !names.is_empty() {
        files = names
            .iter()
            .map(|n| folder.join(format!("{n}.edit")))
            .collect();
    }
    files.sort();
    files.iter().map(|file| read(file)).collect()
}

/// Reads an edit: `#` and the rule; `file:` and a file; `old:` before each line that stands there, `new:` before each that replaces it.
fn read(file: &Path) -> Result<Edit, String> {
    let text = fs::read_to_string(file).map_err(about(file))?;
    let name = file.file_stem().unwrap_or_default().to_string_lossy();
    let (mut rule, mut place, mut before) = ("", "", "");
    let mut changes: Vec<Change> = Vec::new();
    for line in text.lines() {
        let (key, value) = line.split_once(' ').unwrap_or((line, ""));
        match (key, changes.last_mut()) {
            ("#", _) => rule = value,
            ("file:", _) => place = value,
            ("old:", Some(change)) if before == "old:" => change.old += &format!("\n{value}"),
            ("old:", _) => changes.push(Change {
                file: place.into(),
                old: value.into(),
                new: String::new(),
            }),
            ("new:", Some(change)) if before == "new:" => change.new += &format!("\n{value}"),
            ("new:", Some(change)) => change.new = value.into(),
            _ => return Err(format!("{name}: '{line}' is no line of an edit")),
        }
        before = key;
    }
    Ok(Edit {
        name: name.into(),
        rule: rule.into(),
        changes,
    })
}

/// Copies what the library is made of, and breaks the rule in the copy. What rt keeps of the crates is left out: it takes that from the
/// checkouts of this machine by itself.
fn copied(edit: &Edit, copy: &Path) -> Result<(), String> {
    fresh(copy)?;
    let root = crate::root();
    for part in ["crates", "crates.txt", "tools/staticlib"] {
        put(&root.join(part), &copy.join(part))?;
    }
    for (file, text) in broken(edit)? {
        let file = copy.join(file);
        fs::write(&file, text).map_err(about(&file))?;
    }
    Ok(())
}

/// The files that an edit changes, with the rule broken.
fn broken(edit: &Edit) -> Result<BTreeMap<&str, String>, String> {
    let mut files: BTreeMap<&str, String> = BTreeMap::new();
    for Change { file, old, new } in &edit.changes {
        let text = match files.remove(file.as_str()) {
            Some(text) => text,
            None => fs::read_to_string(crate::root().join(file)).map_err(about(Path::new(file)))?,
        };
        let text = edited(&text, old, new);
        let text = text.ok_or_else(|| format!("{}: '{old}' is not once in {file}", edit.name))?;
        files.insert(file, text);
    }
    Ok(files)
}

/// Copies a file, or a folder without the folders `out` in it.
fn put(from: &Path, to: &Path) -> Result<(), String> {
    if !from.is_dir() {
        let folder = to.parent().unwrap_or(to);
        fs::create_dir_all(folder).map_err(about(folder))?;
        return fs::copy(from, to).map(drop).map_err(about(from));
    }
    for entry in fs::read_dir(from).map_err(about(from))? {
        let name = entry.map_err(about(from))?.file_name();
        if name != "out" {
            put(&from.join(&name), &to.join(&name))?;
        }
    }
    Ok(())
}

/// Proves and builds the library of a copy. Answers whether it was proved.
fn proved(edit: &Edit, copy: &Path) -> Result<bool, String> {
    let made = Command::new(copy.join("tools/staticlib")).output();
    let made = made.map_err(|e| format!("tools/staticlib: {e}"))?;
    let file = log(edit);
    fs::write(&file, [made.stdout, made.stderr].concat()).map_err(about(&file))?;
    Ok(made.status.success())
}

/// Where what the prover said is kept.
fn log(edit: &Edit) -> PathBuf {
    work().join(format!("{}.log", edit.name))
}
