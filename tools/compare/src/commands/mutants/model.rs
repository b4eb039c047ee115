//! The second reading with one rule broken, put in the library's place.

use std::fs;
use std::path::Path;
use std::process::Command;

use super::rules::{Mutant, MUTANTS};
use super::{about, build, edited, fresh, noticed, told, tool, work};

/// Tries each broken rule, or those that have a word in them. Answers whether all were noticed, or why that cannot be told.
pub fn of_model(word: &str) -> Result<bool, String> {
    let chosen: Vec<_> = MUTANTS.iter().filter(|m| m.rule.contains(word)).collect();
    let mut missed = 0;
    for (i, mutant) in chosen.iter().enumerate() {
        let copy = work().join("model");
        copied(mutant, &copy)?;
        let program = build(&[("COMPARE_STAND_IN", &copy)])?;
        let how = noticed(|| {
            let mut command = Command::new(&program);
            command.arg("--model");
            command
        })?;
        missed += !told(i + 1, mutant.rule, how) as usize;
    }
    println!("{} broken rules, {missed} not noticed", chosen.len());
    Ok(missed == 0)
}

/// Copies the second reading and breaks the rule in the copy.
fn copied(mutant: &Mutant, copy: &Path) -> Result<(), String> {
    fresh(copy)?;
    let source = tool().join("src/model");
    for entry in fs::read_dir(&source).map_err(about(&source))? {
        let from = entry.map_err(about(&source))?.path();
        let mut text = fs::read_to_string(&from).map_err(about(&from))?;
        if from.ends_with(mutant.file) {
            text = edited(&text, mutant.old, mutant.new)
                .ok_or_else(|| format!("the edit of '{}' does not fit once", mutant.rule))?;
        }
        let to = copy.join(from.file_name().expect("a file"));
        fs::write(&to, text).map_err(about(&to))?;
    }
    Ok(())
}
