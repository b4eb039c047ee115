//! The load order of a `.deps` file: one item a line, its name, a colon, and the names of what it needs. A line that is blank or
//! begins with `#` is passed over.

use crate::Report;
use witbox::{dependency, toposort, Error};

pub fn report(file: &str, bytes: &[u8]) -> Report {
    match names(bytes) {
        Ok(names) => Report {
            lines: names.iter().map(|name| format!("{name}\n")).collect(),
            refusal: None,
        },
        Err(wrong) => {
            let line = wrong.line.map_or(String::new(), |line| format!(":{line}"));
            Report {
                lines: String::new(),
                refusal: Some(format!("{file}{line}: {}", wrong.message)),
            }
        }
    }
}

/// What is wrong, and in which line.
struct Wrong {
    line: Option<usize>,
    message: String,
}

/// The names in load order.
fn names(bytes: &[u8]) -> Result<Vec<&str>, Wrong> {
    let text = std::str::from_utf8(bytes).map_err(|error| Wrong {
        line: None,
        message: error.to_string(),
    })?;
    let (lines, items) = read(text)?;
    match toposort(&items) {
        Ok(order) => Ok(order.names),
        Err(refusal) => Err(wrong(&lines, &items, refusal)),
    }
}

/// An item: its name, and the names of what it needs.
type Item<'a> = (&'a str, Vec<&'a str>);

/// The items, and the line of each.
fn read(text: &str) -> Result<(Vec<usize>, Vec<Item<'_>>), Wrong> {
    let (mut lines, mut items) = (Vec::new(), Vec::new());
    for (number, line) in (1..).zip(text.lines().map(str::trim)) {
        if line.is_empty() || line.starts_with('#') {
            continue;
        }
        let (name, needs) = line.split_once(':').ok_or(Wrong {
            line: Some(number),
            message: "a colon is wanted behind the item's name".to_string(),
        })?;
        lines.push(number);
        items.push((name.trim_end(), needs.split_whitespace().collect()));
    }
    Ok((lines, items))
}

/// A refusal in the file's own names, where it is about one item.
fn wrong(lines: &[usize], items: &[Item], refusal: Error) -> Wrong {
    let about = match refusal {
        Error::RepeatedName(item) => {
            Some((item as usize, "stands in an earlier line too".to_string()))
        }
        Error::ItemNotFound(index) => dependency(items, index)
            .map(|(item, need)| (item, format!("needs {need}, which no line lists"))),
        Error::TypeCycle {
            dependency: index, ..
        } => dependency(items, index).map(|(item, need)| {
            (
                item,
                format!("needs {need}, and neither can be loaded: a circle"),
            )
        }),
        _ => None,
    };
    let (line, message) = match about {
        Some((item, what)) => (Some(lines[item]), format!("{} {what}", items[item].0)),
        None => (None, refusal.to_string()),
    };
    let [number, position, detail] = refusal.numbers();
    Wrong {
        line,
        message: format!("{message} ({number}, {position}, {detail})"),
    }
}
