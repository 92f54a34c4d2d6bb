//! The copies of the original that are not its own text: one with probes put in by the edits of `counting.edits`, and from it
//! one for each rule of `src/zeros.rs`.
//!
//! An edit names whole lines of the original and what stands in their place. It must match exactly as often as it says, so
//! an edit that no longer fits the text stops the build. `#name#` in the new lines becomes the number of that branch.

const EDITS: &str = include_str!("counting.edits");

/// The calls that a rule takes the place of, how often the text has each, and the rule's own.
const CALLS: [(&str, usize, &str); 2] = [(".min(", 4, ".lesser("), (".max(", 7, ".greater(")];

pub struct Instrumented {
    pub text: String,
    branches: Vec<String>,
}

struct Edit {
    times: usize,
    find: String,
    put: String,
}

enum Place {
    Outside,
    Find,
    Put,
}

fn parse_edits(text: &str) -> Result<Vec<Edit>, String> {
    let mut edits: Vec<Edit> = Vec::new();
    let mut place = Place::Outside;
    for line in text.lines() {
        match (&place, line) {
            (Place::Outside, _) if line.starts_with("<<<< ") => {
                let times = line[5..]
                    .parse()
                    .map_err(|_| format!("counting.edits: no number in `{line}`"))?;
                edits.push(Edit {
                    times,
                    find: String::new(),
                    put: String::new(),
                });
                place = Place::Find;
            }
            (Place::Outside, _) => {}
            (Place::Find, "====") => place = Place::Put,
            (Place::Put, ">>>>") => place = Place::Outside,
            (Place::Find, _) => push_line(&mut edits, line, |edit| &mut edit.find),
            (Place::Put, _) => push_line(&mut edits, line, |edit| &mut edit.put),
        }
    }
    match place {
        Place::Outside => Ok(edits),
        _ => Err("counting.edits: the last edit has no end".to_string()),
    }
}

fn push_line(edits: &mut [Edit], line: &str, part: fn(&mut Edit) -> &mut String) {
    if let Some(edit) = edits.last_mut() {
        let text = part(edit);
        text.push_str(line);
        text.push('\n');
    }
}

/// Puts the number of its branch in the place of every `#name#`.
fn number_branches(put: &str, branches: &mut Vec<String>) -> Result<String, String> {
    let mut numbered = String::new();
    for (i, part) in put.split('#').enumerate() {
        if i % 2 == 0 {
            numbered.push_str(part);
            continue;
        }
        if branches.iter().any(|known| known == part) {
            return Err(format!("counting.edits: two branches are called `{part}`"));
        }
        numbered.push_str(&branches.len().to_string());
        branches.push(part.to_string());
    }
    Ok(numbered)
}

/// Puts one text in the place of another, which must be found just so often.
fn replace(text: &str, find: &str, times: usize, put: &str) -> Result<String, String> {
    let found = text.matches(find).count();
    if found != times {
        return Err(format!(
            "expected {times} times in the original and found {found} times:\n{find}"
        ));
    }
    Ok(text.replace(find, put))
}

pub fn instrument(original: &str) -> Result<Instrumented, String> {
    let mut text = original.to_string();
    let mut branches = Vec::new();
    for edit in parse_edits(EDITS)? {
        let put = number_branches(&edit.put, &mut branches)?;
        text = replace(&text, &edit.find, edit.times, &put)?;
    }
    Ok(Instrumented { text, branches })
}

impl Instrumented {
    /// The text with a rule of `src/zeros.rs` for `min` and `max`.
    pub fn by_rule(&self, rule: &str) -> Result<String, String> {
        let mut text = self.text.clone();
        for (call, times, own) in CALLS {
            text = replace(&text, call, times, own)?;
        }
        Ok(format!("{text}\nuse crate::zeros::{rule} as _;\n"))
    }

    /// A table of the branches' names, by number.
    pub fn names_table(&self) -> String {
        let mut table = format!("pub const NAMES: [&str; {}] = [\n", self.branches.len());
        for name in &self.branches {
            table.push_str(&format!("    {name:?},\n"));
        }
        table.push_str("];\n");
        table
    }
}
