//! Cuts whole items out of a Rust text by kind and name, as they stand: the lines are taken over and
//! none is written. It leans on the layout that rustfmt gives: an item at the outermost level starts
//! in the first column, and closes there.

/// The items that `names` lists, in that order, each with the attributes and comments above it.
pub fn items(text: &str, names: &[(&str, &str)]) -> Result<String, String> {
    let lines: Vec<&str> = text.lines().collect();
    let mut cut = String::new();
    for (kind, name) in names {
        let head = head(&lines, kind, name)?;
        let last = last(&lines, head).ok_or(format!("the end of `{kind} {name}` was not found"))?;
        for line in &lines[first(&lines, head)..=last] {
            cut.push_str(line);
            cut.push('\n');
        }
        cut.push('\n');
    }
    Ok(cut)
}

/// The one line that opens the item.
fn head(lines: &[&str], kind: &str, name: &str) -> Result<usize, String> {
    let mut found = (0..lines.len()).filter(|&at| opens(lines[at], kind, name));
    match (found.next(), found.next()) {
        (Some(at), None) => Ok(at),
        (None, _) => Err(format!("the item `{kind} {name}` was not found")),
        (Some(_), Some(_)) => Err(format!("the item `{kind} {name}` was found twice")),
    }
}

fn opens(line: &str, kind: &str, name: &str) -> bool {
    let line = line.strip_prefix("pub(crate) ").unwrap_or(line);
    let line = line.strip_prefix("pub ").unwrap_or(line);
    let rest = line
        .strip_prefix(kind)
        .and_then(|rest| rest.strip_prefix(' '));
    match rest.and_then(|rest| rest.strip_prefix(name)) {
        Some(rest) => !rest.starts_with(|c: char| c.is_alphanumeric() || c == '_'),
        None => false,
    }
}

fn first(lines: &[&str], head: usize) -> usize {
    let belongs = |line: &str| line.starts_with("#[") || line.starts_with("///");
    (0..head)
        .rev()
        .take_while(|&at| belongs(lines[at]))
        .last()
        .unwrap_or(head)
}

fn last(lines: &[&str], head: usize) -> Option<usize> {
    if lines[head].ends_with(';') {
        return Some(head);
    }
    (head..lines.len()).find(|&at| lines[at].starts_with('}'))
}
