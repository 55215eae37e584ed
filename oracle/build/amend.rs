//! Amends the old Rust text, line for line, where a request changes a rule. A file of amendments holds, for each,
//! the four lines `file: NAME`, `times: N`, `old: LINE` and `new: LINE`; empty lines and lines that begin with `#`
//! may stand between them. LINE is a whole line, with the spaces that it begins with.

#[derive(Debug, PartialEq)]
pub struct Amendment {
    pub file: String,
    pub times: usize,
    pub old: String,
    pub new: String,
}

/// The amendments of a file, in their order.
pub fn read(text: &str) -> Result<Vec<Amendment>, String> {
    let mut lines = text
        .lines()
        .filter(|line| !line.trim().is_empty() && !line.starts_with('#'))
        .peekable();
    let mut amendments = Vec::new();
    while lines.peek().is_some() {
        let mut value = |key: &str| {
            let line = lines.next().unwrap_or("its end");
            let value = line.strip_prefix(key);
            value.ok_or(format!("`{key}` was awaited, and not {line}"))
        };
        let file = value("file: ")?.to_string();
        let times = value("times: ")?;
        amendments.push(Amendment {
            file,
            times: times
                .parse()
                .map_err(|_| format!("{times} is no number of times"))?,
            old: value("old: ")?.to_string(),
            new: value("new: ")?.to_string(),
        });
    }
    Ok(amendments)
}

/// The text with one line for the other, wherever the old one stands: exactly as often as the amendment says.
pub fn amended(text: &str, amendment: &Amendment) -> Result<String, String> {
    let found = text.lines().filter(|line| *line == amendment.old).count();
    if found != amendment.times {
        return Err(format!(
            "the old line stands {found} times in {}, and not {}: {}",
            amendment.file, amendment.times, amendment.old
        ));
    }
    let lines = text.lines().map(|line| {
        if line == amendment.old {
            &amendment.new
        } else {
            line
        }
    });
    Ok(lines.flat_map(|line| [line, "\n"]).collect())
}
