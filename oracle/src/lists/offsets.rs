//! Request d: one recording at several offsets, and what is received of it. README.md gives the lines' forms.

use crate::lists::programs::{Session, ALL, READ};

const TEXT: &str = include_str!("../../../sample/frames.txt");

/// With nothing amended a large offset loses every frame that was sent; stops where it is otherwise.
pub fn write() -> String {
    let mut list = Session::default();
    for offset in [0, 500, 5_000, 15_000] {
        list.send(&format!("offset-{offset}"), TEXT);
        list.offset(offset);
        let found = list.receive(READ, ALL);
        let kept = TEXT
            .split_inclusive('\n')
            .filter(|&line| found.iter().any(|one| one == line));
        let lost = cfg!(feature = "unamended") && offset > 500;
        assert_eq!(kept.count(), if lost { 0 } else { 3 }, "at offset {offset}");
    }
    list.lines
}
