//! The amending of the old text, on small texts: what it changes, and where it stops.

#[path = "../build/amend.rs"]
mod amend;

use amend::{amended, read, Amendment};

const TEXT: &str = "one\n  two\nthree\n  two\n";

fn two(times: usize) -> Amendment {
    Amendment {
        file: "text.rs".to_string(),
        times,
        old: "  two".to_string(),
        new: "  2".to_string(),
    }
}

#[test]
fn a_file_is_read_line_by_line() {
    let file = "# why\nfile: text.rs\ntimes: 2\nold:   two\nnew:   2\n\nfile: other.rs\ntimes: 1\nold: a\nnew: b\n";
    let amendments = read(file).expect("two amendments");
    assert_eq!(amendments.len(), 2);
    assert_eq!(amendments[0], two(2));
    assert_eq!(amendments[1].file, "other.rs");
}

#[test]
fn a_file_that_lacks_a_line_is_refused() {
    assert!(read("file: text.rs\nold: a\nnew: b\n").is_err());
    assert!(read("file: text.rs\ntimes: 1\nold: a\n").is_err());
    assert!(read("file: text.rs\ntimes: some\nold: a\nnew: b\n").is_err());
}

#[test]
fn every_place_of_the_old_line_changes_and_no_other() {
    assert_eq!(
        amended(TEXT, &two(2)).as_deref(),
        Ok("one\n  2\nthree\n  2\n")
    );
}

#[test]
fn another_number_of_places_stops_it() {
    for times in [0, 1, 3] {
        assert!(amended(TEXT, &two(times)).is_err());
    }
}

#[test]
fn a_part_of_a_line_is_not_the_line() {
    let mut part = two(2);
    part.old = "two".to_string();
    assert!(amended(TEXT, &part).is_err());
}
