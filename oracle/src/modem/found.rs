//! What request j has the receiver keep besides: where a candidate was taken, and of a wait the age at which it was set
//! and the mark. The Rust keeps none of these; they follow from its candidate and wait before and after each sample.

use super::kept::Control;
use crate::rate::REST;

/// 0 and no for what is not held.
#[derive(Clone, Copy, Default, PartialEq)]
pub struct Found {
    pub taken_at: u64,
    pub age: u8,
    pub replaced: bool,
}

impl Found {
    /// After one sample, whose offer, if there was one, was accepted or not.
    pub fn next(self, before: Control, after: Control, accepted: bool) -> Found {
        let kept = match before.wait {
            None => self,
            // Wait and candidate are removed.
            Some(1) if accepted => return Found::default(),
            Some(1) => Found::default(),
            Some(_) => return self,
        };
        let taken = is_taken(before, after);
        Found {
            taken_at: if taken { after.count } else { kept.taken_at },
            // "the wait becomes 1,840 - age", at 24 kHz "920 - age"
            age: after.wait.map_or(0, |left| (REST - left as usize) as u8),
            // A match on the sample that set the wait took the candidate's place.
            replaced: taken && after.wait.is_some(),
        }
    }
}

/// Whether the search of a sample took a candidate. One of the same kind is taken exactly if its age is 1 then and no
/// wait was set: where its kind does not match a wait is set, and a match that takes none adds to the age. So a tie with
/// the very same values, after which the Rust's fields are as they were, is a take too.
pub fn is_taken(before: Control, after: Control) -> bool {
    let held = before.candidate.filter(|_| before.wait.is_none());
    match (held, after.candidate) {
        (None, now) => now.is_some(),
        (Some(held), Some(now)) => now.burst != held.burst || now.age == 1 && after.wait.is_none(),
        (Some(_), None) => unreachable!("a candidate goes only with its frame"),
    }
}
