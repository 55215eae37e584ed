//! Updates by the old modem with nothing amended. Request a: "Where nothing is unread the number is the old one."

use super::flat::{senders_differ, Sender};
use super::tally::Tally;
use crate::unamended::{lay, peek, Modulator};

/// What differs after an update that finds no padding left and nothing unread; others are not asked.
pub fn difference(
    before: &Sender,
    counts: [u64; 3],
    port: &Sender,
    tally: &mut Tally,
) -> Option<String> {
    if before.is_unread() {
        return None;
    }
    let mut old = lay::sender(
        &before.store,
        before.cursor(),
        &before.window,
        before.kept(),
    );
    let [fill, capacity, latency] = counts.map(|count| count as usize);
    old.update_output_buffer(fill, capacity, latency);
    tally.updates_as_before += 1;
    tally.ends_as_before += u64::from(before.owes_end());
    let left = Sender::of(peek::window(&old), lay::store(&old), peek::sending(&old));
    senders_differ(&left, port).map(|what| format!("with nothing amended: {what}"))
}
