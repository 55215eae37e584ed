//! Reads and sets every private field of the modem's records, for tools/compare.

use super::{DecodeCandidate, SoftDemodulator, SoftModulator};
use crate::modem::kept::{Control, Held, Sending};
use crate::rate::{RING, STORE, WINDOW};

/// The ring of samples and the ring of filtered values, place by place.
pub fn rings(receiver: &SoftDemodulator) -> (&[i16; WINDOW], &[f32; RING]) {
    (&receiver.filter_win, &receiver.rx_win)
}

pub fn receiver(
    cursors: (usize, usize),
    window: &[i16; WINDOW],
    ring: &[f32; RING],
    control: Control,
) -> SoftDemodulator {
    SoftDemodulator {
        filter_win: *window,
        filter_cursor: cursors.0,
        rx_win: *ring,
        rx_cursor: cursors.1,
        candidate: control.candidate.map(candidate),
        sample: control.count,
        samples_until_decode: control.wait,
        dcd: control.timer,
    }
}

fn candidate(held: Held) -> DecodeCandidate {
    DecodeCandidate {
        burst: held.burst,
        age: held.age,
        diff: held.diff,
        gain: held.gain,
        shift: held.shift,
    }
}

/// The samples of the frame at hand, with what earlier ones left past its length.
pub fn store(sender: &SoftModulator) -> &[i16; STORE] {
    &sender.next_transmission
}

pub fn sender(
    store: &[i16; STORE],
    cursor: usize,
    window: &[f32; WINDOW],
    kept: Sending,
) -> SoftModulator {
    SoftModulator {
        next_transmission: *store,
        next_len: kept.length,
        next_read: kept.read,
        tx_delay_padding: kept.padding,
        update_idle: kept.idle_due,
        // The Rust's own is always true.
        idle: true,
        calculate_tx_end: kept.end_owed,
        report_tx_end: kept.end,
        filter_win: *window,
        filter_cursor: cursor,
        try_get_frame: kept.wish,
        output_latency: kept.latency,
        samples_in_buf: kept.fill,
        buf_capacity: kept.capacity,
    }
}
