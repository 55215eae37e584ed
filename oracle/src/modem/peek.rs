//! Looks into the modem's private fields. A child module may, so modem.rs needs no change for it.

use super::{SoftDemodulator, SoftModulator};
use crate::modem::kept::{Control, Held, Sending};
use crate::rate::{RING, WINDOW};

pub fn control(receiver: &SoftDemodulator) -> Control {
    Control {
        count: receiver.sample,
        candidate: receiver.candidate.as_ref().map(|c| Held {
            burst: c.burst,
            age: c.age,
            diff: c.diff,
            gain: c.gain,
            shift: c.shift,
        }),
        wait: receiver.samples_until_decode,
        timer: receiver.dcd,
    }
}

/// The cursors of the sample ring and of the ring of filtered values.
pub fn cursors(receiver: &SoftDemodulator) -> (usize, usize) {
    (receiver.filter_cursor, receiver.rx_cursor)
}

/// The filtered value that the last sample gave.
pub fn newest(receiver: &SoftDemodulator) -> f32 {
    receiver.rx_win[(receiver.rx_cursor + RING - 1) % RING]
}

pub fn sending(sender: &SoftModulator) -> Sending {
    Sending {
        length: sender.next_len,
        read: sender.next_read,
        padding: sender.tx_delay_padding,
        idle_due: sender.update_idle,
        wish: sender.try_get_frame,
        end_owed: sender.calculate_tx_end,
        end: sender.report_tx_end,
        fill: sender.samples_in_buf,
        capacity: sender.buf_capacity,
        latency: sender.output_latency,
    }
}

/// The sender's window, place by place, and its cursor.
pub fn window(sender: &SoftModulator) -> (usize, [f32; WINDOW]) {
    (sender.filter_cursor, sender.filter_win)
}

/// Puts a made-up count into the receiver: no run comes near the last one.
pub fn lay_count(receiver: &mut SoftDemodulator, count: u64) {
    receiver.sample = count;
}

/// Puts a made-up window into the sender, as no frame from a fresh start leaves it.
pub fn lay_window(sender: &mut SoftModulator, cursor: usize, values: [f32; WINDOW]) {
    sender.filter_cursor = cursor;
    sender.filter_win = values;
}
