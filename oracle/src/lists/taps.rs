//! The filter table of the rate: `INDEX TAP`.

use crate::bits::hex;
use crate::rate::{tap, WINDOW};

pub fn write() -> String {
    (0..WINDOW)
        .map(|i| format!("{i} {}\n", hex(tap(i))))
        .collect()
}
