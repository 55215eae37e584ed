//! The fixed frames: `FRAME SYMBOL SYMBOL ..`, 192 symbols.

use crate::bits::row;
use crate::encode::{generate_end_of_transmission, generate_preamble};

pub fn write() -> String {
    let preamble = row(&generate_preamble());
    let bert = row(&generate_preamble().map(|symbol| -symbol));
    let end = row(&generate_end_of_transmission());
    format!("preamble {preamble}\nbert-preamble {bert}\nend {end}\n")
}
