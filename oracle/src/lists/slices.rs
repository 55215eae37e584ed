//! The slicer: `SYMBOL = BITS`.

use crate::bits::{hex, step};
use crate::decode::slice;
use crate::random::Random;

pub fn write() -> String {
    let line = |&symbol: &f32| {
        let [high, low] = slice(symbol);
        format!("{} = {high}{low}\n", hex(symbol))
    };
    let mut random = Random::new(1);
    let mut symbols = corners();
    symbols.extend((0..200).map(|_| f32::from_bits(random.word())));
    symbols.iter().map(line).collect()
}

/// The limits with a step to each side, and extremes.
pub fn corners() -> Vec<f32> {
    let mut symbols = Vec::new();
    for limit in [0.667f32, -0.667] {
        symbols.extend([-1, 0, 1].map(|by| step(limit, by)));
    }
    // One step from a zero is the smallest subnormal of its sign.
    for zero in [0.0f32, -0.0] {
        symbols.extend([zero, step(zero, 1)]);
    }
    symbols.extend([1.0, -1.0, 1.0 / 3.0, -1.0 / 3.0]);
    symbols.extend([
        f32::INFINITY,
        f32::NEG_INFINITY,
        f32::NAN,
        f32::MAX,
        f32::MIN,
    ]);
    symbols
}
