//! Floats for made-up records.

use crate::random::Random;

/// A not-a-number with a random sign and payload, quiet or signalling.
pub fn nan(random: &mut Random) -> f32 {
    let payload = (random.word() & 0x007f_ffff).max(1);
    f32::from_bits(random.word() & 0x8000_0000 | 0x7f80_0000 | payload)
}

/// Within ±1,000,000, by a scale of its own for each record, or one of the corners.
pub fn in_range(random: &mut Random, scale: f32) -> f32 {
    const CORNERS: [f32; 8] = [
        0.0,
        -0.0,
        1_000_000.0,
        -1_000_000.0,
        16.0,
        f32::MIN_POSITIVE,
        1e-45,
        -1e-45,
    ];
    if random.below(64) == 0 {
        *random.pick(&CORNERS)
    } else {
        random.unit() * scale
    }
}

/// Beyond ±1,000,000, or no number.
pub fn out_of_range(random: &mut Random) -> f32 {
    match random.below(6) {
        0 => f32::INFINITY,
        1 => f32::NEG_INFINITY,
        2 => 1_000_000.06,
        3 => -1_000_000.06,
        _ => nan(random),
    }
}

/// Request k: "any rate but the two", most often near to one of them.
pub fn bad_rate(random: &mut Random) -> u64 {
    const NEAR: [u64; 8] = [
        0,
        1,
        23_999,
        24_001,
        44_100,
        47_999,
        48_001,
        u32::MAX as u64,
    ];
    match random.below(NEAR.len() + 2) {
        place if place < NEAR.len() => NEAR[place],
        _ => match u64::from(random.word()) {
            24_000 | 48_000 => 4800,
            rate => rate,
        },
    }
}

/// No two places hold the same number. Not-a-numbers cannot be told apart when they come back from the port.
pub fn numbered(places: usize) -> Vec<f32> {
    (0..places).map(|place| 0.5 + place as f32).collect()
}

/// How many of them are not-a-numbers.
pub fn not_numbers(values: &[f32]) -> u64 {
    values.iter().filter(|value| value.is_nan()).count() as u64
}
