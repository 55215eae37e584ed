//! The checksums of crates/speed (its sums.rt): each value that is taken in counts by its place.

pub fn with(sum: u64, value: u64) -> u64 {
    (sum % (1 << 56) * 251).wrapping_add(value)
}

pub fn with_float(sum: u64, x: f32) -> u64 {
    with(sum, u64::from(x.to_bits()))
}

pub fn with_floats(sum: u64, values: &[f32]) -> u64 {
    values.iter().fold(sum, |sum, &x| with_float(sum, x))
}

/// By their bytes, the low one first.
pub fn with_samples(sum: u64, samples: &[i16]) -> u64 {
    samples
        .iter()
        .flat_map(|sample| sample.to_le_bytes())
        .fold(sum, |sum, byte| with(sum, u64::from(byte)))
}
