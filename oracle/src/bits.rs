//! How floats are written: eight hexadecimal digits of the bit pattern, or `nan`, since the port knows
//! a single not-a-number, without a payload.

pub fn hex(value: f32) -> String {
    if value.is_nan() {
        "nan".to_string()
    } else {
        format!("{:08x}", value.to_bits())
    }
}

pub fn row(values: &[f32]) -> String {
    values
        .iter()
        .map(|&value| hex(value))
        .collect::<Vec<_>>()
        .join(" ")
}

/// The value whose bit pattern lies `by` steps further: away from zero where `by` is above 0.
pub fn step(value: f32, by: i32) -> f32 {
    f32::from_bits(value.to_bits().wrapping_add_signed(by))
}
