//! What Rust brings along and the port has functions of its own for: `FUNCTION OPERAND .. = RESULT`.

use crate::bits::{hex, step};
use crate::random::Random;

pub fn write() -> String {
    [larger_and_smaller(), sizes(), cuts(), subtractions()]
        .concat()
        .concat()
}

/// Each of these with each, but for two zeros of different signs: Rust leaves open which is given then.
fn larger_and_smaller() -> Vec<String> {
    let mut lines = Vec::new();
    for a in special() {
        for b in special() {
            if a != 0.0 || b != 0.0 || a.to_bits() == b.to_bits() {
                lines.push(format!("max {} {} = {}\n", hex(a), hex(b), hex(a.max(b))));
                lines.push(format!("min {} {} = {}\n", hex(a), hex(b), hex(a.min(b))));
            }
        }
    }
    lines
}

fn sizes() -> Vec<String> {
    let line = |x: f32| format!("abs {} = {}\n", hex(x), hex(x.abs()));
    special().into_iter().chain(patterns(6)).map(line).collect()
}

fn cuts() -> Vec<String> {
    let mut values = special();
    // Rounding instead of cutting would show at 0.99999994, and a wrong end of the range at the others.
    for size in [
        32_767.0f32,
        32_767.996,
        32_768.0,
        32_768.996,
        32_769.0,
        0.999_999_94,
    ] {
        for by in [-1, 0, 1] {
            values.extend([step(size, by), -step(size, by)]);
        }
    }
    let mut random = Random::new(7);
    values.extend((0..40).map(|_| random.unit() * 40_000.0));
    values.extend((0..20).map(|_| random.unit() * 4.0));
    let line = |x: f32| format!("as_i16 {} = {}\n", hex(x), x as i16);
    values.into_iter().chain(patterns(8)).map(line).collect()
}

fn subtractions() -> Vec<String> {
    let values = [0, 1, 2, 479, 480, 1 << 32, usize::MAX - 1, usize::MAX];
    let line = |a: usize, b: usize| format!("saturating_sub {a} {b} = {}\n", a.saturating_sub(b));
    let row = |a: usize| values.map(|b| line(a, b));
    values.map(row).concat()
}

fn special() -> Vec<f32> {
    let sizes = [
        0.0,
        f32::from_bits(1),
        step(f32::MIN_POSITIVE, -1),
        f32::MIN_POSITIVE,
        0.3,
        1.0,
        step(1.0, 1),
        1_000_000.0,
        f32::MAX,
        f32::INFINITY,
    ];
    let both = sizes.map(|size| [size, -size]).concat();
    [both, vec![f32::NAN]].concat()
}

fn patterns(seed: u64) -> Vec<f32> {
    let mut random = Random::new(seed);
    (0..60).map(|_| f32::from_bits(random.word())).collect()
}
