//! The bit count, written from document 02, request b: the Rust has none. `SYMBOL .. = COUNT`: 184 symbols of
//! the payload that was sent, and 184 of the one received.

use crate::bits::row;
use crate::decode::slice;
use crate::lists::slices;
use crate::random::Random;
use crate::signal::DIBITS;

type Payload = [f32; 184];

pub fn write() -> String {
    let mut random = Random::new(18);
    let sent = [(); 184].map(|()| *random.pick(&DIBITS));
    let mut list = line(&sent, &sent);
    list.push_str(&line(&sent, &sent.map(|symbol| -symbol)));
    list.push_str(&line(&[1.0; 184], &[0.0; 184]));
    for wrong in [0, 1, 7, 183] {
        let mut received = sent;
        received[wrong] = f32::NAN;
        list.push_str(&line(&sent, &received));
    }
    // Each of the slicer's limits and extremes beside each.
    let corners = slices::corners();
    let n = corners.len();
    for first in (0..n * n).step_by(184) {
        let pair = |i: usize| ((first + i) / n % n, (first + i) % n);
        let sent = std::array::from_fn(|i| corners[pair(i).0]);
        let received = std::array::from_fn(|i| corners[pair(i).1]);
        list.push_str(&line(&sent, &received));
    }
    for _ in 0..5 {
        let any = [(); 184].map(|()| f32::from_bits(random.word()));
        list.push_str(&line(&sent, &any));
        list.push_str(&line(&any, &sent));
    }
    list
}

/// "two 184-symbol payloads, and the exact number of differing bits"
fn line(sent: &Payload, received: &Payload) -> String {
    let bits = |payload: &Payload| -> Vec<u8> { payload.iter().flat_map(|&x| slice(x)).collect() };
    let pairs = bits(sent).into_iter().zip(bits(received));
    let count = pairs.filter(|(a, b)| a != b).count();
    format!("{} {} = {count}\n", row(sent), row(received))
}
