//! Makes an input that shows a difference small, for as long as it still shows one.

use super::flat::{pattern, Receiver, DIFF, RECEIVER_RATE, VALUES};
use crate::bits::row;

/// Drops from the front: half of what is there, then a quarter, down to a single item.
pub fn from_the_front<T>(items: &mut Vec<T>, shows: &mut dyn FnMut(&[T]) -> bool) {
    let mut by = items.len() / 2;
    while by > 0 {
        if by < items.len() && shows(&items[by..]) {
            items.drain(..by);
        } else {
            by /= 2;
        }
    }
}

/// Leaves items out, by blocks that grow smaller.
pub fn fewer<T: Clone>(items: &mut Vec<T>, shows: &mut dyn FnMut(&[T]) -> bool) {
    let mut block = items.len().div_ceil(2);
    while block > 0 {
        let mut at = 0;
        while at < items.len() {
            let end = (at + block).min(items.len());
            let rest = [&items[..at], &items[end..]].concat();
            if shows(&rest) {
                *items = rest;
            } else {
                at = end;
            }
        }
        block /= 2;
    }
}

/// Puts the plain item in the place of others, by blocks that grow smaller.
pub fn plainer<T: Copy + PartialEq>(
    items: &mut [T],
    plain: T,
    shows: &mut dyn FnMut(&[T]) -> bool,
) {
    let mut block = items.len().div_ceil(2);
    while block > 0 {
        let mut at = 0;
        while at < items.len() {
            let end = (at + block).min(items.len());
            let before = items[at..end].to_vec();
            if before.iter().any(|&item| item != plain) {
                items[at..end].fill(plain);
                if !shows(items) {
                    items[at..end].copy_from_slice(&before);
                }
            }
            at = end;
        }
        block /= 2;
    }
}

/// A made-up record with zeros in its rings, wherever they do.
pub fn plainer_receiver(record: &mut Receiver, shows: &mut dyn FnMut(&Receiver) -> bool) {
    let mut tried = record.clone();
    plainer(&mut record.floats[..VALUES], 0.0, &mut |part| {
        tried.floats[..VALUES].copy_from_slice(part);
        shows(&tried)
    });
    tried.floats = record.floats;
    plainer(&mut record.window, 0, &mut |part| {
        tried.window.copy_from_slice(part);
        shows(&tried)
    });
}

/// A made-up record in words.
pub fn told(record: &Receiver) -> String {
    let laid = |(place, value): (usize, &f32)| format!("{place}: {}", pattern(*value));
    let ring: Vec<String> = (record.floats[..VALUES].iter().enumerate())
        .filter(|(_, value)| value.to_bits() != 0)
        .map(laid)
        .collect();
    format!(
        "numbers {:?}; diff, gain, shift {}; window {:?}; ring, where it is not 0.0: {}",
        &record.numbers[..=RECEIVER_RATE],
        row(&record.floats[DIFF..]),
        record.window,
        ring.join(", ")
    )
}
