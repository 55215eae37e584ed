//! How many samples are given at once: any number, and most often one near to what `feed` goes by.

use crate::random::Random;

/// `feed` takes fewer samples than these one by one.
const FEW: usize = 12;

/// It goes by blocks of so many samples, and takes no more than 13 blocks at once.
pub const BLOCK: usize = 48;
const MOST: usize = 13 * BLOCK;

/// From 1 to 2,000.
pub fn length(random: &mut Random) -> usize {
    let near = match random.below(4) {
        0 => FEW * (1 + random.below(4)),
        1 => BLOCK * (1 + random.below(13)),
        2 => MOST * (1 + random.below(3)),
        _ => return 1 + random.below(2000),
    };
    near + random.below(5) - 2
}

/// From 12 to 1,500, and more often a few blocks than many.
pub fn stretch_length(random: &mut Random) -> usize {
    match random.below(4) {
        0 | 1 => FEW + random.below(2 * BLOCK + 3),
        2 => FEW + random.below(1500 - FEW + 1),
        _ => length(random).clamp(FEW, 1500),
    }
}
