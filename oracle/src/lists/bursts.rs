//! The six bursts: `BURST SIGN SIGN ..`, eight signs.

use crate::decode::{name, BURSTS};

pub fn write() -> String {
    let line = |burst: crate::decode::SyncBurst| {
        let signs = burst.target().map(|sign| sign.to_string());
        format!("{} {}\n", name(burst), signs.join(" "))
    };
    BURSTS.map(line).concat()
}
