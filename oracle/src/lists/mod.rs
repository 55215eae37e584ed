//! The lists, one file each. README.md gives the form of their lines.

mod bit_errors;
mod bursts;
mod carry_over;
mod corners;
mod correlations;
mod desk;
mod examples;
mod figures;
mod filters;
mod frames;
mod judge;
mod listings;
mod numbers;
mod offers;
mod offsets;
mod programs;
mod replays;
mod sender;
mod slices;
mod streams;
mod stretches;
mod supplier;
mod taps;

use crate::rate::RATE;

pub struct List {
    pub name: &'static str,
    pub write: fn() -> String,
}

/// The lists that follow the rate; the others are those of 48 kHz.
const OF_EACH_RATE: [&str; 10] = [
    "taps",
    "filters",
    "offers",
    "stretches",
    "carry-over",
    "replays",
    "listings",
    "figures",
    "desk",
    "sender",
];

/// The lists of the rate that this build is for.
pub fn lists() -> impl Iterator<Item = List> {
    ALL.into_iter()
        .filter(|list| RATE == 48_000 || OF_EACH_RATE.contains(&list.name))
}

const ALL: [List; 21] = [
    List {
        name: "bit-errors",
        write: bit_errors::write,
    },
    List {
        name: "taps",
        write: taps::write,
    },
    List {
        name: "bursts",
        write: bursts::write,
    },
    List {
        name: "numbers",
        write: numbers::write,
    },
    List {
        name: "slices",
        write: slices::write,
    },
    List {
        name: "filters",
        write: filters::write,
    },
    List {
        name: "correlations",
        write: correlations::write,
    },
    List {
        name: "differences",
        write: correlations::write_differences,
    },
    List {
        name: "frames",
        write: frames::write,
    },
    List {
        name: "offers",
        write: offers::write,
    },
    List {
        name: "stretches",
        write: stretches::write,
    },
    List {
        name: "carry-over",
        write: carry_over::write,
    },
    List {
        name: "replays",
        write: replays::write,
    },
    List {
        name: "listings",
        write: listings::write,
    },
    List {
        name: "figures",
        write: figures::write,
    },
    List {
        name: "desk",
        write: desk::write,
    },
    List {
        name: "sender",
        write: sender::write,
    },
    List {
        name: "programs",
        write: programs::write,
    },
    List {
        name: "offsets",
        write: offsets::write,
    },
    List {
        name: "supplier",
        write: supplier::write,
    },
    List {
        name: "examples",
        write: examples::write,
    },
];
