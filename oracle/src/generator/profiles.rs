//! The profiles: what a stream is about.
use super::{actions::ACTIONS, settings::Image, stories::Story, Pace};

pub struct Profile {
    pub name: &'static str,
    /// Weights of the actions: start, accelerate, watch, temperature, outage,
    /// gap, long gap, write, read, wrong address, noise, view, stored image,
    /// stored write, control, dues, story.
    pub(super) weights: [u64; ACTIONS],
    pub(super) stories: &'static [Story],
    pub(super) images: [Image; 4],
    pub(super) paces: [Pace; 4],
    /// Per cent of transfers over SPI.
    pub(super) spi: u64,
    /// Per cent of transfers that break off.
    pub(super) broken: u64,
    /// Per cent of transfers begun without setting the select line.
    pub(super) stray: u64,
    /// Of 400 bus calls, those repeated or left out.
    pub(super) stutter: u64,
    /// Of 400 bus calls, those preceded by a call of another kind.
    pub(super) asides: u64,
    /// Per cent of accelerations that are extremes.
    pub(super) extreme: u64,
    /// Per cent of starts late in time.
    pub(super) late: u64,
    /// Per cent of writes to register 15 that turn automatic mode on.
    pub(super) automatic: u64,
}

use Image::{Any, Automatic, Interrupts, Motion, Near, Stock};
use Pace::{Bus, Edges, Even, Slow, Still, Swift};
use Story::{
    Alarm, Answer, Band, Beside, Blind, Copy, Crossed, Dimmed, Drowse, Duration, Fill, Flicker, Hushed,
    Locked, Lull, Midway, Nap, Orphan, Pair, Resume, Shake, Shared, Strike, Switch, Toggle, Unseen,
    Upset, Within,
};

const PLAIN: Profile = Profile {
    name: "mixed",
    weights: [1, 3, 3, 1, 2, 3, 1, 4, 4, 1, 1, 4, 1, 2, 4, 3, 2],
    stories: &[
        Nap, Copy, Locked, Flicker, Shake, Toggle, Answer, Pair, Blind, Switch, Resume, Drowse,
        Strike, Lull, Upset,
    ],
    images: [Stock, Near, Interrupts, Automatic],
    paces: [Swift, Bus, Edges, Slow],
    spi: 50,
    broken: 15,
    stray: 6,
    stutter: 6,
    asides: 8,
    extreme: 10,
    late: 5,
    automatic: 10,
};

pub static PROFILES: [Profile; 15] = [
    Profile {
        name: "i2c",
        weights: [1, 2, 0, 1, 0, 2, 0, 8, 10, 3, 3, 2, 0, 1, 4, 1, 3],
        stories: &[Copy, Locked, Pair, Pair, Resume, Resume],
        images: [Stock, Stock, Near, Interrupts],
        paces: [Still, Swift, Bus, Edges],
        spi: 0,
        broken: 25,
        stutter: 10,
        ..PLAIN
    },
    Profile {
        name: "spi",
        weights: [1, 2, 0, 1, 0, 2, 0, 8, 10, 0, 3, 2, 0, 1, 4, 1, 3],
        stories: &[Copy, Locked, Pair, Pair, Blind, Blind],
        images: [Stock, Stock, Near, Interrupts],
        paces: [Still, Swift, Bus, Edges],
        spi: 100,
        broken: 25,
        stutter: 10,
        ..PLAIN
    },
    Profile {
        name: "stored",
        weights: [1, 1, 0, 0, 1, 1, 0, 1, 1, 0, 0, 1, 1, 24, 1, 1, 1],
        images: [Stock, Stock, Near, Any],
        paces: [Swift, Swift, Bus, Bus],
        spi: 85,
        broken: 3,
        asides: 2,
        ..PLAIN
    },
    Profile {
        name: "supply",
        weights: [1, 2, 1, 1, 12, 2, 1, 3, 2, 0, 0, 3, 2, 3, 4, 3, 2],
        images: [Stock, Near, Interrupts, Automatic],
        paces: [Swift, Swift, Bus, Slow],
        spi: 75,
        broken: 8,
        ..PLAIN
    },
    Profile {
        name: "auto",
        weights: [2, 2, 8, 0, 1, 2, 1, 4, 2, 0, 0, 2, 0, 1, 2, 8, 5],
        stories: &[
            Nap, Alarm, Alarm, Alarm, Shake, Answer, Switch, Switch, Pair, Flicker, Drowse,
        ],
        images: [Automatic, Automatic, Automatic, Interrupts],
        paces: [Swift, Swift, Bus, Slow],
        spi: 85,
        broken: 8,
        extreme: 5,
        automatic: 70,
        ..PLAIN
    },
    Profile {
        name: "interrupts",
        weights: [4, 3, 40, 0, 1, 4, 1, 2, 2, 0, 0, 4, 0, 0, 2, 2, 30],
        stories: &[Flicker, Flicker, Shake, Toggle, Answer, Answer],
        images: [Interrupts, Interrupts, Motion, Near],
        paces: [Swift, Swift, Bus, Edges],
        spi: 90,
        broken: 3,
        extreme: 4,
        automatic: 3,
        ..PLAIN
    },
    Profile {
        name: "edges",
        weights: [1, 4, 4, 2, 2, 6, 0, 4, 6, 0, 2, 3, 1, 1, 4, 2, 2],
        stories: &[Pair, Blind, Shake, Resume, Copy],
        images: [Stock, Near, Interrupts, Interrupts],
        paces: [Edges, Edges, Edges, Still],
        asides: 40,
        stutter: 16,
        automatic: 5,
        ..PLAIN
    },
    Profile {
        name: "gaps",
        weights: [1, 3, 1, 1, 3, 1, 16, 1, 2, 0, 0, 3, 2, 1, 2, 2, 1],
        images: [Stock, Near, Interrupts, Automatic],
        paces: [Swift, Swift, Bus, Slow],
        spi: 90,
        broken: 4,
        ..PLAIN
    },
    Profile {
        name: "extremes",
        weights: [4, 8, 1, 4, 2, 3, 3, 2, 3, 0, 0, 3, 2, 1, 3, 2, 1],
        images: [Stock, Near, Any, Interrupts],
        paces: [Still, Swift, Bus, Edges],
        spi: 80,
        extreme: 85,
        late: 75,
        ..PLAIN
    },
    Profile {
        name: "images",
        weights: [8, 4, 4, 1, 2, 3, 1, 3, 3, 0, 0, 8, 3, 2, 4, 3, 2],
        images: [Any, Any, Any, Near],
        paces: [Swift, Swift, Bus, Edges],
        spi: 70,
        automatic: 20,
        ..PLAIN
    },
    PLAIN,
    Profile {
        name: "corners",
        weights: [1, 2, 1, 0, 1, 1, 0, 0, 1, 0, 0, 2, 0, 0, 0, 1, 30],
        stories: &[Orphan, Band, Band, Band, Duration, Dimmed, Unseen, Midway],
        images: [Stock, Stock, Near, Interrupts],
        paces: [Still, Swift, Swift, Bus],
        broken: 0,
        stray: 0,
        stutter: 0,
        asides: 1,
        automatic: 0,
        ..PLAIN
    },
    Profile {
        name: "buses",
        weights: [1, 1, 0, 0, 1, 1, 0, 1, 1, 0, 1, 2, 1, 1, 1, 1, 60],
        stories: &[
            Beside, Beside, Within, Within, Crossed, Crossed, Hushed, Hushed, Shared,
        ],
        images: [Stock, Stock, Stock, Near],
        paces: [Even, Swift, Bus, Edges],
        broken: 8,
        stutter: 2,
        asides: 2,
        late: 0,
        automatic: 2,
        ..PLAIN
    },
    Profile {
        name: "strikes",
        weights: [1, 4, 2, 0, 1, 2, 0, 1, 2, 0, 0, 2, 0, 0, 3, 1, 20],
        stories: &[Strike, Strike, Lull, Upset, Upset],
        images: [Stock, Stock, Near, Interrupts],
        paces: [Still, Swift, Bus, Edges],
        spi: 90,
        broken: 3,
        extreme: 20,
        ..PLAIN
    },
    Profile {
        name: "means",
        weights: [1, 2, 1, 0, 1, 2, 1, 1, 1, 0, 0, 3, 0, 1, 2, 2, 24],
        stories: &[Fill],
        images: [Stock, Near, Any, Automatic],
        paces: [Still, Swift, Bus, Edges],
        spi: 90,
        broken: 3,
        ..PLAIN
    },
];

/// Not random: the marked rows, whatever the seed, with refusals between.
pub static MARKS: Profile = Profile {
    name: "marks",
    spi: 100,
    broken: 0,
    stray: 0,
    stutter: 0,
    asides: 0,
    ..PLAIN
};

pub fn find(name: &str) -> Option<&'static Profile> {
    let mut all = PROFILES.iter().chain([&MARKS]);
    all.find(|profile| profile.name == name)
}
