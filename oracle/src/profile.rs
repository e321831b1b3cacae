//! What random books are made of, by profile.

use std::ops::RangeInclusive;

#[derive(Clone, Copy, PartialEq, Eq, Debug)]
pub enum Profile {
    Tiny,
    Mixed,
    Roles,
    Classes,
    Merges,
    Same,
    Markers,
    Limits,
}

pub const PROFILES: [Profile; 8] = [
    Profile::Tiny,
    Profile::Mixed,
    Profile::Roles,
    Profile::Classes,
    Profile::Merges,
    Profile::Same,
    Profile::Markers,
    Profile::Limits,
];

/// Places of `Mix::kinds` beside the kinds of statements: paths of two and three.
pub const PATH_OF_TWO: usize = 15;
pub const PATH_OF_THREE: usize = 16;

/// What a profile draws from.
pub struct Mix {
    pub classes: RangeInclusive<usize>,
    pub roles: RangeInclusive<usize>,
    pub individuals: RangeInclusive<usize>,
    pub statements: RangeInclusive<usize>,
    /// Weights of the kinds of statements by their numbers, 1 to 14; then of paths of two and three.
    pub kinds: [usize; 17],
    /// Weights of what stands on the right or is asserted: Atomic, And, has-value, marker, any other concept.
    pub rights: [usize; 5],
    /// Chance of an inverse, in percent.
    pub inverse: usize,
    /// The most parts of an And.
    pub parts: usize,
    /// Disjoint classes and fillers of markers mostly from the upper half of the classes, others from the lower, so
    /// that markers clash and types do not.
    pub apart: bool,
}

/// Every kind of statement, told facts above all.
const ANY: [usize; 17] = [0, 4, 2, 2, 2, 2, 1, 1, 2, 1, 1, 1, 1, 6, 10, 1, 1];

impl Profile {
    pub fn named(name: &str) -> Option<Self> {
        PROFILES.into_iter().find(|p| p.name() == name)
    }

    pub fn name(self) -> &'static str {
        match self {
            Self::Tiny => "tiny",
            Self::Mixed => "mixed",
            Self::Roles => "roles",
            Self::Classes => "classes",
            Self::Merges => "merges",
            Self::Same => "same",
            Self::Markers => "markers",
            Self::Limits => "limits",
        }
    }

    /// How many of 1,000 books are of this profile.
    pub fn share(self) -> usize {
        match self {
            Self::Tiny => 240,
            Self::Mixed | Self::Roles | Self::Classes | Self::Same => 120,
            Self::Merges => 150,
            Self::Markers => 127,
            Self::Limits => 3,
        }
    }

    pub fn mix(self) -> Mix {
        match self {
            Self::Tiny => Mix {
                classes: 1..=2,
                roles: 1..=2,
                individuals: 1..=3,
                statements: 1..=9,
                kinds: ANY,
                rights: [4, 2, 3, 2, 1],
                inverse: 30,
                parts: 3,
                apart: false,
            },
            Self::Mixed => Mix {
                classes: 2..=6,
                roles: 1..=5,
                individuals: 3..=9,
                statements: 8..=40,
                kinds: ANY,
                rights: [5, 2, 2, 1, 1],
                inverse: 20,
                parts: 4,
                apart: false,
            },
            // chains, inverses and transitive roles
            Self::Roles => Mix {
                classes: 1..=2,
                roles: 1..=6,
                individuals: 2..=14,
                statements: 4..=40,
                kinds: [0, 0, 0, 0, 3, 3, 2, 1, 0, 0, 1, 1, 0, 0, 22, 4, 3],
                rights: [1, 0, 0, 0, 0],
                inverse: 35,
                parts: 1,
                apart: false,
            },
            // subclass, equivalent and nested conjunctions
            Self::Classes => Mix {
                classes: 3..=12,
                roles: 1..=3,
                individuals: 1..=6,
                statements: 4..=30,
                kinds: [0, 10, 5, 1, 0, 0, 0, 0, 0, 0, 2, 2, 0, 8, 4, 0, 0],
                rights: [4, 8, 2, 1, 1],
                inverse: 20,
                parts: 5,
                apart: false,
            },
            // functional roles and merges
            Self::Merges => Mix {
                classes: 2..=6,
                roles: 1..=4,
                individuals: 3..=12,
                statements: 6..=36,
                kinds: [0, 4, 1, 1, 1, 1, 1, 0, 4, 3, 2, 2, 0, 7, 16, 1, 0],
                rights: [6, 2, 3, 0, 0],
                inverse: 15,
                parts: 3,
                apart: false,
            },
            // told-same individuals
            Self::Same => Mix {
                classes: 1..=4,
                roles: 1..=3,
                individuals: 3..=12,
                statements: 5..=30,
                kinds: [0, 3, 1, 1, 1, 1, 1, 1, 1, 1, 1, 1, 8, 6, 10, 1, 1],
                rights: [4, 1, 3, 1, 0],
                inverse: 20,
                parts: 3,
                apart: false,
            },
            // markers and disjoint classes
            Self::Markers => Mix {
                classes: 3..=9,
                roles: 1..=3,
                individuals: 1..=6,
                statements: 6..=30,
                kinds: [0, 12, 3, 4, 0, 1, 0, 0, 5, 3, 1, 1, 1, 5, 5, 0, 0],
                rights: [3, 3, 1, 8, 0],
                inverse: 15,
                parts: 4,
                apart: true,
            },
            // near the limits
            Self::Limits => Mix {
                classes: 200..=256,
                roles: 40..=64,
                individuals: 300..=512,
                statements: 1000..=4096,
                kinds: [0, 60, 4, 1, 5, 5, 1, 2, 5, 3, 8, 8, 12, 800, 1600, 1, 1],
                rights: [80, 6, 2, 2, 4],
                inverse: 10,
                parts: 60,
                apart: false,
            },
        }
    }
}
