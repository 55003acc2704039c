//! The states held, of which those that meet EXCLUSIVE must have one bit: what a test or a merge costs can depend on them.
use crate::cases::{Shape, Tested};
use std::hint::black_box;

/// The states of the even textures of a set and of the odd ones, which alternate from layer to layer; a Single texture has the first.
pub type Pattern = [[u16; 2]; 2];

/// How many different states a set holds that meet EXCLUSIVE (4 and 16).
#[derive(Clone, Copy)]
pub enum States {
    Plain,
    OneExclusive,
    SeveralExclusive,
}

impl States {
    pub fn named(word: &str) -> Self {
        match word {
            "none" => Self::Plain,
            "one" => Self::OneExclusive,
            "several" => Self::SeveralExclusive,
            _ => panic!("no such states: {word}"),
        }
    }

    pub fn pattern(self) -> Pattern {
        match self {
            Self::Plain => [[2, 8]; 2],
            Self::OneExclusive => [[4, 8]; 2],
            // Turned in the odd textures, or all Single ones would be in the same state.
            Self::SeveralExclusive => [[4, 16], [16, 4]],
        }
    }
}

/// A set of the port by itself, of which only the test is measured.
struct Alone<F>(F);

impl<F: Fn() -> bool> Tested for Alone<F> {
    fn calls(&self) -> u32 {
        1
    }

    fn test(&self, laps: u32) {
        for _ in 0..laps {
            assert!((self.0)());
        }
    }
}

/// A set by its name; other names are those of calls.
pub fn set(name: &str, shape: Shape) -> Option<Box<dyn Tested>> {
    let pattern = shape.states.pattern();
    match name {
        "scope" => {
            let (_, scope) = shape.scopes(pattern);
            Some(Box::new(Alone(move || black_box(&scope).is_well_formed())))
        }
        "tracker" => {
            let (_, tracker) = shape.trackers(pattern);
            Some(Box::new(Alone(move || {
                black_box(&tracker).is_well_formed()
            })))
        }
        _ => None,
    }
}
