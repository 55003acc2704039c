//! Merges of two logs into a third. wgpu-core has no such call: beside the port's stands a plain one over vectors of its transitions.
use crate::cases::{Case, Tested};
use crate::port;
use driver::direct::{self as rust, Entry};
use std::hint::black_box;

/// How the indices of the two logs lie to each other.
#[derive(Clone, Copy)]
pub enum Pattern {
    /// One from each in turn.
    Alternate,
    /// From entry to entry of a log 0 to 3 further.
    Random,
    /// Eight from each in turn, all of one index.
    Runs,
}

impl Pattern {
    pub fn named(word: &str) -> Self {
        match word {
            "alternate" => Self::Alternate,
            "random" => Self::Random,
            "runs" => Self::Runs,
            _ => panic!("no such pattern: {word}"),
        }
    }

    /// The entries of log 0 or 1.
    fn log(self, log: u32, entries: u32, noise: &mut Noise) -> Vec<Entry> {
        let mut index = 0;
        let entry = |k| {
            index = match self {
                Self::Alternate => 2 * k + log,
                Self::Random => index + noise.below(4),
                Self::Runs => k / 8 * 2 + log,
            };
            let (mip, layer) = (noise.below(16), noise.below(256));
            let (from, to) = (noise.below(4096), noise.below(4096));
            [index, mip, mip + 1, layer, layer + 1, from, to]
        };
        (0..entries).map(entry).collect()
    }
}

/// xorshift: the same numbers in every run.
struct Noise(u64);

impl Noise {
    fn below(&mut self, end: u32) -> u32 {
        self.0 ^= self.0 << 13;
        self.0 ^= self.0 >> 7;
        self.0 ^= self.0 << 17;
        (self.0 >> 32) as u32 % end
    }
}

/// The same two logs on both sides, and a third that is emptied before each merge and has room for all.
pub struct MergeLogs {
    rust: [rust::Log; 3],
    port: [Vec<u32>; 3],
    /// How many entries are merged; the others are the rest.
    pub merged: usize,
}

impl MergeLogs {
    /// With so many entries in both logs together, half of them in each.
    pub fn new(pattern: Pattern, entries: u32) -> Self {
        let mut noise = Noise(88_172_645_463_325_252);
        let logs = [0, 1].map(|log| pattern.log(log, entries / 2, &mut noise));
        let entries = logs[0].len() + logs[1].len();
        let numbers = |log: &Vec<Entry>| log.concat();
        let mut case = Self {
            rust: [
                rust::Log::of(&logs[0]),
                rust::Log::of(&logs[1]),
                rust::Log::with_capacity(entries),
            ],
            port: [numbers(&logs[0]), numbers(&logs[1]), vec![0; 7 * entries]],
            merged: 0,
        };
        case.compare(entries);
        case
    }

    /// Both come to the same, before anything is measured.
    fn compare(&mut self, entries: usize) {
        let [first, second, third] = &mut self.port;
        let answer = port::merge_logs(first, second, third);
        let merged: Vec<Entry> = third[..7 * answer.written]
            .chunks_exact(7)
            .map(|entry| entry.try_into().expect("seven numbers"))
            .collect();
        let [first, second, third] = &mut self.rust;
        let rest = third.merge(first, second).len();
        assert!(answer.answer.kind == 0 && answer.rest_length == 7 * rest);
        assert!(third.has(&merged) && merged.len() + rest == entries);
        self.merged = merged.len();
    }
}

impl Case for MergeLogs {
    fn rust(&mut self, laps: u32) {
        let [first, second, third] = &mut self.rust;
        for _ in 0..laps {
            third.clear();
            black_box(third.merge(black_box(first), black_box(second)));
            assert_eq!(third.len(), self.merged);
        }
    }

    fn port(&mut self, laps: u32) {
        let [first, second, third] = &mut self.port;
        for _ in 0..laps {
            let answer = port::merge_logs(black_box(first), black_box(second), third);
            assert!(answer.answer.kind == 0 && answer.written == self.merged);
        }
    }
}

impl Tested for MergeLogs {
    fn calls(&self) -> u32 {
        1
    }

    /// The call is handed no set.
    fn test(&self, _: u32) {}
}
