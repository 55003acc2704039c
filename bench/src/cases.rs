//! The calls that are measured. Each case keeps the same sets twice, the Rust's and the port's, and makes the same calls on both.
//! A call leaves its sets as they were, or the next one brings them back, so laps can follow each other; only the sparse call, which
//! takes textures out of a scope, has them put back between laps, and that is not timed.
use crate::port::{self, LoggedAnswer, Size};
use crate::states::{Pattern, States};
use driver::direct::{self as rust, Half, Selector};
use std::hint::black_box;

/// How the textures of a set are held.
#[derive(Clone, Copy, PartialEq)]
pub enum Kind {
    Single,
    /// Every layer of every mip a range of its own.
    Many,
    /// One range a mip, which a call cuts and the next one joins again.
    Cut,
}

/// What a set holds: textures, how, their layers and states. Each has two mips, so that one mip is a part.
#[derive(Clone, Copy)]
pub struct Shape {
    pub textures: u32,
    pub kind: Kind,
    pub layers: u32,
    /// For a test or a merge. Calls that set need states which differ from those held, and have their own.
    pub states: States,
}

const MIPS: u32 = 2;
/// The ordered mask.
const MASK: u16 = 10;

impl Shape {
    fn size(self) -> Size {
        Size {
            n: self.textures,
            m: MIPS,
            w: self.layers,
        }
    }

    /// The ranges of one half of all textures; a Single texture has none.
    pub fn ranges(self) -> u32 {
        match self.kind {
            Kind::Single => 0,
            Kind::Many => self.textures * MIPS * self.layers,
            Kind::Cut => self.textures * MIPS,
        }
    }

    /// A texture in one state, or with two that alternate from layer to layer.
    fn half(self, states: [u16; 2]) -> Half {
        let ranges = match self.kind {
            Kind::Single => return Half::Single(states[0]),
            Kind::Cut => vec![(0, self.layers, states[0])],
            Kind::Many => (0..self.layers)
                .map(|layer| (layer, layer + 1, states[layer as usize % 2]))
                .collect(),
        };
        Half::Many(vec![ranges; MIPS as usize])
    }

    /// The texture that calls on one texture name, and what they name of it: one layer of one mip, or all of a Single texture.
    fn named(self) -> (u32, Option<Selector>) {
        let layer = (self.layers / 2) & !1;
        let part = [0, 1, layer, layer + 1];
        (
            self.textures / 2,
            (self.kind != Kind::Single).then_some(part),
        )
    }

    fn textures(self) -> Vec<rust::Texture> {
        (0..self.textures)
            .map(|index| rust::Texture::new(index, MIPS, self.layers))
            .collect()
    }

    pub fn scopes(self, pattern: Pattern) -> (rust::Scope, port::Scope) {
        let halves = pattern.map(|states| self.half(states));
        let mut scopes = (
            rust::Scope::open(self.textures as usize),
            port::Scope::open(self.size()),
        );
        for (i, texture) in self.textures().iter().enumerate() {
            let half = &halves[i % 2];
            scopes.0.put(texture, half);
            scopes.1.put(i, MIPS, self.layers, half);
        }
        scopes
    }

    pub fn trackers(self, pattern: Pattern) -> (rust::Tracker, port::Tracker) {
        let halves = pattern.map(|states| self.half(states));
        let mut trackers = (
            rust::Tracker::open(self.textures as usize, MASK),
            port::Tracker::open(self.size(), MASK),
        );
        for (i, texture) in self.textures().iter().enumerate() {
            let half = &halves[i % 2];
            trackers.0.put(texture, half, half);
            trackers.1.put(i, MIPS, self.layers, half, half);
        }
        trackers
    }
}

/// The port's test of the sets that calls are handed. wgpu-core has none.
pub trait Tested {
    /// Calls in a lap.
    fn calls(&self) -> u32;
    /// Of the port's laps only the test of the sets that each call is handed.
    fn test(&self, laps: u32);
    /// Brings the sets back: whether that is needed before each lap.
    fn restore(&mut self) -> bool {
        false
    }
}

/// The same calls through the Rust and through the port.
pub trait Case: Tested {
    fn rust(&mut self, laps: u32);
    fn port(&mut self, laps: u32);
}

/// What the port logged: it must have been done.
fn logged(answer: LoggedAnswer) -> usize {
    assert_eq!(answer.answer.kind, 0);
    answer.written
}

/// `merge_single` of a use that the texture has already: a constant, as a state that is read would be an instruction more in each call.
struct MergeSingle<const STATE: u16> {
    rust: rust::Scope,
    port: port::Scope,
    texture: rust::Texture,
    index: u32,
    layers: u32,
    part: Option<Selector>,
}

/// For the state that the named texture has in an even layer, as the named one is.
pub fn merge_single(shape: Shape) -> Box<dyn Case> {
    let (index, _) = shape.named();
    match shape.states.pattern()[index as usize % 2][0] {
        2 => Box::new(MergeSingle::<2>::new(shape)),
        4 => Box::new(MergeSingle::<4>::new(shape)),
        state => panic!("no merge of state {state}"),
    }
}

impl<const STATE: u16> MergeSingle<STATE> {
    fn new(shape: Shape) -> Self {
        let (rust, port) = shape.scopes(shape.states.pattern());
        let (index, part) = shape.named();
        let texture = rust::Texture::new(index, MIPS, shape.layers);
        Self {
            rust,
            port,
            texture,
            index,
            layers: shape.layers,
            part,
        }
    }
}

impl<const STATE: u16> Case for MergeSingle<STATE> {
    fn rust(&mut self, laps: u32) {
        for _ in 0..laps {
            let part = black_box(self.part);
            assert!(self
                .rust
                .merge_single(black_box(&self.texture), part, black_box(STATE)));
        }
    }

    fn port(&mut self, laps: u32) {
        for _ in 0..laps {
            let part = black_box(self.part);
            let answer = self.port.merge_single(
                black_box(self.index),
                MIPS,
                self.layers,
                part,
                black_box(STATE),
            );
            assert_eq!(answer.kind, 0);
        }
    }
}

impl<const STATE: u16> Tested for MergeSingle<STATE> {
    fn calls(&self) -> u32 {
        1
    }

    fn test(&self, laps: u32) {
        for _ in 0..laps {
            assert!(black_box(&self.port).is_well_formed());
        }
    }
}

/// `merge_usage_scope` of a scope that holds the same.
pub struct MergeScope {
    rust: [rust::Scope; 2],
    port: [port::Scope; 2],
}

impl MergeScope {
    pub fn new(shape: Shape) -> Self {
        let pattern = shape.states.pattern();
        let (to, from) = (shape.scopes(pattern), shape.scopes(pattern));
        Self {
            rust: [to.0, from.0],
            port: [to.1, from.1],
        }
    }
}

impl Case for MergeScope {
    fn rust(&mut self, laps: u32) {
        let [to, from] = &mut self.rust;
        for _ in 0..laps {
            assert!(to.merge_usage_scope(black_box(from)));
        }
    }

    fn port(&mut self, laps: u32) {
        let [to, from] = &mut self.port;
        for _ in 0..laps {
            assert_eq!(to.merge_usage_scope(black_box(from)).kind, 0);
        }
    }
}

impl Tested for MergeScope {
    fn calls(&self) -> u32 {
        1
    }

    fn test(&self, laps: u32) {
        for _ in 0..laps {
            for scope in &self.port {
                assert!(black_box(scope).is_well_formed());
            }
        }
    }
}

/// `set_single` to another state and back, with a transition each.
pub struct SetSingle {
    rust: rust::Tracker,
    port: port::Tracker,
    texture: rust::Texture,
    index: u32,
    layers: u32,
    part: Selector,
}

impl SetSingle {
    pub fn new(shape: Shape) -> Self {
        let (rust, port) = shape.trackers([[4, 8]; 2]);
        let (index, part) = shape.named();
        let texture = rust::Texture::new(index, MIPS, shape.layers);
        let part = part.unwrap_or([0, MIPS, 0, shape.layers]);
        Self {
            rust,
            port,
            texture,
            index,
            layers: shape.layers,
            part,
        }
    }
}

impl Case for SetSingle {
    fn rust(&mut self, laps: u32) {
        for _ in 0..laps {
            for state in [16, 4] {
                let part = black_box(self.part);
                assert_eq!(
                    self.rust
                        .set_single(black_box(&self.texture), part, black_box(state)),
                    1
                );
            }
        }
    }

    fn port(&mut self, laps: u32) {
        for _ in 0..laps {
            for state in [16, 4] {
                let part = black_box(self.part);
                let answer = self.port.set_single(
                    black_box(self.index),
                    MIPS,
                    self.layers,
                    part,
                    black_box(state),
                );
                assert_eq!(logged(answer), 1);
            }
        }
    }
}

impl Tested for SetSingle {
    fn calls(&self) -> u32 {
        2
    }

    fn test(&self, laps: u32) {
        for _ in 0..2 * laps {
            assert!(black_box(&self.port).is_well_formed());
        }
    }
}

/// How many transitions a call that changes every state logs.
fn transitions(shape: Shape) -> usize {
    shape.ranges().max(shape.textures) as usize
}

/// `set_from_usage_scope` of a scope with other states and of one with the first, with a transition for each range.
pub struct SetScope {
    rust: (rust::Tracker, [rust::Scope; 2]),
    port: (port::Tracker, [port::Scope; 2]),
    transitions: usize,
}

impl SetScope {
    pub fn new(shape: Shape) -> Self {
        let tracker = shape.trackers([[4, 8]; 2]);
        let (other, first) = (shape.scopes([[16, 2]; 2]), shape.scopes([[4, 8]; 2]));
        Self {
            rust: (tracker.0, [other.0, first.0]),
            port: (tracker.1, [other.1, first.1]),
            transitions: transitions(shape),
        }
    }
}

impl Case for SetScope {
    fn rust(&mut self, laps: u32) {
        let (tracker, scopes) = &mut self.rust;
        for _ in 0..laps {
            for scope in &*scopes {
                tracker.set_from_usage_scope(black_box(scope));
                assert_eq!(tracker.pending(), self.transitions);
                tracker.forget();
            }
        }
    }

    fn port(&mut self, laps: u32) {
        let (tracker, scopes) = &mut self.port;
        for _ in 0..laps {
            for scope in &*scopes {
                assert_eq!(
                    logged(tracker.set_from_usage_scope(black_box(scope))),
                    self.transitions
                );
            }
        }
    }
}

impl Tested for SetScope {
    fn calls(&self) -> u32 {
        2
    }

    fn test(&self, laps: u32) {
        let (tracker, scopes) = &self.port;
        for _ in 0..laps {
            for scope in scopes {
                assert!(black_box(tracker).is_well_formed());
                assert!(black_box(scope).is_well_formed());
            }
        }
    }
}

/// `set_from_tracker` of a tracker with other start states, with a transition for each range.
pub struct Join {
    rust: [rust::Tracker; 2],
    port: [port::Tracker; 2],
    transitions: usize,
}

impl Join {
    pub fn new(shape: Shape) -> Self {
        let (start, end) = (shape.half([16, 2]), shape.half([4, 8]));
        let (to, mut from) = (shape.trackers([[4, 8]; 2]), shape.trackers([[4, 8]; 2]));
        for (i, texture) in shape.textures().iter().enumerate() {
            from.0.put(texture, &start, &end);
            from.1.put(i, MIPS, shape.layers, &start, &end);
        }
        Self {
            rust: [to.0, from.0],
            port: [to.1, from.1],
            transitions: transitions(shape),
        }
    }
}

impl Case for Join {
    fn rust(&mut self, laps: u32) {
        let [to, from] = &mut self.rust;
        for _ in 0..laps {
            to.set_from_tracker(black_box(from));
            assert_eq!(to.pending(), self.transitions);
            to.forget();
        }
    }

    fn port(&mut self, laps: u32) {
        let [to, from] = &mut self.port;
        for _ in 0..laps {
            assert_eq!(
                logged(to.set_from_tracker(black_box(from))),
                self.transitions
            );
        }
    }
}

impl Tested for Join {
    fn calls(&self) -> u32 {
        1
    }

    fn test(&self, laps: u32) {
        for _ in 0..laps {
            for tracker in &self.port {
                assert!(black_box(tracker).is_well_formed());
            }
        }
    }
}

/// `set_and_remove_from_usage_scope_sparse` with a list of all textures, of several scopes that are put back between laps.
pub struct Sparse {
    rust: (rust::Tracker, Vec<rust::Scope>),
    port: (port::Tracker, Vec<port::Scope>),
    textures: Vec<rust::Texture>,
    views: rust::Views,
    indices: Vec<u32>,
    transitions: usize,
}

impl Sparse {
    pub fn new(shape: Shape) -> Self {
        let tracker = shape.trackers([[4, 8]; 2]);
        // Enough calls a lap to bear the clock, and few enough to stay in the nearest cache.
        let scopes = if shape.ranges() > 256 { 2 } else { 16 };
        let states = [[16, 2], [4, 8]];
        let (mut ours, mut theirs) = (vec![], vec![]);
        for k in 0..scopes {
            let scope = shape.scopes([states[k % 2]; 2]);
            ours.push(scope.0);
            theirs.push(scope.1);
        }
        let textures = shape.textures();
        Self {
            rust: (tracker.0, ours),
            port: (tracker.1, theirs),
            views: rust::Views::of(&textures),
            textures,
            indices: (0..shape.textures).collect(),
            transitions: transitions(shape),
        }
    }
}

impl Case for Sparse {
    fn rust(&mut self, laps: u32) {
        let (tracker, scopes) = &mut self.rust;
        for _ in 0..laps {
            for scope in &mut *scopes {
                tracker.set_and_remove_from_usage_scope_sparse(scope, black_box(&self.views));
                assert_eq!(tracker.pending(), self.transitions);
                tracker.forget();
            }
        }
    }

    fn port(&mut self, laps: u32) {
        let (tracker, scopes) = &mut self.port;
        for _ in 0..laps {
            for scope in &mut *scopes {
                let answer =
                    tracker.set_and_remove_from_usage_scope_sparse(scope, black_box(&self.indices));
                assert_eq!(logged(answer), self.transitions);
            }
        }
    }
}

impl Tested for Sparse {
    fn calls(&self) -> u32 {
        self.rust.1.len() as u32
    }

    fn test(&self, laps: u32) {
        let (tracker, scopes) = &self.port;
        for _ in 0..laps {
            for scope in scopes {
                assert!(black_box(tracker).is_well_formed());
                assert!(black_box(scope).is_well_formed());
            }
        }
    }

    fn restore(&mut self) -> bool {
        for (ours, theirs) in self.rust.1.iter_mut().zip(&mut self.port.1) {
            for (i, texture) in self.textures.iter().enumerate() {
                ours.own(texture);
                theirs.own(i);
            }
        }
        true
    }
}
