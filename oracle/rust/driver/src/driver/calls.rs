//! Opening, the two merges and the four tracker calls, made as wgpu-core makes them.
use super::words::{malformed, Words};
use crate::{
    resource::{Texture, TextureInner, TextureView},
    snatch::SnatchGuard,
    track::{
        texture::{
            peek::{self, uses, Held, Set},
            TextureTracker, TextureUsageScope, TextureViewBindGroupState,
        },
        PendingTransition, ResourceUsageCompatibilityError,
    },
    TextureUses,
};
use std::sync::Arc;

#[derive(Default)]
pub(super) struct Answer {
    pub conflict: Option<[u32; 7]>,
    pub transitions: Vec<[u32; 7]>,
}

impl Answer {
    fn of_merge(result: Result<(), ResourceUsageCompatibilityError>) -> Self {
        Self {
            conflict: result.err().map(|error| peek::conflict(&error)),
            transitions: vec![],
        }
    }

    fn of_log(log: impl IntoIterator<Item = PendingTransition<TextureUses>>) -> Self {
        Self {
            conflict: None,
            transitions: log.into_iter().map(numbers).collect(),
        }
    }

    /// What the tracker keeps in `temp` until it is drained.
    fn of_pending(tracker: &mut TextureTracker) -> Self {
        let guard = SnatchGuard::default();
        Self::of_log(tracker.drain_transitions(&guard).0)
    }
}

/// The numbers of a log entry. `into_hal` has assertions of its own on them.
fn numbers(pending: PendingTransition<TextureUses>) -> [u32; 7] {
    let index = pending.id;
    let (mips, layers) = (
        pending.selector.mips.clone(),
        pending.selector.layers.clone(),
    );
    let barrier = pending.into_hal(&TextureInner);
    [
        index,
        mips.start,
        mips.end,
        layers.start,
        layers.end,
        barrier.usage.from.bits().into(),
        barrier.usage.to.bits().into(),
    ]
}

/// The sets of a case, by the numbers that its lines give them.
#[derive(Default)]
pub(super) struct Sets(Vec<Option<Set>>);

impl Sets {
    pub fn opened(&self) -> impl Iterator<Item = (usize, &Set)> {
        let numbered = self.0.iter().enumerate();
        numbered.filter_map(|(number, set)| Some((number, set.as_ref()?)))
    }

    fn open(&mut self, number: usize, set: Set) -> Answer {
        if self.0.len() <= number {
            self.0.resize_with(number + 1, || None);
        }
        self.0[number] = Some(set);
        Answer::default()
    }

    fn get(&mut self, number: u32) -> &mut Set {
        let set = self.0.get_mut(number as usize).and_then(Option::as_mut);
        set.unwrap_or_else(|| malformed("no such set"))
    }

    fn scope(&mut self, words: &mut Words) -> &mut TextureUsageScope {
        as_scope(self.get(words.number()))
    }

    fn tracker(&mut self, words: &mut Words) -> &mut TextureTracker {
        as_tracker(self.get(words.number()))
    }

    /// The set that is changed, and another one that is handed in.
    fn two(&mut self, words: &mut Words) -> (&mut Set, &mut Set) {
        let (to, from) = (words.number() as usize, words.number() as usize);
        if to == from || to.max(from) >= self.0.len() {
            malformed("two different sets are needed");
        }
        let (low, high) = self.0.split_at_mut(to.max(from));
        let (first, second) = (low[to.min(from)].as_mut(), high[0].as_mut());
        match (first, second) {
            (Some(first), Some(second)) if to < from => (first, second),
            (Some(first), Some(second)) => (second, first),
            _ => malformed("no such set"),
        }
    }
}

fn as_scope(set: &mut Set) -> &mut TextureUsageScope {
    match set {
        Set::Scope(scope) => scope,
        Set::Tracker(_) => malformed("not a scope"),
    }
}

fn as_tracker(set: &mut Set) -> &mut TextureTracker {
    match set {
        Set::Tracker(tracker) => tracker,
        Set::Scope(_) => malformed("not a tracker"),
    }
}

fn texture(words: &mut Words) -> Arc<Texture> {
    Texture::new(words.number(), words.number(), words.number())
}

/// N, after which M, W, and the usage flags, which must be those of this build, are passed over:
/// the Rust has no limits.
fn opening(words: &mut Words) -> usize {
    let [n, _m, _w] = [words.number(), words.number(), words.number()];
    let flags = [words.bits(), words.bits(), words.bits(), words.bits()];
    if flags
        != [
            crate::EXCLUSIVE,
            crate::UNINITIALIZED,
            crate::COMPLEX,
            crate::UNKNOWN,
        ]
    {
        malformed("this driver was built for other usage flags");
    }
    n as usize
}

/// Makes the call of a line, if it is one of these.
pub(super) fn call(word: &str, words: &mut Words, sets: &mut Sets) -> Option<Answer> {
    Some(match word {
        "open_scope" => open_scope(words, sets),
        "open_tracker" => open_tracker(words, sets),
        "merge_single" => merge_single(words, sets),
        "merge_usage_scope" => {
            let (to, from) = sets.two(words);
            Answer::of_merge(as_scope(to).merge_usage_scope(as_scope(from)))
        }
        "set_single" => set_single(words, sets),
        "set_from_usage_scope" => {
            let (to, from) = sets.two(words);
            as_tracker(to).set_from_usage_scope(as_scope(from));
            Answer::of_pending(as_tracker(to))
        }
        "set_from_tracker" => {
            let (to, from) = sets.two(words);
            as_tracker(to).set_from_tracker(as_tracker(from));
            Answer::of_pending(as_tracker(to))
        }
        "set_and_remove_from_usage_scope_sparse" => sparse(words, sets),
        _ => return None,
    })
}

fn open_scope(words: &mut Words, sets: &mut Sets) -> Answer {
    let number = words.number() as usize;
    let mut scope = TextureUsageScope::default();
    scope.set_size(opening(words));
    sets.open(number, Set::Scope(scope))
}

fn open_tracker(words: &mut Words, sets: &mut Sets) -> Answer {
    let number = words.number() as usize;
    let size = opening(words);
    let mut tracker = TextureTracker::new(words.state());
    tracker.set_size(size);
    sets.open(number, Set::Tracker(tracker))
}

fn merge_single(words: &mut Words, sets: &mut Sets) -> Answer {
    let scope = sets.scope(words);
    let (texture, state, selector) = (texture(words), words.state(), words.selector());
    Answer::of_merge(unsafe { scope.merge_single(&texture, selector, state) })
}

fn set_single(words: &mut Words, sets: &mut Sets) -> Answer {
    let tracker = sets.tracker(words);
    let (texture, state, selector) = (texture(words), words.state(), words.selector());
    // The Rust has no call without a selector here; the full range is the same use.
    let selector = selector.unwrap_or(texture.full_range.clone());
    Answer::of_log(tracker.set_single(&texture, selector, state))
}

fn sparse(words: &mut Words, sets: &mut Sets) -> Answer {
    let (to, from) = sets.two(words);
    let (tracker, scope) = (as_tracker(to), as_scope(from));
    let mut list = TextureViewBindGroupState::new();
    for index in words.numbers() {
        // The texture is the one that the scope owns; of one it does not own, only the index is read.
        let parent = peek::owned_texture(scope, index).unwrap_or(Texture::new(index, 1, 1));
        let selector = parent.full_range.clone();
        list.insert_single(Arc::new(TextureView { parent, selector }), uses(0));
    }
    tracker.set_and_remove_from_usage_scope_sparse(scope, &list);
    Answer::of_pending(tracker)
}

/// Puts a state in without a call.
pub(super) fn put(words: &mut Words, sets: &mut Sets) {
    let set = sets.get(words.number());
    let texture = texture(words);
    let mips = texture.full_range.mips.end;
    let halves = match set {
        Set::Scope(_) => vec![words.half(mips)],
        Set::Tracker(_) => vec![words.half(mips), words.half(mips)],
    };
    set.put(Held { texture, halves });
}
