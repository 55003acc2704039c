//! The tracker's calls under plain types, for a program in the same process. A method that is named after a call of texture.rs is
//! that call, made with what it is handed.
use crate::{
    resource,
    track::{
        texture::{
            peek::{self, uses},
            TextureTracker, TextureUsageScope, TextureViewBindGroupState,
        },
        PendingTransition, PendingTransitionList,
    },
    StateTransition, TextureSelector, TextureUses,
};
use std::sync::Arc;

pub struct Texture(Arc<resource::Texture>);

impl Texture {
    pub fn new(index: u32, mips: u32, layers: u32) -> Self {
        Self(resource::Texture::new(index, mips, layers))
    }
}

/// Mip start, mip end, layer start, layer end.
pub type Selector = [u32; 4];

fn selector(q: Selector) -> TextureSelector {
    TextureSelector {
        mips: q[0]..q[1],
        layers: q[2]..q[3],
    }
}

/// One half of what is held of a texture: a scope has one, a tracker start and end.
pub enum Half {
    Single(u16),
    /// For each mip its ranges: layer start, layer end, state.
    Many(Vec<Vec<(u32, u32, u16)>>),
}

fn held(texture: &Texture, halves: &[&Half]) -> peek::Held {
    let half = |half: &&Half| match half {
        Half::Single(state) => peek::Half::Single(*state),
        Half::Many(mips) => peek::Half::Many(mips.clone()),
    };
    peek::Held {
        texture: Arc::clone(&texture.0),
        halves: halves.iter().map(half).collect(),
    }
}

pub struct Scope(TextureUsageScope);

impl Scope {
    pub fn open(textures: usize) -> Self {
        let mut scope = TextureUsageScope::default();
        scope.set_size(textures);
        Self(scope)
    }

    /// Makes a texture owned, held as told.
    pub fn put(&mut self, texture: &Texture, half: &Half) {
        peek::put_in_scope(&mut self.0, held(texture, &[half]));
    }

    /// Makes a texture owned again that a sparse call removed; its states are still there.
    pub fn own(&mut self, texture: &Texture) {
        peek::own(&mut self.0, &texture.0);
    }

    /// Whether no conflict was met.
    pub fn merge_single(&mut self, texture: &Texture, q: Option<Selector>, state: u16) -> bool {
        unsafe {
            self.0
                .merge_single(&texture.0, q.map(selector), uses(state))
        }
        .is_ok()
    }

    pub fn merge_usage_scope(&mut self, scope: &Scope) -> bool {
        self.0.merge_usage_scope(&scope.0).is_ok()
    }
}

/// The views of textures that the sparse call is handed.
pub struct Views(TextureViewBindGroupState);

impl Views {
    pub fn of(textures: &[Texture]) -> Self {
        let mut views = TextureViewBindGroupState::new();
        for texture in textures {
            let parent = Arc::clone(&texture.0);
            let selector = parent.full_range.clone();
            let view = Arc::new(resource::TextureView { parent, selector });
            views.insert_single(view, uses(0));
        }
        Self(views)
    }
}

pub struct Tracker(TextureTracker);

impl Tracker {
    pub fn open(textures: usize, mask: u16) -> Self {
        let mut tracker = TextureTracker::new(uses(mask));
        tracker.set_size(textures);
        Self(tracker)
    }

    /// Makes a texture owned, held as told.
    pub fn put(&mut self, texture: &Texture, start: &Half, end: &Half) {
        peek::put_in_tracker(&mut self.0, held(texture, &[start, end]));
    }

    /// Drops the transitions, which drains them, and tells how many there were.
    pub fn set_single(&mut self, texture: &Texture, q: Selector, state: u16) -> usize {
        self.0
            .set_single(&texture.0, selector(q), uses(state))
            .len()
    }

    pub fn set_from_usage_scope(&mut self, scope: &Scope) {
        self.0.set_from_usage_scope(&scope.0);
    }

    pub fn set_from_tracker(&mut self, tracker: &Tracker) {
        self.0.set_from_tracker(&tracker.0);
    }

    pub fn set_and_remove_from_usage_scope_sparse(&mut self, scope: &mut Scope, views: &Views) {
        self.0
            .set_and_remove_from_usage_scope_sparse(&mut scope.0, &views.0);
    }

    /// How many transitions are pending.
    pub fn pending(&self) -> usize {
        peek::pending(&self.0).len()
    }

    /// Forgets the pending transitions. `drain_transitions` would copy them to a new vector first.
    pub fn forget(&mut self) {
        peek::forget(&mut self.0);
    }
}

/// Index, mip start, mip end, layer start, layer end, old state, new state.
pub type Entry = [u32; 7];

fn transition(entry: &Entry) -> PendingTransition<TextureUses> {
    let &[id, a, b, c, d, from, to] = entry;
    let [from, to] = [from, to].map(|state| uses(state as u16));
    PendingTransition {
        id,
        selector: selector([a, b, c, d]),
        usage: StateTransition { from, to },
    }
}

/// It derives no `Clone`.
fn copy(of: &PendingTransition<TextureUses>) -> PendingTransition<TextureUses> {
    PendingTransition {
        id: of.id,
        selector: of.selector.clone(),
        usage: of.usage.clone(),
    }
}

/// Transitions in a vector, as a tracker keeps them.
pub struct Log(PendingTransitionList);

/// What a merge leaves of one of two logs.
pub struct Rest<'a>(&'a [PendingTransition<TextureUses>]);

impl Log {
    pub fn of(entries: &[Entry]) -> Self {
        Self(entries.iter().map(transition).collect())
    }

    pub fn with_capacity(entries: usize) -> Self {
        Self(Vec::with_capacity(entries))
    }

    pub fn len(&self) -> usize {
        self.0.len()
    }

    pub fn clear(&mut self) {
        self.0.clear();
    }

    /// Whether it has these transitions.
    pub fn has(&self, entries: &[Entry]) -> bool {
        self.0 == Log::of(entries).0
    }

    /// wgpu-core has no such call. This is the plain one: two places, the lower index goes first and of equal ones the first log's,
    /// until a log is used up. Nothing is checked.
    pub fn merge<'a>(&mut self, first: &'a Log, second: &'a Log) -> Rest<'a> {
        let (first, second) = (&first.0[..], &second.0[..]);
        let (mut i, mut j) = (0, 0);
        while i < first.len() && j < second.len() {
            if second[j].id < first[i].id {
                self.0.push(copy(&second[j]));
                j += 1;
            } else {
                self.0.push(copy(&first[i]));
                i += 1;
            }
        }
        Rest(if i < first.len() {
            &first[i..]
        } else {
            &second[j..]
        })
    }
}

impl Rest<'_> {
    pub fn len(&self) -> usize {
        self.0.len()
    }
}
