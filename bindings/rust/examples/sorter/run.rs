//! A frame through the tracker: a usage scope for each pass, one tracker over all of them.
//!
//! Beside the tracker stands what it does not judge: which subresources were ever written.
use super::{
    area::Area,
    frame::{Frame, Late, Use},
    kinds,
};
use std::collections::BTreeMap;
use texture_tracker::*;

/// How many conflicts of a pass are looked into.
const CONFLICTS: usize = 8;

/// The sets of a run, opened for its textures.
pub struct Run<'a> {
    frame: &'a Frame<'a>,
    late: Option<&'a Late<'a>>,
    pub tracker: TextureTracker,
    pub scope: UsageScope,
    log: TransitionLog,
    /// For each texture, what a use has written.
    written: Vec<Area>,
}

/// What came of a pass.
#[derive(Default)]
pub struct Step<'a> {
    /// What the driver is told before it.
    pub transitions: Vec<PendingTransition>,
    /// What it reads that no use has written.
    pub unwritten: Vec<(TrackerIndex, Selector)>,
    /// If there are any, the pass is turned down.
    pub clashes: Vec<Clash<'a>>,
    /// Conflicts that are not among those.
    pub more: usize,
}

/// A conflict, the use that met it, and those that were there.
pub struct Clash<'a> {
    pub conflict: Conflict,
    pub new: &'a Use,
    pub held: Vec<&'a Use>,
}

impl<'a> Run<'a> {
    /// Every texture is created, as wgpu does it: all of it UNINITIALIZED.
    pub fn new(frame: &'a Frame<'a>, late: Option<&'a Late<'a>>) -> Result<Self, Refusal> {
        let (textures, largest) = frame.size();
        let mut run = Self {
            frame,
            late,
            tracker: TextureTracker::open(textures, largest, uses::FLAGS, uses::ORDERED)?,
            scope: UsageScope::open(textures, largest, uses::FLAGS)?,
            log: TransitionLog::with_room_for(textures, largest),
            written: vec![Area::default(); textures as usize],
        };
        for &(_, texture) in &frame.textures {
            run.tracker.set_single(texture, texture.extent.full_range(), uses::UNINITIALIZED, &mut run.log)?;
        }
        Ok(run)
    }

    /// Makes one pass.
    pub fn pass(&mut self, at: usize) -> Result<Step<'a>, Refusal> {
        let made = self.frame.uses_of(at, self.late);
        let mut step = self.merge(&made)?;
        if step.clashes.is_empty() {
            self.log.clear();
            self.tracker.set_from_usage_scope(&self.scope, &mut self.log)?;
            step.transitions = self.log.drain_transitions().collect();
            step.unwritten = self.contents(&made);
        }
        Ok(step)
    }

    /// All uses of a pass, in one scope. A conflict ends no more than its own use, so that each of several is told.
    fn merge(&mut self, made: &[&'a Use]) -> Result<Step<'a>, Refusal> {
        let mut step = Step::default();
        self.scope.clear();
        for (at, new) in made.iter().enumerate() {
            match self.scope.merge_single(new.texture, new.selector, new.state) {
                Ok(()) => {}
                Err(MergeError::Refused(refusal)) => return Err(refusal),
                Err(MergeError::Conflict(_)) if step.clashes.len() == CONFLICTS => step.more += 1,
                Err(MergeError::Conflict(conflict)) => {
                    let held = met(&made[..at], &conflict);
                    step.clashes.push(Clash { conflict, new, held });
                }
            }
        }
        Ok(step)
    }

    /// What the pass reads and no earlier one has written; then takes in what it writes itself.
    fn contents(&mut self, made: &[&Use]) -> Vec<(TrackerIndex, Selector)> {
        let mut read: BTreeMap<TrackerIndex, Area> = BTreeMap::new();
        for one in made.iter().filter(|one| kinds::reads(one.state)) {
            read.entry(one.texture.index).or_default().add(&one.part());
        }
        let mut unwritten = vec![];
        for (index, read) in read {
            let parts = read.without(&self.written[index.0 as usize]).parts();
            unwritten.extend(parts.into_iter().map(|part| (index, part)));
        }
        for one in made.iter().filter(|one| kinds::writes(one.state)) {
            self.written[one.texture.index.0 as usize].add(&one.part());
        }
        unwritten
    }
}

/// The uses that hold the subresource of which a conflict is certain: its first.
fn met<'a>(made: &[&'a Use], conflict: &Conflict) -> Vec<&'a Use> {
    let (mip, layer) = (conflict.selector.mips.start, conflict.selector.layers.start);
    let there = |one: &&&Use| one.texture.index == conflict.index && one.part().contains(mip, layer);
    let merged = |one: &&&Use| conflict.current_state.contains(one.state);
    made.iter().filter(there).filter(merged).copied().collect()
}
