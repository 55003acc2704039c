//! The parts of upstream/mod.rs that texture.rs leans on. What stands between the marks is
//! verbatim; tools/verify.py checks it.

#[path = "../../../upstream/metadata.rs"]
mod metadata;
#[path = "../../../upstream/range.rs"]
pub(crate) mod range;
// upstream/texture.rs and one line more: see build.rs.
include!(concat!(env!("OUT_DIR"), "/texture_mod.rs"));

use crate::resource::{self, ResourceErrorIdent};
use alloc::vec::Vec;
use bitflags::Flags;
use core::{fmt, ops};
use metadata::{ResourceMetadata, ResourceMetadataProvider};
use thiserror::Error;
use wgt::strict_assert_ne;

// >>> verbatim
#[repr(transparent)]
#[derive(Copy, Clone, Debug, PartialEq, Eq, Hash, PartialOrd, Ord)]
pub(crate) struct TrackerIndex(u32);

impl TrackerIndex {
    pub fn as_usize(self) -> usize {
        self.0 as usize
    }
}
// <<<

impl TrackerIndex {
    pub fn new(index: u32) -> Self {
        Self(index)
    }
}

// >>> verbatim
/// A structure containing all the information about a particular resource
/// transition. User code should be able to generate a pipeline barrier
/// based on the contents.
#[derive(Debug, PartialEq)]
pub(crate) struct PendingTransition<S: ResourceUses> {
    pub id: u32,
    pub selector: S::Selector,
    pub usage: hal::StateTransition<S>,
}

pub(crate) type PendingTransitionList = Vec<PendingTransition<wgt::TextureUses>>;
// <<<

// >>> verbatim
impl PendingTransition<wgt::TextureUses> {
    /// Produce the hal barrier corresponding to the transition.
    pub fn into_hal(
        self,
        texture: &dyn hal::DynTexture,
    ) -> hal::TextureBarrier<'_, dyn hal::DynTexture> {
        // These showing up in a barrier is always a bug
        strict_assert_ne!(self.usage.from, wgt::TextureUses::UNKNOWN);
        strict_assert_ne!(self.usage.to, wgt::TextureUses::UNKNOWN);

        let mip_count = self.selector.mips.end - self.selector.mips.start;
        strict_assert_ne!(mip_count, 0);
        let layer_count = self.selector.layers.end - self.selector.layers.start;
        strict_assert_ne!(layer_count, 0);

        hal::TextureBarrier {
            texture,
            range: wgt::ImageSubresourceRange {
                aspect: wgt::TextureAspect::All,
                base_mip_level: self.selector.mips.start,
                mip_level_count: Some(mip_count),
                base_array_layer: self.selector.layers.start,
                array_layer_count: Some(layer_count),
            },
            usage: self.usage,
        }
    }
}
// <<<

// >>> verbatim
/// The uses that a resource or subresource can be in.
pub(crate) trait ResourceUses:
    fmt::Debug + ops::BitAnd<Output = Self> + ops::BitOr<Output = Self> + PartialEq + Sized + Copy
{
    /// All flags that are exclusive.
    const EXCLUSIVE: Self;

    /// The selector used by this resource.
    type Selector: fmt::Debug;

    /// Turn the resource into a pile of bits.
    fn bits(self) -> u16;
    /// Returns true if any of the uses are exclusive.
    fn any_exclusive(self) -> bool;
}

/// Returns true if the given states violates the usage scope rule
/// of any(inclusive) XOR one(exclusive)
fn invalid_resource_state<T: ResourceUses>(state: T) -> bool {
    // Is power of two also means "is one bit set". We check for this as if
    // we're in any exclusive state, we must only be in a single state.
    state.any_exclusive() && !state.bits().is_power_of_two()
}

/// Returns true if the transition from one state to another does not require
/// a barrier.
fn skip_barrier<F: Flags>(old_state: F, ordered_uses_mask: F, new_state: F) -> bool {
    // If the state didn't change and all the usages are ordered, the hardware
    // will guarantee the order of accesses, so we do not need to issue a barrier at all
    old_state.bits() == new_state.bits() && ordered_uses_mask.contains(old_state)
}
// <<<

#[derive(Clone, Debug, Error)]
pub enum ResourceUsageCompatibilityError {
// >>> verbatim
    #[error(
        "Attempted to use {res} (mips {mip_levels:?} layers {array_layers:?}) with {invalid_use}."
    )]
    Texture {
        res: ResourceErrorIdent,
        mip_levels: ops::Range<u32>,
        array_layers: ops::Range<u32>,
        invalid_use: InvalidUse<wgt::TextureUses>,
    },
}
// <<<

impl ResourceUsageCompatibilityError {
// >>> verbatim
    fn from_texture(
        texture: &resource::Texture,
        selector: wgt::TextureSelector,
        current_state: wgt::TextureUses,
        new_state: wgt::TextureUses,
    ) -> Self {
        Self::Texture {
            res: texture.error_ident(),
            mip_levels: selector.mips,
            array_layers: selector.layers,
            invalid_use: InvalidUse {
                current_state,
                new_state,
            },
        }
    }
}
// <<<

// >>> verbatim
/// Pretty print helper that shows helpful descriptions of a conflicting usage.
#[derive(Clone, Debug, Eq, PartialEq)]
pub struct InvalidUse<T> {
    current_state: T,
    new_state: T,
}
// <<<
