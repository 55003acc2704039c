//! Stand-ins for wgpu-hal (`hal`): what a transition is made of.
use crate::{ImageSubresourceRange, TextureUses};

/// As in wgpu-hal, and document 01's limit of M.
pub(crate) const MAX_MIP_LEVELS: u32 = 16;

pub(crate) trait DynTexture: std::fmt::Debug + 'static {}

#[derive(Debug, Clone, PartialEq)]
pub(crate) struct StateTransition<T> {
    pub from: T,
    pub to: T,
}

#[derive(Debug)]
pub(crate) struct TextureBarrier<'a, T: DynTexture + ?Sized> {
    pub texture: &'a T,
    pub range: ImageSubresourceRange,
    pub usage: StateTransition<TextureUses>,
}
