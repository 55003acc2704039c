//! Stand-ins for crate::resource. Of a texture the tracker reads its index and its full range.
use crate::{snatch::SnatchGuard, track::TrackerIndex, DynTexture, TextureSelector};
use alloc::sync::Arc;

#[derive(Clone, Debug)]
pub(crate) struct ResourceErrorIdent {
    pub index: u32,
}

#[derive(Debug)]
pub(crate) struct TextureInner;

impl DynTexture for TextureInner {}

/// What `Texture::inner` answers: here always a texture that is not destroyed.
#[derive(Debug)]
pub(crate) struct Snatchable(pub TextureInner);

pub(crate) struct Snatched<'a>(&'a TextureInner);

impl Snatchable {
    pub fn get<'a>(&'a self, _: &'a SnatchGuard<'a>) -> Snatched<'a> {
        Snatched(&self.0)
    }
}

impl<'a> Snatched<'a> {
    pub fn maybe_valid(self) -> Option<&'a TextureInner> {
        Some(self.0)
    }
}

#[derive(Debug)]
pub(crate) struct Texture {
    pub index: u32,
    pub full_range: TextureSelector,
    pub inner: Snatchable,
}

impl Texture {
    pub fn new(index: u32, mips: u32, layers: u32) -> Arc<Self> {
        Arc::new(Self {
            index,
            full_range: TextureSelector {
                mips: 0..mips,
                layers: 0..layers,
            },
            inner: Snatchable(TextureInner),
        })
    }

    pub fn error_ident(&self) -> ResourceErrorIdent {
        ResourceErrorIdent { index: self.index }
    }
}

#[derive(Debug)]
pub(crate) struct TextureView {
    pub parent: Arc<Texture>,
    pub selector: TextureSelector,
}

pub(crate) trait Trackable {
    fn tracker_index(&self) -> TrackerIndex;
}

impl Trackable for Texture {
    fn tracker_index(&self) -> TrackerIndex {
        TrackerIndex::new(self.index)
    }
}

pub(crate) trait RawResourceAccess {
    fn try_raw<'a>(&'a self, guard: &'a SnatchGuard<'a>) -> Result<&'a dyn DynTexture, ()>;
}

impl RawResourceAccess for Texture {
    fn try_raw<'a>(&'a self, _: &'a SnatchGuard<'a>) -> Result<&'a dyn DynTexture, ()> {
        Ok(&self.inner.0)
    }
}
