//! Which use is each camera's picture in? The texture state tracker of wgpu-core, proved in Rattle, for frame code.
//!
//! A sorter's cameras fill the layers of a texture array, smaller pictures (mips) are made of them, and a classifier
//! reads them all:
//!
//! ```text
//!                     mip 0          mip 1      mip 2
//!   camera 0  ─►  layer 0  ▓▓▓▓▓▓▓▓    ▓▓▓▓       ▓▓
//!   camera 1  ─►  layer 1  ▓▓▓▓▓▓▓▓    ▓▓▓▓       ▓▓   ─►  classifier
//!      ...           ...
//!   camera 7  ─►  layer 7  ▓▓▓▓▓▓▓▓    ▓▓▓▓       ▓▓
//! ```
//!
//! Each square, a mip of a layer, is a *subresource* and is at every moment in one *state*: being copied into, being
//! drawn to, being read. The driver has to be told of each change, and a square that is read while it is written is a
//! picture of nothing. Two kinds of sets keep account of this:
//!
//! - A [`UsageScope`] holds the uses of one pass, which happen at the same time. Reads are united; a use that excludes
//!   others, beside any other, is a [`Conflict`], reported with its mips, layers and both states.
//! - A [`TextureTracker`] puts passes in order. Each call that takes it further writes the changes that the driver has
//!   to be told into a [`TransitionLog`]. Two logs are merged into one by [`merge_logs`].
//!
//! A [`Plan`] has the uses of a frame in groups; it is read from a file and written to one.
//!
//! # Quick start
//!
//! ```
//! use texture_tracker::*;
//!
//! # fn main() -> Result<(), Box<dyn std::error::Error>> {
//! let extent = Extent::new(1, 8);                                              // one mip, eight cameras
//! let beans = Texture::new(TrackerIndex(0), extent);
//! let mut tracker = TextureTracker::open(1, extent, uses::FLAGS, uses::ORDERED)?;
//! let mut log = TransitionLog::with_room_for(1, extent);
//! tracker.set_single(beans, extent.full_range(), uses::UNINITIALIZED, &mut log)?;   // a new texture: logs nothing
//! tracker.set_single(beans, extent.full_range(), uses::COPY_DST, &mut log)?;        // the pictures are copied in
//!
//! let mut pass = UsageScope::open(1, extent, uses::FLAGS)?;
//! pass.merge_single(beans, None, uses::RESOURCE)?;                                  // the classifier reads them all
//! tracker.set_from_usage_scope(&pass, &mut log)?;
//! let told: Vec<String> = log.drain_transitions().map(|transition| format!("{transition:#}")).collect();
//! assert_eq!(told, [
//!     "texture 0, mip 0, layers 0 to 7: UNINITIALIZED to COPY_DST",
//!     "texture 0, mip 0, layers 0 to 7: COPY_DST to RESOURCE",
//! ]);
//! # Ok(())
//! # }
//! ```
//!
//! `./demo` at the top of the repository shows a whole frame; [`TextureStates::grid`] draws a texture. Module
//! [`record`](record/index.html) keeps the calls of a running program in a file, to be replayed when something went wrong.
//!
//! # What holds
//!
//! Behind these calls is a library that is proved, for every input: a call ends, stays inside the memory that it
//! borrows, and returns what the definitions say, which are those of wgpu-core's `track/texture.rs` on plain lists, and
//! of [`merge_logs`] and of a [`Plan`]'s files those of `docs/RULES.md`; a refusal changes nothing. This crate provides
//! the memory, names what is returned, and is not proved: it is tested against wgpu-core's own code (`tests/oracle.rs`),
//! and its plans beside plain lines (`tests/plans.rs`). A set or a log takes all its memory at opening, and no call on it
//! takes more; a plan grows. No call panics. States are any 16 bits, told apart by [`UsageFlags`]; [`uses`] has wgpu's.
//!
//! # Building
//!
//! The crate links `libtexture_tracker.a`, for x86-64 Linux. It is found in `target/lib` of the repository, where
//! `tools/library` writes it, in `lib` of a tarball, or in the directory that `TEXTURE_TRACKER_LIB_DIR` names. Only
//! linking needs it: `cargo check` and `cargo doc` do without.
//!
//! The crate is `no_std` and uses `alloc`. The feature `std`, on by default, adds module `record`, which writes files.
#![no_std]
#![deny(missing_docs, unsafe_code, unsafe_op_in_unsafe_fn)]
#![warn(clippy::pedantic)]

extern crate alloc;
#[cfg(any(feature = "std", test))]
extern crate std;

mod errors;
mod grid;
mod log;
mod plan;
#[cfg(feature = "std")]
pub mod record;
mod scope;
mod state;
mod states;
mod storage;
#[rustfmt::skip]
mod sys;
#[cfg(test)]
mod tests;
mod tracker;
pub mod uses;
mod values;

pub use errors::{Conflict, MergeError, Refusal};
pub use grid::Grid;
pub use log::{merge_logs, PendingTransition, Rest, TransitionLog, Transitions};
pub use plan::{NumberTooLarge, Plan, PlanItem, PlanItems, Use};
pub use scope::UsageScope;
pub use state::{ParseStateError, State};
pub use states::TextureStates;
pub use tracker::TextureTracker;
pub use values::{Extent, Layer, Mip, Selector, Span, Texture, TrackerIndex, UsageFlags};

/// The Rust examples of the repository's README, as documentation tests (`build.rs` takes them out).
#[cfg(doctest)]
#[doc = include_str!(concat!(env!("OUT_DIR"), "/readme.md"))]
struct Readme;

/// The same of this crate's README.
#[cfg(doctest)]
#[doc = include_str!("../README.md")]
struct CrateReadme;
