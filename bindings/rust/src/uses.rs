//! wgpu's texture uses: the constants of wgpu-types' `TextureUses`.
//!
//! The tracker takes any others; nothing in it knows these.
use crate::{state::State, values::UsageFlags};
use alloc::{format, string::String};
use core::fmt;

/// Nothing is known of the contents. In a device's tracker a new texture is set to this first.
pub const UNINITIALIZED: State = State(1 << 0);
/// Ready to be presented.
pub const PRESENT: State = State(1 << 1);
/// The source of a copy.
pub const COPY_SRC: State = State(1 << 2);
/// The destination of a copy.
pub const COPY_DST: State = State(1 << 3);
/// Sampled or fetched in a shader.
pub const RESOURCE: State = State(1 << 4);
/// The colour target of a render pass.
pub const COLOR_TARGET: State = State(1 << 5);
/// A depth or stencil attachment that is only read.
pub const DEPTH_STENCIL_READ: State = State(1 << 6);
/// A depth or stencil attachment that is written.
pub const DEPTH_STENCIL_WRITE: State = State(1 << 7);
/// Storage that is only read.
pub const STORAGE_READ_ONLY: State = State(1 << 8);
/// Storage that is only written.
pub const STORAGE_WRITE_ONLY: State = State(1 << 9);
/// Storage that is read and written.
pub const STORAGE_READ_WRITE: State = State(1 << 10);
/// Storage with atomic operations.
pub const STORAGE_ATOMIC: State = State(1 << 11);
/// A texture that may have no memory behind it.
pub const TRANSIENT: State = State(1 << 12);
/// Marks a texture whose subresources differ; no use.
pub const COMPLEX: State = State(1 << 13);
/// Nothing is known of the state; no use.
pub const UNKNOWN: State = State(1 << 14);

/// The uses that write, each of which allows no other beside it: `PRESENT`, `COPY_DST`, `COLOR_TARGET`,
/// `DEPTH_STENCIL_WRITE`, `STORAGE_WRITE_ONLY`, `STORAGE_READ_WRITE`, `STORAGE_ATOMIC`.
pub const EXCLUSIVE: State = State(
    COPY_DST.0
        | COLOR_TARGET.0
        | DEPTH_STENCIL_WRITE.0
        | STORAGE_WRITE_ONLY.0
        | STORAGE_READ_WRITE.0
        | STORAGE_ATOMIC.0
        | PRESENT.0,
);

/// The uses that hardware commonly keeps in order by itself: `COPY_SRC`, `RESOURCE`, `COLOR_TARGET`,
/// `DEPTH_STENCIL_READ`, `DEPTH_STENCIL_WRITE`, `STORAGE_READ_ONLY`. wgpu-types has no such constant: wgpu-core gets
/// the mask from the device. A tracker is opened with any mask.
pub const ORDERED: State = State(
    COPY_SRC.0 | RESOURCE.0 | DEPTH_STENCIL_READ.0 | STORAGE_READ_ONLY.0 | COLOR_TARGET.0 | DEPTH_STENCIL_WRITE.0,
);

/// What a set is opened with to track wgpu's uses.
pub const FLAGS: UsageFlags =
    UsageFlags { exclusive: EXCLUSIVE, uninitialized: UNINITIALIZED, complex: COMPLEX, unknown: UNKNOWN };

/// The names, by bit.
pub(crate) const NAMES: [(State, &str); 15] = [
    (UNINITIALIZED, "UNINITIALIZED"),
    (PRESENT, "PRESENT"),
    (COPY_SRC, "COPY_SRC"),
    (COPY_DST, "COPY_DST"),
    (RESOURCE, "RESOURCE"),
    (COLOR_TARGET, "COLOR_TARGET"),
    (DEPTH_STENCIL_READ, "DEPTH_STENCIL_READ"),
    (DEPTH_STENCIL_WRITE, "DEPTH_STENCIL_WRITE"),
    (STORAGE_READ_ONLY, "STORAGE_READ_ONLY"),
    (STORAGE_WRITE_ONLY, "STORAGE_WRITE_ONLY"),
    (STORAGE_READ_WRITE, "STORAGE_READ_WRITE"),
    (STORAGE_ATOMIC, "STORAGE_ATOMIC"),
    (TRANSIENT, "TRANSIENT"),
    (COMPLEX, "COMPLEX"),
    (UNKNOWN, "UNKNOWN"),
];

/// How a state without any use is written.
pub(crate) const NONE: &str = "none";

/// Writes the names of the uses in a state, with bars between them, and last the number of what has no name.
pub(crate) fn write(f: &mut fmt::Formatter<'_>, state: State) -> fmt::Result {
    let known = NAMES.iter().filter(|(one, _)| state.contains(*one));
    let rest = NAMES.iter().fold(state, |rest, (one, _)| rest - *one);
    let mut bar = "";
    for (_, name) in known {
        write!(f, "{bar}{name}")?;
        bar = "|";
    }
    match rest {
        State(0) if state.is_empty() => f.write_str(NONE),
        State(0) => Ok(()),
        State(rest) => write!(f, "{bar}{rest}"),
    }
}

/// The names of the uses in a state, with bars between them.
///
/// ```
/// use texture_tracker::{uses, State};
/// assert_eq!(uses::name(uses::COPY_SRC | uses::RESOURCE), "COPY_SRC|RESOURCE");
/// assert_eq!(uses::name(State(0)), "none");
/// assert_eq!(uses::name(State(1 << 15)), "32768");
/// ```
#[must_use]
pub fn name(state: State) -> String {
    format!("{state:#}")
}

/// The state of one or more names with bars between them; None if there is no such use. [`State`]'s `FromStr` takes
/// numbers too, and says which word is wrong.
///
/// ```
/// use texture_tracker::uses;
/// assert_eq!(uses::from_name("COPY_SRC|RESOURCE"), Some(uses::COPY_SRC | uses::RESOURCE));
/// assert_eq!(uses::from_name("COPY"), None);
/// ```
#[must_use]
pub fn from_name(names: &str) -> Option<State> {
    let one = |name: &str| NAMES.iter().find(|(_, known)| *known == name).map(|(state, _)| *state);
    names.split('|').map(one).try_fold(State(0), |all, state| Some(all | state?))
}
