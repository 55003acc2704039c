//! Kinds of use: how each is coloured, its short code, and whether it writes or reads what is in a texture.
use texture_tracker::{uses, State};

#[derive(Clone, Copy, PartialEq, Eq)]
pub enum Kind {
    /// Nothing is in it that a use could want.
    Nothing,
    Read,
    Copied,
    Drawn,
    Stored,
    Shown,
}

/// Every use that a frame may name, with its short code.
pub const USES: [(State, &str, Kind); 13] = [
    (uses::UNINITIALIZED, "U", Kind::Nothing),
    (uses::PRESENT, "P", Kind::Shown),
    (uses::COPY_SRC, "CS", Kind::Read),
    (uses::COPY_DST, "CD", Kind::Copied),
    (uses::RESOURCE, "R", Kind::Read),
    (uses::COLOR_TARGET, "CT", Kind::Drawn),
    (uses::DEPTH_STENCIL_READ, "DR", Kind::Read),
    (uses::DEPTH_STENCIL_WRITE, "DW", Kind::Drawn),
    (uses::STORAGE_READ_ONLY, "SR", Kind::Read),
    (uses::STORAGE_WRITE_ONLY, "SW", Kind::Stored),
    (uses::STORAGE_READ_WRITE, "SRW", Kind::Stored),
    (uses::STORAGE_ATOMIC, "SA", Kind::Stored),
    (uses::TRANSIENT, "T", Kind::Nothing),
];

fn within(state: State) -> impl Iterator<Item = &'static (State, &'static str, Kind)> {
    USES.iter().filter(move |(one, ..)| state.contains(*one))
}

/// Uses that stand together in a state all read, so that the first one with contents tells the kind.
pub fn kind(state: State) -> Kind {
    within(state).map(|(.., kind)| *kind).find(|kind| *kind != Kind::Nothing).unwrap_or(Kind::Nothing)
}

pub fn code(state: State) -> String {
    within(state).map(|(_, code, _)| *code).collect::<Vec<_>>().join("+")
}

/// Whether the use may leave something in the texture. One that both reads and writes counts as writing.
pub fn writes(state: State) -> bool {
    matches!(kind(state), Kind::Copied | Kind::Drawn | Kind::Stored)
}

/// Whether the use needs what an earlier one wrote.
pub fn reads(state: State) -> bool {
    matches!(kind(state), Kind::Read | Kind::Shown)
}

impl Kind {
    pub const ALL: [Kind; 6] = [Kind::Copied, Kind::Drawn, Kind::Stored, Kind::Read, Kind::Shown, Kind::Nothing];

    pub fn words(self) -> &'static str {
        match self {
            Kind::Nothing => "no contents",
            Kind::Read => "read",
            Kind::Copied => "copied into",
            Kind::Drawn => "drawn to",
            Kind::Stored => "written by a shader",
            Kind::Shown => "shown on a screen",
        }
    }

    /// In the style sheet of the page.
    pub fn class(self) -> &'static str {
        match self {
            Kind::Nothing => "nothing",
            Kind::Read => "read",
            Kind::Copied => "copied",
            Kind::Drawn => "drawn",
            Kind::Stored => "stored",
            Kind::Shown => "shown",
        }
    }
}
