//! Usage states.
use crate::uses;
use alloc::string::{String, ToString};
use core::{
    error::Error,
    fmt,
    ops::{BitAnd, BitOr, BitOrAssign, Sub},
    str::FromStr,
};

/// A usage state, a set of at most 16 uses: wgpu's `TextureUses` as a number.
///
/// The tracker knows no use by name. Which ones exclude each other, and which four numbers have a meaning of
/// their own, [`UsageFlags`](crate::UsageFlags) say; [`uses`] has wgpu's. So a state is written as its number, and
/// with wgpu's names where `{:#}` or `{:#?}` asks for them. Both forms are read back.
///
/// ```
/// use texture_tracker::{uses, State};
/// # fn main() -> Result<(), Box<dyn std::error::Error>> {
/// let read = uses::COPY_SRC | uses::RESOURCE;
/// assert_eq!((read.bits(), read.to_string().as_str()), (20, "20"));
/// assert_eq!(format!("{read:#} {read:?} {read:#?}"), "COPY_SRC|RESOURCE State(20) COPY_SRC|RESOURCE");
/// assert_eq!("COPY_SRC|RESOURCE".parse::<State>()?, read);
/// assert_eq!("20".parse::<State>()?, read);
///
/// assert!(read.contains(uses::RESOURCE) && !uses::RESOURCE.contains(read));
/// assert!(read.intersects(uses::ORDERED) && (read & uses::EXCLUSIVE).is_empty());
/// assert_eq!(read - uses::RESOURCE, uses::COPY_SRC);
/// # Ok(())
/// # }
/// ```
#[derive(Clone, Copy, Default, PartialEq, Eq, PartialOrd, Ord, Hash)]
pub struct State(pub u16);

impl State {
    /// The number.
    #[must_use]
    pub const fn bits(self) -> u16 {
        self.0
    }

    /// Whether there is no use in it.
    #[must_use]
    pub const fn is_empty(self) -> bool {
        self.0 == 0
    }

    /// Whether every use of `other` is among these.
    #[must_use]
    pub const fn contains(self, other: State) -> bool {
        self.0 & other.0 == other.0
    }

    /// Whether any use of `other` is among these.
    #[must_use]
    pub const fn intersects(self, other: State) -> bool {
        self.0 & other.0 != 0
    }
}

impl BitOr for State {
    type Output = State;
    fn bitor(self, other: State) -> State {
        State(self.0 | other.0)
    }
}

impl BitOrAssign for State {
    fn bitor_assign(&mut self, other: State) {
        self.0 |= other.0;
    }
}

impl BitAnd for State {
    type Output = State;
    fn bitand(self, other: State) -> State {
        State(self.0 & other.0)
    }
}

/// The uses that are not in the other state.
impl Sub for State {
    type Output = State;
    fn sub(self, other: State) -> State {
        State(self.0 & !other.0)
    }
}

/// The number; with `{:#}` wgpu's names.
impl fmt::Display for State {
    fn fmt(&self, f: &mut fmt::Formatter<'_>) -> fmt::Result {
        if f.alternate() {
            uses::write(f, *self)
        } else {
            self.0.fmt(f)
        }
    }
}

/// The number; with `{:#?}` wgpu's names.
impl fmt::Debug for State {
    fn fmt(&self, f: &mut fmt::Formatter<'_>) -> fmt::Result {
        if f.alternate() {
            uses::write(f, *self)
        } else {
            write!(f, "State({})", self.0)
        }
    }
}

/// A number below 65,536, or wgpu's names and such numbers with bars between them, or `none`.
impl FromStr for State {
    type Err = ParseStateError;

    fn from_str(text: &str) -> Result<Self, ParseStateError> {
        let unknown = |word: &str| ParseStateError { word: word.to_string() };
        let number = |word: &str| word.parse().map(State).ok();
        let one = |word| uses::from_name(word).or_else(|| number(word)).ok_or_else(|| unknown(word));
        if text == uses::NONE {
            return Ok(State(0));
        }
        text.split('|').try_fold(State(0), |all, word| Ok(all | one(word)?))
    }
}

/// A word that is no number of 16 bits and none of wgpu's uses. Its words list those.
///
/// ```
/// let said = "RESOURCE|COPY".parse::<texture_tracker::State>().unwrap_err();
/// assert!(said.to_string().starts_with("\"COPY\" is no 16-bit number and none of UNINITIALIZED, PRESENT, COPY_SRC,"));
/// assert_eq!(said.word(), "COPY");
/// ```
#[derive(Clone, Debug, PartialEq, Eq, Hash)]
pub struct ParseStateError {
    word: String,
}

impl ParseStateError {
    /// The word.
    #[must_use]
    pub fn word(&self) -> &str {
        &self.word
    }
}

impl fmt::Display for ParseStateError {
    fn fmt(&self, f: &mut fmt::Formatter<'_>) -> fmt::Result {
        write!(f, "{:?} is no 16-bit number and none of ", self.word)?;
        for (at, (_, name)) in uses::NAMES.iter().enumerate() {
            write!(f, "{}{name}", if at == 0 { "" } else { ", " })?;
        }
        Ok(())
    }
}

impl Error for ParseStateError {}
