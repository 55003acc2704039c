//! The calls of a running program, kept in a file to be replayed.
//!
//! A [`Recorder`] opens sets and logs that have the calls of the plain ones, under the same names, and write each call as
//! a line before it is made. What they hold is read as from the plain ones, which they contain (`Deref`). So frame code
//! is recorded by taking its types, and [`merge_logs`], from this module, and opening its sets with a recorder. A call then
//! takes as long as the write.
//!
//! ```
//! use texture_tracker::{record::Recorder, *};
//! # fn main() -> Result<(), Box<dyn std::error::Error>> {
//! let path = std::env::temp_dir().join(format!("frame-{}.calls", std::process::id()));
//! let recorder = Recorder::create(&path)?;
//! let extent = Extent::new(1, 8);
//! let beans = Texture::new(TrackerIndex(0), extent);
//! let mut tracker = recorder.open_tracker(1, extent, uses::FLAGS, uses::ORDERED)?;
//! let mut pass = recorder.open_scope(1, extent, uses::FLAGS)?;
//! let mut log = recorder.log(TransitionLog::with_room_for(1, extent));
//!
//! tracker.set_single(beans, extent.full_range(), uses::COPY_DST, &mut log)?;
//! pass.merge_single(beans, None, uses::RESOURCE)?;
//! let late = pass.merge_single(beans, Some(Selector::layer(Layer(5), extent)), uses::COPY_DST);
//! assert!(late.is_err());
//! tracker.set_from_usage_scope(&pass, &mut log)?;
//! assert_eq!(log.drain_transitions().len(), 1);
//!
//! recorder.finish()?;
//! assert_eq!(std::fs::read_to_string(&path)?, "\
//! case 1
//! open_tracker 0 1 1 8 3754 1 8192 16384 500 24 24
//! open_scope 1 1 1 8 3754 1 8192 16384 24
//! set_single 0 0 1 8 8 0 1 0 8
//! merge_single 1 0 1 8 16
//! merge_single 1 0 1 8 8 0 1 5 6
//! set_from_usage_scope 0 1
//! empty_log 1 7 56
//! ");
//! # std::fs::remove_file(&path)?;
//! # Ok(())
//! # }
//! ```
//!
//! `tools/replay FILE`, at the top of the repository, makes these calls again: through the proved program, through this
//! crate and through wgpu-core's own code, as far as each is there, and compares what they return.
//! `oracle/README.md` has the language. A recording is replayed from its start, so it grows as long as the program runs:
//! where all sets are opened anew, a new recorder may be created too. Reading and writing a [`Plan`](crate::Plan) is not
//! recorded: what is returned depends on the bytes alone, and the merges of its uses are.
use crate::{
    log::{Rest, Transitions},
    plan::Use,
    state::State,
    storage::Opening,
    values::{Extent, Selector, Texture, TrackerIndex, UsageFlags},
    MergeError, Refusal,
};
use alloc::{
    boxed::Box,
    collections::BTreeSet,
    format,
    string::{String, ToString},
    sync::Arc,
};
use core::{fmt, ops::Deref};
use std::{
    fs::File,
    io::{self, Write},
    path::Path,
    sync::{Mutex, MutexGuard, PoisonError},
};

/// Writes the calls of the sets that it opens. Clones write to the same place, also from other threads.
///
/// Recording never stops a call: what cannot be written is reported by [`finish`](Self::finish).
#[derive(Clone)]
pub struct Recorder {
    shared: Arc<Mutex<Shared>>,
}

struct Shared {
    out: Box<dyn Write + Send>,
    /// The numbers of the sets that are in use. A set that is dropped frees its number, so that they stay few.
    taken: BTreeSet<u32>,
    /// How many cases were begun. A case forgets the sets of the one before.
    cases: u32,
    /// Whether the case has a set.
    begun: bool,
    /// The first thing that went wrong. Nothing is written after it.
    error: Option<io::Error>,
}

impl Shared {
    fn write(&mut self, lines: &str) {
        if self.error.is_none() {
            self.error = self.out.write_all(lines.as_bytes()).err();
        }
    }

    fn begin_case(&mut self) {
        self.cases += 1;
        self.begun = false;
        self.write(&format!("case {}\n", self.cases));
    }

    /// The lowest number that is free. Where no other set is in use, a new case begins.
    fn take_number(&mut self) -> u32 {
        if self.begun && self.taken.is_empty() {
            self.begin_case();
        }
        let number = (0..=u32::MAX).find(|number| !self.taken.contains(number)).unwrap_or(u32::MAX);
        self.taken.insert(number);
        self.begun = true;
        number
    }
}

impl Recorder {
    /// Writes to this place. Each call is one write, so that a file has every call up to the last one, whatever became
    /// of the program.
    pub fn new(out: impl Write + Send + 'static) -> Self {
        let mut shared = Shared { out: Box::new(out), taken: BTreeSet::new(), cases: 0, begun: false, error: None };
        shared.begin_case();
        Self { shared: Arc::new(Mutex::new(shared)) }
    }

    /// Writes to a new file, or over an old one.
    ///
    /// # Errors
    ///
    /// If the file cannot be created.
    pub fn create(path: impl AsRef<Path>) -> io::Result<Self> {
        Ok(Self::new(File::create(path)?))
    }

    /// Opens a scope, as [`UsageScope::open`](crate::UsageScope::open) does.
    ///
    /// # Errors
    ///
    /// The same.
    pub fn open_scope(&self, textures: u32, largest: Extent, flags: UsageFlags) -> Result<UsageScope, Refusal> {
        let opening = Opening { textures, largest, flags, ordered: State(0) };
        let set = Set::new(self.clone());
        set.open_scope(opening);
        Ok(UsageScope { plain: crate::UsageScope::open(textures, largest, flags)?, set })
    }

    /// Opens a tracker, as [`TextureTracker::open`](crate::TextureTracker::open) does.
    ///
    /// # Errors
    ///
    /// The same.
    pub fn open_tracker(
        &self,
        textures: u32,
        largest: Extent,
        flags: UsageFlags,
        ordered: State,
    ) -> Result<TextureTracker, Refusal> {
        let set = Set::new(self.clone());
        set.open_tracker(Opening { textures, largest, flags, ordered });
        Ok(TextureTracker { plain: crate::TextureTracker::open(textures, largest, flags, ordered)?, set })
    }

    /// Takes over a log.
    #[must_use]
    pub fn log(&self, log: crate::TransitionLog) -> TransitionLog {
        TransitionLog { plain: log, recorder: self.clone() }
    }

    /// Writes out what is still buffered.
    ///
    /// # Errors
    ///
    /// The first thing that could not be written; the recording ends before it.
    pub fn finish(&self) -> io::Result<()> {
        let mut shared = self.lock();
        match shared.error.take() {
            Some(error) => Err(error),
            None => shared.out.flush(),
        }
    }

    fn write(&self, lines: &str) {
        self.lock().write(lines);
    }

    fn lock(&self) -> MutexGuard<'_, Shared> {
        self.shared.lock().unwrap_or_else(PoisonError::into_inner)
    }
}

impl fmt::Debug for Recorder {
    fn fmt(&self, f: &mut fmt::Formatter<'_>) -> fmt::Result {
        f.debug_struct("Recorder").field("sets", &self.lock().taken).finish_non_exhaustive()
    }
}

/// The number of a set in the recording.
struct Set {
    number: u32,
    recorder: Recorder,
}

impl Set {
    fn new(recorder: Recorder) -> Self {
        let number = recorder.lock().take_number();
        Self { number, recorder }
    }

    /// Writes a call of this set.
    fn call(&self, word: &str, rest: impl fmt::Display) {
        self.recorder.write(&format!("{word} {}{rest}\n", self.number));
    }

    /// The number of the second set of a call.
    fn beside(&self, other: &Set) -> u32 {
        if !Arc::ptr_eq(&self.recorder.shared, &other.recorder.shared) {
            let mut shared = self.recorder.lock();
            shared.error.get_or_insert_with(|| io::Error::other("the sets of a call are of two recorders"));
        }
        other.number
    }

    fn open_scope(&self, opening: Opening) {
        self.call("open_scope", format_args!("{} {}", numbers(opening), opening.room()));
    }

    fn open_tracker(&self, opening: Opening) {
        let room = opening.room();
        self.call("open_tracker", format_args!("{} {} {room} {room}", numbers(opening), opening.ordered));
    }
}

impl Drop for Set {
    fn drop(&mut self) {
        self.recorder.lock().taken.remove(&self.number);
    }
}

/// Each number after a space: N, M, W and the usage flags.
fn numbers(opening: Opening) -> String {
    let Opening { textures, largest: Extent { mips, layers }, flags, .. } = opening;
    let UsageFlags { exclusive, uninitialized, complex, unknown } = flags;
    format!(" {textures} {mips} {layers} {exclusive} {uninitialized} {complex} {unknown}")
}

/// A texture, a state and perhaps a selector.
fn used(texture: Texture, state: State, selector: Option<Selector>) -> String {
    let Texture { index: TrackerIndex(index), extent: Extent { mips, layers } } = texture;
    let part = selector.map(|Selector { mips, layers }| {
        format!(" {} {} {} {}", mips.start.0, mips.end.0, layers.start.0, layers.end.0)
    });
    format!(" {index} {mips} {layers} {state}{}", part.unwrap_or_default())
}

/// A [`UsageScope`](crate::UsageScope) that is recorded. Its calls return what those return, for the same reasons.
pub struct UsageScope {
    plain: crate::UsageScope,
    set: Set,
}

impl UsageScope {
    /// As [`UsageScope::clear`](crate::UsageScope::clear).
    pub fn clear(&mut self) {
        self.set.open_scope(self.plain.storage.opening);
        self.plain.clear();
    }

    /// As [`UsageScope::merge_single`](crate::UsageScope::merge_single).
    ///
    /// # Errors
    ///
    /// The same.
    pub fn merge_single(
        &mut self,
        texture: Texture,
        selector: Option<Selector>,
        new_state: State,
    ) -> Result<(), MergeError> {
        self.set.call("merge_single", used(texture, new_state, selector));
        self.plain.merge_single(texture, selector, new_state)
    }

    /// As [`UsageScope::merge_use`](crate::UsageScope::merge_use). It is recorded as a `merge_single`.
    ///
    /// # Errors
    ///
    /// The same.
    pub fn merge_use(&mut self, one: Use) -> Result<(), MergeError> {
        self.merge_single(one.texture, Some(one.selector), one.state)
    }

    /// As [`UsageScope::merge_usage_scope`](crate::UsageScope::merge_usage_scope).
    ///
    /// # Errors
    ///
    /// The same.
    pub fn merge_usage_scope(&mut self, scope: &UsageScope) -> Result<(), MergeError> {
        self.set.call("merge_usage_scope", format_args!(" {}", self.set.beside(&scope.set)));
        self.plain.merge_usage_scope(&scope.plain)
    }
}

impl Deref for UsageScope {
    type Target = crate::UsageScope;

    fn deref(&self) -> &crate::UsageScope {
        &self.plain
    }
}

impl fmt::Debug for UsageScope {
    fn fmt(&self, f: &mut fmt::Formatter<'_>) -> fmt::Result {
        self.plain.fmt(f)
    }
}

/// A [`TextureTracker`](crate::TextureTracker) that is recorded. Its calls return what those return, for the same
/// reasons.
pub struct TextureTracker {
    plain: crate::TextureTracker,
    set: Set,
}

impl TextureTracker {
    /// As [`TextureTracker::clear`](crate::TextureTracker::clear).
    pub fn clear(&mut self) {
        self.set.open_tracker(self.plain.storage.opening);
        self.plain.clear();
    }

    /// As [`TextureTracker::set_single`](crate::TextureTracker::set_single).
    ///
    /// # Errors
    ///
    /// The same.
    pub fn set_single(
        &mut self,
        texture: Texture,
        selector: Selector,
        new_state: State,
        log: &mut TransitionLog,
    ) -> Result<(), Refusal> {
        self.call("set_single", used(texture, new_state, Some(selector)), log);
        self.plain.set_single(texture, selector, new_state, &mut log.plain)
    }

    /// As [`TextureTracker::set_from_usage_scope`](crate::TextureTracker::set_from_usage_scope).
    ///
    /// # Errors
    ///
    /// The same.
    pub fn set_from_usage_scope(&mut self, scope: &UsageScope, log: &mut TransitionLog) -> Result<(), Refusal> {
        self.call("set_from_usage_scope", format_args!(" {}", self.set.beside(&scope.set)), log);
        self.plain.set_from_usage_scope(&scope.plain, &mut log.plain)
    }

    /// As [`TextureTracker::set_from_tracker`](crate::TextureTracker::set_from_tracker).
    ///
    /// # Errors
    ///
    /// The same.
    pub fn set_from_tracker(&mut self, tracker: &TextureTracker, log: &mut TransitionLog) -> Result<(), Refusal> {
        self.call("set_from_tracker", format_args!(" {}", self.set.beside(&tracker.set)), log);
        self.plain.set_from_tracker(&tracker.plain, &mut log.plain)
    }

    /// As [`TextureTracker::set_and_remove_from_usage_scope_sparse`][plain].
    ///
    /// [plain]: crate::TextureTracker::set_and_remove_from_usage_scope_sparse
    ///
    /// # Errors
    ///
    /// The same.
    pub fn set_and_remove_from_usage_scope_sparse(
        &mut self,
        scope: &mut UsageScope,
        indices: &[TrackerIndex],
        log: &mut TransitionLog,
    ) -> Result<(), Refusal> {
        let mut rest = format!(" {}", self.set.beside(&scope.set));
        for TrackerIndex(index) in indices {
            rest.push(' ');
            rest.push_str(&index.to_string());
        }
        self.call("set_and_remove_from_usage_scope_sparse", rest, log);
        self.plain.set_and_remove_from_usage_scope_sparse(&mut scope.plain, indices, &mut log.plain)
    }

    /// Writes a call, and before it the head of its log, unless it is the one that the language takes for granted:
    /// empty, with an entry for each subresource of the tracker.
    fn call(&self, word: &str, rest: impl fmt::Display, log: &TransitionLog) {
        let Opening { textures, largest, .. } = self.plain.storage.opening;
        let granted = crate::storage::subresources(textures, largest);
        let head = match (log.len(), log.free()) {
            (0, free) if free == granted => String::new(),
            _ => format!("log {}\n", log.numbers()),
        };
        self.set.recorder.write(&format!("{head}{word} {}{rest}\n", self.set.number));
    }
}

impl Deref for TextureTracker {
    type Target = crate::TextureTracker;

    fn deref(&self) -> &crate::TextureTracker {
        &self.plain
    }
}

impl fmt::Debug for TextureTracker {
    fn fmt(&self, f: &mut fmt::Formatter<'_>) -> fmt::Result {
        self.plain.fmt(f)
    }
}

/// A [`TransitionLog`](crate::TransitionLog) that is recorded.
pub struct TransitionLog {
    plain: crate::TransitionLog,
    recorder: Recorder,
}

impl TransitionLog {
    /// As [`TransitionLog::drain_transitions`](crate::TransitionLog::drain_transitions).
    pub fn drain_transitions(&mut self) -> Transitions<'_> {
        self.emptied();
        self.plain.drain_transitions()
    }

    /// As [`TransitionLog::clear`](crate::TransitionLog::clear).
    pub fn clear(&mut self) {
        self.emptied();
        self.plain.clear();
    }

    fn emptied(&self) {
        self.recorder.write(&format!("empty_log {}\n", self.numbers()));
    }

    /// Entries written and free, and the numbers of all entries, as the language has them.
    fn numbers(&self) -> String {
        format!("{} {} {}", self.len(), self.free(), self.plain.storage.entries.len())
    }
}

/// As [`merge_logs`](crate::merge_logs). The line has the numbers of both logs, and the third log's recorder writes it.
/// A recording that has such a line is replayed without this crate, whose logs hold what calls write there and not any numbers.
///
/// # Errors
///
/// The same.
pub fn merge_logs<'a>(
    first: &'a TransitionLog,
    second: &'a TransitionLog,
    out: &mut TransitionLog,
) -> Result<Rest<'a>, Refusal> {
    let logs = [first, second].map(|log| log.plain.storage.told());
    let mut line = format!("merge_logs {} {} {}", out.numbers(), logs[0].len(), logs[1].len());
    for number in logs.into_iter().flatten() {
        line.push(' ');
        line.push_str(&number.to_string());
    }
    line.push('\n');
    out.recorder.write(&line);
    crate::merge_logs(&first.plain, &second.plain, &mut out.plain)
}

impl Deref for TransitionLog {
    type Target = crate::TransitionLog;

    fn deref(&self) -> &crate::TransitionLog {
        &self.plain
    }
}

impl<'a> IntoIterator for &'a TransitionLog {
    type Item = crate::PendingTransition;
    type IntoIter = Transitions<'a>;

    fn into_iter(self) -> Transitions<'a> {
        self.iter()
    }
}

impl fmt::Debug for TransitionLog {
    fn fmt(&self, f: &mut fmt::Formatter<'_>) -> fmt::Result {
        self.plain.fmt(f)
    }
}
