//! Reads the oracle's lines and answers them through this crate: oracle/README.md has the lines, `./compare` runs it
//! beside the Rust of wgpu-core.
//!
//! Lines that make up storage (`put`, `poke`, `room`) and those on ranges alone are not for a safe interface.
use std::{
    collections::BTreeMap,
    io::{self, BufRead, BufWriter, Write},
    str::Split,
};
use texture_tracker::*;

/// A line that makes no sense is a fault of its writer, and ends the run.
fn malformed(what: &str) -> ! {
    eprintln!("driver: {what}");
    std::process::exit(2)
}

/// A call was refused that cannot be.
fn impossible(refusal: Refusal) -> ! {
    eprintln!("{refusal}");
    std::process::exit(3)
}

struct Words<'a>(Split<'a, char>);

impl Words<'_> {
    fn next(&mut self) -> Option<u32> {
        let number = |word: &str| word.parse().unwrap_or_else(|_| malformed("not a number"));
        self.0.next().map(number)
    }

    fn number(&mut self) -> u32 {
        self.next().unwrap_or_else(|| malformed("a number is missing"))
    }

    fn state(&mut self) -> State {
        State(self.number().try_into().unwrap_or_else(|_| malformed("not a 16-bit state")))
    }

    fn extent(&mut self) -> Extent {
        let [mips, layers] = [self.number(), self.number()];
        Extent { mips, layers }
    }

    fn flags(&mut self) -> UsageFlags {
        let [exclusive, uninitialized] = [self.state(), self.state()];
        let [complex, unknown] = [self.state(), self.state()];
        UsageFlags { exclusive, uninitialized, complex, unknown }
    }

    fn texture(&mut self) -> Texture {
        let index = TrackerIndex(self.number());
        Texture { index, extent: self.extent() }
    }

    /// Four numbers or none.
    fn selector(&mut self) -> Option<Selector> {
        let mips = Mip(self.next()?)..Mip(self.number());
        let layers = Layer(self.number())..Layer(self.number());
        Some(Selector::new(mips, layers))
    }

    fn indices(&mut self) -> Vec<TrackerIndex> {
        std::iter::from_fn(|| self.next()).map(TrackerIndex).collect()
    }
}

/// A tracker has a log of its own, with room for any of its calls.
enum Set {
    Scope(UsageScope),
    Tracker(TextureTracker, TransitionLog),
}

impl Set {
    fn is_well_formed(&self) -> bool {
        match self {
            Self::Scope(scope) => scope.is_well_formed(),
            Self::Tracker(tracker, _) => tracker.is_well_formed(),
        }
    }
}

type Sets = BTreeMap<u32, Set>;

/// The sets of a case, and the log that the next call is lent in place of its tracker's.
#[derive(Default)]
struct Case {
    sets: Sets,
    lent: Option<TransitionLog>,
}

impl Case {
    /// Appends what a line answers.
    fn line(&mut self, line: &str, out: &mut String) {
        let mut words = Words(line.split(' '));
        let word = words.0.next().unwrap_or_default();
        match word {
            "case" => {
                *self = Self::default();
                say(out, line);
            }
            "log" => self.lent = Some(filled(words.number(), words.number())),
            "empty_log" => empty(&mut filled(words.number(), words.number()), out),
            "open_scope" | "open_tracker" => self.open(word, &mut words, out),
            "merge_single" | "merge_usage_scope" => self.merge(word, &mut words, out),
            _ => self.set(word, &mut words, out),
        }
        if !word.starts_with("log") {
            self.lent = None;
        }
    }

    fn open(&mut self, word: &str, words: &mut Words, out: &mut String) {
        let (number, textures, largest, flags) = (words.number(), words.number(), words.extent(), words.flags());
        let opened = match word {
            "open_scope" => UsageScope::open(textures, largest, flags).map(Set::Scope),
            _ => TextureTracker::open(textures, largest, flags, words.state())
                .map(|tracker| Set::Tracker(tracker, TransitionLog::with_room_for(textures, largest))),
        };
        match opened {
            Ok(set) => {
                self.sets.insert(number, set);
                say(out, "done");
                show_sets(out, &self.sets);
            }
            Err(refusal) => refused(out, refusal, true),
        }
    }

    fn merge(&mut self, word: &str, words: &mut Words, out: &mut String) {
        let before = shown(&self.sets);
        let number = words.number();
        let mut scope = take_scope(&mut self.sets, number);
        let answer = if word == "merge_single" {
            let (texture, state) = (words.texture(), words.state());
            scope.merge_single(texture, words.selector(), state)
        } else {
            let Some(Set::Scope(other)) = self.sets.get(&words.number()) else { malformed("no such scope") };
            scope.merge_usage_scope(other)
        };
        self.sets.insert(number, Set::Scope(scope));
        match answer {
            Err(MergeError::Refused(refusal)) => return refused(out, refusal, shown(&self.sets) == before),
            Err(MergeError::Conflict(conflict)) => show_conflict(out, &conflict),
            Ok(()) => say(out, "done"),
        }
        show_sets(out, &self.sets);
    }

    fn set(&mut self, word: &str, words: &mut Words, out: &mut String) {
        let before = shown(&self.sets);
        let number = words.number();
        let Some(Set::Tracker(mut tracker, mut own)) = self.sets.remove(&number) else { malformed("no such tracker") };
        own.clear();
        let log = self.lent.as_mut().unwrap_or(&mut own);
        let head = (log.len(), log.free());
        let entries: Vec<_> = log.iter().collect();
        let answer = call(word, words, &mut tracker, &mut self.sets, log);
        let log_kept = log.iter().take(head.0).eq(entries);
        let head_kept = head == (log.len(), log.free());
        let added: Vec<_> = log.iter().skip(head.0).collect();
        self.sets.insert(number, Set::Tracker(tracker, own));
        if let Err(refusal) = answer {
            return refused(out, refusal, log_kept && head_kept && shown(&self.sets) == before);
        }
        say(out, if log_kept { "done" } else { "earlier entries changed" });
        added.iter().for_each(|transition| show_transition(out, transition));
        if let Some(log) = &self.lent {
            say(out, &format!("log {} {}", log.len(), log.free()));
        }
        show_sets(out, &self.sets);
    }
}

/// The call of a tracker.
fn call(
    word: &str,
    words: &mut Words,
    tracker: &mut TextureTracker,
    sets: &mut Sets,
    log: &mut TransitionLog,
) -> Result<(), Refusal> {
    if word == "set_single" {
        let (texture, state) = (words.texture(), words.state());
        // Without a selector all of the texture is meant.
        let selector = words.selector().unwrap_or(texture.extent.full_range());
        return tracker.set_single(texture, selector, state, log);
    }
    match (word, sets.get_mut(&words.number())) {
        ("set_from_usage_scope", Some(Set::Scope(scope))) => tracker.set_from_usage_scope(scope, log),
        ("set_from_tracker", Some(Set::Tracker(other, _))) => tracker.set_from_tracker(other, log),
        ("set_and_remove_from_usage_scope_sparse", Some(Set::Scope(scope))) => {
            tracker.set_and_remove_from_usage_scope_sparse(scope, &words.indices(), log)
        }
        _ => malformed("no such call"),
    }
}

fn take_scope(sets: &mut Sets, number: u32) -> UsageScope {
    match sets.remove(&number) {
        Some(Set::Scope(scope)) => scope,
        _ => malformed("no such scope"),
    }
}

/// A log with so many entries written, by calls that log one each, and so many free.
fn filled(written: u32, free: u32) -> TransitionLog {
    let extent = Extent { mips: 1, layers: 1 };
    let texture = Texture { index: TrackerIndex(0), extent };
    let mut log = TransitionLog::with_capacity(written + free);
    let tracker = TextureTracker::open(1, extent, uses::FLAGS, State(0));
    let mut tracker = tracker.unwrap_or_else(|refusal| impossible(refusal));
    // The first use logs nothing.
    for at in 0..=written {
        let state = if at % 2 == 0 { uses::COPY_DST } else { uses::RESOURCE };
        let answer = tracker.set_single(texture, extent.full_range(), state, &mut log);
        answer.unwrap_or_else(|refusal| impossible(refusal));
    }
    log
}

fn empty(log: &mut TransitionLog, out: &mut String) {
    log.clear();
    say(out, &format!("emptied {} {}", log.len(), log.free()));
}

// ---- answers ---------------------------------------------------------------------------------------------------

fn say(out: &mut String, line: &str) {
    out.push_str(line);
    out.push('\n');
}

fn refused(out: &mut String, refusal: Refusal, kept: bool) {
    let place = refusal.index().map_or(0, |index| index.0);
    let kept = if kept { "kept" } else { "changed" };
    say(out, &format!("refused {} {place} {kept}", refusal.number()));
}

fn show_selector(index: TrackerIndex, Selector { mips, layers }: &Selector) -> String {
    format!("{} {} {} {} {}", index.0, mips.start.0, mips.end.0, layers.start.0, layers.end.0)
}

fn show_conflict(out: &mut String, conflict: &Conflict) {
    let place = show_selector(conflict.index, &conflict.selector);
    say(out, &format!("conflict {place} {} {}", conflict.current_state, conflict.new_state));
}

fn show_transition(out: &mut String, transition: &PendingTransition) {
    let place = show_selector(transition.index, &transition.selector);
    say(out, &format!("transition {place} {} {}", transition.from, transition.to));
}

fn shown(sets: &Sets) -> String {
    let mut out = String::new();
    show_sets(&mut out, sets);
    out
}

/// Every set, after each call; each must be well formed.
fn show_sets(out: &mut String, sets: &Sets) {
    for (number, set) in sets {
        if !set.is_well_formed() {
            say(out, "not well formed");
        }
        match set {
            Set::Scope(scope) => {
                say(out, &format!("scope {number}"));
                scope.owned().for_each(|index| show_texture(out, &[scope.states(index)]));
            }
            Set::Tracker(tracker, _) => {
                say(out, &format!("tracker {number}"));
                let halves = |index| [tracker.start(index), tracker.end(index)];
                tracker.owned().for_each(|index| show_texture(out, &halves(index)));
            }
        }
    }
}

fn show_texture(out: &mut String, halves: &[Option<TextureStates<'_>>]) {
    let Some(first) = halves[0] else {
        return say(out, "an owned texture without states");
    };
    let Extent { mips, layers } = first.extent();
    out.push_str(&format!("texture {} {mips} {layers}", first.index().0));
    halves.iter().flatten().for_each(|states| show_half(out, states));
    out.push('\n');
}

fn show_half(out: &mut String, states: &TextureStates<'_>) {
    if let Some(state) = states.single() {
        return out.push_str(&format!(" single {state}"));
    }
    out.push_str(" many");
    for mip in (0..states.extent().mips).map(Mip) {
        out.push_str(&format!(" {}", states.ranges(mip).count()));
        for (layers, state) in states.ranges(mip) {
            out.push_str(&format!(" {} {} {state}", layers.start.0, layers.end.0));
        }
    }
}

fn main() -> io::Result<()> {
    let mut case = Case::default();
    let mut output = BufWriter::with_capacity(1 << 20, io::stdout().lock());
    let mut out = String::new();
    for line in io::stdin().lock().lines() {
        case.line(&line?, &mut out);
        output.write_all(out.as_bytes())?;
        out.clear();
    }
    output.flush()
}
