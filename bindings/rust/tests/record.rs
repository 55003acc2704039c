//! Recordings: that each says what was done, that a replay returns the same, and that a difference is reported.
#![cfg(feature = "std")]
mod bench;
mod built;
mod chance;
use chance::Chance;
use std::{
    fs,
    io::{self, Write},
    ops::Range,
    os::unix::fs::PermissionsExt,
    path::{Path, PathBuf},
    process::{Command, Stdio},
    sync::{Arc, Mutex},
    thread,
};
use texture_tracker::{
    record::{merge_logs, Recorder, TextureTracker, TransitionLog, UsageScope},
    uses, Extent, Layer, MergeError, Mip, PendingTransition, Plan, Refusal, Rest, Selector, State, Texture,
    TrackerIndex, Use,
};

/// A place to write to that can be read while it is written.
#[derive(Clone, Default)]
struct Page(Arc<Mutex<Vec<u8>>>);

impl Write for Page {
    fn write(&mut self, bytes: &[u8]) -> io::Result<usize> {
        self.0.lock().unwrap().write(bytes)
    }
    fn flush(&mut self) -> io::Result<()> {
        Ok(())
    }
}

impl Page {
    fn text(&self) -> String {
        String::from_utf8(self.0.lock().unwrap().clone()).unwrap()
    }
}

/// A frame with its sets, and what each call returned, as the language writes answers.
struct Floor {
    page: Page,
    tracker: TextureTracker,
    scopes: [UsageScope; 2],
    commands: TextureTracker,
    log: TransitionLog,
    answers: Vec<String>,
}

fn place(index: TrackerIndex, Selector { mips, layers }: Selector) -> String {
    format!("{} {} {} {} {}", index.0, mips.start.0, mips.end.0, layers.start.0, layers.end.0)
}

fn refused(refusal: Refusal) -> String {
    format!("refused {} {} kept", refusal.number(), refusal.index().map_or(0, |index| index.0))
}

impl Floor {
    fn open(textures: u32, largest: Extent, entries: u32) -> Self {
        let page = Page::default();
        let recorder = Recorder::new(page.clone());
        let tracker = || recorder.open_tracker(textures, largest, uses::FLAGS, uses::ORDERED).unwrap();
        let scope = || recorder.open_scope(textures, largest, uses::FLAGS).unwrap();
        let log = recorder.log(texture_tracker::TransitionLog::with_capacity(entries));
        let answers = ["case 1", "done", "done", "done", "done"].map(str::to_string).to_vec();
        Self { tracker: tracker(), scopes: [scope(), scope()], commands: tracker(), log, page, answers }
    }

    fn merged(&mut self, answer: Result<(), MergeError>) {
        self.answers.push(match answer {
            Ok(()) => "done".to_string(),
            Err(MergeError::Refused(refusal)) => refused(refusal),
            Err(MergeError::Conflict(found)) => {
                let at = place(found.index, found.selector);
                format!("conflict {at} {} {}", found.current_state, found.new_state)
            }
        });
    }

    /// The answer of a call that logs, with what it added.
    fn logged(&mut self, before: usize, answer: Result<(), Refusal>) {
        self.answers.push(answer.map_or_else(refused, |()| "done".to_string()));
        let added = |each: PendingTransition| {
            format!("transition {} {} {}", place(each.index, each.selector), each.from, each.to)
        };
        self.answers.extend(self.log.iter().skip(before).map(added));
    }

    fn merge(&mut self, scope: usize, texture: Texture, selector: Option<Selector>, state: State) {
        let answer = self.scopes[scope].merge_single(texture, selector, state);
        self.merged(answer);
    }

    fn set(&mut self, texture: Texture, selector: Selector, state: State) {
        let before = self.log.len();
        let answer = self.tracker.set_single(texture, selector, state, &mut self.log);
        self.logged(before, answer);
    }

    fn pass(&mut self) {
        let before = self.log.len();
        let answer = self.tracker.set_from_usage_scope(&self.scopes[0], &mut self.log);
        self.logged(before, answer);
    }

    fn empty(&mut self) {
        let entries = self.log.len() + self.log.free();
        self.log.clear();
        self.answers.push(format!("emptied 0 {entries}"));
    }

    fn clear_scope(&mut self, scope: usize) {
        self.scopes[scope].clear();
        self.answers.push("done".to_string());
    }
}

// ---- what is recorded ----------------------------------------------------------------------------------------------

/// "mips 0 to 2", "layer 5" at the start of the words, or all of them.
fn span<'a>(words: &mut &'a [&'a str], one: &str, many: &str, all: u32) -> Range<u32> {
    let number = |word: &str| word.parse::<u32>().unwrap();
    let (range, rest) = match **words {
        [word, first, "to", last, ref rest @ ..] if word == many => (number(first)..number(last) + 1, rest),
        [word, at, ref rest @ ..] if word == one => (number(at)..number(at) + 1, rest),
        ref rest => (0..all, rest),
    };
    *words = rest;
    range
}

type Named<'a> = (&'a str, Texture);

fn textures<'a>(lines: impl Iterator<Item = Vec<&'a str>>) -> Vec<Named<'a>> {
    let mut textures = Vec::new();
    for words in lines {
        if let ["texture", name, "mips", mips, "layers", layers] = words[..] {
            let extent = Extent::new(mips.parse().unwrap(), layers.parse().unwrap());
            textures.push((name, Texture::new(TrackerIndex(textures.len() as u32), extent)));
        }
    }
    textures
}

/// A use of a texture: which part, and its state.
fn merge<'a>(floor: &mut Floor, textures: &[Named<'_>], name: &str, mut rest: &'a [&'a str]) {
    let (_, texture) = textures.iter().find(|(known, _)| *known == name).unwrap();
    let mips = span(&mut rest, "mip", "mips", texture.extent.mips);
    let layers = span(&mut rest, "layer", "layers", texture.extent.layers);
    let selector = bench::selector(mips, layers);
    let all = selector == texture.extent.full_range();
    floor.merge(0, *texture, (!all).then_some(selector), rest[0].parse().unwrap());
}

/// The demonstration's frame, twice, and then camera 5 late in the classification.
fn demonstration() -> Floor {
    let path = PathBuf::from(env!("CARGO_MANIFEST_DIR")).join("examples/sorter/demo.frame");
    let text = fs::read_to_string(path).unwrap();
    let lines = || text.lines().map(|line| line.split('#').next().unwrap().split_whitespace().collect::<Vec<_>>());
    let textures = textures(lines());
    let mut floor = Floor::open(textures.len() as u32, Extent::new(4, 8), 64);
    for (_, texture) in &textures {
        floor.set(*texture, texture.extent.full_range(), uses::UNINITIALIZED);
    }
    for words in lines().chain(lines()) {
        match words[..] {
            ["pass", _] => {
                floor.pass();
                floor.empty();
                floor.clear_scope(0);
            }
            ["use", name, ref rest @ ..] => merge(&mut floor, &textures, name, rest),
            _ => {}
        }
    }
    floor.pass();
    floor.clear_scope(0);
    floor.merge(0, textures[0].1, None, uses::RESOURCE);
    floor.merge(0, textures[0].1, Some(Selector::one(Mip(0), Layer(5))), uses::COPY_DST);
    floor
}

impl Chance {
    /// Up to `most` from `start` on; now and then none, or reversed.
    fn span(&mut self, start: u32, most: u32) -> Range<u32> {
        match self.below(12) {
            0 => start..start,
            1 => start + 1..start,
            _ => start..start + 1 + self.below(most),
        }
    }

    /// Mips and layers, some of them bad or too many.
    fn selector(&mut self, extent: Extent) -> Selector {
        let (mip, layer) = (self.below(2), self.below(4));
        let part = bench::selector(self.span(mip, 1), self.span(layer, 3));
        if self.below(3) == 0 {
            extent.full_range()
        } else {
            part
        }
    }
}

/// Random calls of every kind, with a log that is sometimes short, and sometimes with what is refused.
fn random(seed: u64, calls: u32) -> Floor {
    let mut chance = Chance(seed);
    let mut floor = Floor::open(2, Extent::new(2, 4), 12);
    let states = [uses::COPY_SRC, uses::RESOURCE, uses::COPY_DST, uses::COLOR_TARGET, State(0), State(24)];
    for _ in 0..calls {
        let extent = if chance.below(20) == 0 { Extent::new(1, 4) } else { Extent::new(2, 4) };
        let texture = Texture::new(TrackerIndex(chance.below(41) / 20), extent);
        let selector = chance.selector(extent);
        // The last two are refused.
        let among = if chance.below(4) == 0 { 6 } else { 4 };
        let state = states[chance.below(among) as usize];
        call(&mut floor, &mut chance, texture, selector, state);
    }
    floor
}

fn call(floor: &mut Floor, chance: &mut Chance, texture: Texture, selector: Selector, state: State) {
    let before = floor.log.len();
    match chance.below(12) {
        0 => floor.clear_scope(chance.below(2) as usize),
        1 => floor.empty(),
        2 => floor.pass(),
        3 => {
            let [to, from] = &mut floor.scopes;
            let answer = to.merge_usage_scope(from);
            floor.merged(answer);
        }
        4 => {
            let answer = floor.tracker.set_from_tracker(&floor.commands, &mut floor.log);
            floor.logged(before, answer);
        }
        5 => {
            let list = [chance.below(3), chance.below(2)].map(TrackerIndex);
            let scope = &mut floor.scopes[1];
            let answer = floor.commands.set_and_remove_from_usage_scope_sparse(scope, &list, &mut floor.log);
            floor.logged(before, answer);
        }
        6..=8 => floor.set(texture, selector, state),
        _ => {
            let selector = (chance.below(3) > 0).then_some(selector);
            floor.merge(chance.below(2) as usize, texture, selector, state);
        }
    }
}

// ---- replaying -----------------------------------------------------------------------------------------------------

/// The answers of a replay, without what the sets hold.
fn replayed(calls: &str) -> Vec<String> {
    let mut program = Command::new(built::example("oracle"));
    let mut run = program.stdin(Stdio::piped()).stdout(Stdio::piped()).spawn().unwrap();
    let mut input = run.stdin.take().unwrap();
    let text = calls.to_string();
    let writer = thread::spawn(move || input.write_all(text.as_bytes()));
    let done = run.wait_with_output().unwrap();
    writer.join().unwrap().unwrap();
    assert!(done.status.success());
    let told = ["case", "done", "conflict", "refused", "transition", "emptied"];
    let text = String::from_utf8(done.stdout).unwrap();
    text.lines().filter(|line| told.iter().any(|word| line.starts_with(word))).map(str::to_string).collect()
}

fn temporary(name: &str) -> PathBuf {
    PathBuf::from(env!("CARGO_TARGET_TMPDIR")).join(name)
}

/// Status and output of `tools/replay` on these calls, with a further program; None in a tarball, which has no such tool.
fn replay(name: &str, calls: &str, program: &Path) -> Option<(Option<i32>, String)> {
    let path = temporary(name);
    fs::write(&path, calls).unwrap();
    let tool = PathBuf::from(env!("CARGO_MANIFEST_DIR")).join("../../tools/replay");
    if !tool.is_file() {
        tell("skipped: there is no tools/replay");
        return None;
    }
    let done = Command::new(tool).arg(&path).arg(program).output().unwrap();
    let said = [done.stdout, done.stderr].concat();
    Some((done.status.code(), String::from_utf8(said).unwrap()))
}

/// Says it also where the test harness keeps what a passing test prints.
fn tell(text: &str) {
    let _ = writeln!(io::stderr(), "tests/record.rs: {text}");
}

/// What was returned on the floor is returned again, and so by all that `tools/replay` finds.
fn same_again(name: &str, floor: &Floor) {
    let calls = floor.page.text();
    assert_eq!(replayed(&calls), floor.answers);
    let Some((status, said)) = replay(name, &calls, &built::example("oracle")) else { return };
    assert_eq!(status, Some(0), "{said}");
    assert!(said.ends_with("answers are the same\n"), "{said}");
    for line in said.lines().filter(|line| line.contains("left out") || line.contains("answers are")) {
        tell(&format!("{name}: {}", line.trim()));
    }
}

fn kinds(floor: &Floor, word: &str) -> usize {
    floor.answers.iter().filter(|answer| answer.starts_with(word)).count()
}

// ---- tests ---------------------------------------------------------------------------------------------------------

#[test]
fn the_demonstration() {
    let floor = demonstration();
    assert_eq!(floor.answers.last().unwrap(), "conflict 0 0 1 5 6 16 8");
    assert!(kinds(&floor, "transition") > 10);
    same_again("demonstration.calls", &floor);
}

#[test]
fn random_calls() {
    let floor = random(1, 400);
    for (word, least) in [("done", 100), ("conflict", 10), ("transition", 50), ("emptied", 10)] {
        assert!(kinds(&floor, word) >= least, "{word}: {}", kinds(&floor, word));
    }
    for number in [7, 9, 16, 17, 18, 19, 11, 12, 13, 15] {
        assert!(kinds(&floor, &format!("refused {number} ")) > 0, "{number}");
    }
    same_again("random.calls", &floor);
}

/// A program that answers one line wrongly is found, with the call that it answers.
#[test]
fn a_wrong_answer_is_reported() {
    let liar = temporary("liar");
    let oracle = built::example("oracle");
    fs::write(&liar, format!("#!/bin/sh\n'{}' | sed 's/^conflict .*/done/'\n", oracle.display())).unwrap();
    fs::set_permissions(&liar, fs::Permissions::from_mode(0o755)).unwrap();
    let calls = demonstration().page.text();
    let Some((status, said)) = replay("liar.calls", &calls, &liar) else { return };
    assert_eq!(status, Some(1), "{said}");
    let line = calls.lines().count();
    assert!(said.contains(&format!("to line {line}, merge_single 1 0 4 8 8 0 1 5 6\n")), "{said}");
    assert!(said.contains("liar: done\nthe answers are not the same\n"), "{said}");
}

#[test]
fn a_broken_line_is_reported() {
    let calls = demonstration().page.text().replacen("merge_single 1 0 4 8 8", "merge_single 1 0 4 x 8", 1);
    let line = calls.lines().position(|line| line.contains('x')).unwrap() + 1;
    let Some((status, said)) = replay("broken.calls", &calls, &built::example("oracle")) else { return };
    assert_eq!(status, Some(2), "{said}");
    assert!(
        said.ends_with(&format!("line {line}: no line of the language: merge_single 1 0 4 x 8 0 1 0 1\n")),
        "{said}"
    );
}

/// A merge of logs is written with the third log's head and the numbers of both logs; a refused one too.
#[test]
fn merged_logs() {
    let page = Page::default();
    let recorder = Recorder::new(page.clone());
    let log = |indices: &[u32]| {
        let mut log = recorder.log(texture_tracker::TransitionLog::with_capacity(2));
        let mut tracker = recorder.open_tracker(3, bench::EXTENT, uses::FLAGS, State(0)).unwrap();
        for &index in indices {
            let texture = bench::texture(index, bench::EXTENT);
            tracker.set_single(texture, bench::EXTENT.full_range(), uses::COPY_DST, &mut log).unwrap();
            tracker.set_single(texture, bench::part(), uses::RESOURCE, &mut log).unwrap();
        }
        log
    };
    let (first, second, down) = (log(&[0, 2]), log(&[1]), log(&[2, 1]));
    let mut out = recorder.log(texture_tracker::TransitionLog::with_capacity(3));
    assert_eq!(merge_logs(&first, &second, &mut out).map(Rest::len), Ok(1));
    assert_eq!(merge_logs(&down, &second, &mut out), Err(Refusal::LogOutOfOrder));
    let text = page.text();
    let lines: Vec<_> = text.lines().filter(|line| line.starts_with("merge_logs")).collect();
    let entries = ["0 0 1 1 3 8 16", "1 0 1 1 3 8 16", "2 0 1 1 3 8 16"];
    assert_eq!(lines[0], format!("merge_logs 0 3 21 14 7 {} {} {}", entries[0], entries[2], entries[1]));
    assert_eq!(lines[1], format!("merge_logs 2 1 21 14 7 {} {} {}", entries[2], entries[1], entries[1]));
    assert_eq!(lines.len(), 2);
}

/// A use is recorded as the merge that it is, with its selector also where that is all of the texture.
#[test]
fn uses_of_a_plan() {
    let page = Page::default();
    let cameras = Texture::new(TrackerIndex(0), Extent::new(1, 8));
    let mut scope = Recorder::new(page.clone()).open_scope(1, cameras.extent, uses::FLAGS).unwrap();
    let mut plan = Plan::new();
    plan.push(Use::whole(cameras, uses::RESOURCE)).unwrap();
    plan.push(Use::new(cameras, Selector::one(Mip(0), Layer(5)), uses::COPY_DST)).unwrap();
    let answers: Vec<_> = plan.uses().map(|one| scope.merge_use(one).is_ok()).collect();
    assert_eq!(answers, [true, false]);
    let text = page.text();
    let lines: Vec<_> = text.lines().skip(2).collect();
    assert_eq!(lines, ["merge_single 0 0 1 8 16 0 1 0 8", "merge_single 0 0 1 8 8 0 1 5 6"]);
    assert_eq!(replayed(&text)[2..], ["done", "conflict 0 0 1 5 6 16 8"]);
}

/// Sets that are dropped give their numbers back; where none is left, a new case begins.
#[test]
fn numbers_and_cases() {
    let page = Page::default();
    let recorder = Recorder::new(page.clone());
    let open = || recorder.open_scope(1, Extent::new(1, 1), uses::FLAGS);
    let (first, second) = (open().unwrap(), open().unwrap());
    drop(first);
    let again = open().unwrap();
    drop((again, second));
    assert_eq!(recorder.open_scope(65, Extent::new(1, 1), uses::FLAGS).unwrap_err(), Refusal::NumbersOutOfLimits);
    open().unwrap();
    let text = page.text();
    let starts: Vec<_> = text.lines().map(|line| line.split(" 3754").next().unwrap()).collect();
    let scope = |number| ["open_scope 0 1 1 1", "open_scope 1 1 1 1"][number];
    assert_eq!(starts, ["case 1", scope(0), scope(1), scope(0), "case 2", "open_scope 0 65 1 1", "case 3", scope(0)]);
    assert_eq!(replayed(&text), ["case 1", "done", "done", "done", "case 2", "refused 1 0 kept", "case 3", "done"]);
}

/// A place that cannot be written to stops no call, and is reported at the end.
#[test]
fn what_cannot_be_written() {
    struct Full;
    impl Write for Full {
        fn write(&mut self, _: &[u8]) -> io::Result<usize> {
            Err(io::Error::other("full"))
        }
        fn flush(&mut self) -> io::Result<()> {
            Ok(())
        }
    }
    let recorder = Recorder::new(Full);
    let mut scope = recorder.open_scope(1, bench::EXTENT, uses::FLAGS).unwrap();
    assert_eq!(scope.merge_single(bench::TEXTURE, None, uses::RESOURCE), Ok(()));
    assert_eq!(recorder.finish().unwrap_err().to_string(), "full");
}

#[test]
fn two_recorders() {
    let recorders = [Recorder::new(Page::default()), Recorder::new(Page::default())];
    let [mut to, from] = recorders.each_ref().map(|each| each.open_scope(1, bench::EXTENT, uses::FLAGS).unwrap());
    assert_eq!(to.merge_usage_scope(&from), Ok(()));
    assert_eq!(recorders[0].finish().unwrap_err().to_string(), "the sets of a call are of two recorders");
}

/// A thread for each set, one recording.
#[test]
fn threads() {
    let page = Page::default();
    let recorder = Recorder::new(page.clone());
    let scopes = [(); 3].map(|()| recorder.open_scope(1, bench::EXTENT, uses::FLAGS).unwrap());
    let made = scopes.map(|mut scope| {
        thread::spawn(move || {
            for _ in 0..100 {
                scope.merge_single(bench::TEXTURE, None, uses::RESOURCE).unwrap();
            }
            scope
        })
    });
    let scopes = made.map(|thread| thread.join().unwrap());
    assert_eq!(*scopes[0], *scopes[2]);
    assert_eq!(replayed(&page.text()), [vec!["case 1".to_string()], vec!["done".to_string(); 303]].concat());
}
