//! One frame of an optical sorter with twelve cameras, written from the documents alone: README.md, docs/CALLS.md, docs/RULES.md and the
//! crate's documentation. What is expected was written down before the first run, with the sentence that it follows from.

use std::fmt::Debug;
use std::process::ExitCode;
use texture_tracker::*;

const CAMERAS: u32 = 12;
const LATE: u32 = 7;
const PICTURES: Texture = Texture::new(TrackerIndex(0), Extent::new(3, CAMERAS));
const VERDICTS: Texture = Texture::new(TrackerIndex(1), Extent::new(1, 1));

/// The passes of the frame, in their order.
#[derive(Clone, Copy, PartialEq)]
enum Pass {
    CopyIn,
    MakeMip1,
    MakeMip2,
    Classify,
    CopyOut,
}
const FRAME: [Pass; 5] = [Pass::CopyIn, Pass::MakeMip1, Pass::MakeMip2, Pass::Classify, Pass::CopyOut];

type Use = (Texture, Option<Selector>, State);
type Told = Vec<Vec<String>>;

// ---- Expected -------------------------------------------------------------------------------------------------------

/// The textures are new, so each part comes from UNINITIALIZED. Inside a pass a texture's mips come in their order ("Subresources go mip
/// first, then layer"). The classifier's read of mips 0 and 1 is not told: they are in RESOURCE already, which ORDERED contains.
const FIRST: [&[&str]; 5] = [
    &["texture 0, mip 0, layers 0 to 11: UNINITIALIZED to COPY_DST"],
    &[
        "texture 0, mip 0, layers 0 to 11: COPY_DST to RESOURCE",
        "texture 0, mip 1, layers 0 to 11: UNINITIALIZED to COLOR_TARGET",
    ],
    &[
        "texture 0, mip 1, layers 0 to 11: COLOR_TARGET to RESOURCE",
        "texture 0, mip 2, layers 0 to 11: UNINITIALIZED to COLOR_TARGET",
    ],
    &[
        "texture 0, mip 2, layers 0 to 11: COLOR_TARGET to RESOURCE",
        "texture 1, mip 0, layer 0: UNINITIALIZED to STORAGE_WRITE_ONLY",
    ],
    &["texture 1, mip 0, layer 0: STORAGE_WRITE_ONLY to COPY_SRC"],
];

/// The second frame begins where the first ended: pictures in RESOURCE, verdicts in COPY_SRC.
const SECOND: [&[&str]; 5] = [
    &["texture 0, mip 0, layers 0 to 11: RESOURCE to COPY_DST"],
    &[
        "texture 0, mip 0, layers 0 to 11: COPY_DST to RESOURCE",
        "texture 0, mip 1, layers 0 to 11: RESOURCE to COLOR_TARGET",
    ],
    &[
        "texture 0, mip 1, layers 0 to 11: COLOR_TARGET to RESOURCE",
        "texture 0, mip 2, layers 0 to 11: RESOURCE to COLOR_TARGET",
    ],
    &[
        "texture 0, mip 2, layers 0 to 11: COLOR_TARGET to RESOURCE",
        "texture 1, mip 0, layer 0: COPY_SRC to STORAGE_WRITE_ONLY",
    ],
    &["texture 1, mip 0, layer 0: STORAGE_WRITE_ONLY to COPY_SRC"],
];

/// The third frame, with camera 7 late: its layer of mip 0 stays in RESOURCE, so nothing is told of it. Then comes the conflict.
const THIRD: [&[&str]; 3] = [
    &[
        "texture 0, mip 0, layers 0 to 6: RESOURCE to COPY_DST",
        "texture 0, mip 0, layers 8 to 11: RESOURCE to COPY_DST",
    ],
    &[
        "texture 0, mip 0, layers 0 to 6: COPY_DST to RESOURCE",
        "texture 0, mip 0, layers 8 to 11: COPY_DST to RESOURCE",
        "texture 0, mip 1, layers 0 to 11: RESOURCE to COLOR_TARGET",
    ],
    SECOND[2],
];

const CONFLICT: &str = "texture 0, mip 0, layer 7: in use as RESOURCE, cannot be used as COPY_DST beside it";
const OTHER_WAY: &str = "texture 0, mip 0, layer 7: in use as COPY_DST, cannot be used as RESOURCE beside it";

// ---- The frame ------------------------------------------------------------------------------------------------------

/// The copy of one camera's picture into mip 0 of its layer.
fn copy_of(camera: u32) -> Use {
    (PICTURES, Some(Selector::one(Mip(0), Layer(camera))), uses::COPY_DST)
}

/// Makes a mip from the one before: reads that one, draws to this one.
fn make(mip: u32) -> Vec<Use> {
    let one = |mip| Some(Selector::mip(Mip(mip), PICTURES.extent));
    vec![(PICTURES, one(mip - 1), uses::RESOURCE), (PICTURES, one(mip), uses::COLOR_TARGET)]
}

fn uses_of(pass: Pass, late: Option<u32>) -> Vec<Use> {
    match pass {
        Pass::CopyIn => (0..CAMERAS).filter(|&camera| Some(camera) != late).map(copy_of).collect(),
        Pass::MakeMip1 => make(1),
        Pass::MakeMip2 => make(2),
        Pass::Classify => {
            let mut all = vec![(PICTURES, None, uses::RESOURCE), (VERDICTS, None, uses::STORAGE_WRITE_ONLY)];
            all.extend(late.map(copy_of));
            all
        }
        Pass::CopyOut => vec![(VERDICTS, None, uses::COPY_SRC)],
    }
}

/// What keeps account of the device, and the memory of a pass.
struct Sorter {
    device: TextureTracker,
    scope: UsageScope,
    log: TransitionLog,
}

impl Sorter {
    fn open() -> Result<Self, Refusal> {
        let largest = PICTURES.extent;
        let mut sorter = Self {
            device: TextureTracker::open(2, largest, uses::FLAGS, uses::ORDERED)?,
            scope: UsageScope::open(2, largest, uses::FLAGS)?,
            log: TransitionLog::with_room_for(2, largest),
        };
        for new in [PICTURES, VERDICTS] {
            sorter.device.set_single(new, new.extent.full_range(), uses::UNINITIALIZED, &mut sorter.log)?;
        }
        Ok(sorter)
    }

    /// One pass: its uses in one scope, then the device goes on to it, then the driver is told.
    fn pass(&mut self, pass: Pass, late: Option<u32>) -> Result<Vec<String>, MergeError> {
        self.scope.clear();
        for (texture, selector, state) in uses_of(pass, late) {
            self.scope.merge_single(texture, selector, state)?;
        }
        self.device.set_from_usage_scope(&self.scope, &mut self.log)?;
        Ok(self.log.drain_transitions().map(|each| format!("{each:#}")).collect())
    }

    /// A frame up to its end, or up to the pass that has a conflict: what was told in each pass, and why it stopped.
    fn frame(&mut self, late: Option<u32>) -> (Told, Option<MergeError>) {
        let mut told = Told::new();
        for pass in FRAME {
            match self.pass(pass, late) {
                Ok(transitions) => told.push(transitions),
                Err(error) => return (told, Some(error)),
            }
        }
        (told, None)
    }

    fn ends(&self) -> [Option<State>; 2] {
        [PICTURES, VERDICTS].map(|texture| self.device.end(texture.index).and_then(|states| states.single()))
    }
}

// ---- Checking -------------------------------------------------------------------------------------------------------

#[derive(Default)]
struct Checks {
    made: u32,
    wrong: u32,
}

impl Checks {
    fn same<T: PartialEq + Debug>(&mut self, what: &str, got: T, expected: T) {
        self.made += 1;
        if got != expected {
            self.wrong += 1;
            eprintln!("{what}:\n  expected {expected:#?}\n  got      {got:#?}");
        }
    }
}

fn lines(expected: &[&[&str]]) -> Told {
    expected.iter().map(|pass| pass.iter().map(|line| line.to_string()).collect()).collect()
}

fn run(checks: &mut Checks) -> Result<(), Box<dyn std::error::Error>> {
    let mut sorter = Sorter::open()?;
    checks.same("nothing is told of new textures", sorter.log.is_empty(), true);

    checks.same("the first frame", sorter.frame(None), (lines(&FIRST), None));
    checks.same("the end of the first frame", sorter.ends(), [Some(uses::RESOURCE), Some(uses::COPY_SRC)]);
    let after_first = sorter.device.clone();

    checks.same("the second frame", sorter.frame(None), (lines(&SECOND), None));
    checks.same("the second frame ends as the first", &sorter.device, &after_first);
    let start = sorter.device.start(PICTURES.index).and_then(|states| states.single());
    checks.same("the device's start", start, Some(uses::UNINITIALIZED));

    // Camera 7's copy is left out of its pass and goes on while the classifier reads.
    let (told, error) = sorter.frame(Some(LATE));
    checks.same("what was told before the conflict", told, lines(&THIRD));
    let conflict = Conflict {
        index: PICTURES.index,
        selector: Selector::one(Mip(0), Layer(LATE)),
        current_state: uses::RESOURCE,
        new_state: uses::COPY_DST,
    };
    if let Some(error) = error {
        println!("conflict: {error:#}");
    }
    checks.same("the conflict", error, Some(MergeError::Conflict(conflict)));
    checks.same("the conflict in words", error.map(|error| format!("{error:#}")), Some(CONFLICT.to_string()));
    // "Whole with parted: on a conflict nothing of it changes."
    let read = sorter.scope.states(PICTURES.index).and_then(|states| states.single());
    checks.same("the scope after the conflict", read, Some(uses::RESOURCE));
    checks.same("nothing was told of the pass in conflict", sorter.log.is_empty(), true);
    let mip_2 = sorter.device.end(PICTURES.index).and_then(|states| states.state(Mip(2), Layer(0)));
    checks.same("the device is where the pass before left it", mip_2, Some(uses::COLOR_TARGET));

    // The same mistake, the copy first: "the first conflict stops, what was changed before it stays changed".
    sorter.scope.clear();
    let (texture, selector, state) = copy_of(LATE);
    sorter.scope.merge_single(texture, selector, state)?;
    let error = sorter.scope.merge_single(PICTURES, None, uses::RESOURCE).err();
    checks.same("the conflict, the copy first", error.map(|error| format!("{error:#}")), Some(OTHER_WAY.to_string()));
    let states = sorter.scope.states(PICTURES.index).ok_or("the scope has no pictures")?;
    let around = [LATE - 1, LATE, LATE + 1].map(|layer| states.state(Mip(0), Layer(layer)));
    checks.same("what is merged then", around, [Some(uses::RESOURCE), Some(uses::COPY_DST), Some(uses::UNKNOWN)]);
    Ok(())
}

fn main() -> ExitCode {
    let mut checks = Checks::default();
    if let Err(error) = run(&mut checks) {
        eprintln!("stranger in Rust: {error}");
        return ExitCode::FAILURE;
    }
    println!("stranger in Rust: {} checks, {} wrong", checks.made, checks.wrong);
    if checks.wrong == 0 { ExitCode::SUCCESS } else { ExitCode::FAILURE }
}
