//! Plan files: a frame from one, as text that `frame` reads, and one from a frame.
//!
//! A group of a plan is a pass. The groups within it belong to that pass, as the uses of a render bundle belong to the
//! pass that runs it: they are made at the same time. Uses that stand outside groups are a pass of their own, up to the
//! next group. A plan has no names: a texture goes by its index, a pass by its position. From a frame to a plan every
//! pass becomes a group, and what a plan does not hold is left out.
//!
//! The library reads, writes and judges: a file that it refuses is damaged, and a use that it refuses has no meaning.
use super::{
    area::{layers, mips},
    frame::{count, Frame},
    grid::span,
};
use std::{collections::BTreeMap, fmt, ops::Range};
use texture_tracker::*;

/// What a field takes in a file: a group its tag and length, a use 15 bytes more.
const HEADER: usize = 3;
const USE: usize = HEADER + 15;
/// A set that has room for every texture that the library takes.
const TEXTURES: u32 = 64;
const LARGEST: Extent = Extent::new(16, 256);

/// A plan as text.
pub struct Planned {
    pub text: String,
    /// For each line the use that it is.
    pub places: Vec<Option<Place>>,
    /// What of the plan the text does not tell.
    pub notes: Vec<String>,
}

/// Where a use stands in a plan: its number among the uses, from 1, and its first byte in the file, from 0.
#[derive(Clone, Copy)]
pub struct Place {
    number: usize,
    byte: usize,
}

impl fmt::Display for Place {
    fn fmt(&self, f: &mut fmt::Formatter<'_>) -> fmt::Result {
        write!(f, "use {}, byte {}", self.number, self.byte)
    }
}

struct Pass {
    /// Whether it is no group.
    outside: bool,
    uses: Vec<(Use, Place)>,
}

/// A plan on its way to text.
struct Reading {
    passes: Vec<Pass>,
    textures: BTreeMap<TrackerIndex, Extent>,
    depth: usize,
    /// How many groups stand within others.
    inner: usize,
    next: Place,
    /// To try a use on.
    trial: UsageScope,
}

/// The text of a plan file, or what is wrong with the file.
pub fn read(file: &[u8]) -> Result<Planned, String> {
    let plan = Plan::read(file).map_err(|refusal| damaged(file, refusal))?;
    let mut reading = Reading::new().map_err(|refusal| refusal.to_string())?;
    for item in &plan {
        match item {
            PlanItem::Opened => reading.opened(),
            PlanItem::Closed => reading.depth -= 1,
            PlanItem::Use(one) => reading.used(one)?,
        }
    }
    Ok(reading.planned())
}

/// A file that does not begin as a plan was taken for one by its name, which may be the mistake.
fn damaged(file: &[u8], refusal: Refusal) -> String {
    match file.first() {
        Some(1 | 2) => refusal.to_string(),
        _ => format!("{refusal}\n    it is read as a plan file because its name ends with .plan"),
    }
}

impl Reading {
    fn new() -> Result<Self, Refusal> {
        let trial = UsageScope::open(TEXTURES, LARGEST, uses::FLAGS)?;
        let next = Place { number: 1, byte: 0 };
        Ok(Self { passes: vec![], textures: BTreeMap::new(), depth: 0, inner: 0, next, trial })
    }

    fn opened(&mut self) {
        match self.depth {
            0 => self.passes.push(Pass { outside: false, uses: vec![] }),
            _ => self.inner += 1,
        }
        self.depth += 1;
        self.next.byte += HEADER;
    }

    fn used(&mut self, one: Use) -> Result<(), String> {
        let place = self.next;
        self.judge(one).map_err(|what| format!("{place}: {one:#}\n    {what}"))?;
        self.next = Place { number: place.number + 1, byte: place.byte + USE };
        match self.passes.last_mut() {
            Some(pass) if self.depth > 0 || pass.outside => pass.uses.push((one, place)),
            _ => self.passes.push(Pass { outside: true, uses: vec![(one, place)] }),
        }
        Ok(())
    }

    /// What the library says of a use, after earlier ones of its texture. It takes states that wgpu does not know; a
    /// frame has none.
    fn judge(&mut self, one: Use) -> Result<(), String> {
        self.trial.clear();
        let Texture { index, extent } = one.texture;
        let known = *self.textures.entry(index).or_insert(extent);
        if known != extent {
            // Taken before; now it is what the set holds the texture with.
            let _ = self.trial.merge_use(Use::whole(Texture { index, extent: known }, uses::RESOURCE));
        }
        if let Err(MergeError::Refused(refusal)) = self.trial.merge_use(one) {
            return Err(refusal.to_string());
        }
        match uses::from_name(&uses::name(one.state)) {
            Some(_) => Ok(()),
            None => Err(format!("{} has a use that wgpu does not know", uses::name(one.state))),
        }
    }

    fn planned(self) -> Planned {
        let mut lines = vec![];
        let mut next = 0;
        for (TrackerIndex(index), Extent { mips, layers }) in &self.textures {
            let number = if *index == next { String::new() } else { format!(" number {index}") };
            lines.push((format!("texture texture-{index} mips {mips} layers {layers}{number}"), None));
            next = index + 1;
        }
        for (at, pass) in self.passes.iter().enumerate() {
            let outside = if pass.outside { "    # uses outside groups" } else { "" };
            lines.extend([(String::new(), None), (format!("pass pass-{}{outside}", at + 1), None)]);
            lines.extend(pass.uses.iter().map(|(one, place)| (format!("    use {}", said(one)), Some(*place))));
        }
        let text = lines.iter().flat_map(|(line, _)| [line, "\n"]).collect();
        Planned { text, places: lines.iter().map(|(_, place)| *place).collect(), notes: self.notes() }
    }

    fn notes(&self) -> Vec<String> {
        let inner = count(self.inner, "group within a group is part", "groups within groups are part");
        let outside = self.passes.iter().filter(|pass| pass.outside).count();
        let passes = count(outside, "pass is no group of the plan", "passes are no groups of the plan");
        let notes = [
            (self.inner, format!("{inner} of the pass around: what is in one pass is made at the same time")),
            (outside, format!("{passes}, but uses that stand outside groups")),
        ];
        notes.into_iter().filter(|(count, _)| *count > 0).map(|(_, note)| note).collect()
    }
}

/// A use in the words of the text, which names no mips or layers where it means all.
fn said(one: &Use) -> String {
    let part = |word: &str, some: Range<u32>, all: u32| {
        if some == (0..all) {
            String::new()
        } else {
            format!(" {}", span(word, &some))
        }
    };
    let Texture { index: TrackerIndex(index), extent } = one.texture;
    let mips = part("mip", mips(&one.selector), extent.mips);
    let layers = part("layer", layers(&one.selector), extent.layers);
    format!("texture-{index}{mips}{layers} {}", uses::name(one.state))
}

/// A frame as a plan file, a group for each pass.
pub fn write(frame: &Frame) -> Result<Vec<u8>, String> {
    let mut plan = Plan::new();
    for pass in &frame.passes {
        plan.open_group();
        for made in &pass.uses {
            let one = Use::new(made.texture, made.part(), made.state);
            plan.push(one).map_err(|error| format!("{}\n    {error}", frame.told(made)))?;
        }
        plan.close_group();
    }
    plan.write().map_err(|refusal| {
        let most = frame.passes.iter().max_by_key(|pass| pass.uses.len());
        let pass = most.map_or(String::new(), |pass| format!("pass {} has {} uses", pass.name, pass.uses.len()));
        format!("{pass}: {refusal}")
    })
}
