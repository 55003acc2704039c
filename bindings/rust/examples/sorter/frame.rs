//! The line language of a frame; demo.frame explains it. A plan file becomes text of this language before it is shown:
//! `plan` says how.
//!
//! What a line may say of textures, mips, layers and states is not decided here: each use is tried on a scope of its
//! own, and the library's refusal is what is wrong with the line.
use super::{
    area::{layers, mips, part},
    input, kinds,
    plan::{Place, Planned},
};
use std::{
    collections::{HashMap, HashSet},
    ops::Range,
};
use texture_tracker::*;

const MOST_IN_NAME: usize = 24;

#[derive(Default)]
pub struct Frame<'a> {
    lines: Vec<&'a str>,
    pub textures: Vec<(&'a str, Texture)>,
    pub passes: Vec<Pass<'a>>,
    pub late: Vec<Late<'a>>,
    named: Named<'a>,
    /// A scope for each texture, to try a use on.
    trials: Vec<UsageScope>,
    /// For each line the use of the plan that it is, if the text is that of a plan.
    places: &'a [Option<Place>],
}

pub struct Pass<'a> {
    pub name: &'a str,
    pub uses: Vec<Use>,
}

pub struct Use {
    /// Where it stands in the file, from 1.
    pub line: usize,
    pub texture: Texture,
    /// None for all of the texture.
    pub selector: Option<Selector>,
    pub state: State,
}

/// Uses that are left out of their passes and made in another one, by its position.
pub struct Late<'a> {
    pub names: Vec<&'a str>,
    /// Their lines.
    lines: Vec<usize>,
    pub pass: usize,
}

/// What has a name, by it.
#[derive(Default)]
struct Named<'a> {
    textures: HashMap<&'a str, usize>,
    passes: HashMap<&'a str, usize>,
    /// A use: its pass, and its position there.
    uses: HashMap<&'a str, (usize, usize)>,
    /// The first named use of that layer alone, as a camera has: texture, mip and layer.
    labels: HashMap<(TrackerIndex, u32, u32), &'a str>,
}

type Told<T> = Result<T, String>;

impl Use {
    pub fn part(&self) -> Selector {
        self.selector.unwrap_or(self.texture.extent.full_range())
    }
}

impl<'a> Frame<'a> {
    pub fn read(text: &'a str) -> Told<Self> {
        let mut frame = Self { lines: text.lines().collect(), ..Self::default() };
        for at in 1..=frame.lines.len() {
            let said = frame.said(at);
            let words: Vec<&str> = said.split_whitespace().collect();
            frame.line(at, &words).map_err(|what| format!("line {at}: {}\n    {what}", input::told(said)))?;
        }
        Ok(frame)
    }

    /// The frame that a plan's text is.
    pub fn of_plan(plan: &'a Planned) -> Told<Self> {
        let frame = Self { places: &plan.places, ..Self::read(&plan.text)? };
        if frame.textures.is_empty() {
            return Err("the plan has no use, so there is nothing to show".into());
        }
        Ok(frame)
    }

    /// The same, if there is something to show; to write a plan, there need not be.
    pub fn complete(self) -> Told<Self> {
        match (self.textures.is_empty(), self.passes.is_empty()) {
            (true, _) => {
                Err("the frame has no texture: write one as in bindings/rust/examples/sorter/demo.frame".into())
            }
            (_, true) => Err("the frame has no pass: write one as in bindings/rust/examples/sorter/demo.frame".into()),
            _ => Ok(self),
        }
    }

    /// What a line says, from 1, without its comment.
    pub fn said(&self, line: usize) -> &'a str {
        self.lines[line - 1].split('#').next().unwrap_or_default().trim()
    }

    /// A use with where it stands: its line, or its number and its first byte in the plan.
    pub fn told(&self, made: &Use) -> String {
        let said = self.said(made.line);
        match self.places.get(made.line - 1) {
            Some(Some(place)) => format!("{place}: {}", said.trim_start_matches("use ")),
            _ => format!("line {}: {said}", made.line),
        }
    }

    fn line(&mut self, at: usize, words: &[&'a str]) -> Told<()> {
        match words {
            [] => Ok(()),
            ["texture", name, "mips", mips, "layers", layers] => self.texture(name, mips, layers, None),
            ["texture", name, "mips", mips, "layers", layers, "number", index] => {
                self.texture(name, mips, layers, Some(number("number", index)?))
            }
            ["texture", ..] => Err("a texture is written: texture NAME mips M layers W [number N]".into()),
            ["pass", name] => self.pass(name),
            ["pass", ..] => Err("a pass is written: pass NAME".into()),
            ["use", name, rest @ ..] => self.use_of(at, name, rest),
            ["use"] => Err("a use is written: use TEXTURE PART STATE".into()),
            ["late", first, rest @ .., pass] => self.late(first, rest, pass),
            ["late", ..] => Err("late uses are written: late NAME PASS, or late NAME NAME .. PASS".into()),
            [word, ..] => Err(format!("\"{}\" is none of: texture, pass, use, late", input::told(word))),
        }
    }

    fn texture(&mut self, name: &'a str, mips: &str, layers: &str, index: Option<u32>) -> Told<()> {
        if !self.passes.is_empty() {
            return Err("textures come before the first pass".into());
        }
        if self.named.textures.insert(proper(name)?, self.textures.len()).is_some() {
            return Err(format!("there is a texture {name} already"));
        }
        let index = index.unwrap_or_else(|| self.textures.last().map_or(0, |(_, last)| last.index.0 + 1));
        if let Some((other, _)) = self.textures.iter().find(|(_, other)| other.index.0 == index) {
            return Err(format!("texture {other} has number {index} already"));
        }
        let extent = Extent { mips: number("mips", mips)?, layers: number("layers", layers)? };
        let open = |textures, mips, layers| UsageScope::open(textures, Extent { mips, layers }, uses::FLAGS);
        let out = |what: String| move |refusal| format!("{what} is out of range: {refusal}");
        open(index.saturating_add(1), 1, 1).map_err(out(format!("number {index}, counted from 0,")))?;
        open(1, extent.mips, 1).map_err(out(format!("mips {mips}")))?;
        open(1, 1, extent.layers).map_err(out(format!("layers {layers}")))?;
        self.trials.push(open(1, extent.mips, extent.layers).map_err(|refusal| refusal.to_string())?);
        self.textures.push((name, Texture { index: TrackerIndex(index), extent }));
        Ok(())
    }

    fn pass(&mut self, name: &'a str) -> Told<()> {
        if self.named.passes.insert(proper(name)?, self.passes.len()).is_some() {
            return Err(format!("there is a pass {name} already"));
        }
        self.passes.push(Pass { name, uses: vec![] });
        Ok(())
    }

    fn use_of(&mut self, line: usize, texture: &str, rest: &[&'a str]) -> Told<()> {
        let known = self.named.textures.get(texture);
        let at = *known.ok_or_else(|| format!("there is no texture {}", input::told(texture)))?;
        let (made, name) = read_use(line, self.textures[at].1, rest)?;
        self.try_alone(at, &made)?;
        let home = self.passes.len().checked_sub(1).ok_or("a use comes after the pass that makes it")?;
        if let Some(name) = name {
            if self.named.uses.insert(proper(name)?, (home, self.passes[home].uses.len())).is_some() {
                return Err(format!("there is a use named {name} already"));
            }
            self.label(&made, name);
        }
        self.passes[home].uses.push(made);
        Ok(())
    }

    /// What the library says of a use of a texture, by its position.
    fn try_alone(&mut self, texture: usize, made: &Use) -> Told<()> {
        let alone = Texture { index: TrackerIndex(0), extent: made.texture.extent };
        let trial = &mut self.trials[texture];
        trial.clear();
        let answer = trial.merge_single(alone, made.selector, made.state);
        answer.map_err(|refused| worded(made, refused))
    }

    fn label(&mut self, made: &Use, name: &'a str) {
        let part = made.part();
        if layers(&part).len() == 1 {
            for mip in mips(&part) {
                let place = (made.texture.index, mip, layers(&part).start);
                self.named.labels.entry(place).or_insert(name);
            }
        }
    }

    fn late(&mut self, first: &'a str, rest: &[&'a str], pass: &str) -> Told<()> {
        let known = self.named.passes.get(pass);
        let position = *known.ok_or_else(|| format!("there is no pass {}", input::told(pass)))?;
        let mut late = Late { names: vec![], lines: vec![], pass: position };
        let mut seen = HashSet::new();
        for &name in [first].iter().chain(rest) {
            let known = self.named.uses.get(name);
            let &(home, at) = known.ok_or_else(|| format!("there is no use named {}", input::told(name)))?;
            if home == position {
                return Err(format!("{name} is made in pass {pass} as it is"));
            }
            if !seen.insert(name) {
                return Err(format!("{name} is named twice"));
            }
            late.names.push(name);
            late.lines.push(self.passes[home].uses[at].line);
        }
        self.late.push(late);
        Ok(())
    }

    /// The uses of a pass, with late ones left out of it or added to it.
    pub fn uses_of<'b>(&'b self, pass: usize, late: Option<&'b Late>) -> Vec<&'b Use> {
        let lines: &[usize] = late.map_or(&[], |late| &late.lines);
        let made = self.passes[pass].uses.iter().filter(|made| !lines.contains(&made.line));
        let added = late.filter(|late| late.pass == pass).map_or(&[][..], |late| &late.names);
        made.chain(added.iter().map(|name| self.named_use(name).1)).collect()
    }

    /// The pass of a named use, by its position, and the use.
    pub fn named_use(&self, name: &str) -> (usize, &Use) {
        let (home, at) = self.named.uses[name];
        (home, &self.passes[home].uses[at])
    }

    pub fn texture_name(&self, index: TrackerIndex) -> &'a str {
        self.textures.iter().find(|(_, texture)| texture.index == index).map_or("", |(name, _)| name)
    }

    pub fn label_of(&self, index: TrackerIndex, mip: u32, layer: u32) -> Option<&'a str> {
        self.named.labels.get(&(index, mip, layer)).copied()
    }

    /// How many indices the textures take, and an extent that none of them exceeds: what sets are opened with.
    pub fn size(&self) -> (u32, Extent) {
        let most = |of: fn(Extent) -> u32| self.textures.iter().map(|(_, texture)| of(texture.extent)).max();
        let largest = Extent { mips: most(|one| one.mips).unwrap_or(0), layers: most(|one| one.layers).unwrap_or(0) };
        (self.textures.iter().map(|(_, texture)| texture.index.0 + 1).max().unwrap_or(0), largest)
    }

    /// In words: how many of everything.
    pub fn facts(&self) -> String {
        let made = self.passes.iter().map(|pass| pass.uses.len()).sum();
        let textures = count(self.textures.len(), "texture", "textures");
        let passes = count(self.passes.len(), "pass", "passes");
        format!("{textures}, {passes}, {}", count(made, "use", "uses"))
    }

    /// What the text says and a plan does not hold.
    pub fn unplanned(&self) -> Vec<String> {
        let names = [
            (self.textures.len(), "texture", "textures"),
            (self.passes.len(), "pass", "passes"),
            (self.named.uses.len(), "use", "uses"),
        ];
        let names = names.into_iter().filter(|(number, ..)| *number > 0);
        let names: Vec<String> = names.map(|(number, one, many)| count(number, one, many)).collect();
        let names = (!names.is_empty()).then(|| format!("names ({})", names.join(", ")));
        let used: HashSet<_> = self.passes.iter().flat_map(|pass| &pass.uses).map(|made| made.texture.index).collect();
        let unused = self.textures.iter().filter(|(_, texture)| !used.contains(&texture.index));
        let unused = unused.map(|(name, _)| format!("texture {name}, which no pass uses"));
        let late = (!self.late.is_empty()).then(|| count(self.late.len(), "late line", "late lines"));
        let comments = self.lines.iter().any(|line| line.contains('#')).then(|| "comments".to_string());
        names.into_iter().chain(unused).chain(late).chain(comments).collect()
    }
}

pub fn count(number: usize, one: &str, many: &str) -> String {
    format!("{number} {}", if number == 1 { one } else { many })
}

/// A name that can be shown wherever it has to be.
fn proper(name: &str) -> Told<&str> {
    let good = |one: char| one.is_alphanumeric() || "-_.:/+".contains(one);
    if name.chars().count() > MOST_IN_NAME {
        return Err(format!("the name {} has more than {MOST_IN_NAME} characters", input::told(name)));
    }
    match name.chars().find(|&one| !good(one)) {
        Some(bad) => Err(format!("a name has letters, digits and - _ . : / + only, not {}", bad.escape_debug())),
        None => Ok(name),
    }
}

fn number(what: &str, word: &str) -> Told<u32> {
    word.parse().map_err(|_| format!("{what}: \"{}\" is not a whole number from 0 to {}", input::told(word), u32::MAX))
}

/// Takes mips or layers off the words, if they are there.
fn span<'w, 'a>(words: &'w [&'a str], one: &str, many: &str) -> Told<(Option<Range<u32>>, &'w [&'a str])> {
    let after = |last: u32| last.checked_add(1).ok_or(format!("{one} {last} is out of range"));
    match words {
        [word, first, "to", last, rest @ ..] if *word == many => {
            Ok((Some(number(many, first)?..after(number(many, last)?)?), rest))
        }
        [word, at, rest @ ..] if *word == one => {
            let at = number(one, at)?;
            Ok((Some(at..after(at)?), rest))
        }
        [word, ..] if *word == one || *word == many => Err(format!("write: {one} NUMBER, or {many} NUMBER to NUMBER")),
        _ => Ok((None, words)),
    }
}

/// A use and its name.
fn read_use<'a>(line: usize, texture: Texture, words: &[&'a str]) -> Told<(Use, Option<&'a str>)> {
    let (mips, words) = span(words, "mip", "mips")?;
    let (layers, words) = span(words, "layer", "layers")?;
    let (names, name) = match words {
        [names] => (names, None),
        [names, "as", name] => (names, Some(*name)),
        _ => return Err("write the use: PART, then STATE, then, if it has a name, as NAME".into()),
    };
    let all = texture.extent;
    let whole = mips.is_none() && layers.is_none();
    let selector = part(mips.unwrap_or(0..all.mips), layers.unwrap_or(0..all.layers));
    let state = names.split('|').try_fold(State(0), |all, name| Ok::<_, String>(all | use_named(name)?))?;
    Ok((Use { line, texture, selector: (!whole).then_some(selector), state }, name))
}

fn use_named(name: &str) -> Told<State> {
    uses::from_name(name).ok_or_else(|| {
        let known: Vec<String> = kinds::USES.iter().map(|(state, ..)| uses::name(*state)).collect();
        let lines: Vec<String> = known.chunks(4).map(|few| few.join(", ")).collect();
        format!("{} is not a use that wgpu knows. These are:\n      {}", input::told(name), lines.join(",\n      "))
    })
}

/// A refusal in the words of this language, which names the last mip or layer and not the one past it.
fn worded(made: &Use, refused: MergeError) -> String {
    let MergeError::Refused(refusal) = refused else { return refused.to_string() };
    let bad = |many: &str, first: u32, end: u32, how: &str| {
        format!("{many} {first} to {} are {how} (refusal {})", end - 1, refusal.number())
    };
    let empty = "empty: they end just before they start";
    match refusal {
        Refusal::MipsEmpty(Span { start, end }) => bad("mips", start.0, end.0, empty),
        Refusal::MipsReversed(Span { start, end }) => bad("mips", start.0, end.0, "reversed"),
        Refusal::LayersEmpty(Span { start, end }) => bad("layers", start.0, end.0, empty),
        Refusal::LayersReversed(Span { start, end }) => bad("layers", start.0, end.0, "reversed"),
        Refusal::SelectorPastExtent => format!("{}: {refusal}", past(made)),
        _ => refusal.to_string(),
    }
}

/// Which number of a use is past its texture: the mip, or else the layer.
fn past(made: &Use) -> String {
    let Selector { mips, layers } = made.part();
    let all = made.texture.extent;
    let (word, end, all) =
        if mips.end.0 > all.mips { ("mip", mips.end.0, all.mips) } else { ("layer", layers.end.0, all.layers) };
    format!("{word} {} is out of range, the last one is {}", end - 1, all - 1)
}
