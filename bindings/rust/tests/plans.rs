//! Frame plans: files and lists read and written beside a few plain lines, and each refusal at its edge.
mod chance;
use chance::Chance;
use std::{iter, ops::Range};
use texture_tracker::*;

/// A use of texture 7, of 4 mips and 8 layers: mip 0, layer 2, state 5.
const BYTES: [u8; 15] = [7, 0, 0, 0, 4, 8, 0, 0, 1, 2, 0, 3, 0, 5, 0];

fn one() -> Use {
    let texture = Texture::new(TrackerIndex(7), Extent::new(4, 8));
    Use::new(texture, Selector::one(Mip(0), Layer(2)), State(5))
}

/// The use of these numbers, in the order of the file.
fn used([index, mips, layers, mip_start, mip_end, layer_start, layer_end, state]: [u32; 8]) -> Use {
    let texture = Texture::new(TrackerIndex(index), Extent::new(mips, layers));
    let selector = Selector::new(Mip(mip_start)..Mip(mip_end), Layer(layer_start)..Layer(layer_end));
    Use::new(texture, selector, State(state as u16))
}

/// A tag, a length, the bytes.
fn field(tag: u8, content: &[u8]) -> Vec<u8> {
    let [low, high] = (content.len() as u16).to_le_bytes();
    [&[tag, low, high], content].concat()
}

/// So many groups, one in another, around these bytes.
fn deep(groups: u32, content: &[u8]) -> Vec<u8> {
    (0..groups).fold(content.to_vec(), |inside, _| field(1, &inside))
}

fn planned(items: impl IntoIterator<Item = PlanItem>) -> Plan {
    let mut plan = Plan::new();
    for item in items {
        match item {
            PlanItem::Opened => plan.open_group(),
            PlanItem::Use(one) => plan.push(one).unwrap(),
            PlanItem::Closed => plan.close_group(),
        }
    }
    plan
}

/// Items by letters: `(`, `)`, and `u` for the use.
fn items(letters: &str) -> impl Iterator<Item = PlanItem> + '_ {
    letters.chars().map(|letter| match letter {
        '(' => PlanItem::Opened,
        ')' => PlanItem::Closed,
        _ => PlanItem::Use(one()),
    })
}

fn read(file: &[u8]) -> Result<Plan, u32> {
    Plan::read(file).map_err(Refusal::number)
}

fn written(plan: &Plan) -> Result<Vec<u8>, u32> {
    plan.write().map_err(Refusal::number)
}

// ---- plainly -------------------------------------------------------------------------------------------------------

/// How many bytes the numbers of a use have.
const WIDTHS: [usize; 8] = [4, 1, 2, 1, 1, 2, 2, 2];

fn use_plainly(bytes: &[u8]) -> Use {
    let mut at = 0;
    used(WIDTHS.map(|width| {
        at += width;
        bytes[at - width..at].iter().rev().fold(0, |number, &byte| 256 * number + u32::from(byte))
    }))
}

fn bytes_plainly(Use { texture, selector, state }: Use) -> Vec<u8> {
    let Texture { index: TrackerIndex(index), extent: Extent { mips, layers } } = texture;
    let [start, end] = [selector.mips.start.0, selector.mips.end.0];
    let [first, last] = [selector.layers.start.0, selector.layers.end.0];
    let numbers = [index, mips, layers, start, end, first, last, state.0.into()];
    numbers.iter().zip(WIDTHS).flat_map(|(number, width)| number.to_le_bytes().into_iter().take(width)).collect()
}

/// The items of a run of fields that stands in so many groups.
fn read_plainly(mut rest: &[u8], groups: u32) -> Result<Vec<PlanItem>, u32> {
    let mut items = vec![];
    while !rest.is_empty() {
        let [tag, low, high, ref after @ ..] = *rest else { return Err(20) };
        let length = usize::from(low) + 256 * usize::from(high);
        let (content, after) = after.split_at_checked(length).ok_or(20_u32)?;
        match tag {
            1 if groups == 8 => return Err(23),
            1 => {
                items.push(PlanItem::Opened);
                items.extend(read_plainly(content, groups + 1)?);
                items.push(PlanItem::Closed);
            }
            2 if length == 15 => items.push(PlanItem::Use(use_plainly(content))),
            2 => return Err(22),
            _ => return Err(21),
        }
        rest = after;
    }
    Ok(items)
}

fn write_plainly(items: &[PlanItem]) -> Result<Vec<u8>, u32> {
    // The bytes of the file, then those of each group that is open.
    let mut open = vec![vec![]];
    let (mut deepest, mut longest) = (0, 0);
    for item in items {
        let content = match item {
            PlanItem::Opened => {
                open.push(vec![]);
                deepest = deepest.max(open.len() - 1);
                continue;
            }
            PlanItem::Use(one) => field(2, &bytes_plainly(*one)),
            PlanItem::Closed => {
                let content = open.pop().unwrap();
                longest = longest.max(content.len());
                field(1, &content)
            }
        };
        open.last_mut().ok_or(24_u32)?.extend(content);
    }
    match open.pop() {
        Some(_) if !open.is_empty() => Err(24),
        Some(_) if deepest > 8 => Err(23),
        Some(_) if longest > 65_535 => Err(25),
        file => file.ok_or(24),
    }
}

/// Reads a file both ways. Where it is accepted, it is written the same again.
fn compare_file(file: &[u8]) -> Result<Plan, u32> {
    let read = read(file);
    let items = read.as_ref().map(|plan| plan.iter().collect());
    assert_eq!(items.map_err(|number| *number), read_plainly(file, 0), "{file:?}");
    if let Ok(plan) = &read {
        assert_eq!(written(plan).as_deref(), Ok(file));
    }
    read
}

/// Writes a list both ways. Where it is accepted, it is read the same again.
fn compare_list(list: &[PlanItem]) -> Result<Vec<u8>, u32> {
    let plan = planned(list.iter().copied());
    let written = written(&plan);
    assert_eq!(written, write_plainly(list), "{plan}");
    if let Ok(file) = &written {
        assert_eq!(read(file), Ok(plan));
    }
    written
}

// ---- reading -------------------------------------------------------------------------------------------------------

#[test]
fn a_file_and_its_plan() {
    let file = [field(1, &field(2, &BYTES)), field(1, &[]), field(2, &BYTES)].concat();
    assert_eq!(file[..9], [1, 18, 0, 2, 15, 0, 7, 0, 0]);
    let plan = compare_file(&file).unwrap();
    assert!(plan.iter().eq(items("(u)()u")));
    assert_eq!((plan.len(), plan.iter().len(), plan.is_empty()), (6, 6, false));
    assert_eq!(plan.uses().collect::<Vec<_>>(), [one(), one()]);
}

#[test]
fn the_empty_file_is_the_empty_plan() {
    assert_eq!(read(&[]), Ok(Plan::new()));
    assert_eq!(written(&Plan::new()), Ok(vec![]));
    assert_eq!((Plan::new().len(), Plan::new().is_empty(), Plan::default().uses().count()), (0, true, 0));
    assert_eq!((Plan::new().to_string(), format!("{:#?}", Plan::new())), (String::new(), "[]".to_string()));
}

/// A length that goes too far counts before a tag that is unknown.
#[test]
fn refused_at_its_edge() {
    for (file, number) in [
        (&[1][..], 20),
        (&[1, 0], 20),
        (&[7, 1, 0], 20),
        (&[7, 0, 0], 21),
        (&[0, 0, 0], 21),
        (&[3, 0, 0], 21),
        (&[255, 0, 0], 21),
        (&[2, 0, 0], 22),
        (&[2, 1, 0, 9], 22),
        // Past its group, though not past the file; the file's own tag and length cut short behind a group.
        (&[1, 3, 0, 1, 1, 0, 0], 20),
        (&[1, 1, 0, 1, 0, 0], 20),
        (&[1, 0, 0, 1], 20),
        // The low byte is first: 256 bytes are not there.
        (&[1, 0, 1], 20),
        // Of two fields the first.
        (&[2, 0, 0, 9, 0, 0], 22),
        (&[9, 0, 0, 2, 0, 0], 21),
        (&[1, 3, 0, 2, 0, 0, 9, 0, 0], 22),
    ] {
        assert_eq!(compare_file(file), Err(number), "{file:?}");
    }
    for length in [14, 16] {
        assert_eq!(compare_file(&field(2, &vec![0; length])), Err(22));
    }
    assert!(compare_file(&field(2, &[255; 15])).is_ok());
}

/// Eight groups pass, also one after the other; the ninth is 23, unless it is 20; what stands before it counts first.
#[test]
fn eight_deep_and_nine() {
    let eight = deep(8, &[]);
    assert_eq!(eight[..3], [1, 21, 0]);
    assert!(compare_file(&eight).unwrap().iter().eq(items("(((((((())))))))")));
    let twice = [&deep(8, &field(2, &BYTES))[..], &eight, &field(2, &BYTES)].concat();
    assert_eq!(compare_file(&twice).map(|plan| plan.len()), Ok(17 + 16 + 1));
    assert_eq!(compare_file(&deep(9, &[])), Err(23));
    assert_eq!(compare_file(&deep(9, &[0])), Err(23), "not what it holds");
    assert_eq!(compare_file(&deep(10, &[])), Err(23));
    assert_eq!(compare_file(&deep(8, &[1, 1, 0])), Err(20));
    assert_eq!(compare_file(&deep(8, &[7, 0, 0])), Err(21));
    assert_eq!(compare_file(&[&deep(9, &[])[..], &[7, 0, 0]].concat()), Err(23));
    assert_eq!(compare_file(&[&[7, 0, 0], &deep(9, &[])[..]].concat()), Err(21));
}

/// Cut anywhere but between two fields that stand outside groups, it is 20.
#[test]
fn every_beginning_of_a_file() {
    let parts = [field(2, &BYTES), deep(3, &field(2, &BYTES)), field(1, &[])];
    let file = parts.concat();
    let ends: Vec<_> = (0..=3).map(|count| parts[..count].concat().len()).collect();
    for end in 0..=file.len() {
        let passes = ends.contains(&end);
        assert_eq!(compare_file(&file[..end]).err(), (!passes).then_some(20), "{end}");
    }
}

/// Every file of up to six of these bytes.
#[test]
fn all_short_files() {
    let mut met = [0; 26];
    let mut files = vec![vec![]];
    for _ in 0..=6 {
        for file in &files {
            met[compare_file(file).err().unwrap_or(0) as usize] += 1;
        }
        files = files.iter().flat_map(|file| [0, 1, 2, 3, 255].map(|byte| [&file[..], &[byte]].concat())).collect();
    }
    assert_eq!(met.iter().sum::<u32>(), (5_u32.pow(7) - 1) / 4);
    assert!([0, 20, 21, 22].iter().all(|&number| met[number] > 0), "{met:?}");
}

// ---- writing -------------------------------------------------------------------------------------------------------

/// Unbalanced counts before too deep, and that before too long, wherever they stand.
#[test]
fn refused_lists() {
    let refused = |letters: &str| compare_list(&items(letters).collect::<Vec<_>>()).err();
    for letters in ["(", ")", "(()", "())", ")(", "u)u", "(u", "(((((((((", "((((((((())))))))"] {
        assert_eq!(refused(letters), Some(24), "{letters}");
    }
    for letters in ["", "u", "()", "(u)(u)", "(((((((())))))))", "(u((((((()))))))u)"] {
        assert_eq!(refused(letters), None, "{letters}");
    }
    assert_eq!(refused("((((((((()))))))))"), Some(23));
    let long = format!("({})", "u".repeat(3_641));
    assert_eq!(refused(&long), Some(25));
    for (letters, number) in [("(", 24), ("((((((((()))))))))", 23), ("u", 25)] {
        assert_eq!(refused(&[letters, &long].concat()), Some(number), "{letters} before");
        assert_eq!(refused(&[&long, letters].concat()), Some(number), "{letters} behind");
    }
}

/// A group holds 65,535 bytes, which its own tag and length are not among; those of a group in it are.
#[test]
fn the_longest_group() {
    let inside = format!("{}{}", "u".repeat(3_640), "()".repeat(5));
    let file = compare_list(&items(&format!("({inside})")).collect::<Vec<_>>()).unwrap();
    assert_eq!((&file[..3], file.len()), (&[1, 255, 255][..], 65_538));
    assert_eq!(compare_file(&file).map(|plan| plan.uses().count()), Ok(3_640));
    let longer = |letters: &str| compare_list(&items(letters).collect::<Vec<_>>());
    assert_eq!(longer(&format!("({inside}())")), Err(25));
    assert_eq!(longer(&format!("(({inside}))")), Err(25));
    assert_eq!(longer(&format!("((((((({inside})))))))")), Err(25), "its own empty groups are eight deep");
    assert_eq!(longer(&format!("(((((((({inside}))))))))")), Err(23));
    // The file has no such limit.
    let two = format!("({inside})({inside}){}", "u".repeat(9_000));
    assert_eq!(compare_list(&items(&two).collect::<Vec<_>>()).map(|file| file.len()), Ok(2 * 65_538 + 18 * 9_000));
}

/// Every list of up to seven items.
#[test]
fn all_short_lists() {
    let (mut met, mut lists) = ([0; 26], vec![vec![]]);
    for _ in 0..=7 {
        for list in &lists {
            met[compare_list(list).err().unwrap_or(0) as usize] += 1;
        }
        lists = lists.iter().flat_map(|list| items("(u)").map(|item| [&list[..], &[item]].concat())).collect();
    }
    // Balanced lists of up to seven items, the uses anywhere: Motzkin's numbers.
    assert_eq!((met[0], met[0] + met[24]), (1 + 1 + 2 + 4 + 9 + 21 + 51 + 127, (3_u32.pow(8) - 1) / 2));
}

// ---- the uses ------------------------------------------------------------------------------------------------------

/// Each number at 0, at the most that its bytes hold and at bytes that all differ, by itself and with the others.
#[test]
fn extreme_numbers() {
    let most: [u32; 8] = WIDTHS.map(|width| u32::MAX >> (32 - 8 * width));
    let differ: [u32; 8] = [0x1234_5678, 0x9a, 0xbcde, 0xf1, 0x23, 0x4567, 0x89ab, 0xcdef];
    let mut all = vec![[0; 8], most, differ];
    for at in 0..8 {
        for (from, number) in [([0; 8], most[at]), (most, 0), ([0; 8], differ[at]), (most, most[at] / 2)] {
            let mut numbers = from;
            numbers[at] = number;
            all.push(numbers);
        }
    }
    let uses: Vec<_> = all.into_iter().map(used).collect();
    let plan = planned(uses.iter().copied().map(PlanItem::Use));
    assert!(plan.uses().eq(uses.iter().copied()) && plan.iter().eq(uses.iter().copied().map(PlanItem::Use)));
    let file = compare_list(&plan.iter().collect::<Vec<_>>()).unwrap();
    assert!(file.chunks(18).zip(&uses).all(|(field, one)| use_plainly(&field[3..]) == *one));
    assert_eq!(file[18 + 18 + 3..][..6], [0x78, 0x56, 0x34, 0x12, 0x9a, 0xde]);
}

/// One more than the bytes hold is an error, and nothing is added. The first such number is named.
#[test]
fn a_number_without_room() {
    let names = ["mip count", "layer count", "mip start", "mip end", "layer start", "layer end"];
    let mut plan = planned(items("(u"));
    let before = plan.clone();
    for (at, name) in (1..7).zip(names) {
        let most = u32::MAX >> (32 - 8 * WIDTHS[at]);
        for number in [most + 1, u32::MAX] {
            let mut numbers = [0; 8];
            numbers[at..7].fill(number);
            let said = plan.push(used(numbers)).unwrap_err();
            assert_eq!((said.name(), said.number(), said.most()), (name, number, most));
            let words = format!("{name} {number} does not fit into a plan, where it is at most {most}");
            let error: Box<dyn std::error::Error> = Box::new(said);
            assert_eq!((error.to_string(), &plan), (words, &before));
        }
    }
}

/// A plan judges no use; the merge does.
#[test]
fn uses_are_judged_by_the_merge() {
    let reversed = used([0, 1, 8, 0, 1, 7, 2, 16]);
    let plan = planned([PlanItem::Use(used([0, 1, 8, 0, 1, 0, 8, 16])), PlanItem::Use(reversed)]);
    let plan = read(&written(&plan).unwrap()).unwrap();
    let mut scope = UsageScope::open(1, Extent::new(1, 8), uses::FLAGS).unwrap();
    let answers: Vec<_> = plan.uses().map(|one| scope.merge_use(one)).collect();
    assert_eq!(answers, [Ok(()), Err(Refusal::LayersReversed(reversed.selector.layers).into())]);
    assert_eq!(scope.states(TrackerIndex(0)).unwrap().single(), Some(uses::RESOURCE), "all of it, so it stays whole");
    let late = scope.merge_use(used([0, 1, 8, 0, 1, 5, 6, 8])).unwrap_err();
    let words = "texture 0, mip 0, layer 5: in use as RESOURCE, cannot be used as COPY_DST beside it";
    assert_eq!(format!("{late:#}"), words);
}

// ---- words ---------------------------------------------------------------------------------------------------------

#[test]
fn the_lines_of_a_plan() {
    let plan = planned(items("u(u(u)())"));
    let said = "texture 7 (4 mips, 8 layers), mip 0, layer 2";
    let lines = |state: &str| {
        let one = format!("{said}: {state}");
        format!("{one}\ngroup {{\n    {one}\n    group {{\n        {one}\n    }}\n    group {{\n    }}\n}}")
    };
    assert_eq!(plan.to_string(), lines("5"));
    assert_eq!(format!("{plan:#}"), lines("UNINITIALIZED|COPY_SRC"));
    assert_eq!(format!("{plan:#?}"), format!("{plan:#}"));
    assert_eq!(format!("{:?}", planned(items("()"))), "[Opened, Closed]");
    assert_eq!(format!("{plan:?}"), format!("{:?}", plan.iter().collect::<Vec<_>>()));
}

/// What is not balanced is shown as it is, however deep.
#[test]
fn the_lines_of_a_plan_that_cannot_be_written() {
    assert_eq!(planned(items(")(")).to_string(), "}\ngroup {");
    let deep = planned(iter::repeat(PlanItem::Opened).take(100_000));
    assert!(deep.to_string().len() < 100_000 * (4 * 8 + 8));
}

// ---- by chance -----------------------------------------------------------------------------------------------------

impl Chance {
    fn bytes(&mut self, count: usize) -> Vec<u8> {
        (0..count).map(|_| self.below(256) as u8).collect()
    }

    /// Balanced items in so many groups at most, often as deep as that.
    fn items(&mut self, groups: u32, items: &mut Vec<PlanItem>) {
        for _ in 0..self.below(4) {
            match self.below(3) {
                0 => items.push(PlanItem::Use(use_plainly(&self.bytes(15)))),
                _ if groups == 0 => {}
                _ => {
                    items.push(PlanItem::Opened);
                    self.items(groups - 1, items);
                    items.push(PlanItem::Closed);
                }
            }
        }
    }

    /// A place in a list of that length.
    fn place(&mut self, length: usize) -> usize {
        self.below(length.max(1) as u32) as usize
    }

    /// A part of a list of that length.
    fn part(&mut self, length: usize) -> Range<usize> {
        let start = self.place(length + 1);
        start..start + self.place(length + 1 - start).min(4)
    }

    /// One byte made another one, a few added or taken out.
    fn damage(&mut self, file: &mut Vec<u8>) {
        let byte = [0, 1, 2, 3, 14, 15, 16, 18, 255][self.place(9)];
        let (at, part) = (self.place(file.len()), self.part(file.len()));
        match self.below(4) {
            0 => file.extend(self.bytes(1)),
            1 => drop(file.drain(part)),
            2 => file.insert(at, byte),
            _ => file.iter_mut().skip(at).take(1).for_each(|one| *one = byte),
        }
    }
}

/// Lists that can be written, too deep ones among them, and with items taken out or added; their files, and damaged ones.
#[test]
fn lists_and_files_by_chance() {
    let (mut chance, mut met) = (Chance(8), [0; 26]);
    for round in 0..6_000 {
        let mut list = vec![];
        chance.items(5 + round % 5, &mut list);
        if round % 4 == 0 && !list.is_empty() {
            let part = chance.part(list.len());
            list.splice(part, items("(u)").take(chance.place(4)));
        }
        let file = compare_list(&list);
        met[*file.as_ref().err().unwrap_or(&0) as usize] += 1;
        let Ok(mut file) = file else { continue };
        for _ in 0..4 {
            chance.damage(&mut file);
            met[compare_file(&file).err().unwrap_or(0) as usize] += 1;
        }
    }
    assert!([0, 20, 21, 22, 23, 24].iter().all(|&number| met[number] > 20), "{met:?}");
}
