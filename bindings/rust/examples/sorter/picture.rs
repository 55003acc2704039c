//! What the page shows of a run: for each texture rows of cells, a cell for each pass.
use super::{
    area::{layers, mips},
    frame::{Frame, Late, Use},
    grid,
    run::{Run, Step},
};
use std::ops::Range;
use texture_tracker::*;

/// A frame of more passes is drawn up to this one, and where it meets a conflict.
const PASSES: usize = 100;

/// Places of one texture with their states, as a set stores them.
type Places = Vec<(Selector, State)>;

/// Up to two runs of the same passes, drawn side by side.
pub struct Picture<'a> {
    pub frame: &'a Frame<'a>,
    pub columns: Vec<Column<'a>>,
    /// Whether no pass met a conflict.
    pub passes: bool,
}

/// A pass. States are kept for each texture.
pub struct Column<'a> {
    pub round: usize,
    pub pass: usize,
    pub made: Vec<&'a Use>,
    pub step: Step<'a>,
    used: Vec<Places>,
    held: Vec<Places>,
}

/// One subresource in one pass.
#[derive(Clone, Copy, PartialEq)]
pub struct Cell {
    pub before: State,
    /// What the driver is told before the pass.
    pub change: Option<(State, State)>,
    pub used: Option<State>,
    pub held: State,
    pub unwritten: bool,
    /// The first conflict here, by its position in the step.
    pub clash: Option<usize>,
}

/// Subresources that are alike in every pass.
pub struct Row<'a> {
    pub mips: Range<u32>,
    pub layers: Range<u32>,
    /// Of the first and of the last layer.
    pub names: Option<(&'a str, &'a str)>,
    pub cells: Vec<Cell>,
}

impl<'a> Picture<'a> {
    /// Makes all passes as often as told, or up to the first conflict.
    pub fn new(frame: &'a Frame<'a>, late: Option<&'a Late<'a>>, rounds: usize) -> Result<Self, Refusal> {
        let mut run = Run::new(frame, late)?;
        let mut columns = vec![];
        for (round, pass) in (0..rounds).flat_map(|round| (0..frame.passes.len()).map(move |pass| (round, pass))) {
            let step = run.pass(pass)?;
            let clash = !step.clashes.is_empty();
            if pass < PASSES || clash {
                let places =
                    |of: &dyn Fn(TrackerIndex) -> Places| (0..frame.size().0).map(TrackerIndex).map(of).collect();
                let used = places(&|index| run.scope.states(index).map_or(vec![], |states| states.iter().collect()));
                let held = places(&|index| run.tracker.end(index).map_or(vec![], |states| states.iter().collect()));
                columns.push(Column { round, pass, made: frame.uses_of(pass, late), step, used, held });
            }
            if clash {
                return Ok(Self { frame, columns, passes: false });
            }
        }
        Ok(Self { frame, columns, passes: true })
    }

    /// Whether some passes are not drawn.
    pub fn shortened(&self) -> bool {
        self.frame.passes.len() > PASSES
    }

    pub fn rows(&self, texture: Texture) -> Vec<Row<'a>> {
        let area = Grid { extent: texture.extent };
        let mut cells: Vec<Vec<Cell>> = vec![Vec::with_capacity(self.columns.len()); area.size()];
        let mut before = vec![uses::UNINITIALIZED; area.size()];
        for column in &self.columns {
            let of_column = area.cells(texture.index, column, &before);
            before = of_column.iter().map(|cell| cell.held).collect();
            cells.iter_mut().zip(of_column).for_each(|(row, cell)| row.push(cell));
        }
        let row = |(at, cells): (usize, Vec<Cell>)| {
            let (mip, layer) = (at as u32 / texture.extent.layers, at as u32 % texture.extent.layers);
            let names = self.frame.label_of(texture.index, mip, layer).map(|name| (name, name));
            Row { mips: mip..mip + 1, layers: layer..layer + 1, names, cells }
        };
        let keep_named = texture.extent.layers <= grid::LAYERS;
        fold_mips(fold_layers(cells.into_iter().enumerate().map(row), keep_named))
    }
}

/// The subresources of a texture, mip by mip.
struct Grid {
    extent: Extent,
}

impl Grid {
    fn size(&self) -> usize {
        (self.extent.mips * self.extent.layers) as usize
    }

    fn each(&self, cells: &mut [Cell], part: &Selector, change: impl Fn(&mut Cell)) {
        for mip in mips(part) {
            let first = (mip * self.extent.layers) as usize;
            let (start, end) = (first + layers(part).start as usize, first + layers(part).end as usize);
            cells[start..end].iter_mut().for_each(&change);
        }
    }

    fn cells(&self, index: TrackerIndex, column: &Column, before: &[State]) -> Vec<Cell> {
        let Column { step, used, held, .. } = column;
        let cell = |&held: &State| Cell { before: held, change: None, used: None, held, unwritten: false, clash: None };
        let mut cells: Vec<Cell> = before.iter().map(cell).collect();
        for (part, state) in &held[index.0 as usize] {
            self.each(&mut cells, part, |cell| cell.held = *state);
        }
        for (part, state) in used[index.0 as usize].iter().filter(|(_, state)| *state != uses::UNKNOWN) {
            self.each(&mut cells, part, |cell| cell.used = Some(*state));
        }
        for told in step.transitions.iter().filter(|told| told.index == index) {
            self.each(&mut cells, &told.selector, |cell| cell.change = Some((told.from, told.to)));
        }
        for (_, part) in step.unwritten.iter().filter(|(at, _)| *at == index) {
            self.each(&mut cells, part, |cell| cell.unwritten = true);
        }
        for (at, clash) in step.clashes.iter().enumerate().filter(|(_, clash)| clash.conflict.index == index) {
            self.each(&mut cells, &clash.conflict.selector, |cell| cell.clash = cell.clash.or(Some(at)));
        }
        cells
    }
}

/// Of each mip, equal layers beside each other are one row; those with names only in a large texture.
fn fold_layers<'a>(rows: impl Iterator<Item = Row<'a>>, keep_named: bool) -> Vec<Row<'a>> {
    let mut folded: Vec<Row> = vec![];
    for row in rows {
        match folded.last_mut() {
            Some(last) if last.mips == row.mips && alike(last, &row, keep_named) => {
                last.layers.end = row.layers.end;
                last.names = last.names.zip(row.names).map(|((first, _), (last, _))| (first, last));
            }
            _ => folded.push(row),
        }
    }
    folded
}

fn alike(a: &Row, b: &Row, keep_named: bool) -> bool {
    grid::names_fold(a.names, b.names, keep_named) && a.cells == b.cells
}

/// Equal mips beside each other are one.
fn fold_mips(rows: Vec<Row<'_>>) -> Vec<Row<'_>> {
    let mut folded: Vec<Vec<Row>> = vec![];
    let mut mips: Vec<Vec<Row>> = vec![];
    for row in rows {
        match mips.last_mut() {
            Some(mip) if mip[0].mips == row.mips => mip.push(row),
            _ => mips.push(vec![row]),
        }
    }
    let same = |a: &[Row], b: &[Row]| {
        a.len() == b.len() && a.iter().zip(b).all(|(a, b)| a.layers == b.layers && alike(a, b, true))
    };
    for mip in mips {
        match folded.last_mut() {
            Some(last) if same(last, &mip) => last.iter_mut().for_each(|row| row.mips.end = mip[0].mips.end),
            _ => folded.push(mip),
        }
    }
    folded.into_iter().flatten().collect()
}
