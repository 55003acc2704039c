//! A texture as a table in the terminal: a row for each layer, a column for each mip; neighbours that are equal and
//! have no name are one.
use super::{
    area::{layers, mips},
    frame::Frame,
    page::{broken, width, Ink, Page},
    run::Clash,
};
use std::ops::Range;
use texture_tracker::*;

/// A texture of more layers than this is folded whether its layers have names or not.
pub const LAYERS: u32 = 16;

/// What is seen of one subresource.
#[derive(Clone, PartialEq)]
struct Cell {
    text: String,
    ink: Ink,
}

struct Row<'a> {
    layers: Range<u32>,
    /// Of the first and of the last layer.
    names: Option<(&'a str, &'a str)>,
    cells: Vec<Cell>,
}

struct Grid<'a> {
    title: &'a str,
    columns: Vec<Range<u32>>,
    rows: Vec<Row<'a>>,
}

/// Writes what is held of a texture, and what could not be merged there.
pub fn grid(page: &mut Page, frame: &Frame, states: TextureStates<'_>, clashes: &[Clash]) {
    let mut rows = fold_rows(rows(frame, &states, clashes), states.extent().layers <= LAYERS);
    let columns = fold_columns(&rows, states.extent().mips);
    for row in &mut rows {
        row.cells = columns.iter().map(|mips| row.cells[mips.start as usize].clone()).collect();
    }
    Grid { title: frame.texture_name(states.index()), columns, rows }.write(page);
}

fn rows<'a>(frame: &Frame<'a>, states: &TextureStates<'_>, clashes: &[Clash]) -> Vec<Row<'a>> {
    let (index, extent) = (states.index(), states.extent());
    let nothing = Cell { text: "·".to_string(), ink: Ink::Dim };
    let name = |layer| (0..extent.mips).find_map(|mip| frame.label_of(index, mip, layer));
    let row = |layer| Row {
        layers: layer..layer + 1,
        names: name(layer).map(|name| (name, name)),
        cells: vec![nothing.clone(); extent.mips as usize],
    };
    let mut rows: Vec<Row> = (0..extent.layers).map(row).collect();
    let mut each = |part: &Selector, change: &dyn Fn(&mut Cell)| {
        for row in &mut rows[layers(part).start as usize..layers(part).end as usize] {
            row.cells[mips(part).start as usize..mips(part).end as usize].iter_mut().for_each(change);
        }
    };
    for (part, state) in states.iter().filter(|(_, state)| *state != uses::UNKNOWN) {
        each(&part, &|cell| *cell = Cell { text: uses::name(state), ink: Ink::of(state) });
    }
    for Clash { conflict, .. } in clashes.iter().filter(|clash| clash.conflict.index == index) {
        let cross = format!(" ✗ {}", uses::name(conflict.new_state));
        each(&conflict.selector, &|cell| *cell = Cell { text: format!("{}{cross}", cell.text), ink: Ink::Red });
    }
    rows
}

/// Equal neighbours are one; those with names only in a large texture.
fn fold_rows(rows: Vec<Row<'_>>, keep_named: bool) -> Vec<Row<'_>> {
    let mut folded: Vec<Row> = vec![];
    for row in rows {
        match folded.last_mut() {
            Some(last) if last.cells == row.cells && names_fold(last.names, row.names, keep_named) => {
                last.layers.end = row.layers.end;
                last.names = last.names.zip(row.names).map(|((first, _), (last, _))| (first, last));
            }
            _ => folded.push(row),
        }
    }
    folded
}

/// Whether neighbours may be one as far as their names go: named ones fold among themselves, where they fold at all.
pub fn names_fold(a: Option<(&str, &str)>, b: Option<(&str, &str)>, keep_named: bool) -> bool {
    match (a, b) {
        (None, None) => true,
        (Some(_), Some(_)) => !keep_named,
        _ => false,
    }
}

/// One name, or the first and the last of several.
pub fn names_told(names: Option<(&str, &str)>) -> String {
    match names {
        None => String::new(),
        Some((one, last)) if one == last => one.to_string(),
        Some((first, last)) => format!("{first} to {last}"),
    }
}

fn fold_columns(rows: &[Row<'_>], mips: u32) -> Vec<Range<u32>> {
    let equal = |a: u32, b: u32| rows.iter().all(|row| row.cells[a as usize] == row.cells[b as usize]);
    let mut columns: Vec<Range<u32>> = vec![];
    for mip in 0..mips {
        match columns.last_mut() {
            Some(column) if equal(column.start, mip) => column.end = mip + 1,
            _ => columns.push(mip..mip + 1),
        }
    }
    columns
}

/// Mips or layers in as few words as they take.
pub fn span(word: &str, range: &Range<u32>) -> String {
    match range.len() {
        0 | 1 => format!("{word} {}", range.start),
        _ => format!("{word}s {} to {}", range.start, range.end - 1),
    }
}

impl Row<'_> {
    /// The layers in so many characters, and the name.
    fn label(&self, layers: usize) -> String {
        format!("{:layers$}  {}", span("layer", &self.layers), names_told(self.names)).trim_end().to_string()
    }
}

impl Grid<'_> {
    /// As many mips side by side as fit, then the rest below.
    fn write(&self, page: &mut Page) {
        let labels = self.rows.iter().map(|row| width(&row.label(self.layers()))).max().unwrap_or(0);
        // A label may take half of the line; a longer one, of two names, has a line of its own.
        let labels = labels.max(width(self.title)).min(page.columns / 2 + 6) + 3;
        let room = page.columns.saturating_sub(labels + 2);
        let mut first = 0;
        while first < self.columns.len() {
            let fits = self.fitting(first, room);
            self.write_columns(page, first..first + fits, labels, room);
            first += fits;
        }
    }

    /// How wide the layers of the rows are.
    fn layers(&self) -> usize {
        self.rows.iter().map(|row| width(&span("layer", &row.layers))).max().unwrap_or(0)
    }

    /// How wide a column is, with the gap after it.
    fn column(&self, at: usize) -> usize {
        let cells = self.rows.iter().map(|row| width(&row.cells[at].text));
        cells.max().unwrap_or(0).max(width(&span("mip", &self.columns[at]))) + 2
    }

    /// How many columns from the first on fit into a line; at least one.
    fn fitting(&self, first: usize, room: usize) -> usize {
        let ends = (first..self.columns.len()).scan(0, |end, at| {
            *end += self.column(at);
            Some(*end)
        });
        ends.take_while(|end| *end <= room + 2).count().max(1)
    }

    fn write_columns(&self, page: &mut Page, shown: Range<usize>, labels: usize, room: usize) {
        page.text.push('\n');
        page.put(Ink::Bold, &format!("  {:labels$}", self.title));
        let head = |at| format!("{:width$}", span("mip", &self.columns[at]), width = self.column(at));
        let heads: String = shown.clone().map(head).collect();
        page.line(Ink::Dim, heads.trim_end());
        for row in &self.rows {
            let label = row.label(self.layers());
            page.put(Ink::Dim, &format!("  {label:labels$}"));
            if width(&label) > labels {
                page.put(Ink::Plain, &format!("\n  {:labels$}", ""));
            }
            let mut gap = 0;
            for at in shown.clone() {
                let Cell { text, ink } = &row.cells[at];
                page.put(Ink::Plain, &" ".repeat(gap));
                page.put(*ink, &broken(text, room).join(&format!("\n  {:labels$}", "")));
                gap = self.column(at).saturating_sub(width(text));
            }
            page.line(Ink::Plain, "");
        }
    }
}
