//! The states of a texture as a picture.
use crate::{
    errors::Written,
    state::State,
    states::TextureStates,
    storage::MOST,
    values::{self, Extent, Layer, Mip, TrackerIndex},
};
use alloc::{
    format,
    string::{String, ToString},
    vec::Vec,
};
use core::{fmt, iter, ops::Range};

/// How wide a picture is unless a width is asked for.
const COLUMNS: usize = 80;
/// Between two columns.
const GAP: usize = 2;

/// A texture's states as a picture: a row for each layer, a column for each mip. Neighbouring layers that are alike
/// share a row; a dot stands where nothing is known. What does not fit into 80 columns, or into the width of the
/// format, goes below.
///
/// ```
/// use texture_tracker::*;
/// # fn main() -> Result<(), Box<dyn std::error::Error>> {
/// let extent = Extent::new(2, 8);
/// let beans = Texture::new(TrackerIndex(0), extent);
/// let mut pass = UsageScope::open(1, extent, uses::FLAGS)?;
/// pass.merge_single(beans, Some(Selector::mip(Mip(0), extent)), uses::RESOURCE)?;
/// pass.merge_single(beans, Some(Selector::layer(Layer(5), extent)), uses::COPY_SRC)?;
///
/// let states = pass.states(TrackerIndex(0)).ok_or("not used")?;
/// let picture = "\
/// texture 0       mip 0              mip 1
/// layers 0 to 4   RESOURCE           ·
/// layer 5         COPY_SRC|RESOURCE  COPY_SRC
/// layers 6 to 7   RESOURCE           ·
/// ";
/// assert_eq!(states.grid(uses::name).to_string(), picture);
///
/// let narrow = format!("{:36}", states.grid(uses::name));
/// assert!(narrow.ends_with("\
/// texture 0       mip 1
/// layers 0 to 4   ·
/// layer 5         COPY_SRC
/// layers 6 to 7   ·
/// "));
/// # Ok(())
/// # }
/// ```
#[derive(Clone, Copy)]
pub struct Grid<'a, N> {
    states: TextureStates<'a>,
    names: N,
}

/// A line of the picture: what stands at its left, and a cell for each mip.
struct Row {
    label: String,
    cells: Vec<String>,
}

impl<'a, N: Fn(State) -> String> Grid<'a, N> {
    pub(crate) fn new(states: TextureStates<'a>, names: N) -> Self {
        Self { states, names }
    }

    /// What is seen of one subresource.
    fn cell(&self, mip: u32, layer: u32) -> String {
        match self.states.state(Mip(mip), Layer(layer)) {
            Some(state) if state != self.states.flags().unknown => (self.names)(state),
            _ => "·".to_string(),
        }
    }

    /// Layers that are alike, and the cells of each of them.
    fn layers(&self) -> Vec<(Range<u32>, Vec<String>)> {
        let Extent { mips, layers } = self.shown();
        let mut alike: Vec<(Range<u32>, Vec<String>)> = Vec::new();
        for layer in 0..layers {
            let cells = (0..mips).map(|mip| self.cell(mip, layer)).collect();
            match alike.last_mut() {
                Some((layers, last)) if *last == cells => layers.end = layer + 1,
                _ => alike.push((layer..layer + 1, cells)),
            }
        }
        alike
    }

    /// The texture's extent. No set holds more than the limits; a damaged one may claim it.
    fn shown(&self) -> Extent {
        let Extent { mips, layers } = self.states.extent();
        Extent::new(mips.min(MOST.mips), layers.min(MOST.layers))
    }

    /// The head, then the layers.
    fn rows(&self) -> Vec<Row> {
        let TrackerIndex(index) = self.states.index();
        let cells = (0..self.shown().mips).map(|mip| format!("mip {mip}")).collect();
        let head = Row { label: format!("texture {index}"), cells };
        let row = |(layers, cells): (Range<u32>, Vec<String>)| {
            let label = Written(move |f: &mut fmt::Formatter<'_>| values::span(f, "layer", layers.start, layers.end));
            Row { label: label.to_string(), cells }
        };
        iter::once(head).chain(self.layers().into_iter().map(row)).collect()
    }
}

impl<N: Fn(State) -> String> fmt::Display for Grid<'_, N> {
    /// As many mips side by side as fit, then the rest below.
    fn fmt(&self, f: &mut fmt::Formatter<'_>) -> fmt::Result {
        let (rows, mips) = (self.rows(), self.shown().mips as usize);
        let indent = widest(rows.iter().map(|row| &row.label)) + 3;
        let columns: Vec<usize> = (0..mips).map(|mip| widest(rows.iter().map(|row| &row.cells[mip]))).collect();
        let most = f.width().unwrap_or(COLUMNS).saturating_sub(indent);
        let mut first = 0;
        while first < mips {
            let end = first + fitting(&columns[first..], most);
            for Row { label, cells } in &rows {
                write!(f, "{label:indent$}")?;
                for mip in first..end - 1 {
                    write!(f, "{:width$}", cells[mip], width = columns[mip] + GAP)?;
                }
                writeln!(f, "{}", cells[end - 1])?;
            }
            first = end;
        }
        Ok(())
    }
}

fn widest<'a>(texts: impl Iterator<Item = &'a String>) -> usize {
    texts.map(|text| text.chars().count()).max().unwrap_or(0)
}

/// How many columns fit; at least one.
fn fitting(columns: &[usize], most: usize) -> usize {
    let ends = columns.iter().scan(0, |end, column| {
        *end += column + GAP;
        Some(*end - GAP)
    });
    ends.take_while(|end| *end <= most).count().max(1)
}
