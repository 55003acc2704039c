//! Parts of a texture: selectors in plain numbers, and sets of subresources.
use std::ops::Range;
use texture_tracker::{Layer, Mip, Selector};

pub fn part(mips: Range<u32>, layers: Range<u32>) -> Selector {
    Selector::new(Mip(mips.start)..Mip(mips.end), Layer(layers.start)..Layer(layers.end))
}

pub fn mips(part: &Selector) -> Range<u32> {
    part.mips.start.0..part.mips.end.0
}

pub fn layers(part: &Selector) -> Range<u32> {
    part.layers.start.0..part.layers.end.0
}

const MIPS: usize = 16;
const WORDS: usize = 4;

/// The layers of one mip, a bit for each.
type Bits = [u64; WORDS];

/// Some subresources of one texture.
#[derive(Clone, Default)]
pub struct Area([Bits; MIPS]);

impl Area {
    pub fn add(&mut self, part: &Selector) {
        let bits = bits(layers(part));
        for mip in mips(part) {
            self.0[mip as usize] = join(self.0[mip as usize], bits, |held, new| held | new);
        }
    }

    /// What is here and not there.
    pub fn without(&self, other: &Area) -> Area {
        Area(std::array::from_fn(|mip| join(self.0[mip], other.0[mip], |here, there| here & !there)))
    }

    /// The same as parts: runs of layers, those of neighbouring mips together where they are equal.
    pub fn parts(&self) -> Vec<Selector> {
        let mut parts = vec![];
        let mut first = 0;
        for mip in 0..MIPS {
            if mip + 1 == MIPS || self.0[mip + 1] != self.0[mip] {
                parts.extend(runs(&self.0[mip]).into_iter().map(|layers| part(first..mip as u32 + 1, layers)));
                first = mip as u32 + 1;
            }
        }
        parts
    }
}

fn join(a: Bits, b: Bits, with: fn(u64, u64) -> u64) -> Bits {
    std::array::from_fn(|word| with(a[word], b[word]))
}

fn bits(layers: Range<u32>) -> Bits {
    let below = |end: u32| if end >= 64 { u64::MAX } else { (1 << end) - 1 };
    std::array::from_fn(|word| {
        let first = 64 * word as u32;
        below(layers.end.saturating_sub(first)) & !below(layers.start.saturating_sub(first))
    })
}

fn runs(bits: &Bits) -> Vec<Range<u32>> {
    let has = |layer: u32| bits[layer as usize / 64] >> (layer % 64) & 1 == 1;
    let mut runs: Vec<Range<u32>> = vec![];
    if *bits == Bits::default() {
        return runs;
    }
    for layer in (0..64 * WORDS as u32).filter(|&layer| has(layer)) {
        match runs.last_mut() {
            Some(run) if run.end == layer => run.end = layer + 1,
            _ => runs.push(layer..layer + 1),
        }
    }
    runs
}
