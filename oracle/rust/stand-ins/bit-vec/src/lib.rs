//! Stand-in for bit-vec: bits in `usize` blocks, lowest bit first, unused bits of the last block 0.
//!
//! metadata.rs reads the blocks themselves, so their order and their unused bits matter.

pub trait BitBlock: Copy {
    const BITS: usize;
    fn zero() -> Self;
    fn bit(self, at: usize) -> bool;
    fn with_bit(self, at: usize, value: bool) -> Self;
}

impl BitBlock for usize {
    const BITS: usize = usize::BITS as usize;

    fn zero() -> Self {
        0
    }

    fn bit(self, at: usize) -> bool {
        self >> at & 1 != 0
    }

    fn with_bit(self, at: usize, value: bool) -> Self {
        self & !(1 << at) | (value as usize) << at
    }
}

#[derive(Clone, Debug, Default)]
pub struct BitVec<B: BitBlock> {
    blocks: Vec<B>,
    len: usize,
}

impl<B: BitBlock> BitVec<B> {
    pub fn len(&self) -> usize {
        self.len
    }

    pub fn is_empty(&self) -> bool {
        self.len == 0
    }

    pub fn get(&self, at: usize) -> Option<bool> {
        (at < self.len).then(|| self.blocks[at / B::BITS].bit(at % B::BITS))
    }

    pub fn set(&mut self, at: usize, value: bool) {
        assert!(at < self.len, "BitVec: index out of bounds");
        let block = &mut self.blocks[at / B::BITS];
        *block = block.with_bit(at % B::BITS, value);
    }

    pub fn fill(&mut self, value: bool) {
        for at in 0..self.len {
            self.set(at, value);
        }
    }

    pub fn any(&self) -> bool {
        (0..self.len).any(|at| self.get(at) == Some(true))
    }

    pub fn grow(&mut self, count: usize, value: bool) {
        let old = self.len;
        self.len += count;
        self.blocks.resize(self.len.div_ceil(B::BITS), B::zero());
        for at in old..self.len {
            self.set(at, value);
        }
    }

    pub fn truncate(&mut self, len: usize) {
        for at in len..self.len {
            self.set(at, false);
        }
        self.len = self.len.min(len);
        self.blocks.truncate(self.len.div_ceil(B::BITS));
    }

    pub fn blocks(&self) -> impl Iterator<Item = B> + '_ {
        self.blocks.iter().copied()
    }
}
