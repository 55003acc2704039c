//! Reading a line: words and decimal numbers.
use crate::{
    track::texture::peek::{uses, Half, Record},
    TextureSelector, TextureUses,
};

/// A line that this driver cannot read is a fault of its writer, and ends the run.
pub(super) fn malformed(what: &str) -> ! {
    eprintln!("driver: {what}");
    std::process::exit(2)
}

pub(super) struct Words<'a> {
    rest: std::str::Split<'a, char>,
}

impl<'a> Words<'a> {
    pub fn of(line: &'a str) -> Self {
        Self {
            rest: line.split(' '),
        }
    }

    pub fn word(&mut self) -> &'a str {
        self.rest
            .next()
            .unwrap_or_else(|| malformed("a word is missing"))
    }

    pub fn number(&mut self) -> u32 {
        Self::parse(self.word())
    }

    fn parse(word: &str) -> u32 {
        word.parse()
            .unwrap_or_else(|_| malformed("not a 32-bit number"))
    }

    pub fn bits(&mut self) -> u16 {
        let number = self.number();
        number
            .try_into()
            .unwrap_or_else(|_| malformed("not a 16-bit state"))
    }

    pub fn state(&mut self) -> TextureUses {
        uses(self.bits())
    }

    /// All numbers that are left.
    pub fn numbers(&mut self) -> Vec<u32> {
        self.rest.by_ref().map(Self::parse).collect()
    }

    /// Four numbers or none.
    pub fn selector(&mut self) -> Option<TextureSelector> {
        match self.numbers()[..] {
            [] => None,
            [mip_start, mip_end, layer_start, layer_end] => Some(TextureSelector {
                mips: mip_start..mip_end,
                layers: layer_start..layer_end,
            }),
            _ => malformed("a selector has four numbers"),
        }
    }

    pub fn records(&mut self, count: u32) -> Vec<Record> {
        let mut record = || (self.number(), self.number(), self.bits());
        (0..count).map(|_| record()).collect()
    }

    pub fn half(&mut self, mips: u32) -> Half {
        match self.word() {
            "single" => Half::Single(self.bits()),
            "many" => {
                let mut mip = || {
                    let count = self.number();
                    self.records(count)
                };
                Half::Many((0..mips).map(|_| mip()).collect())
            }
            _ => malformed("a state begins with single or many"),
        }
    }
}
