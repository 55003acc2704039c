//! Calls on standard input, answers on standard output; README.md has the lines.
//!
//! Only calls that document 01 does not refuse may be given: the Rust has no refusals.
mod calls;
mod ranges;
mod show;
mod words;

use calls::Sets;
use std::{
    io::{BufRead, BufWriter, Write},
    panic::{catch_unwind, AssertUnwindSafe},
};
use words::{malformed, Words};

#[derive(Default)]
struct Driver {
    sets: Sets,
    /// An assertion fired, so the sets are in no known state until the next case.
    broken: bool,
}

impl Driver {
    /// Appends what a line answers.
    fn line(&mut self, line: &str, out: &mut String) {
        let mut words = Words::of(line);
        match words.word() {
            "case" => {
                *self = Self::default();
                out.push_str(line);
                out.push('\n');
            }
            _ if self.broken => out.push_str("broken\n"),
            "put" => calls::put(&mut words, &mut self.sets),
            word => self.guarded_call(word, &mut words, out),
        }
    }

    fn guarded_call(&mut self, word: &str, words: &mut Words, out: &mut String) {
        let made = catch_unwind(AssertUnwindSafe(|| self.call(word, words, out)));
        if made.is_err() {
            self.broken = true;
            out.push_str("panicked\n");
        }
    }

    fn call(&mut self, word: &str, words: &mut Words, out: &mut String) {
        if ranges::call(word, words, out) {
            return;
        }
        match calls::call(word, words, &mut self.sets) {
            Some(answer) => show::answer(out, &answer, &self.sets),
            None => malformed("no such call"),
        }
    }
}

pub(crate) fn main() {
    // Where an assertion fired, without a backtrace.
    std::panic::set_hook(Box::new(|fired| eprintln!("{fired}")));
    let mut driver = Driver::default();
    let mut output = BufWriter::with_capacity(1 << 20, std::io::stdout().lock());
    let mut out = String::new();
    for line in std::io::stdin().lock().lines() {
        driver.line(&line.expect("standard input"), &mut out);
        output.write_all(out.as_bytes()).expect("standard output");
        out.clear();
    }
}
