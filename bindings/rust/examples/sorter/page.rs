//! Text on its way to the terminal: inks, headings, and lines that are broken where they are too long.
use super::kinds::{self, Kind};
use std::fmt::Write;
use texture_tracker::State;

pub struct Page {
    pub text: String,
    pub colours: bool,
    pub columns: usize,
}

#[derive(Clone, Copy, PartialEq)]
pub enum Ink {
    Plain,
    Bold,
    Dim,
    Red,
    Mark,
    Use(Kind),
}

impl Ink {
    pub fn of(state: State) -> Self {
        Ink::Use(kinds::kind(state))
    }

    /// What a terminal is sent for it.
    fn code(self) -> &'static str {
        match self {
            Ink::Plain => "",
            Ink::Bold => "1",
            Ink::Dim | Ink::Use(Kind::Nothing) => "2",
            Ink::Red => "1;31",
            Ink::Mark => "1;4",
            Ink::Use(Kind::Read) => "36",
            Ink::Use(Kind::Copied) => "33",
            Ink::Use(Kind::Drawn) => "32",
            Ink::Use(Kind::Stored) => "35",
            Ink::Use(Kind::Shown) => "34",
        }
    }
}

impl Page {
    pub fn put(&mut self, ink: Ink, text: &str) {
        if !self.colours || ink == Ink::Plain {
            return self.text.push_str(text);
        }
        // Writing to a string does not fail.
        let _ = write!(self.text, "\x1b[{}m{text}\x1b[0m", ink.code());
    }

    pub fn line(&mut self, ink: Ink, text: &str) {
        self.put(ink, text);
        self.text.push('\n');
    }

    /// A heading over a part of the page.
    pub fn heading(&mut self, title: &str) {
        let rule = "─".repeat(self.columns.saturating_sub(width(title) + 4));
        self.line(Ink::Plain, "");
        self.line(Ink::Bold, &format!("── {title} {rule}"));
    }

    /// A paragraph: words after an empty line.
    pub fn paragraph(&mut self, ink: Ink, words: &str) {
        self.text.push('\n');
        self.words(ink, 2, words);
    }

    /// Words in as many lines as they take, all of them indented.
    pub fn words(&mut self, ink: Ink, indent: usize, words: &str) {
        for line in broken(words, self.columns.saturating_sub(indent)) {
            self.put(Ink::Plain, &" ".repeat(indent));
            self.line(ink, &line);
        }
    }
}

pub fn width(text: &str) -> usize {
    text.chars().count()
}

/// The text in lines of at most so many characters, broken at spaces and after bars. A longer word has its own line.
pub fn broken(text: &str, most: usize) -> Vec<String> {
    let mut lines: Vec<String> = vec![];
    for piece in text.split_inclusive([' ', '|']) {
        match lines.last_mut() {
            Some(line) if width(line) + width(piece.trim_end()) <= most => line.push_str(piece),
            _ => lines.push(piece.to_string()),
        }
    }
    lines.into_iter().map(|line| line.trim_end().to_string()).collect()
}
