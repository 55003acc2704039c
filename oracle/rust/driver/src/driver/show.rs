//! Writing an answer: see README.md for the lines.
use super::calls::{Answer, Sets};
use crate::track::texture::peek::{Half, Record, Set};
use std::fmt::Write;

/// Writing to a string does not fail.
fn put(out: &mut String, number: impl Into<u32>) {
    write!(out, " {}", number.into()).unwrap();
}

pub(super) fn records(out: &mut String, records: &[Record]) {
    for &(start, end, state) in records {
        put(out, start);
        put(out, end);
        put(out, state);
    }
}

fn half(out: &mut String, half: &Half) {
    match half {
        Half::Single(state) => {
            out.push_str(" single");
            put(out, *state);
        }
        Half::Many(mips) => {
            out.push_str(" many");
            for mip in mips {
                put(out, mip.len() as u32);
                records(out, mip);
            }
        }
    }
}

fn set(out: &mut String, number: usize, set: &Set) {
    let kind = match set {
        Set::Scope(_) => "scope",
        Set::Tracker(_) => "tracker",
    };
    writeln!(out, "{kind} {number}").unwrap();
    for held in set.held() {
        let full = &held.texture.full_range;
        out.push_str("texture");
        put(out, held.texture.index);
        put(out, full.mips.end);
        put(out, full.layers.end);
        for each in &held.halves {
            half(out, each);
        }
        out.push('\n');
    }
}

fn seven(out: &mut String, word: &str, numbers: [u32; 7]) {
    out.push_str(word);
    for number in numbers {
        put(out, number);
    }
    out.push('\n');
}

pub(super) fn answer(out: &mut String, answer: &Answer, sets: &Sets) {
    match answer.conflict {
        None => out.push_str("done\n"),
        Some(conflict) => seven(out, "conflict", conflict),
    }
    for &transition in &answer.transitions {
        seven(out, "transition", transition);
    }
    for (number, each) in sets.opened() {
        set(out, number, each);
    }
}
