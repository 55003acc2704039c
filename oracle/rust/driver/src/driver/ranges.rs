//! The calls on ranged states alone.
//!
//! Document 01 lends them a run of records longer than what is told of it; the Rust has vectors.
//! The records past the Rust's answer are written here as 01 says: freed ones are zeros, the
//! others stay.
use super::{show, words::Words};
use crate::track::texture::peek::{ranges_of, records_of, Record};
use std::fmt::Write;

/// What record `at` of a lent run holds before the call, if the line does not give it.
fn filler(at: u32) -> Record {
    (1000 + at, 2000 + at, 3000 + at as u16)
}

/// `records`, zeros up to `used`, and what was there before up to `room`.
fn lent(mut records: Vec<Record>, used: u32, room: u32) -> Vec<Record> {
    while records.len() < used as usize {
        records.push((0, 0, 0));
    }
    for at in records.len() as u32..room {
        records.push(filler(at));
    }
    records
}

/// Makes the call of a line, if it is one of these.
pub(super) fn call(word: &str, words: &mut Words, out: &mut String) -> bool {
    match word {
        "isolate" => isolate(words, out),
        "coalesce" => coalesce(words, out),
        "iter_filter" => iter_filter(words, out),
        _ => return false,
    }
    out.push('\n');
    true
}

fn isolate(words: &mut Words, out: &mut String) {
    let index = words.number()..words.number();
    let default = words.state();
    let (length, room) = (words.number(), words.number());
    let mut ranges = ranges_of(&words.records(length));

    let run = ranges.isolate(&index, default);
    let (first, count) = (run.as_ptr(), run.len());
    let position = ranges
        .iter()
        .position(|range| std::ptr::eq(range, first))
        .unwrap();

    let records = records_of(&ranges);
    write!(out, "isolated {position} {count} {}", records.len()).unwrap();
    show::records(out, &lent(records, length, room));
}

fn coalesce(words: &mut Words, out: &mut String) {
    let (length, room) = (words.number(), words.number());
    let mut ranges = ranges_of(&words.records(length));
    ranges.coalesce();
    let records = records_of(&ranges);
    write!(out, "coalesced {}", records.len()).unwrap();
    show::records(out, &lent(records, length, room));
}

fn iter_filter(words: &mut Words, out: &mut String) {
    let range = words.number()..words.number();
    let (length, _room, room_out) = (words.number(), words.number(), words.number());
    let ranges = ranges_of(&words.records(length));
    let overlaps = ranges.iter_filter(&range);
    let records: Vec<Record> = overlaps.map(|(r, s)| (r.start, r.end, s.bits())).collect();
    write!(out, "filtered {}", records.len()).unwrap();
    show::records(out, &lent(records, 0, room_out));
}
