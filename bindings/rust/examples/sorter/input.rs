//! From a file to the bytes of a plan, or to text that can be read line by line and shown in a terminal; or what is
//! wrong with the file.
use std::{
    fs::File,
    io::{self, Read},
    path::Path,
};

const MOST_BYTES: u64 = 64 << 20;
const MOST_CHARACTERS: usize = 1000;
/// How much of a bad line is told.
const TOLD: usize = 60;

pub enum Input {
    Text(String),
    Plan(Vec<u8>),
}

/// What is in the file; `-` is standard input.
pub fn read(path: &Path) -> Result<Input, String> {
    let mut bytes = vec![];
    let got = match path.to_str() {
        Some("-") => io::stdin().lock().take(MOST_BYTES + 1).read_to_end(&mut bytes),
        _ => File::open(path).and_then(|file| file.take(MOST_BYTES + 1).read_to_end(&mut bytes)),
    };
    got.map_err(|error| error.to_string())?;
    if bytes.len() as u64 > MOST_BYTES {
        return Err(format!("the file is larger than {} MiB", MOST_BYTES >> 20));
    }
    if is_plan(path, &bytes) {
        return Ok(Input::Plan(bytes));
    }
    let text = decoded(bytes)?;
    for (at, line) in text.lines().enumerate() {
        fit(line).map_err(|what| format!("line {}: {}\n    {what}", at + 1, told(line)))?;
    }
    Ok(Input::Text(text))
}

/// A plan begins with the tag of a group or a use, and no line of text does. A damaged one is known by its name.
fn is_plan(path: &Path, bytes: &[u8]) -> bool {
    matches!(bytes.first(), Some(1 | 2)) || path.extension().is_some_and(|end| end == "plan")
}

fn decoded(bytes: Vec<u8>) -> Result<String, String> {
    if bytes.starts_with(&[0xef, 0xbb, 0xbf]) {
        return Err("the file begins with a byte order mark (EF BB BF): save it as UTF-8 without one".to_string());
    }
    if bytes.starts_with(&[0xff, 0xfe]) || bytes.starts_with(&[0xfe, 0xff]) {
        return Err("the file begins with the byte order mark of UTF-16: save it as UTF-8".to_string());
    }
    String::from_utf8(bytes).map_err(|error| {
        let at = error.utf8_error().valid_up_to();
        let (before, after) = error.as_bytes().split_at(at);
        let line = before.iter().filter(|&&byte| byte == b'\n').count() + 1;
        let byte = before.iter().rev().take_while(|&&byte| byte != b'\n').count() + 1;
        format!("line {line}, byte {byte}: {:02X} is not UTF-8", after.first().copied().unwrap_or(0))
    })
}

/// Whether a line can be shown as it is.
fn fit(line: &str) -> Result<(), String> {
    let length = line.chars().count();
    if length > MOST_CHARACTERS {
        return Err(format!("the line has {length} characters; {MOST_CHARACTERS} are the most"));
    }
    match line.chars().position(|one| one.is_control() && one != '\t') {
        Some(at) => Err(format!("character {} is a control character, which no line may have", at + 1)),
        None => Ok(()),
    }
}

/// A line for a message: shortened, and with no character in it that a terminal would take as a command.
pub fn told(line: &str) -> String {
    let shown = |one: char| match one {
        '"' | '\'' | '\\' => one.to_string(),
        _ => one.escape_debug().to_string(),
    };
    let more = if line.chars().nth(TOLD).is_some() { "…" } else { "" };
    line.chars().take(TOLD).map(shown).collect::<String>() + more
}
