//! One frame of an optical coffee sorter, and what the tracker says of it: `./demo` at the top of the repository.
//!
//!     sorter [FRAME]                FRAME: a file like demo.frame, which is taken if none is given, or a plan file;
//!                                   - is standard input
//!     sorter --html FILE [FRAME]    writes the same as a page for a browser; - is standard output
//!     sorter --plan FILE [FRAME]    writes a frame of text as a plan file
//!     sorter --text FILE FRAME      writes a plan file as text
//!
//! Ends with 0, whatever late uses meet; with 1 if the frame is shown and has a conflict as it is written; with 2 if its
//! file makes no sense, the arguments do not, or the output cannot be written.
mod area;
mod frame;
mod grid;
mod html;
mod input;
mod kinds;
mod page;
mod picture;
mod plan;
mod run;
mod tell;

use frame::Frame;
use input::Input;
use page::Page;
use std::{
    env,
    ffi::OsString,
    fs,
    io::{self, IsTerminal, Write},
    path::{Path, PathBuf},
    process::ExitCode,
};

const USAGE: &str = "usage: ./demo [FRAME]
       ./demo --html FILE [FRAME]
       ./demo --plan FILE [FRAME]
       ./demo --text FILE FRAME.plan";

/// As what a frame is written.
#[derive(Clone, Copy, PartialEq)]
enum Form {
    Shown,
    Html,
    Plan,
    Text,
}

/// What is wanted: a frame's file, a form, and the file to write, if it is not standard output.
struct Wanted {
    frame: PathBuf,
    form: Form,
    file: Option<PathBuf>,
}

/// What is written, and what has to be said of it.
struct Done {
    bytes: Vec<u8>,
    notes: Vec<String>,
    /// Whether a frame that is shown has no conflict as it is written.
    passes: bool,
}

fn main() -> ExitCode {
    let Some(wanted) = wanted(env::args_os().skip(1).collect()) else {
        return fail(USAGE);
    };
    match demonstrate(&wanted) {
        Ok(Done { bytes, notes, passes }) => {
            notes.iter().for_each(|note| eprintln!("{}: {note}", named(&wanted.frame)));
            write(&bytes, wanted.file.as_deref(), ExitCode::from(if passes { 0 } else { 1 }))
        }
        Err(what) => fail(&format!("{}, {what}", named(&wanted.frame))),
    }
}

fn wanted(given: Vec<OsString>) -> Option<Wanted> {
    let form = given.first().and_then(|option| match option.to_str() {
        Some("--html") => Some(Form::Html),
        Some("--plan") => Some(Form::Plan),
        Some("--text") => Some(Form::Text),
        _ => None,
    });
    let (form, file, rest) = match (form, &given[..]) {
        (Some(form), [_, file, rest @ ..]) => (form, Some(file).filter(|file| *file != "-").map(PathBuf::from), rest),
        (_, rest) => (Form::Shown, None, rest),
    };
    let own = || Path::new(env!("CARGO_MANIFEST_DIR")).join("examples/sorter/demo.frame");
    match rest {
        [] if form != Form::Text => Some(Wanted { frame: own(), form, file }),
        [frame] if frame == "-" || !frame.as_encoded_bytes().starts_with(b"-") => {
            Some(Wanted { frame: PathBuf::from(frame), form, file })
        }
        _ => None,
    }
}

fn fail(what: &str) -> ExitCode {
    eprintln!("{what}");
    ExitCode::from(2)
}

/// A file in messages.
fn named(path: &Path) -> String {
    match path.to_str() {
        Some("-") => "standard input".to_string(),
        _ => path.display().to_string(),
    }
}

/// What is wanted of the file; or what is wrong with it.
fn demonstrate(wanted: &Wanted) -> Result<Done, String> {
    match (wanted.form, input::read(&wanted.frame)?) {
        (Form::Plan, Input::Text(text)) => {
            let frame = Frame::read(&text)?;
            let bytes = plan::write(&frame)?;
            let left = Some(frame.unplanned().join("; ")).filter(|left| !left.is_empty());
            let left = left.map(|left| format!("left out, since a plan does not hold it: {left}"));
            let empty = bytes.is_empty().then(|| "the plan is empty, since there is no pass".to_string());
            Ok(Done { bytes, notes: left.into_iter().chain(empty).collect(), passes: true })
        }
        (Form::Plan, Input::Plan(_)) => Err("this is a plan file already: --plan writes one from text".into()),
        (Form::Text, Input::Plan(bytes)) => {
            let plan::Planned { text, notes, .. } = plan::read(&bytes)?;
            Ok(Done { bytes: text.into_bytes(), notes, passes: true })
        }
        // The empty file is the empty plan, whatever its name.
        (Form::Text, Input::Text(text)) if text.is_empty() => Ok(Done { bytes: vec![], notes: vec![], passes: true }),
        (Form::Text, Input::Text(_)) => Err("this is no plan file: --text writes the text of one".into()),
        (_, Input::Text(text)) => show(wanted, &Frame::read(&text)?.complete()?, vec![]),
        (_, Input::Plan(bytes)) => {
            let plan = plan::read(&bytes)?;
            show(wanted, &Frame::of_plan(&plan)?, plan.notes.clone())
        }
    }
}

/// The frame, run.
fn show(wanted: &Wanted, frame: &Frame, notes: Vec<String>) -> Result<Done, String> {
    let name = wanted.frame.file_name().map_or_else(String::new, |name| named(Path::new(name)));
    let name = input::told(&name);
    let (text, passes) = if wanted.form == Form::Html {
        html::page(frame, &name).map_err(|refusal| refusal.to_string())?
    } else {
        let terminal = io::stdout().is_terminal();
        let mut page = Page { text: String::new(), colours: terminal && takes_colours(), columns: columns(terminal) };
        let passes = tell::tell(frame, &name, &mut page).map_err(|refusal| refusal.to_string())?;
        (page.text, passes)
    };
    Ok(Done { bytes: text.into_bytes(), notes, passes })
}

fn takes_colours() -> bool {
    let dumb = env::var_os("TERM").is_some_and(|term| term == "dumb");
    !env::var_os("NO_COLOR").is_some_and(|set| !set.is_empty()) && !dumb
}

/// 80, or what a terminal says that it has, which `./demo` asks it.
fn columns(terminal: bool) -> usize {
    let told = env::var("COLUMNS").ok().and_then(|columns| columns.parse().ok());
    told.filter(|_| terminal).map_or(80, |columns: usize| columns.clamp(80, 160))
}

/// Writes to the file, or to standard output, and ends with that status.
fn write(bytes: &[u8], file: Option<&Path>, status: ExitCode) -> ExitCode {
    let written = match file {
        Some(file) => fs::write(file, bytes),
        None => io::stdout().write_all(bytes).and_then(|()| io::stdout().flush()),
    };
    match written {
        // A reader that went away is no fault of the frame.
        Err(error) if error.kind() != io::ErrorKind::BrokenPipe => {
            let where_to = file.map_or(String::new(), |file| format!(" to {}", file.display()));
            fail(&format!("the output cannot be written{where_to}: {error}"))
        }
        _ => status,
    }
}
