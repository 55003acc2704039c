//! The demonstration in a terminal: the frame, the same again, and with uses that come late.
use super::{
    frame::{Frame, Late},
    grid,
    page::{width, Ink, Page},
    run::{Clash, Run, Step},
};
use texture_tracker::*;

pub const UNWRITTEN: &str = "read before it was written";
/// How many uses of one conflict are told with their lines, beside the one that met it.
pub const LINES: usize = 3;
/// How wide a place is at least, so that those of one pass stand below those of another.
const PLACE: usize = "mip 0, layers 0 to 7".len();
/// Where what does not fit into its line begins in the next.
const BELOW: usize = 8;

/// Whether the frame as it is written has no conflict.
pub fn tell(frame: &Frame, name: &str, page: &mut Page) -> Result<bool, Refusal> {
    let mut run = Run::new(frame, None)?;
    page.heading("A frame, pass by pass");
    page.paragraph(Ink::Plain, &format!("{name}: {}.", frame.facts()));
    page.paragraph(
        Ink::Plain,
        "A texture is shown with a row for each layer and a column for each mip: the use that each is in. Equal \
         neighbours without a name of their own are shown as one.",
    );
    page.heading("Before the frame");
    show(&run, frame, page);
    page.heading("The passes, and what the driver is told before each");
    if !passes(&mut run, frame, page)? {
        return Ok(false);
    }
    page.heading("After the frame");
    let after = ends(&run);
    show(&run, frame, page);
    page.heading("The same frame again");
    passes(&mut run, frame, page)?;
    again(&run, frame, page, &after);
    frame.late.iter().try_for_each(|late| tell_late(frame, late, page))?;
    Ok(true)
}

/// What the tracker holds.
fn show(run: &Run, frame: &Frame, page: &mut Page) {
    for states in run.tracker.owned().filter_map(|index| run.tracker.end(index)) {
        grid::grid(page, frame, states, &[]);
    }
}

fn ends(run: &Run) -> Vec<(TrackerIndex, Selector, State)> {
    let ends = run.tracker.owned().filter_map(|index| run.tracker.end(index));
    ends.flat_map(|states| states.iter().map(move |(part, state)| (states.index(), part, state))).collect()
}

/// The second frame left everything as the first did: it is the steady state.
fn again(run: &Run, frame: &Frame, page: &mut Page, after: &[(TrackerIndex, Selector, State)]) {
    if ends(run) == after {
        let steady = "It leaves every texture as the first one did, so every further frame is like this one.";
        page.paragraph(Ink::Plain, steady);
    } else {
        page.heading("After the second frame");
        show(run, frame, page);
    }
}

/// Makes the passes up to the first one with a conflict; whether there was none.
fn passes(run: &mut Run, frame: &Frame, page: &mut Page) -> Result<bool, Refusal> {
    page.text.push('\n');
    let mut unwritten = false;
    let mut silent: Option<usize> = None;
    for at in 0..frame.passes.len() {
        let step = run.pass(at)?;
        if step.transitions.is_empty() && step.unwritten.is_empty() && step.clashes.is_empty() {
            silent = silent.or(Some(at));
            continue;
        }
        tell_silent(page, frame, silent.take(), at);
        unwritten |= !step.unwritten.is_empty();
        page.line(Ink::Bold, &format!("  {} {}", at + 1, frame.passes[at].name));
        tell_step(page, frame, &step);
        if !step.clashes.is_empty() {
            turned_down(run, frame, page, at, &step);
            tell_contents(page, unwritten);
            return Ok(false);
        }
    }
    tell_silent(page, frame, silent, frame.passes.len());
    tell_contents(page, unwritten);
    Ok(true)
}

/// Whose word it is that something is read before it was written.
fn tell_contents(page: &mut Page, unwritten: bool) {
    if unwritten {
        let who = "\"Read before it was written\": the tracker judges states, not contents. What was ever written is \
                   kept account of by this demonstration, apart from the tracker.";
        page.paragraph(Ink::Plain, who);
    }
}

/// Passes that need no transition, as one line.
fn tell_silent(page: &mut Page, frame: &Frame, first: Option<usize>, end: usize) {
    let Some(first) = first else { return };
    let (one, last) = (first + 1, &frame.passes[end - 1].name);
    let which = match end - first {
        1 => format!("  {one} {last}"),
        _ => format!("  {one} {} to {end} {last}", frame.passes[first].name),
    };
    page.line(Ink::Bold, &which);
    page.line(Ink::Dim, "      no transition");
}

fn tell_step(page: &mut Page, frame: &Frame, step: &Step) {
    let parts = step.transitions.iter().map(|each| &each.selector).chain(step.unwritten.iter().map(|(_, part)| part));
    let places = parts.map(|part| width(&part.to_string())).max().unwrap_or(0).max(PLACE) + 2;
    for PendingTransition { index, selector, from, to } in &step.transitions {
        let place = format!("{:places$}", selector.to_string());
        tell_change(page, &where_it_is(frame, "  ", *index, &place), *from, *to);
    }
    for (index, part) in &step.unwritten {
        let place = format!("{:places$}", part.to_string());
        let start = where_it_is(frame, "! ", *index, &place);
        begin(page, &start, width(UNWRITTEN));
        page.line(Ink::Mark, UNWRITTEN);
    }
    for clash in &step.clashes {
        tell_clash(page, frame, clash);
    }
    if step.more > 0 {
        page.line(Ink::Red, &format!("    ✗ and {} more", step.more));
    }
}

fn where_it_is(frame: &Frame, mark: &str, index: TrackerIndex, place: &str) -> String {
    let names = frame.textures.iter().map(|(name, _)| width(name)).max().unwrap_or(0) + 2;
    format!("    {mark}{:names$}{place}", frame.texture_name(index))
}

fn tell_change(page: &mut Page, start: &str, from: State, to: State) {
    let (old, new) = (uses::name(from), format!("→ {}", uses::name(to)));
    let long = width(&old) + 1 + width(&new);
    if BELOW + long > page.columns {
        page.line(Ink::Plain, start.trim_end());
        page.words(Ink::of(from), BELOW, &old);
        return page.words(Ink::of(to), BELOW, &new);
    }
    begin(page, start, long);
    page.put(Ink::of(from), &old);
    page.put(Ink::Plain, " → ");
    page.line(Ink::of(to), &uses::name(to));
}

/// The start of a line. What follows stands below it if it does not fit.
fn begin(page: &mut Page, start: &str, long: usize) {
    if width(start) + long <= page.columns {
        return page.put(Ink::Plain, start);
    }
    page.line(Ink::Plain, start.trim_end());
    page.put(Ink::Plain, &" ".repeat(BELOW));
}

fn tell_clash(page: &mut Page, frame: &Frame, clash: &Clash) {
    let Conflict { index, selector, current_state, new_state } = &clash.conflict;
    let texture = frame.texture_name(*index);
    let place = format!("✗ CONFLICT in {texture}, {selector}:");
    let states = format!("{} and {} at the same time", uses::name(*current_state), uses::name(*new_state));
    // A place is never broken, so that it can be searched for; at its longest it fits into 80 columns.
    if 4 + width(&place) + 1 + width(&states) <= page.columns {
        page.words(Ink::Red, 4, &format!("{place} {states}"));
    } else {
        page.words(Ink::Red, 4, &place);
        page.words(Ink::Red, 6, &states);
    }
    for made in clash.held.iter().take(LINES).chain([&clash.new]) {
        page.words(Ink::Plain, 8, &frame.told(made));
    }
    if clash.held.len() > LINES {
        page.line(Ink::Plain, &format!("        and {} more that hold it", clash.held.len() - LINES));
    }
}

/// What the pass holds where it came to conflicts.
fn turned_down(run: &Run, frame: &Frame, page: &mut Page, at: usize, step: &Step) {
    let name = frame.passes[at].name;
    page.paragraph(Ink::Plain, &format!("What pass {name} holds, and what cannot be merged into it:"));
    let met = |index: &TrackerIndex| step.clashes.iter().any(|clash| clash.conflict.index == *index);
    for states in run.scope.owned().filter(met).filter_map(|index| run.scope.states(index)) {
        grid::grid(page, frame, states, &step.clashes);
    }
    page.paragraph(Ink::Plain, "The pass is turned down before it runs; the driver is told nothing of it.");
}

/// What is late, as a question and in a sentence each.
pub fn question(late: &Late) -> String {
    match &late.names[..] {
        [one] => format!("What if {one} is late?"),
        names => format!("What if {} uses are late?", names.len()),
    }
}

pub fn explain(frame: &Frame, late: &Late) -> Vec<String> {
    let sentence = |name: &&str| {
        let (home, made) = frame.named_use(name);
        let (state, home) = (uses::name(made.state), frame.passes[home].name);
        format!(
            "{name}, which is {state}, is left out of pass {home} and still goes on in pass {}.",
            frame.passes[late.pass].name
        )
    };
    late.names.iter().map(sentence).collect()
}

/// The same frame with its late uses.
fn tell_late(frame: &Frame, late: &Late, page: &mut Page) -> Result<(), Refusal> {
    page.heading(&question(late));
    page.text.push('\n');
    for sentence in explain(frame, late) {
        page.words(Ink::Plain, 2, &sentence);
    }
    let mut run = Run::new(frame, Some(late))?;
    if passes(&mut run, frame, page)? {
        page.paragraph(Ink::Plain, "No conflict: the tracker lets the frame run like this, too.");
    }
    Ok(())
}
