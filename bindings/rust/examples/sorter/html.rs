//! The demonstration as one page for a browser: no script, nothing that is fetched.
use super::{
    frame::{Frame, Use},
    grid::{names_told, span},
    kinds::{self, Kind},
    picture::{Cell, Column, Picture, Row},
    run::Clash,
    tell::{explain, question, LINES, UNWRITTEN},
};
use texture_tracker::*;

/// A larger picture is drawn up to so many cells, and told up to so many transitions.
const CELLS: usize = 24_000;
const WORDS: usize = 2000;
/// In a pass of more uses they are not looked through for each cell.
const USES: usize = 1000;

/// The title of the first picture and what is said of it, without a conflict and with one.
const TWICE: (&str, &str) = (
    "The frame, and the same frame again",
    "The second frame begins with what the first one left; every further frame is like it.",
);
const ONCE: (&str, &str) = ("The frame", "The frame has a conflict as it is written and ends there.");
const STYLE: &str = include_str!("page.css");
const ABOUT: &str = include_str!("about.html");

/// The page, and whether the frame as it is written has no conflict.
pub fn page(frame: &Frame, name: &str) -> Result<(String, bool), Refusal> {
    let picture = Picture::new(frame, None, 2)?;
    let mut body = format!("<header>\n{}{}</header>\n", head(frame, name), legend(frame));
    let (title, said) = if picture.passes { TWICE } else { ONCE };
    body += &section(title, &tag("p", "", said), &picture);
    let mut lists = list(title, &picture);
    for late in frame.late.iter().filter(|_| picture.passes) {
        let said: String = explain(frame, late).iter().map(|one| tag("p", "", &text(one))).collect();
        let picture = Picture::new(frame, Some(late), 1)?;
        let ran = "The tracker finds no conflict: the frame may run like this, too.";
        let ran = if picture.passes { tag("p", "", ran) } else { String::new() };
        body += &section(&question(late), &(said + &ran), &picture);
        lists += &list(&question(late), &picture);
    }
    body += &format!("<section class=\"words\">\n<h2>All of it in words</h2>\n{lists}</section>\n");
    let title = text(name);
    let page = format!(
        "<!DOCTYPE html>\n<html lang=\"en\">\n<head>\n<meta charset=\"utf-8\"/>\n\
         <meta name=\"viewport\" content=\"width=device-width, initial-scale=1\"/>\n\
         <title>{title}, pass by pass</title>\n<style>\n{STYLE}</style>\n</head>\n<body>\n{body}</body>\n</html>\n"
    );
    Ok((page, picture.passes))
}

/// Text that stands for itself.
fn text(plain: &str) -> String {
    plain.replace('&', "&amp;").replace('<', "&lt;").replace('>', "&gt;").replace('"', "&quot;")
}

/// An element. `with` are its attributes.
fn tag(name: &str, with: &str, inside: &str) -> String {
    let gap = if with.is_empty() { "" } else { " " };
    format!("<{name}{gap}{with}>{inside}</{name}>")
}

fn head(frame: &Frame, name: &str) -> String {
    let facts = format!("{name}: {}", frame.facts());
    let facts = tag("p", "class=\"facts\"", &text(&facts));
    format!("<div class=\"about\">\n<h1>A frame, pass by pass</h1>\n{facts}\n{ABOUT}</div>\n")
}

fn legend(frame: &Frame) -> String {
    let made = frame.passes.iter().flat_map(|pass| &pass.uses).fold(uses::UNINITIALIZED, |all, one| all | one.state);
    let mut items = String::new();
    for kind in Kind::ALL {
        for (state, code, _) in kinds::USES.iter().filter(|(state, _, of)| *of == kind && made.contains(*state)) {
            let block = format!("<b class=\"{}\">{code}</b>", kind.class());
            items += &format!("<li>{block} <span>{}: {}</span></li>\n", kind.words(), uses::name(*state));
        }
    }
    items += "<li><b class=\"line read\"></b> <span>left alone by the pass</span></li>\n";
    items += "<li><b class=\"arrow from-copied to-read\"></b> <span>a transition</span></li>\n";
    items += &format!("<li><b class=\"read unwritten\">R!</b> <span>{UNWRITTEN}</span></li>\n");
    items += "<li><b class=\"clash\">✗</b> <span>a conflict: the pass is turned down</span></li>\n";
    let note =
        "The tracker judges states, not contents. Whether a picture was ever written (“!”) is kept account of by \
        the program that made this page, not by the tracker.";
    let (title, list) = (tag("h2", "", "What the marks mean"), tag("ul", "", &format!("\n{items}")));
    format!("<div class=\"legend\">\n{title}\n{list}\n{}\n</div>\n", tag("p", "", note))
}

/// A picture with its title, what is said of it and its conflicts.
fn section(title: &str, said: &str, picture: &Picture) -> String {
    let title = text(title);
    let clashes: String = picture.columns.iter().map(|column| clashes(picture, column)).collect();
    let shortened =
        "There are more passes than can be drawn: the first ones are shown, and where there is a conflict. \
        <code>./demo</code> without <code>--html</code> tells all of them.";
    let shortened = if picture.shortened() { tag("p", "class=\"note\"", shortened) } else { String::new() };
    let table = table(picture, &title);
    format!(
        "<section>\n<h2>{title}</h2>\n{said}\n{shortened}\n{clashes}\
         <div class=\"scroll\" tabindex=\"0\" role=\"region\" aria-label=\"{title}\">\n{table}</div>\n</section>\n"
    )
}

fn table(picture: &Picture, title: &str) -> String {
    let mut room = CELLS / picture.columns.len().max(1);
    let rows: String = picture.frame.textures.iter().map(|each| body(picture, *each, &mut room)).collect();
    let caption = tag("caption", "", &format!("{title}: passes from left to right, a row for each picture"));
    format!("<table class=\"picture\">\n{caption}\n<thead>\n{}</thead>\n{rows}</table>\n", heads(picture))
}

/// Which frame, and which pass.
fn heads(picture: &Picture) -> String {
    let mut frames = "<th scope=\"col\" rowspan=\"2\">Picture</th>".to_string();
    for (round, title) in ["The frame", "The same frame again"].into_iter().enumerate() {
        let count = picture.columns.iter().filter(|column| column.round == round).count();
        if count > 0 {
            let with = format!("scope=\"colgroup\" colspan=\"{}\" class=\"round\"", 2 * count);
            frames += &tag("th", &with, title);
        }
    }
    let pass = |column: &Column| {
        let (number, name) = (column.pass + 1, text(picture.frame.passes[column.pass].name));
        let down = !column.step.clashes.is_empty();
        let class = format!("{}{}", first(column), if down { " down" } else { "" });
        let down = if down { " <em>✗ turned down</em>" } else { "" };
        tag(
            "th",
            &format!("scope=\"col\" colspan=\"2\" class=\"pass{class}\""),
            &format!("<i>{number}</i> <span>{name}</span>{down}"),
        )
    };
    let passes: String = picture.columns.iter().map(pass).collect();
    format!("<tr>{frames}</tr>\n<tr>{passes}</tr>\n")
}

/// The first pass of a frame has a class of its own.
fn first(column: &Column) -> &'static str {
    if column.pass == 0 {
        " first"
    } else {
        ""
    }
}

/// A texture. `room` is how many rows may still be drawn.
fn body(picture: &Picture, (name, texture): (&str, Texture), room: &mut usize) -> String {
    let rows = picture.rows(texture);
    let Extent { mips, layers } = texture.extent;
    let size = format!("{}, {}", count(mips, "mip"), count(layers, "layer"));
    let columns = 2 * picture.columns.len() + 1;
    let title = format!("<span>{} <small>{size}</small></span>", text(name));
    let mut lines = format!("<tr class=\"texture\"><th scope=\"rowgroup\" colspan=\"{columns}\">{title}</th></tr>\n");
    let drawn = rows.len().min(*room);
    *room -= drawn;
    for row in &rows[..drawn] {
        lines += &line(picture, name, texture, row);
    }
    if rows.len() > drawn {
        let more = format!("{} more rows are not drawn", rows.len() - drawn);
        lines += &format!("<tr><td class=\"more\" colspan=\"{columns}\">{more}</td></tr>\n");
    }
    format!("<tbody>\n{lines}</tbody>\n")
}

fn count(number: u32, word: &str) -> String {
    format!("{number} {word}{}", if number == 1 { "" } else { "s" })
}

fn line(picture: &Picture, name: &str, texture: Texture, row: &Row) -> String {
    let (mips, layers) = (span("mip", &row.mips), span("layer", &row.layers));
    let label = row.names.map_or(String::new(), |_| format!(" <strong>{}</strong>", text(&names_told(row.names))));
    let mut cells = format!("<th scope=\"row\"><span>{mips}</span> <span>{layers}</span>{label}</th>");
    let place = format!("{name}, {mips}, {layers}");
    for (column, cell) in picture.columns.iter().zip(&row.cells) {
        cells += &gap(picture, column, cell, &place);
        let place = Place { texture, mip: row.mips.start, layer: row.layers.start, words: &place };
        cells += &block(picture, column, cell, &place);
    }
    format!("<tr>{cells}</tr>\n")
}

/// What stands between two passes.
fn gap(picture: &Picture, column: &Column, cell: &Cell, place: &str) -> String {
    let start = first(column);
    let Some((from, to)) = cell.change else {
        let class = kinds::kind(cell.before).class();
        return tag("td", &format!("class=\"gap line {class}{start}\""), "");
    };
    let (number, pass) = (column.pass + 1, picture.frame.passes[column.pass].name);
    let (old, new) = (uses::name(from), uses::name(to));
    let words = text(&format!("Before pass {number} {pass} the driver is told: {place}: {old} → {new}"));
    let (from, to) = (kinds::kind(from).class(), kinds::kind(to).class());
    let arrow = tag("b", &format!("class=\"arrow from-{from} to-{to}\" role=\"img\" aria-label=\"transition\""), "");
    let arrow = format!("{arrow}<span class=\"tip\">{words}</span>");
    tag("td", &format!("class=\"gap change{start}\" tabindex=\"0\""), &arrow)
}

/// A row's subresources, by the first of them, and in words.
struct Place<'a> {
    texture: Texture,
    mip: u32,
    layer: u32,
    words: &'a str,
}

/// What a pass does with a subresource.
fn block(picture: &Picture, column: &Column, cell: &Cell, place: &Place) -> String {
    let Some(used) = cell.used else {
        return tag("td", &format!("class=\"line {}\"", kinds::kind(cell.held).class()), "");
    };
    let (number, pass) = (column.pass + 1, picture.frame.passes[column.pass].name);
    let (code, kind) = (kinds::code(used), kinds::kind(used).class());
    if let Some(clash) = cell.clash.map(|at| &column.step.clashes[at]) {
        let words = format!("Conflict in pass {number} {pass}: {}", tell_clash(picture.frame, clash));
        let code = format!("{code} ✗ {}", kinds::code(clash.conflict.new_state));
        return cell_of("clash", &code, &words);
    }
    let name = uses::name(used);
    let asked = if column.step.clashes.is_empty() { "uses" } else { "is turned down; it would use" };
    let mut words = text(&format!("Pass {number} {pass} {asked} {} as {name}.", place.words));
    words += &lines(picture, column, place);
    let class = if column.step.clashes.is_empty() { kind.to_string() } else { format!("{kind} down") };
    if cell.unwritten {
        return cell_of(&format!("{class} unwritten"), &format!("{code}!"), &format!("{words} It is {UNWRITTEN}."));
    }
    cell_of(&class, &code, &words)
}

fn cell_of(class: &str, code: &str, words: &str) -> String {
    let inside = format!("<b class=\"{class}\">{code}</b><span class=\"tip\">{words}</span>");
    tag("td", "class=\"use\" tabindex=\"0\"", &inside)
}

/// The lines of the file that make a use.
fn lines(picture: &Picture, column: &Column, place: &Place) -> String {
    if column.made.len() > USES {
        return String::new();
    }
    let here = column.made.iter().filter(|one| one.texture == place.texture);
    let here = here.filter(|one| one.part().contains(Mip(place.mip), Layer(place.layer)));
    here.take(LINES).map(|one| said(picture.frame, one)).collect()
}

fn said(frame: &Frame, made: &Use) -> String {
    format!(" <code>{}</code>", text(&frame.told(made)))
}

fn tell_clash(frame: &Frame, clash: &Clash) -> String {
    let Conflict { index, selector, current_state, new_state } = &clash.conflict;
    let (held, new) = (uses::name(*current_state), uses::name(*new_state));
    let words = format!("{}, {selector}: {held} and {new} at the same time.", frame.texture_name(*index));
    let lines: String = clash.held.iter().take(LINES).chain([&clash.new]).map(|one| said(frame, one)).collect();
    text(&words) + &lines
}

/// The conflicts of a pass, all in words.
fn clashes(picture: &Picture, column: &Column) -> String {
    if column.step.clashes.is_empty() {
        return String::new();
    }
    let (number, pass) = (column.pass + 1, text(picture.frame.passes[column.pass].name));
    let each = |clash: &Clash| tag("li", "", &tell_clash(picture.frame, clash));
    let mut items: String = column.step.clashes.iter().map(each).collect();
    if column.step.more > 0 {
        items += &tag("li", "", &format!("And {} more.", column.step.more));
    }
    let title = tag("p", "", &format!("<strong>✗ Conflict in pass {number} {pass}</strong>"));
    let down = tag("p", "", "The pass is turned down before it runs; the driver is told nothing of it.");
    format!("<div class=\"conflict\">\n{title}\n<ul>{items}</ul>\n{down}\n</div>\n")
}

/// Every transition in words.
fn list(title: &str, picture: &Picture) -> String {
    let all: Vec<String> = picture.columns.iter().flat_map(|column| told(picture, column)).collect();
    let mut rows = all[..all.len().min(WORDS)].concat();
    if all.len() > WORDS {
        rows += &format!("<tr><td colspan=\"4\">and {} more</td></tr>\n", all.len() - WORDS);
    }
    let frame = if rounds(picture) > 1 { &["Frame"][..] } else { &[] };
    let heads = frame.iter().chain(&["Before pass", "Picture", "Told to the driver"]);
    let heads: String = heads.map(|head| tag("th", "scope=\"col\"", head)).collect();
    let caption = tag("caption", "", &text(title));
    format!("<table class=\"list\">\n{caption}\n<thead><tr>{heads}</tr></thead>\n<tbody>\n{rows}</tbody>\n</table>\n")
}

fn rounds(picture: &Picture) -> usize {
    picture.columns.last().map_or(0, |column| column.round + 1)
}

/// What the driver is told before a pass, a row for each.
fn told(picture: &Picture, column: &Column) -> Vec<String> {
    let step = &column.step;
    let round = if rounds(picture) > 1 { tag("td", "", &(column.round + 1).to_string()) } else { String::new() };
    let pass = format!("{} {}", column.pass + 1, text(picture.frame.passes[column.pass].name));
    let pass = tag("th", "scope=\"row\"", &pass);
    let row = |place: &str, words: &str| format!("<tr>{round}{pass}<td>{place}</td><td>{words}</td></tr>\n");
    let place = |index, part: &Selector| text(&format!("{}, {part}", picture.frame.texture_name(index)));
    let change = |told: &PendingTransition| format!("{} → {}", uses::name(told.from), uses::name(told.to));
    let mut rows: Vec<String> =
        step.transitions.iter().map(|told| row(&place(told.index, &told.selector), &change(told))).collect();
    let unwritten = format!("(it is {UNWRITTEN})");
    rows.extend(step.unwritten.iter().map(|(index, part)| row(&place(*index, part), &unwritten)));
    match (rows.is_empty(), step.clashes.is_empty()) {
        (true, true) => vec![row("", "nothing")],
        (_, false) => vec![row("", "nothing: it is turned down")],
        _ => rows,
    }
}
