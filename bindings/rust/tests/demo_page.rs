//! The demonstration as a page: one file, well formed, without script, with the cells that the frame asks for.
mod built;
use std::{
    fs,
    path::{Path, PathBuf},
    process::Command,
    sync::OnceLock,
};

/// Status and page of a frame.
fn page(name: &str, frame: &str) -> (Option<i32>, String) {
    let within = |end: &str| Path::new(env!("CARGO_TARGET_TMPDIR")).join(format!("{name}{end}"));
    let (page, file) = (within(".html"), within(".frame"));
    fs::write(&file, frame).unwrap();
    let done = Command::new(built::example("sorter")).arg("--html").arg(&page).arg(file).output().unwrap();
    assert_eq!((done.stdout, done.stderr), (vec![], vec![]));
    (done.status.code(), fs::read_to_string(page).unwrap())
}

/// The page of its own frame, written once: tests run beside one another, and one would read what another is still writing.
fn demo() -> String {
    static PAGE: OnceLock<String> = OnceLock::new();
    let written = || {
        let frame = Path::new(env!("CARGO_MANIFEST_DIR")).join("examples/sorter/demo.frame");
        let (status, page) = page("demo", &fs::read_to_string(frame).unwrap());
        assert_eq!(status, Some(0));
        page
    };
    PAGE.get_or_init(written).clone()
}

/// What stands between the brackets of each tag.
fn tags(page: &str) -> impl Iterator<Item = &str> {
    page.split('<').skip(2).map(|piece| piece.split_once('>').expect("a tag ends").0)
}

/// Every tag is closed in its order, and every attribute has its quotes.
fn well_formed(page: &str) {
    let mut open: Vec<&str> = vec![];
    for tag in tags(page) {
        assert_eq!(tag.matches('"').count() % 2, 0, "{tag}");
        match tag.strip_prefix('/') {
            Some(name) => assert_eq!(open.pop(), Some(name)),
            None if tag.ends_with('/') => {}
            None => open.push(tag.split(' ').next().unwrap()),
        }
    }
    assert_eq!(open, Vec::<&str>::new());
}

/// The rows of the page's pictures: the label, then a cell for each pass and for each gap before it, as their text.
fn rows(page: &str) -> Vec<Vec<String>> {
    let bodies = page.split("<table class=\"picture\">").skip(1).map(|table| table.split("</table>").next().unwrap());
    let lines = bodies.flat_map(|table| table.split("<tr>").filter(|line| line.starts_with("<th scope=\"row\">")));
    let cells = |line: &str| line.split("<t").skip(1).map(text).collect();
    lines.map(cells).collect()
}

/// What is written outside of tags.
fn text(cell: &str) -> String {
    let pieces = cell.split('<').filter_map(|piece| piece.split_once('>'));
    pieces.map(|(_, text)| text).collect::<String>().trim_end().to_string()
}

#[test]
fn one_file_without_script() {
    let page = demo();
    well_formed(&page);
    for never in ["<script", "javascript:", "http:", "https:", "src=", "href=", "url(", "@import", "<link"] {
        assert!(!page.contains(never), "{never}");
    }
    // Nor a script in an attribute: what stands outside of quotes are the attributes' names.
    let mut names = tags(&page).flat_map(|tag| tag.split('"').step_by(2));
    assert_eq!(names.find(|name| name.trim_start().starts_with("on")), None);
}

#[test]
fn the_cells_of_its_own_frame() {
    let page = demo();
    let rows = rows(&page);
    // Eleven rows of beans and one of verdicts, twice: in the frame as it is written, and with a late use.
    assert_eq!(rows.len(), 24);
    let camera_2 = &rows[2];
    assert_eq!(camera_2[0].split_whitespace().collect::<Vec<_>>().join(" "), "mip 0 layer 2 camera-2");
    // A gap and a cell for each of six passes, two times.
    assert_eq!(camera_2.len(), 1 + 2 * 2 * 6, "{camera_2:?}");
    let told = "Before pass 1 cameras the driver is told: beans, mip 0, layer 2: ";
    assert_eq!(camera_2[1], format!("{told}UNINITIALIZED → COPY_DST"));
    assert_eq!(camera_2[13], format!("{told}COPY_SRC|RESOURCE → COPY_DST"));
    assert_eq!(
        camera_2[10],
        "CS+RPass 5 classify uses beans, mip 0, layer 2 as COPY_SRC|RESOURCE. \
         line 42: use beans RESOURCE line 43: use beans mip 0 layer 2 COPY_SRC"
    );
    assert_eq!(camera_2[5..9], ["", "", "", ""], "passes 3 and 4 leave it alone");
    // As many marks as transitions, for every row that one is in; and each of them can be reached by keyboard.
    assert_eq!(page.matches("<td class=\"gap change").count(), page.matches("the driver is told: ").count());
    assert_eq!(page.matches("<td class=\"gap change").count(), page.matches("tabindex=\"0\"><b class=\"arrow").count());
    assert_eq!(page.matches("<td class=\"use\"").count(), page.matches("<td class=\"use\" tabindex=\"0\">").count());
}

#[test]
fn the_late_use_of_its_own_frame() {
    let page = demo();
    let rows = rows(&page);
    let camera_5 = &rows[12 + 5];
    assert_eq!(camera_5.len(), 1 + 2 * 5, "the frame ends with its fifth pass");
    assert!(camera_5[4].starts_with("R!Pass 2 half uses beans, mip 0, layer 5 as RESOURCE."), "{camera_5:?}");
    assert!(camera_5[4].ends_with("It is read before it was written."), "{camera_5:?}");
    let conflict = "beans, mip 0, layer 5: RESOURCE and COPY_DST at the same time. \
                    line 42: use beans RESOURCE line 25: use beans mip 0 layer 5 COPY_DST as camera-5";
    assert_eq!(camera_5[10], format!("R ✗ CDConflict in pass 5 classify: {conflict}"));
    assert!(text(&page).contains(conflict), "the conflict is told above the picture, too");
    assert_eq!(page.matches("<b class=\"clash\">R ✗ CD</b>").count(), 1);
    assert_eq!(page.matches("✗ turned down").count(), 1);
}

/// Headers say what they are the headers of; the words of every transition are listed once more.
#[test]
fn for_screen_readers_and_paper() {
    let page = demo();
    for part in [
        "<html lang=\"en\">",
        "<caption>",
        "scope=\"col\"",
        "scope=\"colgroup\"",
        "scope=\"row\"",
        "scope=\"rowgroup\"",
        "aria-label=\"transition\"",
    ] {
        assert!(page.contains(part), "{part}");
    }
    for part in ["@media print", "prefers-color-scheme: dark", ":focus > .tip", "print-color-adjust: exact"] {
        assert!(page.contains(part), "{part}");
    }
    assert_eq!(page.matches("<td>beans, mip 0, layer 2</td><td>RESOURCE → COPY_SRC|RESOURCE</td>").count(), 2);
    assert_eq!(page.matches("<td>beans, mip 0, layer 5</td><td>(it is read before it was written)</td>").count(), 1);
    assert_eq!(page.matches("<td></td><td>nothing: it is turned down</td>").count(), 1);
}

/// A frame that has a conflict as it is written: status 1, and no more than that.
#[test]
fn a_conflict_as_written() {
    let frame =
        "texture a mips 1 layers 1\npass p\nuse a RESOURCE as x\npass q\nuse a COPY_DST\nuse a RESOURCE\nlate x q\n";
    let (status, page) = page("conflict", frame);
    well_formed(&page);
    assert_eq!(status, Some(1));
    assert_eq!(page.matches("<table class=\"picture\">").count(), 1);
    assert!(page.contains("<h2>The frame</h2>\n<p>The frame has a conflict as it is written and ends there.</p>"));
    assert_eq!(rows(&page)[0][4].split(':').next(), Some("CD ✗ RConflict in pass 2 q"));
}

/// Rows that are alike are one, and the largest frame gives a page that a browser can show.
#[test]
fn large_textures() {
    let same = "texture a mips 16 layers 256\npass p\nuse a mips 0 to 3 COPY_DST\npass q\nuse a RESOURCE\n";
    let (_, small) = page("same", same);
    assert_eq!(
        rows(&small).iter().map(|row| row[0].as_str()).collect::<Vec<_>>(),
        ["mips 0 to 3 layers 0 to 255", "mips 4 to 15 layers 0 to 255"]
    );
    let part = |mip: u32, layer: u32| format!("use a mip {mip} layer {layer} COPY_DST\n");
    let odd: String = (0..4).flat_map(|mip| (0..128).map(move |at| part(mip, 2 * at + mip % 2))).collect();
    let passes: String =
        (0..102).map(|at| format!("pass p{at}\n{}", if at % 2 == 0 { "use a RESOURCE\n" } else { &odd })).collect();
    let (status, large) = page("large", &format!("texture a mips 16 layers 256\n{passes}"));
    well_formed(&large);
    assert_eq!(status, Some(0));
    assert!(large.len() < 40_000_000, "{}", large.len());
    assert!(large.contains("more rows are not drawn") && large.contains("There are more passes than can be drawn"));
    assert_eq!(large.matches("<th scope=\"col\" colspan=\"2\"").count(), 2 * 100);
}

/// Of many passes the first are drawn, and the one that has a conflict.
#[test]
fn a_conflict_far_away() {
    let passes: String = (0..500).map(|at| format!("pass p{at}\nuse a RESOURCE\n")).collect();
    let (status, page) = page("far", &format!("texture a mips 1 layers 1\n{passes}use a COPY_DST\n"));
    assert_eq!(status, Some(1));
    assert_eq!(page.matches("<th scope=\"col\" colspan=\"2\"").count(), 100 + 1);
    assert!(page.contains("✗ Conflict in pass 500 p499"));
}

/// A file's name may have what means something to a browser, or to a terminal.
#[test]
fn odd_file_names() {
    let (_, page) = page("<b>&\u{1b}", "texture a mips 1 layers 1\npass p\n");
    well_formed(&page);
    assert!(page.contains("<title>&lt;b&gt;&amp;\\u{1b}.frame, pass by pass</title>"), "{page}");
    assert!(page.chars().all(|one| one == '\n' || !one.is_control()));
}

/// Standard output, and a file that cannot be written.
#[test]
fn where_the_page_goes() {
    let sorter = |to: &str| Command::new(built::example("sorter")).args(["--html", to]).output().unwrap();
    let out = sorter("-");
    assert_eq!((out.status.code(), String::from_utf8(out.stdout).unwrap()), (Some(0), demo()));
    let nowhere = PathBuf::from(env!("CARGO_TARGET_TMPDIR")).join("no directory/page.html");
    let failed = sorter(nowhere.to_str().unwrap());
    let said = String::from_utf8(failed.stderr).unwrap();
    assert_eq!(failed.status.code(), Some(2));
    assert_eq!(
        said,
        format!("the output cannot be written to {}: No such file or directory (os error 2)\n", nowhere.display())
    );
}
