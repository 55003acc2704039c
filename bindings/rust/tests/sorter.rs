//! The demonstration in a terminal: what it writes of its own frame and of others, and what it says of bad ones.
mod built;
use std::{
    fs::{self, File},
    io::Write,
    path::{Path, PathBuf},
    process::{Command, Output, Stdio},
};

fn here(path: &str) -> PathBuf {
    Path::new(env!("CARGO_MANIFEST_DIR")).join(path)
}

/// Status, standard output and standard error.
type Shown = (Option<i32>, String, String);

fn read(done: Output) -> Shown {
    let text = |bytes| String::from_utf8(bytes).unwrap();
    (done.status.code(), text(done.stdout), text(done.stderr))
}

/// What the demonstration does with a file.
fn sorter(frame: &Path) -> Shown {
    read(Command::new(built::example("sorter")).arg(frame).output().unwrap())
}

/// The same with what a file may have in it.
fn shown(name: &str, bytes: impl AsRef<[u8]>) -> Shown {
    let path = Path::new(env!("CARGO_TARGET_TMPDIR")).join(name);
    fs::write(&path, bytes).unwrap();
    sorter(&path)
}

fn longest(text: &str) -> usize {
    text.lines().map(|line| line.chars().count()).max().unwrap_or(0)
}

/// No terminal, so no colours. After a change that is meant: ./demo > bindings/rust/examples/sorter/demo.expected
#[test]
fn its_own_frame() {
    let (status, shown, errors) = sorter(&here("examples/sorter/demo.frame"));
    let expected = fs::read_to_string(here("examples/sorter/demo.expected")).unwrap();
    assert_eq!((status, errors.as_str()), (Some(0), ""));
    assert_eq!(shown, expected);
    assert_eq!(longest(&shown), 80);
    assert!(!shown.contains('\x1b'));
}

const OUT: &str = "is not a whole number from 0 to 4294967295";
const LIMITS: &str = "is out of range: a set has 1 to 64 textures, 1 to 16 mips and 1 to 256 layers (refusal 1)";
const PAST: &str = "the selector ends past the texture's extent (refusal 11)";
const EMPTY: &str = "are empty: they end just before they start";
const A_USE: &str = "write the use: PART, then STATE, then, if it has a name, as NAME";

/// A text, the number of its bad line, and what is said of it.
type Bad = (&'static str, usize, String);

fn line(text: &'static str, number: usize, what: &str) -> Bad {
    (text, number, what.to_string())
}

fn bad_textures_and_passes() -> Vec<Bad> {
    vec![
        line("textures beans", 1, "\"textures\" is none of: texture, pass, use, late"),
        line("texture beans 4 8", 1, "a texture is written: texture NAME mips M layers W [number N]"),
        line("texture beans mips four layers 8", 1, &format!("mips: \"four\" {OUT}")),
        line("texture beans mips -1 layers 8", 1, &format!("mips: \"-1\" {OUT}")),
        line("texture beans mips 4 layers 99999999999", 1, &format!("layers: \"99999999999\" {OUT}")),
        line("texture beans mips 17 layers 8", 1, &format!("mips 17 {LIMITS}")),
        line("texture beans mips 4 layers 257", 1, &format!("layers 257 {LIMITS}")),
        line("texture beans mips 4 layers 0", 1, &format!("layers 0 {LIMITS}")),
        line("texture a mips 1 layers 1\n\ntexture a mips 1 layers 1", 3, "there is a texture a already"),
        line("texture a mips 1 layers 1\npass p\ntexture b mips 1 layers 1", 3, "textures come before the first pass"),
        line("pass", 1, "a pass is written: pass NAME"),
        line("# a comment\npass one two", 2, "a pass is written: pass NAME"),
        line("pass one\npass one   # again", 2, "there is a pass one already"),
        line("pass a<b", 1, "a name has letters, digits and - _ . : / + only, not <"),
        line("pass a\u{202e}b", 1, "a name has letters, digits and - _ . : / + only, not \\u{202e}"),
        line("pass abcdefghijklmnopqrstuvwxy", 1, "the name abcdefghijklmnopqrstuvwxy has more than 24 characters"),
    ]
}

/// Those that begin with "use a" and are told with a line past the second follow a texture and a pass.
fn bad_uses() -> Vec<Bad> {
    vec![
        line("use", 1, "a use is written: use TEXTURE PART STATE"),
        line("use beans RESOURCE", 1, "there is no texture beans"),
        line("texture a mips 1 layers 1\nuse a RESOURCE", 2, "a use comes after the pass that makes it"),
        line("use a", 3, A_USE),
        line("use a layer 0 mip 0 RESOURCE", 3, A_USE),
        line("use a mips 0 RESOURCE", 3, "write: mip NUMBER, or mips NUMBER to NUMBER"),
        line("use a layer x RESOURCE", 3, &format!("layer: \"x\" {OUT}")),
        line("use a mips 1 to 0 RESOURCE", 3, &format!("mips 1 to 0 {EMPTY} (refusal 16)")),
        line("use a mips 5 to 4 RESOURCE", 3, &format!("mips 5 to 4 {EMPTY} (refusal 16)")),
        line("use a mips 2 to 0 RESOURCE", 3, "mips 2 to 0 are reversed (refusal 17)"),
        line("use a mips 2 to 0 layers 3 to 2 RESOURCE", 3, "mips 2 to 0 are reversed (refusal 17)"),
        line("use a layers 3 to 2 RESOURCE", 3, &format!("layers 3 to 2 {EMPTY} (refusal 18)")),
        line("use a mip 2 layers 3 to 2 RESOURCE", 3, &format!("layers 3 to 2 {EMPTY} (refusal 18)")),
        line("use a layers 7 to 2 RESOURCE", 3, "layers 7 to 2 are reversed (refusal 19)"),
        line("use a layers 3 to 0 RESOURCE", 3, "layers 3 to 0 are reversed (refusal 19)"),
        line("use a mip 2 layer 4 RESOURCE", 3, &format!("mip 2 is out of range, the last one is 1: {PAST}")),
        line("use a layer 4 RESOURCE", 3, &format!("layer 4 is out of range, the last one is 3: {PAST}")),
        line("use a layers 1 to 4 RESOURCE", 3, &format!("layer 4 is out of range, the last one is 3: {PAST}")),
        line("use a layer 4294967295 RESOURCE", 3, "layer 4294967295 is out of range"),
        line("use a mips 0 to 4294967295 RESOURCE", 3, "mip 4294967295 is out of range"),
        line("use a UNKNOWN", 3, "the state is zero, or has unknown or complex in it (refusal 12)"),
        line("use a COPY_DST|RESOURCE", 3, "the state has an exclusive use beside another use (refusal 13)"),
        line("use a RESOURCE as x\nuse a RESOURCE as x", 4, "there is a use named x already"),
        line("use a RESOURCE as x\nlate y p", 4, "there is no use named y"),
        line("use a RESOURCE as x\nlate x q", 4, "there is no pass q"),
        line("use a RESOURCE as x\nlate x p", 4, "x is made in pass p as it is"),
        line("use a RESOURCE as x\npass q\nlate x x q", 5, "x is named twice"),
        line("use a RESOURCE as x\nlate x", 4, "late uses are written: late NAME PASS, or late NAME NAME .. PASS"),
    ]
}

#[test]
fn bad_lines() {
    let bad = bad_textures_and_passes().into_iter().chain(bad_uses());
    for (at, (text, number, what)) in bad.enumerate() {
        let within = text.starts_with("use a") && number > 2;
        let text = format!("{}{text}\n", if within { "texture a mips 2 layers 4\npass p\n" } else { "" });
        let line = text.lines().nth(number - 1).unwrap().split('#').next().unwrap().trim();
        let name = format!("bad-{at}.frame");
        let (status, shown, errors) = shown(&name, &text);
        assert_eq!((status, shown.as_str()), (Some(2), ""), "{text}");
        let said = format!("{name}, line {number}: {}\n    {what}\n", line.replace('\u{202e}', "\\u{202e}"));
        assert!(errors.ends_with(&said), "{errors}");
    }
}

/// A use that wgpu does not know, alone and among others, is told with those that it knows.
#[test]
fn unknown_uses() {
    let list = "is not a use that wgpu knows. These are:
      UNINITIALIZED, PRESENT, COPY_SRC, COPY_DST,
      RESOURCE, COLOR_TARGET, DEPTH_STENCIL_READ, DEPTH_STENCIL_WRITE,
      STORAGE_READ_ONLY, STORAGE_WRITE_ONLY, STORAGE_READ_WRITE, STORAGE_ATOMIC,
      TRANSIENT\n";
    for (names, unknown) in [("READ", "READ"), ("COPY_SRC|READ", "READ"), ("copy_src", "copy_src"), ("RESOURCE|", "")] {
        let frame = format!("texture a mips 1 layers 1\npass p\nuse a {names}\n");
        let (status, _, errors) = shown(&format!("unknown-{}.frame", names.replace('|', "-")), frame);
        assert_eq!(status, Some(2));
        assert!(errors.ends_with(&format!("line 3: use a {names}\n    {unknown} {list}")), "{errors}");
        assert!(longest(&errors[errors.find('\n').unwrap() + 1..]) <= 80, "{errors}");
    }
}

#[test]
fn the_65th_texture() {
    let text: String = (0..65).map(|at| format!("texture t{at} mips 1 layers 1\n")).collect();
    let (status, _, errors) = shown("65.frame", text);
    assert_eq!(status, Some(2));
    assert!(
        errors.ends_with(&format!("line 65: texture t64 mips 1 layers 1\n    number 64, counted from 0, {LIMITS}\n")),
        "{errors}"
    );
}

/// What is wrong with a file as a whole, or with its bytes. No message sends a terminal anything but text.
#[test]
fn bad_files() {
    let long = [b"# ".as_slice(), &[b'x'; 999]].concat();
    let told = format!("line 1: # {}…\n    the line has 1001 characters; 1000 are the most", "x".repeat(58));
    let file: [(&str, &[u8], &str); 12] = [
        ("empty", b"# nothing\n", "the frame has no texture: write one as in bindings/rust/examples/sorter/demo.frame"),
        ("no-bytes", b"", "the frame has no texture: write one as in bindings/rust/examples/sorter/demo.frame"),
        (
            "no-pass",
            b"texture a mips 1 layers 1\n",
            "the frame has no pass: write one as in bindings/rust/examples/sorter/demo.frame",
        ),
        (
            "mark",
            b"\xef\xbb\xbfpass p\n",
            "the file begins with a byte order mark (EF BB BF): save it as UTF-8 without one",
        ),
        ("utf16", b"\xff\xfep\0a\0s\0s\0", "the file begins with the byte order mark of UTF-16: save it as UTF-8"),
        ("utf16-big", b"\xfe\xff\0p\0a\0s\0s", "the file begins with the byte order mark of UTF-16: save it as UTF-8"),
        ("latin", b"# one\npass k\xfche\n", "line 2, byte 7: FC is not UTF-8"),
        ("cut", b"# one\n# two \xe2\x82", "line 2, byte 7: E2 is not UTF-8"),
        ("long", &long, &told),
        (
            "escape",
            b"pass \x1b[31mred\n",
            "line 1: pass \\u{1b}[31mred\n    character 6 is a control character, which no line may have",
        ),
        (
            "escape-8-bit",
            b"pass \xc2\x9b31mred\n",
            "line 1: pass \\u{9b}31mred\n    character 6 is a control character, which no line may have",
        ),
        ("zero", b"pass a\0\n", "line 1: pass a\\0\n    character 7 is a control character, which no line may have"),
    ];
    for (name, bytes, what) in file {
        let (status, shown, errors) = shown(&format!("{name}.frame"), bytes);
        assert_eq!((status, shown.as_str()), (Some(2), ""), "{name}");
        assert!(errors.ends_with(&format!("{name}.frame, {what}\n")), "{errors}");
        assert!(errors.chars().all(|one| one == '\n' || !one.is_control()), "{errors:?}");
    }
}

#[test]
fn files_that_cannot_be_read() {
    let (status, _, errors) = sorter(&here("no such file"));
    assert_eq!(status, Some(2));
    assert!(errors.contains("no such file, No such file"), "{errors}");
    let (status, _, errors) = sorter(&here("examples"));
    assert_eq!(status, Some(2));
    assert!(errors.contains("examples, Is a directory"), "{errors}");
    let (status, _, errors) = sorter(Path::new("/dev/zero"));
    assert_eq!(status, Some(2));
    assert_eq!(errors, "/dev/zero, the file is larger than 64 MiB\n");
}

#[test]
fn arguments() {
    let frame = here("examples/sorter/demo.frame");
    let frame = frame.to_str().unwrap();
    for given in [
        &[frame, frame][..],
        &["--html"],
        &["--plan"],
        &["--text", "x"],
        &["--pdf"],
        &["--html", "x", frame, frame],
        &["--html", "x", "--y"],
        &["--text", "x", "--plan", "y"],
    ] {
        let (status, shown, errors) = read(Command::new(built::example("sorter")).args(given).output().unwrap());
        assert_eq!((status, shown.as_str()), (Some(2), ""));
        let usage =
            "usage: ./demo [FRAME]\n       ./demo --html FILE [FRAME]\n       ./demo --plan FILE [FRAME]\n       \
                     ./demo --text FILE FRAME.plan\n";
        assert_eq!(errors, usage);
    }
}

/// `-` is standard input, with the line ends of Windows, too.
#[test]
fn standard_input() {
    let given = |text: &str| {
        let mut sorter = Command::new(built::example("sorter"));
        let piped = sorter.arg("-").stdin(Stdio::piped()).stdout(Stdio::piped()).stderr(Stdio::piped());
        let mut running = piped.spawn().unwrap();
        running.stdin.take().unwrap().write_all(text.as_bytes()).unwrap();
        read(running.wait_with_output().unwrap())
    };
    let frame = fs::read_to_string(here("examples/sorter/demo.frame")).unwrap();
    let expected = fs::read_to_string(here("examples/sorter/demo.expected")).unwrap();
    let expected = expected.replace("demo.frame", "standard input");
    assert_eq!(given(&frame), (Some(0), expected.clone(), String::new()));
    assert_eq!(given(&frame.replace('\n', "\r\n")), (Some(0), expected, String::new()));
    let (status, _, errors) = given("pass");
    assert_eq!(status, Some(2));
    assert_eq!(errors, "standard input, line 1: pass\n    a pass is written: pass NAME\n");
}

/// A full disk is told; a reader that went away is not.
#[test]
fn output_that_cannot_be_written() {
    let written = |out: Stdio| Command::new(built::example("sorter")).stdout(out).output().unwrap();
    let full = written(File::create("/dev/full").unwrap().into());
    let said = String::from_utf8(full.stderr).unwrap();
    assert_eq!(full.status.code(), Some(2));
    assert!(said.starts_with("the output cannot be written: No space left"), "{said}");
    let (reader, writer) = std::io::pipe().unwrap();
    drop(reader);
    let closed = written(writer.into());
    assert_eq!((closed.status.code(), closed.stderr), (Some(0), vec![]));
}

/// What a terminal is sent, if there is Python to make one.
fn on_terminal(set: [(&str, &str); 3]) -> Option<String> {
    let mut python = Command::new("python3");
    python.args(["-c", "import pty, sys; pty.spawn(sys.argv[1:])"]).arg(built::example("sorter"));
    let done = python.envs(set).output().ok()?;
    Some(String::from_utf8(done.stdout).unwrap().replace('\r', ""))
}

/// Colours by kind of use, on a terminal that takes them; without them it is sent what a file is.
#[test]
fn colours() {
    let on = |term, no_color, columns| on_terminal([("TERM", term), ("NO_COLOR", no_color), ("COLUMNS", columns)]);
    let Some(colours) = on("xterm", "", "80") else { return eprintln!("no python3: no terminal was made") };
    for part in
        ["\x1b[33mCOPY_DST\x1b[0m", "\x1b[36mRESOURCE\x1b[0m", "\x1b[32mCOLOR_TARGET\x1b[0m", "\x1b[1;31m✗ CONFLICT"]
    {
        assert!(colours.contains(part), "{colours}");
    }
    let plain = fs::read_to_string(here("examples/sorter/demo.expected")).unwrap();
    assert_eq!(on("dumb", "", "80").unwrap(), plain);
    assert_eq!(on("xterm", "1", "80").unwrap(), plain);
    assert_eq!(on("xterm", "1", "40").unwrap(), plain, "80 columns are the fewest");
    let wide = on("xterm", "1", "120").unwrap();
    assert_eq!(longest(&wide), 120);
}

/// A conflict in the frame itself is status 1, and names both uses with their lines.
#[test]
fn a_conflict_as_written() {
    let frame = "texture a mips 1 layers 2\npass p\nuse a RESOURCE # read\n\nuse a COPY_SRC\nuse a layer 1 COPY_DST\n";
    let (status, shown, errors) = shown("conflict.frame", frame);
    assert_eq!((status, errors.as_str()), (Some(1), ""));
    let conflict = "
  1 p
    ✗ CONFLICT in a, mip 0, layer 1:
      COPY_SRC|RESOURCE and COPY_DST at the same time
        line 3: use a RESOURCE
        line 5: use a COPY_SRC
        line 6: use a layer 1 COPY_DST

  What pass p holds, and what cannot be merged into it:

  a         mip 0
  layer 0   COPY_SRC|RESOURCE
  layer 1   COPY_SRC|RESOURCE ✗ COPY_DST

  The pass is turned down before it runs; the driver is told nothing of it.
";
    assert!(shown.ends_with(conflict), "{shown}");
}

/// The place of a conflict stands on one line, to be searched for, and the states beside it where they fit.
#[test]
fn the_place_of_a_conflict() {
    for length in 1..=24 {
        let name = "a".repeat(length);
        let frame = format!(
            "texture {name} mips 16 layers 256\npass p\nuse {name} RESOURCE\nuse {name} mip 0 layer 7 COPY_DST\n\
             use {name} mips 10 to 14 layers 100 to 254 COPY_DST\n"
        );
        let (status, shown, _) = shown("place.frame", frame);
        let states = "RESOURCE and COPY_DST at the same time";
        let between = if length <= 6 { " " } else { "\n      " };
        let short = format!("    ✗ CONFLICT in {name}, mip 0, layer 7:{between}{states}\n");
        let long = format!("    ✗ CONFLICT in {name}, mips 10 to 14, layers 100 to 254:\n      {states}\n");
        assert!(status == Some(1) && shown.contains(&short) && shown.contains(&long), "{shown}");
        assert!(longest(&shown) <= 80, "{shown}");
    }
}

/// Of many conflicts, and of many uses that meet one, the first are told and the others counted.
#[test]
fn many_conflicts() {
    let frame =
        format!("texture a mips 1 layers 1\npass p\n{}{}", "use a RESOURCE\n".repeat(5), "use a COPY_DST\n".repeat(10));
    let (status, shown, _) = shown("conflicts.frame", frame);
    assert_eq!(status, Some(1));
    assert_eq!(shown.matches("✗ CONFLICT in a").count(), 8, "{shown}");
    assert_eq!(shown.matches("        and 2 more that hold it\n").count(), 8, "{shown}");
    assert_eq!(shown.matches("    ✗ and 2 more\n").count(), 1, "{shown}");
}

/// Several uses that are late together are all told; each line is a frame of its own.
#[test]
fn several_late_uses() {
    let frame = "texture a mips 1 layers 4\npass p\nuse a layer 0 COPY_DST as x\nuse a layer 1 COPY_DST as y\npass q\n\
                 use a layers 0 to 1 RESOURCE\npass r\nlate x y q\nlate y q\nlate x y r\n";
    let (status, shown, _) = shown("late.frame", frame);
    assert_eq!(status, Some(0));
    let parts: Vec<&str> = shown.split("── What if").collect();
    assert_eq!(parts.len(), 4, "{shown}");
    assert!(parts[1].starts_with(" 2 uses are late?") && parts[2].starts_with(" y is late?"), "{shown}");
    assert_eq!([1, 2, 3].map(|at| parts[at].matches("✗ CONFLICT").count()), [2, 1, 0], "{shown}");
    assert!(parts[3].contains("No conflict"), "{shown}");
    assert!(parts[3].contains("    ! a  mip 0, layers 0 to 1  read before it was written\n"), "{shown}");
}

/// A read of what no use has written is marked in its pass; any use that writes ends that, and no other does.
#[test]
fn read_before_it_was_written() {
    let frame = |made: &str| format!("texture a mips 2 layers 4\npass p\n{made}\npass q\nuse a RESOURCE\n");
    let marks = |made: &str| {
        let (status, shown, _) = shown("written.frame", frame(made));
        assert_eq!(status, Some(0), "{made}");
        let marks = shown.lines().filter_map(|line| line.strip_prefix("    ! ")).map(str::to_string);
        marks.collect::<Vec<_>>()
    };
    let mark = |part: &str| format!("a  {part:20}  read before it was written");
    // Twice: the second frame finds no more written than the first.
    let all = mark("mips 0 to 1, layers 0 to 3");
    assert_eq!(marks(""), [all.clone(), all]);
    let some = [mark("mip 0, layer 0"), mark("mip 0, layers 2 to 3"), mark("mip 1, layers 0 to 3")];
    assert_eq!(marks("use a mip 0 layer 1 COPY_DST"), [some.clone(), some].concat());
    for written in [
        "COPY_DST",
        "COLOR_TARGET",
        "DEPTH_STENCIL_WRITE",
        "STORAGE_WRITE_ONLY",
        "STORAGE_READ_WRITE",
        "STORAGE_ATOMIC",
    ] {
        assert_eq!(marks(&format!("use a {written}")), Vec::<String>::new(), "{written}");
    }
    for read in ["PRESENT", "COPY_SRC", "RESOURCE", "DEPTH_STENCIL_READ", "STORAGE_READ_ONLY"] {
        assert_eq!(marks(&format!("use a {read}")).len(), 4, "{read}");
    }
}

/// Nothing is wider than 80 columns: long names, long states, many mips, many layers.
#[test]
fn wide_and_long() {
    let reads = "UNINITIALIZED|COPY_SRC|RESOURCE|DEPTH_STENCIL_READ|STORAGE_READ_ONLY|TRANSIENT";
    let name = "abcdefghijklmnopqrstuvw";
    let long: String =
        (0..16).map(|mip| format!("use {name}x mip {mip} layer {mip} {reads} as {name}{}\n", mip % 8)).collect();
    let long = long.replacen(&format!("as {name}"), "as n", 8);
    let frame = format!(
        "texture {name}x mips 16 layers 256\npass {name}p\n{long}pass {name}q\nuse {name}x layers 100 to 255 COLOR_TARGET\n\
         pass {name}r\nuse {name}x layers 100 to 254 DEPTH_STENCIL_WRITE\npass {name}s\npass {name}t\nlate n0 {name}t\n"
    );
    let (status, shown, errors) = shown("wide.frame", frame);
    assert_eq!((status, errors.as_str()), (Some(0), ""));
    assert!(longest(&shown) <= 80, "{}", shown.lines().find(|line| line.chars().count() > 80).unwrap());
    assert!(shown.contains("\n  layers 100 to 254"), "{shown}");
    assert!(
        shown.contains("  4 abcdefghijklmnopqrstuvws to 5 abcdefghijklmnopqrstuvwt\n      no transition\n"),
        "{shown}"
    );
}

/// Lines and tables that just fit, and those that just do not: a texture's name moves both by one column at a time.
#[test]
fn every_width() {
    let reads = "COPY_SRC|RESOURCE|DEPTH_STENCIL_READ|STORAGE_READ_ONLY";
    let mut longest_lines = vec![];
    for length in 1..=24 {
        let name = "a".repeat(length);
        let frame = format!(
            "texture {name} mips 3 layers 200\npass p\nuse {name} mip 0 {reads}\nuse {name} mip 1 DEPTH_STENCIL_WRITE\n\
             pass q\nuse {name} mip 0 DEPTH_STENCIL_WRITE\nuse {name} mip 1 STORAGE_READ_WRITE\nuse {name} mip 2 COLOR_TARGET\n"
        );
        let (status, shown, _) = shown("widths.frame", frame);
        assert_eq!(status, Some(0));
        let told = shown.lines().filter(|line| !line.starts_with("──")).collect::<Vec<_>>().join("\n");
        assert!(longest(&told) <= 80, "{shown}");
        longest_lines.push(longest(&told));
    }
    assert!(longest_lines.contains(&80));
}
