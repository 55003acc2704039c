//! The demonstration with plan files: shown as a frame, written from text and as text, and what it says of bad ones.
mod built;
use std::{
    fs,
    io::Write,
    path::Path,
    process::{Command, Output, Stdio},
};
use texture_tracker::*;

/// Where all files are, so that messages name them without a directory.
const HERE: &str = env!("CARGO_TARGET_TMPDIR");

/// Status, standard output and standard error.
type Shown = (Option<i32>, Vec<u8>, String);

fn sorter_with(given: &[&str]) -> Command {
    let mut sorter = Command::new(built::example("sorter"));
    sorter.current_dir(HERE).args(given);
    sorter
}

fn read(done: Output) -> Shown {
    (done.status.code(), done.stdout, String::from_utf8(done.stderr).unwrap())
}

/// What the demonstration does with a file of that name and content, after an option and its file.
fn sorter(option: &[&str], name: &str, bytes: impl AsRef<[u8]>) -> Shown {
    fs::write(Path::new(HERE).join(name), bytes).unwrap();
    read(sorter_with(option).arg(name).output().unwrap())
}

fn text(bytes: Vec<u8>) -> String {
    String::from_utf8(bytes).unwrap()
}

fn one(index: u32, mips: u32, layers: u32, part: Selector, state: State) -> Use {
    Use::new(Texture::new(TrackerIndex(index), Extent::new(mips, layers)), part, state)
}

/// A use of one subresource of a texture of two mips and four layers.
fn layer(index: u32, layer: u32, state: State) -> Use {
    one(index, 2, 4, Selector::one(Mip(0), Layer(layer)), state)
}

/// A plan in short: `(` opens, `)` closes, and each letter is the next of the uses.
fn plan(form: &str, uses: &[Use]) -> Vec<u8> {
    let mut plan = Plan::new();
    let mut next = uses.iter();
    for item in form.chars() {
        match item {
            '(' => plan.open_group(),
            ')' => plan.close_group(),
            _ => plan.push(*next.next().unwrap()).unwrap(),
        }
    }
    assert_eq!(next.next(), None);
    plan.write().unwrap()
}

/// A text as a plan; that as text; and that as a plan, which must be the same.
fn there_and_back(name: &str, frame: &str) -> (Vec<u8>, String) {
    let (status, written, _) = sorter(&["--plan", "-"], &format!("{name}.frame"), frame);
    assert_eq!(status, Some(0), "{frame}");
    let (status, back, errors) = sorter(&["--text", "-"], &format!("{name}.plan"), &written);
    assert_eq!((status, errors.as_str()), (Some(0), ""), "{frame}");
    let (status, again, _) = sorter(&["--plan", "-"], &format!("{name}-again.frame"), &back);
    assert_eq!((status, &again), (Some(0), &written), "{frame}");
    (written, text(back))
}

/// What a frame does is told alike of its text and of its plan, but for names and late uses.
#[test]
fn its_own_frame() {
    let frame = fs::read_to_string(Path::new(env!("CARGO_MANIFEST_DIR")).join("examples/sorter/demo.frame")).unwrap();
    let (written, back) = there_and_back("own", &frame);
    assert_eq!(written.len(), 6 * 3 + 18 * 18);
    assert_eq!(Plan::read(&written).unwrap().uses().count(), 18);
    let named = [("beans", "texture-0"), ("verdicts", "texture-1"), ("cameras", "pass-1"), ("half", "pass-2")];
    let named = named.into_iter().chain([("quarter", "pass-3"), ("eighth", "pass-4"), ("classify", "pass-5")]);
    let named = named.chain([("jets", "pass-6")]).fold(frame, |frame, (name, number)| frame.replace(name, number));
    let plain = named.lines().filter(|line| !line.starts_with("late")).map(|line| line.split('#').next().unwrap());
    let plain = plain.map(|line| line.split(" as ").next().unwrap().trim());
    let plain: Vec<&str> = plain.filter(|line| !line.is_empty()).collect();
    let back: Vec<&str> = back.lines().map(str::trim).filter(|line| !line.is_empty()).collect();
    assert_eq!(back, plain);
    let (status, of_plan, errors) = sorter(&[], "shown.plan", &written);
    assert_eq!((status, errors.as_str()), (Some(0), ""));
    let (status, of_text, _) = sorter(&[], "shown.frame", back.join("\n"));
    assert_eq!(status, Some(0));
    assert_eq!(text(of_plan), text(of_text).replace("shown.frame", "shown.plan"));
}

/// Text that has no use, no pass or nothing in it; gaps in the numbers; every part; the largest numbers.
#[test]
fn there_and_back_again() {
    assert_eq!(there_and_back("empty", "# nothing\n"), (vec![], String::new()));
    assert_eq!(there_and_back("no-pass", "texture a mips 1 layers 1\n").0, []);
    let no_use = there_and_back("no-use", "texture a mips 1 layers 1\npass p\npass q\n");
    assert_eq!(no_use, (vec![1, 0, 0, 1, 0, 0], "\npass pass-1\n\npass pass-2\n".to_string()));
    let gaps = "texture a mips 2 layers 4 number 3\ntexture b mips 16 layers 256\ntexture c mips 1 layers 1 number 63\n\
                texture d mips 1 layers 1 number 0\npass p\nuse c PRESENT\nuse a layers 1 to 3 COPY_SRC|RESOURCE\n\
                use b mips 1 to 15 layer 255 STORAGE_ATOMIC\nuse a mip 1 TRANSIENT\nuse a mips 0 to 1 layers 0 to 3 COPY_SRC\n";
    let (_, back) = there_and_back("gaps", gaps);
    let wanted = "texture texture-3 mips 2 layers 4 number 3\ntexture texture-4 mips 16 layers 256\n\
                  texture texture-63 mips 1 layers 1 number 63\n\npass pass-1\n    use texture-63 PRESENT\n    \
                  use texture-3 layers 1 to 3 COPY_SRC|RESOURCE\n    \
                  use texture-4 mips 1 to 15 layer 255 STORAGE_ATOMIC\n    \
                  use texture-3 mip 1 TRANSIENT\n    use texture-3 COPY_SRC\n";
    assert_eq!(back, wanted);
}

/// What a plan does not hold is told, where there is something.
#[test]
fn what_is_left_out() {
    let left = |name: &str, frame: &str| {
        let file = format!("{name}-written.plan");
        let (status, shown, errors) = sorter(&["--plan", &file], name, frame);
        assert_eq!((status, shown), (Some(0), vec![]), "{frame}");
        assert!(Path::new(HERE).join(file).is_file());
        errors
    };
    let all =
        "texture a mips 1 layers 1 # one\ntexture b mips 1 layers 1\npass p\nuse a RESOURCE as x\npass q\nlate x q\n";
    let said = "names (2 textures, 2 passes, 1 use); texture b, which no pass uses; 1 late line; comments";
    assert_eq!(left("all", all), format!("all: left out, since a plan does not hold it: {said}\n"));
    let few = "texture a mips 1 layers 1\npass p\nuse a RESOURCE\n";
    assert_eq!(left("few", few), "few: left out, since a plan does not hold it: names (1 texture, 1 pass)\n");
    assert_eq!(left("none", ""), "none: the plan is empty, since there is no pass\n");
}

/// Groups within a group are part of its pass; uses outside groups are a pass, up to the next group.
#[test]
fn groups() {
    let file = plan("ab(c(d)())()e", &[0, 1, 2, 3, 0].map(|at| layer(1, at, uses::RESOURCE)));
    let notes = "groups.plan: 2 groups within groups are part of the pass around: what is in one pass is made at the \
                 same time\ngroups.plan: 2 passes are no groups of the plan, but uses that stand outside groups\n";
    let (status, back, errors) = sorter(&["--text", "-"], "groups.plan", &file);
    assert_eq!((status, errors.as_str()), (Some(0), notes));
    let wanted = "texture texture-1 mips 2 layers 4 number 1\n\npass pass-1    # uses outside groups\n    \
                  use texture-1 mip 0 layer 0 RESOURCE\n    use texture-1 mip 0 layer 1 RESOURCE\n\npass pass-2\n    \
                  use texture-1 mip 0 layer 2 RESOURCE\n    use texture-1 mip 0 layer 3 RESOURCE\n\npass pass-3\n\n\
                  pass pass-4    # uses outside groups\n    use texture-1 mip 0 layer 0 RESOURCE\n";
    assert_eq!(text(back), wanted);
    let (status, shown, errors) = sorter(&[], "groups.plan", &file);
    assert_eq!((status, errors.as_str()), (Some(0), notes));
    let shown = text(shown);
    assert!(shown.contains("  groups.plan: 1 texture, 4 passes, 5 uses.\n"), "{shown}");
    // The texture has index 1, and none is shown for index 0.
    assert_eq!(shown.matches("\n  texture-1   ").count(), 2, "{shown}");
    assert!(!shown.contains("texture-0"), "{shown}");
    let (status, page, errors) = sorter(&["--html", "-"], "groups.plan", &file);
    assert_eq!((status, errors.as_str()), (Some(0), notes));
    assert!(text(page).contains("<code>use 5, byte 84: texture-1 mip 0 layer 0 RESOURCE</code>"));
}

/// A conflict is status 1, and its uses are told with their numbers and bytes. A use in an inner group meets one outside.
#[test]
fn a_conflict() {
    let [a, b, c] = [layer(0, 1, uses::COPY_SRC), layer(0, 2, uses::RESOURCE), layer(0, 2, uses::COPY_DST)];
    let file = plan("(a)(b((c)))", &[a, b, c]);
    let (status, shown, _) = sorter(&[], "conflict.plan", &file);
    let conflict = "
  2 pass-2
    ✗ CONFLICT in texture-0, mip 0, layer 2:
      RESOURCE and COPY_DST at the same time
        use 2, byte 24: texture-0 mip 0 layer 2 RESOURCE
        use 3, byte 48: texture-0 mip 0 layer 2 COPY_DST
";
    let shown = text(shown);
    assert!(status == Some(1) && shown.contains(conflict), "{shown}");
    assert_eq!((file[24], file[48]), (2, 2), "tags of uses");
    assert_eq!(sorter(&["--text", "-"], "conflict.plan", &file).0, Some(0), "writing looks for no conflict");
}

/// A file that is damaged is told with the refusal, whatever is wanted of it.
#[test]
fn damaged_files() {
    let by_name = "\n    it is read as a plan file because its name ends with .plan";
    let short = "in a plan file, a field is cut short or goes past its group or the file (refusal 20)";
    let unknown = "in a plan file, a field has an unknown tag: 1 is a group, 2 is a use (refusal 21)";
    let size = "in a plan file, a use does not have 15 bytes (refusal 22)";
    let deep = "in a plan, groups stand more than eight deep (refusal 23)";
    let nested: Vec<u8> = (0..9).rev().flat_map(|inner| [1, 3 * inner, 0]).collect();
    let files: [(&str, &[u8], &str); 9] = [
        ("header.plan", &[1, 0], short),
        ("past", &[1, 1, 0], short),
        ("unknown-past.plan", &[7, 1, 0], &format!("{short}{by_name}")),
        ("unknown.plan", &[7, 0, 0], &format!("{unknown}{by_name}")),
        ("unknown-inside", &[1, 3, 0, 7, 0, 0], unknown),
        ("size", &[2, 0, 0], size),
        ("deep", &nested, deep),
        ("text.plan", b"texture a mips 1 layers 1\n", &format!("{short}{by_name}")),
        ("long.plan", &[0xff; 3], &format!("{short}{by_name}")),
    ];
    for (name, bytes, what) in files {
        for option in [&[][..], &["--html", "-"], &["--text", "-"]] {
            let wanted = (Some(2), vec![], format!("{name}, {what}\n"));
            assert_eq!(sorter(option, name, bytes), wanted);
        }
    }
    let (status, ..) = sorter(&["--text", "-"], "eight", plan("(((((((())))))))", &[]));
    assert_eq!(status, Some(0));
}

/// A use that the library refuses is told with its place; so is one that wgpu does not know.
#[test]
fn uses_without_meaning() {
    let part = |mips: (u32, u32), layers: (u32, u32)| {
        Selector::new(Mip(mips.0)..Mip(mips.1), Layer(layers.0)..Layer(layers.1))
    };
    let all = part((0, 2), (0, 4));
    let bad = [
        (one(64, 2, 4, all, uses::RESOURCE), "texture 64: the set has no such index (refusal 7)"),
        (one(u32::MAX, 2, 4, all, uses::RESOURCE), "texture 4294967295: the set has no such index (refusal 7)"),
        (
            one(1, 17, 4, all, uses::RESOURCE),
            "texture 1: it has no mips or layers, or more than the set was opened for (refusal 8)",
        ),
        (
            one(1, 2, 0, all, uses::RESOURCE),
            "texture 1: it has no mips or layers, or more than the set was opened for (refusal 8)",
        ),
        (one(0, 2, 5, all, uses::RESOURCE), "texture 0: the set holds it with another extent (refusal 9)"),
        (
            one(0, 2, 4, part((0, 0), (0, 4)), uses::RESOURCE),
            "mips 0 to 0 are empty: they end where they start (refusal 16)",
        ),
        (
            one(0, 2, 4, part((1, 0), (0, 4)), uses::RESOURCE),
            "mips 1 to 0 are reversed: they end before they start (refusal 17)",
        ),
        (
            one(0, 2, 4, part((0, 2), (4, 4)), uses::RESOURCE),
            "layers 4 to 4 are empty: they end where they start (refusal 18)",
        ),
        (
            one(0, 2, 4, part((0, 2), (3, 2)), uses::RESOURCE),
            "layers 3 to 2 are reversed: they end before they start (refusal 19)",
        ),
        (
            one(0, 2, 4, part((0, 2), (0, 5)), uses::RESOURCE),
            "the selector ends past the texture's extent (refusal 11)",
        ),
        (one(0, 2, 4, all, State(0)), "the state is zero, or has unknown or complex in it (refusal 12)"),
        (
            one(0, 2, 4, all, uses::COPY_DST | uses::RESOURCE),
            "the state has an exclusive use beside another use (refusal 13)",
        ),
        (one(0, 2, 4, all, State(1 << 15)), "32768 has a use that wgpu does not know"),
        (one(0, 2, 4, all, State(1 << 15 | 1 << 4)), "RESOURCE|32768 has a use that wgpu does not know"),
    ];
    for (bad, what) in bad {
        let file = plan("(a)b", &[layer(0, 0, uses::RESOURCE), bad]);
        for option in [&[][..], &["--text", "-"]] {
            let wanted = (Some(2), vec![], format!("bad.plan, use 2, byte 21: {bad:#}\n    {what}\n"));
            assert_eq!(sorter(option, "bad.plan", &file), wanted);
        }
    }
}

/// A plan without uses can be written as text, but there is nothing to show.
#[test]
fn nothing_to_show() {
    for (name, file) in [("nothing.plan", &[][..]), ("groups-only", &[1, 0, 0])] {
        let wanted = format!("{name}, the plan has no use, so there is nothing to show\n");
        assert_eq!(sorter(&[], name, file), (Some(2), vec![], wanted));
        assert_eq!(sorter(&["--text", "-"], name, file).0, Some(0));
    }
}

/// The empty file is the empty plan, also where its name does not say so.
#[test]
fn the_empty_file() {
    assert_eq!(sorter(&["--text", "-"], "no-bytes", ""), (Some(0), vec![], String::new()));
}

/// The largest pass that fits into a group, and one more.
#[test]
fn a_pass_that_is_too_long() {
    let frame =
        |uses: usize| format!("texture a mips 1 layers 1\npass few\npass p\n{}", "use a RESOURCE\n".repeat(uses));
    there_and_back("longest", &frame(3640));
    let wanted = "longer.frame, pass p has 3641 uses: in a plan, a group holds more than 65,535 bytes (refusal 25)\n";
    let shown = sorter(&["--plan", "-"], "longer.frame", frame(3641));
    assert_eq!(shown, (Some(2), vec![], wanted.to_string()));
}

/// Which option takes which kind of file, and bad lines that speak of numbers.
#[test]
fn wrong_kinds_and_numbers() {
    let wanted = |what: &str| (Some(2), vec![], format!("{what}\n"));
    let already = "kind, this is a plan file already: --plan writes one from text";
    assert_eq!(sorter(&["--plan", "-"], "kind", [1, 0, 0]), wanted(already));
    let no_plan = "kind, this is no plan file: --text writes the text of one";
    assert_eq!(sorter(&["--text", "-"], "kind", "pass p\n"), wanted(no_plan));
    for (line, what) in [
        ("texture b mips 1 layers 1 number 3", "texture a has number 3 already"),
        ("texture b mips 1 layers 1 number x", "number: \"x\" is not a whole number from 0 to 4294967295"),
        (
            "texture b mips 1 layers 1 number 64",
            "number 64, counted from 0, is out of range: a set has 1 to 64 textures, 1 to 16 mips and 1 to 256 layers \
             (refusal 1)",
        ),
        (
            "texture b mips 1 layers 1 number 4294967295",
            "number 4294967295, counted from 0, is out of range: a set has 1 to 64 textures, 1 to 16 mips and 1 to 256 \
             layers (refusal 1)",
        ),
        ("texture b mips 1 layers 1 number", "a texture is written: texture NAME mips M layers W [number N]"),
    ] {
        let frame = format!("texture a mips 1 layers 1 number 3\n{line}\n");
        let wanted = wanted(&format!("numbers, line 2: {line}\n    {what}"));
        assert_eq!(sorter(&["--plan", "-"], "numbers", &frame), wanted);
        assert_eq!(sorter(&[], "numbers", &frame), wanted);
    }
}

/// From standard input a plan is known by its first byte; a file that cannot be written is told.
#[test]
fn standard_input_and_output() {
    let given = |option: &[&str], bytes: &[u8]| {
        let mut sorter = sorter_with(option);
        let piped = sorter.stdin(Stdio::piped()).stdout(Stdio::piped()).stderr(Stdio::piped());
        let mut running = piped.spawn().unwrap();
        running.stdin.take().unwrap().write_all(bytes).unwrap();
        read(running.wait_with_output().unwrap())
    };
    let file = plan("(a)", &[layer(0, 0, uses::COPY_DST)]);
    let (status, shown, errors) = given(&["-"], &file);
    assert_eq!((status, errors.as_str()), (Some(0), ""));
    assert!(text(shown).contains("  standard input: 1 texture, 1 pass, 1 use.\n"));
    let (_, back, _) = given(&["--text", "-", "-"], &file);
    assert_eq!(given(&["--plan", "-", "-"], &back).1, file);
    let (status, _, errors) = given(&["-"], &[2, 0, 0]);
    assert_eq!((status, errors.starts_with("standard input, in a plan file, a use")), (Some(2), true), "{errors}");
    let (status, _, errors) = given(&["--plan", "/no/such/place"], &[]);
    assert!(status == Some(2) && errors.contains("the output cannot be written to /no/such/place"), "{errors}");
}
