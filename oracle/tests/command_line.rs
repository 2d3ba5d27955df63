//! The command line: what it prints, and that bad input gets a message and a status, never a panic.

use std::fs;
use std::io::Write;
use std::path::PathBuf;
use std::process::{Command, Output, Stdio};

fn oracle(words: &[&str], input: &[u8]) -> Output {
    let mut child = Command::new(env!("CARGO_BIN_EXE_oracle"))
        .args(words)
        .stdin(Stdio::piped())
        .stdout(Stdio::piped())
        .stderr(Stdio::piped())
        .spawn()
        .unwrap();
    // A command that refuses its arguments may end before it reads.
    let _ = child.stdin.take().unwrap().write_all(input);
    child.wait_with_output().unwrap()
}

fn printed(words: &[&str], input: &[u8]) -> String {
    let output = oracle(words, input);
    let message = String::from_utf8_lossy(&output.stderr).into_owned();
    assert!(output.status.success(), "{words:?}: {message}");
    String::from_utf8(output.stdout).unwrap()
}

/// The message of a command that must fail with status 2.
fn refused(words: &[&str], input: &[u8]) -> String {
    let output = oracle(words, input);
    let message = String::from_utf8_lossy(&output.stderr).into_owned();
    assert_eq!(output.status.code(), Some(2), "{words:?}: {message}");
    assert!(message.starts_with("oracle: "), "{message}");
    assert!(output.stdout.is_empty());
    message
}

/// A folder of its own for each test.
fn folder(name: &str) -> PathBuf {
    let folder = PathBuf::from(env!("CARGO_TARGET_TMPDIR")).join(name);
    let _ = fs::remove_dir_all(&folder);
    fs::create_dir_all(&folder).unwrap();
    folder
}

#[test]
fn one_search() {
    let b = b"room 3 1 1\nends 0 2\n";
    assert_eq!(printed(&["search", "-"], b), "route 20 2\npath 0 1 2\n");
    let c = b"room 3 1 1\nends 0 2\nlimit 1\n";
    assert_eq!(printed(&["search", "-"], c), "refused 12 2\n");
}

#[test]
fn one_sheet() {
    let hex = cases::samples::HEX_SHEET;
    let lines = cases::samples::HEX_SHEET_LINES;
    let bytes = cases::text::parse_hex(hex).unwrap();
    assert_eq!(printed(&["sheet", "--hex", "-"], hex.as_bytes()), lines);
    assert_eq!(printed(&["sheet", "-"], &bytes), lines);
    assert_eq!(printed(&["sheet", "--branch", "10", "-"], &bytes), lines);
    assert_eq!(
        printed(&["sheet", "--branch", "9", "-"], &bytes),
        "refused 15 1\n"
    );
    assert_eq!(
        printed(&["sheet", "--lent", "9", "-"], &bytes),
        "refused 6 0\n"
    );
    assert_eq!(printed(&["sheet", "-"], b""), "refused 1 0\n");
    let large = cases::samples::default_job([64, 4, 64], &[]).bytes();
    assert_eq!(printed(&["sheet", "-"], &large), "refused 2 0\n");
    let library = ["sheet", "--queue", "1", "-"];
    assert_eq!(printed(&library, &large), "net 0 1\nrepeaters\n");
}

#[test]
fn samples_run() {
    assert!(printed(&["samples"], b"").contains("sample the hex sheet\nnet 1 10\n"));
}

#[test]
fn smallest_inputs_are_shown() {
    let opposed = printed(&["smallest", "opposed"], b"");
    assert!(opposed.starts_with("opposed: "), "{opposed}");
    assert!(opposed.contains("\ncells 12\n") && opposed.contains("\nrepeaters 4\n"));
    let above = printed(&["smallest", "one-above-another"], b"");
    assert!(
        above.contains("\nwalked 3 cells, 30366 inputs: none\n"),
        "{above}"
    );
    let kept = printed(&["smallest", "keepout-of-lists"], b"");
    assert!(kept.contains("\notherwise refused 14 2\n"), "{kept}");
    assert!(refused(&["smallest", "largest"], b"").contains("no such point: largest"));
}

#[test]
fn lists_are_made_answered_shown_and_checked() {
    let folder = folder("lists");
    for (kind, counted) in [
        ("searches", "searches"),
        ("sheets", "sheets"),
        ("limit-sheets", "sheets"),
        ("strict-sheets", "strict-sheets"),
        ("whys", "whys"),
        ("tree-whys", "tree-whys"),
        ("functions", "functions"),
        ("drawings", "drawings"),
        ("repeaters", "plans"),
        ("writes", "writes"),
        ("nets", "lists"),
    ] {
        let bare = folder.join(kind).display().to_string();
        let answered = format!("{bare}.answered");
        let draw = ["--seed", "4", "--count", "30", "--profile", "tiny"];
        let generate = [&["generate", kind, "--out", &bare], draw.as_slice()].concat();
        printed(&generate, b"");
        printed(&["answer", kind, &bare, &answered], b"");
        assert_eq!(
            printed(&["check", kind, &answered], b""),
            "30 answers agree\n"
        );
        let shown = printed(&["show", kind, &answered, "29"], b"");
        assert!(shown.starts_with("# case 29\n"), "{shown}");
        assert_eq!(
            printed(&["show", kind, &answered], b"")
                .matches("# case ")
                .count(),
            30
        );
        let stats = printed(&["stats", kind, &answered], b"");
        assert!(stats.contains(&format!("30  {counted}\n")), "{stats}");
        let compared = printed(&[["compare", kind].as_slice(), &draw].concat(), b"");
        assert_eq!(compared, format!("30 cases agree\n{stats}"));
        // Nothing is overwritten unless that is asked for.
        assert!(refused(&generate, b"").contains("exists; --force overwrites it"));
        assert!(refused(&["answer", kind, &bare, &answered], b"").contains("exists"));
        let before = fs::read(&answered).unwrap();
        printed(&["answer", kind, &bare, &answered, "--force"], b"");
        assert_eq!(fs::read(&answered).unwrap(), before);
        assert!(refused(&["check", kind, &bare], b"").contains("have no answers"));
        assert!(refused(&["show", kind, &bare, "30"], b"").contains("no case 30"));
    }
}

#[test]
fn lists_can_begin_with_the_examples() {
    let folder = folder("examples");
    for (kind, first) in [("searches", "room 1 1 1\n"), ("sheets", "room 20 1 1\n")] {
        let file = folder.join(kind).display().to_string();
        let draw = ["--seed", "4", "--count", "2", "--examples"];
        printed(
            &[&["generate", kind, "--out", &file], draw.as_slice()].concat(),
            b"",
        );
        let shown = printed(&["show", kind, &file], b"");
        assert!(shown.contains("# case 40\n"), "{shown}");
        let case = printed(&["show", kind, &file, "0"], b"");
        assert!(case.contains(first), "{case}");
    }
}

#[test]
fn a_shown_search_can_be_run() {
    let folder = folder("shown");
    let file = folder.join("searches").display().to_string();
    let search = cases::samples::default_search([3, 2, 1], 1, 5, &[]);
    let answer = search.plain_answer();
    fs::write(&file, cases::files::write_answered(&[(search, answer)])).unwrap();
    let shown = printed(&["show", "searches", &file, "0"], b"");
    assert!(shown.ends_with("# route 50 4\n# path 1 3 5\n"), "{shown}");
    let lines = "route 50 4\npath 1 3 5\n";
    assert_eq!(printed(&["search", "-"], shown.as_bytes()), lines);
    assert_eq!(printed(&["search", &file], b""), lines);
}

#[test]
fn a_wrong_stored_answer_is_found() {
    let folder = folder("wrong");
    let file = folder.join("searches").display().to_string();
    let search = cases::samples::default_search([3, 1, 1], 0, 2, &[]);
    let answer = cases::samples::route(&[0, 1, 2], 21, 2);
    fs::write(&file, cases::files::write_answered(&[(search, answer)])).unwrap();
    let output = oracle(&["check", "searches", &file], b"");
    assert_eq!(output.status.code(), Some(1));
    let message = String::from_utf8_lossy(&output.stderr).into_owned();
    assert!(message.contains("stored:\nroute 21 2\n"), "{message}");
}

#[test]
fn bad_input_gets_a_message() {
    let folder = folder("bad");
    let noise = folder.join("noise").display().to_string();
    fs::write(&noise, [0xff, 0, 1]).unwrap();
    let missing = folder.join("missing").display().to_string();
    let draw = ["--seed", "1", "--count", "1"];
    let cases: [(&[&str], &str); 22] = [
        (&[], "a command is missing"),
        (&["dance"], "unknown command dance"),
        (&["search"], "FILE is missing"),
        (&["search", &missing], "missing: "),
        (&["search", &noise], "neither a text nor a file of searches"),
        (&["search", "-"], "no line `room X Y Z`"),
        (&["search", "-", "-"], "- has no place here"),
        (&["sheet", "--hex", &noise], "not a text"),
        (&["sheet", "--queue", "-"], "--queue: not a number"),
        (&["show", "sheets", &noise, "x"], "not a number"),
        (&["sheet", "--queue"], "--queue needs a value"),
        (&["sheet", "--size", "-"], "unknown option --size"),
        (&["sheet", "--seed", "1", "-"], "--seed has no place here"),
        (&["sheet", "--hex", "--hex", "-"], "--hex is given twice"),
        (
            &["answer", "rooms", "a", "b"],
            "none of `searches`, `sheets`, `limit-sheets`, `strict-sheets`, `whys`, `tree-whys`, `functions`, `drawings`, `repeaters`, `writes`, `nets`: rooms",
        ),
        (&["answer", "searches", &noise], "OUT is missing"),
        (
            &["answer", "searches", &noise, &missing],
            "the file is cut short",
        ),
        (&["show", "sheets", &noise], "the file is cut short"),
        (&["stats", "sheets", "-"], "the file is cut short"),
        (&["generate", "sheets", "--seed", "1"], "--count is missing"),
        (
            &["compare", "sheets", "--seed", "-1", "--count", "1"],
            "--seed",
        ),
        (&["samples", "a"], "a has no place here"),
    ];
    for (words, message) in cases {
        let found = refused(words, b"");
        assert!(found.contains(message), "{words:?}: {found}");
    }
    let profile = [["compare", "sheets", "--profile", "wide"].as_slice(), &draw].concat();
    assert!(refused(&profile, b"").contains("no such profile: wide"));
}
