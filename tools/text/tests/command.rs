//! The two commands as they are called.

use std::path::{Path, PathBuf};
use std::process::{Command, Output};

const SHEET: &str = env!("CARGO_BIN_EXE_sheet");
const PICTURE: &str = env!("CARGO_BIN_EXE_picture");

fn example(name: &str) -> String {
    format!("{}/../../examples/{name}.sheet", env!("CARGO_MANIFEST_DIR"))
}

fn run(program: &str, folder: &Path, words: &[&str]) -> Output {
    Command::new(program)
        .args(words)
        .current_dir(folder)
        .output()
        .unwrap()
}

/// The exit status and what was said on standard error.
fn failure(output: &Output) -> (i32, String) {
    assert!(output.stdout.is_empty());
    let said = String::from_utf8(output.stderr.clone()).unwrap();
    (output.status.code().unwrap(), said)
}

/// A new empty folder for one test.
fn folder(name: &str) -> PathBuf {
    let folder = Path::new(env!("CARGO_TARGET_TMPDIR")).join(name);
    let _ = std::fs::remove_dir_all(&folder);
    std::fs::create_dir_all(&folder).unwrap();
    folder
}

#[test]
fn points_of_a_file_beside_the_text() {
    let top = folder("csv");
    let inner = top.join("inner");
    std::fs::create_dir(&inner).unwrap();
    std::fs::write(inner.join("grid.csv"), "\u{feff}0,0\r\n5, 0\r\n\r\n4,3\r\n").unwrap();
    std::fs::write(inner.join("a.txt"), "points grid.csv\npoint 1 1\n").unwrap();
    let output = run(SHEET, &top, &["write", "inner/a.txt", "a.sheet"]);
    assert!(output.status.success() && output.stdout.is_empty());
    let text = run(SHEET, &top, &["read", "a.sheet"]).stdout;
    let expected = "# 4 points of 2 coordinates, 0 asks\nwidth 4\npoint 0 0\npoint 5 0\npoint 4 3\npoint 1 1\n";
    assert_eq!(String::from_utf8(text).unwrap(), expected);

    std::fs::write(inner.join("grid.csv"), "0,0\n5,x\n").unwrap();
    let (status, said) = failure(&run(SHEET, &top, &["write", "inner/a.txt", "a.sheet"]));
    assert_eq!(status, 1);
    assert_eq!(
        said,
        "tools/sheet: inner/grid.csv:2: 'x' is not a whole number\n"
    );
    // The sheet of before is still there.
    assert!(run(SHEET, &top, &["read", "a.sheet"]).status.success());

    std::fs::remove_file(inner.join("grid.csv")).unwrap();
    let (status, said) = failure(&run(SHEET, &top, &["write", "inner/a.txt"]));
    assert_eq!(status, 1);
    assert!(
        said.starts_with("tools/sheet: inner/a.txt:1: cannot read the points of inner/grid.csv: ")
    );
}

#[test]
fn text_to_standard_output_is_the_sheet() {
    let top = folder("output");
    let bytes = std::fs::read(example("document")).unwrap();
    let text = run(SHEET, &top, &["read", &example("document")]).stdout;
    std::fs::write(top.join("a.txt"), text).unwrap();
    assert_eq!(run(SHEET, &top, &["write", "a.txt"]).stdout, bytes);
}

#[test]
fn refused_sheets_and_wrong_command_lines() {
    let top = folder("refused");
    let damaged = example("damaged-short");
    for program in [SHEET, PICTURE] {
        let words: &[&str] = match program {
            SHEET => &["read", &damaged],
            _ => &[&damaged],
        };
        let (status, said) = failure(&run(program, &top, words));
        assert_eq!(status, 1);
        assert!(said.ends_with(": refused 15: it has 19 bytes, and its header requires 20\n"));
        assert_eq!(said.lines().count(), 1);
        assert!(run(program, &top, &["--help"]).status.success());
        assert_eq!(failure(&run(program, &top, &[])).0, 2);
    }
    for words in [
        &["read"][..],
        &["write"],
        &["wrote", "a"],
        &["read", "a", "b"],
    ] {
        assert_eq!(failure(&run(SHEET, &top, words)).0, 2, "{words:?}");
    }
    assert_eq!(failure(&run(SHEET, &top, &["read", "none"])).0, 1);
    std::fs::write(top.join("bytes"), [0xff, 0xfe]).unwrap();
    let (status, said) = failure(&run(SHEET, &top, &["write", "bytes"]));
    assert_eq!(
        (status, said.as_str()),
        (1, "tools/sheet: bytes: it is not plain text\n")
    );
}

#[test]
fn pictures_that_cannot_be_drawn() {
    let top = folder("picture");
    let ties = example("ties");
    for (words, status, end) in [
        (
            &[&example("document")[..]][..],
            1,
            ": a picture needs points of 2 coordinates, and these have 1\n",
        ),
        (
            &[&ties, "--ask", "4"],
            1,
            ": ask 4: refused 17: the sheet has no ask of that number\n",
        ),
        (
            &[&ties, "--threshold", "32768"],
            1,
            ": --threshold: refused 9: the threshold is over 32,767\n",
        ),
    ] {
        let (code, said) = failure(&run(PICTURE, &top, words));
        assert_eq!(code, status);
        assert!(said.ends_with(end), "{said}");
    }
    for words in [
        &[&ties[..], "--ask"][..],
        &[&ties, "--ask", "x"],
        &[&ties, "--ask", "0", "--ask", "1"],
        &[&ties, &ties],
        &[&ties, "--colour", "1"],
    ] {
        assert_eq!(failure(&run(PICTURE, &top, words)).0, 2, "{words:?}");
    }
    std::fs::write(
        top.join("bad.txt"),
        "point 0 0\npoint 1 0\nask start 2 width 1 k 1 threshold 0 query 0 0\nask start 0 width 1 k 2 threshold 0 query 0 0\n",
    )
    .unwrap();
    assert!(run(SHEET, &top, &["write", "bad.txt", "bad.sheet"])
        .status
        .success());
    for (ask, end) in [
        ("0", "refused 6: the start is not an id of the set\n"),
        ("1", "refused 8: k is 0 or over the width\n"),
    ] {
        let (status, said) = failure(&run(PICTURE, &top, &["bad.sheet", "--ask", ask]));
        assert_eq!(status, 1);
        assert_eq!(said, format!("tools/picture: bad.sheet: ask {ask}: {end}"));
    }
}
