//! The command line.

use std::io::Write;
use std::process::{Command, Output, Stdio};

const DOCUMENT: &[u8] = b"set 3 1 3\n\
    ask 0 found 1 seen 3 walked 2\nnear 1 1\ntrail 0 1\n\
    ask 1 found 2 seen 3 walked 3\nnear 1 1 2 1\ntrail 0 1 2\n\
    ask 2 refused 6\n";

fn second(arguments: &[&str], input: &[u8]) -> Output {
    let mut child = Command::new(env!("CARGO_BIN_EXE_second"))
        .args(arguments)
        .stdin(Stdio::piped())
        .stdout(Stdio::piped())
        .stderr(Stdio::piped())
        .spawn()
        .unwrap();
    // The program may stop reading before the end of a long input.
    let _ = child.stdin.take().unwrap().write_all(input);
    child.wait_with_output().unwrap()
}

fn answer(arguments: &[&str], input: &[u8]) -> Vec<u8> {
    let output = second(arguments, input);
    assert_eq!(output.status.code(), Some(0));
    assert_eq!(output.stderr, b"");
    output.stdout
}

#[test]
fn runs_a_file_or_standard_input() {
    let sheet = answer(&["example", "document"], b"");
    assert_eq!(sheet.len(), 20);
    assert_eq!(answer(&["run"], &sheet), DOCUMENT);
    assert_eq!(answer(&["run", "-"], &sheet), DOCUMENT);
    let file = concat!(env!("CARGO_MANIFEST_DIR"), "/../examples/document.sheet");
    assert_eq!(answer(&["run", file], b""), DOCUMENT);
}

#[test]
fn a_refused_sheet_is_no_failure() {
    assert_eq!(answer(&["run"], b""), b"refused 15\n");
    assert_eq!(answer(&["run"], &[0, 0, 128]), b"refused 12\n");
}

#[test]
fn a_very_long_input_is_refused_as_too_long() {
    assert_eq!(answer(&["run"], &vec![0; 1_000_000]), b"refused 16\n");
    assert_eq!(answer(&["run"], &vec![255; 1_000_000]), b"refused 12\n");
    // The largest head, so the largest sheet, and one byte more.
    let mut longest = vec![255, 255, 127];
    longest.resize(16_895, 0);
    assert!(answer(&["run"], &longest).starts_with(b"set 128 64 127\n"));
    longest.push(0);
    assert_eq!(answer(&["run"], &longest), b"refused 16\n");
}

#[test]
fn generates() {
    for seed in [0, 5, 23, u64::MAX] {
        let text = seed.to_string();
        let sheet = second::generate::sheet(seed);
        assert_eq!(answer(&["generate", &text], b""), sheet);
        let kind = format!("{}\n", second::generate::kind(seed));
        assert_eq!(answer(&["kind", &text], b""), kind.as_bytes());
    }
}

#[test]
fn lists_examples_and_gives_help() {
    let names = String::from_utf8(answer(&["example"], b"")).unwrap();
    assert!(names.lines().eq(second::examples::NAMES));
    let help = String::from_utf8(answer(&["--help"], b"")).unwrap();
    assert!(help.starts_with("usage: second run"));
}

#[test]
fn wrong_usage_exits_with_2() {
    let wrong: [&[&str]; 9] = [
        &[],
        &["walk"],
        &["run", "a", "b"],
        &["generate"],
        &["generate", "-1"],
        &["generate", "18446744073709551616"],
        &["kind", "x"],
        &["example", "no such example"],
        &["example", "document", "ties"],
    ];
    for arguments in wrong {
        let output = second(arguments, b"");
        assert_eq!(output.status.code(), Some(2), "{arguments:?}");
        assert_eq!(output.stdout, b"");
        let message = String::from_utf8(output.stderr).unwrap();
        assert!(message.starts_with("second: ") && message.contains("usage:"));
    }
}

#[test]
fn a_missing_file_exits_with_1() {
    let output = second(&["run", "no such file"], b"");
    assert_eq!(output.status.code(), Some(1));
    assert_eq!(output.stdout, b"");
    assert!(String::from_utf8(output.stderr)
        .unwrap()
        .starts_with("second: no such file: "));
}
