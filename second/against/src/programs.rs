//! What the program prints.
use crate::difference::same_lines;
use crate::Tally;
use second::generate;
use std::io::Write;
use std::process::{Command, Stdio};

pub fn compare(path: &str, first: u64, many: u64, done: &mut Tally) {
    for seed in first..first + many {
        let sheet = generate::sheet(seed);
        same_lines(&sheet, &run(path, &sheet), &second::lines::print(&sheet));
        done.printed += 1;
    }
    let long = vec![0u8; 70_000];
    same_lines(&long[..3], &run(path, &long), &second::lines::print(&long));
    done.printed += 1;
}

fn run(path: &str, sheet: &[u8]) -> Vec<u8> {
    let mut child = Command::new(path)
        .stdin(Stdio::piped())
        .stdout(Stdio::piped())
        .spawn()
        .unwrap_or_else(|e| panic!("{path} does not start: {e}"));
    let mut input = child.stdin.take().expect("its input is a pipe");
    let sheet = sheet.to_vec();
    let writer = std::thread::spawn(move || {
        // the program may stop reading early, so a broken pipe is no fault
        let _ = input.write_all(&sheet);
    });
    let output = child.wait_with_output().expect("the program ends");
    let _ = writer.join();
    output.stdout
}
