//! How a difference is shown.
use std::fmt::Debug;
use std::process::exit;

/// Ends the run where the two sides differ, with what both say.
pub fn same<T: PartialEq + Debug>(what: &str, seed: u64, ours: &T, theirs: &T) {
    if ours != theirs {
        println!("DIFFERENCE in {what}, seed {seed}\n  library: {ours:?}\n  second:  {theirs:?}");
        exit(1);
    }
}

/// The same for a sheet, which is shown in hexadecimal.
pub fn same_of_sheet<T: PartialEq + Debug>(what: &str, sheet: &[u8], ours: &T, theirs: &T) {
    if ours != theirs {
        println!("DIFFERENCE in {what}\n  sheet:   {}\n  library: {ours:?}\n  second:  {theirs:?}", hex(sheet));
        exit(1);
    }
}

/// The same for printed lines: the first line that differs, and both outputs.
pub fn same_lines(sheet: &[u8], ours: &[u8], theirs: &[u8]) {
    if ours == theirs {
        return;
    }
    let (a, b) = (String::from_utf8_lossy(ours), String::from_utf8_lossy(theirs));
    let at = a.lines().zip(b.lines()).take_while(|(x, y)| x == y).count();
    println!("DIFFERENCE in what is printed, first at line {}", at + 1);
    println!("  program: {:?}\n  second:  {:?}", a.lines().nth(at), b.lines().nth(at));
    println!("sheet: {}\n-- program\n{a}-- second\n{b}", hex(sheet));
    exit(1);
}

pub fn hex(bytes: &[u8]) -> String {
    bytes.iter().map(|b| format!("{b:02X}")).collect::<Vec<_>>().join(" ")
}
