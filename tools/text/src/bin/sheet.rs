//! Text to sheet and back.

use std::process::ExitCode;

use text::command::{finish, put, read_sheet, read_text, Failure};
use text::content::Content;
use text::text::{parse, print};

const NAME: &str = "tools/sheet";
const USAGE: &str = "\
usage: tools/sheet write TEXT [SHEET]   make a sheet of a text
       tools/sheet read SHEET           print the text of a sheet

Without SHEET, write gives the sheet on standard output. TEXT, or SHEET for
read, may be - for standard input. The text has one thing a line, in any order:

  width C              coordinate width, 1 to 8 bits; left out: the least that fits
  point X Y ...        one point; ids count from 0 in the order of the points
  points FILE.csv      points of a file beside the text, one point a line
  ask start S width W k K threshold M query X Y ...
  # comment            also behind a line; empty lines say nothing

Coordinates have spaces or commas between them. An ask that the search refuses
is written as it stands, as long as the sheet has room for its numbers.

Exit status: 0, 1 if a file or what it holds is wrong, 2 for a wrong command
line.
";

fn main() -> ExitCode {
    let arguments: Vec<String> = std::env::args_os()
        .skip(1)
        .map(|argument| argument.to_string_lossy().into_owned())
        .collect();
    let words: Vec<&str> = arguments.iter().map(String::as_str).collect();
    finish(NAME, USAGE, answer(&words))
}

fn answer(words: &[&str]) -> Result<(), Failure> {
    match *words {
        ["write", text] => put(None, &write(text)?),
        // The sheet is only touched once the text is known to be right.
        ["write", text, sheet] => put(Some(sheet), &write(text)?),
        ["read", sheet] => put(None, read(sheet)?.as_bytes()),
        ["--help" | "-h" | "help"] => put(None, USAGE.as_bytes()),
        [] => Err(Failure::Usage("no command".to_string())),
        [command @ ("write" | "read"), ..] => Err(Failure::Usage(format!(
            "wrong number of arguments for {command}"
        ))),
        [command, ..] => Err(Failure::Usage(format!("no command named {command}"))),
    }
}

fn write(name: &str) -> Result<Vec<u8>, Failure> {
    let text = read_text(name).map_err(Failure::Input)?;
    let content = parse(name, &text).map_err(Failure::Input)?;
    content
        .to_sheet()
        .map_err(|number| Failure::Input(format!("{name}: the writer gives refused {number}")))
}

fn read(name: &str) -> Result<String, Failure> {
    match Content::from_sheet(&read_sheet(name)?) {
        Ok(content) => Ok(print(&content)),
        Err(refusal) => Err(Failure::Input(format!("{name}: {refusal}"))),
    }
}
