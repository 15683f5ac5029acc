//! The program: prints the lines of one sheet. Further commands make sheets.

use std::ffi::OsString;
use std::fs::File;
use std::io::{self, Read, Write};
use std::process::ExitCode;

use second::sheet::MOST_BYTES;
use second::{examples, generate, lines};

const USAGE: &str = "\
usage: second run [FILE]       print the lines of a sheet
       second generate SEED    write the sheet of a seed, 0 to 2^64 - 1
       second kind SEED        name the kind of sheet that a seed gives
       second example NAME     write an example sheet
       second example          list the names of the examples

Without FILE, or with -, run reads standard input. A sheet that is refused
prints its line and is no failure. Exit status: 0, 1 if something could not be
read or written, 2 for a wrong command line.
";

/// Why the program failed: its own fault or that of the command line.
enum Failure {
    Usage(String),
    File(String),
}

fn main() -> ExitCode {
    let arguments: Vec<OsString> = std::env::args_os().skip(1).collect();
    match answer(&arguments).and_then(|bytes| put(&bytes)) {
        Ok(()) => ExitCode::SUCCESS,
        Err(Failure::File(message)) => {
            eprintln!("second: {message}");
            ExitCode::from(1)
        }
        Err(Failure::Usage(message)) => {
            eprint!("second: {message}\n{USAGE}");
            ExitCode::from(2)
        }
    }
}

/// The bytes that a command line is answered with.
fn answer(arguments: &[OsString]) -> Result<Vec<u8>, Failure> {
    // Only the name of a file may be something else than text, and it is
    // opened as it was given.
    let texts: Vec<_> = arguments.iter().map(|a| a.to_string_lossy()).collect();
    let texts: Vec<&str> = texts.iter().map(|text| text.as_ref()).collect();
    match texts[..] {
        ["run"] | ["run", "-"] => Ok(lines::print(&read(io::stdin(), "standard input")?)),
        ["run", name] => {
            let file = File::open(&arguments[1])
                .map_err(|error| Failure::File(format!("{name}: {error}")))?;
            Ok(lines::print(&read(file, name)?))
        }
        ["generate", seed] => Ok(generate::sheet(number(seed)?)),
        ["kind", seed] => Ok(format!("{}\n", generate::kind(number(seed)?)).into_bytes()),
        ["example"] => Ok(format!("{}\n", examples::NAMES.join("\n")).into_bytes()),
        ["example", name] => {
            examples::sheet(name).ok_or_else(|| Failure::Usage(format!("no example named {name}")))
        }
        ["help"] | ["--help"] | ["-h"] => Ok(USAGE.as_bytes().to_vec()),
        [] => Err(Failure::Usage("no command".to_string())),
        [command @ ("run" | "generate" | "kind" | "example"), ..] => Err(Failure::Usage(format!(
            "wrong number of arguments for {command}"
        ))),
        [command, ..] => Err(Failure::Usage(format!("no command named {command}"))),
    }
}

fn number(seed: &str) -> Result<u64, Failure> {
    seed.parse()
        .map_err(|_| Failure::Usage(format!("not a seed: {seed}")))
}

/// Reads a sheet. One byte past the largest sheet is enough to refuse any
/// longer input, so that even an endless one gets its answer.
fn read(input: impl Read, name: &str) -> Result<Vec<u8>, Failure> {
    let mut sheet = Vec::new();
    input
        .take(MOST_BYTES as u64 + 1)
        .read_to_end(&mut sheet)
        .map_err(|error| Failure::File(format!("{name}: {error}")))?;
    Ok(sheet)
}

fn put(bytes: &[u8]) -> Result<(), Failure> {
    let mut output = io::stdout().lock();
    output
        .write_all(bytes)
        .and_then(|()| output.flush())
        .map_err(|error| Failure::File(format!("standard output: {error}")))
}
