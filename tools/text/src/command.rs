//! What both commands share: how they fail, read and write.

use std::fs::File;
use std::io::{self, Read, Write};
use std::process::ExitCode;

use second::sheet::MOST_BYTES;

/// Far more than the text of the largest sheet takes, so that an endless input
/// gets its answer too.
const MOST_TEXT: usize = 1 << 24;

/// Why a command failed.
#[derive(Debug)]
pub enum Failure {
    /// The command line is wrong: exit status 2.
    Usage(String),
    /// A file or what it holds is wrong: exit status 1.
    Input(String),
}

/// Runs a command's answer and gives its exit status.
pub fn finish(name: &str, usage: &str, answer: Result<(), Failure>) -> ExitCode {
    match answer {
        Ok(()) => ExitCode::SUCCESS,
        Err(Failure::Input(message)) => {
            eprintln!("{name}: {message}");
            ExitCode::from(1)
        }
        Err(Failure::Usage(message)) => {
            eprint!("{name}: {message}\n{usage}");
            ExitCode::from(2)
        }
    }
}

/// Reads a sheet. One byte past the largest is enough to refuse any longer one.
pub fn read_sheet(name: &str) -> Result<Vec<u8>, Failure> {
    read(name, MOST_BYTES + 1).map_err(Failure::Input)
}

/// Reads a text file.
pub fn read_text(name: &str) -> Result<String, String> {
    let bytes = read(name, MOST_TEXT + 1)?;
    if bytes.len() > MOST_TEXT {
        return Err(format!("{name}: it is too long for the text of a sheet"));
    }
    let text = String::from_utf8(bytes).map_err(|_| format!("{name}: it is not plain text"))?;
    // Spreadsheets put this mark before the first number.
    Ok(text.trim_start_matches('\u{feff}').to_string())
}

/// Reads a file, or standard input for `-`, up to a length.
fn read(name: &str, most: usize) -> Result<Vec<u8>, String> {
    let mut bytes = Vec::new();
    let result = if name == "-" {
        io::stdin().take(most as u64).read_to_end(&mut bytes)
    } else {
        File::open(name).and_then(|file| file.take(most as u64).read_to_end(&mut bytes))
    };
    result.map_err(|error| format!("{name}: {error}"))?;
    Ok(bytes)
}

/// Writes to a file, or to standard output if there is no name.
pub fn put(name: Option<&str>, bytes: &[u8]) -> Result<(), Failure> {
    let result = match name {
        Some(name) => std::fs::write(name, bytes),
        None => {
            let mut output = io::stdout().lock();
            output.write_all(bytes).and_then(|()| output.flush())
        }
    };
    let name = name.unwrap_or("standard output");
    result.map_err(|error| Failure::Input(format!("{name}: {error}")))
}
