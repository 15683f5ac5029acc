//! The lines that the program prints for one sheet.

use crate::labels::build;
use crate::points::Set;
use crate::search::{search, Ask, Counts};
use crate::sheet::{read_ask, read_header, read_vectors, Header};

const SET: &[u8] = b"set";
const ASK: &[u8] = b"ask";
const FOUND: &[u8] = b"found";
const SEEN: &[u8] = b"seen";
const WALKED: &[u8] = b"walked";
const NEAR: &[u8] = b"near";
const TRAIL: &[u8] = b"trail";
const REFUSED: &[u8] = b"refused";

/// Everything that the program prints for the bytes of one sheet.
pub fn print(sheet: &[u8]) -> Vec<u8> {
    let mut lines = Lines::default();
    if let Err(number) = print_sheet(sheet, &mut lines) {
        // Nothing can be refused once the first line stands, so this line is
        // alone.
        lines.word(REFUSED).number(number).end();
    }
    lines.bytes
}

/// Prints a sheet that can be read, or gives its refusal before any line.
fn print_sheet(sheet: &[u8], lines: &mut Lines) -> Result<(), u8> {
    let Header { n, d, asks, .. } = read_header(sheet)?;
    let mut vectors = vec![0; n * d];
    read_vectors(sheet, &mut vectors)?;
    let set = Set {
        n,
        d,
        vectors: &vectors,
    };
    let mut table = vec![0; n * n];
    build(set, &mut table)?;

    lines.word(SET).number(n as u32).number(d as u32);
    lines.number(asks as u32).end();
    let mut query = vec![0; d];
    for number in 0..asks as u16 {
        let ask = read_ask(sheet, number, &mut query)?;
        lines.word(ASK).number(number);
        print_search(set, &table, &query, ask, lines);
    }
    Ok(())
}

/// Prints the rest of an ask's line and, if the search is not refused, its
/// other two lines.
fn print_search(set: Set<'_>, table: &[u16], query: &[i8], ask: Ask, lines: &mut Lines) {
    let mut ids = vec![0; usize::from(ask.k)];
    let mut distances = vec![0; usize::from(ask.k)];
    let mut trail = vec![0; set.n];
    match search(set, table, query, ask, &mut ids, &mut distances, &mut trail) {
        Err(number) => lines.word(REFUSED).number(number).end(),
        Ok(Counts {
            found,
            seen,
            walked,
        }) => {
            lines.word(FOUND).number(found);
            lines.word(SEEN).number(seen);
            lines.word(WALKED).number(walked).end();
            lines.word(NEAR);
            for (&id, &distance) in ids.iter().zip(&distances).take(usize::from(found)) {
                lines.number(id).number(distance);
            }
            lines.end();
            lines.word(TRAIL);
            for &id in &trail[..usize::from(walked)] {
                lines.number(id);
            }
            lines.end();
        }
    }
}

/// Lines under way: parts with one space between them, newlines after.
#[derive(Default)]
struct Lines {
    bytes: Vec<u8>,
}

impl Lines {
    fn word(&mut self, word: &[u8]) -> &mut Self {
        if !matches!(self.bytes.last(), None | Some(b'\n')) {
            self.bytes.push(b' ');
        }
        self.bytes.extend_from_slice(word);
        self
    }

    fn number(&mut self, number: impl Into<u32>) -> &mut Self {
        self.word(number.into().to_string().as_bytes())
    }

    fn end(&mut self) {
        self.bytes.push(b'\n');
    }
}
