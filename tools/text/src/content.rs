//! What one sheet holds, between its bytes and its text.

use second::sheet::{self, MOST_ASKS, MOST_BYTES};
use second::{Ask, Set};

/// A set and its asks.
#[derive(Clone, Debug, PartialEq, Eq)]
pub struct Content {
    /// The number of points.
    pub n: usize,
    /// The number of coordinates of each point and query.
    pub d: usize,
    /// The coordinate width in bits.
    pub c: usize,
    /// The coordinates, point after point.
    pub vectors: Vec<i8>,
    /// The asks, each with its query.
    pub asks: Vec<(Ask, Vec<i8>)>,
}

impl Content {
    /// The set by itself.
    pub fn set(&self) -> Set<'_> {
        Set {
            n: self.n,
            d: self.d,
            vectors: &self.vectors,
        }
    }

    /// The sheet's bytes, or the writer's refusal number.
    pub fn to_sheet(&self) -> Result<Vec<u8>, u8> {
        let numbers: Vec<u16> = self
            .asks
            .iter()
            .flat_map(|(ask, _)| [ask.start, ask.width, ask.k, ask.threshold])
            .collect();
        let queries: Vec<i8> = self.asks.iter().flat_map(|(_, q)| q.clone()).collect();
        let mut bytes = vec![0; MOST_BYTES];
        let asks = self.asks.len();
        let length = sheet::write(self.set(), self.c, asks, &numbers, &queries, &mut bytes)?;
        bytes.truncate(length);
        Ok(bytes)
    }

    /// What a sheet holds, or `refused N` and why.
    pub fn from_sheet(bytes: &[u8]) -> Result<Self, String> {
        Self::read(bytes).map_err(|number| format!("refused {number}: {}", why(bytes, number)))
    }

    fn read(bytes: &[u8]) -> Result<Self, u8> {
        let header = sheet::read_header(bytes)?;
        let mut vectors = vec![0; header.n * header.d];
        sheet::read_vectors(bytes, &mut vectors)?;
        let asks = (0..header.asks as u16)
            .map(|number| {
                let mut query = vec![0; header.d];
                let ask = sheet::read_ask(bytes, number, &mut query)?;
                Ok((ask, query))
            })
            .collect::<Result<_, u8>>()?;
        Ok(Content {
            n: header.n,
            d: header.d,
            c: header.c,
            vectors,
            asks,
        })
    }
}

/// Why a sheet is refused. The three header bytes are taken apart here once
/// more, because a refusal gives its number alone.
fn why(bytes: &[u8], number: u8) -> String {
    let has = counted(bytes.len(), "byte");
    let &[first, second, asks, ..] = bytes else {
        return format!("it has {has}, and the header alone takes 3");
    };
    let n = usize::from(first >> 1) + 1;
    let d = usize::from((first & 1) << 5 | second >> 3) + 1;
    let c = usize::from(second & 7) + 1;
    let requires = (24 + n * d * c + usize::from(asks) * (36 + d * c)).div_ceil(8);
    match number {
        12 => format!("its header says {asks} asks, and at most {MOST_ASKS} are allowed"),
        15 => format!("it has {has}, and its header requires {requires}"),
        _ if bytes.len() > requires => {
            format!("it is longer than the {requires} bytes that its header requires")
        }
        _ => "a filling bit at its end is 1".to_string(),
    }
}

/// `1 point`, `2 points`.
pub fn counted(count: usize, what: &str) -> String {
    format!("{count} {what}{}", if count == 1 { "" } else { "s" })
}

/// What a refusal of an ask by the search, or of its number, means.
pub fn meaning(number: u8) -> &'static str {
    match number {
        6 => "the start is not an id of the set",
        7 => "the width is 0 or over 128",
        8 => "k is 0 or over the width",
        9 => "the threshold is over 32,767",
        17 => "the sheet has no ask of that number",
        _ => "see the list of refusal numbers",
    }
}
