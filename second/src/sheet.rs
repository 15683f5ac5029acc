//! Writing and reading test sheets.

use crate::bits;
use crate::labels::MOST_THRESHOLD;
use crate::points::{Set, MOST_POINTS};
use crate::refusals::refuse_if;
use crate::search::{Ask, MOST_WIDTH};

/// A sheet has at most this many asks.
pub const MOST_ASKS: usize = 127;
/// A coordinate has at most this many bits.
pub const MOST_COORDINATE_WIDTH: usize = 8;
/// The length of the largest sheet.
pub const MOST_BYTES: usize = 16_895;

/// The bits of points, coordinates, coordinate width and asks.
const HEADER_BITS: usize = 24;
/// The bytes that these bits fill.
const HEADER_BYTES: usize = 3;
/// The bits of an ask's four numbers.
const NUMBERS_BITS: usize = 36;

/// What the head of a sheet says.
#[derive(Clone, Copy, Debug, PartialEq, Eq)]
pub struct Header {
    /// The number of points.
    pub n: usize,
    /// The number of coordinates.
    pub d: usize,
    /// The number of bits of each coordinate.
    pub c: usize,
    /// The number of asks.
    pub asks: usize,
}

impl Header {
    /// The bits of one point or query.
    fn point_bits(self) -> usize {
        self.d * self.c
    }

    /// The bits of one ask.
    fn ask_bits(self) -> usize {
        NUMBERS_BITS + self.point_bits()
    }

    /// The bit at which an ask begins. The one past the last ask is where the
    /// filling begins.
    fn ask_at(self, ask: usize) -> usize {
        HEADER_BITS + self.n * self.point_bits() + ask * self.ask_bits()
    }

    /// The sheet's bits without the filling.
    fn bits(self) -> usize {
        self.ask_at(self.asks)
    }

    /// The sheet's length in bytes.
    fn bytes(self) -> usize {
        self.bits().div_ceil(8)
    }
}

/// Writes a sheet and returns its length. Bytes of `out` past it keep what
/// they held.
///
/// `numbers` holds start, width, k and threshold of each ask, `queries` the
/// queries, ask after ask.
///
/// Refusals in order: 1, 2, 11, 12, 3, 5; ask by ask 6, 7, 8, 9; 13, 14.
pub fn write(
    set: Set<'_>,
    c: usize,
    asks: usize,
    numbers: &[u16],
    queries: &[i8],
    out: &mut [u8],
) -> Result<usize, u8> {
    set.check_counts()?;
    refuse_if(c == 0 || c > MOST_COORDINATE_WIDTH, 11)?;
    refuse_if(asks > MOST_ASKS, 12)?;
    refuse_if(numbers.len() != 4 * asks, 12)?;
    set.check_vectors()?;
    refuse_if(queries.len() != asks * set.d, 5)?;
    let written: Vec<Ask> = numbers
        .chunks_exact(4)
        .map(|ask| Ask {
            start: ask[0],
            width: ask[1],
            k: ask[2],
            threshold: ask[3],
        })
        .collect();
    for ask in &written {
        // Not the search's checks: an ask that the search refuses may be
        // written, as long as its numbers fit their fields.
        refuse_if(usize::from(ask.start) >= MOST_POINTS, 6)?;
        refuse_if(ask.width == 0 || ask.width > MOST_WIDTH, 7)?;
        refuse_if(ask.k == 0 || ask.k > MOST_WIDTH, 8)?;
        refuse_if(ask.threshold > MOST_THRESHOLD, 9)?;
    }
    let mut values = set.vectors.iter().chain(queries);
    refuse_if(!values.all(|&value| bits::fits(value, c)), 13)?;
    let header = Header {
        n: set.n,
        d: set.d,
        c,
        asks,
    };
    refuse_if(out.len() < header.bytes(), 14)?;

    let mut sheet = Vec::with_capacity(header.bits());
    bits::append(&mut sheet, set.n as u32 - 1, 7);
    bits::append(&mut sheet, set.d as u32 - 1, 6);
    bits::append(&mut sheet, c as u32 - 1, 3);
    bits::append(&mut sheet, asks as u32, 8);
    for &value in set.vectors {
        bits::append_signed(&mut sheet, value, c);
    }
    for (ask, query) in written.iter().zip(queries.chunks_exact(set.d)) {
        bits::append(&mut sheet, u32::from(ask.start), 7);
        bits::append(&mut sheet, u32::from(ask.width) - 1, 7);
        bits::append(&mut sheet, u32::from(ask.k) - 1, 7);
        bits::append(&mut sheet, u32::from(ask.threshold), 15);
        for &value in query {
            bits::append_signed(&mut sheet, value, c);
        }
    }
    let packed = bits::pack(&sheet);
    out[..packed.len()].copy_from_slice(&packed);
    Ok(packed.len())
}

/// Reads n, d, c and the number of asks, of a sheet that is right as a whole.
///
/// Refusals in order: 15 for under 3 bytes, 12, 15, 16 for length, 16 for
/// filling.
pub fn read_header(sheet: &[u8]) -> Result<Header, u8> {
    refuse_if(sheet.len() < HEADER_BYTES, 15)?;
    let mut head = bits::cut(sheet, 0, HEADER_BITS);
    let header = Header {
        n: bits::take(&mut head, 7) as usize + 1,
        d: bits::take(&mut head, 6) as usize + 1,
        c: bits::take(&mut head, 3) as usize + 1,
        asks: bits::take(&mut head, 8) as usize,
    };
    refuse_if(header.asks > MOST_ASKS, 12)?;
    refuse_if(sheet.len() < header.bytes(), 15)?;
    refuse_if(sheet.len() > header.bytes(), 16)?;
    let filling = 8 * header.bytes() - header.bits();
    refuse_if(bits::cut(sheet, header.bits(), filling).any(|bit| bit), 16)?;
    Ok(header)
}

/// Reads the vectors into a lent buffer of n × d.
///
/// Refusals in order: those of [`read_header`], then 3.
pub fn read_vectors(sheet: &[u8], vectors: &mut [i8]) -> Result<(), u8> {
    let header = read_header(sheet)?;
    refuse_if(vectors.len() != header.n * header.d, 3)?;
    let mut field = bits::cut(sheet, HEADER_BITS, header.n * header.point_bits());
    for value in vectors {
        *value = bits::take_signed(&mut field, header.c);
    }
    Ok(())
}

/// Reads one ask: its four numbers, and its query into a lent buffer of d.
///
/// Refusals in order: those of [`read_header`], then 17, 5.
pub fn read_ask(sheet: &[u8], ask: u16, query: &mut [i8]) -> Result<Ask, u8> {
    let header = read_header(sheet)?;
    refuse_if(usize::from(ask) >= header.asks, 17)?;
    refuse_if(query.len() != header.d, 5)?;
    let mut field = bits::cut(sheet, header.ask_at(usize::from(ask)), header.ask_bits());
    let numbers = Ask {
        start: bits::take(&mut field, 7) as u16,
        width: bits::take(&mut field, 7) as u16 + 1,
        k: bits::take(&mut field, 7) as u16 + 1,
        threshold: bits::take(&mut field, 15) as u16,
    };
    for value in query {
        *value = bits::take_signed(&mut field, header.c);
    }
    Ok(numbers)
}
