//! Safe wrappers over Magpiehinge's C interface (`include/magpiehinge.h`). Every function takes any input; a refusal is `Err` with its number and
//! changes nothing lent.

mod raw;

/// n points of d coordinates, point after point.
#[derive(Clone, Copy)]
pub struct Set<'a> {
    pub n: usize,
    pub d: usize,
    pub vectors: &'a [i8],
}

/// The four numbers of an ask.
#[derive(Clone, Copy, Debug, PartialEq, Eq)]
pub struct Ask {
    pub start: u16,
    pub width: u16,
    pub k: u16,
    pub threshold: u16,
}

/// How many points a search found, saw and walked.
#[derive(Clone, Copy, Debug, PartialEq, Eq)]
pub struct Counts {
    pub found: usize,
    pub seen: usize,
    pub walked: usize,
}

/// The walk record that the caller keeps.
#[derive(Clone, Copy, Debug, PartialEq, Eq)]
pub struct Record {
    pub current: u16,
    pub moves: u16,
}

/// Where a whole walk ends.
#[derive(Clone, Copy, Debug, PartialEq, Eq)]
pub struct End {
    pub last: u16,
    pub distance: u32,
    pub moves: u16,
}

/// What a sheet's header says.
#[derive(Clone, Copy, Debug, PartialEq, Eq)]
pub struct Header {
    pub n: usize,
    pub d: usize,
    pub c: usize,
    pub asks: usize,
}

fn refused<T>(number: u8, value: T) -> Result<T, u8> {
    if number == 0 {
        Ok(value)
    } else {
        Err(number)
    }
}

/// The coordinates of a point, as that part of the vectors.
pub fn point<'a>(set: Set<'a>, id: usize) -> Result<&'a [i8], u8> {
    let (mut start, mut count) = (0, 0);
    let v = set.vectors;
    let number = unsafe { raw::magpiehinge_point(set.n, set.d, v.as_ptr(), v.len(), id, &mut start, &mut count) };
    refused(number, ())?;
    Ok(&v[start..start + count])
}

/// The squared distance over the coordinates that both have, at most 64.
pub fn distance(a: &[i8], b: &[i8]) -> u32 {
    unsafe { raw::magpiehinge_distance(a.as_ptr(), a.len(), b.as_ptr(), b.len()) }
}

/// The label table, into n × n cells.
pub fn build(set: Set<'_>, table: &mut [u16]) -> Result<(), u8> {
    let v = set.vectors;
    let number = unsafe { raw::magpiehinge_build(set.n, set.d, v.as_ptr(), v.len(), table.as_mut_ptr(), table.len()) };
    refused(number, ())
}

/// A search of the lent table.
pub fn search(
    set: Set<'_>,
    table: &[u16],
    query: &[i8],
    ask: Ask,
    ids: &mut [u16],
    distances: &mut [u32],
    trail: &mut [u16],
) -> Result<Counts, u8> {
    let v = set.vectors;
    let mut counts = Counts {
        found: 0,
        seen: 0,
        walked: 0,
    };
    let number = unsafe {
        raw::magpiehinge_search(
            set.n,
            set.d,
            v.as_ptr(),
            v.len(),
            table.as_ptr(),
            table.len(),
            query.as_ptr(),
            query.len(),
            ask.start,
            ask.threshold,
            ask.width,
            ask.k,
            ids.as_mut_ptr(),
            ids.len(),
            distances.as_mut_ptr(),
            distances.len(),
            trail.as_mut_ptr(),
            trail.len(),
            &mut counts.found,
            &mut counts.seen,
            &mut counts.walked,
        )
    };
    refused(number, counts)
}

/// One greedy step: whether the record moved.
pub fn step(set: Set<'_>, table: &[u16], query: &[i8], threshold: u16, record: &mut Record) -> Result<bool, u8> {
    let v = set.vectors;
    let mut moved = 0;
    let number = unsafe {
        raw::magpiehinge_step(
            set.n,
            set.d,
            v.as_ptr(),
            v.len(),
            table.as_ptr(),
            table.len(),
            query.as_ptr(),
            query.len(),
            threshold,
            &mut record.current,
            &mut record.moves,
            &mut moved,
        )
    };
    refused(number, moved == 1)
}

/// The whole greedy walk from a start.
pub fn walk(set: Set<'_>, table: &[u16], query: &[i8], start: u16, threshold: u16) -> Result<End, u8> {
    let v = set.vectors;
    let mut end = End {
        last: 0,
        distance: 0,
        moves: 0,
    };
    let number = unsafe {
        raw::magpiehinge_walk(
            set.n,
            set.d,
            v.as_ptr(),
            v.len(),
            table.as_ptr(),
            table.len(),
            query.as_ptr(),
            query.len(),
            start,
            threshold,
            &mut end.last,
            &mut end.distance,
            &mut end.moves,
        )
    };
    refused(number, end)
}

/// Writes a sheet: its length.
pub fn write(set: Set<'_>, c: usize, asks: usize, numbers: &[u16], queries: &[i8], output: &mut [u8]) -> Result<usize, u8> {
    let v = set.vectors;
    let mut written = 0;
    let number = unsafe {
        raw::magpiehinge_write(
            set.n,
            set.d,
            c,
            asks,
            v.as_ptr(),
            v.len(),
            numbers.as_ptr(),
            numbers.len(),
            queries.as_ptr(),
            queries.len(),
            output.as_mut_ptr(),
            output.len(),
            &mut written,
        )
    };
    refused(number, written)
}

/// Reads a sheet's header.
pub fn read_header(sheet: &[u8]) -> Result<Header, u8> {
    let mut h = Header { n: 0, d: 0, c: 0, asks: 0 };
    let number = unsafe { raw::magpiehinge_header(sheet.as_ptr(), sheet.len(), &mut h.n, &mut h.d, &mut h.c, &mut h.asks) };
    refused(number, h)
}

/// Reads a sheet's vectors into n × d cells.
pub fn read_vectors(sheet: &[u8], buffer: &mut [i8]) -> Result<(), u8> {
    let number = unsafe { raw::magpiehinge_vectors(sheet.as_ptr(), sheet.len(), buffer.as_mut_ptr(), buffer.len()) };
    refused(number, ())
}

/// Reads one ask, its query into d cells.
pub fn read_ask(sheet: &[u8], number: u16, query: &mut [i8]) -> Result<Ask, u8> {
    let mut a = Ask {
        start: 0,
        width: 0,
        k: 0,
        threshold: 0,
    };
    let refusal = unsafe {
        raw::magpiehinge_ask(
            sheet.as_ptr(),
            sheet.len(),
            number,
            query.as_mut_ptr(),
            query.len(),
            &mut a.start,
            &mut a.width,
            &mut a.k,
            &mut a.threshold,
        )
    };
    refused(refusal, a)
}
