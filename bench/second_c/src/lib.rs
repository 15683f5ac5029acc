//! The second implementation behind C functions, so that one program can time it beside the others.
use second::{labels, lines, search, sheet, Ask, Set};
use std::slice::{from_raw_parts, from_raw_parts_mut};

/// # Safety
/// The pointers are those of n × d coordinates and n × n cells.
#[no_mangle]
pub unsafe extern "C" fn second_build(n: usize, d: usize, vectors: *const i8, table: *mut u16) -> u8 {
    let set = Set { n, d, vectors: from_raw_parts(vectors, n * d) };
    labels::build(set, from_raw_parts_mut(table, n * n)).err().unwrap_or(0)
}

/// # Safety
/// As for `second_build`, with a query of d cells and buffers of 128 cells.
#[no_mangle]
pub unsafe extern "C" fn second_search(
    n: usize,
    d: usize,
    vectors: *const i8,
    table: *const u16,
    query: *const i8,
    width: u16,
    k: u16,
    ids: *mut u16,
    distances: *mut u32,
    trail: *mut u16,
) -> u8 {
    let set = Set { n, d, vectors: from_raw_parts(vectors, n * d) };
    let ask = Ask { start: 0, width, k, threshold: 0 };
    search::search(
        set,
        from_raw_parts(table, n * n),
        from_raw_parts(query, d),
        ask,
        from_raw_parts_mut(ids, 128),
        from_raw_parts_mut(distances, 128),
        from_raw_parts_mut(trail, 128),
    )
    .err()
    .unwrap_or(0)
}

/// # Safety
/// `sheet` has `length` bytes and `vectors` n × d cells for what the sheet holds; `query` has 64 cells.
#[no_mangle]
pub unsafe extern "C" fn second_read(bytes: *const u8, length: usize, vectors: *mut i8, query: *mut i8) -> u8 {
    let bytes = from_raw_parts(bytes, length);
    let Ok(h) = sheet::read_header(bytes) else { return 1 };
    let vectors = from_raw_parts_mut(vectors, h.n * h.d);
    let mut refusal = sheet::read_vectors(bytes, vectors).err().unwrap_or(0);
    for i in 0..h.asks as u16 {
        refusal |= sheet::read_ask(bytes, i, from_raw_parts_mut(query, h.d)).err().unwrap_or(0);
    }
    refusal
}

/// # Safety
/// The lengths are those of a sheet of n points of d coordinates with `asks` asks; `output` has 16,895 bytes.
#[no_mangle]
pub unsafe extern "C" fn second_write(
    n: usize,
    d: usize,
    c: usize,
    asks: usize,
    vectors: *const i8,
    numbers: *const u16,
    queries: *const i8,
    output: *mut u8,
) -> usize {
    let set = Set { n, d, vectors: from_raw_parts(vectors, n * d) };
    let numbers = from_raw_parts(numbers, 4 * asks);
    let queries = from_raw_parts(queries, asks * d);
    sheet::write(set, c, asks, numbers, queries, from_raw_parts_mut(output, 16_895)).unwrap_or(0)
}

/// # Safety
/// `sheet` has `length` bytes.
#[no_mangle]
pub unsafe extern "C" fn second_print(bytes: *const u8, length: usize) -> usize {
    lines::print(from_raw_parts(bytes, length)).len()
}
