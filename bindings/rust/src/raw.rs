//! The C functions of `include/magpiehinge.h`. Nothing checks these against the archive, so they stay next to the header, line by line.

extern "C" {
    pub fn magpiehinge_point(
        n: usize,
        d: usize,
        vectors: *const i8,
        vectors_len: usize,
        id: usize,
        start: *mut usize,
        count: *mut usize,
    ) -> u8;

    pub fn magpiehinge_distance(a: *const i8, a_len: usize, b: *const i8, b_len: usize) -> u32;

    pub fn magpiehinge_build(n: usize, d: usize, vectors: *const i8, vectors_len: usize, table: *mut u16, table_len: usize) -> u8;

    pub fn magpiehinge_search(
        n: usize,
        d: usize,
        vectors: *const i8,
        vectors_len: usize,
        table: *const u16,
        table_len: usize,
        query: *const i8,
        query_len: usize,
        start: u16,
        threshold: u16,
        width: u16,
        k: u16,
        ids: *mut u16,
        ids_len: usize,
        distances: *mut u32,
        distances_len: usize,
        trail: *mut u16,
        trail_len: usize,
        found: *mut usize,
        seen: *mut usize,
        walked: *mut usize,
    ) -> u8;

    pub fn magpiehinge_step(
        n: usize,
        d: usize,
        vectors: *const i8,
        vectors_len: usize,
        table: *const u16,
        table_len: usize,
        query: *const i8,
        query_len: usize,
        threshold: u16,
        current: *mut u16,
        moves: *mut u16,
        moved: *mut u8,
    ) -> u8;

    pub fn magpiehinge_walk(
        n: usize,
        d: usize,
        vectors: *const i8,
        vectors_len: usize,
        table: *const u16,
        table_len: usize,
        query: *const i8,
        query_len: usize,
        start: u16,
        threshold: u16,
        last: *mut u16,
        distance: *mut u32,
        moves: *mut u16,
    ) -> u8;

    pub fn magpiehinge_write(
        n: usize,
        d: usize,
        c: usize,
        asks: usize,
        vectors: *const i8,
        vectors_len: usize,
        numbers: *const u16,
        numbers_len: usize,
        queries: *const i8,
        queries_len: usize,
        output: *mut u8,
        output_len: usize,
        written: *mut usize,
    ) -> u8;

    pub fn magpiehinge_header(sheet: *const u8, sheet_len: usize, n: *mut usize, d: *mut usize, c: *mut usize, asks: *mut usize) -> u8;

    pub fn magpiehinge_vectors(sheet: *const u8, sheet_len: usize, buffer: *mut i8, buffer_len: usize) -> u8;

    pub fn magpiehinge_ask(
        sheet: *const u8,
        sheet_len: usize,
        number: u16,
        query: *mut i8,
        query_len: usize,
        start: *mut u16,
        width: *mut u16,
        k: *mut u16,
        threshold: *mut u16,
    ) -> u8;
}
