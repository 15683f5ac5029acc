//! Reading back what was written, and writing what was read.

mod common;

use common::*;
use second::generate::{self, Random};
use second::sheet::{read_ask, read_header, read_vectors, write, MOST_BYTES};
use second::Ask;

/// Everything that a sheet holds.
#[derive(Debug, PartialEq)]
struct Contents {
    set: Owned,
    c: usize,
    numbers: Vec<u16>,
    queries: Vec<i8>,
}

fn read(sheet: &[u8]) -> Result<Contents, u8> {
    let header = read_header(sheet)?;
    let mut vectors = vec![55; header.n * header.d];
    read_vectors(sheet, &mut vectors)?;
    let mut contents = Contents {
        set: Owned {
            n: header.n,
            d: header.d,
            vectors,
        },
        c: header.c,
        numbers: Vec::new(),
        queries: Vec::new(),
    };
    for number in 0..header.asks as u16 {
        let mut query = vec![55; header.d];
        let Ask {
            start,
            width,
            k,
            threshold,
        } = read_ask(sheet, number, &mut query)?;
        contents.numbers.extend([start, width, k, threshold]);
        contents.queries.extend(query);
    }
    Ok(contents)
}

fn written(contents: &Contents) -> Vec<u8> {
    let mut out = vec![0; MOST_BYTES];
    let length = write(
        contents.set.set(),
        contents.c,
        contents.numbers.len() / 4,
        &contents.numbers,
        &contents.queries,
        &mut out,
    );
    out.truncate(length.unwrap());
    out
}

/// Any contents, with every number up to the ends of its field.
fn any_contents(seed: u64) -> Contents {
    let mut random = Random::new(seed);
    let n = random.pick(&[1, 2, 3, 7, 128]);
    let d = random.pick(&[1, 2, 3, 5, 64]);
    let c = 1 + (seed % 8) as usize;
    let asks = random.pick(&[0, 1, 2, 9, 127]);
    let (least, most) = (i8::MIN >> (8 - c), i8::MAX >> (8 - c));
    let mut values =
        |count: usize| -> Vec<i8> { (0..count).map(|_| random.within(least, most)).collect() };
    let vectors = values(n * d);
    let queries = values(asks * d);
    let numbers = (0..asks)
        .flat_map(|_| {
            [
                random.below(128) as u16,
                1 + random.below(128) as u16,
                1 + random.below(128) as u16,
                random.below(32_768) as u16,
            ]
        })
        .collect();
    Contents {
        set: Owned { n, d, vectors },
        c,
        numbers,
        queries,
    }
}

#[test]
fn reading_a_written_sheet_gives_back_its_contents() {
    for seed in 0..600 {
        let contents = any_contents(seed);
        assert_eq!(read(&written(&contents)).as_ref(), Ok(&contents));
    }
}

#[test]
fn writing_what_was_read_gives_back_the_bytes() {
    let mut readable = 0;
    for seed in 0..2_400 {
        let sheet = generate::sheet(seed);
        if let Ok(contents) = read(&sheet) {
            assert_eq!(written(&contents), sheet, "sheet {seed}");
            readable += 1;
        }
    }
    assert!(readable > 1_400);
}

#[test]
fn any_bytes_of_the_right_length_are_some_sheet() {
    // Every field takes all its values, so such bytes with zeros at the end
    // read, and write back as they were.
    let mut random = Random::new(4);
    for _ in 0..300 {
        let head = [random.byte() & 0x1F, random.byte(), random.byte() & 0x0F];
        let n = usize::from(head[0] >> 1) + 1;
        let d = usize::from(head[0] & 1) * 32 + usize::from(head[1] >> 3) + 1;
        let c = usize::from(head[1] & 7) + 1;
        let bits = 24 + n * d * c + usize::from(head[2]) * (36 + d * c);
        let mut sheet: Vec<u8> = head.to_vec();
        sheet.resize_with(bits.div_ceil(8), || random.byte());
        let filling = 8 * sheet.len() - bits;
        let last = sheet.len() - 1;
        sheet[last] = sheet[last] >> filling << filling;
        assert_eq!(written(&read(&sheet).unwrap()), sheet);
    }
}

#[test]
fn bytes_past_the_sheet_stay_as_they_were() {
    for seed in 0..100 {
        let contents = any_contents(seed);
        let sheet = written(&contents);
        for held in [0, 0xFF, 0x5A] {
            let mut out = vec![held; sheet.len() + 9];
            let length = write(
                contents.set.set(),
                contents.c,
                contents.numbers.len() / 4,
                &contents.numbers,
                &contents.queries,
                &mut out,
            );
            assert_eq!(length, Ok(sheet.len()));
            assert_eq!(out[..sheet.len()], sheet);
            assert_eq!(out[sheet.len()..], [held; 9]);
        }
    }
}

#[test]
fn fields_stand_where_the_table_says() {
    // n 128, d 64, c 8: all ones, then the count.
    let vectors = vec![0; 128 * 64];
    let mut out = vec![0; MOST_BYTES];
    let set = second::Set {
        n: 128,
        d: 64,
        vectors: &vectors,
    };
    write(set, 8, 0, &[], &[], &mut out).unwrap();
    assert_eq!(out[..3], [0xFF, 0xFF, 0]);

    // One point of 4 bits and one ask, written out by hand.
    let ask = [5, 9, 128, 0x4001];
    let set = Owned::new(1, &[5]);
    let length = write(set.set(), 4, 1, &ask, &[-7], &mut out).unwrap();
    let printed: String = out[..length]
        .iter()
        .map(|byte| format!("{byte:08b}"))
        .collect();
    let expected = concat!(
        "0000000",
        "000000",
        "011",
        "00000001",
        "0101", // header and point
        "0000101",
        "0001000",
        "1111111",
        "100000000000001",
        "1001", // ask
        "0000", // filling
    );
    assert_eq!(printed, expected);
}
