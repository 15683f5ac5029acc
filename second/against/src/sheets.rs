//! Sheets, read and written.
use crate::difference::{same, same_of_sheet};
use crate::sets::beside;
use crate::Tally;
use second::generate;

/// Every sheet of no, one and two bytes, every header with few values in the third byte, and each of them with a fourth byte.
pub fn every_short_sheet(done: &mut Tally) {
    read(&[], done);
    for a in 0..=255u8 {
        read(&[a], done);
        for b in [0, 1, 7, 8, 15, 127, 128, 255] {
            read(&[a, b], done);
            for c in [0, 1, 2, 127, 128, 255] {
                read(&[a, b, c], done);
                for e in [0, 1, 16, 128, 255] {
                    read(&[a, b, c, e], done);
                }
            }
        }
    }
}

/// One sheet of a seed: read whole, and written again where it is not refused.
pub fn compare(seed: u64, done: &mut Tally) {
    let sheet = generate::sheet(seed);
    read(&sheet, done);
    let Ok(h) = second::sheet::read_header(&sheet) else { return };
    let mut vectors = vec![0i8; h.n * h.d];
    magpiehinge::read_vectors(&sheet, &mut vectors).expect("the second implementation read it");
    let (mut numbers, mut queries) = (Vec::new(), Vec::new());
    for i in 0..h.asks as u16 {
        let mut query = vec![0i8; h.d];
        let a = magpiehinge::read_ask(&sheet, i, &mut query).expect("the second implementation read it");
        numbers.extend([a.start, a.width, a.k, a.threshold]);
        queries.extend(query);
    }
    write(seed, h.n, h.d, h.c, h.asks, &vectors, &numbers, &queries, sheet.len() + 3, done);
    let mut output = vec![0u8; sheet.len()];
    let set = magpiehinge::Set { n: h.n, d: h.d, vectors: &vectors };
    let length = magpiehinge::write(set, h.c, h.asks, &numbers, &queries, &mut output);
    same_of_sheet("a sheet that was read and written", &sheet, &(length, output), &(Ok(sheet.len()), sheet.clone()));

    // other widths, counts and lengths, and a number out of its range
    let mut random = generate::Random::new(seed ^ 0x7ee);
    for _ in 0..4 {
        let c = random.below(10);
        let asks = [h.asks, h.asks, h.asks + 1, 128, usize::MAX][random.below(5)];
        let (n, d) = (beside(&mut random, h.n), beside(&mut random, h.d));
        let v = &vectors[..beside(&mut random, vectors.len()).min(vectors.len())];
        let q = &queries[..beside(&mut random, queries.len()).min(queries.len())];
        let room = beside(&mut random, sheet.len()).min(17_000);
        let mut other = numbers.clone();
        if !other.is_empty() {
            let at = random.below(other.len());
            other[at] = [0, 127, 128, 129, 32767, 32768, 65535][random.below(7)];
        }
        write(seed, n, d, c, asks, v, &numbers, q, room, done);
        write(seed, h.n, h.d, c, h.asks, &vectors, &other, &queries, room, done);
        write(seed, h.n, h.d, h.c, asks, &vectors, &other, &queries, room, done);
    }
}

/// Asks whose numbers are out of their ranges, two at a time, so that the order of the checks shows.
pub fn refused_writes(done: &mut Tally) {
    let values = [0u16, 1, 127, 128, 129, 32767, 32768];
    for a in values {
        for b in values {
            for c in values {
                for e in values {
                    write(0, 1, 1, 2, 2, &[1], &[0, 1, 1, 0, a, b, c, e], &[0, 1], 40, done);
                }
            }
        }
    }
}

fn read(sheet: &[u8], done: &mut Tally) {
    let x = magpiehinge::read_header(sheet).map(|h| (h.n, h.d, h.c, h.asks));
    let y = second::sheet::read_header(sheet).map(|h| (h.n, h.d, h.c, h.asks));
    same_of_sheet("a sheet's header", sheet, &x, &y);
    done.read += 1;
    let (n, d, _, asks) = y.unwrap_or((2, 2, 8, 2));
    for room in [n * d, n * d + 1] {
        let (mut a, mut b) = (vec![11i8; room], vec![11i8; room]);
        let x = magpiehinge::read_vectors(sheet, &mut a);
        let y = second::sheet::read_vectors(sheet, &mut b);
        same_of_sheet("a sheet's vectors", sheet, &(x, a), &(y, b));
    }
    for i in [0, 1, asks / 2, asks.wrapping_sub(1), asks, 65535] {
        for room in [d, d - 1] {
            let (mut a, mut b) = (vec![13i8; room], vec![13i8; room]);
            let x = magpiehinge::read_ask(sheet, i as u16, &mut a).map(|q| [q.start, q.width, q.k, q.threshold]);
            let y = second::sheet::read_ask(sheet, i as u16, &mut b).map(|q| [q.start, q.width, q.k, q.threshold]);
            same_of_sheet("an ask of a sheet", sheet, &(x, a), &(y, b));
        }
    }
}

#[allow(clippy::too_many_arguments)]
fn write(
    seed: u64,
    n: usize,
    d: usize,
    c: usize,
    asks: usize,
    vectors: &[i8],
    numbers: &[u16],
    queries: &[i8],
    room: usize,
    done: &mut Tally,
) {
    let (mut a, mut b) = (vec![0xEEu8; room], vec![0xEEu8; room]);
    let x = magpiehinge::write(magpiehinge::Set { n, d, vectors }, c, asks, numbers, queries, &mut a);
    let y = second::sheet::write(second::Set { n, d, vectors }, c, asks, numbers, queries, &mut b);
    same("a writer's answer", seed, &x, &y);
    same("a written sheet", seed, &a, &b);
    done.written += 1;
}
