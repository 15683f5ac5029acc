//! The example sheets, by name.

use crate::generate::Random;
use crate::points::Set;
use crate::sheet::{write, MOST_BYTES};

/// The names of all examples.
pub const NAMES: [&str; 18] = [
    "document",
    "ties",
    "hidden-edge",
    "nearest-to-v",
    "root-rounding",
    "identical",
    "thresholds",
    "widths",
    "bad-asks",
    "one-point",
    "no-asks",
    "large",
    "largest",
    "damaged-short",
    "damaged-long",
    "damaged-filling",
    "damaged-asks",
    "empty",
];

/// The bytes of a named example.
pub fn sheet(name: &str) -> Option<Vec<u8>> {
    Some(match name {
        "document" => document(),
        "ties" => ties(),
        "hidden-edge" => hidden_edge(),
        "nearest-to-v" => nearest_to_v(),
        "root-rounding" => root_rounding(),
        "identical" => identical(),
        "thresholds" => thresholds(),
        "widths" => widths(),
        "bad-asks" => bad_asks(),
        "one-point" => one_point(),
        "no-asks" => no_asks(),
        "large" => large(),
        "largest" => largest(),
        "damaged-short" => document()[..19].to_vec(),
        "damaged-long" => [document(), vec![0]].concat(),
        "damaged-filling" => {
            let mut sheet = document();
            sheet[19] |= 1;
            sheet
        }
        "damaged-asks" => {
            let mut sheet = document();
            sheet[2] = 128;
            sheet
        }
        "empty" => Vec::new(),
        _ => return None,
    })
}

/// An ask: start, width, k, threshold, and the query.
type Line<'a> = ([u16; 4], &'a [i8]);

/// Writes one sheet.
fn written(d: usize, c: usize, vectors: &[i8], asks: &[Line<'_>]) -> Vec<u8> {
    let set = Set {
        n: vectors.len() / d,
        d,
        vectors,
    };
    let numbers: Vec<u16> = asks.iter().flat_map(|(numbers, _)| *numbers).collect();
    let queries: Vec<i8> = asks.iter().flat_map(|(_, query)| query.to_vec()).collect();
    let mut out = vec![0; MOST_BYTES];
    let length =
        write(set, c, asks.len(), &numbers, &queries, &mut out).expect("an example can be written");
    out.truncate(length);
    out
}

fn document() -> Vec<u8> {
    let asks: [Line<'_>; 3] = [
        ([0, 1, 1, 0], &[4]),
        ([0, 3, 2, 0], &[4]),
        ([5, 1, 1, 0], &[4]),
    ];
    written(1, 4, &[0, 3, 5], &asks)
}

/// From point 0 both others lie at D = 25 and neither hides the other, so
/// both are seen at once. The last two queries tie points 1 and 2.
fn ties() -> Vec<u8> {
    let asks: [Line<'_>; 4] = [
        ([0, 1, 1, 0], &[5, 0]),
        ([0, 1, 1, 0], &[4, 3]),
        ([0, 3, 3, 0], &[0, 0]),
        ([2, 2, 2, 0], &[3, 1]),
    ];
    written(2, 4, &[0, 0, 5, 0, 4, 3], &asks)
}

/// The label from 0 to 2 is 45, and the edge from 0 to 3 is there at
/// threshold 0.
fn hidden_edge() -> Vec<u8> {
    let asks: [Line<'_>; 4] = [
        ([0, 4, 4, 0], &[-2, 13]),
        ([0, 1, 1, 0], &[8, 9]),
        ([0, 1, 1, 44], &[8, 9]),
        ([0, 1, 1, 45], &[8, 9]),
    ];
    written(2, 5, &[0, 0, 10, 0, 8, 9, -2, 13], &asks)
}

/// From 0 both 1 and 2 are direct. 1 is nearer to 0, 2 is nearer to 3: the
/// label from 0 to 3 is 80, not 8.
fn nearest_to_v() -> Vec<u8> {
    let asks: [Line<'_>; 4] = [
        ([0, 4, 2, 0], &[10, 0]),
        ([0, 4, 2, 8], &[10, 0]),
        ([0, 4, 2, 79], &[10, 0]),
        ([0, 4, 2, 80], &[10, 0]),
    ];
    written(2, 5, &[0, 0, 1, 3, 6, -3, 10, 0], &asks)
}

/// D from 0 to 2 is 4,000,250 and from 1 to 2 it is 1. The label from 0 to 2
/// is 31,984; roots in 32-bit floats give 31,985.
fn root_rounding() -> Vec<u8> {
    let far = far_point();
    let mut beside = far.clone();
    beside[63] -= 1;
    let vectors = [vec![-128; 64], beside, far.clone()].concat();
    let asks: [Line<'_>; 2] = [([0, 3, 3, 31_983], &far), ([0, 3, 3, 31_984], &far)];
    written(64, 8, &vectors, &asks)
}

/// A point at D = 4,000,250 from the one that is -128 everywhere: five
/// differences of 255, five of 245 and 54 of 250.
fn far_point() -> Vec<i8> {
    [vec![127; 5], vec![117; 5], vec![122; 54]].concat()
}

/// Two places with two and three points. The lower id comes first.
fn identical() -> Vec<u8> {
    let asks: [Line<'_>; 3] = [
        ([4, 5, 5, 0], &[1]),
        ([0, 1, 1, 0], &[-2]),
        ([2, 2, 2, 0], &[0]),
    ];
    written(1, 2, &[1, -2, 1, -2, 1], &asks)
}

/// A larger threshold leads elsewhere; it does not extend the trail.
fn thresholds() -> Vec<u8> {
    let asks: [Line<'_>; 4] = [
        ([0, 3, 3, 0], &[5]),
        ([0, 3, 3, 47], &[5]),
        ([0, 3, 3, 48], &[5]),
        ([0, 3, 3, 32_767], &[5]),
    ];
    written(1, 4, &[0, 3, 5], &asks)
}

/// The way to the nearest point, 6, leads away from the query at first, so
/// only searches of width 6 or more get there.
fn widths() -> Vec<u8> {
    let vectors = [0, 7, 3, -6, 6, 2, 4, 1, 4, -1, 2, 6, -3, -3];
    let query: &[i8] = &[-4, 2];
    let asks = [1, 2, 3, 4, 5, 6, 7, 8, 128].map(|width| ([0, width, 1, 0], query));
    written(2, 4, &vectors, &asks)
}

/// Every sort of ask that a sheet can carry and the search refuses, between
/// good ones.
fn bad_asks() -> Vec<u8> {
    let asks: [Line<'_>; 7] = [
        ([3, 2, 1, 0], &[0, 1]),
        ([4, 2, 1, 0], &[0, 1]),
        ([127, 128, 128, 32_767], &[0, 1]),
        ([3, 1, 2, 0], &[0, 1]),
        ([0, 127, 128, 0], &[0, 1]),
        ([4, 1, 2, 0], &[0, 1]),
        ([0, 128, 128, 32_767], &[0, 1]),
    ];
    written(2, 3, &[0, 0, 3, 0, 0, 3, -4, -4], &asks)
}

fn one_point() -> Vec<u8> {
    let asks: [Line<'_>; 2] = [
        ([0, 1, 1, 0], &[-128, 127, 0]),
        ([0, 128, 128, 32_767], &[127, -128, 7]),
    ];
    written(3, 8, &[127, -128, 7], &asks)
}

fn no_asks() -> Vec<u8> {
    written(2, 1, &[0, 0, -1, 0, -1, -1], &[])
}

/// 128 points on a grid of 8 by 8, so with many ties and some equal points.
fn large() -> Vec<u8> {
    let mut random = Random::new(128);
    let vectors: Vec<i8> = (0..256).map(|_| random.within(-4, 3)).collect();
    let asks: [Line<'_>; 8] = [
        ([0, 1, 1, 0], &[0, 0]),
        ([0, 10, 10, 0], &[0, 0]),
        ([0, 128, 10, 0], &[0, 0]),
        ([127, 5, 5, 0], &[3, 3]),
        ([127, 5, 5, 16], &[3, 3]),
        ([127, 5, 5, 32_767], &[3, 3]),
        ([64, 128, 128, 0], &[-4, 3]),
        ([64, 1, 1, 48], &[-4, -4]),
    ];
    written(2, 4, &vectors, &asks)
}

/// The sheet of 16,895 bytes: 128 points, 64 coordinates of 8 bits, 127 asks.
fn largest() -> Vec<u8> {
    let mut random = Random::new(16_895);
    let vectors: Vec<i8> = (0..128 * 64).map(|_| random.within(-128, 127)).collect();
    let queries: Vec<i8> = (0..127 * 64).map(|_| random.within(-128, 127)).collect();
    let asks: Vec<Line<'_>> = queries
        .chunks_exact(64)
        .zip(0..)
        .map(|(query, at)| ([at, at + 1, 1 + at % 10, 10 * at], query))
        .collect();
    written(64, 8, &vectors, &asks)
}
