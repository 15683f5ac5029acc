//! Every worked example of the build scope, and the errors that makers have
//! shipped.

mod common;

use common::*;
use second::labels::{build, steps_between_roots};
use second::lines::print;
use second::points::squared_distance;
use second::search::{search, Counts};
use second::walk::walk;
use second::{Ask, Set};

const SHEET: [u8; 20] = [
    0x04, 0x03, 0x03, 0x03, 0x50, 0x00, 0x00, 0x00, 0x00, 0x40, 0x00, 0x80, 0x80, 0x00, 0x40, 0xA0,
    0x00, 0x00, 0x00, 0x40,
];

const PRINTED: &str = "\
set 3 1 3
ask 0 found 1 seen 3 walked 2
near 1 1
trail 0 1
ask 1 found 2 seen 3 walked 3
near 1 1 2 1
trail 0 1 2
ask 2 refused 6
";

fn ask(start: u16, width: u16, k: u16, threshold: u16) -> Ask {
    Ask {
        start,
        width,
        k,
        threshold,
    }
}

#[test]
fn the_sheet_of_20_bytes_prints_its_lines() {
    assert_eq!(String::from_utf8(print(&SHEET)).unwrap(), PRINTED);
}

#[test]
fn the_sheet_of_20_bytes_is_written_from_its_contents() {
    let set = line();
    let mut out = [0xEE; 24];
    let length = second::sheet::write(
        set.set(),
        4,
        3,
        &[0, 1, 1, 0, 0, 3, 2, 0, 5, 1, 1, 0],
        &[4, 4, 4],
        &mut out,
    );
    assert_eq!(length, Ok(20));
    assert_eq!(out[..20], SHEET);
    assert_eq!(out[20..], [0xEE; 4]);
}

#[test]
fn the_sheet_of_20_bytes_is_read() {
    let header = second::sheet::read_header(&SHEET).unwrap();
    assert_eq!((header.n, header.d, header.c, header.asks), (3, 1, 4, 3));
    let mut vectors = [9; 3];
    assert_eq!(second::sheet::read_vectors(&SHEET, &mut vectors), Ok(()));
    assert_eq!(vectors, [0, 3, 5]);
    for (number, numbers) in [ask(0, 1, 1, 0), ask(0, 3, 2, 0), ask(5, 1, 1, 0)]
        .into_iter()
        .enumerate()
    {
        let mut query = [9];
        let read = second::sheet::read_ask(&SHEET, number as u16, &mut query);
        assert_eq!(read, Ok(numbers));
        assert_eq!(query, [4]);
    }
}

#[test]
fn p1_p2_labels_of_0_3_5() {
    assert_eq!(line().table(), [65_535, 0, 48, 0, 65_535, 0, 32, 0, 65_535]);
}

#[test]
fn p3_p4_the_first_two_asks() {
    let set = line();
    let table = set.table();
    let p3 = searched(&set, &table, &[4], ask(0, 1, 1, 0)).unwrap();
    assert_eq!(
        p3,
        Result3 {
            counts: Counts {
                found: 1,
                seen: 3,
                walked: 2
            },
            ids: vec![1],
            distances: vec![1],
            trail: vec![0, 1],
        }
    );
    let p4 = searched(&set, &table, &[4], ask(0, 3, 2, 0)).unwrap();
    assert_eq!(
        p4,
        Result3 {
            counts: Counts {
                found: 2,
                seen: 3,
                walked: 3
            },
            ids: vec![1, 2],
            distances: vec![1, 1],
            trail: vec![0, 1, 2],
        }
    );
}

#[test]
fn p5_equal_distances_do_not_stand_between() {
    assert_eq!(tied().table()[..3], [65_535, 0, 0]);
}

#[test]
fn p6_p7_an_edge_that_is_not_direct_hides_nothing() {
    assert_eq!(hidden().table()[..4], [65_535, 0, 45, 0]);
}

#[test]
fn p8_p9_the_largest_label_and_distance() {
    let u = vec![-128; 64];
    let v = vec![127; 64];
    let mut w = v.clone();
    w[17] = 126;
    assert_eq!(squared_distance(&u, &v), 4_161_600);
    let set = Owned::new(64, &[u, v, w].concat());
    assert_eq!(set.table()[1], 32_624);
    assert_eq!(set.table()[2], 0);
}

#[test]
fn p10_two_identical_points() {
    let set = Owned::new(2, &[7, -7, 7, -7]);
    assert_eq!(set.table(), [65_535, 0, 0, 65_535]);
}

#[test]
fn sets_of_128_points_pass_and_129_get_1() {
    for (n, expected) in [(1, Ok(())), (128, Ok(())), (129, Err(1)), (0, Err(1))] {
        let vectors = vec![3; n];
        let set = Set {
            n,
            d: 1,
            vectors: &vectors,
        };
        assert_eq!(build(set, &mut vec![0; n * n]), expected);
    }
}

#[test]
fn width_128_passes_and_129_gets_7() {
    let set = line();
    let table = set.table();
    assert!(searched(&set, &table, &[4], ask(0, 128, 1, 0)).is_ok());
    assert_eq!(searched(&set, &table, &[4], ask(0, 129, 1, 0)), Err(7));
}

#[test]
fn one_point_gives_ones() {
    let set = Owned::new(3, &[1, 2, 3]);
    let table = set.table();
    assert_eq!(table, [65_535]);
    for (width, k) in [(1, 1), (128, 1), (128, 128)] {
        let got = searched(&set, &table, &[3, 2, 1], ask(0, width, k, 32_767)).unwrap();
        let ones = Counts {
            found: 1,
            seen: 1,
            walked: 1,
        };
        assert_eq!(got.counts, ones);
        assert_eq!(
            (got.ids, got.distances, got.trail),
            (vec![0], vec![8], vec![0])
        );
    }
}

#[test]
fn empty_input_prints_refused_15() {
    assert_eq!(print(&[]), b"refused 15\n");
}

#[test]
fn the_largest_sheet_has_16895_bytes() {
    let vectors = vec![-128; 128 * 64];
    let set = Set {
        n: 128,
        d: 64,
        vectors: &vectors,
    };
    let numbers = [127, 128, 128, 32_767].repeat(127);
    let queries = vec![127; 127 * 64];
    let mut out = vec![0; 16_895];
    let length = second::sheet::write(set, 8, 127, &numbers, &queries, &mut out);
    assert_eq!(length, Ok(16_895));
    assert_eq!(second::sheet::MOST_BYTES, 16_895);
}

#[test]
fn the_largest_trail_and_answer_fit() {
    // All points seen from the start, asked for and walked.
    let set = Owned::new(1, &(0..128).map(|id| (id - 64) as i8).collect::<Vec<_>>());
    let got = searched(&set, &set.table(), &[0], ask(0, 128, 128, 32_767)).unwrap();
    let all = Counts {
        found: 128,
        seen: 128,
        walked: 128,
    };
    assert_eq!(got.counts, all);
}

// The errors. Each test shows that a builder with the error gives something
// else on the set, so that the library would be caught making it.

#[test]
fn error_treating_a_tie_as_standing_between() {
    let set = tied();
    let wrong = plain_build(&set, Mistake::TieStands);
    assert!(!wrong.direct[2]);
    assert_eq!(wrong.table[2], 29);
    assert_eq!(set.table()[2], 0);
    // And at threshold 0 a search misses a point that is in the set.
    let right = searched(&set, &set.table(), &[4, 3], ask(0, 1, 1, 0)).unwrap();
    let missed = plain_search(&set, &wrong.table, &[4, 3], ask(0, 1, 1, 0));
    assert_eq!(right.counts.seen, 3);
    assert_ne!(missed.trail, right.trail);
}

#[test]
fn error_letting_an_edge_that_is_not_direct_hide_another() {
    let set = hidden();
    assert!(!plain_build(&set, Mistake::AnyHides).direct[3]);
    assert!(plain_build(&set, Mistake::None).direct[3]);
    assert_eq!(set.table()[3], 0);
}

#[test]
fn error_working_the_label_from_the_point_nearest_to_u() {
    let set = two_direct();
    assert_eq!(plain_build(&set, Mistake::NearestToU).table[3], 8);
    assert_eq!(set.table()[3], 80);
}

#[test]
fn error_a_root_in_32_bit_floats() {
    assert_eq!(4_000_250_f32.sqrt(), 2_000.062_5);
    assert_eq!(steps_between_roots(4_000_250, 0), 32_000);
    assert_eq!(steps_between_roots(4_000_250, 1), 31_984);
    let set = rounding();
    assert_eq!(set.between(0, 2), 4_000_250);
    assert_eq!(plain_build(&set, Mistake::FloatRoot).table[2], 31_985);
    assert_eq!(set.table()[2], 31_984);
}

#[test]
fn error_claiming_that_a_larger_threshold_extends_the_trail() {
    let set = line();
    let table = set.table();
    let low = searched(&set, &table, &[5], ask(0, 3, 3, 0)).unwrap();
    let high = searched(&set, &table, &[5], ask(0, 3, 3, 48)).unwrap();
    assert_eq!(low.trail, [0, 1, 2]);
    assert_eq!(high.trail, [0, 2, 1]);
}

#[test]
fn a_walk_moves_more_than_once() {
    // A walk whose later steps only counted would end at point 1.
    let set = Owned::new(1, &[0, 3, 5, 9]);
    let end = walk(set.set(), &set.table(), &[9], 0, 0).unwrap();
    assert_eq!((end.id, end.distance, end.moves), (3, 0, 3));
}

#[test]
fn useless_versions_of_the_search_are_caught() {
    let set = line();
    let (mut ids, mut distances, mut trail) = ([9; 4], [9; 4], [9; 4]);
    let counts = search(
        set.set(),
        &set.table(),
        &[5],
        ask(0, 2, 2, 0),
        &mut ids,
        &mut distances,
        &mut trail,
    );
    // Not refused, not the start, not nothing written, nothing invented.
    let right = Counts {
        found: 2,
        seen: 3,
        walked: 3,
    };
    assert_eq!(counts, Ok(right));
    assert_eq!(ids, [2, 1, 9, 9]);
    assert_eq!(distances, [0, 4, 9, 9]);
    assert_eq!(trail, [0, 1, 2, 9]);
}
