//! Points, D, direct edges, labels and the table.

mod common;

use common::*;
use second::generate::Random;
use second::labels::{steps_between_roots, DIAGONAL};
use second::points::{point, point_refusal, squared_distance};

#[test]
fn a_point_is_that_part_of_the_vectors() {
    let set = Owned::new(3, &[1, 2, 3, 4, 5, 6]);
    for id in 0..2 {
        let part = point(set.set(), id);
        let from = usize::from(id) * 3;
        assert_eq!(part, &set.vectors[from..from + 3]);
        // The same memory, so no copy.
        assert!(std::ptr::eq(part, &set.vectors[from..from + 3]));
        assert_eq!(point_refusal(set.set(), id), 0);
    }
}

#[test]
fn squared_distances() {
    assert_eq!(squared_distance(&[-128], &[127]), 65_025);
    assert_eq!(squared_distance(&[127], &[-128]), 65_025);
    assert_eq!(squared_distance(&[0, 0], &[3, -4]), 25);
    assert_eq!(squared_distance(&[9; 64], &[9; 64]), 0);
    // Every pair of one coordinate, against wide arithmetic.
    for a in i8::MIN..=i8::MAX {
        for b in i8::MIN..=i8::MAX {
            let wide = (i64::from(a) - i64::from(b)).pow(2);
            assert_eq!(i64::from(squared_distance(&[a], &[b])), wide);
        }
    }
}

/// Holds t against the scope's inequalities: it does not exceed, t + 1 does.
fn check_label(a: u32, b: u32) {
    let t = steps_between_roots(a, b);
    assert!(does_not_exceed(t, a, b), "{t} for {a} and {b} is too large");
    assert!(
        !does_not_exceed(t + 1, a, b),
        "{t} for {a} and {b} is too small"
    );
}

#[test]
fn labels_by_the_two_inequalities_for_all_small_distances() {
    for a in 0..700 {
        for b in 0..=a {
            check_label(a, b);
        }
    }
}

#[test]
fn labels_by_the_two_inequalities_for_any_distances() {
    let mut random = Random::new(1);
    for _ in 0..300_000 {
        let a = random.below(4_161_601) as u32;
        let b = random.below(a as usize + 1) as u32;
        check_label(a, b);
    }
}

#[test]
fn labels_by_the_two_inequalities_where_roots_are_nearly_whole_steps() {
    // D just below, at and just above the squares of whole steps, 1/16 apart.
    for sixteenths in 1..=32_640_u32 {
        let square = sixteenths * sixteenths / 256;
        for a in square.saturating_sub(1)..=(square + 1).min(4_161_600) {
            for b in [0, 1, 4, 9, 2_500, square / 4, square.saturating_sub(1)] {
                if b <= a {
                    check_label(a, b);
                }
            }
        }
    }
}

#[test]
fn labels_between_squares_are_exact() {
    for x in 0..=2_040 {
        for y in (0..=x).step_by(7) {
            assert_eq!(steps_between_roots(x * x, y * y), 16 * (x - y));
        }
    }
}

#[test]
fn the_inequalities_hold_up_to_one_step_and_not_after() {
    // What allows a largest step to be found at all.
    for (a, b) in [(25, 4), (4_000_250, 1), (145, 85), (3, 2), (9_997, 9_996)] {
        let last = largest_step(a, b);
        for t in 0..=last + 50 {
            assert_eq!(does_not_exceed(t, a, b), t <= last);
        }
    }
}

#[test]
fn labels_of_any_32_bit_numbers() {
    for (a, b) in [
        (u32::MAX, 0),
        (u32::MAX, u32::MAX),
        (u32::MAX, u32::MAX - 1),
    ] {
        check_label(a, b);
        assert_eq!(steps_between_roots(b, a), steps_between_roots(a, b));
    }
}

#[test]
fn tables_are_those_of_a_plain_builder() {
    for seed in 0..400 {
        let set = Owned::generated(seed);
        assert_eq!(
            set.table(),
            plain_build(&set, Mistake::None).table,
            "set {seed}"
        );
    }
}

#[test]
fn direct_is_the_one_solution_of_its_rule() {
    for seed in 0..60 {
        let set = Owned::small(seed, 20);
        let plain = plain_build(&set, Mistake::None);
        for u in 0..set.n {
            for v in (0..set.n).filter(|&v| v != u) {
                let whole = set.between(u, v);
                let hidden = (0..set.n).any(|r| {
                    set.between(u, r) < whole
                        && set.between(v, r) < whole
                        && plain.direct[u * set.n + r]
                });
                assert_eq!(plain.direct[u * set.n + v], !hidden);
            }
        }
    }
}

#[test]
fn tables_keep_to_their_bounds() {
    for seed in 400..700 {
        let set = Owned::generated(seed);
        let table = set.table();
        for u in 0..set.n {
            for v in 0..set.n {
                let cell = table[u * set.n + v];
                if u == v {
                    assert_eq!(cell, DIAGONAL);
                } else {
                    assert!(cell <= 32_624);
                }
            }
        }
    }
}

#[test]
fn an_edge_that_is_not_direct_may_have_label_0() {
    let set = Owned::new(2, &[0, 0, 100, 0, 14, 51]);
    assert!(!plain_build(&set, Mistake::None).direct[1]);
    assert_eq!(set.table()[1], 0);
}
