//! The search, and what is demanded of two widths and of a full width.

mod common;

use common::*;
use second::generate::{query, table, threshold, Random};
use second::search::search;
use second::Ask;

/// A set with a table and a query: the set's own table for even seeds, any
/// table for odd ones, and a threshold that the table was made around.
fn case(seed: u64, most: usize) -> (Owned, Vec<u16>, Vec<i8>, u16) {
    let set = Owned::small(seed, most);
    let query = query(seed, set.d, &set.vectors);
    if seed.is_multiple_of(2) {
        let table = set.table();
        let threshold = if seed.is_multiple_of(4) {
            0
        } else {
            threshold(seed)
        };
        (set, table, query, threshold)
    } else {
        let table = table(seed, set.n);
        (set, table, query, threshold(seed))
    }
}

#[test]
fn searches_are_those_of_a_plain_searcher() {
    let mut random = Random::new(2);
    for seed in 0..3_000 {
        let (set, table, query, threshold) = case(seed, if seed < 60 { 128 } else { 20 });
        for _ in 0..4 {
            let width = 1 + random.below(set.n + 2).min(127) as u16;
            let ask = Ask {
                start: random.below(set.n) as u16,
                width,
                k: 1 + random.below(usize::from(width)) as u16,
                threshold,
            };
            let got = searched(&set, &table, &query, ask).unwrap();
            assert_eq!(got, plain_search(&set, &table, &query, ask), "case {seed}");
            assert!(got.counts.found <= ask.k);
            assert!(got.counts.found <= got.counts.seen);
            assert!(got.counts.walked <= got.counts.seen);
            assert!(usize::from(got.counts.seen) <= set.n);
        }
    }
}

#[test]
fn a_wider_search_goes_on_from_a_narrower_one() {
    for seed in 0..1_500 {
        let (set, table, query, threshold) = case(seed, 12);
        let start = (seed % set.n as u64) as u16;
        let k = 1 + (seed / 7 % 4) as u16;
        let mut narrow: Option<Result3> = None;
        for width in k..=set.n as u16 + 2 {
            let ask = Ask {
                start,
                width,
                k,
                threshold,
            };
            let wide = searched(&set, &table, &query, ask).unwrap();
            if let Some(narrow) = narrow {
                assert!(wide.trail.starts_with(&narrow.trail), "case {seed}");
                assert!(wide.counts.found >= narrow.counts.found);
                for (place, &id) in narrow.ids.iter().enumerate() {
                    let before = (narrow.distances[place], id);
                    assert!((wide.distances[place], wide.ids[place]) <= before);
                }
            }
            narrow = Some(wide);
        }
    }
}

#[test]
fn a_full_width_on_the_own_table_gives_exactly_the_nearest() {
    let mut random = Random::new(3);
    for seed in 0..400 {
        let set = Owned::small(seed, if seed < 8 { 128 } else { 16 });
        let own = set.table();
        let query = query(seed, set.d, &set.vectors);
        let mut nearest: Vec<(u32, u16)> = (0..set.n)
            .map(|id| (set.to_query(id, &query), id as u16))
            .collect();
        nearest.sort();
        for start in 0..set.n as u16 {
            let widths = [set.n as u16, 128];
            let width = random.pick(&widths);
            let ask = Ask {
                start,
                width,
                k: 1 + random.below(usize::from(width)) as u16,
                threshold: random.pick(&[0, 0, 1, 40, 32_767]),
            };
            let got = searched(&set, &own, &query, ask).unwrap();
            let answers: Vec<(u32, u16)> = got.distances.into_iter().zip(got.ids).collect();
            let right = &nearest[..set.n.min(usize::from(ask.k))];
            assert_eq!(answers, right, "set {seed}, {ask:?}");
        }
    }
}

#[test]
fn diagonal_cells_are_ignored() {
    for seed in 0..300 {
        let (set, mut table, query, threshold) = case(seed, 10);
        let ask = Ask {
            start: 0,
            width: 3,
            k: 2,
            threshold,
        };
        let before = searched(&set, &table, &query, ask);
        for id in 0..set.n {
            table[id * set.n + id] ^= (seed as u16).wrapping_mul(40_503);
        }
        assert_eq!(searched(&set, &table, &query, ask), before);
    }
}

#[test]
fn cells_past_the_answers_and_the_trail_keep_what_they_held() {
    for seed in 0..500 {
        let (set, table, query, threshold) = case(seed, 12);
        let ask = Ask {
            start: (set.n - 1) as u16,
            width: 1 + (seed % 9) as u16,
            k: 1,
            threshold,
        };
        let ask = Ask {
            k: 1 + (seed % u64::from(ask.width)) as u16,
            ..ask
        };
        let right = searched(&set, &table, &query, ask).unwrap();
        // Longer than needed, and of different lengths.
        let (mut ids, mut distances) = (vec![7_777; 30], vec![8_888_888; 20]);
        let mut trail = vec![9_999; set.n + 3];
        let counts = search(
            set.set(),
            &table,
            &query,
            ask,
            &mut ids,
            &mut distances,
            &mut trail,
        );
        assert_eq!(counts, Ok(right.counts));
        let found = usize::from(right.counts.found);
        let walked = usize::from(right.counts.walked);
        assert_eq!(ids[..found], right.ids);
        assert_eq!(distances[..found], right.distances);
        assert_eq!(trail[..walked], right.trail);
        assert!(ids[found..].iter().all(|&cell| cell == 7_777));
        assert!(distances[found..].iter().all(|&cell| cell == 8_888_888));
        assert!(trail[walked..].iter().all(|&cell| cell == 9_999));
    }
}

#[test]
fn an_edge_is_there_at_its_label_and_not_below() {
    let set = line();
    let table = [65_535, 65_535, 100, 0, 0, 0, 0, 0, 0];
    let at = |threshold| {
        let ask = Ask {
            start: 0,
            width: 1,
            k: 1,
            threshold,
        };
        searched(&set, &table, &[5], ask).unwrap().counts.seen
    };
    assert_eq!(at(99), 1);
    // Point 2 leads to the others.
    assert_eq!(at(100), 3);
    assert_eq!(at(101), 3);
}

#[test]
fn edges_have_a_direction() {
    let set = Owned::new(1, &[0, 1]);
    let table = [0, 0, 9, 0];
    let seen = |start| {
        let ask = Ask {
            start,
            width: 2,
            k: 1,
            threshold: 8,
        };
        searched(&set, &table, &[0], ask).unwrap().counts.seen
    };
    assert_eq!(seen(0), 2);
    assert_eq!(seen(1), 1);
}

#[test]
fn a_width_of_equal_distances_stops_by_id() {
    // Points 0 and 2 tie. From 2, point 0 comes before it; from 0, point 2
    // comes after and is not walked at width 1.
    let set = Owned::new(1, &[1, 5, -1]);
    let table = [0; 9];
    let trail = |start| {
        let ask = Ask {
            start,
            width: 1,
            k: 1,
            threshold: 0,
        };
        searched(&set, &table, &[0], ask).unwrap().trail
    };
    assert_eq!(trail(0), [0]);
    assert_eq!(trail(2), [2, 0]);
    assert_eq!(trail(1), [1, 0]);
}
