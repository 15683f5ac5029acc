//! The greedy walk.

mod common;

use common::*;
use second::generate::{query, table, threshold};
use second::walk::{step, walk, End, Record, Step};

/// The walk, by scanning for the first neighbour at each step.
fn plain_walk(set: &Owned, table: &[u16], query: &[i8], start: u16, threshold: u16) -> Vec<u16> {
    let mut way = vec![start];
    loop {
        let here = usize::from(way[way.len() - 1]);
        let mut best: Option<usize> = None;
        for v in 0..set.n {
            if v != here && table[here * set.n + v] <= threshold {
                let nearer = |b| set.to_query(v, query) < set.to_query(b, query);
                if best.is_none_or(nearer) {
                    best = Some(v);
                }
            }
        }
        match best {
            Some(v) if set.to_query(v, query) < set.to_query(here, query) => {
                way.push(v as u16);
            }
            _ => return way,
        }
    }
}

#[test]
fn walks_and_steps_are_those_of_a_plain_walker() {
    for seed in 0..2_500 {
        let set = Owned::small(seed, if seed < 20 { 128 } else { 14 });
        let query = query(seed, set.d, &set.vectors);
        let threshold = threshold(seed);
        let table = if seed % 2 == 0 {
            set.table()
        } else {
            table(seed, set.n)
        };
        let start = (seed % set.n as u64) as u16;
        let way = plain_walk(&set, &table, &query, start, threshold);
        let moves = (way.len() - 1) as u16;
        assert!(usize::from(moves) < set.n);

        let last = way[way.len() - 1];
        let end = End {
            id: last,
            distance: set.to_query(usize::from(last), &query),
            moves,
        };
        let got = walk(set.set(), &table, &query, start, threshold);
        assert_eq!(got, Ok(end), "case {seed}");

        let mut record = Record {
            current: start,
            moves: 0,
        };
        for (moves, &id) in way.iter().enumerate().skip(1) {
            let answer = step(set.set(), &table, &query, threshold, &mut record);
            assert_eq!(answer, Ok(Step::Moved));
            assert_eq!((record.current, record.moves), (id, moves as u16));
        }
        let before = record;
        let answer = step(set.set(), &table, &query, threshold, &mut record);
        assert_eq!(answer, Ok(Step::AtEnd));
        assert_eq!(record, before);
    }
}

#[test]
fn a_query_equal_to_a_point_ends_at_it_on_the_own_table() {
    for seed in 0..150 {
        let set = Owned::small(seed, if seed < 3 { 128 } else { 16 });
        let own = set.table();
        for id in 0..set.n {
            let query = &set.vectors[id * set.d..][..set.d];
            for start in 0..set.n as u16 {
                let threshold = [0, 1, 50, 32_767][(id + usize::from(start)) % 4];
                let end = walk(set.set(), &own, query, start, threshold).unwrap();
                assert_eq!(end.distance, 0, "set {seed}, point {id}, start {start}");
            }
        }
    }
}

#[test]
fn a_tie_with_the_current_point_is_no_reason_to_move() {
    let set = Owned::new(1, &[1, -1, 3]);
    let mut record = Record {
        current: 1,
        moves: 5,
    };
    // All edges are there; point 0 ties and has the lower id.
    let answer = step(set.set(), &[0; 9], &[0], 0, &mut record);
    assert_eq!(answer, Ok(Step::AtEnd));
    assert_eq!(
        record,
        Record {
            current: 1,
            moves: 5
        }
    );
}

#[test]
fn of_tied_neighbours_the_lower_id_is_taken() {
    let set = Owned::new(1, &[4, 1, -1]);
    let mut record = Record {
        current: 0,
        moves: 0,
    };
    let answer = step(set.set(), &[0; 9], &[0], 0, &mut record);
    assert_eq!(answer, Ok(Step::Moved));
    assert_eq!(record.current, 1);
}

#[test]
fn no_neighbour_is_the_end() {
    let set = line();
    let none = [0, 65_535, 65_535, 65_535, 0, 65_535, 65_535, 65_535, 0];
    let end = walk(set.set(), &none, &[5], 0, 32_767);
    assert_eq!(
        end,
        Ok(End {
            id: 0,
            distance: 25,
            moves: 0
        })
    );
}

#[test]
fn the_longest_walk_has_127_moves() {
    // Points in a row with edges to the next only.
    let vectors: Vec<i8> = (0..128).map(|id| (id - 64) as i8).collect();
    let set = Owned::new(1, &vectors);
    let end = walk(set.set(), &set.table(), &[63], 0, 0);
    let right = End {
        id: 127,
        distance: 0,
        moves: 127,
    };
    assert_eq!(end, Ok(right));
    // Its steps fit the record: the last one has 126 moves behind it.
    let mut record = Record {
        current: 0,
        moves: 0,
    };
    while step(set.set(), &set.table(), &[63], 0, &mut record) == Ok(Step::Moved) {}
    assert_eq!(
        record,
        Record {
            current: 127,
            moves: 127
        }
    );
}

#[test]
fn refusal_18_only_when_a_step_is_due_to_move() {
    let set = line();
    let own = set.table();
    for moves in [127, 128, 65_535] {
        let mut record = Record { current: 0, moves };
        let before = record;
        let answer = step(set.set(), &own, &[5], 0, &mut record);
        assert_eq!(answer, Err(18));
        assert_eq!(record, before);
        // At the end nothing is due, so nothing is refused.
        let mut record = Record { current: 2, moves };
        let before = record;
        let answer = step(set.set(), &own, &[5], 0, &mut record);
        assert_eq!(answer, Ok(Step::AtEnd));
        assert_eq!(record, before);
    }
    let mut record = Record {
        current: 0,
        moves: 126,
    };
    let answer = step(set.set(), &own, &[5], 0, &mut record);
    assert_eq!(answer, Ok(Step::Moved));
    assert_eq!(record.moves, 127);
}
