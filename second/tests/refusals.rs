//! Every refusal of every entry: each fault alone, every pair of faults (the
//! one earlier in the entry's order wins), many larger heaps of faults, and
//! nothing lent changes.

mod common;

use common::*;
use second::generate::Random;
use second::labels::build;
use second::points::{point, point_refusal};
use second::search::search;
use second::sheet::{read_ask, read_header, read_vectors, write};
use second::walk::{step, walk, Record};
use second::Ask;

/// A way to spoil an input, and the refusal that is due to it. Each fault
/// stays a fault whatever the others do.
type Fault<I> = (u8, fn(&mut I));

/// Takes the last element off.
fn shorten<T>(list: &mut Vec<T>) {
    list.pop();
}

/// Checks one entry over all faults and their order.
fn check<I, T>(good: &I, order: &[u8], faults: &[Fault<I>], call: impl Fn(&mut I) -> Result<T, u8>)
where
    I: Clone + PartialEq + std::fmt::Debug,
    T: std::fmt::Debug,
{
    assert!(call(&mut good.clone()).is_ok(), "the good input is refused");
    let place = |number: u8| {
        let place = order.iter().position(|&other| other == number);
        place.expect("a fault for each number of the order")
    };
    for &number in order {
        assert!(faults.iter().any(|fault| fault.0 == number), "no {number}");
    }
    let expect = |chosen: &[Fault<I>]| {
        let mut input = good.clone();
        for (_, spoil) in chosen {
            spoil(&mut input);
        }
        let first = chosen.iter().map(|fault| place(fault.0)).min().unwrap();
        let before = input.clone();
        let answer = call(&mut input);
        assert_eq!(answer.unwrap_err(), order[first], "for {before:?}");
        assert_eq!(input, before, "a refusal changed something lent");
    };
    for &one in faults {
        expect(&[one]);
        for &other in faults.iter().filter(|other| other.0 != one.0) {
            expect(&[one, other]);
        }
    }
    let mut random = Random::new(faults.len() as u64);
    for _ in 0..2_000 {
        let mut chosen: Vec<Fault<I>> = Vec::new();
        for _ in 0..1 + random.below(6) {
            let fault = random.pick(faults);
            if chosen.iter().all(|other| other.0 != fault.0) {
                chosen.push(fault);
            }
        }
        expect(&chosen);
    }
}

/// The inputs of everything that works on a set.
#[derive(Clone, Debug, PartialEq)]
struct Input {
    set: Owned,
    table: Vec<u16>,
    query: Vec<i8>,
    ask: Ask,
    record: Record,
    ids: Vec<u16>,
    distances: Vec<u32>,
    trail: Vec<u16>,
}

/// Buffers of exactly the least lengths; a step that is due to move.
fn good() -> Input {
    let set = Owned::new(2, &[0, 0, 3, 0, 5, 1, 9, 9]);
    Input {
        table: set.table(),
        query: vec![9, 9],
        ask: Ask {
            start: 3,
            width: 3,
            k: 2,
            threshold: 32_767,
        },
        record: Record {
            current: 0,
            moves: 126,
        },
        ids: vec![77; 2],
        distances: vec![88; 2],
        trail: vec![99; 4],
        set,
    }
}

const SET_FAULTS: [Fault<Input>; 9] = [
    (1, |i| i.set.n = 0),
    (1, |i| i.set.n = 129),
    (1, |i| i.set.n = usize::MAX),
    (2, |i| i.set.d = 0),
    (2, |i| i.set.d = 65),
    (2, |i| i.set.d = usize::MAX),
    (3, |i| i.set.vectors.push(0)),
    (3, |i| shorten(&mut i.set.vectors)),
    (3, |i| i.set.vectors.clear()),
];

const TABLE_FAULTS: [Fault<Input>; 3] = [
    (4, |i| i.table.push(0)),
    (4, |i| shorten(&mut i.table)),
    (4, |i| i.table.clear()),
];

const QUERY_FAULTS: [Fault<Input>; 3] = [
    (5, |i| i.query.push(0)),
    (5, |i| shorten(&mut i.query)),
    (5, |i| i.query.clear()),
];

const START_FAULTS: [Fault<Input>; 3] = [
    (6, |i| i.ask.start = 4),
    (6, |i| i.ask.start = 128),
    (6, |i| i.ask.start = 65_535),
];

const THRESHOLD_FAULTS: [Fault<Input>; 2] = [
    (9, |i| i.ask.threshold = 32_768),
    (9, |i| i.ask.threshold = 65_535),
];

#[test]
fn a_point() {
    let faults = [&SET_FAULTS[..], &START_FAULTS].concat();
    check(&good(), &[1, 2, 3, 6], &faults, |input| {
        let (set, id) = (input.set.set(), input.ask.start);
        let part = point(set, id).to_vec();
        match point_refusal(set, id) {
            0 => {
                assert_eq!(part, [9, 9]);
                Ok(())
            }
            number => {
                assert_eq!(part, []);
                Err(number)
            }
        }
    });
}

#[test]
fn the_build() {
    let faults = [&SET_FAULTS[..], &TABLE_FAULTS].concat();
    check(&good(), &[1, 2, 3, 4], &faults, |input| {
        build(input.set.set(), &mut input.table)
    });
}

#[test]
fn a_search() {
    let own: [Fault<Input>; 14] = [
        (7, |i| i.ask.width = 0),
        (7, |i| i.ask.width = 129),
        (7, |i| i.ask.width = 65_535),
        (8, |i| i.ask.k = 0),
        (8, |i| i.ask.k = 4),
        (8, |i| i.ask.k = 65_535),
        (10, |i| shorten(&mut i.ids)),
        (10, |i| i.ids.clear()),
        (10, |i| shorten(&mut i.distances)),
        (10, |i| i.distances.clear()),
        (10, |i| shorten(&mut i.trail)),
        (10, |i| i.trail.clear()),
        (10, |i| {
            i.ids.clear();
            i.trail.clear();
        }),
        (10, |i| {
            i.distances.clear();
            i.ids.extend([77; 200]);
        }),
    ];
    let faults = [
        &SET_FAULTS[..],
        &TABLE_FAULTS,
        &QUERY_FAULTS,
        &START_FAULTS,
        &THRESHOLD_FAULTS,
        &own,
    ]
    .concat();
    let order = [1, 2, 3, 4, 5, 6, 7, 8, 9, 10];
    check(&good(), &order, &faults, |input| {
        search(
            input.set.set(),
            &input.table,
            &input.query,
            input.ask,
            &mut input.ids,
            &mut input.distances,
            &mut input.trail,
        )
    });
}

#[test]
fn a_search_for_as_many_as_the_width_passes() {
    let mut input = good();
    input.ask.k = 3;
    input.ids.push(0);
    input.distances.push(0);
    let answer = search(
        input.set.set(),
        &input.table,
        &input.query,
        input.ask,
        &mut input.ids,
        &mut input.distances,
        &mut input.trail,
    );
    assert!(answer.is_ok());
}

#[test]
fn a_whole_walk() {
    let faults = [
        &SET_FAULTS[..],
        &TABLE_FAULTS,
        &QUERY_FAULTS,
        &START_FAULTS,
        &THRESHOLD_FAULTS,
    ]
    .concat();
    check(&good(), &[1, 2, 3, 4, 5, 6, 9], &faults, |input| {
        walk(
            input.set.set(),
            &input.table,
            &input.query,
            input.ask.start,
            input.ask.threshold,
        )
    });
}

#[test]
fn a_step() {
    // The record's id is the one asked about, so its faults change that. The
    // step stays due to move beside them, as they win over 18 anyway.
    let own: [Fault<Input>; 6] = [
        (6, |i| i.record.current = 4),
        (6, |i| i.record.current = 128),
        (6, |i| i.record.current = 65_535),
        (18, |i| i.record.moves = 127),
        (18, |i| i.record.moves = 128),
        (18, |i| i.record.moves = 65_535),
    ];
    let faults = [
        &SET_FAULTS[..],
        &TABLE_FAULTS,
        &QUERY_FAULTS,
        &THRESHOLD_FAULTS,
        &own,
    ]
    .concat();
    check(&good(), &[1, 2, 3, 4, 5, 6, 9, 18], &faults, |input| {
        step(
            input.set.set(),
            &input.table,
            &input.query,
            input.ask.threshold,
            &mut input.record,
        )
    });
}

/// The inputs of the writer.
#[derive(Clone, Debug, PartialEq)]
struct Written {
    set: Owned,
    c: usize,
    asks: usize,
    numbers: Vec<u16>,
    queries: Vec<i8>,
    out: Vec<u8>,
}

/// Numbers at the ends of what the writer takes, and an output of exactly the
/// least length: 24 + 4 × 2 × 5 + 2 × (36 + 10) = 156 bits.
fn good_sheet() -> Written {
    Written {
        set: Owned::new(2, &[0, 0, 15, -16, 5, 1, 9, 9]),
        c: 5,
        asks: 2,
        numbers: vec![127, 128, 128, 32_767, 0, 1, 1, 0],
        queries: vec![-16, 15, 0, 1],
        out: vec![0xAB; 20],
    }
}

const WRITER_ORDER: [u8; 12] = [1, 2, 11, 12, 3, 5, 6, 7, 8, 9, 13, 14];

fn call_writer(input: &mut Written) -> Result<usize, u8> {
    write(
        input.set.set(),
        input.c,
        input.asks,
        &input.numbers,
        &input.queries,
        &mut input.out,
    )
}

#[test]
fn the_writer() {
    let faults: [Fault<Written>; 39] = [
        (1, |w| w.set.n = 0),
        (1, |w| w.set.n = 129),
        (1, |w| w.set.n = usize::MAX),
        (2, |w| w.set.d = 0),
        (2, |w| w.set.d = 65),
        (2, |w| w.set.d = usize::MAX),
        (11, |w| w.c = 0),
        (11, |w| w.c = 9),
        (11, |w| w.c = usize::MAX),
        (12, |w| w.asks = 128),
        (12, |w| w.asks = 1),
        (12, |w| w.asks = usize::MAX),
        // Four times this count is 8, if it wraps.
        (12, |w| w.asks = usize::MAX / 4 + 3),
        (12, |w| w.numbers.push(1)),
        (12, |w| w.numbers.truncate(4)),
        (12, |w| {
            w.asks = 128;
            w.numbers = [0, 1, 1, 0].repeat(128);
            w.queries = vec![0; 256];
        }),
        (3, |w| w.set.vectors.push(0)),
        (3, |w| shorten(&mut w.set.vectors)),
        (3, |w| w.set.vectors.clear()),
        (5, |w| w.queries.push(0)),
        (5, |w| shorten(&mut w.queries)),
        (5, |w| w.queries.clear()),
        (6, |w| w.numbers[0] = 128),
        (6, |w| w.numbers[0] = 65_535),
        (7, |w| w.numbers[1] = 0),
        (7, |w| w.numbers[1] = 129),
        (7, |w| w.numbers[1] = 65_535),
        (8, |w| w.numbers[2] = 0),
        (8, |w| w.numbers[2] = 129),
        (8, |w| w.numbers[2] = 65_535),
        (9, |w| w.numbers[3] = 32_768),
        (9, |w| w.numbers[3] = 65_535),
        (13, |w| {
            if let Some(value) = w.set.vectors.get_mut(7) {
                *value = 16;
            }
            w.queries.iter_mut().for_each(|value| *value = -17);
        }),
        (13, |w| w.queries.iter_mut().for_each(|value| *value = -17)),
        (13, |w| w.queries.iter_mut().for_each(|value| *value = 16)),
        (13, |w| w.queries.iter_mut().for_each(|value| *value = 127)),
        (13, |w| w.queries.iter_mut().for_each(|value| *value = -128)),
        (14, |w| shorten(&mut w.out)),
        (14, |w| w.out.clear()),
    ];
    assert_eq!(call_writer(&mut good_sheet()), Ok(20));
    check(&good_sheet(), &WRITER_ORDER, &faults, call_writer);
}

#[test]
fn the_writer_goes_ask_by_ask() {
    let faults: [(u8, usize, u16); 4] = [(6, 0, 128), (7, 1, 0), (8, 2, 0), (9, 3, 32_768)];
    for (first, cell, value) in faults {
        for (_, other_cell, other_value) in faults {
            let mut input = good_sheet();
            input.numbers[cell] = value;
            input.numbers[4 + other_cell] = other_value;
            assert_eq!(call_writer(&mut input), Err(first));
            // The second ask alone is refused too.
            let mut input = good_sheet();
            input.numbers[4 + cell] = value;
            assert_eq!(call_writer(&mut input), Err(first));
        }
    }
}

#[test]
fn the_writer_takes_asks_that_the_search_refuses() {
    let mut input = good_sheet();
    input.numbers = vec![4, 1, 2, 0, 127, 1, 128, 0];
    assert_eq!(call_writer(&mut input), Ok(20));
}

#[test]
fn every_value_is_held_against_the_coordinate_width() {
    for c in 1..=8 {
        let half = 1_i16 << (c - 1);
        for value in i8::MIN..=i8::MAX {
            let fits = (-half..half).contains(&i16::from(value));
            for in_query in [false, true] {
                let mut input = good_sheet();
                input.c = c;
                input.out = vec![0xAB; 40];
                input.set.vectors.fill(0);
                input.queries.fill(0);
                if in_query {
                    input.queries[3] = value;
                } else {
                    input.set.vectors[7] = value;
                }
                assert_eq!(call_writer(&mut input).err(), (!fits).then_some(13));
            }
        }
    }
}

/// A good sheet with at least one filling bit, and buffers for it.
#[derive(Clone, Debug, PartialEq)]
struct Lent {
    sheet: Vec<u8>,
    vectors: Vec<i8>,
    ask: u16,
    query: Vec<i8>,
}

fn good_lent() -> Lent {
    let mut written = good_sheet();
    call_writer(&mut written).unwrap();
    Lent {
        sheet: written.out,
        vectors: vec![66; 8],
        ask: 1,
        query: vec![66; 2],
    }
}

/// The faults of a sheet in their order: 15 for under 3 bytes, 12, 15, 16 for
/// length, 16 for filling.
const SHEET_FAULTS: [Fault<Lent>; 5] = [
    (15, |l| l.sheet.truncate(2)),
    (12, |l| l.sheet[2] |= 128),
    (15, |l| shorten(&mut l.sheet)),
    (16, |l| l.sheet.push(0)),
    (16, |l| *l.sheet.last_mut().unwrap() |= 1),
];

/// Every fault of a sheet and of what is lent beside it, alone and with each
/// later one. Numbers repeat in this order, so faults go by their place.
fn check_reader<T: std::fmt::Debug>(
    others: &[Fault<Lent>],
    call: impl Fn(&mut Lent) -> Result<T, u8>,
) {
    assert!(call(&mut good_lent()).is_ok());
    let faults = [&SHEET_FAULTS[..], others].concat();
    for (at, one) in faults.iter().enumerate() {
        for (later, other) in faults.iter().enumerate().skip(at) {
            // A sheet or a buffer cannot be too short and too long.
            let buffers = at >= SHEET_FAULTS.len() && one.0 == other.0;
            if (at, later) == (2, 3) || (buffers && at != later) {
                continue;
            }
            let mut lent = good_lent();
            // The earlier fault is made last, so that it is there whole.
            if later != at {
                other.1(&mut lent);
            }
            one.1(&mut lent);
            let before = lent.clone();
            assert_eq!(call(&mut lent).unwrap_err(), one.0, "for {before:?}");
            assert_eq!(lent, before, "a refusal changed something lent");
        }
    }
}

const VECTORS_FAULTS: [Fault<Lent>; 3] = [
    (3, |l| l.vectors.push(66)),
    (3, |l| shorten(&mut l.vectors)),
    (3, |l| l.vectors.clear()),
];

const ASK_FAULTS: [Fault<Lent>; 5] = [
    (17, |l| l.ask = 2),
    (17, |l| l.ask = 65_535),
    (5, |l| l.query.push(66)),
    (5, |l| shorten(&mut l.query)),
    (5, |l| l.query.clear()),
];

#[test]
fn reading_the_header() {
    check_reader(&[], |lent| read_header(&lent.sheet));
}

#[test]
fn reading_the_vectors() {
    check_reader(&VECTORS_FAULTS, |lent| {
        read_vectors(&lent.sheet, &mut lent.vectors)
    });
}

#[test]
fn reading_one_ask() {
    check_reader(&ASK_FAULTS, |lent| {
        read_ask(&lent.sheet, lent.ask, &mut lent.query)
    });
}

#[test]
fn sheets_under_3_bytes() {
    for length in 0..3 {
        for byte in [0, 1, 127, 128, 255] {
            let sheet = vec![byte; length];
            assert_eq!(read_header(&sheet), Err(15));
            assert_eq!(read_vectors(&sheet, &mut []), Err(15));
            assert_eq!(read_ask(&sheet, 0, &mut []), Err(15));
        }
    }
}

#[test]
fn every_ask_count_over_127() {
    for count in 128..=255 {
        let mut sheet = vec![0, 0, count];
        assert_eq!(read_header(&sheet), Err(12));
        sheet.resize(20_000, 255);
        assert_eq!(read_header(&sheet), Err(12));
    }
}

#[test]
fn every_length_of_a_sheet() {
    let sheet = good_lent().sheet;
    for length in 0..60 {
        let mut other = sheet.clone();
        other.resize(length, 0);
        let expected = match length {
            0..20 => Some(15),
            20 => None,
            _ => Some(16),
        };
        assert_eq!(read_header(&other).err(), expected);
    }
}

#[test]
fn every_filling_bit() {
    // 156 bits leave 4.
    let sheet = good_lent().sheet;
    for bit in 0..8 {
        let mut other = sheet.clone();
        other[19] ^= 1 << bit;
        let expected = if bit < 4 { Some(16) } else { None };
        assert_eq!(read_header(&other).err(), expected);
    }
}

#[test]
fn a_sheet_without_asks_has_no_ask_0() {
    let mut out = [0; 4];
    let set = Owned::new(1, &[0]);
    assert_eq!(write(set.set(), 8, 0, &[], &[], &mut out), Ok(4));
    assert_eq!(read_ask(&out, 0, &mut [0]), Err(17));
    assert_eq!(read_ask(&out, 0, &mut []), Err(17));
}
