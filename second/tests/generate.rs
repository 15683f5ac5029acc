//! The generator gives what its kinds say.

mod common;

use common::*;
use second::generate::{kind, query, set, sheet, table, threshold, KINDS};
use second::lines::print;
use second::sheet::{read_ask, read_header, read_vectors};
use second::Ask;

fn printed(sheet: &[u8]) -> String {
    String::from_utf8(print(sheet)).unwrap()
}

#[test]
fn the_same_seed_gives_the_same() {
    for seed in [0, 1, 17, 1_000, u64::MAX] {
        assert_eq!(sheet(seed), sheet(seed));
        assert_eq!(set(seed), set(seed));
        assert_eq!(table(seed, 5), table(seed, 5));
        assert_eq!(query(seed, 3, &[1, 2, 3]), query(seed, 3, &[1, 2, 3]));
    }
}

#[test]
fn every_kind_is_what_it_says() {
    for seed in 0..60 * KINDS.len() as u64 {
        let sheet = sheet(seed);
        let header = read_header(&sheet);
        match kind(seed) {
            "one point" => assert_eq!(header.unwrap().n, 1),
            "one coordinate" => assert_eq!(header.unwrap().d, 1),
            "64 coordinates" => assert_eq!(header.unwrap().d, 64),
            "128 points" => assert_eq!(header.unwrap().n, 128),
            "no asks" => assert_eq!(header.unwrap().asks, 0),
            "127 asks" => assert_eq!(header.unwrap().asks, 127),
            "largest sheet" => assert_eq!(sheet.len(), 16_895),
            "asks that the search refuses" => {
                let lines = printed(&sheet);
                assert!(header.unwrap().asks > 0);
                for line in lines.lines().skip(1) {
                    assert!(line.ends_with("refused 6") || line.ends_with("refused 8"));
                }
            }
            "roots beside whole steps" => {
                // The label itself is the one at which the trail changes.
                let trails: Vec<String> = printed(&sheet)
                    .lines()
                    .filter(|line| line.starts_with("trail"))
                    .map(str::to_string)
                    .collect();
                assert_eq!(trails, ["trail 0 1 2", "trail 0 2 1", "trail 0 2 1"]);
            }
            "damaged: truncated" => assert_eq!(header, Err(15)),
            "damaged: one byte too long" => assert_eq!(header, Err(16)),
            "damaged: a filling bit set" => assert_eq!(header, Err(16)),
            "damaged: over 127 asks" => assert_eq!(header, Err(12)),
            "damaged: empty" => assert_eq!((sheet.len(), header), (0, Err(15))),
            "damaged: one byte" => assert_eq!((sheet.len(), header), (1, Err(15))),
            "damaged: two bytes" => assert_eq!((sheet.len(), header), (2, Err(15))),
            "damaged: one bit turned" | "damaged: any bytes" => {}
            _ => assert!(header.is_ok()),
        }
    }
}

#[test]
fn lines_have_their_form() {
    for seed in 0..40 * KINDS.len() as u64 {
        let sheet = sheet(seed);
        let text = printed(&sheet);
        assert!(text.ends_with('\n') && !text.contains("  ") && !text.contains(" \n"));
        let mut lines = text.lines();
        match read_header(&sheet) {
            Err(number) => assert_eq!(text, format!("refused {number}\n")),
            Ok(header) => {
                let first = format!("set {} {} {}", header.n, header.d, header.asks);
                assert_eq!(lines.next(), Some(&first[..]));
                for ask in 0..header.asks {
                    let parts: Vec<&str> = lines.next().unwrap().split(' ').collect();
                    assert_eq!(parts[..2], ["ask", &ask.to_string()]);
                    if parts[2] == "refused" {
                        assert_eq!(parts.len(), 4);
                        continue;
                    }
                    assert_eq!((parts[2], parts[4], parts[6]), ("found", "seen", "walked"));
                    let near: Vec<&str> = lines.next().unwrap().split(' ').collect();
                    let trail: Vec<&str> = lines.next().unwrap().split(' ').collect();
                    assert_eq!((near[0], trail[0]), ("near", "trail"));
                    assert_eq!(near.len(), 1 + 2 * parts[3].parse::<usize>().unwrap());
                    assert_eq!(trail.len(), 1 + parts[7].parse::<usize>().unwrap());
                }
                assert_eq!(lines.next(), None);
            }
        }
    }
}

#[test]
fn sets_cover_sizes_ties_and_equal_points() {
    let sets: Vec<Owned> = (0..800).map(Owned::generated).collect();
    assert!(sets.iter().any(|set| set.n == 1));
    assert!(sets.iter().any(|set| set.n == 128));
    assert!(sets.iter().any(|set| set.d == 1));
    assert!(sets.iter().any(|set| set.d == 64));
    assert!(sets.iter().all(|set| set.vectors.len() == set.n * set.d));
    let some = |what: &dyn Fn(&Owned) -> bool| sets.iter().filter(|set| what(set)).count() > 40;
    assert!(some(
        &|set| set.n > 1 && (1..set.n).any(|v| set.between(0, v) == 0)
    ));
    assert!(some(&|set| {
        (1..set.n).any(|v| (1..v).any(|w| set.between(0, v) == set.between(0, w)))
    }));
    assert!(some(
        &|set| set.vectors.contains(&-128) || set.vectors.contains(&127)
    ));
    // And enough labels that are not 0.
    let labelled = sets[..200]
        .iter()
        .filter(|set| set.table().iter().any(|&cell| cell != 0 && cell != 65_535))
        .count();
    assert!(labelled > 60, "{labelled}");
}

#[test]
fn tables_have_cells_at_and_beside_their_threshold() {
    let (mut at, mut under, mut over) = (0, 0, 0);
    for seed in 0..200 {
        let threshold = threshold(seed);
        assert!(threshold <= 32_767);
        let table = table(seed, 9);
        assert_eq!(table.len(), 81);
        at += table.iter().filter(|&&cell| cell == threshold).count();
        under += table
            .iter()
            .filter(|&&cell| cell.wrapping_add(1) == threshold)
            .count();
        over += table.iter().filter(|&&cell| cell == threshold + 1).count();
    }
    assert!(at > 500 && under > 300 && over > 500, "{at} {under} {over}");
    assert_eq!(table(3, 0), []);
}

#[test]
fn queries_have_the_asked_number_of_coordinates() {
    for seed in 0..200 {
        assert_eq!(query(seed, 3, &[1, 2, 3, 4, 5, 6]).len(), 3);
        assert_eq!(query(seed, 2, &[]).len(), 2);
        assert_eq!(query(seed, 0, &[]).len(), 0);
    }
}

type Asks = Vec<(Ask, Vec<i8>)>;

/// A sheet's set and asks, if it can be read.
fn contents(sheet: &[u8]) -> Option<(Owned, Asks)> {
    let header = read_header(sheet).ok()?;
    let mut vectors = vec![0; header.n * header.d];
    read_vectors(sheet, &mut vectors).ok()?;
    let asks = (0..header.asks as u16).map(|number| {
        let mut query = vec![0; header.d];
        let ask = read_ask(sheet, number, &mut query).unwrap();
        (ask, query)
    });
    Some((Owned::new(header.d, &vectors), asks.collect()))
}

#[test]
fn each_shipped_error_shows_in_what_some_sheets_print() {
    for mistake in [
        Mistake::TieStands,
        Mistake::AnyHides,
        Mistake::NearestToU,
        Mistake::FloatRoot,
    ] {
        let caught = (0..1_000)
            .filter(|&seed| {
                let Some((set, asks)) = contents(&sheet(seed)) else {
                    return false;
                };
                if set.n > 40 {
                    return false;
                }
                let wrong = plain_build(&set, mistake).table;
                let own = set.table();
                asks.iter().any(|(ask, query)| {
                    let right = searched(&set, &own, query, *ask);
                    right.is_ok_and(|right| right != plain_search(&set, &wrong, query, *ask))
                })
            })
            .count();
        assert!(caught >= 10, "{mistake:?} was caught {caught} times");
    }
}
