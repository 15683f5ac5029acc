//! Points and tables.
use crate::difference::same;
use crate::Tally;
use second::generate;

/// A number beside one that is right, for lengths and counts that have to be refused.
pub fn beside(random: &mut generate::Random, right: usize) -> usize {
    match random.below(8) {
        0 => 0,
        1 => right + 1,
        2 => right.saturating_sub(1),
        3 => 129,
        4 => 65,
        5 => usize::MAX,
        _ => right,
    }
}

pub fn compare(seed: u64, done: &mut Tally) {
    let (n, d, vectors) = generate::set(seed);
    let ours = magpiehinge::Set { n, d, vectors: &vectors };
    let theirs = second::Set { n, d, vectors: &vectors };
    tables(seed, ours, theirs, n * n, done);
    for id in 0..n + 2 {
        points(seed, ours, theirs, id, done);
    }

    // lengths and counts beside the right ones
    let mut random = generate::Random::new(seed ^ 0x5e7);
    for _ in 0..6 {
        let (m, e) = (beside(&mut random, n), beside(&mut random, d));
        let len = beside(&mut random, vectors.len()).min(vectors.len());
        let part = &vectors[..len];
        let ours = magpiehinge::Set { n: m, d: e, vectors: part };
        let theirs = second::Set { n: m, d: e, vectors: part };
        let cells = beside(&mut random, n * n).min(20_000);
        tables(seed, ours, theirs, cells, done);
        points(seed, ours, theirs, random.below(140), done);
    }
}

fn tables(seed: u64, ours: magpiehinge::Set, theirs: second::Set, cells: usize, done: &mut Tally) {
    let mut a: Vec<u16> = (0..cells).map(|i| (i * 7) as u16).collect();
    let mut b = a.clone();
    let x = magpiehinge::build(ours, &mut a);
    let y = second::labels::build(theirs, &mut b);
    same("a build's answer", seed, &x, &y);
    same("a table", seed, &a, &b);
    done.tables += 1;
}

fn points(seed: u64, ours: magpiehinge::Set, theirs: second::Set, id: usize, done: &mut Tally) {
    let a = magpiehinge::point(ours, id);
    let b = second::points::point(theirs, id as u16);
    let number = second::points::point_refusal(theirs, id as u16);
    same("a point", seed, &a.unwrap_or(&[]).to_vec(), &b.to_vec());
    same("a point's refusal", seed, &a.err().unwrap_or(0), &number);
    done.points += 1;
}
