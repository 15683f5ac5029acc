//! Steps of records of every kind, and whole walks.
use crate::difference::same;
use crate::lent::{Lent, Made};
use crate::Tally;
use second::generate;

pub fn compare(seed: u64, done: &mut Tally) {
    let made = Made::new(seed);
    let n = made.n;
    for (table, threshold) in [(&made.built, 0), (&made.built, 40), (&made.arbitrary, generate::threshold(seed))] {
        let lent = made.with(table);
        for id in (0..n as u16).step_by(1 + n / 24) {
            for moves in [0, 126, 127, 65535] {
                step(seed, lent, threshold, id, moves, done);
            }
            walk(seed, lent, threshold, id, done);
        }
    }
    let mut random = generate::Random::new(seed ^ 0x3a1);
    let right = made.with(&made.built);
    for _ in 0..6 {
        let lent = right.beside(&mut random);
        let id = [0, n as u16 - 1, n as u16, 65535][random.below(4)];
        let threshold = [0, 32767, 32768, 65535][random.below(4)];
        for lent in [lent, right] {
            step(seed, lent, threshold, id, 127, done);
            walk(seed, lent, threshold, id, done);
        }
    }
}

fn step(seed: u64, lent: Lent, threshold: u16, current: u16, moves: u16, done: &mut Tally) {
    let mut a = magpiehinge::Record { current, moves };
    let mut b = second::walk::Record { current, moves };
    let x = magpiehinge::step(lent.ours(), lent.table, lent.query, threshold, &mut a);
    let y = second::walk::step(lent.theirs(), lent.table, lent.query, threshold, &mut b);
    same("a step's answer", seed, &x, &y.map(|s| matches!(s, second::walk::Step::Moved)));
    same("a record", seed, &(a.current, a.moves), &(b.current, b.moves));
    done.steps += 1;
}

fn walk(seed: u64, lent: Lent, threshold: u16, start: u16, done: &mut Tally) {
    let x = magpiehinge::walk(lent.ours(), lent.table, lent.query, start, threshold);
    let y = second::walk::walk(lent.theirs(), lent.table, lent.query, start, threshold);
    same("a walk", seed, &x.map(|e| (e.last, e.distance, e.moves)), &y.map(|e| (e.id, e.distance, e.moves)));
    done.walks += 1;
}
