//! Searches of built and of arbitrary tables.
use crate::difference::same;
use crate::lent::{Lent, Made};
use crate::sets::beside;
use crate::Tally;
use second::generate;

/// The lengths of the three lent buffers.
#[derive(Clone, Copy)]
struct Room {
    ids: usize,
    distances: usize,
    trail: usize,
}

const ENOUGH: Room = Room { ids: 128, distances: 128, trail: 128 };

pub fn compare(seed: u64, done: &mut Tally) {
    let made = Made::new(seed);
    let n = made.n;
    let mut random = generate::Random::new(seed ^ 0x5ea);
    for (table, threshold) in
        [(&made.built, random.below(200) as u16), (&made.built, 0), (&made.arbitrary, generate::threshold(seed))]
    {
        let lent = made.with(table);
        if n <= 6 {
            // all starts and all widths that matter, and one above
            for start in 0..n as u16 {
                for width in 1..=n as u16 + 1 {
                    for k in [1, width] {
                        one(seed, lent, [start, width, k, threshold], ENOUGH, done);
                    }
                }
            }
        } else {
            for _ in 0..12 {
                let start = random.below(n) as u16;
                let width = 1 + random.below(128) as u16;
                let k = 1 + random.below(width as usize) as u16;
                one(seed, lent, [start, width, k, threshold], ENOUGH, done);
            }
        }
    }
    refused(seed, made.with(&made.built), n, &mut random, done);
}

/// Numbers and lengths at and beside their limits.
fn refused(seed: u64, right: Lent, n: usize, random: &mut generate::Random, done: &mut Tally) {
    let pick = |random: &mut generate::Random, from: &[u16]| from[random.below(from.len())];
    for _ in 0..8 {
        let lent = right.beside(random);
        let start = pick(random, &[0, 0, n as u16 - 1, n as u16, 65535]);
        let width = pick(random, &[0, 1, 5, 128, 129, 65535]);
        let k = pick(random, &[0, 1, 1, width, width.wrapping_add(1)]);
        let threshold = pick(random, &[0, 32767, 32768, 65535]);
        let mut room = |right: usize| beside(random, right).min(200);
        let room = Room { ids: room(k as usize), distances: room(k as usize), trail: room(n) };
        // and with what is right, so that the later checks are reached
        for lent in [lent, right] {
            one(seed, lent, [start, width, k, threshold], room, done);
        }
    }
}

fn one(seed: u64, lent: Lent, [start, width, k, threshold]: [u16; 4], room: Room, done: &mut Tally) {
    let fresh = || (vec![0xAAAAu16; room.ids], vec![0xBBBB_BBBBu32; room.distances], vec![0xCCCCu16; room.trail]);
    let (mut a, mut b) = (fresh(), fresh());
    let ask = magpiehinge::Ask { start, width, k, threshold };
    let x = magpiehinge::search(lent.ours(), lent.table, lent.query, ask, &mut a.0, &mut a.1, &mut a.2);
    let ask = second::Ask { start, width, k, threshold };
    let y = second::search::search(lent.theirs(), lent.table, lent.query, ask, &mut b.0, &mut b.1, &mut b.2);
    let x = x.map(|c| (c.found, c.seen, c.walked));
    let y = y.map(|c| (c.found as usize, c.seen as usize, c.walked as usize));
    same("a search's answer", seed, &x, &y);
    same("the ids of a search", seed, &a.0, &b.0);
    same("the distances of a search", seed, &a.1, &b.1);
    same("the trail of a search", seed, &a.2, &b.2);
    done.searches += 1;
}
