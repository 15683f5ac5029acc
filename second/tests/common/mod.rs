//! What several test files share.
//!
//! `plain_*` follow the build scope's words in the most literal way, with
//! none of the library's methods, and can make the errors that makers have
//! shipped.

#![allow(dead_code)] // Each test file uses a part of it.

use second::labels::build;
use second::points::{point, squared_distance};
use second::search::{search, Counts};
use second::{Ask, Set};

/// A set with its vectors.
#[derive(Clone, Debug, PartialEq)]
pub struct Owned {
    pub n: usize,
    pub d: usize,
    pub vectors: Vec<i8>,
}

impl Owned {
    pub fn new(d: usize, vectors: &[i8]) -> Self {
        Owned {
            n: vectors.len() / d,
            d,
            vectors: vectors.to_vec(),
        }
    }

    pub fn generated(seed: u64) -> Self {
        let (n, d, vectors) = second::generate::set(seed);
        Owned { n, d, vectors }
    }

    /// The first generated set of at most `n` points from a seed on.
    pub fn small(seed: u64, n: usize) -> Self {
        (0..)
            .map(|by| Owned::generated(seed.wrapping_mul(1_000).wrapping_add(by)))
            .find(|set| set.n <= n)
            .unwrap()
    }

    pub fn set(&self) -> Set<'_> {
        Set {
            n: self.n,
            d: self.d,
            vectors: &self.vectors,
        }
    }

    /// The set's own table.
    pub fn table(&self) -> Vec<u16> {
        let mut table = vec![7; self.n * self.n];
        build(self.set(), &mut table).unwrap();
        table
    }

    /// D between two ids.
    pub fn between(&self, u: usize, v: usize) -> u32 {
        squared_distance(point(self.set(), u as u16), point(self.set(), v as u16))
    }

    /// D between an id and a query.
    pub fn to_query(&self, id: usize, query: &[i8]) -> u32 {
        squared_distance(point(self.set(), id as u16), query)
    }
}

/// P1 to P4: three points 0, 3, 5.
pub fn line() -> Owned {
    Owned::new(1, &[0, 3, 5])
}

/// P5.
pub fn tied() -> Owned {
    Owned::new(2, &[0, 0, 5, 0, 4, 3])
}

/// P6 and P7.
pub fn hidden() -> Owned {
    Owned::new(2, &[0, 0, 10, 0, 8, 9, -2, 13])
}

/// From 0, point 1 is the nearest direct one to 0, and 2 the nearest to 3.
pub fn two_direct() -> Owned {
    Owned::new(2, &[0, 0, 1, 3, 6, -3, 10, 0])
}

/// D from 0 to 2 is 4,000,250, from 1 to 2 it is 1.
pub fn rounding() -> Owned {
    let far = [vec![127; 5], vec![117; 5], vec![122; 54]].concat();
    let mut beside = far.clone();
    beside[63] -= 1;
    Owned::new(64, &[vec![-128; 64], beside, far].concat())
}

/// What a search that is not refused gives, cut to what it filled.
#[derive(Clone, Debug, PartialEq)]
pub struct Result3 {
    pub counts: Counts,
    pub ids: Vec<u16>,
    pub distances: Vec<u32>,
    pub trail: Vec<u16>,
}

pub fn searched(set: &Owned, table: &[u16], query: &[i8], ask: Ask) -> Result<Result3, u8> {
    let mut ids = vec![0; usize::from(ask.k)];
    let mut distances = vec![0; usize::from(ask.k)];
    let mut trail = vec![0; set.n];
    let counts = search(
        set.set(),
        table,
        query,
        ask,
        &mut ids,
        &mut distances,
        &mut trail,
    )?;
    ids.truncate(usize::from(counts.found));
    distances.truncate(usize::from(counts.found));
    trail.truncate(usize::from(counts.walked));
    Ok(Result3 {
        counts,
        ids,
        distances,
        trail,
    })
}

/// The search, scanning all points for everything it needs to know.
pub fn plain_search(set: &Owned, table: &[u16], query: &[i8], ask: Ask) -> Result3 {
    let n = set.n;
    let mut seen = vec![false; n];
    seen[usize::from(ask.start)] = true;
    let mut trail: Vec<u16> = Vec::new();
    let mut order: Vec<usize> = (0..n).collect();
    order.sort_by_key(|&id| set.to_query(id, query));
    loop {
        let seen_in_order: Vec<usize> = order.iter().copied().filter(|&id| seen[id]).collect();
        let first = seen_in_order
            .iter()
            .position(|&id| !trail.contains(&(id as u16)));
        let Some(before) = first.filter(|&before| before < usize::from(ask.width)) else {
            let ids: Vec<u16> = seen_in_order
                .iter()
                .take(usize::from(ask.k))
                .map(|&id| id as u16)
                .collect();
            return Result3 {
                counts: Counts {
                    found: ids.len() as u16,
                    seen: seen_in_order.len() as u16,
                    walked: trail.len() as u16,
                },
                distances: ids
                    .iter()
                    .map(|&id| set.to_query(usize::from(id), query))
                    .collect(),
                ids,
                trail,
            };
        };
        let x = seen_in_order[before];
        trail.push(x as u16);
        for v in 0..n {
            if v != x && table[x * n + v] <= ask.threshold {
                seen[v] = true;
            }
        }
    }
}

/// An error to make while building.
#[derive(Clone, Copy, Debug, PartialEq)]
pub enum Mistake {
    None,
    /// Treating a tie as standing between.
    TieStands,
    /// Letting an edge that is not direct hide another.
    AnyHides,
    /// Working the label from the direct point nearest to u.
    NearestToU,
    /// A root in 32-bit floats.
    FloatRoot,
}

/// Which edges are direct, row after row, and the labels.
pub struct Plain {
    pub direct: Vec<bool>,
    pub table: Vec<u16>,
}

/// Builds by going through the points in order from u.
pub fn plain_build(set: &Owned, mistake: Mistake) -> Plain {
    let n = set.n;
    let mut direct = vec![false; n * n];
    let mut table = vec![65_535; n * n];
    for u in 0..n {
        let mut order: Vec<usize> = (0..n).filter(|&v| v != u).collect();
        order.sort_by_key(|&v| set.between(u, v));
        for (at, &v) in order.iter().enumerate() {
            let whole = set.between(u, v);
            let less = |part: u32| {
                if mistake == Mistake::TieStands {
                    part <= whole
                } else {
                    part < whole
                }
            };
            let earlier = &order[..at];
            let hides = |&&r: &&usize| {
                less(set.between(u, r))
                    && less(set.between(v, r))
                    && (direct[u * n + r] || mistake == Mistake::AnyHides)
            };
            if !earlier.iter().any(|r| hides(&r)) {
                direct[u * n + v] = true;
                table[u * n + v] = 0;
                continue;
            }
            let w = earlier
                .iter()
                .copied()
                .filter(|&w| direct[u * n + w] && less(set.between(u, w)))
                .min_by_key(|&w| {
                    if mistake == Mistake::NearestToU {
                        set.between(u, w)
                    } else {
                        set.between(w, v)
                    }
                })
                .unwrap();
            let rest = set.between(w, v);
            table[u * n + v] = if mistake == Mistake::FloatRoot {
                (16.0 * ((whole as f32).sqrt() - (rest as f32).sqrt())) as u16
            } else {
                largest_step(whole, rest) as u16
            };
        }
    }
    Plain { direct, table }
}

/// The build scope's two inequalities: whether t does not exceed the exact
/// value of the label for D(u,v) = a and D(w,v) = b.
pub fn does_not_exceed(t: u32, a: u32, b: u32) -> bool {
    let (t, a, b) = (i128::from(t), 256 * i128::from(a), 256 * i128::from(b));
    a >= b + t * t && (a - b - t * t).pow(2) >= 4 * t * t * b
}

/// The largest t from 0 up that does not exceed, by halving. The scope's rule
/// holds up to a point and not after it.
pub fn largest_step(a: u32, b: u32) -> u32 {
    let (mut yes, mut no) = (0, 1 << 21);
    while no - yes > 1 {
        let middle = (yes + no) / 2;
        if does_not_exceed(middle, a, b) {
            yes = middle;
        } else {
            no = middle;
        }
    }
    yes
}
