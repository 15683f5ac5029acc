//! Seeded sheets, sets, queries and tables for comparing two searchers.
//!
//! The same seed always gives the same bytes. Large random sets rarely hold a
//! tie, and ties are where searchers differ, so most kinds here are small and
//! crowded on purpose.

use crate::labels::{build, MOST_THRESHOLD};
use crate::points::{Set, MOST_COORDINATES, MOST_POINTS};
use crate::search::{Ask, MOST_WIDTH};
use crate::sheet::{write, MOST_ASKS, MOST_BYTES, MOST_COORDINATE_WIDTH};

/// The kinds of sheets. The kind of a seed is its remainder by their number,
/// so seeds in a row go through all of them.
pub const KINDS: [&str; 25] = [
    "grid of ties",
    "identical points",
    "points on a line",
    "extreme coordinates",
    "scattered points",
    "one point",
    "one coordinate",
    "64 coordinates",
    "128 points",
    "no asks",
    "127 asks",
    "asks that the search refuses",
    "thresholds at labels",
    "queries at points",
    "roots beside whole steps",
    "largest sheet",
    "damaged: truncated",
    "damaged: one byte too long",
    "damaged: a filling bit set",
    "damaged: over 127 asks",
    "damaged: empty",
    "damaged: one byte",
    "damaged: two bytes",
    "damaged: one bit turned",
    "damaged: any bytes",
];

/// The kind of the sheet that a seed gives.
pub fn kind(seed: u64) -> &'static str {
    KINDS[(seed % KINDS.len() as u64) as usize]
}

/// The sheet of a seed.
pub fn sheet(seed: u64) -> Vec<u8> {
    let mut random = Random::new(seed);
    let random = &mut random;
    match kind(seed) {
        "grid of ties" => Draft::any(random, Shape::Grid).finish(),
        "identical points" => Draft::any(random, Shape::Repeats).finish(),
        "points on a line" => Draft::any(random, Shape::Line).finish(),
        "extreme coordinates" => Draft::any(random, Shape::Extremes).finish(),
        "scattered points" => Draft::any(random, Shape::Scattered).finish(),
        "one point" => {
            let d = any_d(random);
            let asks = random.below(6);
            Draft::any_shape(random, 1, d, asks).finish()
        }
        "one coordinate" => {
            let n = any_n(random);
            let asks = random.below(12);
            Draft::any_shape(random, n, 1, asks).finish()
        }
        "64 coordinates" => {
            let n = 1 + random.below(24);
            let asks = random.below(8);
            Draft::any_shape(random, n, MOST_COORDINATES, asks).finish()
        }
        "128 points" => {
            let d = any_d(random).min(8);
            let asks = random.below(8);
            Draft::any_shape(random, MOST_POINTS, d, asks).finish()
        }
        "no asks" => {
            let (n, d) = (any_n(random), any_d(random));
            Draft::any_shape(random, n, d, 0).finish()
        }
        "127 asks" => {
            let (n, d) = (1 + random.below(12), 1 + random.below(3));
            Draft::any_shape(random, n, d, MOST_ASKS).finish()
        }
        "asks that the search refuses" => {
            let mut draft = small(random);
            let asks = 1 + random.below(8);
            draft.asks.clear();
            draft.add_asks(random, asks, |random, draft| {
                let ask = draft.any_ask(random);
                draft.spoil(random, ask)
            });
            draft.finish()
        }
        "thresholds at labels" => {
            let mut draft = small(random);
            let labels = draft.labels();
            let asks = 8 + random.below(24);
            draft.asks.clear();
            draft.add_asks(random, asks, |random, draft| Ask {
                threshold: beside_label(random, &labels),
                ..draft.any_ask(random)
            });
            draft.finish()
        }
        "queries at points" => {
            let mut draft = small(random);
            draft.asks.clear();
            for id in 0..draft.n {
                let ask = draft.any_ask(random);
                let query = draft.vectors[id * draft.d..][..draft.d].to_vec();
                draft.asks.push((ask, query));
            }
            draft.finish()
        }
        "roots beside whole steps" => beside_steps(random).finish(),
        "largest sheet" => {
            let mut draft = Draft::any_shape(random, MOST_POINTS, MOST_COORDINATES, MOST_ASKS);
            draft.c = MOST_COORDINATE_WIDTH;
            draft.finish()
        }
        "damaged: truncated" => {
            let mut sheet = small(random).finish();
            // The header stays whole: shorter ones are kinds of their own.
            let most = sheet.len() - 3;
            let cut = if random.one_in(2) {
                1
            } else {
                1 + random.below(most)
            };
            sheet.truncate(sheet.len() - cut);
            sheet
        }
        "damaged: one byte too long" => {
            let mut sheet = small(random).finish();
            sheet.push(if random.one_in(2) { 0 } else { random.byte() });
            sheet
        }
        "damaged: a filling bit set" => fill(random),
        "damaged: over 127 asks" => {
            let mut sheet = small(random).finish();
            sheet[2] |= 128;
            sheet
        }
        "damaged: empty" => Vec::new(),
        "damaged: one byte" => vec![random.byte()],
        "damaged: two bytes" => vec![random.byte(), random.byte()],
        "damaged: one bit turned" => {
            let mut sheet = small(random).finish();
            let at = random.below(sheet.len());
            sheet[at] ^= 1 << random.below(8);
            sheet
        }
        // What is left: any bytes.
        _ => (0..random.below(80)).map(|_| random.byte()).collect(),
    }
}

/// The set of a seed: n, d and the vectors.
pub fn set(seed: u64) -> (usize, usize, Vec<i8>) {
    let mut random = Random::new(seed);
    let (n, d) = (any_n(&mut random), any_d(&mut random));
    let shape = random.pick(&SHAPES);
    // All widths, and the full one more often than the others.
    let width = random.pick(&[1, 2, 3, 4, 5, 6, 7, 8, 8, 8]);
    let vectors = shape.vectors(&mut random, n, d, width);
    (n, d, vectors)
}

/// A query of a seed for a set: at a point, beside one, halfway between two
/// or anywhere. An empty set gets one anywhere.
pub fn query(seed: u64, d: usize, vectors: &[i8]) -> Vec<i8> {
    let mut random = Random::new(seed);
    any_query(&mut random, d, vectors, MOST_COORDINATE_WIDTH)
}

/// The threshold that a seed's [`table`] was made around.
pub fn threshold(seed: u64) -> u16 {
    any_threshold(&mut Random::new(seed))
}

/// A table of a seed for `n` points: not one that a set gives, but cells of
/// any value, or none, few, many or all of them edges at the seed's
/// [`threshold`], often exactly at it or beside it. Diagonal cells are of any
/// value too.
pub fn table(seed: u64, n: usize) -> Vec<u16> {
    let mut random = Random::new(seed);
    let threshold = any_threshold(&mut random);
    let beside = [
        threshold.saturating_sub(1),
        threshold,
        threshold + 1,
        threshold + 1,
    ];
    let style = random.below(6);
    let mut table: Vec<u16> = (0..n * n)
        .map(|_| match style {
            0 => random.next() as u16,
            1 => random.pick(&beside),
            2 if random.one_in(8) => threshold,
            2 => u16::MAX,
            3 => random.pick(&[0, u16::MAX]),
            4 if random.one_in(16) => threshold + 1,
            4 => random.below(usize::from(threshold) + 1) as u16,
            _ => random.pick(&[
                0,
                1,
                threshold,
                MOST_THRESHOLD,
                MOST_THRESHOLD + 1,
                u16::MAX,
            ]),
        })
        .collect();
    for id in 0..n {
        table[id * n + id] = match random.below(4) {
            0 => 0,
            1 => threshold,
            2 => u16::MAX,
            _ => random.next() as u16,
        };
    }
    table
}

/// A small generator (splitmix64): short, quick, and the same everywhere.
pub struct Random(u64);

impl Random {
    /// The generator of a seed.
    pub fn new(seed: u64) -> Self {
        Random(seed)
    }

    /// The next 64 bits.
    #[allow(clippy::should_implement_trait)] // It never ends, so no Option.
    pub fn next(&mut self) -> u64 {
        self.0 = self.0.wrapping_add(0x9E37_79B9_7F4A_7C15);
        let mut z = self.0;
        z = (z ^ (z >> 30)).wrapping_mul(0xBF58_476D_1CE4_E5B9);
        z = (z ^ (z >> 27)).wrapping_mul(0x94D0_49BB_1331_11EB);
        z ^ (z >> 31)
    }

    /// A number from 0 to below `end`, which has to be above 0.
    pub fn below(&mut self, end: usize) -> usize {
        // The remainder favours small numbers by less than one in 2^40 here.
        (self.next() % end as u64) as usize
    }

    /// A number from `least` to `most`, both included.
    pub fn within(&mut self, least: i8, most: i8) -> i8 {
        let span = i32::from(most) - i32::from(least) + 1;
        (i32::from(least) + self.below(span as usize) as i32) as i8
    }

    /// True once in `times`, on average.
    pub fn one_in(&mut self, times: usize) -> bool {
        self.below(times) == 0
    }

    /// One of the items.
    pub fn pick<T: Copy>(&mut self, items: &[T]) -> T {
        items[self.below(items.len())]
    }

    /// Any byte.
    pub fn byte(&mut self) -> u8 {
        self.next() as u8
    }
}

/// How the points of a set lie.
#[derive(Clone, Copy)]
enum Shape {
    Grid,
    Repeats,
    Line,
    Extremes,
    Scattered,
}

const SHAPES: [Shape; 5] = [
    Shape::Grid,
    Shape::Repeats,
    Shape::Line,
    Shape::Extremes,
    Shape::Scattered,
];

impl Shape {
    /// `n` points of `d` coordinates that fit `c` bits.
    fn vectors(self, random: &mut Random, n: usize, d: usize, c: usize) -> Vec<i8> {
        let (least, most) = range(c);
        match self {
            Shape::Grid => {
                let side = random.pick(&[1, 2, 3]);
                let corner = random.within(least, most.saturating_sub(side).max(least));
                (0..n * d)
                    .map(|_| random.within(corner, corner.saturating_add(side).min(most)))
                    .collect()
            }
            Shape::Repeats => {
                let kinds = 1 + random.below(n.div_ceil(2));
                let some = Shape::Scattered.vectors(random, kinds, d, c);
                (0..n)
                    .flat_map(|_| some[random.below(kinds) * d..][..d].to_vec())
                    .collect()
            }
            Shape::Line => {
                let origin: Vec<i8> = (0..d).map(|_| random.within(least, most)).collect();
                let slope: Vec<i32> = (0..d).map(|_| random.below(5) as i32 - 2).collect();
                (0..n)
                    .flat_map(|_| {
                        let along = random.below(2 * n + 1) as i32 - n as i32;
                        let point: Vec<i8> = origin
                            .iter()
                            .zip(&slope)
                            .map(|(&from, &by)| {
                                let at = i32::from(from) + along * by;
                                at.clamp(i32::from(least), i32::from(most)) as i8
                            })
                            .collect();
                        point
                    })
                    .collect()
            }
            Shape::Extremes => {
                // Half of such sets are bare corners, full of equal D.
                let values = [least, most, least, most, least / 2, 0, -1, most / 2];
                let used = if random.one_in(2) { 2 } else { values.len() };
                (0..n * d).map(|_| random.pick(&values[..used])).collect()
            }
            Shape::Scattered => (0..n * d).map(|_| random.within(least, most)).collect(),
        }
    }
}

/// A sheet under way.
struct Draft {
    n: usize,
    d: usize,
    c: usize,
    vectors: Vec<i8>,
    asks: Vec<(Ask, Vec<i8>)>,
}

impl Draft {
    /// Any sheet of a shape.
    fn any(random: &mut Random, shape: Shape) -> Self {
        let (n, d) = (any_n(random), any_d(random));
        let asks = random.below(12);
        Draft::new(random, shape, n, d, asks)
    }

    /// A sheet of any shape and the given counts.
    fn any_shape(random: &mut Random, n: usize, d: usize, asks: usize) -> Self {
        let shape = random.pick(&SHAPES);
        Draft::new(random, shape, n, d, asks)
    }

    fn new(random: &mut Random, shape: Shape, n: usize, d: usize, asks: usize) -> Self {
        let c = 1 + random.below(MOST_COORDINATE_WIDTH);
        let mut draft = Draft {
            n,
            d,
            c,
            vectors: shape.vectors(random, n, d, c),
            asks: Vec::new(),
        };
        // Labels of large sets take long, and the small ones ask the same.
        let labels = if n <= 32 && asks > 0 {
            draft.labels()
        } else {
            Vec::new()
        };
        draft.add_asks(random, asks, |random, draft| {
            let mut ask = draft.any_ask(random);
            if random.one_in(3) {
                ask.threshold = beside_label(random, &labels);
            }
            if random.one_in(12) {
                ask = draft.spoil(random, ask);
            }
            ask
        });
        draft
    }

    /// Adds asks with queries of every sort.
    fn add_asks(
        &mut self,
        random: &mut Random,
        count: usize,
        mut next: impl FnMut(&mut Random, &Draft) -> Ask,
    ) {
        for _ in 0..count {
            let ask = next(random, self);
            let query = any_query(random, self.d, &self.vectors, self.c);
            self.asks.push((ask, query));
        }
    }

    /// An ask that the search takes.
    fn any_ask(&self, random: &mut Random) -> Ask {
        let n = self.n as u16;
        let any = 1 + random.below(usize::from(MOST_WIDTH)) as u16;
        let few = 1 + random.below(usize::from(n)) as u16;
        let sizes = [
            1,
            2,
            3,
            few,
            few,
            any,
            n,
            (n + 1).min(MOST_WIDTH),
            MOST_WIDTH,
        ];
        let width = random.pick(&sizes);
        let ks = [1, width, 1 + random.below(usize::from(width)) as u16];
        Ask {
            start: random.below(self.n) as u16,
            width,
            k: random.pick(&ks),
            threshold: any_threshold(random),
        }
    }

    /// The same ask with a fault for which the search refuses it.
    fn spoil(&self, random: &mut Random, mut ask: Ask) -> Ask {
        let n = self.n as u16;
        let past = MOST_POINTS as u16 - n;
        let both = random.one_in(3);
        let first = random.one_in(2);
        if past > 0 && (both || first) {
            // The first id past the set is the one a slip would let through.
            let any = random.below(usize::from(past)) as u16;
            ask.start = n + random.pick(&[0, past - 1, any]);
        }
        if both || !first || past == 0 {
            ask.width = ask.width.min(MOST_WIDTH - 1);
            let over = MOST_WIDTH - ask.width;
            let any = 1 + random.below(usize::from(over)) as u16;
            ask.k = ask.width + random.pick(&[1, over, any]);
        }
        ask
    }

    /// The labels above 0 of the set's own table, once each.
    fn labels(&self) -> Vec<u16> {
        let mut table = vec![0; self.n * self.n];
        build(self.set(), &mut table).expect("a generated set is not refused");
        table.retain(|&label| label != 0 && label <= MOST_THRESHOLD);
        table.sort_unstable();
        table.dedup();
        table
    }

    fn set(&self) -> Set<'_> {
        Set {
            n: self.n,
            d: self.d,
            vectors: &self.vectors,
        }
    }

    /// The finished sheet.
    fn finish(&self) -> Vec<u8> {
        let numbers: Vec<u16> = self
            .asks
            .iter()
            .flat_map(|(ask, _)| [ask.start, ask.width, ask.k, ask.threshold])
            .collect();
        let queries: Vec<i8> = self.asks.iter().flat_map(|(_, q)| q.clone()).collect();
        let mut out = vec![0; MOST_BYTES];
        let length = write(
            self.set(),
            self.c,
            self.asks.len(),
            &numbers,
            &queries,
            &mut out,
        )
        .expect("a generated sheet can be written");
        out.truncate(length);
        out
    }
}

/// A sheet of few points and few coordinates.
fn small(random: &mut Random) -> Draft {
    let (n, d) = (1 + random.below(10), 1 + random.below(3));
    let asks = random.below(6);
    Draft::any_shape(random, n, d, asks)
}

/// Three points u, w, v whose label from u to v lies just under a whole step,
/// so closely that rough roots carry it over, asked at and beside it.
///
/// 256 × (64j² + j) is one less than the square of 128j + 1. Differences of j
/// in 64 coordinates make 64j²; moving some of them up and as many down by m
/// adds 2m² for each two and changes nothing else, which makes the rest.
fn beside_steps(random: &mut Random) -> Draft {
    let d = MOST_COORDINATES;
    let (j, differences) = loop {
        let j = 2 * (15 + random.below(112));
        let mut differences = vec![j; d];
        let mut rest = j / 2;
        for two in differences.chunks_exact_mut(2) {
            let m = rest.isqrt().min(255 - j);
            two[0] += m;
            two[1] -= m;
            rest -= m * m;
        }
        if rest == 0 {
            break (j, differences);
        }
    };
    // w lies beside v, on the side of u, so that it is direct and its D to v
    // is a square.
    let near = 1 + random.below(9);
    let mut nearer = differences.clone();
    nearer[d - 1] -= near;
    let label = (128 * j - 16 * near) as u16;

    let upwards: Vec<bool> = (0..d).map(|_| random.one_in(2)).collect();
    let from_corner = |differences: &[usize]| -> Vec<i8> {
        let signed = differences.iter().zip(&upwards).map(|(&by, &up)| {
            let by = by as i16;
            (if up { by - 128 } else { 127 - by }) as i8
        });
        signed.collect()
    };
    let v = from_corner(&differences);
    let vectors = [from_corner(&vec![0; d]), from_corner(&nearer), v.clone()].concat();
    let asks = [label - 1, label, label + 1].map(|threshold| {
        let ask = Ask {
            start: 0,
            width: 3,
            k: 3,
            threshold,
        };
        (ask, v.clone())
    });
    Draft {
        n: 3,
        d,
        c: MOST_COORDINATE_WIDTH,
        vectors,
        asks: asks.to_vec(),
    }
}

/// A sheet with one or more filling bits set.
fn fill(random: &mut Random) -> Vec<u8> {
    loop {
        let draft = small(random);
        let bits = 24 + draft.n * draft.d * draft.c + draft.asks.len() * (36 + draft.d * draft.c);
        let filling = 8 * bits.div_ceil(8) - bits;
        if filling > 0 {
            let mut sheet = draft.finish();
            if let Some(last) = sheet.last_mut() {
                *last |= 1 << random.below(filling);
            }
            return sheet;
        }
    }
}

/// Mostly small counts of points, now and then a large one.
fn any_n(random: &mut Random) -> usize {
    match random.below(16) {
        0 => 1,
        1 => 2,
        2 => MOST_POINTS - random.below(2),
        3 | 4 => 1 + random.below(MOST_POINTS),
        _ => 3 + random.below(14),
    }
}

/// Mostly few coordinates, now and then many.
fn any_d(random: &mut Random) -> usize {
    match random.below(12) {
        0 => MOST_COORDINATES,
        1 => 1 + random.below(MOST_COORDINATES),
        2 | 3 => 1,
        _ => 2 + random.below(3),
    }
}

/// The least and the greatest number in two's complement of `c` bits.
fn range(c: usize) -> (i8, i8) {
    (i8::MIN >> (8 - c), i8::MAX >> (8 - c))
}

fn any_threshold(random: &mut Random) -> u16 {
    let any = random.below(usize::from(MOST_THRESHOLD) + 1) as u16;
    let low = random.below(200) as u16;
    random.pick(&[0, 0, 1, low, low, low, any, MOST_THRESHOLD])
}

/// A threshold at one of the labels or just beside it.
fn beside_label(random: &mut Random, labels: &[u16]) -> u16 {
    if labels.is_empty() {
        return any_threshold(random);
    }
    let label = random.pick(labels);
    random.pick(&[label - 1, label, (label + 1).min(MOST_THRESHOLD)])
}

/// A query that fits `c` bits: at a point, beside one, halfway between two,
/// at a corner or anywhere.
fn any_query(random: &mut Random, d: usize, vectors: &[i8], c: usize) -> Vec<i8> {
    let (least, most) = range(c);
    let some_point = |random: &mut Random| match vectors.len().checked_div(d) {
        None | Some(0) => vec![0; d],
        Some(n) => vectors[random.below(n) * d..][..d].to_vec(),
    };
    match random.below(8) {
        0 | 1 => some_point(random),
        2 | 3 => {
            let mut query = some_point(random);
            for value in &mut query {
                let by = random.within(-1, 1);
                *value = value.saturating_add(by).clamp(least, most);
            }
            query
        }
        4 | 5 => {
            let (p, q) = (some_point(random), some_point(random));
            p.iter()
                .zip(&q)
                .map(|(&a, &b)| ((i16::from(a) + i16::from(b)) / 2) as i8)
                .collect()
        }
        6 => (0..d).map(|_| random.pick(&[least, most])).collect(),
        _ => (0..d).map(|_| random.within(least, most)).collect(),
    }
}
