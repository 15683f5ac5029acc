//! Direct edges, labels and the label table.

use crate::points::{squared_distance, Set};
use crate::refusals::refuse_if;

/// What a built table holds on its diagonal.
pub const DIAGONAL: u16 = 65_535;
/// The largest threshold that a search or walk takes.
pub const MOST_THRESHOLD: u16 = 32_767;

/// Builds the label table of the set: `n` rows of `n` cells, row u, column v.
///
/// Refusals in order: 1, 2, 3, 4.
pub fn build(set: Set<'_>, table: &mut [u16]) -> Result<(), u8> {
    set.check()?;
    check_table(set, table)?;

    let distances = Distances::of(set);
    for (u, row) in table.chunks_exact_mut(set.n).enumerate() {
        let direct = direct_from(u, &distances);
        for (v, cell) in row.iter_mut().enumerate() {
            *cell = if u == v {
                DIAGONAL
            } else if direct.contains(&v) {
                0
            } else {
                label(u, v, &direct, &distances)
            };
        }
    }
    Ok(())
}

/// Refusal 4. Only asked after 1, so the product is small.
pub(crate) fn check_table(set: Set<'_>, table: &[u16]) -> Result<(), u8> {
    refuse_if(table.len() != set.n * set.n, 4)
}

/// The ids with an edge from `u` at the threshold, lowest first. The diagonal
/// cell is never looked at, whatever a lent table holds there.
pub(crate) fn edges_from(table: &[u16], n: usize, u: u16, threshold: u16) -> Vec<u16> {
    let row = &table[usize::from(u) * n..][..n];
    (0..n as u16)
        .filter(|&v| v != u && row[usize::from(v)] <= threshold)
        .collect()
}

/// 16 times the difference of the roots of two squared distances, the larger
/// root less the smaller, rounded down to a whole number.
///
/// With A = 256a and B = 256b the exact value is √A - √B. For a whole t from
/// 0 up, t does not exceed it exactly if t² is at most its square, which is
/// A + B - √(4AB). A whole number is at most that exactly if it is at most
/// A + B less the root *rounded up*. So the answer is a whole root of a whole
/// number, and nothing was rounded on the way that could tell.
pub fn steps_between_roots(a: u32, b: u32) -> u32 {
    let a = 256 * u128::from(a);
    let b = 256 * u128::from(b);
    let square = a + b - root_rounded_up(4 * a * b);
    // At most 16 times the root of a 32-bit number, so it fits in 20 bits.
    square.isqrt() as u32
}

/// The least whole number whose square is at least `x`.
fn root_rounded_up(x: u128) -> u128 {
    let root = x.isqrt();
    if root * root == x {
        root
    } else {
        root + 1
    }
}

/// The squared distances between all pairs of points of a checked set.
struct Distances {
    n: usize,
    cells: Vec<u32>,
}

impl Distances {
    fn of(set: Set<'_>) -> Self {
        let n = set.n;
        let mut cells = vec![0; n * n];
        for u in 0..n {
            for v in 0..u {
                let distance = squared_distance(set.coordinates(u), set.coordinates(v));
                cells[u * n + v] = distance;
                cells[v * n + u] = distance;
            }
        }
        Distances { n, cells }
    }

    /// D to every point from `u`.
    fn from(&self, u: usize) -> &[u32] {
        &self.cells[u * self.n..][..self.n]
    }
}

/// The ids to which the edge from u is direct.
fn direct_from(u: usize, distances: &Distances) -> Vec<usize> {
    let mut questions = Questions {
        u,
        distances,
        answers: vec![None; distances.n],
    };
    (0..distances.n)
        .filter(|&v| v != u && questions.is_direct(v))
        .collect()
}

/// The label of the edge from u to another id v that is not direct.
fn label(u: usize, v: usize, direct: &[usize], distances: &Distances) -> u16 {
    let (from_u, from_v) = (distances.from(u), distances.from(v));
    let least = direct
        .iter()
        .filter(|&&w| from_u[w] < from_u[v])
        .map(|&w| from_v[w])
        .min()
        .expect("a direct point stands between, or the edge would be direct");
    // At most 32,640, the value for the largest D and no rest.
    steps_between_roots(from_u[v], least) as u16
}

/// The questions about the edges from one point u.
struct Questions<'a> {
    u: usize,
    distances: &'a Distances,
    /// Whether the edge to each id is direct, once it has been asked.
    answers: Vec<Option<bool>>,
}

impl Questions<'_> {
    /// Whether the edge from u to another id v is direct, as the definition
    /// asks it. Each further question is about a smaller D from u, so the
    /// questions end, at most `n - 1` deep.
    fn is_direct(&mut self, v: usize) -> bool {
        if let Some(answer) = self.answers[v] {
            return answer;
        }
        // Neither u nor v is ever an r here: u has the full D to v, and v has
        // the full D to u.
        let (from_u, from_v) = (self.distances.from(self.u), self.distances.from(v));
        let whole = from_u[v];
        let hidden = from_u.iter().zip(from_v).enumerate().any(|(r, (&a, &b))| {
            let stands_between = a.max(b) < whole;
            stands_between && self.is_direct(r)
        });
        self.answers[v] = Some(!hidden);
        !hidden
    }
}
