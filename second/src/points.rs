//! Sets of points, the squared distance D and the order from a query.

use crate::refusals::refuse_if;

/// A set holds at most this many points.
pub const MOST_POINTS: usize = 128;
/// A point has at most this many coordinates.
pub const MOST_COORDINATES: usize = 64;

/// A lent set: `n` points of `d` coordinates, point after point.
///
/// Nothing is promised about the three parts; every entry checks them.
#[derive(Clone, Copy, Debug)]
pub struct Set<'a> {
    /// The number of points.
    pub n: usize,
    /// The number of coordinates of each point.
    pub d: usize,
    /// The coordinates, those of id 0 first.
    pub vectors: &'a [i8],
}

/// A point's place in the order from a query: its D, then its id.
///
/// Pairs compare by the first part and, if that ties, by the second, which is
/// exactly "smaller D first, and at equal D the lower id".
pub(crate) type Place = (u32, u16);

impl<'a> Set<'a> {
    /// Refusals 1 and 2, which say whether the two counts can be used at all.
    pub(crate) fn check_counts(self) -> Result<(), u8> {
        refuse_if(self.n == 0 || self.n > MOST_POINTS, 1)?;
        refuse_if(self.d == 0 || self.d > MOST_COORDINATES, 2)
    }

    /// Refusal 3. Only asked after 1 and 2, so the product is small.
    pub(crate) fn check_vectors(self) -> Result<(), u8> {
        refuse_if(self.vectors.len() != self.n * self.d, 3)
    }

    /// Refusals 1, 2 and 3, which begin most of the orders.
    pub(crate) fn check(self) -> Result<(), u8> {
        self.check_counts()?;
        self.check_vectors()
    }

    /// The coordinates of a point of a checked set.
    pub(crate) fn coordinates(self, id: usize) -> &'a [i8] {
        &self.vectors[id * self.d..(id + 1) * self.d]
    }

    /// The place of every point of a checked set in the order from `query`,
    /// listed by id.
    pub(crate) fn places(self, query: &[i8]) -> Vec<Place> {
        (0..self.n as u16)
            .map(|id| {
                let point = self.coordinates(usize::from(id));
                (squared_distance(point, query), id)
            })
            .collect()
    }
}

/// D, the sum of squared coordinate differences, over the coordinates that
/// both sides have. It is exact for up to 66,051 coordinates, so for all that
/// a set may hold.
pub fn squared_distance(p: &[i8], q: &[i8]) -> u32 {
    p.iter()
        .zip(q)
        .map(|(&a, &b)| u32::from(a.abs_diff(b)).pow(2))
        .sum()
}

/// The coordinates of one point as that part of the lent vectors. A refused
/// point gives an empty part; [`point_refusal`] says why.
pub fn point<'a>(set: Set<'a>, id: u16) -> &'a [i8] {
    match check_point(set, id) {
        Ok(()) => set.coordinates(usize::from(id)),
        Err(_) => &[],
    }
}

/// The number with which [`point`] refuses the same inputs, or 0 for none.
pub fn point_refusal(set: Set<'_>, id: u16) -> u8 {
    check_point(set, id).err().unwrap_or(0)
}

/// The order for one point: 1, 2, 3, 6.
fn check_point(set: Set<'_>, id: u16) -> Result<(), u8> {
    set.check()?;
    refuse_if(usize::from(id) >= set.n, 6)
}
