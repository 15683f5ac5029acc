//! The search of a lent table from a start point.

use std::collections::BTreeSet;

use crate::labels::{check_table, edges_from, MOST_THRESHOLD};
use crate::points::{Place, Set};
use crate::refusals::refuse_if;

/// The largest width.
pub const MOST_WIDTH: u16 = 128;

/// The four numbers of an ask.
#[derive(Clone, Copy, Debug, PartialEq, Eq)]
pub struct Ask {
    /// The id that is seen at first.
    pub start: u16,
    /// How many seen points have to come before a point to stop the search.
    pub width: u16,
    /// How many points are asked for.
    pub k: u16,
    /// The largest label that counts as an edge.
    pub threshold: u16,
}

/// What a search counts.
#[derive(Clone, Copy, Debug, PartialEq, Eq)]
pub struct Counts {
    /// The number of answers, at most k.
    pub found: u16,
    /// The number of points seen.
    pub seen: u16,
    /// The length of the trail.
    pub walked: u16,
}

/// Searches the lent table as it is.
///
/// The first `found` cells of `ids` and `distances` get the answers in order
/// from the query, the first `walked` cells of `trail` get the trail. All
/// cells past them keep what they held.
///
/// Refusals in order: 1 to 10.
pub fn search(
    set: Set<'_>,
    table: &[u16],
    query: &[i8],
    ask: Ask,
    ids: &mut [u16],
    distances: &mut [u32],
    trail: &mut [u16],
) -> Result<Counts, u8> {
    set.check()?;
    check_table(set, table)?;
    refuse_if(query.len() != set.d, 5)?;
    refuse_if(usize::from(ask.start) >= set.n, 6)?;
    refuse_if(ask.width == 0 || ask.width > MOST_WIDTH, 7)?;
    refuse_if(ask.k == 0 || ask.k > ask.width, 8)?;
    refuse_if(ask.threshold > MOST_THRESHOLD, 9)?;
    let k = usize::from(ask.k);
    refuse_if(
        ids.len() < k || distances.len() < k || trail.len() < set.n,
        10,
    )?;

    let (seen, walked) = follow(set, table, query, ask);

    let answers = || seen.iter().take(k);
    for (cell, place) in ids.iter_mut().zip(answers()) {
        *cell = place.1;
    }
    for (cell, place) in distances.iter_mut().zip(answers()) {
        *cell = place.0;
    }
    trail[..walked.len()].copy_from_slice(&walked);
    Ok(Counts {
        found: answers().count() as u16,
        seen: seen.len() as u16,
        walked: walked.len() as u16,
    })
}

/// The seen points in order from the query, and the trail.
fn follow(set: Set<'_>, table: &[u16], query: &[i8], ask: Ask) -> (BTreeSet<Place>, Vec<u16>) {
    let places = set.places(query);
    let width = usize::from(ask.width);

    let mut seen = BTreeSet::from([places[usize::from(ask.start)]]);
    // The seen points that are not on the trail yet.
    let mut waiting = seen.clone();
    let mut trail = Vec::new();
    while let Some(x) = waiting.pop_first() {
        if seen.range(..x).take(width).count() == width {
            break;
        }
        trail.push(x.1);
        for v in edges_from(table, set.n, x.1, ask.threshold) {
            let place = places[usize::from(v)];
            if seen.insert(place) {
                waiting.insert(place);
            }
        }
    }
    (seen, trail)
}
