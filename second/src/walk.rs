//! The greedy walk over a lent table, whole or step by step.

use crate::labels::{check_table, edges_from, MOST_THRESHOLD};
use crate::points::{Place, Set};
use crate::refusals::refuse_if;

/// A record with this many moves, or more, cannot move again.
pub const MOST_MOVES: u16 = 127;

/// The state of a walk, kept by the caller and changed by each step.
#[derive(Clone, Copy, Debug, PartialEq, Eq)]
pub struct Record {
    /// The id of the point that the walk stands on.
    pub current: u16,
    /// How often it has moved.
    pub moves: u16,
}

/// The answer of a step that is not refused.
#[derive(Clone, Copy, Debug, PartialEq, Eq)]
pub enum Step {
    /// The record now stands on a strictly nearer point.
    Moved,
    /// No point with an edge from the current one is strictly nearer.
    AtEnd,
}

/// Where a whole walk ends.
#[derive(Clone, Copy, Debug, PartialEq, Eq)]
pub struct End {
    /// The last id.
    pub id: u16,
    /// D from the query to the last point.
    pub distance: u32,
    /// The number of moves, at most `n - 1`.
    pub moves: u16,
}

/// Makes one step of the walk that `record` keeps.
///
/// Refusals in order: 1 to 6 (6 for the record's current id), 9, and then 18
/// if the step is due to move a record that has 127 moves or more.
pub fn step(
    set: Set<'_>,
    table: &[u16],
    query: &[i8],
    threshold: u16,
    record: &mut Record,
) -> Result<Step, u8> {
    check(set, table, query, record.current, threshold)?;
    match next(&set.places(query), table, record.current, threshold) {
        None => Ok(Step::AtEnd),
        Some(id) => {
            refuse_if(record.moves >= MOST_MOVES, 18)?;
            record.current = id;
            record.moves += 1;
            Ok(Step::Moved)
        }
    }
}

/// Walks from `start` to the end.
///
/// Refusals in order: 1 to 6, 9.
pub fn walk(
    set: Set<'_>,
    table: &[u16],
    query: &[i8],
    start: u16,
    threshold: u16,
) -> Result<End, u8> {
    check(set, table, query, start, threshold)?;
    let places = set.places(query);
    // D falls strictly along the way, so no point comes twice and the way
    // ends.
    let way: Vec<u16> = std::iter::successors(Some(start), |&current| {
        next(&places, table, current, threshold)
    })
    .collect();
    let id = way[way.len() - 1];
    Ok(End {
        id,
        distance: places[usize::from(id)].0,
        moves: (way.len() - 1) as u16,
    })
}

/// The refusals that step and whole walk share.
fn check(
    set: Set<'_>,
    table: &[u16],
    query: &[i8],
    current: u16,
    threshold: u16,
) -> Result<(), u8> {
    set.check()?;
    check_table(set, table)?;
    refuse_if(query.len() != set.d, 5)?;
    refuse_if(usize::from(current) >= set.n, 6)?;
    refuse_if(threshold > MOST_THRESHOLD, 9)
}

/// The id that a step from `current` is due to move to, if any: the first
/// point in order with an edge from it, if that one is strictly nearer.
fn next(places: &[Place], table: &[u16], current: u16, threshold: u16) -> Option<u16> {
    let (here, _) = places[usize::from(current)];
    edges_from(table, places.len(), current, threshold)
        .into_iter()
        .map(|v| places[usize::from(v)])
        .min()
        .filter(|&(distance, _)| distance < here)
        .map(|(_, id)| id)
}
