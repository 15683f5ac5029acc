//! What a picture shows: the places, the edges at a threshold, and a search.

use second::labels::build;
use second::search::search;
use second::Ask;

use crate::content::Content;

/// The points that lie at one place.
#[derive(Debug, PartialEq, Eq)]
pub struct Place {
    /// The two coordinates.
    pub at: (i8, i8),
    /// The ids, lowest first.
    pub ids: Vec<u16>,
}

/// An edge between two places, by their numbers in the list.
#[derive(Debug, PartialEq, Eq)]
pub struct Edge {
    /// Where it starts.
    pub from: usize,
    /// Where it ends.
    pub to: usize,
    /// Its label.
    pub label: u16,
    /// The label of the edge back, if there is one and both are direct or
    /// both are not. Then one line stands for the two.
    pub back: Option<u16>,
}

/// The graph of a set of two coordinates at a threshold.
pub struct Graph {
    /// The threshold.
    pub threshold: u16,
    /// Where points lie.
    pub places: Vec<Place>,
    /// The edges.
    pub edges: Vec<Edge>,
    table: Vec<u16>,
}

/// What a search of one ask gave.
#[derive(Debug, PartialEq, Eq)]
pub struct Answer {
    /// The ids found.
    pub found: Vec<u16>,
    /// How many points were seen.
    pub seen: u16,
    /// The trail.
    pub trail: Vec<u16>,
    /// For each id of the trail after the first, the id of the trail from
    /// which it was first seen.
    pub first_seen: Vec<(u16, u16)>,
}

impl Graph {
    /// The graph of a sheet's set. The number of coordinates is told apart from
    /// a refusal, because a picture has two by its nature.
    pub fn of(content: &Content, threshold: u16) -> Result<Self, String> {
        if content.d != 2 {
            return Err(format!(
                "a picture needs points of 2 coordinates, and these have {}",
                content.d
            ));
        }
        let mut table = vec![0; content.n * content.n];
        build(content.set(), &mut table).map_err(|number| format!("refused {number}"))?;
        let places = places(&content.vectors);
        let edges = edges(&places, &table, content.n, threshold);
        Ok(Graph {
            threshold,
            places,
            edges,
            table,
        })
    }

    /// The search of an ask at the graph's threshold, or its refusal number.
    pub fn search(&self, content: &Content, ask: Ask, query: &[i8]) -> Result<Answer, u8> {
        let ask = Ask {
            threshold: self.threshold,
            ..ask
        };
        let n = content.n;
        let k = usize::from(ask.k);
        let (mut found, mut distances) = (vec![0; k], vec![0; k]);
        let mut trail = vec![0; n];
        let counts = search(
            content.set(),
            &self.table,
            query,
            ask,
            &mut found,
            &mut distances,
            &mut trail,
        )?;
        found.truncate(usize::from(counts.found));
        trail.truncate(usize::from(counts.walked));
        // Points become seen in the order of the trail, so the first point of
        // the trail with an edge to another is the one that showed it.
        let first_seen = trail
            .iter()
            .skip(1)
            .filter_map(|&v| {
                let edge = |&&u: &&u16| {
                    u != v && self.table[usize::from(u) * n + usize::from(v)] <= ask.threshold
                };
                trail.iter().find(edge).map(|&u| (u, v))
            })
            .collect();
        Ok(Answer {
            found,
            seen: counts.seen,
            trail,
            first_seen,
        })
    }

    /// The place of an id.
    pub fn place_of(&self, id: u16) -> usize {
        let here = |place: &Place| place.ids.contains(&id);
        self.places.iter().position(here).unwrap_or(0)
    }
}

fn places(vectors: &[i8]) -> Vec<Place> {
    let mut places: Vec<Place> = Vec::new();
    for (id, point) in vectors.chunks_exact(2).enumerate() {
        let at = (point[0], point[1]);
        match places.iter_mut().find(|place| place.at == at) {
            Some(place) => place.ids.push(id as u16),
            None => places.push(Place {
                at,
                ids: vec![id as u16],
            }),
        }
    }
    places
}

/// Labels come from distances alone, so those between the first ids of two
/// places hold for all their ids.
fn edges(places: &[Place], table: &[u16], n: usize, threshold: u16) -> Vec<Edge> {
    let label = |a: usize, b: usize| {
        let (u, v) = (places[a].ids[0], places[b].ids[0]);
        table[usize::from(u) * n + usize::from(v)]
    };
    let mut edges = Vec::new();
    for from in 0..places.len() {
        for to in (0..places.len()).filter(|&to| to != from) {
            let (there, back) = (label(from, to), label(to, from));
            let paired = back <= threshold && (there == 0) == (back == 0);
            if there <= threshold && !(paired && from > to) {
                edges.push(Edge {
                    from,
                    to,
                    label: there,
                    back: paired.then_some(back),
                });
            }
        }
    }
    edges
}
