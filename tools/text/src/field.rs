//! The field of points: where each shape of a picture lies.

use crate::graph::{Answer, Edge, Graph};
use crate::picture::Asked;
use crate::svg::{bent, control, line, round_box, text, Spot};

/// Room around the points for bent lines, marks and the numbers of the grid.
const MARGIN: f64 = 64.0;
/// Room above the points for the title's lines.
const TOP: f64 = 80.0;
/// The least size of the field of points.
const FIELD: f64 = 600.0;
/// Where points lie close the field grows to keep them apart, up to this.
const MOST_FIELD: f64 = 2400.0;
/// How far apart two places should be.
const APART: f64 = 44.0;
/// A letter's width at the size of ids, a little generous.
pub const LETTER: f64 = 7.0;

/// Where the points lie in the picture.
pub struct Field {
    least: Spot,
    most: Spot,
    scale: f64,
    /// The width of the whole picture.
    pub width: f64,
}

impl Field {
    /// The field of a graph and, with an ask, its query.
    pub fn around(graph: &Graph, asked: Option<&Asked<'_>>) -> Self {
        let mut all: Vec<Spot> = graph.places.iter().map(|place| spot(place.at)).collect();
        // Equal places are one, so two of them are at least 1 apart.
        let mut closest = f64::MAX;
        for (index, a) in all.iter().enumerate() {
            for b in &all[..index] {
                closest = closest.min((a.0 - b.0).hypot(a.1 - b.1));
            }
        }
        all.extend(asked.map(|asked| spot(asked.query)));
        let low = |part: fn(&Spot) -> f64| all.iter().map(part).fold(f64::MAX, f64::min);
        let high = |part: fn(&Spot) -> f64| all.iter().map(part).fold(f64::MIN, f64::max);
        let least = (low(|spot| spot.0), low(|spot| spot.1));
        let most = (high(|spot| spot.0), high(|spot| spot.1));
        // One scale for both sides: distances are what the picture is about.
        let span = (most.0 - least.0).max(most.1 - least.1).max(1.0);
        let size = (APART * span / closest).clamp(FIELD, MOST_FIELD);
        let scale = size / span;
        Field {
            least,
            most,
            scale,
            width: ((most.0 - least.0) * scale).max(FIELD) + 2.0 * MARGIN,
        }
    }

    /// Where the field ends.
    pub fn bottom(&self) -> f64 {
        self.at((self.least.0, self.least.1)).1 + MARGIN
    }

    /// The spot of a pair of coordinates. y grows upwards, as on paper.
    fn at(&self, (x, y): Spot) -> Spot {
        // A set that is narrow stands in the middle.
        let side = (self.width - (self.most.0 - self.least.0) * self.scale) / 2.0;
        (
            side + (x - self.least.0) * self.scale,
            TOP + MARGIN + (self.most.1 - y) * self.scale,
        )
    }

    /// Thin lines at round numbers, so that coordinates can be read.
    pub fn grid(&self) -> String {
        let span = (self.most.0 - self.least.0).max(self.most.1 - self.least.1);
        let step = [1.0, 2.0, 5.0, 10.0, 20.0, 50.0]
            .into_iter()
            .find(|step| span / step <= 10.0)
            .unwrap_or(50.0);
        let rounds = |least: f64, most: f64| {
            let (first, last) = ((least / step).ceil() as i32, (most / step).floor() as i32);
            (first..=last).map(move |count| f64::from(count) * step)
        };
        let (left, top) = self.at((self.least.0, self.most.1));
        let (right, bottom) = self.at((self.most.0, self.least.1));
        let (left, right) = (left - 26.0, right + 26.0);
        let (top, bottom) = (top - 26.0, bottom + 26.0);
        let mut lines = String::new();
        for x in rounds(self.least.0, self.most.0) {
            let at = self.at((x, 0.0)).0;
            lines += &line("grid", (at, top), (at, bottom));
            lines += &text("tick middle", (at, bottom + 16.0), &x.to_string());
        }
        for y in rounds(self.least.1, self.most.1) {
            let at = self.at((0.0, y)).1;
            lines += &line("grid", (left, at), (right, at));
            lines += &text("tick end", (left - 4.0, at + 4.0), &y.to_string());
        }
        lines
    }

    /// The two ends of an edge at the boxes of its places, and its bend. A
    /// direct edge is straight; another one often has a point near its middle
    /// and goes around it.
    fn ends(&self, graph: &Graph, from: usize, to: usize, direct: bool) -> (Spot, Spot, f64) {
        let (a, b) = (&graph.places[from], &graph.places[to]);
        let (p, q) = (self.at(spot(a.at)), self.at(spot(b.at)));
        let length = (p.0 - q.0).hypot(p.1 - q.1);
        let bend = if direct {
            0.0
        } else {
            (0.12 * length).clamp(14.0, 34.0)
        };
        let middle = control(p, q, bend);
        (
            leave(p, middle, half(&a.ids)),
            leave(q, middle, half(&b.ids)),
            bend,
        )
    }

    /// The line of an edge, with an arrow head if it goes one way only.
    pub fn edge(&self, graph: &Graph, edge: &Edge) -> String {
        let direct = edge.label == 0;
        let (p, q, bend) = self.ends(graph, edge.from, edge.to, direct);
        let ids = |place: usize| ids_in_rows(&graph.places[place].ids).join(",");
        let (from, to) = (ids(edge.from), ids(edge.to));
        let mut hint = format!("{from} to {to}: {}", edge.label);
        if let Some(back) = edge.back {
            hint += &format!("; {to} to {from}: {back}");
        }
        let class = if direct { "direct" } else { "other" };
        bent(class, p, q, bend, edge.back.is_none(), &hint)
    }

    /// The labels of an edge, each nearer to where it starts.
    pub fn labels(&self, graph: &Graph, edge: &Edge) -> String {
        let (p, q, bend) = self.ends(graph, edge.from, edge.to, false);
        let middle = control(p, q, bend);
        let along = |part: f64, a: f64, b: f64, c: f64| {
            (1.0 - part).powi(2) * a + 2.0 * part * (1.0 - part) * b + part * part * c
        };
        let at = |part: f64| {
            (
                along(part, p.0, middle.0, q.0),
                along(part, p.1, middle.1, q.1) + 4.0,
            )
        };
        let mut numbers = text("label", at(0.35), &edge.label.to_string());
        if let Some(back) = edge.back {
            numbers += &text("label", at(0.65), &back.to_string());
        }
        numbers
    }

    /// The edges over which the points of the trail were first seen.
    pub fn trail(&self, graph: &Graph, answer: &Answer) -> String {
        let mut lines = String::new();
        for &(u, v) in &answer.first_seen {
            let (from, to) = (graph.place_of(u), graph.place_of(v));
            if from == to {
                continue;
            }
            // On the line that is drawn for this edge, whichever way that goes.
            let edge = graph.edges.iter().find(|edge| {
                (edge.from, edge.to) == (from, to)
                    || edge.back.is_some() && (edge.from, edge.to) == (to, from)
            });
            let Some(edge) = edge else { continue };
            let (p, q, bend) = self.ends(graph, edge.from, edge.to, edge.label == 0);
            let hint = format!("{v} first seen from {u}");
            lines += &if edge.from == from {
                bent("trail", p, q, bend, true, &hint)
            } else {
                bent("trail", q, p, -bend, true, &hint)
            };
        }
        lines
    }

    /// A cross whose arms show even where a box lies on it.
    pub fn query(&self, graph: &Graph, query: (i8, i8)) -> String {
        let (x, y) = self.at(spot(query));
        let covering = graph.places.iter().find(|place| place.at == query);
        let (half_width, half_height) = covering.map_or((0.0, 0.0), |place| half(&place.ids));
        let arm = half_width.max(half_height) + 10.0;
        cross((x, y), arm) + &text("asked", (x + 12.0, y + arm + 12.0), "query")
    }

    /// The box of a place, with ids, colour and numbers on the trail.
    pub fn place(&self, graph: &Graph, index: usize, asked: Option<&Asked<'_>>) -> String {
        let place = &graph.places[index];
        let (x, y) = self.at(spot(place.at));
        let answer = asked.map(|asked| asked.answer);
        let found = answer.is_some_and(|a| place.ids.iter().any(|id| a.found.contains(id)));
        let rows = ids_in_rows(&place.ids);
        let (half_width, half_height) = half(&place.ids);
        let class = if found { "found" } else { "point" };
        let hint = format!("{} at ({}, {})", rows.join(","), place.at.0, place.at.1);
        let mut shapes = round_box(class, (x, y), (half_width, half_height), &hint);
        for (row, ids) in rows.iter().enumerate() {
            let down = 14.0 * row as f64 - 7.0 * (rows.len() - 1) as f64 + 4.0;
            shapes += &text("id", (x, y + down), ids);
        }
        let places: Vec<String> = answer
            .map_or(&[][..], |answer| &answer.trail)
            .iter()
            .zip(1..)
            .filter(|(id, _)| place.ids.contains(id))
            .map(|(_, number)| number.to_string())
            .collect();
        if !places.is_empty() {
            let at = (x + half_width - 2.0, y - half_height - 2.0);
            shapes += &text("mark", at, &places.join(","));
        }
        shapes
    }
}

/// The mark of a query.
pub fn cross((x, y): Spot, arm: f64) -> String {
    line("query", (x - arm, y - arm), (x + arm, y + arm))
        + &line("query", (x - arm, y + arm), (x + arm, y - arm))
}

fn spot((x, y): (i8, i8)) -> Spot {
    (f64::from(x), f64::from(y))
}

/// Ids two a row, so that a box of many stays small.
fn ids_in_rows(ids: &[u16]) -> Vec<String> {
    let row = |ids: &[u16]| ids.iter().map(u16::to_string).collect::<Vec<_>>().join(",");
    ids.chunks(2).map(row).collect()
}

/// Half the width and half the height of the box of some ids.
fn half(ids: &[u16]) -> Spot {
    let rows = ids_in_rows(ids);
    let letters = rows.iter().map(String::len).max().unwrap_or(1) as f64;
    (
        (LETTER * letters / 2.0 + 4.0).max(11.0),
        7.0 * rows.len() as f64 + 4.0,
    )
}

/// Where the way from the middle of a box leaves it.
fn leave(from: Spot, to: Spot, half: Spot) -> Spot {
    let (dx, dy) = (to.0 - from.0, to.1 - from.1);
    let part = ((half.0 + 2.0) / dx.abs()).min((half.1 + 2.0) / dy.abs());
    (from.0 + part * dx, from.1 + part * dy)
}
