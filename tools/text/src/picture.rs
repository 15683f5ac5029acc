//! The picture of a set of two coordinates.

use crate::content::counted;
use crate::field::{cross, Field, LETTER};
use crate::graph::{Answer, Edge, Graph};
use crate::svg::{bent, head, round_box, text};

/// Height of a line of the legend.
const ROW: f64 = 24.0;
/// With more labels than this the numbers would cover each other.
const MOST_LABELS: usize = 24;

const STYLE: &str = "<style>
text { font-family: sans-serif; font-size: 12px; fill: #222; }
.title { font-size: 18px; font-weight: bold; }
.tick { fill: #777; }
.middle, .id { text-anchor: middle; }
.end { text-anchor: end; }
.id { font-weight: bold; }
.label { text-anchor: middle; font-size: 11px; fill: #555; paint-order: stroke; stroke: white; stroke-width: 3px; }
.mark { font-weight: bold; fill: #b34700; paint-order: stroke; stroke: white; stroke-width: 4px; }
.asked { font-weight: bold; fill: #b00020; paint-order: stroke; stroke: white; stroke-width: 4px; }
.grid { stroke: #e8e8e8; }
.direct { fill: none; stroke: #1f3a5f; stroke-width: 2.2; }
.other { fill: none; stroke: #7c8ba1; stroke-width: 1; stroke-dasharray: 5 3; }
.trail { fill: none; stroke: #e06a00; stroke-width: 4; stroke-opacity: 0.75; }
.query { stroke: #b00020; stroke-width: 3; }
.point { fill: white; stroke: #1f3a5f; stroke-width: 1.5; }
.found { fill: #bfe8c2; stroke: #157a2c; stroke-width: 3; }
</style>
";

/// An ask to draw: its number, its query, what its search gave.
pub struct Asked<'a> {
    /// The number of the ask in its sheet.
    pub number: usize,
    /// The query.
    pub query: (i8, i8),
    /// What the search gave.
    pub answer: &'a Answer,
}

/// The whole picture.
pub fn draw(name: &str, graph: &Graph, asked: Option<&Asked<'_>>) -> String {
    let field = Field::around(graph, asked);
    let legend = legend(graph, asked, field.bottom());
    let (width, height) = (field.width, legend.1);
    let mut picture = format!(
        "<svg xmlns=\"http://www.w3.org/2000/svg\" width=\"{width:.0}\" height=\"{height:.0}\" viewBox=\"0 0 {width:.0} {height:.0}\">\n{STYLE}<defs>\n"
    );
    for (class, colour) in [
        ("direct", "#1f3a5f"),
        ("other", "#7c8ba1"),
        ("trail", "#e06a00"),
    ] {
        picture += &head(class, colour);
    }
    picture += "</defs>\n<rect width=\"100%\" height=\"100%\" fill=\"white\"/>\n";
    picture += &title(name, graph, asked, width);
    picture += &field.grid();
    // Later shapes lie above earlier ones: points and numbers stay readable.
    let (direct, other): (Vec<&Edge>, Vec<&Edge>) =
        graph.edges.iter().partition(|edge| edge.label == 0);
    // Thousands of edges would hide the direct ones unless they are pale.
    let opacity = (150.0 / other.len() as f64).clamp(0.25, 1.0);
    picture += &format!("<g opacity=\"{opacity:.2}\">\n");
    for edge in &other {
        picture += &field.edge(graph, edge);
    }
    picture += "</g>\n";
    for edge in direct {
        picture += &field.edge(graph, edge);
    }
    if let Some(asked) = asked {
        picture += &field.trail(graph, asked.answer);
        picture += &field.query(graph, asked.query);
    }
    for index in 0..graph.places.len() {
        picture += &field.place(graph, index, asked);
    }
    if labels_fit(graph) {
        for edge in other {
            picture += &field.labels(graph, edge);
        }
    }
    picture + &legend.0 + "</svg>\n"
}

/// Whether the labels are printed beside their edges.
fn labels_fit(graph: &Graph) -> bool {
    graph.edges.iter().filter(|edge| edge.label > 0).count() <= MOST_LABELS
}

fn title(name: &str, graph: &Graph, asked: Option<&Asked<'_>>, width: f64) -> String {
    // What does not fit is cut. The file name comes last: it is known anyway.
    let fit = |words: String, letter: f64| {
        let most = ((width - 2.0 * 20.0) / letter) as usize;
        match words.chars().count() > most {
            true => words.chars().take(most - 2).collect::<String>() + " …",
            false => words,
        }
    };
    let points = graph.places.iter().map(|place| place.ids.len()).sum();
    let first = format!(
        "{}, edges at threshold {}: {name}",
        counted(points, "point"),
        graph.threshold
    );
    let mut lines = text("title", (20.0, 30.0), &fit(first, 10.5));
    if let Some(asked) = asked {
        let Answer {
            found, seen, trail, ..
        } = asked.answer;
        let list = |ids: &[u16]| ids.iter().map(|id| format!(" {id}")).collect::<String>();
        let second = format!(
            "ask {}, query ({}, {}): found{}, seen {seen}, trail{}",
            asked.number,
            asked.query.0,
            asked.query.1,
            list(found),
            list(trail)
        );
        lines += &text("words", (20.0, 52.0), &fit(second, LETTER));
    }
    lines
}

/// The legend under the field, and where it ends.
fn legend(graph: &Graph, asked: Option<&Asked<'_>>, top: f64) -> (String, f64) {
    let mut y = top + ROW;
    let mut shapes = String::new();
    let mut row = |sample: &dyn Fn(f64) -> String, words: &str| {
        shapes += &sample(y);
        shapes += &text("words", (84.0, y + 4.0), words);
        y += ROW;
    };
    let sample = |class: &'static str, arrow: bool| {
        move |y: f64| bent(class, (20.0, y), (72.0, y), 0.0, arrow, "")
    };
    row(
        &sample("direct", false),
        "direct edges (label 0), both ways",
    );
    row(
        &sample("direct", true),
        "direct edge one way only; the edge back is not direct",
    );
    if graph.threshold > 0 {
        let to = graph.threshold;
        let words = format!("edges of label 1 to {to}, both ways");
        row(&sample("other", false), &words);
        let words = format!("edge of label 1 to {to}, one way only");
        row(&sample("other", true), &words);
        if labels_fit(graph) {
            let number = |y: f64| text("label", (46.0, y + 4.0), "7");
            row(
                &number,
                "the label of the edge that starts at the nearer end",
            );
        }
    }
    let ids = |class: &'static str| {
        move |y: f64| {
            round_box(class, (46.0, y), (11.0, 11.0), "") + &text("id", (46.0, y + 4.0), "0")
        }
    };
    row(
        &ids("point"),
        "a point with its id; equal points share a box and have direct edges",
    );
    if asked.is_some() {
        row(&ids("found"), "a box with a point that was found");
        let mark = |y: f64| text("mark", (38.0, y + 4.0), "1, 2");
        row(&mark, "place on the trail, from 1");
        row(
            &sample("trail", true),
            "the edge over which a point of the trail was first seen",
        );
        row(&|y| cross((46.0, y), 8.0), "the query");
    }
    (shapes, y)
}
