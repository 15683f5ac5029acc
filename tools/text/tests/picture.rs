//! What a picture shows and where.

use text::content::Content;
use text::graph::{Edge, Graph};
use text::picture::{draw, Asked};
use text::text::parse;

/// P6 and P7 of the scope, with one ask.
const HIDDEN: &str = "point 0 0\npoint 10 0\npoint 8 9\npoint -2 13\n\
                      ask start 1 width 2 k 2 threshold 0 query 9 9\n\
                      ask start 0 width 4 k 1 threshold 0 query -2 13\n";

fn content(text: &str) -> Content {
    parse("t", text).unwrap()
}

/// The values of an attribute of every element of a class.
fn values(picture: &str, class: &str, attribute: &str) -> Vec<f64> {
    picture
        .lines()
        .filter(|line| line.contains(&format!("class=\"{class}\"")))
        .map(|line| {
            let (_, rest) = line.split_once(&format!(" {attribute}=\"")).unwrap();
            rest.split('"').next().unwrap().parse().unwrap()
        })
        .collect()
}

#[test]
fn edges_at_a_threshold() {
    let content = content(HIDDEN);
    let graph = Graph::of(&content, 0).unwrap();
    let one_way = |edge: &&Edge| edge.back.is_none();
    // The edge from 0 to 3 is direct, though the one from 3 to 0 is not.
    let edge = graph.edges.iter().find(|e| (e.from, e.to) == (0, 3));
    assert!(edge.is_some_and(|edge| one_way(&edge)));
    assert!(!graph.edges.iter().any(|e| (e.from, e.to) == (3, 0)));
    assert!(!graph.edges.iter().any(|e| (e.from, e.to) == (0, 2)));
    let graph = Graph::of(&content, 45).unwrap();
    let edge = graph.edges.iter().find(|e| (e.from, e.to) == (0, 2));
    assert_eq!(edge.unwrap().label, 45);
    assert_eq!(edge.unwrap().back, Some(32));
}

#[test]
fn the_trail_follows_edges() {
    let content = content(HIDDEN);
    let graph = Graph::of(&content, 0).unwrap();
    for (ask, query) in &content.asks {
        let answer = graph.search(&content, *ask, query).unwrap();
        assert_eq!(answer.first_seen.len(), answer.trail.len() - 1);
        for (u, v) in &answer.first_seen {
            let place = |id: u16| graph.place_of(id);
            assert!(graph.edges.iter().any(|edge| {
                (edge.from, edge.to) == (place(*u), place(*v))
                    || edge.back.is_some() && (edge.to, edge.from) == (place(*u), place(*v))
            }));
        }
    }
}

#[test]
fn equal_points_share_a_box() {
    let content = content("point 1 1\npoint 2 1\npoint 1 1\n");
    let graph = Graph::of(&content, 0).unwrap();
    assert_eq!(graph.places.len(), 2);
    assert_eq!(graph.places[0].ids, [0, 2]);
    assert_eq!(graph.edges.len(), 1);
    assert!(draw("t", &graph, None).contains(">0,2</text>"));
}

#[test]
fn other_numbers_of_coordinates() {
    for text in ["point 1", "point 1 2 3"] {
        assert!(Graph::of(&content(text), 0).is_err());
    }
}

/// Title above the points, legend under them, nothing past the sides.
#[test]
fn everything_lies_inside() {
    for text in [
        HIDDEN,
        "point 0 0\nask start 0 width 1 k 1 threshold 0 query 0 0",
        "point -128 0\npoint 127 0\npoint 126 0\nask start 0 width 1 k 1 threshold 0 query 0 0",
        "point 0 -128\npoint 0 127\nask start 0 width 1 k 1 threshold 0 query 0 0",
    ] {
        let content = content(text);
        let graph = Graph::of(&content, 60).unwrap();
        let (ask, query) = &content.asks[0];
        let answer = graph.search(&content, *ask, query).unwrap();
        let asked = Asked {
            number: 0,
            query: (query[0], query[1]),
            answer: &answer,
        };
        let picture = draw("a & <b>.sheet", &graph, Some(&asked));
        assert!(picture.contains("a &amp; &lt;b&gt;.sheet"));
        let size = |part: &str| {
            let (_, rest) = picture.split_once(&format!(" {part}=\"")).unwrap();
            rest.split('"').next().unwrap().parse::<f64>().unwrap()
        };
        let legend = values(&picture, "words", "y")[1] - 20.0;
        let mut ids = values(&picture, "id", "y");
        // The last two are the legend's own samples.
        ids.truncate(ids.len() - 2);
        assert!(ids.iter().all(|&y| 60.0 + 20.0 < y && y < legend));
        assert!(values(&picture, "id", "x")
            .iter()
            .all(|&x| 30.0 < x && x < size("width") - 30.0));
        assert!(values(&picture, "words", "y")
            .iter()
            .all(|&y| y < size("height") - 10.0));
    }
}
