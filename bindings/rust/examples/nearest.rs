//! Builds the label table of three points on a line, searches it once and prints what was found: `cargo run --offline --quiet --example nearest`.

use magpiehinge::{build, search, Ask, Set};

fn main() -> Result<(), u8> {
    let set = Set {
        n: 3,
        d: 1,
        vectors: &[0, 3, 5],
    };
    let mut table = [0; 9];
    build(set, &mut table)?;

    let ask = Ask {
        start: 0,
        width: 3,
        k: 2,
        threshold: 0,
    };
    // Room for k ids and distances, and for a trail over every point.
    let (mut ids, mut distances, mut trail) = ([0; 2], [0; 2], [0; 3]);
    let counts = search(set, &table, &[4], ask, &mut ids, &mut distances, &mut trail)?;
    for (id, distance) in ids.iter().zip(&distances).take(counts.found) {
        println!("point {id} at squared distance {distance}");
    }
    println!("{} points seen, trail {:?}", counts.seen, &trail[..counts.walked]);
    Ok(())
}
