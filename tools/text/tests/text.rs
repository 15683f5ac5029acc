//! Text to sheet and back.

use second::sheet::write;
use second::{generate, Set};
use text::content::Content;
use text::text::{parse, print};

const DOCUMENT: &str = "\
# three points on a line
width 4
point 0
point 3
point 5

ask start 0 width 1 k 1 threshold 0 query 4
ask start 0 width 3 k 2 threshold 0 query 4
ask start 5 width 1 k 1 threshold 0 query 4   # past the set
";

const BYTES: [u8; 20] = [
    0x04, 0x03, 0x03, 0x03, 0x50, 0, 0, 0, 0, 0x40, 0, 0x80, 0x80, 0, 0x40, 0xA0, 0, 0, 0, 0x40,
];

fn sheet(text: &str) -> Vec<u8> {
    parse("t", text).unwrap().to_sheet().unwrap()
}

fn fault(text: &str) -> String {
    parse("t", text).unwrap_err()
}

#[test]
fn the_scopes_sheet() {
    assert_eq!(sheet(DOCUMENT), BYTES);
    let again = print(&Content::from_sheet(&BYTES).unwrap());
    assert_eq!(sheet(&again), BYTES);
    assert!(again.starts_with("# 3 points of 1 coordinate, 3 asks\nwidth 4\npoint 0\n"));
    assert!(again.ends_with("ask start 5 width 1 k 1 threshold 0 query 4\n"));
}

#[test]
fn every_example_comes_back() {
    let folder = concat!(env!("CARGO_MANIFEST_DIR"), "/../../examples");
    let mut tried = 0;
    for entry in std::fs::read_dir(folder).unwrap() {
        let path = entry.unwrap().path();
        if path.extension().is_none_or(|ending| ending != "sheet") {
            continue;
        }
        let bytes = std::fs::read(&path).unwrap();
        let refused = second::sheet::read_header(&bytes).err();
        match Content::from_sheet(&bytes) {
            Ok(content) => {
                assert_eq!(refused, None);
                assert_eq!(sheet(&print(&content)), bytes, "{}", path.display());
                tried += 1;
            }
            Err(message) => {
                let number = refused.unwrap();
                assert!(message.starts_with(&format!("refused {number}: ")));
            }
        }
    }
    assert!(tried >= 13);
}

#[test]
fn generated_sheets_come_back() {
    let mut tried = 0;
    for seed in 0..300 {
        let bytes = generate::sheet(seed);
        if let Ok(content) = Content::from_sheet(&bytes) {
            assert_eq!(sheet(&print(&content)), bytes, "seed {seed}");
            tried += 1;
        }
    }
    assert!(tried > 100);
}

#[test]
fn spaces_commas_and_order_do_not_matter() {
    let plain = "width 5\npoint 1 -2\npoint 3 4\nask start 0 width 2 k 1 threshold 7 query 5 6\n";
    let other = "ask k 1 threshold 7 start 0 width 2 query 5,6\r\n\
                 point\t1 , -2 # the first\r\n  point +3,4\nwidth 5";
    assert_eq!(sheet(plain), sheet(other));
}

#[test]
fn the_least_width_that_fits() {
    for (value, width) in [
        (0, 1),
        (-1, 1),
        (1, 2),
        (-2, 2),
        (2, 3),
        (7, 4),
        (-8, 4),
        (8, 5),
        (-9, 5),
        (63, 7),
        (64, 8),
        (127, 8),
        (-128, 8),
    ] {
        assert_eq!(parse("t", &format!("point {value}")).unwrap().c, width);
        let asked = format!("point 0\nask start 0 width 1 k 1 threshold 0 query {value}");
        assert_eq!(parse("t", &asked).unwrap().c, width);
    }
}

#[test]
fn asks_that_only_the_search_refuses_are_written() {
    let ask = "point 0\nask start 127 width 1 k 128 threshold 32767 query 0";
    let content = Content::from_sheet(&sheet(ask)).unwrap();
    assert_eq!(content.asks[0].0.start, 127);
    assert_eq!(content.asks[0].0.k, 128);
}

/// What is refused here has the number that the writer gives.
#[test]
fn numbers_that_the_writer_refuses() {
    for (numbers, refusal) in [
        ([128, 1, 1, 0], 6),
        ([0, 0, 1, 0], 7),
        ([0, 129, 1, 0], 7),
        ([0, 1, 0, 0], 8),
        ([0, 1, 129, 0], 8),
        ([0, 1, 1, 32_768], 9),
    ] {
        let [start, width, k, threshold] = numbers;
        let text = format!(
            "point 0\n\nask start {start} width {width} k {k} threshold {threshold} query 0"
        );
        let message = fault(&text);
        assert!(message.starts_with("t:3: "), "{message}");
        assert!(
            message.ends_with(&format!(": refused {refusal}")),
            "{message}"
        );
        let set = Set {
            n: 1,
            d: 1,
            vectors: &[0],
        };
        assert_eq!(write(set, 1, 1, &numbers, &[0], &mut [0; 99]), Err(refusal));
    }
    let far = fault("point 0\nask start 99999999999999999999 width 1 k 1 threshold 0 query 0");
    assert!(far.ends_with("refused 6"), "{far}");
}

#[test]
fn faults_name_their_line() {
    for (text, message) in [
        ("", "t:1: the text ends without a point: refused 1"),
        (
            "# a\nwidth 3\n",
            "t:2: the text ends without a point: refused 1",
        ),
        (
            "point 1\npoint 1 2",
            "t:2: the point has 2 coordinates, and the first point has 1: refused 3",
        ),
        (
            "point 1 2\nask start 0 width 1 k 1 threshold 0 query 1",
            "t:2: the query has 1 coordinate, and the points have 2: refused 5",
        ),
        (
            "width 3\npoint 3\npoint 4",
            "t:3: 4 does not fit the width of 3 bits, -4 to 3: refused 13",
        ),
        (
            "width 1\npoint -1\nask start 0 width 1 k 1 threshold 0 query 1",
            "t:3: 1 does not fit the width of 1 bit, -1 to 0: refused 13",
        ),
        (
            "point 128",
            "t:1: 128 does not fit, coordinates go from -128 to 127: refused 13",
        ),
        (
            "point -129",
            "t:1: -129 does not fit, coordinates go from -128 to 127: refused 13",
        ),
        (
            "width 0",
            "t:1: the coordinate width is 0, and 1 to 8 is allowed: refused 11",
        ),
        (
            "width 9",
            "t:1: the coordinate width is 9, and 1 to 8 is allowed: refused 11",
        ),
        ("width", "t:1: the number after 'width' is missing"),
        ("width 3 4", "t:1: '3 4' is not a whole number"),
        (
            "width 3\nwidth 3",
            "t:2: the width is given twice, first in line 1",
        ),
        ("point", "t:1: the coordinates are missing"),
        ("point 1,,2", "t:1: a number is missing beside a comma"),
        ("point 1,2,", "t:1: a number is missing beside a comma"),
        ("point 1.5", "t:1: '1.5' is not a whole number"),
        ("point one", "t:1: 'one' is not a whole number"),
        ("point -", "t:1: '-' is not a whole number"),
        (
            "pint 1",
            "t:1: unknown word 'pint', a line begins with width, point, points or ask",
        ),
        ("points", "t:1: the file name after 'points' is missing"),
        ("ask", "t:1: the ask has no 'query'"),
        (
            "ask start 0 width 1 k 1 threshold 0",
            "t:1: the ask has no 'query'",
        ),
        (
            "ask start 0 width 1 threshold 0 query 0",
            "t:1: the ask has no 'k'",
        ),
        (
            "ask start 0 width 1 k threshold 0 query 0",
            "t:1: the number after 'k' is missing",
        ),
        (
            "ask start 0 width 1 k 1 k 2 threshold 0 query 0",
            "t:1: 'k' is given twice",
        ),
        (
            "ask start x width 1 k 1 threshold 0 query 0",
            "t:1: 'x' is not a whole number",
        ),
        (
            "ask from 0 width 1 k 1 threshold 0 query 0",
            "t:1: unknown word 'from', an ask has start, width, k, threshold and then query",
        ),
        (
            "ask start 0 width 1 k 1 threshold 0 query",
            "t:1: the coordinates are missing",
        ),
    ] {
        assert_eq!(fault(text), message);
    }
}

#[test]
fn sets_that_are_too_large() {
    let ask = "ask start 0 width 1 k 1 threshold 0 query 0\n";
    assert!(parse("t", &("point 0\n".repeat(128) + &ask.repeat(127))).is_ok());
    assert!(fault(&"point 0\n".repeat(129)).starts_with("t:129: this is point 129, "));
    let asks = fault(&("point 0\n".to_string() + &ask.repeat(128)));
    assert!(asks.starts_with("t:129: this is ask 128, ") && asks.ends_with("refused 12"));
    assert!(parse("t", &format!("point {}", "1 ".repeat(64))).is_ok());
    assert!(fault(&format!("point {}", "1 ".repeat(65))).ends_with("refused 2"));
}

#[test]
fn a_damaged_sheet_says_why() {
    let why = |bytes: &[u8]| Content::from_sheet(bytes).unwrap_err();
    assert_eq!(
        why(&[]),
        "refused 15: it has 0 bytes, and the header alone takes 3"
    );
    assert_eq!(
        why(&BYTES[..19]),
        "refused 15: it has 19 bytes, and its header requires 20"
    );
    let mut damaged = BYTES.to_vec();
    damaged.push(0);
    assert_eq!(
        why(&damaged),
        "refused 16: it is longer than the 20 bytes that its header requires"
    );
    let mut damaged = BYTES;
    damaged[19] |= 1;
    assert_eq!(why(&damaged), "refused 16: a filling bit at its end is 1");
    damaged[2] = 128;
    assert_eq!(
        why(&damaged),
        "refused 12: its header says 128 asks, and at most 127 are allowed"
    );
}
