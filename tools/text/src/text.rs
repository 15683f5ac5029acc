//! The text of a sheet.
//!
//! One thing a line: `width`, `point`, `points` or `ask`. Two passes, so that
//! the lines may stand in any order: the first reads each line by itself, the
//! second holds the lines against each other.

use std::path::Path;

use second::labels::MOST_THRESHOLD;
use second::points::{MOST_COORDINATES, MOST_POINTS};
use second::search::MOST_WIDTH;
use second::sheet::{MOST_ASKS, MOST_COORDINATE_WIDTH};
use second::Ask;

use crate::command::read_text;
use crate::content::{counted, Content};

/// The text of what a sheet holds. It always names the coordinate width, so
/// that the same sheet is made of it again.
pub fn print(content: &Content) -> String {
    let mut text = format!(
        "# {} of {}, {}\nwidth {}\n",
        counted(content.n, "point"),
        counted(content.d, "coordinate"),
        counted(content.asks.len(), "ask"),
        content.c
    );
    for point in content.vectors.chunks(content.d) {
        text += &format!("point{}\n", spaced(point));
    }
    for (ask, query) in &content.asks {
        let Ask {
            start,
            width,
            k,
            threshold,
        } = ask;
        text += &format!(
            "ask start {start} width {width} k {k} threshold {threshold} query{}\n",
            spaced(query)
        );
    }
    text
}

fn spaced(values: &[i8]) -> String {
    values.iter().map(|value| format!(" {value}")).collect()
}

/// Reads the text called `name`; files that it names lie beside it. An error
/// is one sentence after `FILE:LINE:`.
pub fn parse(name: &str, text: &str) -> Result<Content, String> {
    let mut lines = Lines::default();
    for (place, line) in lines_of(name, text) {
        lines.read(&place, line)?;
    }
    let end = Place {
        file: name.to_string(),
        line: text.lines().count().max(1),
    };
    lines.join(&end)
}

/// Where something stands.
#[derive(Clone, Debug)]
struct Place {
    file: String,
    line: usize,
}

impl Place {
    fn fault<T>(&self, what: impl std::fmt::Display) -> Result<T, String> {
        Err(format!("{}:{}: {what}", self.file, self.line))
    }
}

/// The lines that say something, without their comments.
fn lines_of<'a>(name: &'a str, text: &'a str) -> impl Iterator<Item = (Place, &'a str)> {
    text.lines().enumerate().filter_map(move |(index, line)| {
        let said = line.split('#').next().unwrap_or("").trim();
        let place = Place {
            file: name.to_string(),
            line: index + 1,
        };
        (!said.is_empty()).then_some((place, said))
    })
}

/// What the lines said, each with its place.
#[derive(Default)]
struct Lines {
    width: Option<(Place, usize)>,
    points: Vec<(Place, Vec<i8>)>,
    asks: Vec<(Place, Ask, Vec<i8>)>,
}

impl Lines {
    fn read(&mut self, place: &Place, line: &str) -> Result<(), String> {
        let (word, rest) = first_word(line);
        match word {
            "width" => self.read_width(place, rest),
            "point" => self.read_point(place, rest),
            "points" => self.read_points(place, rest),
            "ask" => self.read_ask(place, rest),
            _ => place.fault(format!(
                "unknown word '{word}', a line begins with width, point, points or ask"
            )),
        }
    }

    fn read_width(&mut self, place: &Place, rest: &str) -> Result<(), String> {
        if let Some((before, _)) = &self.width {
            return place.fault(format!(
                "the width is given twice, first in line {}",
                before.line
            ));
        }
        if rest.is_empty() {
            return place.fault("the number after 'width' is missing");
        }
        match whole(place, rest)? {
            bits @ 1..=8 => self.width = Some((place.clone(), bits as usize)),
            bits => {
                return place.fault(format!(
                    "the coordinate width is {bits}, and 1 to {MOST_COORDINATE_WIDTH} is allowed: refused 11"
                ))
            }
        }
        Ok(())
    }

    fn read_point(&mut self, place: &Place, rest: &str) -> Result<(), String> {
        let values = coordinates(place, rest)?;
        if values.len() > MOST_COORDINATES {
            return place.fault(format!(
                "the point has {} coordinates, and at most {MOST_COORDINATES} are allowed: refused 2",
                values.len()
            ));
        }
        if self.points.len() == MOST_POINTS {
            return place.fault(format!(
                "this is point {}, and at most {MOST_POINTS} are allowed: refused 1",
                MOST_POINTS + 1
            ));
        }
        self.points.push((place.clone(), values));
        Ok(())
    }

    fn read_points(&mut self, place: &Place, rest: &str) -> Result<(), String> {
        if rest.is_empty() {
            return place.fault("the file name after 'points' is missing");
        }
        let folder = Path::new(&place.file).parent().unwrap_or(Path::new(""));
        let name = folder.join(rest).display().to_string();
        let text = match read_text(&name) {
            Ok(text) => text,
            Err(error) => return place.fault(format!("cannot read the points of {error}")),
        };
        for (place, line) in lines_of(&name, &text) {
            self.read_point(&place, line)?;
        }
        Ok(())
    }

    fn read_ask(&mut self, place: &Place, rest: &str) -> Result<(), String> {
        if self.asks.len() == MOST_ASKS {
            return place.fault(format!(
                "this is ask {}, and at most {MOST_ASKS} are allowed: refused 12",
                MOST_ASKS + 1
            ));
        }
        let mut numbers = Numbers::default();
        let mut rest = rest;
        loop {
            let (word, after) = first_word(rest);
            match word {
                "" => return place.fault("the ask has no 'query'"),
                "query" => {
                    let ask = numbers.ask(place)?;
                    let query = coordinates(place, after)?;
                    self.asks.push((place.clone(), ask, query));
                    return Ok(());
                }
                _ => rest = numbers.read(place, word, after)?,
            }
        }
    }

    /// Holds the lines against each other.
    fn join(self, end: &Place) -> Result<Content, String> {
        let Some((_, first)) = self.points.first() else {
            return end.fault("the text ends without a point: refused 1");
        };
        let d = first.len();
        for (place, point) in &self.points {
            if point.len() != d {
                return place.fault(format!(
                    "the point has {}, and the first point has {d}: refused 3",
                    counted(point.len(), "coordinate")
                ));
            }
        }
        for (place, _, query) in &self.asks {
            if query.len() != d {
                return place.fault(format!(
                    "the query has {}, and the points have {d}: refused 5",
                    counted(query.len(), "coordinate")
                ));
            }
        }
        let c = self.check_width()?;
        Ok(Content {
            n: self.points.len(),
            d,
            c,
            vectors: self.points.into_iter().flat_map(|(_, p)| p).collect(),
            asks: self.asks.into_iter().map(|(_, a, q)| (a, q)).collect(),
        })
    }

    /// The coordinate width: the given one, which all values have to fit, or
    /// the smallest that they fit.
    fn check_width(&self) -> Result<usize, String> {
        let points = self.points.iter().map(|(place, values)| (place, values));
        let queries = self.asks.iter().map(|(place, _, values)| (place, values));
        let all = points.chain(queries);
        let Some(&(_, c)) = self.width.as_ref() else {
            let widest = all.flat_map(|(_, values)| values).map(|&v| bits(v)).max();
            return Ok(widest.unwrap_or(1));
        };
        for (place, values) in all {
            if let Some(value) = values.iter().find(|&&value| bits(value) > c) {
                let half = 1 << (c - 1);
                return place.fault(format!(
                    "{value} does not fit the width of {}, -{half} to {}: refused 13",
                    counted(c, "bit"),
                    half - 1
                ));
            }
        }
        Ok(c)
    }
}

/// The least number of bits that hold a value in two's complement.
fn bits(value: i8) -> usize {
    let magnitude = if value < 0 { !value } else { value };
    9 - magnitude.leading_zeros() as usize
}

/// The numbers of an ask, as far as they are given.
#[derive(Default)]
struct Numbers {
    given: [Option<u16>; 4],
}

/// The words before the numbers of an ask.
const WORDS: [&str; 4] = ["start", "width", "k", "threshold"];

impl Numbers {
    /// Reads the number after a word and gives what follows it.
    fn read<'a>(&mut self, place: &Place, word: &str, after: &'a str) -> Result<&'a str, String> {
        let Some(index) = WORDS.iter().position(|&known| known == word) else {
            return place.fault(format!(
                "unknown word '{word}', an ask has start, width, k, threshold and then query"
            ));
        };
        if self.given[index].is_some() {
            return place.fault(format!("'{word}' is given twice"));
        }
        let (number, rest) = first_word(after);
        if number.is_empty() || number == "query" || WORDS.contains(&number) {
            return place.fault(format!("the number after '{word}' is missing"));
        }
        let value = whole(place, number)?;
        // What the writer takes, and with which number it refuses the rest. An
        // ask that only the search refuses is wanted.
        let (least, most, refusal) = match word {
            "start" => (0, MOST_POINTS as i64 - 1, 6),
            "width" => (1, i64::from(MOST_WIDTH), 7),
            "k" => (1, i64::from(MOST_WIDTH), 8),
            _ => (0, i64::from(MOST_THRESHOLD), 9),
        };
        if !(least..=most).contains(&value) {
            return place.fault(format!(
                "{word} is {number}, and {least} to {most} can be written: refused {refusal}"
            ));
        }
        self.given[index] = Some(value as u16);
        Ok(rest)
    }

    /// The ask, if all its numbers are given.
    fn ask(&self, place: &Place) -> Result<Ask, String> {
        let number = |index: usize| match self.given[index] {
            Some(number) => Ok(number),
            None => place.fault(format!("the ask has no '{}'", WORDS[index])),
        };
        Ok(Ask {
            start: number(0)?,
            width: number(1)?,
            k: number(2)?,
            threshold: number(3)?,
        })
    }
}

/// The first word of a line and what follows it.
fn first_word(line: &str) -> (&str, &str) {
    let line = line.trim_start();
    match line.split_once(char::is_whitespace) {
        Some((word, rest)) => (word, rest.trim_start()),
        None => (line, ""),
    }
}

/// Coordinates with spaces or commas between them.
fn coordinates(place: &Place, text: &str) -> Result<Vec<i8>, String> {
    if text.trim().is_empty() {
        return place.fault("the coordinates are missing");
    }
    let mut values = Vec::new();
    for part in text.split(',') {
        if part.trim().is_empty() {
            return place.fault("a number is missing beside a comma");
        }
        for word in part.split_whitespace() {
            match i8::try_from(whole(place, word)?) {
                Ok(value) => values.push(value),
                Err(_) => {
                    return place.fault(format!(
                        "{word} does not fit, coordinates go from -128 to 127: refused 13"
                    ))
                }
            }
        }
    }
    Ok(values)
}

/// A whole number. One that is too large for any field stays too large.
fn whole(place: &Place, word: &str) -> Result<i64, String> {
    let (sign, digits) = match word.strip_prefix('-') {
        Some(digits) => (-1, digits),
        None => (1, word.strip_prefix('+').unwrap_or(word)),
    };
    if digits.is_empty() || !digits.bytes().all(|byte| byte.is_ascii_digit()) {
        return place.fault(format!("'{word}' is not a whole number"));
    }
    Ok(sign * digits.parse().unwrap_or(i64::MAX))
}
