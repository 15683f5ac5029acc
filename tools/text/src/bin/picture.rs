//! A picture of a sheet's set.

use std::process::ExitCode;

use second::labels::MOST_THRESHOLD;
use text::command::{finish, put, read_sheet, Failure};
use text::content::{meaning, Content};
use text::graph::Graph;
use text::picture::{draw, Asked};

const NAME: &str = "tools/picture";
const USAGE: &str = "\
usage: tools/picture SHEET [--threshold M] [--ask I]

Prints an SVG picture of a set of two coordinates: its points and its edges at
threshold M. With --ask it also shows the query of ask I, counted from 0, the
trail and the found points; then M is the ask's own threshold if it is left
out, and the ask is searched at M. Without both, M is 0. SHEET may be - for
standard input.

Exit status: 0, 1 if the sheet or an ask is refused or cannot be drawn, 2 for a
wrong command line.
";

/// What the command line asks for.
#[derive(Default)]
struct Wanted {
    sheet: Option<String>,
    threshold: Option<u64>,
    ask: Option<u64>,
}

fn main() -> ExitCode {
    let arguments = std::env::args_os().skip(1);
    let words: Vec<String> = arguments
        .map(|argument| argument.to_string_lossy().into_owned())
        .collect();
    finish(NAME, USAGE, answer(&words))
}

fn answer(words: &[String]) -> Result<(), Failure> {
    if matches!(words, [word] if ["--help", "-h", "help"].contains(&word.as_str())) {
        return put(None, USAGE.as_bytes());
    }
    let wanted = wanted(words)?;
    let Some(name) = &wanted.sheet else {
        return Err(Failure::Usage("no sheet".to_string()));
    };
    let bytes = read_sheet(name)?;
    let picture = picture(name, &bytes, &wanted)
        .map_err(|message| Failure::Input(format!("{name}: {message}")))?;
    put(None, picture.as_bytes())
}

fn wanted(words: &[String]) -> Result<Wanted, Failure> {
    let mut wanted = Wanted::default();
    let mut words = words.iter();
    while let Some(word) = words.next() {
        let number = match word.as_str() {
            "--threshold" => &mut wanted.threshold,
            "--ask" => &mut wanted.ask,
            option if option.starts_with("--") => {
                return Err(Failure::Usage(format!("no option named {option}")))
            }
            _ if wanted.sheet.is_some() => {
                return Err(Failure::Usage("more than one sheet".to_string()))
            }
            _ => {
                wanted.sheet = Some(word.clone());
                continue;
            }
        };
        if number.is_some() {
            return Err(Failure::Usage(format!("{word} is given twice")));
        }
        *number = words.next().and_then(|value| value.parse().ok());
        if number.is_none() {
            return Err(Failure::Usage(format!("{word} needs a number from 0 up")));
        }
    }
    Ok(wanted)
}

fn picture(name: &str, bytes: &[u8], wanted: &Wanted) -> Result<String, String> {
    let content = Content::from_sheet(bytes)?;
    let asked = match wanted.ask {
        None => None,
        Some(number) => {
            let index = usize::try_from(number).unwrap_or(usize::MAX);
            let ask = content.asks.get(index);
            let (ask, query) = ask.ok_or_else(|| refused(format!("ask {number}"), 17))?;
            Some((index, *ask, query))
        }
    };
    let own = asked.map_or(0, |(_, ask, _)| ask.threshold);
    let threshold = match wanted.threshold.map(u16::try_from) {
        None => own,
        Some(Ok(threshold)) if threshold <= MOST_THRESHOLD => threshold,
        Some(_) => return Err(refused("--threshold".to_string(), 9)),
    };
    let graph = Graph::of(&content, threshold)?;
    let Some((number, ask, query)) = asked else {
        return Ok(draw(name, &graph, None));
    };
    let answer = graph
        .search(&content, ask, query)
        .map_err(|refusal| refused(format!("ask {number}"), refusal))?;
    let asked = Asked {
        number,
        query: (query[0], query[1]),
        answer: &answer,
    };
    Ok(draw(name, &graph, Some(&asked)))
}

fn refused(what: String, number: u8) -> String {
    format!("{what}: refused {number}: {}", meaning(number))
}
