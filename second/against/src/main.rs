//! Holds the proved library, through its C interface, and its program against the second implementation, on sets, tables, records and sheets made
//! from seeds. Usage: `against [--program PATH] [FIRST SEED] [HOW MANY]`. The first difference is printed whole and ends the run with status 1.

mod difference;
mod lent;
mod programs;
mod searches;
mod sets;
mod sheets;
mod walks;

use std::process::exit;

fn main() {
    let mut program = None;
    let mut numbers = Vec::new();
    let mut words = std::env::args().skip(1);
    while let Some(word) = words.next() {
        if word == "--program" {
            program = words.next();
        } else if let Ok(number) = word.parse::<u64>() {
            numbers.push(number);
        } else {
            eprintln!("usage: against [--program PATH] [FIRST SEED] [HOW MANY]");
            exit(2);
        }
    }
    let first = numbers.first().copied().unwrap_or(0);
    let many = numbers.get(1).copied().unwrap_or(2000);

    let mut done = Tally::default();
    sheets::every_short_sheet(&mut done);
    sheets::refused_writes(&mut done);
    for seed in first..first + many {
        sets::compare(seed, &mut done);
        searches::compare(seed, &mut done);
        walks::compare(seed, &mut done);
        sheets::compare(seed, &mut done);
    }
    if let Some(path) = program {
        programs::compare(&path, first, many.min(600), &mut done);
    }
    println!(
        "against: no difference in {} points, {} tables, {} searches, {} steps, {} walks, {} sheets read, {} written, {} printed",
        done.points, done.tables, done.searches, done.steps, done.walks, done.read, done.written, done.printed
    );
}

/// What was compared.
#[derive(Default)]
pub struct Tally {
    pub points: u64,
    pub tables: u64,
    pub searches: u64,
    pub steps: u64,
    pub walks: u64,
    pub read: u64,
    pub written: u64,
    pub printed: u64,
}
