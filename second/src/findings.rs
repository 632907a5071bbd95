//! Prints what a comparison found, shrunk so that a reader has little to read.

use crate::arguments;
use crate::compare::{ask, Finding, Programs, Tally};
use crate::demands;
use crate::generator::Trial;
use crate::lend::Word;
use crate::log;
use crate::prints::hex;
use crate::questions::Question;
use crate::shrink;
use crate::start::Feed;
use std::path::Path;

/// Shrinks and prints the first finding; gives the number of findings.
pub fn print(programs: &Programs, tally: &Tally, directory: &Path) -> u64 {
    let findings = std::mem::take(&mut *tally.findings.lock().expect("no worker panics"));
    let directory = directory.join("0");
    if let Some(first) = findings.first() {
        match first {
            Finding::Trouble(trouble) => println!("{trouble}"),
            Finding::Demand(trial, reason) => print_demand(trial, reason, &directory),
            Finding::Turn(trial, reason) => {
                println!("the model's two modes disagree: {reason}");
                print_trial(trial);
            }
            Finding::Difference(question) => print_difference(programs, question, &directory),
        }
    }
    findings.len() as u64
}

fn print_difference(programs: &Programs, question: &Question, directory: &Path) {
    let what_differs = |question: &Question| {
        let words = question.trial.words(directory).ok()?;
        ask(programs, question, &words).ok()?
    };
    // Feeding in pieces is slow, and mostly not what makes the difference. What is read
    // from a file goes by full reads, and no pipe promises them.
    let whole = Question { feed: Feed::Whole, ..question.clone() };
    let stays = matches!(question.feed, Feed::File) || what_differs(&whole).is_none();
    let feed = if stays { question.feed } else { Feed::Whole };
    let with = |trial: &Trial| Question { which: question.which, trial: trial.clone(), feed };
    let small = shrink::shrink(question.trial.clone(), &|trial| what_differs(&with(trial)).is_some());
    println!("difference: {:?}, fed {feed:?}", question.which);
    print_trial(&small);
    match what_differs(&with(&small)) {
        Some(what) => println!("{what}"),
        None => println!("  it did not show again: the program does not always print the same"),
    }
}

fn print_demand(trial: &Trial, reason: &str, directory: &Path) {
    let failing = |trial: &Trial| {
        let lent = arguments::trace(&trial.words(directory).ok()?).ok()?;
        demands::check(lent.panel.sheet.chip, lent.panel.times, &trial.log).err()
    };
    let small = shrink::shrink(trial.clone(), &|trial| failing(trial).is_some());
    println!("demand 3 fails in the model: {}", failing(&small).unwrap_or(reason));
    print_trial(&small);
}

fn print_trial(trial: &Trial) {
    for word in trial.groups.iter().flatten() {
        match word {
            Word::Text(text) => println!("  argument {text}"),
            Word::File(bytes) => println!("  argument file of {} bytes {}", bytes.len(), hex(bytes)),
            Word::Missing => println!("  argument file that is not there"),
        }
    }
    println!("  log of {} bytes", trial.log.len());
    let (records, _) = log::records(&trial.log);
    let read: usize = records.iter().map(|record| record.len()).sum();
    for record in records {
        println!("    {}", hex(record));
    }
    if read < trial.log.len() {
        println!("    {} (no record)", hex(&trial.log[read..]));
    }
}
