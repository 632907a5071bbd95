//! What the built programs are asked: questions that are always the same but
//! for the seed, and those of each of the generator's turns.

mod mirrored;
mod wall;
mod written;

use crate::cases;
use crate::chip::Width;
use crate::chips::Chip;
use crate::generator::{self, Trial};
use crate::glass;
use crate::lend::{self, files, panels, text, Group};
use crate::panel_file;
use crate::start::Feed;

#[derive(Clone, Copy, Debug, PartialEq)]
pub enum Which {
    Glazomir,
    Trace,
    Report,
    Wall,
}

/// One comparison: a trial, a program, and how it is fed.
#[derive(Clone, Debug)]
pub struct Question {
    pub which: Which,
    pub trial: Trial,
    pub feed: Feed,
}

/// A log from a fresh panel of this chip.
fn plain(which: Which, chip: Chip, log: Vec<u8>) -> Question {
    Question { which, trial: Trial::of_chip(chip, log), feed: Feed::Whole }
}

/// One group of words, split at spaces.
fn words(which: Which, words: &str, log: Vec<u8>) -> Question {
    Question { which, trial: Trial { groups: vec![text(words)], log }, feed: Feed::Whole }
}

/// Every record by a call of its own.
fn by_records(chip: Chip, log: Vec<u8>) -> Question {
    let mut question = plain(Which::Trace, chip, log);
    question.trial.groups.push(text("records"));
    question
}

/// The chips by turns.
fn chip_of(number: usize) -> Chip {
    Chip::KNOWN[number % 2]
}

/// The comparisons that do not come from the generator's turns.
pub fn fixed(seed: u64) -> Vec<Question> {
    let mut questions = cases_and_prefixes(seed);
    questions.extend(in_pieces(seed));
    questions.extend(long(seed));
    questions.extend(of_the_report(seed));
    questions.extend(wall::all(seed));
    questions.extend(panels());
    questions.extend(reads(seed));
    questions.extend(written::all(seed));
    questions.extend(mirrored::all(seed));
    questions.extend(fresh_panels(seed));
    questions.extend(unreadable(seed));
    questions.extend(help());
    questions
}

/// What of a turn is asked; the first is the turn's own trial. A start costs
/// more than the records do, so not every log goes through every program.
pub fn of_turn(seed: u64, turn: u64) -> Vec<Question> {
    let trial = generator::trial(seed, turn);
    let same_log = Trial { groups: trial.fresh_groups(), log: trial.log.clone() };
    let ask = |which, trial| Question { which, trial, feed: Feed::Whole };
    let mut questions = vec![ask(Which::Trace, trial)];
    if turn % 8 == 0 {
        questions.push(ask(Which::Glazomir, same_log.clone()));
    }
    if turn % 7 == 5 {
        questions.push(ask(Which::Report, generator::night(seed, turn)));
    }
    if turn % 11 == 3 {
        questions.push(ask(Which::Report, same_log));
    }
    if turn % 5 == 2 {
        let feed = if turn % 100 == 2 { Feed::Pieces(1 + turn as usize / 100 % 17 * 2) } else { Feed::Whole };
        questions.push(Question { feed, ..ask(Which::Wall, glass::trial(seed, turn / 5)) });
    }
    if turn % 20 == 11 {
        questions.push(Question { feed: Feed::File, ..ask(Which::Wall, glass::live::trial(seed, turn / 20)) });
    }
    if turn % 40 == 33 {
        questions.push(ask(Which::Wall, glass::apart::svg_trial(seed, turn / 40)));
    }
    questions
}

/// The cases, and every beginning of a few short logs.
fn cases_and_prefixes(seed: u64) -> Vec<Question> {
    let mut questions = Vec::new();
    let cases = cases::all();
    for case in &cases {
        for which in [Which::Trace, Which::Glazomir, Which::Report] {
            questions.push(plain(which, case.chip, case.log.clone()));
        }
    }
    let four = cases.last().expect("the example is the last case").log.clone();
    let mut logs = vec![(Chip::ONE_LINE, four)];
    for (turn, chip) in (1..).zip([Chip::TWO_LINES, Chip::ONE_LINE, Chip::TWO_LINES]) {
        logs.push((chip, generator::short_log(seed, chip, turn)));
    }
    for (chip, log) in logs {
        for size in 0..log.len() {
            let start = log[..size].to_vec();
            if size % 5 == 0 {
                questions.push(plain(Which::Glazomir, chip, start.clone()));
            }
            questions.push(if size % 3 == 1 { by_records(chip, start) } else { plain(Which::Trace, chip, start) });
        }
    }
    questions
}

fn in_pieces(seed: u64) -> Vec<Question> {
    let mut questions = Vec::new();
    for turn in 0..8 {
        let chip = chip_of(turn);
        let mut log = generator::trial(seed, turn as u64 * 12).log;
        log.truncate(2_000);
        for (size, question) in [
            (1, by_records(chip, log.clone())), (3, plain(Which::Trace, chip, log.clone())),
            (7, by_records(chip, log.clone())), (1 + turn, plain(Which::Glazomir, chip, log)),
        ] {
            questions.push(Question { feed: Feed::Pieces(size), ..question });
        }
    }
    for (number, size) in [1, 3, 7, 13].into_iter().enumerate() {
        let mut log = generator::night(seed, size as u64).log;
        log.truncate(2_000);
        questions.push(Question { feed: Feed::Pieces(size), ..plain(Which::Report, chip_of(number), log) });
    }
    questions
}

/// Logs longer than a block, whole, in pieces and cut.
fn long(seed: u64) -> Vec<Question> {
    let mut questions = vec![plain(Which::Report, Chip::ONE_LINE, generator::endless_night())];
    for (chip, size, odd) in [(Chip::ONE_LINE, 40_001, 61), (Chip::TWO_LINES, 70_003, 509)] {
        let log = generator::long_log(seed, chip);
        questions.extend([Which::Trace, Which::Glazomir].map(|which| plain(which, chip, log.clone())));
        questions.push(by_records(chip, log.clone()));
        if chip == Chip::TWO_LINES {
            questions.push(plain(Which::Report, chip, log.clone()));
        }
        let log = log[..size].to_vec();
        questions.push(Question { feed: Feed::Pieces(odd), ..plain(Which::Trace, chip, log.clone()) });
        questions.push(Question { feed: Feed::Pieces(odd), ..by_records(chip, log) });
    }
    questions
}

fn of_the_report(seed: u64) -> Vec<Question> {
    let short = generator::short_night();
    let mut questions: Vec<Question> =
        (0..short.len()).map(|size| plain(Which::Report, chip_of(size), short[..size].to_vec())).collect();
    // The same print for both chips, whatever the log is about.
    for turn in [0, 2, 4] {
        let log = generator::night(seed, turn).log;
        questions.extend(Chip::KNOWN.map(|chip| plain(Which::Report, chip, log.clone())));
    }
    for refused in ["-h", "--help --help", "--help bogus", "bogus --help", "10000 1640 40", ""] {
        questions.push(words(Which::Report, refused, short.clone()));
    }
    questions
}

/// This log, sent to the panel of a file.
fn handed_in(bytes: Vec<u8>, mut groups: Vec<Group>, log: &[u8]) -> Question {
    groups.push(files("panel", vec![bytes]));
    Question { which: Which::Trace, trial: Trial { groups, log: log.to_vec() }, feed: Feed::Whole }
}

/// Panels where the two chips part, and those of no known chip with frames of
/// every size, by either way of reading records.
fn panels() -> Vec<Question> {
    let log = generator::short_night();
    let parting = panels::where_chips_part().into_iter().map(|bytes| handed_in(bytes, Vec::new(), &log));
    let sizes = [(80, 80), (160, 160), (80, 160), (0, 200)];
    let unknown = panels::of_unknown_chips().into_iter().enumerate().map(|(number, bytes)| {
        let (one, other) = sizes[number % 4];
        let groups = match number % 8 {
            0..=3 => vec![files("frames", vec![vec![7; one], vec![7; other]])],
            4 => vec![text("frame 160"), text("chip 6635")],
            5 => vec![text("records"), text("frame 80")],
            6 => vec![text("frame 0")],
            _ => Vec::new(),
        };
        let end = [log.len(), 0, 5, 33][number / 2 % 4];
        handed_in(bytes, groups, &log[..end])
    });
    parting.chain(unknown).collect()
}

/// Every code before a read, and panels whose first read shows whether they are
/// good: its half is torn, it comes after a reset, it is carried out, or it waits.
fn reads(seed: u64) -> Vec<Question> {
    let mut questions = Vec::new();
    for chip in Chip::KNOWN {
        let [wide, narrow] = [Width::Eight, Width::Four].map(|width| generator::codes_before_reads(seed, chip, width));
        questions.extend([&wide, &narrow].map(|log| plain(Which::Trace, chip, log.clone())));
        questions.extend([Which::Glazomir, Which::Report].map(|which| plain(which, chip, narrow.clone())));
        questions.push(by_records(chip, narrow));
        questions.push(by_records(chip, wide));
    }
    let logs = generator::first_reads();
    for panel in panels::good_and_not() {
        let asked = if panel.half.is_some() { &logs[..3] } else { &logs[2..] };
        for log in asked {
            let ways = [Vec::new(), vec![text("records")]];
            questions.extend(ways.map(|groups| handed_in(panel_file::write(&panel), groups, log)));
        }
    }
    questions
}

/// Words for the fresh panel, taken and refused, for every program.
fn fresh_panels(seed: u64) -> Vec<Question> {
    let log = generator::short_night();
    let taken = [
        "chip 6631", "chip 6635", "times 10000 316 28", "chip 6635 times 10000 316 28", "times 0 0 0 chip 6631",
        "times 65535 65535 65535 chip 6635", "chip 6631 times 00000000000000000001 2 3",
    ];
    let mut questions = Vec::new();
    for which in [Which::Glazomir, Which::Trace, Which::Report, Which::Wall] {
        for group in taken.into_iter().chain(lend::REFUSED) {
            let mut trial = match which {
                Which::Wall => glass::whole_log(seed, Chip::ONE_LINE, log.clone()),
                _ => Trial::of_chip(Chip::ONE_LINE, log.clone()),
            };
            // At the end, so that a word that is missing is missing.
            trial.groups.push(text(group));
            questions.push(Question { which, trial, feed: Feed::Whole });
        }
    }
    questions
}

/// Standard input that cannot be read, from the start or after some bytes.
fn unreadable(seed: u64) -> Vec<Question> {
    let log = generator::short_night();
    let mut questions = Vec::new();
    for (number, which) in [Which::Glazomir, Which::Trace, Which::Report].into_iter().enumerate() {
        for (chip, feed) in Chip::KNOWN.into_iter().zip([Feed::Unreadable, Feed::BreaksOff]) {
            questions.push(Question { feed, ..plain(which, chip, log.clone()) });
        }
        questions.push(Question { feed: Feed::BreaksOff, ..plain(which, chip_of(number), log[..60].to_vec()) });
    }
    for (chip, feed) in Chip::KNOWN.into_iter().zip([Feed::Unreadable, Feed::BreaksOff]) {
        questions.push(Question { feed, ..by_records(chip, log.clone()) });
        questions.push(Question { which: Which::Wall, trial: glass::whole_log(seed, chip, log.clone()), feed });
        // The pictures up to then, which are none where nothing could be read.
        for feed in [Feed::Unreadable, Feed::BreaksOff] {
            questions.push(Question { which: Which::Wall, trial: glass::live::whole_log(chip, log.clone()), feed });
        }
    }
    questions
}

fn help() -> Vec<Question> {
    let all = [Which::Glazomir, Which::Trace, Which::Report, Which::Wall];
    all.map(|which| words(which, "--help", generator::short_night())).into()
}
