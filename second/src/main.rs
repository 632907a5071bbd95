//! The second program: a model of the mirror, written from the rules alone,
//! and the comparison of the model with the built programs.
//!
//! The model: `log`, `chips`, `chip`, `written`, `panel`, `picture`, `prints`,
//! `demands`, with `panel_file` and `arguments` for what a run is lent, and `cases`;
//! `turned` says what the picture's two modes have to do with each other.
//! The report: `report`, and `again` for what was written again. The glass: `wall`, and
//! `svg`, which reads a drawing of it back.
//! The trials: `random`, `lend`, `sender`, `generator`, and `glass` for `wall`.
//! The comparison: `questions`, `expected`, `start`, `compare`, `shrink`,
//! `findings`, and the `commands` that run it; `classes` lists what the questions
//! must reach of each chip, `reach` counts it, and `observe` with its companions
//! watches the model reach it.

mod again;
mod arguments;
mod cases;
mod chip;
mod chips;
mod classes;
mod commands;
mod compare;
mod demands;
mod expected;
mod findings;
mod generator;
mod glass;
mod lend;
mod log;
mod observe;
mod observe_bits;
mod observe_lent;
mod observe_lines;
mod observe_mirrored;
mod observe_reads;
mod observe_report;
mod observe_unknown;
mod observe_wall;
mod observe_wall_apart;
mod observe_wall_live;
mod observe_wall_mirrored;
mod observe_wall_places;
mod observe_words;
mod observe_written;
mod panel;
mod panel_file;
mod picture;
mod prints;
mod questions;
mod random;
mod reach;
mod report;
mod sender;
mod shrink;
mod start;
mod svg;
mod turned;
mod wall;
mod written;

use report::page;
use std::io::{self, Read, Write};
use std::process::ExitCode;
use wall::Form;

const HELP: &str = "\
second: a model of the mirror, and its comparison with the built programs

  second glazomir [WORDS] < LOG  print what the mirror program should print
  second trace [WORDS] < LOG     print what trace should print
  second report [WORDS] < LOG    print what report should print
  second wall [WORDS] < LOG      print what wall should print; `font FILE` must
                                 be among the words, and without `ascii` or
                                 `pbm` there is no drawing; `upright` draws
                                 mirrored glass as it would be in mode A,
                                 `apart` leaves gaps between cells and lines,
                                 `live` prints the pictures of a log in a file
                                 that is read 32,768 bytes at a time, and
                                 `svg` is not drawn here
  second cases                   check the cases of both chips and the pages'
                                 examples
  second reach [--logs N] [--seed S]
                                 print what the questions reach
  second compare --glazomir CMD --trace CMD [--report CMD] [--wall CMD]
                 [--logs N] [--seed S]
                                 compare the model with the built programs
  second soak --minutes N --glazomir CMD --trace CMD [--report CMD] [--wall CMD]
              [--seed S]         compare with fresh seeds until time is up
  second gen DIR [--logs N] [--seed S]
                                 write generated logs and what they are lent
  second --help                  print this

WORDS are the program's own, `chip 6635` and `times R L S` among them. CMD is a
command line, split at spaces, that starts a program. N is 3000 logs and S is 1
unless given; soak takes its seed from the clock. About half of the logs are for
two lines, and many end on mirrored glass. Every log goes through trace, every
eighth through glazomir, every eleventh through the report with nights of a box
in haste beside them; the wall has logs of its own, one to five, and of every
twenty one that it shows live, from a file. What it draws with `svg`, for one of
forty, is read back: its two paths and its text. A difference is shrunk to a
short log and printed, and so is a class that no log of a chip reached (which a
small N brings about); the status is then 1. The last line is `N passed, N
failed`.
";

fn main() -> ExitCode {
    let words: Vec<String> = std::env::args().skip(1).collect();
    let outcome = match &words[..] {
        [] => Err(commands::UNKNOWN.to_string()),
        [help] | [_, help] if help == "--help" => print_all(HELP.as_bytes()).map(|()| true),
        [command, words @ ..] => match command.as_str() {
            "glazomir" => glazomir(words).map(|()| true),
            "trace" => trace(words).map(|()| true),
            "report" => report(words).map(|()| true),
            "wall" => wall(words).map(|()| true),
            command => commands::run(command, words),
        },
    };
    match outcome {
        Ok(true) => ExitCode::SUCCESS,
        Ok(false) => ExitCode::from(1),
        Err(complaint) => {
            eprintln!("{complaint}");
            ExitCode::from(2)
        }
    }
}

fn print_all(print: &[u8]) -> Result<(), String> {
    io::stdout().write_all(print).map_err(|error| error.to_string())
}

/// Reads standard input; where that fails, this is printed of what was read.
fn read_log(broken_off: impl Fn(&[u8]) -> String) -> Result<Vec<u8>, String> {
    let mut log = Vec::new();
    match io::stdin().read_to_end(&mut log) {
        Ok(_) => Ok(log),
        Err(error) => {
            print_all(broken_off(&log).as_bytes())?;
            Err(error.to_string())
        }
    }
}

fn nothing(_: &[u8]) -> String {
    String::new()
}

fn glazomir(words: &[String]) -> Result<(), String> {
    let start = arguments::start(words)?;
    print_all(prints::glazomir(&start, &read_log(nothing)?).as_bytes())
}

fn trace(words: &[String]) -> Result<(), String> {
    let lent = arguments::trace(words)?;
    let log = read_log(|read| prints::trace_broken_off(&lent, read))?;
    print_all(prints::trace(&lent, &log).as_bytes())
}

fn report(words: &[String]) -> Result<(), String> {
    let start = arguments::start(words)?;
    let log = read_log(|read| page::print_broken_off(&start, read))?;
    print_all(page::print(&start, &log).as_bytes())
}

fn wall(words: &[String]) -> Result<(), String> {
    let asked = arguments::wall(words)?;
    if asked.form == Form::Svg {
        return Err("svg is not drawn here, but read back by compare".to_string());
    }
    let font = asked.font.as_ref().ok_or("font FILE is wanted: there is no font here")?;
    let log = read_log(|read| wall::print_broken_off(&asked, font, read))?;
    print_all(&wall::print(&asked, font, &log))
}
