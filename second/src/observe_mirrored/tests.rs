//! Tests that pictures on mirrored glass are noted for what they are.

use crate::arguments;
use crate::chips::Chip;
use crate::generator::Trial;
use crate::log;
use crate::observe;
use crate::questions::{Question, Which};
use crate::reach::Reach;
use crate::start::Feed;

/// The classes of the modes that this log reaches on one line, without the chip's name.
fn reached(log: Vec<u8>) -> Vec<String> {
    let question = Question { which: Which::Trace, trial: Trial::of_chip(Chip::ONE_LINE, log), feed: Feed::Whole };
    let lent = arguments::trace(&[]).expect("no words");
    let mut reach = Reach::new();
    observe::question(&mut reach, &question, Ok(&lent));
    let is_of_a_mode = |(class, count): &(String, u64)| *count > 0 && class.starts_with("mode ");
    let name = |(class, _): (String, u64)| class.trim_end_matches(" [6631]").to_string();
    reach.table().into_iter().filter(is_of_a_mode).map(name).collect()
}

fn instructions(sent: &[(u64, u8)]) -> Vec<u8> {
    sent.iter().flat_map(|&(time, code)| log::write_transfer(time, 0, code)).collect()
}

/// The five dots of a cursor are the same when they are reversed, and its cell is not.
#[test]
fn a_cursor_and_a_function_set_too_early() {
    let expected = [
        "mode B: dots lit", "mode B: cursor", "mode B: width 8", "mode B: painted frames same",
        "mode B: from a fresh panel", "mode B: turned by Function Set, width 8",
        "mode B: left by an ignored Function Set, width 8", "mode B: another picture if not turned",
        "mode B: another picture if rows reversed within a half",
        "mode B: another picture if rows reversed and columns not",
        "mode B: another picture if dots reversed within their cells alone",
        "mode B: another picture if bytes reversed but not their bits",
        "mode B: another picture if each half of a line reversed by itself",
    ];
    assert_eq!(reached(instructions(&[(0, 0x31), (40, 0x0E), (79, 0x30)])), expected);
}

/// What was left before is of no matter once the glass is set anew, by either bit.
#[test]
fn only_the_last_that_counts_is_noted() {
    let classes = reached(instructions(&[(0, 0x31), (39, 0x30), (40, 0x33), (80, 0x0E)]));
    assert!(classes.contains(&"mode B: kept by Function Set, width 8".to_string()));
    assert!(!classes.iter().any(|class| class.contains("ignored") || class.contains("turned by")));
    let mut log = instructions(&[(0, 0x31), (40, 0x0E)]);
    log.extend([log::write_reset(80), log::write_transfer(10_080, 0, 0x0E)].concat());
    let classes = reached(log);
    assert!(classes.contains(&"mode A: turned by a reset".to_string()));
    assert!(classes.iter().all(|class| class.starts_with("mode A: ")));
}

#[test]
fn bit_1_alone_would_show() {
    let class = "mode A: another picture if bit 1 were the mode".to_string();
    assert!(reached(instructions(&[(0, 0x32), (40, 0x0E)])).contains(&class));
    assert!(!reached(instructions(&[(0, 0x30), (40, 0x0E)])).contains(&class));
}
