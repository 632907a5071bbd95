//! Tests of what the bits that are printed in the end show.

use crate::arguments;
use crate::chips::Chip;
use crate::generator::Trial;
use crate::log;
use crate::observe;
use crate::questions::{Question, Which};
use crate::reach::Reach;
use crate::start::Feed;

/// Whether a log from a fresh panel of one line reaches a class; the transfers
/// come so late that all are taken.
fn reaches(transfers: &[(u8, u8)], class: &str) -> bool {
    let sent: Vec<(u64, u8, u8)> =
        transfers.iter().zip((0..).step_by(2_000)).map(|(&(control, data), time)| (time, control, data)).collect();
    let trial = Trial::of_chip(Chip::ONE_LINE, log::write_transfers(&sent));
    let lent = arguments::trace(&[]).expect("no words");
    let mut reach = Reach::new();
    observe::question(&mut reach, &Question { which: Which::Trace, trial, feed: Feed::Whole }, Ok(&lent));
    reach.table().contains(&(format!("{class}, width 8 [6631]"), 1))
}

const WRITE: (u8, u8) = (1, 0x57);
const SPACE: (u8, u8) = (1, 0x20);
const BACK: (u8, u8) = (0, 0x80);

#[test]
fn what_stored_a_byte_last_shows() {
    assert!(reaches(&[WRITE], "another byte over a space, up"));
    assert!(reaches(&[SPACE], "20h over a space, up"));
    assert!(reaches(&[WRITE, BACK, SPACE], "20h over a written place, up"));
    assert!(!reaches(&[WRITE, BACK, SPACE], "another byte over a space, up"), "it shows no more");
    assert!(reaches(&[WRITE, WRITE, BACK, WRITE], "another byte over a written place, up"));
    assert!(reaches(&[(0, 0x9F), WRITE], "another byte over a space at an end of memory, up"));
    assert!(reaches(&[(0, 0x9F), WRITE], "another byte over a space right behind an address above 8Fh"));
    assert!(reaches(&[(0, 0x05), WRITE], "another byte over a space, with S, down"));
}

#[test]
fn what_left_a_bit_alone_shows_until_a_byte_is_stored() {
    let class = "doubtful display read left a space alone";
    assert!(reaches(&[(3, 0)], class));
    assert!(!reaches(&[(3, 0), BACK, WRITE], class));
    assert!(reaches(&[(3, 0), WRITE], class), "at another place");
    let class = "pattern write left a written place alone";
    assert!(reaches(&[WRITE, (0, 0x40), SPACE], class));
    assert!(!reaches(&[WRITE, (0, 0x40), WRITE], class), "it would not turn the bit over");
    assert!(!reaches(&[WRITE, (0, 0x41), SPACE], class), "nor another place's");
}

#[test]
fn what_cleared_a_written_place_shows() {
    assert!(reaches(&[WRITE, (0, 0x01)], "Clear of a written place"));
    assert!(!reaches(&[(0, 0x01)], "Clear of a written place"));
    assert!(reaches(&[WRITE, (0, 0x40), (0, 0x01)], "Clear from pattern memory"));
    assert!(!reaches(&[WRITE, (0, 0x01), WRITE], "Clear of a written place"));
}
