//! The classes of `wall`.

use super::{owned, reads, written};
use crate::chips::Chip;

/// What `wall` shows: D, C and B, where the cursor is, and what is written.
const SCREENS: [&str; 19] = [
    "D off, C on", "D off, B on", "D on alone", "C alone, light", "C alone, dark", "B alone, light", "B alone, dark",
    "C and B, light", "C and B, dark", "cursor in pattern memory", "cursor in pattern memory, at a shift",
    "cursor above 15 in pattern memory", "a pattern that is not blank", "ascii, light", "ascii, dark", "bitmap, light",
    "bitmap, dark", "bitmap at a shift", "bitmap of the blink at a shift",
];

/// When `wall` shows it.
const TIMES: [&str; 24] = [
    "no time", "at 0", "at 2^48", "at 2^48 - 1", "before the first record", "after the last record",
    "at a record's time", "one before a record's time", "one after a record's time", "at the time of several records",
    "at a busy end", "one before a busy end", "between two halves", "a reset is the first that is later",
    "at a bad record's time", "a bad record of a later time first", "at a backward record's time",
    "records that tell a later time, all of them bad", "another panel at the end of the log", "a cut log",
    "a cut log, and a time after the cut", "a cut log, and a time before the cut", "an empty log",
    "an empty log, and a time",
];

/// How `wall` is fed, where the log is longer than a block.
const BLOCKS: [&str; 6] = [
    "fed in pieces", "fed in pieces, and a time", "the time in the second block", "the time in a later block",
    "the time in the second block, in pieces", "the time in a later block, in pieces",
];

const REFUSED: [&str; 4] = ["group given twice", "file missing", "file not readable", "size of the font"];

/// Where the cursor is, and what differs from line to line.
const TWO_LINES: [&str; 8] = [
    "the cursor on the first line", "the cursor on the second line", "the cursor on the first line, at a shift",
    "the cursor on the second line, at a shift", "cursor in pattern memory, on the second line",
    "the lines show other codes", "another second line at the end of the log",
    "bitmap of the cursor on the second line",
];

pub fn of_chip(chip: Chip) -> Vec<String> {
    let lists: [&[&str]; 5] = [&SCREENS, &TIMES, &BLOCKS, &reads::OF_WALL, &written::OF_WALL];
    let mut all = owned(&lists.concat());
    all.extend((0..16).map(|shift| format!("the cursor at shift {shift}")));
    if chip.lines() == 2 {
        all.extend(owned(&TWO_LINES));
    }
    all
}

/// Reasons that are the wall's own but for words together; none of the others stands
/// here.
pub fn refused() -> [&'static str; 4] {
    REFUSED
}
