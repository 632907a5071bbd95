//! The classes of questions that must be reached, those of `trace` first. Most
//! are wanted of every chip, some of one chip alone, and some have no chip: words
//! that are refused, and panels of no known chip.

mod lines;
mod live;
mod mirrored;
mod reads;
mod report;
mod wall;
mod written;

use crate::chips::Chip;
pub use lines::UNKNOWN_CHIPS;
pub use mirrored::UPRIGHT_TWICE;
pub use reads::{BY_RECORDS, FRESH_START, FROM_FRESH, HANDED_IN, IN_PIECES};

/// What the classes of a program begin with; those of `trace` begin with
/// nothing. They are wanted where the program is compared.
pub const GLAZOMIR: &str = "glazomir: ";
pub const REPORT: &str = "report: ";
pub const WALL: &str = "wall: ";

/// The instructions and data transfers, each wanted at both widths, while
/// free and while busy.
const TRANSFERS: [&str; 19] = [
    "none 00h", "Clear", "Home 02h", "Home 03h", "entry bits", "display bits", "move down", "move up",
    "shift left", "shift right", "to width 4", "to width 8", "pattern address", "display address",
    "display write", "pattern write", "display read", "pattern read", "status read",
];

const CLOCK: [&str; 15] = [
    "whole one before the busy end", "whole at the busy end", "whole one after the busy end",
    "first half one before the busy end", "first half at the busy end", "first half one after the busy end",
    "at the last time", "one back", "back to 0", "reset back", "time 2^48 - 1 used", "time 2^48 refused",
    "time above 2^48 refused", "busy end of 2^48 or more", "taken within the wait of an ignored transfer",
];

const BAD: [&str; 10] = [
    "bad kind", "bad kind with a usable low byte", "bad length of a transfer", "bad length of a reset",
    "bad time of a transfer", "bad time of a reset", "bad control", "bad and back", "bad of length 2",
    "bad of length 64",
];

const HALVES: [&str; 26] = [
    "held instruction", "held data write", "held data read", "held status",
    "held half torn by RS", "held half torn by R/W", "held half torn by both",
    "ignored half torn by RS", "ignored half torn by R/W", "ignored half torn by both",
    "ignored pair whose second half is free", "status half begun busy, ended free",
    "status half begun free", "second half at the first's time", "back between halves",
    "bad between halves", "back reset between halves", "pair begun after an ignored pair",
    "pair begun after a torn pair", "taken half handed in", "status half handed in",
    "ignored half handed in", "torn half handed in", "data read of a half not at the address",
    "00h as two halves", "width 8 by two halves",
];

const RESETS: [&str; 7] = [
    "reset while free", "reset while busy", "reset at width 4", "reset with a half held",
    "reset with a status half", "reset with an ignored half", "reset of a written pattern memory",
];

const STEPS: [&str; 23] = [
    "pattern write 31 to 0", "pattern write 0 to 31",
    "pattern read 31 to 0", "pattern read 0 to 31", "pattern move 31 to 0", "pattern move 0 to 31",
    "shift 15 to 0 by instruction", "shift 0 to 15 by instruction", "shift 15 to 0 by write",
    "shift 0 to 15 by write", "display write with S, up", "display write with S, down",
    "pattern write with S", "display read with S", "pattern read with S", "Clear with S",
    "Clear with I/D down", "Clear in pattern memory", "Home in pattern memory", "Home with a shift",
    "pattern write above 1Fh", "display address above 8Fh", "pattern address above 5Fh",
];

const ENDS: [&str; 17] = [
    "empty log", "cut before any record", "cut: one byte left", "cut: length 0", "cut: length 1",
    "cut: length 65", "cut: length 65535", "cut: length 65535, as many bytes", "cut: length above 65",
    "cut: nothing after the length", "cut: one byte short", "cut: several bytes short",
    "ends with an instruction half", "ends with a data write half", "ends with a data read half",
    "ends with a status half", "ends with an ignored half",
];

const PICTURES: [&str; 13] = [
    "painted with D off", "painted with D on", "cursor at a shift", "cursor in pattern memory",
    "cursor above 15 in pattern memory", "blink at a shift", "dark and light differ",
    "pattern code 00h to 03h", "pattern code 04h to 0Fh", "font code 10h", "font code FFh",
    "lent font painted", "comparison: painted frames same",
];

const LENT: [&str; 38] = [
    "9 for the font", "9 for the frame", "9 for frames", "10 for a run", "10 for a painting",
    "10 before 9 for the font", "10 before 9 for the frame", "10 with a cut log", "font of 0",
    "font of 1919", "font of 1921", "frame of 0", "frame of 79", "frame of 81", "frame of 200",
    "frames: none differs", "frames: one dot", "frames: several dots", "frames: first dot of all",
    "frames: last dot of all", "frames: first of wrong size", "frames: second of wrong size",
    "frames: both of wrong size", "time of 0", "time of 65535", "panel sound",
    "panel sound: last time 2^48 - 1", "panel sound: busy end 2^48 + 65535",
    "panel sound: display address 15", "panel sound: pattern address 31", "panel sound: shift 15",
    "panel sound: Function Set bits 15", "panel sound: pattern entry 31", "panel and times",
    "unsound in two ways", "10 with a log cut before any record", "10 on an empty log",
    "10 over records, counts 0",
];

/// Of a panel of either chip; more of one line and of no chip stands in `lines`.
const UNSOUND: [&str; 10] = [
    "display address", "pattern address", "shift", "Function Set bits", "pattern entry",
    "half's nibble", "status half ignored", "half at width 8", "last time", "busy end",
];

/// Words and files that are refused before there is a chip.
const REFUSED: [&str; 20] = [
    "size of the file", "memory of the counter", "I/D", "S", "D", "C", "B", "width", "good", "RS of the half",
    "R/W of the half", "sort of the half", "RS where none waits", "R/W where none waits",
    "nibble where none waits", "nibble of an ignored half", "file missing", "file not readable",
    "frame file too long", "group given twice",
];

/// With the word `records`.
const RECORD_BY_RECORD: [&str; 15] = [
    "empty log", "cut log", "log longer than a block", "cut log longer than a block", "record of length 2",
    "record of length 64", "panel handed in", "half handed in", "fed in pieces", "cut log, in pieces",
    "log longer than a block, in pieces", "10 over records", "10 with a cut log", "10 on an empty log",
    "10 of a panel with a half",
];

/// Reasons for which every program refuses the words for its fresh panel.
const REFUSED_OF_ALL: [&str; 8] = [
    "unknown word", "name missing", "name of the chip", "chip given twice", "times given twice", "number missing",
    "not a number", "number too large",
];

fn owned(classes: &[&str]) -> Vec<String> {
    classes.iter().map(|class| class.to_string()).collect()
}

fn prefixed(prefix: &str, classes: &[String]) -> Vec<String> {
    classes.iter().map(|class| format!("{prefix}{class}")).collect()
}

/// What is wanted of this chip.
pub fn of_chip(chip: Chip) -> Vec<String> {
    let mut all: Vec<String> = (0..=11).map(|number| format!("answer {number}")).collect();
    for transfer in TRANSFERS {
        for width in [8, 4] {
            for state in ["free", "busy"] {
                all.push(format!("{transfer}, width {width}, {state}"));
            }
        }
    }
    let lists: [&[&str]; 8] = [&CLOCK, &BAD, &HALVES, &RESETS, &STEPS, &ENDS, &PICTURES, &LENT];
    all.extend(owned(&lists.concat()));
    all.extend(UNSOUND.map(|fault| format!("unsound: {fault}")));
    all.extend(RECORD_BY_RECORD.map(|class| format!("records: {class}")));
    all.extend(lines::of_chip(chip));
    all.extend(reads::of_every_chip());
    all.extend(written::of_chip(chip));
    all.extend(mirrored::of_chip(chip));
    all.extend(prefixed(REPORT, &report::of_every_chip()));
    all.extend(prefixed(WALL, &wall::of_chip(chip)));
    all.extend(prefixed(WALL, &mirrored::of_wall(chip)));
    all.extend(prefixed(WALL, &live::of_every_chip()));
    all.extend(prefixed(GLAZOMIR, &lines::of_glazomir(chip)));
    for program in ["", GLAZOMIR, REPORT, WALL] {
        all.extend(prefixed(program, &lines::given(chip)));
    }
    all
}

/// What is wanted once, whatever the chip.
pub fn of_no_chip() -> Vec<String> {
    let mut all = lines::of_unknown_chips();
    all.extend(REFUSED.map(|reason| format!("refused: {reason}")));
    all.extend(wall::refused().map(|reason| format!("{WALL}refused: {reason}")));
    all.extend(live::refused().iter().map(|reason| format!("{WALL}refused: {reason}")));
    all.push(format!("{WALL}{UPRIGHT_TWICE}"));
    for program in ["", GLAZOMIR, REPORT, WALL] {
        all.extend(REFUSED_OF_ALL.map(|reason| format!("{program}refused: {reason}")));
    }
    all
}
