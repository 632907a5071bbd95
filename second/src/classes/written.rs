//! The classes that the written places brought: what turns a bit over, what leaves it
//! alone, and panels whose bits disagree with their memory.
//!
//! `trace` prints the bits as they are in the end, so a class is reached where its
//! place's bit is still the one that the step in question left.

use super::{owned, BY_RECORDS, FROM_FRESH, IN_PIECES};
use crate::chips::Chip;
use crate::lend::written::{misread, Memory};

/// What a data write does to the bit of its place.
const OVER: [&str; 4] = [
    "20h over a written place", "20h over a space", "another byte over a space", "another byte over a written place",
];

/// All of these leave a written place and a space alone, at both widths.
const LEFT: [&str; 28] = [
    "pattern write", "taken display read", "doubtful display read", "taken pattern read", "doubtful pattern read",
    "display address", "pattern address", "move up", "move down", "shift left", "shift right", "display bits",
    "entry bits", "to width 4", "to width 8", "Home 02h", "Home 03h", "none 00h", "status read",
    "ignored display write", "ignored pattern write", "ignored read", "ignored address set", "ignored cursor move",
    "ignored instruction", "back data write", "data write of a bad control", "data write of a bad time",
];
const LEFT_NARROW: [&str; 4] =
    ["torn data write", "torn by a data write", "torn ignored data write", "held data write"];

/// These would clear a place, and leave it written.
const NOT_CLEARED: [&str; 2] = ["ignored Clear", "back reset"];
const NOT_CLEARED_WIDE: [&str; 1] = ["back Clear"];

/// All places are spaces after these; each is wanted of a place that was written.
const CLEARED: [&str; 9] = [
    "Clear of a written place", "Clear of a full memory", "Clear of a place handed in", "Clear from pattern memory",
    "reset of a written place", "reset of a full memory", "reset of a place handed in", "reset from pattern memory",
    "reset of a written place while busy",
];
const CLEARED_NARROW: [&str; 1] = ["reset of a written place with a data write waiting"];

const ENDS: [&str; 11] = [
    "no place of a fresh panel is written", "ends with no place written", "ends with all places written",
    "ends with the first place alone written", "ends with the last place alone written",
    "ends with other bits by position", "ends with D off and places written", "ends with D on and places written",
    "ends in pattern memory and places written", "ends with the code of a blank pattern and D on",
    "ends with a code that the font has blank and D on",
];

/// Panels that are refused for their bits and for nothing else.
const BY_THE_BITS: [&str; 13] = [
    "several", "all of them", "width 8", "width 4", "with a half waiting", "by records", "on an empty log",
    "with a cut log", "over records", "before a reset", "before a Clear", "before a write", "with no dot lit",
];

const OTHERWISE: [&str; 2] = ["bits that agree, some of them 1", "bits that disagree"];

pub fn of_chip(chip: Chip) -> Vec<String> {
    let mut all = owned(&ENDS);
    for width in [8, 4] {
        all.extend(of_width(chip, width).into_iter().map(|class| format!("{class}, width {width}")));
    }
    all.extend(handed_in(chip));
    all
}

fn of_width(chip: Chip, width: u8) -> Vec<String> {
    let mut all = Vec::new();
    for over in OVER {
        for way in ["up", "down"] {
            all.extend([format!("{over}, {way}"), format!("{over}, with S, {way}")]);
            all.push(format!("{over} at an end of memory, {way}"));
            if chip.lines() == 2 {
                all.push(format!("{over} from line to line, {way}"));
            }
        }
        all.extend([FROM_FRESH, BY_RECORDS, IN_PIECES].map(|way| format!("{over} {way}")));
        all.extend([format!("{over}, handed in"), format!("{over} right behind an address above 8Fh")]);
    }
    let (left, not_cleared, cleared): (&[&str], &[&str], &[&str]) = match width {
        8 => (&[], &NOT_CLEARED_WIDE, &[]),
        _ => (&LEFT_NARROW, &[], &CLEARED_NARROW),
    };
    for what in LEFT.iter().chain(left) {
        all.extend(["written place", "space"].map(|state| format!("{what} left a {state} alone")));
    }
    let not_cleared = NOT_CLEARED.iter().chain(not_cleared);
    all.extend(not_cleared.map(|what| format!("{what} left a written place alone")));
    all.extend(owned(&[&CLEARED, cleared].concat()));
    all
}

fn handed_in(chip: Chip) -> Vec<String> {
    let mut all = vec!["unsound: written places".to_string()];
    for memory in Memory::ALL.map(Memory::name) {
        all.extend([8, 4].map(|width| format!("handed in sound: {memory} memory, width {width}")));
        all.extend((0..32).map(|bit| format!("unsound by the bits: bit {bit} alone, {memory} memory")));
    }
    all.extend(BY_THE_BITS.map(|class| format!("unsound by the bits: {class}")));
    all.extend(misread(chip).into_iter().map(|(reading, _)| format!("unsound by the bits: {reading}")));
    all.extend(OTHERWISE.map(|class| format!("unsound otherwise: {class}")));
    if chip.lines() == 1 {
        all.extend(owned(&["byte past the chip's own, with its bit", "byte past the chip's own, without its bit"]));
    }
    all
}

/// Of the line that `wall` prints.
pub const OF_WALL: [&str; 14] = [
    "no place written", "one place written", "all places written", "the first place written",
    "the last place written", "an address with a letter", "a higher place written before a lower one",
    "other places by position", "places written with D off", "20h over a written place", "Clear of written places",
    "places written in pattern memory alone", "other places at the end of the log", "bitmap with places written",
];
