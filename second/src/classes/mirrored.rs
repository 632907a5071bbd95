//! The classes that mirrored glass brought: pictures in both modes, what turns the
//! glass and what does not, refusals and comparisons in mode B, and `upright`.

use super::{owned, BY_RECORDS, FROM_FRESH, HANDED_IN};
use crate::chips::Chip;
use crate::picture::Mode;
use crate::turned::misread;

const MODES: [Mode; 2] = [Mode::A, Mode::B];

/// Of pictures with dots lit, but for the first.
const PAINTED: [&str; 16] = [
    "D off", "dots lit", "cursor", "cursor at a shift", "cursor in pattern memory", "blink, dark", "a pattern",
    "at a shift", "width 8", "width 4", "painted frames differ", "painted frames same", "lent frames differ",
    "lent frames same", FROM_FRESH, BY_RECORDS,
];

/// How the glass came to be as it is painted, and what has left it so since.
const CAME: [&str; 9] = [
    HANDED_IN, "turned by Function Set, width 8", "turned by Function Set, width 4", "kept by Function Set, width 8",
    "kept by Function Set, width 4", "left by an ignored Function Set, width 8",
    "left by an ignored Function Set, width 4", "left by a Function Set that is back", "left by a torn Function Set",
];

const REFUSED: [&str; 6] = [
    "9 for the frame", "9 for a frame of the other chip's size", "9 for the font", "9 for lent frames",
    "10 for a painting", "10 for Function Set bits",
];

/// Where a comparison would answer otherwise if it knew the mode.
const COMPARED: [&str; 2] = ["painted frames, another dot first if turned", "lent frames, another dot first if turned"];

const TWO_LINES: [&str; 7] = [
    "dots lit in both halves", "dots lit in the upper half alone", "dots lit in the lower half alone",
    "cursor on the first line", "cursor on the second line", "dark and light first differ in the upper half",
    "dark and light first differ in the lower half",
];

/// Of `trace`.
pub fn of_chip(chip: Chip) -> Vec<String> {
    let two_lines = if chip.lines() == 2 { &TWO_LINES[..] } else { &[] };
    let both = [&PAINTED[..], &CAME, &REFUSED, two_lines].concat();
    let of_mode = |mode: Mode| both.iter().map(move |class| format!("{}: {class}", mode.name()));
    let mut all: Vec<String> = MODES.into_iter().flat_map(of_mode).collect();
    all.push("mode A: turned by a reset".to_string());
    all.push("mode A: another picture if bit 1 were the mode".to_string());
    all.extend(COMPARED.map(|class| format!("mode B: {class}")));
    all.extend(misread::all(chip).iter().map(|other| format!("mode B: another picture if {}", other.name)));
    all.extend((0..16).map(|bits| format!("Function Set bits {bits}, dots lit")));
    all
}

/// Of `wall` in either mode, upright and not; dots are lit in all but the first.
const WALL: [&str; 8] =
    ["D off", "ascii", "bitmap", "at a time", "no time", "cursor", "blink, dark", "a pattern"];

const OF_WALL: [&str; 5] = [
    "mode B: another picture if upright were not heard", "mode B: another text if it were turned",
    "mode B, upright: another text if it were turned", "mode B: mode A at the end of the log",
    "mode A: mode B at the end of the log",
];

const WALL_OF_TWO_LINES: [&str; 2] =
    ["mode B: another text if lines traded places", "mode B, upright: another text if lines traded places"];

pub fn of_wall(chip: Chip) -> Vec<String> {
    let mut all = owned(&OF_WALL);
    for mode in MODES.map(Mode::name) {
        all.extend(WALL.map(|class| format!("{mode}: {class}")));
        all.extend(WALL.map(|class| format!("{mode}, upright: {class}")));
    }
    if chip.lines() == 2 {
        all.extend(owned(&WALL_OF_TWO_LINES));
    }
    all
}

/// Words that the wall refuses; no reason says that it was this one.
pub const UPRIGHT_TWICE: &str = "refused: upright twice";
