//! The classes that two lines brought: addresses over the ends of the lines, the
//! chip among the words, frames of the other chip's size, chips that are unknown.

use super::{owned, reads};
use crate::chips::Chip;

/// Numbers of no chip: next to the two that are known, with a bit more or less,
/// the names' low bytes, and the two numbers read as hex.
pub const UNKNOWN_CHIPS: [u8; 16] = [0, 1, 15, 16, 30, 32, 33, 34, 36, 49, 53, 159, 163, 231, 235, 255];

/// Wanted of every chip.
const EVERY_CHIP: [&str; 26] = [
    "display address with bit 4", "display address with bit 5", "display address with bit 6", "display address C0h",
    "Home 03h from another address and shift", "Function Set with all bits, at another address and shift",
    "reset of a written display memory", "status read of a pattern address above 15, width 8",
    "status read of a pattern address above 15, width 4", "blink above 15 in pattern memory",
    "cursor above 15 in pattern memory, at a shift", "blink above 15 in pattern memory, at a shift",
    "handed in: display address 16", "handed in: display address 31", "unsound: shift 16", "frame of 80",
    "frame of 159", "frame of 160", "frame of 161", "9 for a frame of the other chip's size",
    "frames: first of the other chip's size", "frames: second of the other chip's size",
    "frames: both of the other chip's size", "frames: both of the other chip's size, the same", "panel and chip",
    "panel and another chip",
];

const ONE_LINE: [&str; 7] = [
    "display write 15 to 0", "display write 0 to 15", "display read 15 to 0", "display read 0 to 15",
    "display move 15 to 0", "display move 0 to 15", "unsound: byte past the chip's own",
];

const TWO_LINES: [&str; 38] = [
    "display write 31 to 0", "display write 0 to 31", "display read 31 to 0", "display read 0 to 31",
    "display move 31 to 0", "display move 0 to 31", "display write 15 to 16", "display write 16 to 15",
    "display read 15 to 16", "display read 16 to 15", "display move 15 to 16", "display move 16 to 15",
    "display write with S on the second line, up", "display write with S on the second line, down",
    "display write with S from line to line, up", "display write with S from line to line, down",
    "shift left with both lines written", "shift right with both lines written", "Clear with both lines written",
    "Home 03h from the second line", "reset with both lines written", "status read on the second line, width 8",
    "status read on the second line, width 4", "painted with both lines written",
    "painted at a shift with both lines written",
    "cursor on the first line, at a shift", "cursor on the second line", "cursor on the second line, at a shift",
    "blink on the first line", "blink on the second line", "blink on the second line, at a shift",
    "dark and light first differ on the second line", "panel sound: display address 16",
    "panel sound: display address 31",
    "frames: last dot of the first line", "frames: first dot of the second line", "frames: second line alone",
    "cursor of a display address on the second line",
];

pub fn of_chip(chip: Chip) -> Vec<String> {
    let mut all = owned(&EVERY_CHIP);
    match chip.lines() {
        1 => {
            all.extend(owned(&ONE_LINE));
            all.extend((16..32).map(|place| format!("unsound: byte {place} past the chip's own")));
            all.extend((16..32).map(|place| format!("unsound: display address {place}")));
        }
        _ => all.extend(owned(&TWO_LINES)),
    }
    all
}

/// What every program is told of its fresh panel. Of two lines it has to be told.
pub fn given(chip: Chip) -> Vec<String> {
    let mut all = owned(&["chip given", "chip and times given"]);
    if chip == Chip::ONE_LINE {
        all.extend(owned(&["times given", "neither chip nor times given"]));
    }
    all
}

pub fn of_glazomir(chip: Chip) -> Vec<String> {
    let mut all = owned(&["display address", "pattern address", "cut log"]);
    all.extend(owned(&reads::OF_GLAZOMIR));
    if chip.lines() == 2 {
        all.extend(owned(&["display address on the second line", "both lines written"]));
    }
    all
}

pub fn of_unknown_chips() -> Vec<String> {
    let mut all: Vec<String> = UNKNOWN_CHIPS.map(|number| format!("unknown chip {number}")).into();
    all.extend(
        [
            "sound as one line", "sound as two lines", "unsound in another way too", "10 over records",
            "10 on an empty log", "10 with a cut log", "by records", "a chip among the words", "frame of 80",
            "frame of 160", "frame of another size", "frames of 80", "frames of 160", "frames of other sizes",
        ]
        .map(|class| format!("unknown chip: {class}")),
    );
    all
}
