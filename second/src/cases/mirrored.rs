//! Cases of mirrored glass, from a fresh panel of the usual times: where the dots of
//! a cursor, a blink and a pattern land in pin configuration mode B, of both chips,
//! and what `trace` and `wall` print of it.

use super::{case, forty_apart, fresh, painted, wall_font, Case, DATA, INSTRUCTION};
use crate::arguments;
use crate::chips::Chip;
use crate::log;
use crate::panel::{Panel, Run};
use crate::picture::Painting;
use crate::prints;
use crate::wall::{self, Asked, Form};

pub fn all() -> Vec<Case> {
    let mut all = cursors();
    all.extend(one_dot());
    all.extend(ways_to_turn());
    all.extend(prints());
    all
}

fn two(name: &'static str, log: Vec<u8>, holds: fn(&Panel, &Run, &[u8]) -> bool) -> Case {
    Case { chip: Chip::TWO_LINES, ..case(name, log, holds) }
}

/// Whether one byte of the frame is lit and no other.
fn only(panel: &Panel, at: usize, byte: u8) -> bool {
    let (painting, frame) = painted(panel);
    let others_dark = frame.iter().enumerate().all(|(other, &byte)| other == at || byte == 0);
    painting == Painting::Lit(byte.count_ones()) && frame[at] == byte && others_dark
}

fn cursors() -> Vec<Case> {
    let cursor = forty_apart(&[(INSTRUCTION, 0x31), (INSTRUCTION, 0x0E)]);
    let below = forty_apart(&[(INSTRUCTION, 0x31), (INSTRUCTION, 0x0E), (INSTRUCTION, 0x90)]);
    vec![
        case("31h, 0Eh on one line", cursor.clone(), |panel, _, _| only(panel, 79, 0x1F)),
        two("31h, 0Eh", cursor, |panel, _, _| only(panel, 159, 0x1F)),
        two("31h, 0Eh, 90h", below, |panel, _, _| only(panel, 79, 0x1F)),
    ]
}

/// The leftmost dot of a pattern's first row, at position 0.
fn one_dot() -> Vec<Case> {
    let with = |code| {
        forty_apart(&[
            (INSTRUCTION, 0x40), (DATA, 0x10), (INSTRUCTION, 0x80), (DATA, 0x00), (INSTRUCTION, code),
            (INSTRUCTION, 0x0C),
        ])
    };
    vec![
        case("a dot, 31h on one line", with(0x31), |panel, _, _| only(panel, 9, 0x01)),
        two("a dot, 31h", with(0x31), |panel, _, _| only(panel, 89, 0x01)),
        case("a dot, 32h on one line", with(0x32), |panel, _, _| only(panel, 0, 0x80)),
        two("a dot, 32h", with(0x32), |panel, _, _| only(panel, 0, 0x80)),
    ]
}

fn ways_to_turn() -> Vec<Case> {
    let on = forty_apart(&[(INSTRUCTION, 0x31), (INSTRUCTION, 0x0E)]);
    let reset = [on, log::write_reset(80), log::write_transfer(10_080, INSTRUCTION, 0x0E)].concat();
    let halves = [0x20, 0x20, 0x10, 0x00, 0xE0].map(|half| (INSTRUCTION, half));
    vec![
        two("31h, 0Eh, a reset, 0Eh", reset, |panel, _, _| only(panel, 70, 0xF8)),
        case("20h, 21h and 0Eh as halves", forty_apart(&halves), |panel, _, _| only(panel, 79, 0x1F)),
    ]
}

/// W and the cursor on the second line of two, which is drawn above.
fn prints() -> Vec<Case> {
    let log = forty_apart(&[(INSTRUCTION, 0x31), (INSTRUCTION, 0x0D)]);
    let letter = forty_apart(&[(INSTRUCTION, 0x39), (INSTRUCTION, 0x0E), (INSTRUCTION, 0x90), (DATA, 0x57)]);
    vec![
        case("a blink in mode B, trace", log, |_, _, log| {
            let print = prints::trace(&arguments::trace(&[]).expect("no words"), log);
            let frames = ["00".repeat(80), format!("{}1F", "00".repeat(9)).repeat(8)];
            let [light, dark] = frames;
            print.contains("\nwidth 8 function 1\n")
                && print.ends_with(&format!("\nframe 0 lit 0 {light}\nframe 1 lit 40 {dark}\ndiffer 0 75\n"))
        }),
        two("a letter in mode B, wall", letter, |panel, _, log| {
            let turned = Asked::plainly(Form::Ascii, fresh(panel.sheet.chip));
            let upright = Asked { upright: true, ..turned.clone() };
            wall::print(&turned, &wall_font(), log) == [EDGE, TURNED, DARK, EDGE, BENEATH].concat().as_bytes()
                && wall::print(&upright, &wall_font(), log) == [EDGE, DARK, UPRIGHT, EDGE, BENEATH].concat().as_bytes()
        }),
    ]
}

const EDGE: &str = "+--------------------------------------------------------------------------------+\n";

const TURNED: &str = "\
|...........................................................................#...#|
|...........................................................................#...#|
|...........................................................................#...#|
|...........................................................................#.#.#|
|...........................................................................#.#.#|
|...........................................................................##.##|
|...........................................................................#...#|
|......................................................................#####.....|
";

const UPRIGHT: &str = "\
|#...#...........................................................................|
|#...#...........................................................................|
|#...#...........................................................................|
|#.#.#...........................................................................|
|#.#.#...........................................................................|
|##.##...........................................................................|
|#...#...........................................................................|
|.....#####......................................................................|
";

const DARK: &str = "\
|................................................................................|
|................................................................................|
|................................................................................|
|................................................................................|
|................................................................................|
|................................................................................|
|................................................................................|
|................................................................................|
";

const BENEATH: &str = "\
text |                |
text |W               |
codes 20 20 20 20 20 20 20 20 20 20 20 20 20 20 20 20
codes 57 20 20 20 20 20 20 20 20 20 20 20 20 20 20 20
cursor 1 line 1
written 10
";
