//! Cases of the written places, from a fresh panel of the usual times: the bits
//! after a few records, of one line and of two, and what `trace` and `wall` print.

use super::{at_times, case, forty_apart, fresh, wall_font, Case, DATA, INSTRUCTION};
use crate::arguments;
use crate::chips::Chip;
use crate::log;
use crate::panel::{Panel, Run};
use crate::prints;
use crate::wall::{self, Asked, Form};

const WRITE: (u8, u8) = (DATA, 0x57);
const SPACE: (u8, u8) = (DATA, 0x20);

pub fn all() -> Vec<Case> {
    let of_both = [first_bytes(), not_written()].concat();
    let mut all = Vec::new();
    for chip in Chip::KNOWN {
        all.extend(of_both.iter().map(|&(name, ref log, holds)| Case { chip, ..case(name, log.clone(), holds) }));
    }
    all.extend(last_place());
    all.extend(prints());
    all
}

type OfBoth = (&'static str, Vec<u8>, fn(&Panel, &Run, &[u8]) -> bool);

/// Whether these are the bits, kept and walked for.
fn bits(panel: &Panel, number: u32) -> bool {
    panel.sheet.written.number() == number && panel.is_sound()
}

fn first_bytes() -> Vec<OfBoth> {
    vec![
        ("nothing", Vec::new(), |panel, _, _| bits(panel, 0)),
        ("57h", forty_apart(&[WRITE]), |panel, _, _| bits(panel, 0x0000_0001)),
        ("00h as data", forty_apart(&[(DATA, 0x00)]), |panel, _, _| bits(panel, 0x0000_0001)),
        ("8Fh, 57h", forty_apart(&[(INSTRUCTION, 0x8F), WRITE]), |panel, _, _| bits(panel, 0x0000_8000)),
        ("57h, 80h, 20h", forty_apart(&[WRITE, (INSTRUCTION, 0x80), SPACE]), |panel, _, _| bits(panel, 0)),
        ("57h, 20h, 57h", forty_apart(&[WRITE, SPACE, WRITE]), |panel, _, _| bits(panel, 0x0000_0005)),
        ("07h, 57h, 57h", forty_apart(&[(INSTRUCTION, 0x07), WRITE, WRITE]), |panel, _, _| bits(panel, 0x0000_0003)),
        ("57h, 18h", forty_apart(&[WRITE, (INSTRUCTION, 0x18)]), |panel, _, _| bits(panel, 0x0000_0001)),
    ]
}

fn not_written() -> Vec<OfBoth> {
    let reset = [forty_apart(&[WRITE, WRITE]), log::write_reset(80)].concat();
    vec![
        ("40h, 57h", forty_apart(&[(INSTRUCTION, 0x40), WRITE]), |panel, _, _| bits(panel, 0)),
        ("57h, 01h", forty_apart(&[WRITE, (INSTRUCTION, 0x01)]), |panel, _, _| bits(panel, 0)),
        ("57h, 57h, a reset", reset, |panel, _, _| bits(panel, 0)),
        ("57h, 02h", forty_apart(&[WRITE, (INSTRUCTION, 0x02)]), |panel, _, _| bits(panel, 0x0000_0001)),
        ("57h too early", at_times(&[(0, INSTRUCTION, 0x85), (39, DATA, 0x57)]), |panel, _, _| bits(panel, 0)),
    ]
}

/// The last place of two lines, and what one line makes of its address.
fn last_place() -> Vec<Case> {
    let (set, down) = ((INSTRUCTION, 0x9F), (INSTRUCTION, 0x04));
    let [once, over, wrapped] =
        [&[set, WRITE][..], &[set, WRITE, set, SPACE], &[down, WRITE, WRITE]].map(forty_apart);
    let two = |name, log: &Vec<u8>, holds| Case { chip: Chip::TWO_LINES, ..case(name, log.clone(), holds) };
    vec![
        two("9Fh, 57h", &once, |panel, _, _| bits(panel, 0x8000_0000)),
        case("9Fh, 57h on one line", once.clone(), |panel, _, _| bits(panel, 0x0000_8000)),
        two("9Fh, 57h, 9Fh, 20h", &over, |panel, _, _| bits(panel, 0)),
        case("9Fh, 57h, 9Fh, 20h on one line", over.clone(), |panel, _, _| bits(panel, 0)),
        two("04h, 57h, 57h", &wrapped, |panel, _, _| bits(panel, 0x8000_0001)),
        case("04h, 57h, 57h on one line", wrapped.clone(), |panel, _, _| bits(panel, 0x0000_8001)),
    ]
}

/// The second place to be written is the lower one.
fn prints() -> Vec<Case> {
    let log = forty_apart(&[(INSTRUCTION, 0x8B), WRITE, (INSTRUCTION, 0x82), WRITE, (INSTRUCTION, 0x1C)]);
    vec![
        case("two places, trace", log.clone(), |_, _, log| {
            let print = prints::trace(&arguments::trace(&[]).expect("no words"), log);
            print.contains("\nshift 15\n") && print.contains("\ngood 0\nwritten 00000804\nframe 0 lit 0 ")
        }),
        case("two places, wall", log, |panel, _, log| {
            let asked = Asked::plainly(Form::Ascii, fresh(panel.sheet.chip));
            wall::print(&asked, &wall_font(), log).ends_with(b"\ncursor off\nwritten 02 0B\n")
        }),
    ]
}
