//! Watches the bits of the written places of panels that are handed in: those that
//! agree with memory, and those that do not.

use crate::arguments::Lent;
use crate::generator::Trial;
use crate::lend::written::{misread, Memory};
use crate::log::{self, Message, Transfer};
use crate::panel::Panel;
use crate::reach::Reach;
use crate::written::{Written, SPACE};

/// Notes what such a panel is; the faults are all that it has.
pub fn handed_in(reach: &mut Reach, trial: &Trial, lent: &Lent, faults: &[&str]) {
    match faults {
        [] => sound(reach, &lent.panel),
        ["written places"] => {
            which_bits(reach, &lent.panel);
            how_asked(reach, trial, lent);
        }
        _ => otherwise(reach, &lent.panel),
    }
}

fn sound(reach: &mut Reach, panel: &Panel) {
    let sheet = &panel.sheet;
    let memory = Memory::of(sheet).name();
    reach.note(&format!("handed in sound: {memory} memory, width {}", sheet.width.bits()));
    for &byte in &sheet.display[..sheet.chip.places()] {
        reach.note_byte_handed_in(byte);
    }
}

/// Where the bits are not those of a walk.
fn which_bits(reach: &mut Reach, panel: &Panel) {
    let sheet = &panel.sheet;
    let number = sheet.written.number();
    let off = number ^ Written::walk(&sheet.display).number();
    let class = match off.count_ones() {
        1 => format!("bit {} alone, {} memory", off.trailing_zeros(), Memory::of(sheet).name()),
        32 => "all of them".to_string(),
        _ => "several".to_string(),
    };
    note_if(reach, true, &class);
    for (reading, bits) in misread(sheet.chip) {
        note_if(reach, number == bits(sheet), reading);
    }
}

/// What it is lent and sent, which must make no difference.
fn how_asked(reach: &mut Reach, trial: &Trial, lent: &Lent) {
    let (records, cut) = log::records(&trial.log);
    note_if(reach, true, &format!("width {}", lent.panel.sheet.width.bits()));
    note_if(reach, lent.panel.half.is_some(), "with a half waiting");
    note_if(reach, !lent.panel.sheet.d, "with no dot lit");
    note_if(reach, trial.gives("records"), "by records");
    note_if(reach, trial.log.is_empty(), "on an empty log");
    note_if(reach, cut, "with a cut log");
    note_if(reach, !records.is_empty(), "over records");
    match records.first().and_then(|record| log::message(record)) {
        Some(Message::Reset { .. }) => note_if(reach, true, "before a reset"),
        Some(Message::Transfer(Transfer { rs: false, rw: false, data: 0x01, .. })) => {
            note_if(reach, true, "before a Clear")
        }
        Some(Message::Transfer(Transfer { rs: true, rw: false, .. })) => note_if(reach, true, "before a write"),
        _ => {}
    }
}

/// Unsound whatever its bits are, which are printed all the same.
fn otherwise(reach: &mut Reach, panel: &Panel) {
    let sheet = &panel.sheet;
    let agree = sheet.written == Written::walk(&sheet.display);
    reach.note_if(agree && sheet.written != Written::NOWHERE, "unsound otherwise: bits that agree, some of them 1");
    reach.note_if(!agree, "unsound otherwise: bits that disagree");
    for (place, &byte) in sheet.display.iter().enumerate().skip(sheet.chip.places()) {
        let with = if sheet.written.at(place) { "with" } else { "without" };
        reach.note_if(byte != SPACE, &format!("byte past the chip's own, {with} its bit"));
    }
}

fn note_if(reach: &mut Reach, reached: bool, class: &str) {
    reach.note_if(reached, &format!("unsound by the bits: {class}"));
}
