//! Trials for `wall` on mirrored glass: one story, looked at before and after each of
//! its turns, with `upright` and without.

use crate::chips::Chip;
use crate::generator::Trial;
use crate::lend::{self, files, text};
use crate::log;
use crate::picture;

/// So far apart that every record is taken.
pub(super) const APART: u64 = 2_000;

/// A pattern, codes on every line, the cursor under another, and then Function Sets:
/// the glass is turned by the twelfth record, turned back by the fifteenth, and turned
/// anew by the last.
fn story() -> [(u8, u8); 16] {
    let (instruction, data) = (0, 1);
    [
        (instruction, 0x0F), (instruction, 0x48), (data, 0x10), (data, 0x1C), (instruction, 0x80), (data, 0x4C),
        (data, 0x01), (instruction, 0x92), (data, 0x46), (instruction, 0x18), (instruction, 0x34), (instruction, 0x31),
        (instruction, 0x0E), (instruction, 0x3D), (instruction, 0x32), (instruction, 0x39),
    ]
}

fn sent() -> Vec<(u64, u8, u8)> {
    (0..).zip(story()).map(|(number, (control, byte))| (APART * number, control, byte)).collect()
}

/// The whole story.
pub(super) fn story_log() -> Vec<u8> {
    log::write_transfers(&sent())
}

/// The trial font has no glyph that a turn leaves alike.
pub fn turned_by_time(chip: Chip) -> Vec<Trial> {
    let sent = sent();
    let asked = |words: &str, number: u64| {
        let mut groups = lend::chip_words(chip);
        let words = if number == 0 { words.to_string() } else { format!("{words} at {}", APART * (number - 1)) };
        groups.extend([text(&words), files("font", vec![picture::trial_font()])]);
        // Where the glass is looked at while it is turned, it does not end so.
        let end = if (12..15).contains(&number) { sent.len() - 1 } else { sent.len() };
        Trial { groups, log: log::write_transfers(&sent[..end]) }
    };
    // By the number of records that have come; 0 is the end of the log.
    [
        ("ascii dark", 11), ("upright dark ascii", 11), ("ascii", 12), ("ascii upright", 12), ("dark ascii", 12),
        ("dark upright pbm", 12), ("pbm", 13), ("upright pbm", 13), ("pbm dark upright", 14), ("ascii", 15),
        ("upright pbm", 15), ("ascii", 0), ("upright dark ascii", 0), ("pbm", 0),
    ]
    .map(|(words, number)| asked(words, number))
    .into()
}
