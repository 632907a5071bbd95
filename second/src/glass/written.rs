//! Trials for the line `written` of `wall`: places that are written and spaced over,
//! out of their order, shifted, hidden and cleared, at every time between.

use crate::cases;
use crate::chips::Chip;
use crate::generator::Trial;
use crate::lend::{self, files, text};
use crate::log;

/// So far apart that every record is taken.
const APART: u64 = 2_000;

/// The story of a few places, the last one among them.
fn story(chip: Chip) -> Vec<(u8, u8)> {
    let (instruction, data) = (0, 1);
    let last = 0x80 | (chip.places() - 1) as u8;
    vec![
        (instruction, 0x0E), (instruction, 0x40), (data, 0x57), (instruction, 0x8B), (data, 0x57),
        (instruction, 0x82), (data, 0x00), (instruction, 0x18), (instruction, 0x08), (instruction, last), (data, 0x20),
        (instruction, last), (data, 0xA0), (data, 0x57), (instruction, 0x8B), (data, 0x20), (instruction, 0x0C),
        (instruction, 0x01), (data, 0x57), (data, 0x57), (instruction, 0x80), (data, 0x20), (instruction, 0x02),
    ]
}

/// The glass at each time of the story, some of it as a bitmap, and two lines' worth
/// of bytes in the end.
pub fn places_by_time(chip: Chip) -> Vec<Trial> {
    let mut sent = story(chip);
    let times = sent.len() as u64;
    sent.extend(vec![(1, 0x41); 32]);
    let sent: Vec<(u64, u8, u8)> =
        (0..).zip(sent).map(|(number, (control, byte))| (APART * number, control, byte)).collect();
    let log = log::write_transfers(&sent);
    let asked = |words: String| {
        let mut groups = lend::chip_words(chip);
        groups.extend([text(&words), files("font", vec![cases::wall_font()])]);
        Trial { groups, log: log.clone() }
    };
    let mut trials: Vec<Trial> = (0..times).map(|number| asked(format!("ascii at {}", APART * number))).collect();
    let nine_more = format!("dark ascii at {}", APART * (times + 9));
    trials.extend(["ascii".to_string(), format!("pbm at {}", 4 * APART), nine_more].map(asked));
    trials
}
