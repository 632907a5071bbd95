//! Trials for cells apart and for the drawing for browsers: a story on both sorts of
//! glass, and a picture of which every dot or none is lit.

use super::mirrored::{story_log, APART};
use super::{made, random_of, usual, words};
use crate::chips::Chip;
use crate::generator::Trial;
use crate::lend::{self, files, text};
use crate::log::write_transfers as at_times;
use crate::picture::{self, FONT_SIZE};
use crate::sender::{self, Scene};

/// The glass turned and not, upright and not, at times and in the end.
pub fn story(chip: Chip) -> Vec<Trial> {
    let wordings = [
        "ascii apart", "apart ascii upright", "dark apart ascii", "upright apart dark ascii", "svg",
        "apart svg upright", "dark svg", "upright dark svg",
    ];
    let turned = wordings.map(|words| words.to_string());
    // Before the glass is turned, the blink is on.
    let before = wordings.map(|words| format!("{words} at {}", 10 * APART));
    let asked = |words: String| {
        let mut groups = lend::chip_words(chip);
        groups.extend([text(&words), files("font", vec![picture::trial_font()])]);
        Trial { groups, log: story_log() }
    };
    turned.into_iter().chain(before).map(asked).collect()
}

/// No dot of a fresh panel; every dot of a font that has all of them, spaces too.
pub fn all_or_none(chip: Chip) -> Vec<Trial> {
    let full = files("font", vec![vec![0xFF; FONT_SIZE]]);
    let asked = |words: &str, log: Vec<u8>| {
        let mut groups = lend::chip_words(chip);
        groups.extend([text(words), full.clone()]);
        Trial { groups, log }
    };
    let [nothing, on] = [Vec::new(), at_times(&[(0, 0, 0x0C)])];
    let both = |words: &'static str| [&nothing, &on].map(|log| asked(words, log.clone()));
    ["svg", "ascii apart"].into_iter().flat_map(both).collect()
}

/// The characters that are escaped, and those beside them: 20h to 3Fh.
pub fn escapes(seed: u64, chip: Chip) -> Vec<Trial> {
    let mut random = random_of(seed, 3_000_000);
    let mut shown = |first_code| {
        let scene = Scene { shift: 2, screen: 4, first_code, cursor: 0x80, function: 1 };
        let log = sender::send_glass(&mut random, usual(chip), 0, scene);
        Trial { groups: words(&mut random, lend::chip_words(chip), "svg", None), log }
    };
    [0x20, 0x30].map(&mut shown).into()
}

/// Any scene, for browsers.
pub fn svg_trial(seed: u64, number: u64) -> Trial {
    made(&mut random_of(seed ^ 0x5F6_0000, number), number, &["svg"])
}
