//! Words of `wall` that do not stand together, alone, beside each other, beside words
//! that are refused before them, and beside a chip's name that is refused after them.

use crate::generator::{self, Trial};
use crate::lend::{files, text};
use crate::picture;

const WORDINGS: [&str; 27] = [
    "ascii pbm", "pbm dark ascii", "svg ascii", "pbm svg", "ascii svg pbm", "live pbm", "svg live", "live at 7",
    "at 0 ascii live", "live svg at 7", "apart pbm", "pbm apart at 7", "upright apart dark pbm", "live pbm ascii",
    "at 7 svg ascii live", "apart ascii pbm", "svg apart pbm", "apart live pbm", "pbm at 7 live apart",
    "svg pbm live apart", "chip 6633 ascii pbm", "chip 6633 live at 7", "apart chip 35 pbm", "ascii bogus pbm",
    "ascii pbm ascii", "live svg live", "apart pbm dark apart",
];

/// With a font that is not refused; last, those of which a word is missing.
pub fn refused() -> Vec<Trial> {
    let font = files("font", vec![picture::trial_font()]);
    let log = generator::short_night();
    let mut trials: Vec<Trial> =
        WORDINGS.map(|words| Trial { groups: vec![text(words), font.clone()], log: log.clone() }).into();
    for words in ["ascii pbm at", "live pbm times 1 2", "apart pbm chip"] {
        trials.push(Trial { groups: vec![font.clone(), text(words)], log: log.clone() });
    }
    trials
}
