//! The classes of `live`, of cells apart and of the drawing for browsers, and those of
//! words that do not stand together.

use super::owned;
use crate::arguments::together;
use crate::picture::Mode;

/// Of the reads: their number and ends, and what of a picture is another.
const READS: [&str; 22] = [
    "one read", "two reads", "more reads", "an empty log", "one read and not a byte more", "one read and a byte",
    "two reads and not a byte more", "a read that ends with a record", "a record in two reads", "a cut, and more reads",
    "a read that changes something", "drawing alone", "cursor alone", "written alone", "codes alone",
    "the picture before the last one again", "a read that changes nothing", "nothing: another pattern",
    "nothing: another mode", "nothing: another address", "nothing: another text in between", "100 hours",
];

/// Of the three last lines. No transfer is bad.
const LAST: [&str; 15] = [
    "last transfer -", "last transfer taken", "last transfer doubtful", "last transfer held", "last transfer status",
    "last transfer ignored", "last transfer torn", "last transfer back", "last transfer none", "a picture of no record",
    "a bad record last, behind a transfer", "a bad record last, and no transfer", "a reset last, behind a transfer",
    "a reset last, and no transfer", "a backward record last",
];

const SVG: [&str; 6] =
    ["< in the text", "> in the text", "& in the text", ". in the text", "text with D off", "apart beside it"];

/// Of what is drawn apart, for a word and without.
const DRAWN: [&str; 4] = ["blink, dark", "at a time", "no dot lit", "every dot lit"];

pub fn of_every_chip() -> Vec<String> {
    let mut all = Vec::new();
    let live = [&READS[..], &LAST, &["blink, dark", "apart beside it"]].concat();
    let svg = [&SVG[..], &DRAWN].concat();
    for (form, classes) in [("live", &live[..]), ("svg", &svg), ("apart", &DRAWN)] {
        let mut classes = owned(classes);
        classes.extend([Mode::A, Mode::B].map(|mode| mode.name().to_string()));
        classes.extend([Mode::A, Mode::B].map(|mode| format!("{}, upright", mode.name())));
        all.extend(classes.iter().map(|class| format!("{form}: {class}")));
    }
    all
}

/// Of words that do not stand together, beside what comes before and after.
pub fn refused() -> Vec<String> {
    let [one_form, live, apart] = together::LINES;
    let mut all = owned(&together::LINES);
    for (line, later) in [(one_form, live), (one_form, apart), (live, apart)] {
        all.push(format!("{line}, before: {later}"));
    }
    all.extend(together::LINES.map(|line| format!("{line}, before the chip's name")));
    all.extend(["unknown word", "group given twice", "number missing"].map(|r| format!("{r}, before words together")));
    all
}
