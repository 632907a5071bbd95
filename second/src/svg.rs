//! The drawing of `wall svg`, which is not drawn here but read back: which squares its
//! two paths hold, and which lines its text has. How else it is written is its own
//! matter.

mod read;

use crate::chips::LINE_ROWS;
use crate::panel::Panel;
use crate::picture::{self, COLUMNS};
use crate::wall::{self, Asked};
use read::Drawing;

/// The upper left corner of a square.
pub type Corner = (usize, usize);

/// What is due of a drawing.
#[derive(Debug)]
pub struct Due {
    frame: Vec<u8>,
    texts: Vec<String>,
}

impl Due {
    pub fn of(asked: &Asked, font: &[u8], panel: &Panel) -> Due {
        Due { frame: wall::frame(asked, font, panel), texts: wall::texts(&panel.sheet) }
    }

    /// The squares of the dots that are lit, or of those that are not, by rows.
    fn squares(&self, lit: bool) -> Vec<Corner> {
        let rows = self.frame.len() / 10;
        let dots = (0..rows).flat_map(|row| (0..COLUMNS).map(move |column| (row, column)));
        dots.filter(|&(row, column)| picture::dot(&self.frame, row, column) == lit)
            .map(|(row, column)| (corner(column, 5), corner(row, LINE_ROWS)))
            .collect()
    }
}

/// Squares come four apart from twelve, and a gap as wide after each so many.
fn corner(place: usize, together: usize) -> usize {
    12 + 4 * (place + place / together)
}

/// What of a print is not as it is due, if anything is.
pub fn difference(due: &Due, print: &[u8]) -> Option<String> {
    match read::read(print) {
        Err(reason) => Some(format!("  the SVG cannot be read: {reason}")),
        Ok(drawing) => paths(due, drawing.clone()).or_else(|| texts(due, &drawing)),
    }
}

/// The lit squares come in their order. Nothing is said of that of the others, but
/// each is there once.
fn paths(due: &Due, mut drawing: Drawing) -> Option<String> {
    drawing.unlit.sort_unstable_by_key(|&(x, y)| (y, x));
    for (class, ours, theirs) in
        [("lit", due.squares(true), drawing.lit), ("unlit", due.squares(false), drawing.unlit)]
    {
        let places = ours.len().max(theirs.len());
        if let Some(place) = (0..places).find(|&place| ours.get(place) != theirs.get(place)) {
            let [model, program] = [&ours, &theirs].map(|squares| squares.get(place));
            return Some(format!("  square {place} of class {class}\n  model   {model:?}\n  program {program:?}"));
        }
    }
    None
}

fn texts(due: &Due, drawing: &Drawing) -> Option<String> {
    (due.texts != drawing.texts)
        .then(|| format!("  the text\n  model   {:?}\n  program {:?}", due.texts, drawing.texts))
}

#[cfg(test)]
mod tests;
