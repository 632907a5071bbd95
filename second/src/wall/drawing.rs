//! The drawing in marks: the frame as it is, or with its cells apart.

use crate::chips::LINE_ROWS;
use crate::picture::{self, COLUMNS};

/// Dots of a row that one position shows.
const CELL: usize = 5;

/// As many rows as the frame has bytes for. What is between two cells and between two
/// lines is neither before the first nor behind the last.
pub fn drawing(frame: &[u8], apart: bool) -> String {
    let between_cells = if apart { " " } else { "" };
    let rows: Vec<String> = (0..frame.len() / 10).map(|row| cells(frame, row).join(between_cells)).collect();
    let width = rows[0].len();
    let between_lines = if apart { line_of(&" ".repeat(width)) } else { String::new() };
    let lines: Vec<String> = rows.chunks(LINE_ROWS).map(|line| line.iter().map(|row| line_of(row)).collect()).collect();
    let edge = format!("+{}+\n", "-".repeat(width));
    format!("{edge}{}{edge}", lines.join(&between_lines))
}

fn line_of(dots: &str) -> String {
    format!("|{dots}|\n")
}

/// The dots of a row, cell by cell from the left.
fn cells(frame: &[u8], row: usize) -> Vec<String> {
    let mark = |column| if picture::dot(frame, row, column) { '#' } else { '.' };
    (0..COLUMNS / CELL).map(|cell| (CELL * cell..CELL * (cell + 1)).map(mark).collect()).collect()
}

#[cfg(test)]
mod tests;
