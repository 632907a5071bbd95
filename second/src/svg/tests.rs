//! Tests of reading a drawing back: one that is right, and ways in which it is not.

use super::*;
use crate::chips::Chip;
use crate::log::write_transfers;
use crate::panel::{self, Times};
use crate::wall::Form;

/// Two lines, D and the cursor on, `<&>` at the start of the second: the cursor's five
/// dots are all that is lit, in row 7 of the second line.
fn due() -> Due {
    let mut panel = Panel::fresh(Chip::TWO_LINES, Times::USUAL);
    let sent = [(0, 0, 0x0E), (40, 0, 0x90), (80, 1, 0x3C), (120, 1, 0x26), (160, 1, 0x3E)];
    panel::run(&mut panel, &write_transfers(&sent));
    let asked = Asked::plainly(Form::Svg, Panel::fresh(Chip::TWO_LINES, Times::USUAL));
    Due::of(&asked, &[0; 1_920], &panel)
}

/// Position 3 begins at column 18 of 95, row 15 is row 16 of 17.
const LIT: &str = "M84 76h3v3h-3zM88 76h3v3h-3zM92 76h3v3h-3zM96 76h3v3h-3zM100 76h3v3h-3z";

/// The other dots, row by row, where the gaps are left out by hand.
fn unlit() -> Vec<String> {
    let columns: Vec<usize> = (0..95).filter(|column| column % 6 != 5).collect();
    let rows = (0..17).filter(|&row| row != 8);
    rows.flat_map(|row| columns.iter().map(move |column| format!("M{} {}h3v3h-3z", 12 + 4 * column, 12 + 4 * row)))
        .filter(|square| !LIT.contains(square))
        .collect()
}

fn file(lit: &str, unlit: &str, second: &str) -> String {
    format!(
        "<svg xmlns=\"http://www.w3.org/2000/svg\" width=\"400\">\n<style>.unlit {{ fill: #eee }}</style>\n\
         <rect x=\"6\" y=\"6\"/>\n<path class=\"unlit\" d=\"{unlit}\"/>\n<path d=\"{lit}\" class=\"lit\"/>\n\
         <text x=\"12\" y=\"100\">                </text>\n<text x=\"12\" y=\"120\">{second}</text>\n</svg>\n"
    )
}

const SECOND: &str = "&lt;&amp;&gt;             ";

fn differs(file: &str) -> bool {
    difference(&due(), file.as_bytes()).is_some()
}

#[test]
fn a_drawing_that_is_right() {
    assert_eq!(unlit().len(), 1_275);
    assert_eq!(difference(&due(), file(LIT, &unlit().concat(), SECOND).as_bytes()), None);
    // Nothing is said of the order of those that are not lit.
    let mut back_to_front = unlit();
    back_to_front.reverse();
    assert!(!differs(&file(LIT, &back_to_front.concat(), SECOND)));
}

#[test]
fn squares_that_are_wrong() {
    let unlit = unlit();
    let swapped = LIT.replacen("M84", "M88", 1).replacen("M88 76h3v3h-3zM88", "M88 76h3v3h-3zM84", 1);
    let gap = LIT.replace("M100", "M104");
    let upper = LIT.replace(" 76", " 72");
    for lit in ["", &LIT[15..], &swapped, &gap, &upper, &LIT.repeat(2), &LIT.replace("h3v3", "h4v3"), &LIT[1..]] {
        assert!(differs(&file(lit, &unlit.concat(), SECOND)), "{lit}");
    }
    let twice = unlit.concat() + &unlit[7];
    let in_place_of_another = unlit[1..].concat() + &unlit[7];
    let in_a_gap = unlit.concat() + "M32 12h3v3h-3z";
    let between_lines = unlit.concat() + "M12 44h3v3h-3z";
    let lit_too = unlit.concat() + &LIT[..14];
    for other in [&twice, &in_place_of_another, &in_a_gap, &between_lines, &lit_too, &unlit[1..].concat(), ""] {
        assert!(differs(&file(LIT, other, SECOND)));
    }
}

#[test]
fn text_that_is_wrong() {
    for text in [
        "&lt;&gt;&amp;             ", "<&amp;&gt;             ", "&lt;&&gt;             ", "&lt;&amp;>             ",
        "&lt;&amp;&gt;", "&#60;&amp;&gt;             ", "&lt;&amp;amp;&gt;             ",
    ] {
        assert!(differs(&file(LIT, &unlit().concat(), text)), "{text}");
    }
    let right = file(LIT, &unlit().concat(), SECOND);
    for other in [
        right.replace("<text x=\"12\" y=\"100\">                </text>\n", ""), right.replace(" class=\"lit\"", ""),
        right.replace("\"unlit\" d", "\"lit\" d"), right.replace("xmlns", "xml"),
        right.replace("<rect", "<use href=\"a\""),
        right.replace("100\">  ", "100\">  <b/>"), String::new(),
    ] {
        assert!(differs(&other));
    }
}

/// No dot of a fresh panel is lit, and its path is empty; both paths must be there.
#[test]
fn an_empty_path() {
    let asked = Asked::plainly(Form::Svg, Panel::fresh(Chip::ONE_LINE, Times::USUAL));
    let due = Due::of(&asked, &[0xFF; 1_920], &asked.start);
    let all: String = due.squares(false).iter().map(|(x, y)| format!("M{x} {y}h3v3h-3z")).collect();
    assert!(all.starts_with("M12 12h3v3h-3zM16 12h3v3h-3z") && all.ends_with("M388 40h3v3h-3z"));
    let of = |lit: &str| {
        let head = "<svg xmlns=\"http://www.w3.org/2000/svg\">";
        format!("{head}{lit}<path class=\"unlit\" d=\"{all}\"/><text>                </text></svg>")
    };
    assert_eq!(difference(&due, of("<path class=\"lit\" d=\"\"/>").as_bytes()), None);
    assert!(difference(&due, of("").as_bytes()).is_some());
}
