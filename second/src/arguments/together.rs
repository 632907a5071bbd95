//! Which words of `wall` stand together, and the line that says so where they do not.

use super::groups::Groups;
use crate::wall::Form;

const ONE_FORM: &str = "wall: takes one of ascii, pbm and svg";
const LIVE: &str = "wall: takes live without pbm, svg and at";
const APART: &str = "wall: takes apart without pbm";

/// Word for word, in the order in which they are looked at.
pub const LINES: [&str; 3] = [ONE_FORM, LIVE, APART];

/// The ways to write a picture that have a word.
const FORMS: [(&str, Form); 3] = [("ascii", Form::Ascii), ("pbm", Form::Bitmap), ("svg", Form::Svg)];

/// The form that is asked for, or the first of the lines that apply.
pub fn form(groups: &Groups) -> Result<Form, &'static str> {
    match faults(groups).first() {
        Some(line) => Err(line),
        None => Ok(forms(groups).next().unwrap_or(Form::HalfBlocks)),
    }
}

/// All of the lines that apply.
pub fn faults(groups: &Groups) -> Vec<&'static str> {
    let has = |name| groups.has(name);
    let applies = [
        forms(groups).count() > 1,
        has("live") && (has("pbm") || has("svg") || has("at")),
        has("apart") && has("pbm"),
    ];
    LINES.into_iter().zip(applies).filter_map(|(line, applies)| applies.then_some(line)).collect()
}

fn forms<'a>(groups: &'a Groups) -> impl Iterator<Item = Form> + 'a {
    FORMS.into_iter().filter_map(|(name, form)| groups.has(name).then_some(form))
}

#[cfg(test)]
mod tests {
    use super::*;
    use crate::arguments::wall;

    fn asked(words: &str) -> Result<Form, &'static str> {
        let words: Vec<String> = words.split(' ').map(str::to_string).collect();
        wall(&words).map(|asked| asked.form)
    }

    #[test]
    fn what_does_not_stand_together() {
        for words in ["ascii pbm", "svg ascii", "pbm dark svg", "svg pbm ascii"] {
            assert_eq!(asked(words), Err("wall: takes one of ascii, pbm and svg"), "{words}");
        }
        for words in ["live pbm", "svg live", "at 7 live", "live ascii at 0", "at 1 svg live", "upright live pbm"] {
            assert_eq!(asked(words), Err("wall: takes live without pbm, svg and at"), "{words}");
        }
        for words in ["apart pbm", "pbm at 7 apart"] {
            assert_eq!(asked(words), Err("wall: takes apart without pbm"), "{words}");
        }
    }

    #[test]
    fn what_does() {
        for (words, form) in [
            ("live", Form::HalfBlocks), ("live ascii", Form::Ascii), ("apart live ascii", Form::Ascii),
            ("apart", Form::HalfBlocks), ("at 7 apart ascii", Form::Ascii), ("svg apart", Form::Svg),
            ("svg at 7 upright dark", Form::Svg), ("pbm at 7", Form::Bitmap),
        ] {
            assert_eq!(asked(words), Ok(form), "{words}");
        }
    }

    /// The first of them, after the words themselves and before the chip's name.
    #[test]
    fn the_order() {
        for (words, line) in [
            ("live pbm ascii", ONE_FORM), ("apart pbm svg", ONE_FORM), ("apart live at 7 svg pbm", ONE_FORM),
            ("apart pbm live", LIVE), ("live apart at 7 pbm", LIVE), ("chip 6633 ascii pbm", ONE_FORM),
            ("chip 6633 live svg", LIVE), ("apart pbm chip 35", APART), ("chip 6633 ascii", "name of the chip"),
            ("ascii pbm bogus", "unknown word"), ("bogus live at 7", "unknown word"),
            ("ascii pbm ascii", "group given twice"), ("apart pbm at", "number missing"),
            ("live svg chip", "name missing"), ("live pbm font", "file missing"),
        ] {
            assert_eq!(asked(words), Err(line), "{words}");
        }
    }
}
