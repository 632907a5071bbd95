//! What a program should do with a question, by the model, and whether it did.

use crate::arguments::{self, together};
use crate::prints;
use crate::questions::{Question, Which};
use crate::report::page;
use crate::start::{Feed, Output};
use crate::svg;
use crate::wall::{self, Asked, Form};

pub enum Expected {
    Print(Vec<u8>),
    /// This print and then one line on standard error, for this reason.
    Complaint(String, &'static str),
    /// A drawing that is read back.
    Drawing(svg::Due),
    /// A print in the program's own words.
    OwnWords,
    /// The model cannot tell: it has no font and draws no half blocks.
    Unknown,
}

fn refusal(reason: &'static str) -> Expected {
    Expected::Complaint(String::new(), reason)
}

fn print(print: String) -> Expected {
    Expected::Print(print.into_bytes())
}

/// What is due, by the words that the question's trial was written out as.
pub fn expected(question: &Question, words: &[String]) -> Expected {
    if let [word] = words {
        if word == "--help" {
            return Expected::OwnWords;
        }
    }
    let fails = question.feed.fails();
    // Of a directory nothing is read.
    let log = if matches!(question.feed, Feed::Unreadable) { &[] } else { &question.trial.log[..] };
    let broken_off = |print| Expected::Complaint(print, "standard input");
    match question.which {
        Which::Glazomir => match arguments::start(words) {
            Err(reason) => refusal(reason),
            Ok(_) if fails => broken_off(String::new()),
            Ok(start) => print(prints::glazomir(&start, log)),
        },
        Which::Report => match arguments::start(words) {
            Err(reason) => refusal(reason),
            Ok(start) if fails => broken_off(page::print_broken_off(&start, log)),
            Ok(start) => print(page::print(&start, log)),
        },
        Which::Trace => match arguments::trace(words) {
            Err(reason) => refusal(reason),
            Ok(lent) if fails => broken_off(prints::trace_broken_off(&lent, log)),
            Ok(lent) => print(prints::trace(&lent, log)),
        },
        Which::Wall => match arguments::wall(words) {
            Err(reason) => refusal(reason),
            Ok(asked) if fails && !asked.live => broken_off(String::new()),
            Ok(asked) => match (&asked.font, asked.form) {
                (None, _) | (_, Form::HalfBlocks) => Expected::Unknown,
                (Some(font), _) if fails => broken_off(wall::print_broken_off(&asked, font, log)),
                (Some(font), Form::Svg) => drawing(&asked, font, log),
                (Some(font), _) => Expected::Print(wall::print(&asked, font, log)),
            },
        },
    }
}

fn drawing(asked: &Asked, font: &[u8], log: &[u8]) -> Expected {
    Expected::Drawing(svg::Due::of(asked, font, &wall::shown(&asked.start, log, asked.at).panel))
}

/// The print is the model's, byte for byte, or a drawing of the same dots. A complaint
/// is one line on standard error; without one the program ends with status 0.
pub fn difference(expected: &Expected, output: &Output) -> Option<String> {
    let print = match expected {
        Expected::Print(print) => differs(print, &output.print),
        Expected::Complaint(print, _) => differs(print.as_bytes(), &output.print),
        Expected::Drawing(due) => svg::difference(due, &output.print),
        Expected::OwnWords => output.print.is_empty().then(|| "  a print is due".to_string()),
        Expected::Unknown => return None,
    };
    print.or_else(|| match expected {
        Expected::Complaint(_, reason) => wrong_complaint(reason, output),
        _ => wrong_ending(output),
    })
}

fn differs(due: &[u8], print: &[u8]) -> Option<String> {
    (due != print).then(|| first_differing_line(due, print))
}

/// How a line is worded is known of words that do not stand together; no other fault
/// is told by one of these lines.
fn wrong_complaint(reason: &str, output: &Output) -> Option<String> {
    let complaint = String::from_utf8_lossy(&output.complaint);
    let line = complaint.strip_suffix('\n').filter(|line| !line.contains('\n'));
    let is_right = line.is_some_and(|line| match together::LINES.contains(&reason) {
        true => line == reason,
        false => !together::LINES.contains(&line),
    });
    (!is_right || output.status.is_none())
        .then(|| format!("  one line on standard error is due ({reason}), there is {complaint:?}"))
}

fn wrong_ending(output: &Output) -> Option<String> {
    let lines = output.complaint.iter().filter(|&&byte| byte == b'\n').count();
    if !output.complaint.is_empty() {
        return Some(format!("  nothing is due on standard error, there are {lines} lines"));
    }
    (output.status != Some(0)).then(|| format!("  the prints agree, but the status is {:?}", output.status))
}

fn first_differing_line(model: &[u8], program: &[u8]) -> String {
    let [model, program] = [model, program].map(String::from_utf8_lossy);
    let (mut ours, mut theirs) = (model.split('\n'), program.split('\n'));
    for number in 1.. {
        let pair = (ours.next(), theirs.next());
        if pair.0 != pair.1 || pair.0.is_none() {
            let show = |line: Option<&str>| line.map_or("(no line)".to_string(), |line| format!("{line:?}"));
            return format!("  line {number}\n  model   {}\n  program {}", show(pair.0), show(pair.1));
        }
    }
    unreachable!("lines come to an end")
}

#[cfg(test)]
mod tests {
    use super::*;
    use crate::chips::Chip;
    use crate::generator::Trial;

    fn output(print: &str, complaint: &str, status: Option<i32>) -> Output {
        Output { print: print.into(), complaint: complaint.into(), status }
    }

    /// What is due of a program for some words and the log of one byte.
    fn due(which: Which, words: &[&str], feed: Feed) -> Expected {
        let words: Vec<String> = words.iter().map(|word| word.to_string()).collect();
        expected(&Question { which, trial: Trial::of_chip(Chip::ONE_LINE, vec![12]), feed }, &words)
    }

    #[test]
    fn the_print_is_compared_byte_for_byte() {
        let print = Expected::Print(b"a\nb\n".to_vec());
        assert_eq!(difference(&print, &output("a\nb\n", "", Some(0))), None);
        for (other, status) in [("a\nb", Some(0)), ("a\nc\n", Some(0)), ("a\nb\n", Some(1)), ("a\nb\n", None)] {
            assert!(difference(&print, &output(other, "", status)).is_some(), "{other:?} {status:?}");
        }
        assert!(difference(&print, &output("a\nb\n", "no\n", Some(0))).is_some());
        // Bytes that are no text, and that a lossy reading would take for the same.
        let bitmap = Expected::Print(vec![0xFE]);
        let other = Output { print: vec![0xFF], complaint: Vec::new(), status: Some(0) };
        assert!(difference(&bitmap, &other).is_some());
    }

    #[test]
    fn a_refusal_is_one_line_and_no_print() {
        let refusal = refusal("unknown word");
        assert_eq!(difference(&refusal, &output("", "no\n", Some(2))), None);
        for (print, complaint) in [("a\n", "no\n"), ("", ""), ("", "no\nno\n")] {
            assert!(difference(&refusal, &output(print, complaint, Some(2))).is_some());
        }
    }

    /// Such a line is due word for word, and is no line for another fault.
    #[test]
    fn words_together_are_refused_in_so_many_words() {
        let words = due(Which::Wall, &["pbm", "apart", "live"], Feed::Whole);
        let line = "wall: takes live without pbm, svg and at\n";
        assert_eq!(difference(&words, &output("", line, Some(0))), None);
        for other in ["wall: takes apart without pbm\n", "no\n", "", &line[1..], &line.repeat(2), &line[..40]] {
            assert!(difference(&words, &output("", other, Some(0))).is_some(), "{other:?}");
        }
        assert!(difference(&words, &output("a\n", line, Some(0))).is_some());
        let unknown = due(Which::Wall, &["pbm", "live", "bogus"], Feed::Whole);
        assert!(difference(&unknown, &output("", line, Some(0))).is_some());
        assert_eq!(difference(&unknown, &output("", "no\n", Some(0))), None);
    }

    #[test]
    fn help_is_a_print_of_any_words() {
        assert_eq!(difference(&Expected::OwnWords, &output("help\n", "", Some(0))), None);
        assert!(difference(&Expected::OwnWords, &output("", "", Some(0))).is_some());
        assert!(difference(&Expected::OwnWords, &output("help\n", "no\n", Some(0))).is_some());
        assert!(difference(&Expected::OwnWords, &output("help\n", "", Some(1))).is_some());
    }

    #[test]
    fn what_is_due_where_nothing_can_be_read() {
        for which in [Which::Glazomir, Which::Trace, Which::Report, Which::Wall] {
            let complaint = due(which, &[], Feed::Unreadable);
            assert!(matches!(complaint, Expected::Complaint(print, "standard input") if print.is_empty()), "{which:?}");
        }
        let path = std::env::temp_dir().join(format!("second-broken-{}", std::process::id()));
        std::fs::write(&path, [0; 1_920]).expect("a temporary file");
        let words = ["live", "ascii", "font", &path.display().to_string()];
        for (feed, lines) in [(Feed::Unreadable, 0), (Feed::BreaksOff, 17)] {
            let complaint = due(Which::Wall, &words, feed);
            assert!(matches!(complaint, Expected::Complaint(print, _) if print.lines().count() == lines), "{feed:?}");
        }
        let drawing = due(Which::Wall, &["svg", "font", words[3]], Feed::Whole);
        assert!(matches!(drawing, Expected::Drawing(_)) && difference(&drawing, &output("", "", Some(0))).is_some());
        std::fs::remove_file(&path).expect("it was written");
        let broken_off = due(Which::Report, &[], Feed::BreaksOff);
        assert!(matches!(broken_off, Expected::Complaint(print, "standard input") if print.starts_with("record\t")));
    }

    #[test]
    fn what_is_due_for_words() {
        for which in [Which::Glazomir, Which::Trace, Which::Report, Which::Wall] {
            assert!(matches!(due(which, &["--help"], Feed::Whole), Expected::OwnWords));
            for words in [
                &["--help", "--help"][..], &["-h"], &[""], &["chip", "35"], &["chip"],
                &["chip", "6635", "chip", "6635"], &["times", "1", "2"], &["times", "1", "2", "65536"],
            ] {
                assert!(matches!(due(which, words, Feed::Whole), Expected::Complaint(..)), "{which:?} {words:?}");
            }
            for words in [&["chip", "6635"][..], &["chip", "6631"], &["times", "0", "65535", "1", "chip", "6635"]] {
                assert!(!matches!(due(which, words, Feed::Whole), Expected::Complaint(..)), "{which:?} {words:?}");
            }
        }
        assert!(matches!(due(Which::Wall, &["ascii"], Feed::Whole), Expected::Unknown), "the model has no font");
        assert!(matches!(due(Which::Trace, &["records"], Feed::Whole), Expected::Print(_)));
    }
}
