//! What `wall` is asked: the glass at times, words together and apart, pictures as the
//! log comes, and drawings for browsers.

use super::{words, Question, Which};
use crate::chips::Chip;
use crate::generator::{self, Trial};
use crate::glass::{self, apart, live, together};
use crate::start::Feed;

fn ask(trial: Trial, feed: Feed) -> Question {
    Question { which: Which::Wall, trial, feed }
}

pub fn all(seed: u64) -> Vec<Question> {
    let mut questions = Vec::new();
    for (number, odd) in (0..).zip([7, 13, 31, 61, 127, 251, 509, 1_021]) {
        questions.push(ask(glass::long_trial(seed, number), Feed::Pieces(odd)));
        questions.push(ask(glass::long_trial(seed, number + 8), Feed::Whole));
    }
    let mut whole = [glass::example_and_edges(), glass::two_lines_by_time(), glass::refused(seed)].concat();
    whole.extend(glass::doubtful_reads_by_time());
    whole.extend(together::refused());
    for chip in Chip::KNOWN {
        whole.extend(glass::shifts(seed, chip));
        whole.extend(glass::places_by_time(chip));
        whole.extend(glass::turned_by_time(chip));
        whole.extend([apart::story(chip), apart::all_or_none(chip), apart::escapes(seed, chip)].concat());
    }
    questions.extend(whole.into_iter().map(|trial| ask(trial, Feed::Whole)));
    questions.extend(Chip::KNOWN.into_iter().flat_map(|chip| as_the_log_comes(seed, chip)));
    questions.extend(no_words_of_others());
    questions
}

/// From a file, of which every read is full.
fn as_the_log_comes(seed: u64, chip: Chip) -> Vec<Question> {
    let trials = [live::last_lines(chip), live::ends_of_reads(chip), live::stories(seed, chip)].concat();
    trials.into_iter().map(|trial| ask(trial, Feed::File)).collect()
}

/// They are words of the wall alone.
fn no_words_of_others() -> Vec<Question> {
    let ask_of = |which| ["apart", "live", "svg"].map(|word| words(which, word, generator::short_night()));
    [Which::Glazomir, Which::Trace, Which::Report].into_iter().flat_map(ask_of).collect()
}
