//! The comparison of the model with the built programs: workers that ask every
//! question and note what the questions reach.

use crate::arguments::{self, Lent};
use crate::classes::REPORT;
use crate::demands;
use crate::expected::{self, Expected};
use crate::generator::Trial;
use crate::log;
use crate::observe;
use crate::observe_report;
use crate::observe_wall;
use crate::observe_words;
use crate::panel;
use crate::questions::{self, Question, Which};
use crate::reach::Reach;
use crate::start;
use crate::turned;
use crate::wall::Asked;
use std::path::Path;
use std::sync::atomic::{AtomicBool, AtomicU64, Ordering::SeqCst};
use std::sync::Mutex;
use std::thread;
use std::time::Instant;

/// Two starts at a time.
const WORKERS: usize = 2;

/// The built programs, each as the words of a command line; empty where a
/// program is not compared.
#[derive(Default)]
pub struct Programs {
    pub glazomir: Vec<String>,
    pub trace: Vec<String>,
    pub report: Vec<String>,
    pub wall: Vec<String>,
}

impl Programs {
    pub fn command(&self, which: Which) -> &[String] {
        match which {
            Which::Glazomir => &self.glazomir,
            Which::Trace => &self.trace,
            Which::Report => &self.report,
            Which::Wall => &self.wall,
        }
    }

    fn compares(&self, which: Which) -> bool {
        !self.command(which).is_empty()
    }
}

/// Something that is not as it should be.
pub enum Finding {
    Difference(Question),
    Demand(Trial, &'static str),
    /// The picture's two modes are not each other's turn.
    Turn(Trial, &'static str),
    /// The comparison itself could not be made.
    Trouble(String),
}

/// What is to be compared, and until when.
pub struct Plan<'a> {
    pub programs: &'a Programs,
    pub fixed: &'a [Question],
    pub seed: u64,
    /// At least so many generated logs, with a hundred times as many records.
    pub logs: u64,
    pub until: Option<Instant>,
    /// A directory of its own for the lent files.
    pub directory: &'a Path,
}

/// What has been done so far.
#[derive(Default)]
pub struct Tally {
    pub logs: AtomicU64,
    pub records: AtomicU64,
    pub comparisons: AtomicU64,
    pub demands: AtomicU64,
    /// Logs that went through the report, and through the wall.
    pub reported: AtomicU64,
    pub walled: AtomicU64,
    pub reach: Mutex<Reach>,
    pub findings: Mutex<Vec<Finding>>,
    found: AtomicBool,
}

impl Tally {
    pub fn is_clean(&self) -> bool {
        !self.found.load(SeqCst)
    }

    fn report(&self, finding: Finding) {
        self.findings.lock().expect("no worker panics").push(finding);
        self.found.store(true, SeqCst);
    }
}

/// Works the plan off with all workers, until done or something is found.
pub fn work(plan: &Plan, tally: &Tally) {
    let next = AtomicU64::new(0);
    thread::scope(|scope| {
        for worker in 0..WORKERS {
            let directory = plan.directory.join(worker.to_string());
            let next = &next;
            scope.spawn(move || {
                if let Err(error) = std::fs::create_dir_all(&directory) {
                    return tally.report(Finding::Trouble(format!("no room for lent files: {error}")));
                }
                work_alone(plan, tally, next, &directory);
            });
        }
    });
}

fn work_alone(plan: &Plan, tally: &Tally, next: &AtomicU64, directory: &Path) {
    let mut reach = Reach::new();
    let too_late = || plan.until.is_some_and(|until| Instant::now() >= until);
    while tally.is_clean() && !too_late() {
        let turn = next.fetch_add(1, SeqCst);
        let fixed = plan.fixed.len() as u64;
        if turn < fixed {
            judge(plan.programs, tally, &plan.fixed[turn as usize], directory, &mut reach);
            continue;
        }
        let turn = turn - fixed;
        if turn >= plan.logs && tally.records.load(SeqCst) >= 100 * plan.logs {
            break;
        }
        generated(plan, tally, turn, directory, &mut reach);
    }
    tally.reach.lock().expect("no worker panics").merge(&reach);
}

/// One turn of the generator; the first of its questions is its own log's.
fn generated(plan: &Plan, tally: &Tally, turn: u64, directory: &Path, reach: &mut Reach) {
    let questions = questions::of_turn(plan.seed, turn);
    tally.logs.fetch_add(1, SeqCst);
    tally.records.fetch_add(log::records(&questions[0].trial.log).0.len() as u64, SeqCst);
    for question in &questions {
        judge(plan.programs, tally, question, directory, reach);
    }
}

/// Asks the model and the program; only what is compared counts for the reach.
fn judge(programs: &Programs, tally: &Tally, question: &Question, directory: &Path, reach: &mut Reach) {
    if !programs.compares(question.which) {
        return;
    }
    let asked = question.trial.words(directory).and_then(|words| {
        model_alone(question, &words, tally, reach);
        ask(programs, question, &words)
    });
    match asked {
        Ok(None) => {
            tally.comparisons.fetch_add(1, SeqCst);
        }
        Ok(Some(_)) => tally.report(Finding::Difference(question.clone())),
        Err(error) => tally.report(Finding::Trouble(format!("{:?} cannot be asked: {error}", question.which))),
    }
}

/// Notes what a question reaches, and checks demand 3 from a fresh panel and what the
/// two modes have to do with each other.
pub fn model_alone(question: &Question, words: &[String], tally: &Tally, reach: &mut Reach) {
    if question.feed.fails() {
        return;
    }
    match question.which {
        _ if matches!(words, [word] if word == "--help") => {}
        Which::Glazomir => observe_words::glazomir(reach, &question.trial, words),
        Which::Report => {
            if let Some(start) = observe_words::start(reach, REPORT, &question.trial, words) {
                tally.reported.fetch_add(1, SeqCst);
                observe_report::log(reach, &start, &question.trial.log);
            }
        }
        Which::Wall => {
            tally.walled.fetch_add(1, SeqCst);
            let asked = arguments::wall(words);
            if let Ok(asked @ Asked { font: Some(font), .. }) = &asked {
                both_modes(&question.trial, turned::check_prints(asked, font, &question.trial.log), tally);
            }
            observe_wall::question(reach, question, words, asked);
        }
        Which::Trace => {
            let lent = arguments::trace(words);
            observe::question(reach, question, lent.as_ref().map_err(|reason| *reason));
            if let Ok(lent) = lent {
                demand_three(&question.trial, &lent, tally);
                let mut panel = lent.panel.clone();
                panel::run(&mut panel, &question.trial.log);
                both_modes(&question.trial, turned::check_paintings(&panel, &lent.font), tally);
            }
        }
    }
}

fn demand_three(trial: &Trial, lent: &Lent, tally: &Tally) {
    let (chip, times) = (lent.panel.sheet.chip, lent.panel.times);
    if !lent.panel.is_sound() || !lent.panel.is_fresh() {
        return;
    }
    tally.demands.fetch_add(1, SeqCst);
    if let Err(reason) = demands::check(chip, times, &trial.log) {
        tally.report(Finding::Demand(trial.clone(), reason));
    }
}

/// Reports what is wrong between the two modes, if anything is.
fn both_modes(trial: &Trial, checked: Result<(), &'static str>, tally: &Tally) {
    if let Err(reason) = checked {
        tally.report(Finding::Turn(trial.clone(), reason));
    }
}

/// Asks the model and the program; gives what differs, if anything does.
pub fn ask(programs: &Programs, question: &Question, words: &[String]) -> std::io::Result<Option<String>> {
    let expected = expected::expected(question, words);
    if matches!(expected, Expected::Unknown) {
        return Err(std::io::Error::other("the model cannot tell what is due"));
    }
    let output = start::start(programs.command(question.which), words, &question.trial.log, question.feed)?;
    Ok(expected::difference(&expected, &output))
}
