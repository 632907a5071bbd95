//! The commands that compare, that tell what is reached, and that write trials.

use crate::cases;
use crate::classes::{REPORT, WALL};
use crate::compare::{self, Plan, Programs, Tally};
use crate::findings;
use crate::generator;
use crate::questions;
use crate::random::Random;
use crate::reach::Reach;
use std::fs;
use std::io;
use std::path::{Path, PathBuf};
use std::sync::atomic::Ordering::SeqCst;
use std::time::{Duration, Instant, SystemTime};

pub const UNKNOWN: &str = "unknown command; see second --help";

/// Runs a command; gives whether all went well.
pub fn run(command: &str, words: &[String]) -> Result<bool, String> {
    match command {
        "cases" => Ok(closing(run_cases(), 0, 0)),
        "reach" => options(words).and_then(|options| reach(&options)),
        "compare" => options(words).and_then(|options| compare(&options)),
        "soak" => options(words).and_then(|options| soak(&options)),
        "gen" => generate(words).map(|()| true),
        _ => Err(UNKNOWN.to_string()),
    }
}

/// What the commands that compare are told.
struct Options {
    programs: Programs,
    logs: u64,
    seed: Option<u64>,
    minutes: u64,
}

fn options(words: &[String]) -> Result<Options, String> {
    let mut options = Options { programs: Programs::default(), logs: 3_000, seed: None, minutes: 0 };
    for pair in words.chunks(2) {
        let [name, value] = pair else {
            return Err(format!("{} wants a value", pair[0]));
        };
        let command = || value.split_whitespace().map(str::to_string).collect();
        let number = || value.parse().map_err(|_| format!("{name} wants a number"));
        match name.as_str() {
            "--glazomir" => options.programs.glazomir = command(),
            "--trace" => options.programs.trace = command(),
            "--report" => options.programs.report = command(),
            "--wall" => options.programs.wall = command(),
            "--logs" => options.logs = number()?,
            "--seed" => options.seed = Some(number()?),
            "--minutes" => options.minutes = number()?,
            _ => return Err(format!("unknown option {name}")),
        }
    }
    Ok(options)
}

/// Prints each case that fails; gives how many hold and how many fail.
fn run_cases() -> (u64, u64) {
    let (mut passed, mut failed) = (0, 0);
    for case in cases::all() {
        if cases::holds(&case) {
            passed += 1;
        } else {
            failed += 1;
            println!("case {} fails", case.name);
        }
    }
    (passed, failed)
}

/// The last line, and whether all went well.
fn closing(cases: (u64, u64), passed: u64, failed: u64) -> bool {
    let failed = cases.1 + failed;
    println!("{} passed, {failed} failed", cases.0 + passed);
    failed == 0
}

/// A directory for lent files that goes away with this value.
struct Room(PathBuf);

impl Room {
    fn new() -> Result<Room, String> {
        let path = std::env::temp_dir().join(format!("second-{}", std::process::id()));
        fs::create_dir_all(&path).map_err(|error| error.to_string())?;
        Ok(Room(path))
    }
}

impl Drop for Room {
    fn drop(&mut self) {
        let _ = fs::remove_dir_all(&self.0);
    }
}

/// The model alone on every question of a comparison.
fn reach(options: &Options) -> Result<bool, String> {
    let room = Room::new()?;
    let tally = Tally::default();
    let mut reach = Reach::new();
    let seed = options.seed.unwrap_or(1);
    let turns = (0..options.logs).flat_map(|turn| questions::of_turn(seed, turn));
    for question in questions::fixed(seed).into_iter().chain(turns) {
        let words = question.trial.words(&room.0).map_err(|error| error.to_string())?;
        compare::model_alone(&question, &words, &tally, &mut reach);
    }
    for (class, count) in reach.table() {
        println!("{count:8} {class}");
    }
    let findings = findings::print(&options.programs, &tally, &room.0);
    Ok(closing(judge_reach(&reach, &[]), 0, findings))
}

/// Prints each class that no question reached; gives how many are and are not.
/// Classes that begin in one of these ways are not wanted.
fn judge_reach(reach: &Reach, unwanted: &[&str]) -> (u64, u64) {
    let (mut reached, mut missing) = (0, 0);
    for (class, count) in reach.table() {
        if unwanted.iter().any(|unwanted| class.starts_with(unwanted)) {
            continue;
        }
        if count > 0 {
            reached += 1;
        } else {
            missing += 1;
            println!("not reached: {class}");
        }
    }
    (reached, missing)
}

fn with_programs(options: &Options) -> Result<&Programs, String> {
    let programs = &options.programs;
    if programs.glazomir.is_empty() || programs.trace.is_empty() {
        return Err("--glazomir CMD and --trace CMD are wanted".to_string());
    }
    Ok(programs)
}

fn compare(options: &Options) -> Result<bool, String> {
    let programs = with_programs(options)?;
    let room = Room::new()?;
    let seed = options.seed.unwrap_or(1);
    let fixed = questions::fixed(seed);
    let tally = Tally::default();
    let cases = run_cases();
    println!("seed {seed}");
    let plan = Plan { programs, fixed: &fixed, seed, logs: options.logs, until: None, directory: &room.0 };
    compare::work(&plan, &tally);
    Ok(finish(programs, &tally, cases, &room.0))
}

/// Rounds with fresh seeds; a line each minute names the seed in use.
fn soak(options: &Options) -> Result<bool, String> {
    let programs = with_programs(options)?;
    let room = Room::new()?;
    let first = options.seed.unwrap_or_else(clock_seed);
    let mut seeds = Random::new(first, 0);
    let tally = Tally::default();
    let cases = run_cases();
    let began = Instant::now();
    let until = began + Duration::from_secs(60 * options.minutes);
    let mut minute = 0;
    while Instant::now() < until && tally.is_clean() {
        let seed = seeds.next();
        let fixed = if minute == 0 { questions::fixed(seed) } else { Vec::new() };
        let plan = Plan { programs, fixed: &fixed, seed, logs: 1_000, until: Some(until), directory: &room.0 };
        compare::work(&plan, &tally);
        if began.elapsed().as_secs() / 60 >= minute || !tally.is_clean() {
            minute = began.elapsed().as_secs() / 60 + 1;
            println!("{} s, seed {seed}, {}", began.elapsed().as_secs(), progress(&tally));
        }
    }
    Ok(finish(programs, &tally, cases, &room.0))
}

fn clock_seed() -> u64 {
    let now = SystemTime::now().duration_since(SystemTime::UNIX_EPOCH);
    now.map_or(1, |since| since.as_nanos() as u64)
}

fn progress(tally: &Tally) -> String {
    let [logs, records, comparisons] =
        [&tally.logs, &tally.records, &tally.comparisons].map(|count| count.load(SeqCst));
    format!("logs {logs} records {records} comparisons {comparisons}")
}

fn finish(programs: &Programs, tally: &Tally, cases: (u64, u64), directory: &Path) -> bool {
    let findings = findings::print(programs, tally, directory);
    let mut unwanted = Vec::new();
    if programs.report.is_empty() {
        unwanted.push(REPORT);
    }
    if programs.wall.is_empty() {
        unwanted.push(WALL);
    }
    // A comparison that was stopped has not reached all that it would.
    let reached = if findings == 0 {
        judge_reach(&tally.reach.lock().expect("no worker panics"), &unwanted)
    } else {
        (0, 0)
    };
    let [demands, reported, walled] =
        [&tally.demands, &tally.reported, &tally.walled].map(|count| count.load(SeqCst));
    println!("demand 3 checked on {demands} logs from a fresh panel");
    println!("report compared on {reported} logs, wall on {walled}");
    println!("{} differences {findings}", progress(tally));
    closing(cases, tally.comparisons.load(SeqCst) + reached.0, findings + reached.1)
}

fn generate(words: &[String]) -> Result<(), String> {
    let directory = words.first().ok_or("gen wants a directory")?;
    let options = options(&words[1..])?;
    for turn in 0..options.logs {
        let trial = generator::trial(options.seed.unwrap_or(1), turn);
        write_trial(&Path::new(directory).join(turn.to_string()), &trial).map_err(|error| error.to_string())?;
    }
    Ok(())
}

fn write_trial(directory: &Path, trial: &generator::Trial) -> io::Result<()> {
    fs::create_dir_all(directory)?;
    fs::write(directory.join("log"), &trial.log)?;
    fs::write(directory.join("words"), trial.words(directory)?.join("\n"))
}
