//! The rules' own cases A to M, the examples of the report and of the wall, the
//! sample night, and the four-record example; those of two lines, of the read after
//! a write, of the written places and of mirrored glass by themselves.

mod mirrored;
mod reads;
mod two_lines;
mod written;

use crate::arguments;
use crate::chip::{Counter, DisplayAddress, PatternAddress, Sheet};
use crate::chips::Chip;
use crate::log::{self, write_transfers as at_times};
use crate::panel::{self, Panel, Run, Times};
use crate::picture::{self, Painting, FONT_SIZE};
use crate::prints;
use crate::report::page;
use crate::wall::{self, Asked, Form};

pub struct Case {
    pub name: &'static str,
    pub chip: Chip,
    pub log: Vec<u8>,
    holds: fn(&Panel, &Run, &[u8]) -> bool,
}

/// Control bytes of the four sorts of transfer.
const INSTRUCTION: u8 = 0;
const DATA: u8 = 1;
const STATUS: u8 = 2;
const DATA_READ: u8 = 3;

/// Where no time is given, records come 40 apart from 0.
fn forty_apart(transfers: &[(u8, u8)]) -> Vec<u8> {
    let times = (0..).step_by(40);
    transfers
        .iter()
        .zip(times)
        .flat_map(|(&(control, data), time)| log::write_transfer(time, control, data))
        .collect()
}

fn numbers(run: &Run) -> Vec<u8> {
    run.answers.iter().map(|answer| answer.number).collect()
}

/// Whether these are the answers, each with its byte.
fn answered(run: &Run, expected: &[(u8, u8)]) -> bool {
    run.answers.iter().map(|answer| (answer.number, answer.byte)).eq(expected.iter().copied())
}

fn at_display(sheet: &Sheet, address: u8) -> bool {
    sheet.counter == Counter::Display(DisplayAddress(address))
}

fn case(name: &'static str, log: Vec<u8>, holds: fn(&Panel, &Run, &[u8]) -> bool) -> Case {
    Case { name, chip: Chip::ONE_LINE, log, holds }
}

fn fresh(chip: Chip) -> Panel {
    Panel::fresh(chip, Times::USUAL)
}

pub fn all() -> Vec<Case> {
    let mut all = two_lines::all();
    all.extend(reads::all());
    all.extend(written::all());
    all.extend(mirrored::all());
    all.extend(busy_and_halves());
    all.extend(steps());
    all.extend(reports());
    all.extend(pictures_and_prints());
    all
}

fn busy_and_halves() -> Vec<Case> {
    let to_four = (0, INSTRUCTION, 0x20);
    vec![
        case(
            "A",
            at_times(&[(100, INSTRUCTION, 1), (200, DATA, 0x57), (1_739, DATA, 0x57), (1_740, DATA, 0x57)]),
            |panel, run, _| numbers(run) == [0, 3, 3, 0] && at_display(&panel.sheet, 1),
        ),
        case("B", at_times(&[(100, INSTRUCTION, 1), (200, STATUS, 0)]), |_, run, _| {
            numbers(run) == [0, 2] && run.answers[1].byte == 0x80
        }),
        case("C", at_times(&[to_four, (40, INSTRUCTION, 0x80), (41, INSTRUCTION, 0x50)]), |panel, run, _| {
            numbers(run) == [0, 1, 0] && at_display(&panel.sheet, 5)
        }),
        case("D", at_times(&[to_four, (39, INSTRUCTION, 0x80), (41, INSTRUCTION, 0x50)]), |panel, run, _| {
            numbers(run) == [0, 3, 3] && at_display(&panel.sheet, 0)
        }),
        case("E", at_times(&[to_four, (40, INSTRUCTION, 0x80), (41, DATA, 0x50)]), |panel, run, _| {
            numbers(run) == [0, 1, 4] && panel.half.is_none()
        }),
    ]
}

fn steps() -> Vec<Case> {
    vec![
        case("F", forty_apart(&[(INSTRUCTION, 0x8F), (DATA, 0x41)]), |panel, run, _| {
            numbers(run) == [0, 0] && at_display(&panel.sheet, 0)
        }),
        case("G", forty_apart(&[(INSTRUCTION, 0x04), (DATA, 0x41)]), |panel, run, _| {
            numbers(run) == [0, 0] && at_display(&panel.sheet, 15)
        }),
        case("H", forty_apart(&[(INSTRUCTION, 0x5F), (DATA, 0xFF)]), |panel, _, _| {
            panel.sheet.pattern[31] == 0x1F && panel.sheet.counter == Counter::Pattern(PatternAddress(0))
        }),
        case("I", forty_apart(&[(INSTRUCTION, 0x07), (DATA, 0x41)]), |panel, _, _| {
            at_display(&panel.sheet, 1) && panel.sheet.shift == 1
        }),
        case(
            "J",
            forty_apart(&[
                (INSTRUCTION, 0x40), (DATA, 0x15), (DATA, 0x0A), (INSTRUCTION, 0x80),
                (DATA, 0x08), (INSTRUCTION, 0x0C),
            ]),
            |panel, _, _| {
                let frame = painted(panel).1;
                frame[0] == 0xA8 && frame[10] == 0x50 && frame.iter().map(|b| b.count_ones()).sum::<u32>() == 5
            },
        ),
        case("K", at_times(&[(0, INSTRUCTION, 0), (0, DATA, 0x41)]), |panel, run, _| {
            numbers(run) == [7, 0] && panel.sheet.display[0] == 0x41
        }),
    ]
}

/// The night in question, as samples/night.py makes it.
const NIGHT: &[u8] = include_bytes!("../../samples/night.log");

fn reports() -> Vec<Case> {
    let example = at_times(&[
        (100, INSTRUCTION, 1), (200, DATA, 0x57), (1_739, DATA, 0x57), (1_740, INSTRUCTION, 0),
        (1_741, DATA, 0x57), (1_700, STATUS, 0),
    ]);
    vec![
        case("the report's example", example, |_, _, log| {
            page::print(&fresh(Chip::ONE_LINE), log) == REPORT_EXAMPLE
        }),
        case("the sample night", NIGHT.to_vec(), |_, _, log| {
            let print = page::print(&fresh(Chip::ONE_LINE), log);
            let answers: Vec<_> = print.lines().filter_map(|line| line.split('\t').nth(4)).collect();
            let counted = ["ignored", "torn", "back", "bad", "none"]
                .map(|answer| answers.iter().filter(|&&other| other == answer).count());
            counted == [16, 0, 1, 1, 1] && print.ends_with(NIGHT_SUMMARY)
        }),
    ]
}

fn pictures_and_prints() -> Vec<Case> {
    let four = at_times(&[(100, INSTRUCTION, 1), (200, DATA, 0x57), (1_740, DATA, 0x57), (1_780, STATUS, 0)]);
    vec![
        case("L", forty_apart(&[(INSTRUCTION, 0x0E)]), |panel, _, _| {
            let (painting, frame) = painted(panel);
            let others_dark = (0..80).all(|at| at == 70 || frame[at] == 0);
            painting == Painting::Lit(5) && frame[70] == 0xF8 && others_dark
        }),
        case("M", Vec::new(), |panel, run, _| {
            run.counts == [0; 9] && !run.cut && *panel == fresh(Chip::ONE_LINE)
        }),
        case("the wall's example", at_times(&[(0, INSTRUCTION, 0x0E), (40, DATA, 0x57)]), |_, _, log| {
            let asked = Asked::plainly(Form::Ascii, fresh(Chip::ONE_LINE));
            wall::print(&asked, &wall_font(), log) == WALL_EXAMPLE.as_bytes()
        }),
        case("four records, glazomir", four.clone(), |_, _, log| {
            prints::glazomir(&fresh(Chip::ONE_LINE), log) == FOUR_GLAZOMIR
        }),
        case("four records, trace", four, |_, _, log| {
            let lent = arguments::trace(&[]).expect("no words");
            prints::trace(&lent, log) == four_trace()
        }),
    ]
}

/// Code 20h is blank in the trial font.
fn painted(panel: &Panel) -> (Painting, Vec<u8>) {
    let mut frame = vec![0xA5; panel.sheet.chip.frame_size()];
    let painting = picture::paint(panel, &picture::trial_font(), false, &mut frame);
    (painting, frame)
}

/// The font of the wall's example: blank but for the rows of 57h.
pub fn wall_font() -> Vec<u8> {
    let mut font = vec![0; FONT_SIZE];
    font[8 * (0x57 - 16)..][..8].copy_from_slice(&[0x11, 0x11, 0x11, 0x15, 0x15, 0x1B, 0x11, 0x00]);
    font
}

const WALL_EXAMPLE: &str = "\
+--------------------------------------------------------------------------------+
|#...#...........................................................................|
|#...#...........................................................................|
|#...#...........................................................................|
|#.#.#...........................................................................|
|#.#.#...........................................................................|
|##.##...........................................................................|
|#...#...........................................................................|
|.....#####......................................................................|
+--------------------------------------------------------------------------------+
text |W               |
codes 57 20 20 20 20 20 20 20 20 20 20 20 20 20 20 20
cursor 1
written 00
";

const REPORT_EXAMPLE: &str = "\
record	second	time	clock	answer	what	byte	meaning
2	-	200	00:00:00.000200	ignored	data-write	57	W
3	-	1739	00:00:00.001739	ignored	data-write	57	W
4	-	1740	00:00:00.001740	none	instruction-write	00	nothing
6	-	1700	00:00:00.001700	back	status-read	-	-
summary	records	6
summary	taken	2
summary	doubtful	0
summary	held	0
summary	status	0
summary	ignored	2
summary	torn	0
summary	back	1
summary	bad	0
summary	none	1
summary	cut	0
summary	written-again	1
summary	first-written-again	200	00:00:00.000200
summary	last-written-again	200	00:00:00.000200
summary	runs-too-long	0
";

const NIGHT_SUMMARY: &str = "\
summary	records	423
summary	taken	126
summary	doubtful	0
summary	held	0
summary	status	278
summary	ignored	16
summary	torn	0
summary	back	1
summary	bad	1
summary	none	1
summary	cut	0
summary	written-again	1
summary	first-written-again	11520000100	03:12:00.000100
summary	last-written-again	11520000100	03:12:00.000100
summary	runs-too-long	0
";

const FOUR_GLAZOMIR: &str = "\
records 4
taken 2
doubtful 0
held 0
status 1
ignored 1
torn 0
back 0
bad 0
none 0
cut 0
address 01
codes 57 20 20 20 20 20 20 20 20 20 20 20 20 20 20 20
";

const FOUR_TRACE: &str = "\
0 00
3 00
0 00
2 01
records 4
cut 0
counts 2 0 0 1 1 0 0 0 0
sound 1
chip 31
display 57 20 20 20 20 20 20 20 20 20 20 20 20 20 20 20
pattern 00 00 00 00 00 00 00 00 00 00 00 00 00 00 00 00 00 00 00 00 00 00 00 00 00 00 00 00 00 00 00 00
counter display 01
shift 0
entry 1 0
screen 0 0 0
width 8 function 0
busy 1780 last 1780
half none
good 0
written 00000001
";

fn four_trace() -> String {
    let dots = "00".repeat(80);
    format!("{FOUR_TRACE}frame 0 lit 0 {dots}\nframe 1 lit 0 {dots}\ndiffer none\n")
}

/// Whether the model gives what the rules say for this case.
pub fn holds(case: &Case) -> bool {
    let mut panel = fresh(case.chip);
    let run = panel::run(&mut panel, &case.log);
    (case.holds)(&panel, &run, &case.log)
}

#[cfg(test)]
mod tests {
    #[test]
    fn every_case_holds() {
        for case in super::all() {
            assert!(super::holds(&case), "case {}", case.name);
        }
    }
}
