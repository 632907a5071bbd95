//! Cases of the read after a write, of both chips, from a fresh panel of the usual
//! times: when a data read is good and when it is doubtful.

use super::{
    answered, at_display, at_times, case, forty_apart, fresh, Case, DATA, DATA_READ, INSTRUCTION, STATUS,
};
use crate::arguments;
use crate::chip::{Counter, PatternAddress};
use crate::chips::Chip;
use crate::log;
use crate::panel::{Panel, Run};
use crate::prints;
use crate::report::page;

const READ: (u8, u8) = (DATA_READ, 0);
const WRITE: (u8, u8) = (DATA, 0x57);

pub fn all() -> Vec<Case> {
    let of_both = [fresh_and_read_again(), shifts(), struck_and_settings(), by_time(), halves()].concat();
    let mut all = Vec::new();
    for chip in Chip::KNOWN {
        all.extend(of_both.iter().map(|&(name, ref log, holds)| Case { chip, ..case(name, log.clone(), holds) }));
    }
    all.extend(prints());
    all
}

type OfBoth = (&'static str, Vec<u8>, fn(&Panel, &Run, &[u8]) -> bool);

fn fresh_and_read_again() -> Vec<OfBoth> {
    vec![
        ("a read", forty_apart(&[READ]), |panel, run, _| answered(run, &[(11, 0)]) && at_display(&panel.sheet, 1)),
        ("two reads", forty_apart(&[READ, READ]), |panel, run, _| {
            answered(run, &[(11, 0), (0, 0x20)]) && at_display(&panel.sheet, 2)
        }),
        ("80h, a read", forty_apart(&[(INSTRUCTION, 0x80), READ]), |_, run, _| answered(run, &[(0, 0), (0, 0x20)])),
        ("a write, a read", forty_apart(&[WRITE, READ]), |panel, run, _| {
            answered(run, &[(0, 0), (11, 0)]) && at_display(&panel.sheet, 2)
        }),
        ("40h, a read", forty_apart(&[(INSTRUCTION, 0x40), READ]), |panel, run, _| {
            answered(run, &[(0, 0), (0, 0)]) && panel.sheet.counter == Counter::Pattern(PatternAddress(1))
        }),
    ]
}

fn shifts() -> Vec<OfBoth> {
    let (set, up, right) = ((INSTRUCTION, 0x80), (INSTRUCTION, 0x14), (INSTRUCTION, 0x1C));
    vec![
        ("40h, 14h, a read", forty_apart(&[(INSTRUCTION, 0x40), up, READ]), |panel, run, _| {
            answered(run, &[(0, 0), (0, 0), (11, 0)]) && panel.sheet.counter == Counter::Pattern(PatternAddress(2))
        }),
        ("a write, 14h, a read", forty_apart(&[WRITE, up, READ]), |panel, run, _| {
            answered(run, &[(0, 0), (0, 0), (0, 0x20)]) && at_display(&panel.sheet, 3)
        }),
        ("80h, 1Ch, a read", forty_apart(&[set, right, READ]), |panel, run, _| {
            answered(run, &[(0, 0), (0, 0), (0, 0x20)]) && panel.sheet.shift == 15
        }),
        ("a write, 1Ch, a read", forty_apart(&[WRITE, right, READ]), |panel, run, _| {
            answered(run, &[(0, 0), (0, 0), (11, 0)]) && panel.sheet.shift == 15
        }),
    ]
}

fn struck_and_settings() -> Vec<OfBoth> {
    let set = (INSTRUCTION, 0x80);
    vec![
        ("80h, a status read, a read", forty_apart(&[set, (STATUS, 0), READ]), |_, run, _| {
            answered(run, &[(0, 0), (2, 0), (0, 0x20)])
        }),
        ("a write, a status read, a read", forty_apart(&[WRITE, (STATUS, 0), READ]), |_, run, _| {
            answered(run, &[(0, 0), (2, 0x01), (11, 0)])
        }),
        ("80h, 0Ch, a read", forty_apart(&[set, (INSTRUCTION, 0x0C), READ]), |_, run, _| {
            answered(run, &[(0, 0), (0, 0), (11, 0)])
        }),
    ]
}

fn by_time() -> Vec<OfBoth> {
    let set = (0, INSTRUCTION, 0x80);
    let reset = [at_times(&[set]), log::write_reset(40), at_times(&[(10_040, DATA_READ, 0)])].concat();
    vec![
        ("80h, 02h, a read", at_times(&[set, (40, INSTRUCTION, 0x02), (1_680, DATA_READ, 0)]), |_, run, _| {
            answered(run, &[(0, 0), (0, 0), (11, 0)])
        }),
        ("80h, a reset, a read", reset, |panel, run, _| {
            answered(run, &[(0, 0), (0, 0), (11, 0)]) && at_display(&panel.sheet, 1)
        }),
        ("80h, a write too early, a read", at_times(&[set, (39, DATA, 0x57), (40, DATA_READ, 0)]), |_, run, _| {
            answered(run, &[(0, 0), (3, 0), (0, 0x20)])
        }),
        ("80h, 00h, a read", at_times(&[set, (40, INSTRUCTION, 0x00), (40, DATA_READ, 0)]), |_, run, _| {
            answered(run, &[(0, 0), (7, 0), (0, 0x20)])
        }),
    ]
}

fn halves() -> Vec<OfBoth> {
    vec![("20h, a read as two halves", forty_apart(&[(INSTRUCTION, 0x20), READ, READ]), |panel, run, _| {
        answered(run, &[(0, 0), (1, 0x00), (11, 0x00)]) && at_display(&panel.sheet, 1)
    })]
}

/// A write, a doubtful read and a good one: all that the programs print of them.
fn prints() -> Vec<Case> {
    let log = forty_apart(&[WRITE, READ, READ]);
    vec![
        case("a doubtful read, glazomir", log.clone(), |panel, _, log| {
            prints::glazomir(&fresh(panel.sheet.chip), log) == GLAZOMIR
        }),
        case("a doubtful read, trace", log.clone(), |_, _, log| {
            let dots = "00".repeat(80);
            let print = format!("{TRACE}frame 0 lit 0 {dots}\nframe 1 lit 0 {dots}\ndiffer none\n");
            prints::trace(&arguments::trace(&[]).expect("no words"), log) == print
        }),
        case("a doubtful read, report", log, |panel, _, log| page::print(&fresh(panel.sheet.chip), log) == REPORT),
    ]
}

const GLAZOMIR: &str = "\
records 3
taken 2
doubtful 1
held 0
status 0
ignored 0
torn 0
back 0
bad 0
none 0
cut 0
address 03
codes 57 20 20 20 20 20 20 20 20 20 20 20 20 20 20 20
";

const TRACE: &str = "\
0 00
11 00
0 20
records 3
cut 0
counts 2 1 0 0 0 0 0 0 0
sound 1
chip 31
display 57 20 20 20 20 20 20 20 20 20 20 20 20 20 20 20
pattern 00 00 00 00 00 00 00 00 00 00 00 00 00 00 00 00 00 00 00 00 00 00 00 00 00 00 00 00 00 00 00 00
counter display 03
shift 0
entry 1 0
screen 0 0 0
width 8 function 0
busy 120 last 80
half none
good 1
written 00000001
";

const REPORT: &str = "\
record	second	time	clock	answer	what	byte	meaning
summary	records	3
summary	taken	2
summary	doubtful	1
summary	held	0
summary	status	0
summary	ignored	0
summary	torn	0
summary	back	0
summary	bad	0
summary	none	0
summary	cut	0
summary	written-again	0
summary	first-written-again	-	-
summary	last-written-again	-	-
summary	runs-too-long	0
";
