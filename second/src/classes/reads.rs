//! The classes that the read after a write brought: what makes the next read good
//! or not, what leaves that alone, and what a doubtful read does. They are wanted
//! of every chip.

/// Of a run for which demand 3 is checked.
pub const FROM_FRESH: &str = "from a fresh panel";
pub const BY_RECORDS: &str = "by records";
pub const IN_PIECES: &str = "in pieces";

/// What a run starts from.
pub const FRESH_START: &str = "fresh start";
pub const HANDED_IN: &str = "panel handed in";

/// At both widths a read after one of these is taken.
const GOOD: [&str; 9] = [
    "display address", "pattern address", "move up in display memory", "move down in display memory",
    "taken read in display memory", "taken read in pattern memory", "doubtful read in display memory",
    "doubtful read in pattern memory", HANDED_IN,
];

/// At both widths a read after one of these is doubtful.
const NOT_GOOD: [&str; 10] = [
    "display write", "pattern write", "move up in pattern memory", "move down in pattern memory", "Clear", "Home 02h",
    "Home 03h", "entry bits", "display bits", HANDED_IN,
];

/// After these there is one width alone.
const NOT_GOOD_WIDE: [&str; 5] = [
    FRESH_START, "reset", "to width 8", "reset that drops a read half while good",
    "reset that drops a read half while not good",
];
const NOT_GOOD_NARROW: [&str; 1] = ["to width 4"];

const LEFT_ALONE: [&str; 14] = [
    "shift left in display memory", "shift right in display memory", "shift left in pattern memory",
    "shift right in pattern memory", "status read", "ignored data write", "ignored data read", "ignored address set",
    "ignored cursor move", "ignored instruction", "none 00h", "back transfer", "back reset", "bad record",
];
const LEFT_ALONE_NARROW: [&str; 3] = ["torn read half", "torn half", "torn ignored half"];

/// What a slip would get wrong of a doubtful read.
const DOUBTFUL: [&str; 12] = [
    "doubtful read in display memory, up", "doubtful read in display memory, down",
    "doubtful read in pattern memory, up", "doubtful read in pattern memory, down",
    "doubtful read of a byte with a high half", "doubtful read of a byte with a low half", "doubtful read with S",
    "doubtful read kept behind a struck record", "status within the wait of a doubtful read",
    "ignored within the wait of a doubtful read", "ignored at the last of the wait of a doubtful read",
    "free at the end of the wait of a doubtful read",
];

const OTHERS: [&str; 7] = [
    "one back after a doubtful read", "ends good", "ends not good",
    "ends good, with a read half of a byte with a low half",
    "ends not good, with a read half of a byte with a low half", "10 of a panel that is good",
    "10 of a panel that is not good",
];

pub fn of_every_chip() -> Vec<String> {
    let mut all: Vec<String> = OTHERS.map(str::to_string).into();
    for width in [8, 4] {
        all.extend(of_width(width).into_iter().map(|class| format!("{class}, width {width}")));
    }
    for nibble in ["0", "not 0"] {
        for state in ["good", "not good"] {
            let half = format!("read half handed in, {state}, nibble {nibble}");
            all.extend(["carried out", "torn", "dropped by a reset"].map(|end| format!("{half}, {end}")));
        }
    }
    for between in ["back transfer", "back reset", "bad record"] {
        all.extend(["taken", "doubtful"].map(|answer| format!("{between} between the halves of a {answer} read")));
    }
    all
}

fn of_width(width: u8) -> Vec<String> {
    let (not_good, left): (&[&str], &[&str]) = match width {
        8 => (&NOT_GOOD_WIDE, &[]),
        _ => (&NOT_GOOD_NARROW, &LEFT_ALONE_NARROW),
    };
    let mut all: Vec<String> = DOUBTFUL.map(str::to_string).into();
    all.extend([FROM_FRESH, BY_RECORDS, IN_PIECES].map(|way| format!("doubtful read {way}")));
    all.extend(GOOD.map(|after| format!("taken read after {after}")));
    all.extend(NOT_GOOD.iter().chain(not_good).map(|after| format!("doubtful read after {after}")));
    for what in LEFT_ALONE.iter().chain(left) {
        all.extend(["good", "not good"].map(|state| format!("read after {what} left it {state}")));
    }
    all
}

/// Of the report's print.
pub const OF_REPORT: [&str; 3] = [
    "doubtful data-read, whole", "doubtful data-read, pair", "a line of a pair right behind a doubtful pair",
];

/// Of the mirror program's print.
pub const OF_GLAZOMIR: [&str; 2] = ["doubtful reads", "another count of doubtful than of taken"];

/// Where the wall stops at a doubtful read, with the cursor to show it.
pub const OF_WALL: [&str; 2] = [
    "a doubtful read is the first that is later, width 8", "a doubtful read is the first that is later, width 4",
];
