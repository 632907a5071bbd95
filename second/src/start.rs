//! Starts a built program, feeds it a log and collects what it prints.

use std::fs::{self, File};
use std::io::{self, Read, Write};
use std::os::fd::OwnedFd;
use std::os::unix::net::UnixStream;
use std::process::{self, Child, Command, Stdio};
use std::sync::atomic::{AtomicU64, Ordering::SeqCst};
use std::sync::mpsc::{self, Receiver};
use std::thread;
use std::time::{Duration, Instant};

/// A program that runs longer than this does not come to an end.
const LIMIT: Duration = Duration::from_secs(30);

/// The built programs read their input in blocks of this many bytes.
pub const BLOCK: usize = 1 << 15;

/// No print is as long as this, so no more is read.
const PRINT_LIMIT: u64 = 1 << 24;

/// How the log goes through the pipe, if there is one.
#[derive(Clone, Copy, Debug)]
pub enum Feed {
    Whole,
    /// So many bytes at a time.
    Pieces(usize),
    /// Standard input is a file, which every read fills until it ends.
    File,
    /// Not at all: standard input is a directory, which cannot be read.
    Unreadable,
    /// Whole, and then reading fails where the log would end.
    BreaksOff,
}

impl Feed {
    /// Whether reading comes to an error, and not to an end.
    pub fn fails(self) -> bool {
        matches!(self, Feed::Unreadable | Feed::BreaksOff)
    }
}

pub struct Output {
    pub print: Vec<u8>,
    pub complaint: Vec<u8>,
    /// `None` where it was ended by a signal or had to be ended.
    pub status: Option<i32>,
}

pub fn start(command: &[String], words: &[String], log: &[u8], feed: Feed) -> io::Result<Output> {
    let (theirs, ours) = standard_input(log, feed)?;
    let mut child = Command::new(&command[0])
        .args(&command[1..])
        .args(words)
        .stdin(theirs)
        .stdout(Stdio::piped())
        .stderr(Stdio::piped())
        .spawn()?;
    let print = collect(child.stdout.take().expect("piped"));
    let complaint = collect(child.stderr.take().expect("piped"));
    if let Some(stdin) = child.stdin.take().map(OwnedFd::from).or(ours) {
        let bytes = log.to_vec();
        thread::spawn(move || feed_log(File::from(stdin), &bytes, feed));
    }
    let end = Instant::now() + LIMIT;
    let left = || end.saturating_duration_since(Instant::now());
    let print = print.recv_timeout(left());
    let complaint = complaint.recv_timeout(left());
    let status = ending(&mut child, end)?;
    Ok(Output { print: print.unwrap_or_default(), complaint: complaint.unwrap_or_default(), status })
}

/// What the program reads from, and our end of it where that is no pipe.
fn standard_input(log: &[u8], feed: Feed) -> io::Result<(Stdio, Option<OwnedFd>)> {
    match feed {
        Feed::File => Ok((Stdio::from(nameless(log)?), None)),
        Feed::Unreadable => Ok((Stdio::from(File::open(std::env::temp_dir())?), None)),
        Feed::Whole | Feed::Pieces(_) => Ok((Stdio::piped(), None)),
        Feed::BreaksOff => {
            let (ours, mut theirs) = UnixStream::pair()?;
            // A socket that is closed over a byte nobody has read is reset: the
            // other end reads what was sent, and then an error.
            theirs.write_all(&[0])?;
            Ok((Stdio::from(OwnedFd::from(theirs)), Some(OwnedFd::from(ours))))
        }
    }
}

/// A file of these bytes that is gone when it is closed.
fn nameless(bytes: &[u8]) -> io::Result<File> {
    static NUMBER: AtomicU64 = AtomicU64::new(0);
    let name = format!("second-log-{}-{}", process::id(), NUMBER.fetch_add(1, SeqCst));
    let path = std::env::temp_dir().join(name);
    fs::write(&path, bytes)?;
    let file = File::open(&path)?;
    fs::remove_file(&path)?;
    Ok(file)
}

fn collect(pipe: impl Read + Send + 'static) -> Receiver<Vec<u8>> {
    let (sender, receiver) = mpsc::channel();
    thread::spawn(move || {
        let mut bytes = Vec::new();
        // Whatever came before an error is what there is to compare.
        let _ = pipe.take(PRINT_LIMIT).read_to_end(&mut bytes);
        let _ = sender.send(bytes);
    });
    receiver
}

/// A program may stop reading early, so a broken pipe is no error here.
fn feed_log(mut stdin: File, log: &[u8], feed: Feed) {
    match feed {
        Feed::File | Feed::Unreadable => {}
        Feed::Whole | Feed::BreaksOff => drop(stdin.write_all(log)),
        Feed::Pieces(size) => {
            // The program must be reading already, or the pieces pile up in
            // the pipe and arrive as one.
            thread::sleep(Duration::from_millis(120));
            for piece in log.chunks(size) {
                if stdin.write_all(piece).and_then(|()| stdin.flush()).is_err() {
                    return;
                }
                thread::sleep(Duration::from_micros(50));
            }
        }
    }
}

fn ending(child: &mut Child, end: Instant) -> io::Result<Option<i32>> {
    loop {
        if let Some(status) = child.try_wait()? {
            return Ok(status.code());
        }
        if Instant::now() >= end {
            child.kill()?;
            child.wait()?;
            return Ok(None);
        }
        thread::sleep(Duration::from_micros(200));
    }
}

#[cfg(test)]
mod tests {
    use super::*;

    /// What `cat` makes of the bytes, fed in this way.
    fn cat(log: &[u8], feed: Feed) -> Output {
        start(&["cat".to_string()], &[], log, feed).expect("cat is everywhere")
    }

    #[test]
    fn every_byte_arrives() {
        let bytes: Vec<u8> = (0..200_000_u32).map(|n| (n % 251) as u8).collect();
        for feed in [Feed::Whole, Feed::Pieces(4_093), Feed::File] {
            let output = cat(&bytes, feed);
            assert!(output.print == bytes && output.status == Some(0) && output.complaint.is_empty(), "{feed:?}");
        }
    }

    #[test]
    fn reading_fails_where_it_should() {
        let output = cat(b"abc", Feed::BreaksOff);
        assert_eq!(output.print, b"abc");
        assert!(!output.complaint.is_empty() && output.status != Some(0));
        let output = cat(b"abc", Feed::Unreadable);
        assert_eq!(output.print, b"");
        assert!(!output.complaint.is_empty() && output.status != Some(0));
    }
}
