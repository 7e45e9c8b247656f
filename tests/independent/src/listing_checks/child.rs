//! One run of the listing program on one input.

use crate::probe::read_in_time;
use std::io::{self, PipeWriter, Read, Write};
use std::path::Path;
use std::process::{Command, ExitStatus};
use std::thread;
use std::time::Duration;

/// Far more than one input needs; a program that hangs is ended then.
const PATIENCE: Duration = Duration::from_secs(10);

/// Between two pieces of an input, so that they are not read at once.
const PAUSE: Duration = Duration::from_millis(3);

/// How the input comes to the program.
#[derive(Clone, Copy, PartialEq)]
pub enum Feeding {
    /// All at once, and ended.
    Whole,
    /// All at once, but not ended before the program has ended.
    LeftOpen,
    /// In two or three pieces, one after the other, and ended.
    InPieces,
}

impl Feeding {
    /// Gives the input. A pipe holds all of it, so nobody has to read yet. What
    /// comes back keeps the input from ending.
    fn feed(self, mut to_program: PipeWriter, input: &[u8]) -> io::Result<Option<PipeWriter>> {
        if self == Feeding::InPieces {
            for piece in input.chunks(input.len() / 3 + 1) {
                to_program.write_all(piece)?;
                thread::sleep(PAUSE);
            }
        } else {
            to_program.write_all(input)?;
        }
        Ok((self == Feeding::LeftOpen).then_some(to_program))
    }
}

pub struct Child {
    /// All that was printed, on standard error too.
    pub output: Vec<u8>,
    /// How many octets of the input were not read.
    pub left: usize,
    pub status: ExitStatus,
}

impl Child {
    /// Runs the program. The end of the pipe that it reads from is kept here
    /// as well, to see what is left there.
    pub fn run(program: &Path, input: &[u8], feeding: Feeding) -> io::Result<Child> {
        let (mut unread, to_program) = io::pipe()?;
        let (from_program, printed) = io::pipe()?;
        let mut child = Command::new(program)
            .stdin(unread.try_clone()?)
            .stderr(printed.try_clone()?)
            .stdout(printed)
            .spawn()?;
        let kept_open = feeding.feed(to_program, input)?;
        let output = read_in_time(from_program, PATIENCE);
        if output.is_none() {
            child.kill()?;
        }
        drop(kept_open);
        let status = child.wait()?;
        let hung = || io::Error::other("the listing program does not end");
        let output = output.ok_or_else(hung)??;
        let mut left = Vec::new();
        unread.read_to_end(&mut left)?;
        Ok(Child {
            output,
            left: left.len(),
            status,
        })
    }
}
