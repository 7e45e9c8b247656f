//! The probe as a child process: requests go to its standard input, replies
//! come from its standard output.

use crate::wire;
use std::io::{self, Read, Write};
use std::path::PathBuf;
use std::process::{Command, Stdio};
use std::sync::mpsc;
use std::thread;
use std::time::Duration;

/// Far more than any row of requests needs; a probe that hangs is ended then.
const PATIENCE: Duration = Duration::from_secs(60);

pub struct Probe {
    file: PathBuf,
    has_hung: bool,
}

/// What the probe left behind: all it wrote, and how it ended.
pub struct Ended {
    pub output: Vec<u8>,
    pub well: bool,
}

impl Probe {
    pub fn new(file: PathBuf) -> Probe {
        Probe {
            file,
            has_hung: false,
        }
    }

    /// Starts the probe, gives it the requests and takes one reply for each.
    pub fn ask(&mut self, requests: &[Vec<u8>]) -> Result<Vec<Vec<u8>>, String> {
        let ended = self.converse(wire::joined(requests))?;
        let (replies, left_over) = wire::separated(&ended.output);
        if let Some(unanswered) = requests.get(replies.len()) {
            return Err(format!(
                "{} replies to {} requests, no reply to request {}",
                replies.len(),
                requests.len(),
                wire::hex(unanswered)
            ));
        }
        if replies.len() > requests.len() || left_over > 0 {
            return Err("the probe wrote more than its replies".to_string());
        }
        if !ended.well {
            return Err("the probe ended with a failure status".to_string());
        }
        Ok(replies)
    }

    /// Starts the probe and gives it the input to its end. Writing has a
    /// thread of its own, since a full pipe would stop both programs.
    pub fn converse(&mut self, input: Vec<u8>) -> Result<Ended, String> {
        if self.has_hung {
            return Err("not asked, since the probe has hung before".to_string());
        }
        let mut child = Command::new(&self.file)
            .stdin(Stdio::piped())
            .stdout(Stdio::piped())
            .spawn()
            .map_err(|error| format!("the probe does not start: {error}"))?;
        let mut to_probe = child.stdin.take().expect("standard input is piped");
        thread::spawn(move || {
            // A probe that stops reading early is noticed by its replies.
            let _ = to_probe.write_all(&input);
        });
        let from_probe = child.stdout.take().expect("standard output is piped");
        let Some(output) = read_in_time(from_probe, PATIENCE) else {
            self.has_hung = true;
            let ended = child.kill().and_then(|()| child.wait());
            ended.map_err(|error| error.to_string())?;
            return Err("the probe does not end with its input".to_string());
        };
        let status = child.wait().map_err(|error| error.to_string())?;
        let output = output.map_err(|error| error.to_string())?;
        let well = status.success();
        Ok(Ended { output, well })
    }
}

/// All that a program writes; nothing if it takes too long.
pub fn read_in_time(
    mut from_program: impl Read + Send + 'static,
    patience: Duration,
) -> Option<io::Result<Vec<u8>>> {
    let (hand_over, receive) = mpsc::channel();
    thread::spawn(move || {
        let mut output = Vec::new();
        let outcome = from_program.read_to_end(&mut output).map(|_| output);
        // Nobody waits for the output any more once the time is up.
        let _ = hand_over.send(outcome);
    });
    receive.recv_timeout(patience).ok()
}
