//! Runs a program on given input.

use std::io::{self, Read, Write};
use std::path::Path;
use std::process::{Child, Command, ExitStatus, Stdio};
use std::sync::{mpsc, Arc};
use std::thread;
use std::time::{Duration, Instant};

/// Input of this size fits into a pipe that nobody reads yet.
const FITS_INTO_PIPE: usize = 4_096;

/// What a program did.
#[derive(Debug)]
pub struct Run {
    /// What it wrote to standard output, up to one byte more than was asked for.
    pub printed: Vec<u8>,
    pub end: End,
}

#[derive(Debug)]
pub enum End {
    Ended(ExitStatus),
    /// It was stopped, since it wrote too much or took too long.
    Stopped,
}

/// Runs `program` with `input` as its standard input. It is stopped once it has written more than `most` bytes, or
/// when `patience` has passed. An error is given only if the program cannot be started or waited for.
pub fn run(
    program: &Path,
    input: &Arc<Vec<u8>>,
    most: usize,
    patience: Duration,
) -> io::Result<Run> {
    let deadline = Instant::now() + patience;
    let mut child = Command::new(program)
        .stdin(Stdio::piped())
        .stdout(Stdio::piped())
        .spawn()?;
    let mut to_child = child.stdin.take().expect("standard input is a pipe");
    let from_child = child.stdout.take().expect("standard output is a pipe");

    // A program that ends before it has read everything makes these writes fail. Its output tells.
    if input.len() <= FITS_INTO_PIPE {
        let _ = to_child.write_all(input);
        drop(to_child);
    } else {
        let input = Arc::clone(input);
        thread::spawn(move || {
            let _ = to_child.write_all(&input);
        });
    }

    // The thread is left alone where a child of the stopped program still has the pipe.
    let (sender, receiver) = mpsc::channel();
    thread::spawn(move || {
        let mut printed = Vec::new();
        let _ = from_child.take(most as u64 + 1).read_to_end(&mut printed);
        let _ = sender.send(printed);
    });
    let printed = receiver.recv_timeout(deadline.saturating_duration_since(Instant::now()));

    let end = match &printed {
        Ok(printed) if printed.len() <= most => wait_until(&mut child, deadline)?,
        _ => None,
    };
    let end = match end {
        Some(status) => End::Ended(status),
        None => {
            // It may have ended by itself in the meantime.
            let _ = child.kill();
            child.wait()?;
            End::Stopped
        }
    };
    Ok(Run {
        printed: printed.unwrap_or_default(),
        end,
    })
}

fn wait_until(child: &mut Child, deadline: Instant) -> io::Result<Option<ExitStatus>> {
    let mut pause = Duration::from_micros(20);
    loop {
        if let Some(status) = child.try_wait()? {
            return Ok(Some(status));
        }
        if Instant::now() >= deadline {
            return Ok(None);
        }
        thread::sleep(pause);
        pause = (2 * pause).min(Duration::from_millis(5));
    }
}
