//! Running PROGRAM on one input.

use std::io::{ErrorKind, Read, Write};
use std::path::{Path, PathBuf};
use std::process::{Child, Command, ExitStatus, Stdio};
use std::sync::mpsc;
use std::thread::{self, JoinHandle};
use std::time::Duration;

/// Where an input fed in pieces is parted: in its header, its values, its
/// records.
const SEAMS: [usize; 5] = [3, 13, 1_031, 9_000, 17_411];

/// Before each further piece, so that a read finds no more than one.
const PAUSE: Duration = Duration::from_millis(30);

/// A PROGRAM that has not ended by then is taken to hang.
const TIME_LIMIT: Duration = Duration::from_secs(20);

pub struct Program {
    path: PathBuf,
}

impl Program {
    pub fn new(path: &Path) -> Program {
        Program {
            path: path.to_path_buf(),
        }
    }

    /// What PROGRAM prints for the input. It is a failure to hang, to be
    /// ended by a signal or to write to standard error; document 01 says
    /// nothing of the exit status, so that is not looked at.
    pub fn output(&self, input: &[u8]) -> Result<String, String> {
        self.output_of(vec![input.to_vec()])
    }

    /// The same for an input that comes bit by bit.
    pub fn output_in_pieces(&self, input: &[u8]) -> Result<String, String> {
        self.output_of(pieces(input))
    }

    fn output_of(&self, pieces: Vec<Vec<u8>>) -> Result<String, String> {
        let mut child = Command::new(&self.path)
            .stdin(Stdio::piped())
            .stdout(Stdio::piped())
            .stderr(Stdio::piped())
            .spawn()
            .map_err(|error| format!("{}: {error}", self.path.display()))?;
        let fed = feed(&mut child, pieces);
        let (output, errors) = collect(&mut child)?;
        fed.join().expect("the feeding thread does not panic")?;
        let status = child.wait().map_err(|error| error.to_string())?;
        judge(status, &errors)?;
        String::from_utf8(output).map_err(|_| "the output is not text".to_string())
    }
}

fn pieces(input: &[u8]) -> Vec<Vec<u8>> {
    let mut rest = input;
    let mut pieces = Vec::new();
    for seam in SEAMS {
        let taken = input.len() - rest.len();
        let (piece, later) = rest.split_at(rest.len().min(seam - taken));
        pieces.push(piece.to_vec());
        rest = later;
    }
    pieces.push(rest.to_vec());
    pieces.retain(|piece| !piece.is_empty());
    pieces
}

/// Writes the input from a thread of its own, as a long one does not fit a
/// pipe. A PROGRAM may end without reading all of an unfit input.
fn feed(child: &mut Child, pieces: Vec<Vec<u8>>) -> JoinHandle<Result<(), String>> {
    let mut pipe = child.stdin.take().expect("a piped standard input");
    thread::spawn(move || {
        for (place, piece) in pieces.iter().enumerate() {
            if place > 0 {
                thread::sleep(PAUSE);
            }
            match pipe.write_all(piece) {
                Err(error) if error.kind() == ErrorKind::BrokenPipe => break,
                Err(error) => return Err(format!("standard input: {error}")),
                Ok(()) => {}
            }
        }
        Ok(())
    })
}

/// Standard output and standard error, to their ends.
fn collect(child: &mut Child) -> Result<(Vec<u8>, String), String> {
    let mut output_pipe = child.stdout.take().expect("a piped standard output");
    let mut error_pipe = child.stderr.take().expect("a piped standard error");
    let (sender, receiver) = mpsc::channel();
    thread::spawn(move || {
        let mut output = Vec::new();
        let mut errors = String::new();
        let read = output_pipe
            .read_to_end(&mut output)
            .and_then(|_| error_pipe.read_to_string(&mut errors));
        // The receiver is gone only after the time limit.
        let _ = sender.send(read.map(|_| (output, errors)));
    });
    match receiver.recv_timeout(TIME_LIMIT) {
        Ok(read) => read.map_err(|error| error.to_string()),
        Err(_) => {
            let _ = child.kill();
            let _ = child.wait();
            Err(format!("not ended after {} s", TIME_LIMIT.as_secs()))
        }
    }
}

fn judge(status: ExitStatus, errors: &str) -> Result<(), String> {
    if status.code().is_none() {
        return Err(format!("ended by a signal ({status}); {errors}"));
    }
    if !errors.is_empty() {
        return Err(format!("wrote to standard error: {errors}"));
    }
    Ok(())
}

#[cfg(test)]
mod tests {
    use super::*;

    #[test]
    fn pieces_make_the_input() {
        for length in [0, 1, 3, 4, 13, 1_032, 17_411, 17_412, 40_000] {
            let input: Vec<u8> = (0..length).map(|place| place as u8).collect();
            assert_eq!(pieces(&input).concat(), input);
        }
        assert_eq!(pieces(&[0; 17_416]).len(), SEAMS.len() + 1);
    }
}
