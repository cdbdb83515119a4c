//! Runs the built program on an input, with the stack of a common shell and a time limit. What it prints to standard
//! error counts as output.

use std::io::{Read, Write};
use std::process::{Child, Command, Stdio};
use std::sync::mpsc::channel;
use std::thread;
use std::time::Duration;

pub const PROGRAM: &str = "crates/validator/out/validator";
const LIMIT: Duration = Duration::from_secs(2);

fn start() -> Child {
    let mut command = Command::new("sh");
    let line = format!("ulimit -s 8192; exec {PROGRAM} 2>&1");
    command.args(["-c", &line]).stdin(Stdio::piped()).stdout(Stdio::piped());
    command.spawn().expect("a shell")
}

/// The whole output, or why there is none. The input comes in pieces of this size, with a pause between them.
pub fn run_in_pieces(input: &[u8], size: usize) -> Result<String, String> {
    let mut child = start();
    let (mut stdin, mut stdout) = (child.stdin.take().unwrap(), child.stdout.take().unwrap());
    let (sender, receiver) = channel();
    let reader = thread::spawn(move || {
        let mut output = vec![];
        let read = stdout.read_to_end(&mut output);
        sender.send((read.is_ok(), output)).ok();
    });
    let pieces: Vec<Vec<u8>> = input.chunks(size.max(1)).map(<[u8]>::to_vec).collect();
    let writer = thread::spawn(move || {
        for (k, piece) in pieces.iter().enumerate() {
            if k > 0 {
                thread::sleep(Duration::from_millis(1));
            }
            // A program that has read enough may have ended.
            if stdin.write_all(piece).is_err() {
                return;
            }
        }
    });
    let received = receiver.recv_timeout(LIMIT);
    if received.is_err() {
        child.kill().ok();
    }
    let status = child.wait().map_err(|error| error.to_string())?;
    writer.join().ok();
    reader.join().ok();
    let (read, output) = received.map_err(|_| format!("no end within {} s", LIMIT.as_secs()))?;
    match status.code() {
        Some(_) if read => String::from_utf8(output).map_err(|_| "output that is no text".to_string()),
        _ => Err(format!("{status}")),
    }
}

pub fn run(input: &[u8]) -> Result<String, String> {
    run_in_pieces(input, input.len())
}
