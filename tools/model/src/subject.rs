//! The built program that the model is compared with: one process for each input.

use std::io::{Read, Write};
use std::path::Path;
use std::process::{Child, Command, Stdio};
use std::sync::mpsc;
use std::thread;
use std::time::Duration;

/// No input needs nearly as long; without a limit a program that hangs would stop the driver.
const LONGEST_TIME: Duration = Duration::from_secs(10);

/// What the program prints for a standard input, or why that cannot be said.
pub fn run(program: &Path, input: &[u8]) -> Result<Vec<u8>, String> {
    let mut child = Command::new(program)
        .stdin(Stdio::piped())
        .stdout(Stdio::piped())
        .stderr(Stdio::null())
        .spawn()
        .map_err(|error| format!("the program cannot be started: {error}"))?;
    let printed = feed(&mut child, input);
    if printed.is_err() {
        // it may have ended by itself in the meantime, and that is as well
        let _ = child.kill();
    }
    let status = child.wait().map_err(|error| format!("the program cannot be waited for: {error}"))?;
    let printed = printed?;
    match status.code() {
        Some(0) => Ok(printed),
        Some(code) => Err(format!("exit status {code}")),
        None => Err("ended by a signal".to_string()),
    }
}

/// Writes and reads at once, so that neither side waits for the other with a full pipe.
fn feed(child: &mut Child, input: &[u8]) -> Result<Vec<u8>, String> {
    let mut stdin = child.stdin.take().expect("standard input is piped");
    let mut stdout = child.stdout.take().expect("standard output is piped");
    let input = input.to_vec();
    // It stops reading where the input is too long, so a broken pipe is no fault.
    thread::spawn(move || stdin.write_all(&input));
    let (sender, receiver) = mpsc::channel();
    thread::spawn(move || {
        let mut printed = Vec::new();
        let read = stdout.read_to_end(&mut printed).map(|_| printed);
        // the receiver is gone if this took too long
        let _ = sender.send(read);
    });
    match receiver.recv_timeout(LONGEST_TIME) {
        Ok(Ok(printed)) => Ok(printed),
        Ok(Err(error)) => Err(format!("its output cannot be read: {error}")),
        Err(_) => Err(format!("not done after {} seconds", LONGEST_TIME.as_secs())),
    }
}
