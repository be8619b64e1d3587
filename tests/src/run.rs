//! Runs a program on an input and takes its whole output.

use std::ffi::OsString;
use std::io::{BufWriter, Read, Write};
use std::process::{Command, ExitStatus, Stdio};
use std::sync::mpsc;
use std::thread;
use std::time::Duration;

/// A call ends for every input; a run that takes longer than this does not.
const PATIENCE: Duration = Duration::from_secs(300);

/// A program to run, with its arguments.
pub type Words = Vec<OsString>;

/// Runs a program on an input; its output, whole, and its status. The program need not read all of the input.
pub fn run(
    words: &Words,
    write: impl FnOnce(&mut dyn Write) -> std::io::Result<()> + Send,
) -> Result<(Vec<u8>, ExitStatus), String> {
    let name = words[0].to_string_lossy().into_owned();
    let mut child = Command::new(&words[0])
        .args(&words[1..])
        .stdin(Stdio::piped())
        .stdout(Stdio::piped())
        .spawn()
        .map_err(|error| format!("{name}: {error}"))?;
    let input = child.stdin.take().expect("piped");
    let mut output = child.stdout.take().expect("piped");
    let mut bytes = Vec::new();
    let ended = thread::scope(|scope| {
        scope.spawn(move || {
            let mut input = BufWriter::with_capacity(1 << 16, input);
            let _ = write(&mut input).and_then(|_| input.flush());
        });
        let (send, receive) = mpsc::channel();
        let bytes = &mut bytes;
        scope.spawn(move || {
            let _ = send.send(output.read_to_end(bytes));
        });
        let ended = receive.recv_timeout(PATIENCE);
        if ended.is_err() {
            let _ = child.kill();
        }
        ended
    });
    let status = child.wait().map_err(|error| format!("{name}: {error}"))?;
    match ended {
        Err(_) => Err(format!("{name}: not ended after {} seconds", PATIENCE.as_secs())),
        Ok(Err(error)) => Err(format!("{name}: {error}")),
        Ok(Ok(_)) => Ok((bytes, status)),
    }
}
