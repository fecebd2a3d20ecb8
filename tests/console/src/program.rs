//! Runs a console on a script, with a bound on its time.

use std::io::{Read, Write};
use std::path::Path;
use std::process::{Child, Command, Stdio};
use std::sync::mpsc::channel;
use std::time::{Duration, Instant};

/// A run that takes longer has failed.
const LIMIT: Duration = Duration::from_secs(10);

/// More than any script's answers.
const MOST: u64 = 1 << 24;

/// What the program writes for a script, which it gets in pieces of so many bytes; or what is wrong.
pub fn run(program: &Path, script: &[u8], piece: usize) -> Result<Vec<u8>, String> {
    let spawned = Command::new(program).stdin(Stdio::piped()).stdout(Stdio::piped()).spawn();
    let mut child = spawned.map_err(|error| format!("{}: {error}", program.display()))?;
    let until = Instant::now() + LIMIT;
    let output = exchange(&mut child, script, piece, until);
    let status = end(&mut child, until)?;
    match output {
        Some(output) if status == Some(0) => Ok(output),
        Some(_) => Err(format!("it ended with status {status:?}")),
        None => Err("it did not end in time, or its answers could not be read".to_string()),
    }
}

/// Feeds the script and reads the answers until they end. None where they do not in time: the program is then killed.
fn exchange(child: &mut Child, script: &[u8], piece: usize, until: Instant) -> Option<Vec<u8>> {
    let (mut input, output) = (child.stdin.take()?, child.stdout.take()?);
    std::thread::scope(|scope| {
        // a program that has ended takes no more: then the rest of the script is left
        scope.spawn(move || script.chunks(piece).try_for_each(|bytes| input.write_all(bytes)));
        let (sender, receiver) = channel();
        scope.spawn(move || {
            let mut bytes = Vec::new();
            let read = output.take(MOST).read_to_end(&mut bytes);
            sender.send(read.ok().map(|_| bytes))
        });
        let answers = receiver.recv_timeout(until.saturating_duration_since(Instant::now()));
        if answers.is_err() {
            let _ = child.kill();
        }
        answers.ok().flatten()
    })
}

/// The exit status of a program that has written all; it is killed where it goes on.
fn end(child: &mut Child, until: Instant) -> Result<Option<i32>, String> {
    loop {
        match child.try_wait() {
            Ok(Some(status)) => return Ok(status.code()),
            Ok(None) if Instant::now() < until => std::thread::sleep(Duration::from_micros(100)),
            Ok(None) => {
                let _ = child.kill();
                let _ = child.wait();
                return Err("it did not end in time".to_string());
            }
            Err(error) => return Err(error.to_string()),
        }
    }
}
