//! Runs the other program: input in, output out, with an end to waiting.

use std::io::{self, Read, Write};
use std::process::{Child, Command, Stdio};
use std::sync::mpsc::{self, Receiver};
use std::thread;
use std::time::Duration;

const PATIENCE: Duration = Duration::from_secs(180);

/// Bytes written at once: no power of two, so that a reader meets pieces that end anywhere.
const PIECE: usize = 4_093;

/// More than any case prints; a program that prints without end is stopped there.
const MOST_OUTPUT: u64 = 64 << 20;

/// Why there is no output to compare.
#[derive(Clone, Debug, PartialEq, Eq)]
pub enum Fault {
    NoEnd,
    Bad(String),
}

impl Fault {
    pub fn in_words(&self) -> String {
        match self {
            Fault::NoEnd => format!("it did not end within {} seconds", PATIENCE.as_secs()),
            Fault::Bad(why) => why.clone(),
        }
    }
}

/// The program's standard output.
pub fn run(command: &[String], input: &[u8]) -> Result<Vec<u8>, Fault> {
    let mut child = start(command)?;
    feed(&mut child, input);
    let output = match collect(&mut child).recv_timeout(PATIENCE) {
        Ok(result) => result.map_err(|error| Fault::Bad(format!("no output: {}", error)))?,
        Err(_) => return Err(stop(child, Fault::NoEnd)),
    };
    if output.len() as u64 == MOST_OUTPUT {
        return Err(stop(child, Fault::Bad("it prints without end".to_string())));
    }
    let status = child.wait().map_err(|error| Fault::Bad(error.to_string()))?;
    // A signal, or what a shell makes of one or of a program it cannot start.
    if status.code().map_or(true, |code| code >= 126) {
        let why = format!("it ended badly ({}) after {} bytes", status, output.len());
        return Err(Fault::Bad(why));
    }
    Ok(output)
}

fn start(command: &[String]) -> Result<Child, Fault> {
    Command::new(&command[0])
        .args(&command[1..])
        .stdin(Stdio::piped())
        .stdout(Stdio::piped())
        .spawn()
        .map_err(|error| Fault::Bad(format!("{} does not start: {}", command[0], error)))
}

/// Writing has its own thread, since both pipes may be full at once. The program may stop reading
/// early, as for a long tape, so a broken pipe is no fault.
fn feed(child: &mut Child, input: &[u8]) {
    let mut to = child.stdin.take().expect("stdin is a pipe");
    let input = input.to_vec();
    thread::spawn(move || input.chunks(PIECE).all(|piece| to.write_all(piece).is_ok()));
}

/// Reading has its own thread, so that waiting for it can have an end.
fn collect(child: &mut Child) -> Receiver<io::Result<Vec<u8>>> {
    let from = child.stdout.take().expect("stdout is a pipe");
    let (sender, receiver) = mpsc::channel();
    thread::spawn(move || {
        let mut output = Vec::new();
        let result = from.take(MOST_OUTPUT).read_to_end(&mut output).map(|_| output);
        drop(sender.send(result));
    });
    receiver
}

fn stop(mut child: Child, fault: Fault) -> Fault {
    drop(child.kill());
    drop(child.wait());
    fault
}
