//! Writes probe commands, and says in words which command or record a line answers.

use crate::bank::Bank;
use crate::probe::{Command, Reader};
use crate::tape::Request;

#[derive(Clone, Default)]
pub struct Script {
    pub input: Vec<u8>,
}

impl Script {
    pub fn new() -> Script {
        Script::default()
    }

    pub fn image(&mut self, bytes: &[u8]) -> &mut Script {
        self.number(b'I', bytes.len() as u32);
        self.input.extend_from_slice(bytes);
        self
    }

    /// A command without a body: L, H, N, S, D or V.
    pub fn plain(&mut self, letter: u8) -> &mut Script {
        self.input.push(letter);
        self
    }

    /// A command with one number: M, Y, T, G, A, P, C, Q or R.
    pub fn number(&mut self, letter: u8, number: u32) -> &mut Script {
        self.input.push(letter);
        self.input.extend_from_slice(&number.to_le_bytes());
        self
    }

    pub fn write_part(&mut self, offset: u32, bytes: &[u8]) -> &mut Script {
        self.number(b'W', offset);
        self.input.extend_from_slice(&(bytes.len() as u32).to_le_bytes());
        self.input.extend_from_slice(bytes);
        self
    }

    pub fn bank(&mut self, bank: &Bank) -> &mut Script {
        self.input.push(b'B');
        self.input.extend(bank.iter().flat_map(|number| number.to_le_bytes()));
        self
    }

    pub fn set(&mut self, piston: u32, kind: u8, body: &[u8]) -> &mut Script {
        self.number(b'K', piston);
        self.input.push(kind);
        self.input.extend_from_slice(&(body.len() as u32).to_le_bytes());
        self.input.extend_from_slice(body);
        self
    }
}

/// The command of the numbered line, counted from 0: each command prints one line.
pub fn command_of_line(input: &[u8], line: usize) -> String {
    let mut reader = Reader::new(input);
    let mut seen = 0;
    while !reader.at_end() {
        let command = match reader.command() {
            Some(command) => command,
            None => return "a command that cannot be read".to_string(),
        };
        if seen == line {
            return in_words(&command);
        }
        seen += 1;
    }
    "no command: the input has ended".to_string()
}

/// The record of the numbered line of a tape, counted from 0.
pub fn record_of_line(tape: &[u8], line: usize) -> String {
    let mut rest = tape;
    for _ in 0..line {
        match Request::read(rest) {
            Some((_, length)) => rest = &rest[length..],
            None => break,
        }
    }
    match Request::read(rest) {
        Some((request, _)) => format!("{:?}", request),
        None if rest.is_empty() => "no record: the tape has ended".to_string(),
        None => "a record that cannot be read".to_string(),
    }
}

fn in_words(command: &Command) -> String {
    match command {
        Command::Image(bytes) => format!("I of {} bytes", bytes.len()),
        Command::WritePart(offset, bytes) => format!("W {} of {} bytes", offset, bytes.len()),
        Command::Take(s) => format!("T {}", s),
        Command::GiveBack(offset) => format!("G {}", offset),
        Command::Ask(offset) => format!("A {}", offset),
        Command::ReadPart(offset) => format!("P {}", offset),
        Command::Classes(k) => format!("C {}", k),
        Command::LayOut => "L".to_string(),
        Command::LayOutAs(number) => format!("M {}", number),
        Command::Convert(old) => format!("Y {}", old),
        Command::BringIn => "H".to_string(),
        Command::Inspect => "N".to_string(),
        Command::Figures => "S".to_string(),
        Command::Dump => "D".to_string(),
        Command::Bank(bank) => format!("B of {:?}", bank),
        Command::Set(piston, kind, body) => {
            format!("K {}, kind {}, a body of {} bytes", piston, kind, body.len())
        }
        Command::Clear(piston) => format!("Q {}", piston),
        Command::Recall(piston) => format!("R {}", piston),
        Command::Pistons => "V".to_string(),
    }
}
