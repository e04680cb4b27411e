//! The request tape: its records, and the run that prints one line for each.

use crate::calls;
use crate::rules::Refusal;
use crate::state::{allowed, Layout, GREATEST_POOL};
use std::fmt::Write;

pub const LONGEST: usize = 32_768;

#[derive(Clone, Copy, Debug, PartialEq, Eq)]
pub enum Request {
    LayOut(Layout, u32),
    Take(u32),
    GiveBack(u32),
    Figures,
}

impl Request {
    pub fn append_to(self, tape: &mut Vec<u8>) {
        let (kind, number) = match self {
            Request::LayOut(Layout::One, n) => (1, Some(n)),
            Request::Take(s) => (2, Some(s)),
            Request::GiveBack(offset) => (3, Some(offset)),
            Request::Figures => (4, None),
            Request::LayOut(Layout::Two, n) => (5, Some(n)),
        };
        tape.push(kind);
        if let Some(number) = number {
            tape.extend_from_slice(&number.to_le_bytes());
        }
    }

    /// The record at the tape's start and its length; nothing where it cannot be read.
    pub fn read(tape: &[u8]) -> Option<(Request, usize)> {
        let kind = *tape.first()?;
        if kind == 4 {
            return Some((Request::Figures, 1));
        }
        let body = tape.get(1..5)?;
        let number = u32::from_le_bytes([body[0], body[1], body[2], body[3]]);
        match kind {
            1 => Some((Request::LayOut(Layout::One, number), 5)),
            2 => Some((Request::Take(number), 5)),
            3 => Some((Request::GiveBack(number), 5)),
            5 => Some((Request::LayOut(Layout::Two, number), 5)),
            _ => None,
        }
    }
}

/// What the two kinds of laying out print.
pub fn layout_letter(layout: Layout) -> char {
    match layout {
        Layout::One => 'L',
        Layout::Two => 'M',
    }
}

/// One buffer of zeros for the whole run; the pool is its first n bytes.
struct Run {
    buffer: Vec<u8>,
    pool: Vec<u8>,
}

impl Run {
    fn lay_out(&mut self, layout: Layout, n: u32) -> Result<usize, Refusal> {
        if !allowed(n as usize) {
            return Err(Refusal::NotAllowed);
        }
        let old = self.pool.len();
        self.buffer[..old].copy_from_slice(&self.pool);
        self.pool = self.buffer[..n as usize].to_vec();
        calls::lay_out(&mut self.pool, layout.number())
    }

    /// A record's line without its number.
    fn serve(&mut self, request: Request) -> String {
        let (letter, answer) = match request {
            Request::LayOut(layout, n) => (layout_letter(layout), self.lay_out(layout, n)),
            Request::Take(s) => ('T', calls::take(&mut self.pool, s)),
            Request::GiveBack(offset) => ('G', calls::give_back(&mut self.pool, offset)),
            Request::Figures => return figures_line(&self.pool),
        };
        let (number, value) = calls::number_and_value(&answer);
        format!("{} {} {}", letter, number, value)
    }
}

/// The line of what cannot be read, on the tape and in the probe.
pub fn unreadable_line() -> String {
    format!("X {} 0", Refusal::Unreadable.number())
}

/// The tape and the probe print figures alike: seven where done, one 0 where refused.
pub fn figures_line(pool: &[u8]) -> String {
    match calls::figures(pool) {
        Ok(figures) => figures_line_of(&figures),
        Err(refusal) => format!("S {} 0", refusal.number()),
    }
}

pub fn figures_line_of(figures: &[usize; 7]) -> String {
    let words: Vec<String> = figures.iter().map(|figure| figure.to_string()).collect();
    format!("S 0 {}", words.join(" "))
}

/// All lines of a tape.
pub fn run(tape: &[u8]) -> String {
    if tape.len() > LONGEST {
        return format!("0 {}\n", unreadable_line());
    }
    let mut run = Run { buffer: vec![0; GREATEST_POOL], pool: Vec::new() };
    let mut lines = String::new();
    let mut rest = tape;
    let mut record = 1;
    while !rest.is_empty() {
        match Request::read(rest) {
            Some((request, length)) => {
                writeln!(lines, "{} {}", record, run.serve(request)).unwrap();
                rest = &rest[length..];
            }
            None => {
                writeln!(lines, "{} {}", record, unreadable_line()).unwrap();
                rest = &[];
            }
        }
        record += 1;
    }
    lines
}
