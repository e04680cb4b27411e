//! The probe: commands on one pool image and one piston bank, one line for each.

use crate::bank::{self, Bank, PISTONS};
use crate::calls;
use crate::rules::Refusal;
use crate::state::{Layout, GREATEST_POOL};
use crate::tape::{figures_line, unreadable_line};
use std::fmt::Write;

const GREATEST_LIST: usize = 64;
const GREATEST_WRITE: usize = 65_536;
const GREATEST_BODY: usize = 64;

#[derive(Clone, Debug, PartialEq, Eq)]
pub enum Command<'a> {
    Image(&'a [u8]),
    LayOut,
    /// By the layout's number.
    LayOutAs(u32),
    /// By the old layout's number.
    Convert(u32),
    BringIn,
    Inspect,
    Take(u32),
    GiveBack(u32),
    Ask(u32),
    ReadPart(u32),
    WritePart(u32, &'a [u8]),
    Figures,
    Classes(usize),
    Dump,
    Bank(Bank),
    /// Piston, kind, body.
    Set(u32, u8, &'a [u8]),
    Clear(u32),
    Recall(u32),
    Pistons,
}

/// Takes commands off the front of the input.
pub struct Reader<'a> {
    rest: &'a [u8],
}

impl<'a> Reader<'a> {
    pub fn new(input: &'a [u8]) -> Reader<'a> {
        Reader { rest: input }
    }

    pub fn at_end(&self) -> bool {
        self.rest.is_empty()
    }

    fn bytes(&mut self, count: usize) -> Option<&'a [u8]> {
        let taken = self.rest.get(..count)?;
        self.rest = &self.rest[count..];
        Some(taken)
    }

    fn number(&mut self) -> Option<u32> {
        let body = self.bytes(4)?;
        Some(u32::from_le_bytes([body[0], body[1], body[2], body[3]]))
    }

    fn bank(&mut self) -> Option<Bank> {
        let mut bank = [0; PISTONS];
        for number in &mut bank {
            *number = self.number()?;
        }
        Some(bank)
    }

    fn count(&mut self, greatest: usize) -> Option<usize> {
        let count = self.number()? as usize;
        if count <= greatest {
            Some(count)
        } else {
            None
        }
    }

    /// The next command; nothing for an unknown letter, a short body or a count too great.
    pub fn command(&mut self) -> Option<Command<'a>> {
        let letter = self.bytes(1)?[0];
        Some(match letter {
            b'I' => {
                let n = self.count(GREATEST_POOL)?;
                Command::Image(self.bytes(n)?)
            }
            b'L' => Command::LayOut,
            b'M' => Command::LayOutAs(self.number()?),
            b'Y' => Command::Convert(self.number()?),
            b'H' => Command::BringIn,
            b'N' => Command::Inspect,
            b'T' => Command::Take(self.number()?),
            b'G' => Command::GiveBack(self.number()?),
            b'A' => Command::Ask(self.number()?),
            b'P' => Command::ReadPart(self.number()?),
            b'W' => {
                let offset = self.number()?;
                let k = self.count(GREATEST_WRITE)?;
                Command::WritePart(offset, self.bytes(k)?)
            }
            b'S' => Command::Figures,
            b'C' => Command::Classes(self.count(GREATEST_LIST)?),
            b'D' => Command::Dump,
            b'B' => Command::Bank(self.bank()?),
            b'K' => {
                let piston = self.number()?;
                let kind = self.bytes(1)?[0];
                let k = self.count(GREATEST_BODY)?;
                Command::Set(piston, kind, self.bytes(k)?)
            }
            b'Q' => Command::Clear(self.number()?),
            b'R' => Command::Recall(self.number()?),
            b'V' => Command::Pistons,
            _ => return None,
        })
    }
}

/// Lower-case hex, `-` where there are no bytes.
fn hex(bytes: &[u8]) -> String {
    const DIGITS: &[u8; 16] = b"0123456789abcdef";
    if bytes.is_empty() {
        return "-".to_string();
    }
    let mut text = String::with_capacity(2 * bytes.len());
    for byte in bytes {
        text.push(DIGITS[(byte >> 4) as usize] as char);
        text.push(DIGITS[(byte & 15) as usize] as char);
    }
    text
}

pub fn answer_line(letter: char, answer: Result<usize, Refusal>) -> String {
    let (number, value) = calls::number_and_value(&answer);
    format!("{} {} {}", letter, number, value)
}

fn read_part(pool: &[u8], offset: u32) -> String {
    let part = calls::part(pool, offset);
    let line = answer_line('P', calls::ask(pool, offset));
    format!("{} {} {}", line, part.len(), hex(&pool[part]))
}

/// Copies as far as the part reaches; bytes of the part behind the copy stay as they are.
fn write_part(pool: &mut [u8], offset: u32, bytes: &[u8]) -> String {
    let part = calls::part(pool, offset);
    let line = format!("{} {}", answer_line('W', calls::ask(pool, offset)), part.len());
    let copied = bytes.len().min(part.len());
    pool[part.start..part.start + copied].copy_from_slice(&bytes[..copied]);
    line
}

fn classes(pool: &[u8], k: usize) -> String {
    let mut counters = vec![7; k];
    let mut line = answer_line('C', calls::class_count(pool, &mut counters));
    for counter in counters {
        write!(line, " {}", counter).unwrap();
    }
    line
}

/// A refused recall gives the empty part, as that of an empty piston does.
fn recall(bench: &Bench, piston: u32) -> String {
    let (number, record) = match bank::recall(&bench.pool, &bench.bank, piston) {
        Ok(part) => (0, &bench.pool[part]),
        Err(refusal) => (refusal.number(), &[][..]),
    };
    format!("R {} {} {}", number, record.len(), hex(record))
}

fn pistons(bank: &Bank) -> String {
    let mut line = format!("V 0 {}", bank.len());
    for number in bank {
        write!(line, " {}", number).unwrap();
    }
    line
}

/// What the commands work on. Before the first I the pool has no bytes; before the first B every
/// piston is empty.
#[derive(Clone, Debug, Default, PartialEq, Eq)]
pub struct Bench {
    pub pool: Vec<u8>,
    pub bank: Bank,
}

impl Bench {
    /// The command's line.
    pub fn serve(&mut self, command: Command) -> String {
        let Bench { pool, bank } = self;
        match command {
            Command::Image(bytes) => {
                *pool = bytes.to_vec();
                format!("I 0 {}", pool.len())
            }
            Command::LayOut => answer_line('L', calls::lay_out(pool, Layout::One.number())),
            Command::LayOutAs(number) => answer_line('M', calls::lay_out(pool, number)),
            Command::Convert(old) => answer_line('Y', calls::convert(pool, old)),
            Command::BringIn => answer_line('H', calls::bring_in(pool)),
            Command::Inspect => answer_line('N', calls::inspect(pool)),
            Command::Take(s) => answer_line('T', calls::take(pool, s)),
            Command::GiveBack(offset) => answer_line('G', calls::give_back(pool, offset)),
            Command::Ask(offset) => answer_line('A', calls::ask(pool, offset)),
            Command::ReadPart(offset) => read_part(pool, offset),
            Command::WritePart(offset, bytes) => write_part(pool, offset, bytes),
            Command::Figures => figures_line(pool),
            Command::Classes(k) => classes(pool, k),
            Command::Dump => format!("D 0 {} {}", pool.len(), hex(pool)),
            Command::Bank(numbers) => {
                *bank = numbers;
                format!("B 0 {}", bank.len())
            }
            Command::Set(piston, kind, body) => {
                answer_line('K', bank::set(pool, bank, piston, kind, body))
            }
            Command::Clear(piston) => answer_line('Q', bank::clear(pool, bank, piston)),
            Command::Recall(piston) => recall(self, piston),
            Command::Pistons => pistons(bank),
        }
    }
}

/// All lines of a run of commands.
pub fn run(input: &[u8]) -> String {
    let mut bench = Bench::default();
    let mut lines = String::new();
    let mut reader = Reader::new(input);
    while !reader.at_end() {
        match reader.command() {
            Some(command) => {
                lines.push_str(&bench.serve(command));
                lines.push('\n');
            }
            None => {
                lines.push_str(&unreadable_line());
                lines.push('\n');
                return lines;
            }
        }
    }
    lines
}
