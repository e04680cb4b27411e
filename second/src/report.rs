//! Counts what passed and failed, one line for each group, and shows every difference so that it
//! can be made again: the failing input is kept in a file.

use crate::script::{command_of_line, record_of_line};
use std::fs;
use std::path::{Path, PathBuf};
use std::process::exit;

/// Which program an input is for.
#[derive(Clone, Copy, PartialEq, Eq)]
pub enum Program {
    Tape,
    Probe,
}

impl Program {
    fn name(self) -> &'static str {
        match self {
            Program::Tape => "tape",
            Program::Probe => "probe",
        }
    }
}

/// A law that holds, or what it says where it does not.
pub fn demand(holds: bool, what: &str) -> Result<(), String> {
    if holds {
        Ok(())
    } else {
        Err(what.to_string())
    }
}

/// Differences shown whole for a group; the others are only counted.
const SHOWN: u64 = 20;

pub struct Report {
    keep: PathBuf,
    group: String,
    group_passed: u64,
    group_failed: u64,
    passed: u64,
    failed: u64,
    /// Whether the first difference ends the program.
    first: bool,
}

impl Report {
    pub fn new(keep: &Path) -> Report {
        Report {
            first: false,
            keep: keep.to_path_buf(),
            group: String::new(),
            group_passed: 0,
            group_failed: 0,
            passed: 0,
            failed: 0,
        }
    }

    /// A report that ends the program at the first difference.
    pub fn until_first(keep: &Path) -> Report {
        Report { first: true, ..Report::new(keep) }
    }

    pub fn begin(&mut self, group: &str) {
        self.group = group.to_string();
        self.group_passed = 0;
        self.group_failed = 0;
    }

    pub fn end(&mut self) {
        if self.group_failed > SHOWN {
            println!("  and {} more differences", self.group_failed - SHOWN);
        }
        let failed = match self.group_failed {
            0 => String::new(),
            count => format!(", {} failed", count),
        };
        println!("{}: {} passed{}", self.group, self.group_passed, failed);
        self.passed += self.group_passed;
        self.failed += self.group_failed;
    }

    pub fn pass(&mut self, count: u64) {
        self.group_passed += count;
    }

    /// A failed check without an input of its own.
    pub fn fail(&mut self, what: &str) {
        self.group_failed += 1;
        if self.group_failed <= SHOWN {
            println!("  {}: {}", self.group, what);
        }
    }

    pub fn check(&mut self, holds: bool, what: &str) {
        if holds {
            self.pass(1);
        } else {
            self.fail(what);
        }
    }

    /// A difference between wanted and given output for a case's input.
    pub fn differ(
        &mut self,
        program: Program,
        case: &str,
        input: &[u8],
        wanted: &[u8],
        given: &[u8],
    ) {
        self.group_failed += 1;
        if self.group_failed > SHOWN {
            return;
        }
        println!("  {}: {} differs", self.group, case);
        let (line, ours, theirs) = first_difference(wanted, given);
        match program {
            Program::Tape => println!("    record: {}", record_of_line(input, line)),
            Program::Probe => println!("    command: {}", command_of_line(input, line)),
        }
        println!("    line {}, wanted: {}", line + 1, ours);
        println!("    line {}, given:  {}", line + 1, theirs);
        self.keep_input(program, input);
        self.stop_at_first();
    }

    /// The other program gave no output at all.
    pub fn broken(&mut self, program: Program, case: &str, input: &[u8], why: &str) {
        self.group_failed += 1;
        if self.group_failed <= SHOWN {
            println!("  {}: {}: {}", self.group, case, why);
            self.keep_input(program, input);
        }
        self.stop_at_first();
    }

    fn stop_at_first(&mut self) {
        if self.first {
            self.end();
            self.close();
            exit(1);
        }
    }

    fn keep_input(&self, program: Program, input: &[u8]) {
        let group: String = self.group.chars().map(|c| if c == ' ' { '-' } else { c }).collect();
        let file = self.keep.join(format!("{}-{}.{}", group, self.group_failed, program.name()));
        let kept = fs::create_dir_all(&self.keep).and_then(|_| fs::write(&file, input));
        match kept {
            Ok(()) => println!(
                "    again: give {} to both programs, here `second {}`",
                file.display(),
                program.name()
            ),
            Err(error) => println!("    the input could not be kept: {}", error),
        }
    }

    /// The last line; true when nothing failed.
    pub fn close(&self) -> bool {
        println!("{} passed, {} failed", self.passed, self.failed);
        self.failed == 0
    }
}

/// Number of the first differing line from 0, and both lines, cut to where they differ.
fn first_difference(wanted: &[u8], given: &[u8]) -> (usize, String, String) {
    let ours: Vec<&[u8]> = wanted.split(|byte| *byte == b'\n').collect();
    let theirs: Vec<&[u8]> = given.split(|byte| *byte == b'\n').collect();
    let common = ours.iter().zip(&theirs).take_while(|(a, b)| a == b).count();
    let (a, b) = (ours.get(common), theirs.get(common));
    let from = match (a, b) {
        (Some(a), Some(b)) => a.iter().zip(b.iter()).take_while(|(x, y)| x == y).count(),
        _ => 0,
    };
    let last = common + 1 == ours.len().max(theirs.len());
    (common, shown(a, from, last), shown(b, from, last))
}

/// A line in full, or the neighbourhood of place `from` in a long one.
fn shown(line: Option<&&[u8]>, from: usize, last: bool) -> String {
    let line = match line {
        None => return "(no line)".to_string(),
        Some(line) if line.is_empty() && last => return "(the end)".to_string(),
        Some(line) => String::from_utf8_lossy(line).into_owned(),
    };
    if line.len() <= 200 || !line.is_ascii() {
        return line.chars().take(400).collect();
    }
    // In a dump the bytes begin behind `D 0 n `.
    let bytes = line.rfind(' ').map_or(0, |space| space + 1);
    let byte = from.saturating_sub(bytes) / 2;
    let begin = bytes + (2 * byte).saturating_sub(16);
    let end = (begin + 64).min(line.len());
    format!("{}... byte {}: ...{}...", &line[..bytes.min(60)], byte, &line[begin..end])
}
