//! Checks of this program by itself: cases by hand, starred words, and on every step of random
//! runs that the state stays well formed and that its bytes give it back.

use crate::banks;
use crate::branches::Counts;
use crate::cases::{self, Group};
use crate::conversion;
use crate::damage;
use crate::homing;
use crate::images;
use crate::layout::{self, get4, get8};
use crate::levels;
use crate::random::Random;
use crate::report::Report;
use crate::rules::{self, class_of, class_size, need};
use crate::state::{Layout, State};
use crate::tape::Request;
use crate::tapes::random_tape;
use crate::{calls, probe, tape};
use std::path::Path;

const TAPES: u64 = 600;
const IMAGES: u64 = 1_000;
const DAMAGED: u64 = 2_500;

pub fn run(seed: u64, keep: &Path) -> bool {
    let mut report = Report::new(keep);
    by_hand(&mut report);
    starred(&mut report);
    index_words(&mut report);
    random_runs(&mut report, seed);
    layouts_alike(&mut report, seed);
    sound_images(&mut report, seed);
    damaged_images(&mut report, seed);
    let mut counts = conversion::Counts::new();
    laws(&mut report, seed, "laws of the conversion", conversion::GROUPS, &mut counts);
    let mut counts = homing::Counts::new();
    laws(&mut report, seed, "laws of going home", homing::GROUPS, &mut counts);
    slips(&mut report, seed);
    let mut counts = banks::Counts::new();
    laws(&mut report, seed, "laws of the bank", banks::GROUPS, &mut counts);
    report.close()
}

fn by_hand(report: &mut Report) {
    report.begin("cases by hand");
    let mut tapes = cases::tape_cases();
    tapes.push(cases::worked_tape());
    for case in tapes {
        if let Some(lines) = case.lines {
            report.check(tape::run(&case.tape) == lines, &case.name);
        }
    }
    for case in cases::probe_cases().into_iter().chain(cases::probe_edges()) {
        if let Some(lines) = case.lines {
            report.check(probe::run(&case.input) == lines, &case.name);
        }
    }
    for case in banks::fixed::cases().into_iter().chain(banks::fixed::edges()) {
        report.check(Some(probe::run(&case.input)) == case.lines, &case.name);
    }
    report.end();
}

/// A pool of 1,024 bytes after some requests.
fn pool_after(requests: &str) -> Vec<u8> {
    let mut pool = vec![0; 1024];
    calls::lay_out(&mut pool, 1).expect("1,024 is allowed");
    let tape = cases::tape_of(requests);
    let mut rest = &tape[..];
    while let Some((request, length)) = Request::read(rest) {
        let answer = match request {
            Request::Take(s) => calls::take(&mut pool, s),
            Request::GiveBack(offset) => calls::give_back(&mut pool, offset),
            _ => Ok(0),
        };
        answer.expect("no request of a starred case is refused");
        rest = &rest[length..];
    }
    pool
}

fn starred(report: &mut Report) {
    report.begin("starred words");
    for (s, b) in [(1, 8), (4, 8), (5, 16), (12, 16), (60, 64), (61, 72)] {
        report.check(need(s) == b, &format!("s = {} needs {}", s, b));
    }
    report.check(need(u32::MAX) == 4_294_967_304, "the greatest s is worked out exactly");
    let fresh = pool_after("S");
    report.check(get4(&fresh, 168) == 3_426, "fresh remainder's head");
    report.check(get8(&fresh, 0) == 852, "fresh free word");
    let held = pool_after("T 100, T 68");
    report.check(get4(&held, 168) == 419, "held 104 first");
    let free = pool_after("T 100, T 68, G 172");
    report.check(get4(&free, 168) == 418, "free 104 first");
    report.check(get4(&free, 272) == 289, "held 72 above it");
    let equals = pool_after(cases::EQUALS);
    report.check(get4(&equals, 168 + 8) == 232, "distance 232");
    report.check(get4(&equals, 400 + 4) == 4_294_967_064, "distance -232");
    report.check(class_of(12) == 2 && class_of(60) == 12, "classes of 12 and 60");
    let sizes: Vec<usize> = (0..8).chain([51, 52]).map(class_size).collect();
    report.check(sizes == [8, 10, 12, 14, 16, 20, 24, 28, 57_344, 65_536], "the class table");
    report.end();
}

fn index_words(report: &mut Report) {
    report.begin("words of the index");
    for (name, wrong) in levels::words_by_hand() {
        report.check(wrong.is_none(), &format!("{}: {:?}", name, wrong));
    }
    for (size, height) in
        [(72, 1), (80, 2), (88, 1), (96, 3), (128, 5), (192, 4), (4_096, 10), (16_384, 12)]
    {
        let name = format!("a bin of {} has height {}", size, height);
        report.check(Layout::Two.height(size) == height, &name);
        report.check(Layout::One.height(size) == 1, &format!("and in layout 1 {} has 1", size));
    }
    let top = [32_768, 65_536].map(|size| Layout::Two.height(size));
    report.check(top == [13, 13], "no bin is higher than 13");
    for (name, wrong) in conversion::fixed::words_by_hand() {
        report.check(wrong.is_none(), &format!("{}: {:?}", name, wrong));
    }
    report.end();
    report.begin("words of going home");
    for (name, wrong) in homing::fixed::words_by_hand() {
        report.check(wrong.is_none(), &format!("{}: {:?}", name, wrong));
    }
    report.end();
}

/// The tape with each laying out in the other layout.
fn other_tape(tape: &[u8]) -> Vec<u8> {
    let mut other = Vec::new();
    let mut rest = tape;
    while let Some((request, length)) = Request::read(rest) {
        match request {
            Request::LayOut(layout, n) => Request::LayOut(layout.other(), n),
            same => same,
        }
        .append_to(&mut other);
        rest = &rest[length..];
    }
    other.extend(rest);
    other
}

/// One tape answers alike on both layouts, apart from the layout letter.
fn layouts_alike(report: &mut Report, seed: u64) {
    report.begin("tapes on both layouts");
    for number in 0..TAPES {
        let tape = random_tape(seed, number, &mut Counts::new());
        let swap = |line: &str| match line.split_once(' ') {
            Some((record, rest)) if rest.starts_with('L') => {
                format!("{} M{}\n", record, &rest[1..])
            }
            Some((record, rest)) if rest.starts_with('M') => {
                format!("{} L{}\n", record, &rest[1..])
            }
            _ => format!("{}\n", line),
        };
        let swapped: String = tape::run(&tape).lines().map(swap).collect();
        let alike = tape::run(&other_tape(&tape)) == swapped;
        report.check(alike, &format!("seed {}, tape {}", seed, number));
    }
    report.end();
}

/// The largest grant without asking take: the greatest bin, or the remainder less 8, each less 4.
fn largest_by_rule(state: &State) -> usize {
    let bins = state.small_bins.keys().chain(state.large_bins.keys());
    let greatest = bins.copied().max().unwrap_or(0);
    greatest.max(state.remainder_size() - 8).saturating_sub(4)
}

/// What must hold of a new state and its bytes, given the bytes before.
fn step_holds(after: &State, old: &[u8]) -> Result<(), String> {
    after.well_formed()?;
    let bytes = layout::write(after, old);
    let read = layout::read(&bytes)?;
    if read != *after {
        return Err("the bytes give another state back".to_string());
    }
    let mut governed = vec![false; bytes.len()];
    for (at, _) in layout::governed(after) {
        if governed[at..at + 4].iter().any(|byte| *byte) {
            return Err(format!("the word at {} is governed twice", at));
        }
        governed[at..at + 4].iter_mut().for_each(|byte| *byte = true);
    }
    if (0..bytes.len()).any(|at| !governed[at] && bytes[at] != old[at]) {
        return Err("a byte that is not governed has changed".to_string());
    }
    let figures = rules::figures(after);
    if figures[1] + figures[5] + 172 != after.n {
        return Err("held bytes + free word + 172 is not n".to_string());
    }
    if figures[6] != largest_by_rule(after) {
        return Err("the largest grant is not the greatest bin's or the remainder's".to_string());
    }
    if let Some(s) = [1, 4, 5, 7, 8, 64, 72, after.n].iter().find(|more| {
        rules::take(after, (figures[6] + **more) as u32).err() != Some(rules::Refusal::NoRoom)
    }) {
        return Err(format!("{} more than the largest grant is not refused with 4", s));
    }
    let counted: u32 = rules::class_counts(after).iter().sum();
    if counted as usize != figures[0] {
        return Err("the classes do not count each held block once".to_string());
    }
    Ok(())
}

/// Each tape is served twice: by the calls on bytes, and on a state that is never read back.
fn random_runs(report: &mut Report, seed: u64) {
    report.begin("steps of random runs");
    let mut counts = Counts::new();
    for number in 0..TAPES {
        let tape = random_tape(seed, number, &mut counts);
        let mut random = Random::of_case(seed, 7, number);
        if let Err(why) = replay(report, &tape, &mut random) {
            report.fail(&format!("seed {}, tape {}: {}", seed, number, why));
        }
    }
    report.end();
}

fn replay(report: &mut Report, tape: &[u8], random: &mut Random) -> Result<(), String> {
    let lines = tape::run(tape);
    let mut pool: Vec<u8> = Vec::new();
    let mut state: Option<State> = None;
    let mut rest = tape;
    for line in lines.lines() {
        let (request, length) = match Request::read(rest) {
            Some(read) => read,
            None => return Ok(()),
        };
        rest = &rest[length..];
        let outcome = match (&state, request) {
            (_, Request::LayOut(layout, n)) if crate::state::allowed(n as usize) => {
                pool = random.bytes(n as usize);
                Ok((State::fresh(n as usize, layout), n as usize))
            }
            (Some(state), Request::Take(s)) => rules::take(state, s),
            (Some(state), Request::GiveBack(offset)) => rules::give_back(state, offset),
            _ => continue,
        };
        let (number, value) =
            outcome.as_ref().map_or_else(|refusal| (refusal.number(), 0), |(_, value)| (0, *value));
        if !line.ends_with(&format!(" {} {}", number, value)) {
            return Err(format!("the state answers {} {} and the line is {}", number, value, line));
        }
        if let Ok((after, _)) = outcome {
            step_holds(&after, &pool)?;
            pool = layout::write(&after, &pool);
            state = Some(after);
        }
        report.pass(1);
    }
    Ok(())
}

fn sound_images(report: &mut Report, seed: u64) {
    report.begin("sound images");
    let mut random = Random::of_case(seed, 3, u64::MAX);
    let mut states = images::extreme_states(&mut random);
    for number in 0..IMAGES {
        let mut random = Random::of_case(seed, 3, number);
        let n = images::random_pool_size(&mut random);
        states.push(images::of_either_layout(&mut random, n));
    }
    for (number, state) in states.iter().enumerate() {
        let old = random.bytes(state.n);
        let holds = step_holds(state, &old)
            .and_then(|_| conversion::there_and_back(&layout::write(state, &old)));
        report.check(holds.is_ok(), &format!("seed {}, image {}: {:?}", seed, number, holds));
    }
    report.end();
}

/// What the calls would do with one slip in them must not pass.
fn slips(report: &mut Report, seed: u64) {
    report.begin("slips shown");
    for (what, seen) in homing::shown(seed) {
        report.check(seen, &format!("not so: {}", what));
    }
    report.end();
}

/// A damaged image that reads as a state has to be exactly that state's bytes.
fn damaged_images(report: &mut Report, seed: u64) {
    report.begin("damaged images");
    for number in 0..DAMAGED {
        let bytes = damage::damaged(seed, number).bytes;
        let holds = match layout::read(&bytes) {
            Ok(state) => {
                step_holds(&state, &bytes).is_ok() && layout::write(&state, &bytes) == bytes
            }
            Err(_) => layout::read_old(&bytes)
                .map_or(true, |state| layout::write(&state, &bytes) == bytes),
        };
        report.check(holds, &format!("seed {}, damaged image {}", seed, number));
    }
    report.end();
}

/// Cases of the comparison, for their calls' own sake: each was held to its laws as it was made.
fn laws<Counts, const N: usize>(
    report: &mut Report,
    seed: u64,
    name: &str,
    groups: [Group<Counts>; N],
    counts: &mut Counts,
) {
    report.begin(name);
    for (_, count, make) in groups {
        for number in 0..count {
            let case = make(seed, number, counts);
            let what = format!("{}: {:?}", case.name, case.faults.first());
            report.check(case.faults.is_empty(), &what);
        }
    }
    report.end();
}
