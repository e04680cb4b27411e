//! Slips that the request makes easy: for each, what the calls would do with it. The fixed cases and
//! the random ones must each show it, and where it is about what goes home, the laws must too.

use super::{fixed, laws, Counts, GROUPS};
use crate::calls;
use crate::images::bins_in_any_order;
use crate::layout::{self, get8, put4, put8, FREE_WORD};
use crate::probe::{answer_line, Bench, Command, Reader};
use crate::random::Random;
use crate::rules::{self, Refusal};
use crate::state::{Layout, State, GREATEST_SMALL};
use crate::tape::figures_line_of;

/// The line of a command where the slip makes a difference to it, with what it does to the pool.
type Served = fn(&mut Bench, &Command) -> Option<String>;

/// Name, whether the laws must show it, and what it does.
type Slip = (&'static str, bool, Served);

/// What becomes of a state by the old rule, and the number that is answered.
type Home = fn(&State) -> (State, usize);

const SLIPS: [Slip; 24] = [
    ("one block goes home and not the run", true, |b, c| by(b, c, one_block)),
    ("a block goes home and stays in its bin", true, |b, c| by(b, c, stays_in_its_bin)),
    ("only a bin's first block leaves it", true, |b, c| by(b, c, first_leaves)),
    ("a held block goes home", true, |b, c| by(b, c, held_too)),
    ("the run stops one block early", true, |b, c| by(b, c, one_fewer)),
    ("the lists are put into the order of addresses", true, |b, c| by(b, c, in_order)),
    ("every free small block leaves its bin", true, |b, c| by(b, c, lists_cleared)),
    ("nothing goes home on layout 2", true, |b, c| by(b, c, layout_1_alone)),
    ("nothing goes home", true, |b, c| by(b, c, none)),
    ("bringing in accepts what the old rule refuses", true, accepts_all),
    ("bringing in refuses what the new rule refuses", true, refuses_old),
    ("bringing in refuses what is sound already", true, refuses_sound),
    ("bringing in answers bytes", true, answers_bytes),
    ("bringing in answers n", true, answers_n),
    ("bringing in adds to the free word", true, adds_to_free_word),
    ("bringing in clears what went home", true, clears),
    ("the head of the given-back block is written", true, |b, c| writes(b, c, 0)),
    ("the link of the given-back block is written", true, |b, c| writes(b, c, 4)),
    ("inspection accepts a free block at E", false, |b, c| by_old_rule(b, c, b'N')),
    ("take accepts a free block at E", false, |b, c| by_old_rule(b, c, b'T')),
    ("give-back accepts a free block at E", true, |b, c| by_old_rule(b, c, b'G')),
    ("ask accepts a free block at E", false, |b, c| by_old_rule(b, c, b'A')),
    ("the figures accept a free block at E", false, |b, c| by_old_rule(b, c, b'S')),
    ("the move accepts a free block at E", false, |b, c| by_old_rule(b, c, b'Y')),
];

/// Cases of each group that are tried for each slip.
const TRIED: u64 = 60;

/// For each slip by which cases it is not shown.
pub fn shown(seed: u64) -> Vec<(String, bool)> {
    let by_hand: Vec<Vec<u8>> = fixed::cases().into_iter().map(|case| case.input).collect();
    let mut counts = Counts::new();
    let mut random = Vec::new();
    for (_, count, make) in GROUPS {
        random.extend((0..count.min(TRIED)).map(|number| make(seed, number, &mut counts).input));
    }
    let mut found = Vec::new();
    for (name, by_law, served) in SLIPS {
        for (cases, which) in [(&by_hand, "fixed"), (&random, "random")] {
            let seen = cases.iter().any(|input| differs(served, input));
            found.push((format!("the {} cases show that {}", which, name), seen));
        }
        if by_law {
            let seen = random.iter().any(|input| breaks_a_law(served, input));
            found.push((format!("the laws show that {}", name), seen));
        }
    }
    found
}

fn serve(served: Served, bench: &mut Bench, command: Command) -> String {
    match served(bench, &command) {
        Some(line) => line,
        None => bench.serve(command),
    }
}

fn differs(served: Served, input: &[u8]) -> bool {
    let (mut ours, mut theirs) = (Bench::default(), Bench::default());
    let mut reader = Reader::new(input);
    while let Some(command) = reader.command() {
        if ours.serve(command.clone()) != serve(served, &mut theirs, command) {
            return true;
        }
    }
    false
}

/// On each pool that this program itself meets, so that no law has to judge what a slip left behind.
fn breaks_a_law(served: Served, input: &[u8]) -> bool {
    let mut ours = Bench::default();
    let mut reader = Reader::new(input);
    while let Some(command) = reader.command() {
        let mut theirs = ours.clone();
        let held = match command {
            Command::BringIn => {
                let answer = answered(&serve(served, &mut theirs, Command::BringIn));
                laws::brought_in(&ours.pool, &answer, &theirs.pool)
            }
            Command::GiveBack(offset) => {
                let answer = answered(&serve(served, &mut theirs, Command::GiveBack(offset)));
                laws::gave_back(&ours.pool, offset, &answer, &theirs.pool)
            }
            _ => Ok(()),
        };
        if held.is_err() {
            return true;
        }
        ours.serve(command);
    }
    false
}

/// The answer that a line shows.
fn answered(line: &str) -> Result<usize, Refusal> {
    let words: Vec<usize> = line.split(' ').skip(1).map(|word| word.parse().unwrap()).collect();
    match words[0] {
        0 => Ok(words[1]),
        1 => Err(Refusal::NotAllowed),
        2 => Err(Refusal::NotSound),
        _ => Err(Refusal::NotHeld),
    }
}

/// Both calls with another way home.
fn by(bench: &mut Bench, command: &Command, home: Home) -> Option<String> {
    match command {
        Command::BringIn => {
            let (after, count) = home(&calls::old_state_of(&bench.pool).ok()?);
            bench.pool = layout::write(&after, &bench.pool);
            Some(answer_line('H', Ok(count)))
        }
        Command::GiveBack(offset) => {
            let was = calls::state_of(&bench.pool).ok()?;
            let (old, payload) = rules::give_back_old(&was, *offset).ok()?;
            if payload + 4 > GREATEST_SMALL {
                return None;
            }
            bench.pool = layout::write(&home(&old).0, &bench.pool);
            Some(answer_line('G', Ok(payload)))
        }
        _ => None,
    }
}

/// How many free blocks stand from E on.
fn run_of(was: &State) -> usize {
    was.high.iter().take_while(|block| !block.held).count()
}

/// The first blocks of the high run go home, be they what they may.
fn these(was: &State, count: usize) -> (State, usize) {
    let mut after = was.clone();
    let edge = after.high.get(count).map_or(was.n, |block| block.start);
    after.high.drain(..count);
    after.small_bins.values_mut().for_each(|starts| starts.retain(|start| *start >= edge));
    after.small_bins.retain(|_, starts| !starts.is_empty());
    (after, count)
}

fn one_block(was: &State) -> (State, usize) {
    these(was, run_of(was).min(1))
}

fn one_fewer(was: &State) -> (State, usize) {
    let run = run_of(was);
    these(was, if run > 1 { run - 1 } else { run })
}

fn held_too(was: &State) -> (State, usize) {
    let run = run_of(was);
    these(was, if run > 0 { (run + 1).min(was.high.len()) } else { 0 })
}

fn stays_in_its_bin(was: &State) -> (State, usize) {
    let (after, count) = rules::bring_in(was);
    (State { small_bins: was.small_bins.clone(), ..after }, count)
}

/// As if each block stood in front of its bin.
fn first_leaves(was: &State) -> (State, usize) {
    let (mut after, count) = rules::bring_in(was);
    after.small_bins = was.small_bins.clone();
    for block in &was.high[..count] {
        if let Some(starts) = after.small_bins.get_mut(&block.size) {
            starts.remove(0);
        }
        after.small_bins.retain(|_, starts| !starts.is_empty());
    }
    (after, count)
}

fn in_order(was: &State) -> (State, usize) {
    let (mut after, count) = rules::bring_in(was);
    if count > 0 {
        after.small_bins = bins_in_any_order(&mut Random::new(0), &after.high);
        after.small_bins.values_mut().for_each(|starts| starts.sort_unstable());
    }
    (after, count)
}

fn lists_cleared(was: &State) -> (State, usize) {
    let (mut after, count) = rules::bring_in(was);
    if count > 0 {
        after.small_bins.clear();
    }
    (after, count)
}

fn layout_1_alone(was: &State) -> (State, usize) {
    match was.layout {
        Layout::One => rules::bring_in(was),
        Layout::Two => (was.clone(), 0),
    }
}

fn none(was: &State) -> (State, usize) {
    (was.clone(), 0)
}

/// The blocks that a bring-in of this pool sends home, if that is what the command is.
fn brought(bench: &Bench, command: &Command) -> Option<(State, usize)> {
    if *command != Command::BringIn {
        return None;
    }
    calls::old_state_of(&bench.pool).ok().map(|was| (was.clone(), run_of(&was)))
}

fn accepts_all(bench: &mut Bench, command: &Command) -> Option<String> {
    let refused = *command == Command::BringIn
        && calls::old_state_of(&bench.pool).err() == Some(Refusal::NotSound);
    refused.then(|| answer_line('H', Ok(0)))
}

fn refuses_old(bench: &mut Bench, command: &Command) -> Option<String> {
    let (_, count) = brought(bench, command)?;
    (count > 0).then(|| answer_line('H', Err(Refusal::NotSound)))
}

fn refuses_sound(bench: &mut Bench, command: &Command) -> Option<String> {
    let (_, count) = brought(bench, command)?;
    (count == 0).then(|| answer_line('H', Err(Refusal::NotSound)))
}

fn answers_bytes(bench: &mut Bench, command: &Command) -> Option<String> {
    let (was, count) = brought(bench, command)?;
    calls::bring_in(&mut bench.pool).ok()?;
    let bytes = was.high[..count].iter().map(|block| block.size).sum();
    Some(answer_line('H', Ok(bytes)))
}

fn answers_n(bench: &mut Bench, command: &Command) -> Option<String> {
    brought(bench, command)?;
    calls::bring_in(&mut bench.pool).ok()?;
    Some(answer_line('H', Ok(bench.pool.len())))
}

fn adds_to_free_word(bench: &mut Bench, command: &Command) -> Option<String> {
    let (was, count) = brought(bench, command)?;
    calls::bring_in(&mut bench.pool).ok()?;
    let bytes: usize = was.high[..count].iter().map(|block| block.size).sum();
    let free = get8(&bench.pool, FREE_WORD) + bytes as u64;
    put8(&mut bench.pool, FREE_WORD, free);
    Some(answer_line('H', Ok(count)))
}

fn clears(bench: &mut Bench, command: &Command) -> Option<String> {
    let (was, count) = brought(bench, command)?;
    calls::bring_in(&mut bench.pool).ok()?;
    for block in &was.high[..count] {
        bench.pool[block.start..block.end()].fill(0);
    }
    Some(answer_line('H', Ok(count)))
}

/// One of the two words that a free small block has is stored into the given-back block though it goes
/// home.
fn writes(bench: &mut Bench, command: &Command, word: usize) -> Option<String> {
    let offset = match command {
        Command::GiveBack(offset) => *offset,
        _ => return None,
    };
    let was = calls::state_of(&bench.pool).ok()?;
    if was.remainder_end() + 4 != offset as usize {
        return None;
    }
    let payload = calls::give_back(&mut bench.pool, offset).ok()?;
    let value = if word == 0 { layout::head(payload + 4, true, false) } else { 0 };
    put4(&mut bench.pool, offset as usize - 4 + word, value);
    Some(answer_line('G', Ok(payload)))
}

/// One call reads the pool by the old rule. What it makes of it is written by that rule too.
fn by_old_rule(bench: &mut Bench, command: &Command, letter: u8) -> Option<String> {
    let was = calls::old_state_of(&bench.pool).ok()?;
    let changed = match (command, letter) {
        (Command::Inspect, b'N') => return Some(answer_line('N', Ok(was.n))),
        (Command::Ask(offset), b'A') => {
            let held = rules::held_block(&was, *offset);
            return Some(answer_line('A', held.map(|block| block.size - 4)));
        }
        (Command::Figures, b'S') => return Some(figures_line_of(&rules::figures(&was))),
        (Command::Take(s), b'T') => rules::take(&was, *s),
        (Command::GiveBack(offset), b'G') => rules::give_back(&was, *offset),
        (Command::Convert(old), b'Y') => {
            let old = Layout::of_number(*old)?;
            rules::convert(&was, old).map(|after| (after, was.n))
        }
        _ => return None,
    };
    if let Ok((after, _)) = &changed {
        bench.pool = layout::write(after, &bench.pool);
    }
    Some(answer_line(letter as char, changed.map(|(_, value)| value)))
}
