//! Which branches are taken where blocks go home, by a give-back or by bringing in, seen from the
//! bytes before the call and the answer, and counted for each layout by itself.

use crate::calls;
use crate::layout::{get4, get8, E_WORD};
use crate::rules::{self, Refusal};
use crate::state::{State, GREATEST_SMALL, LEAST_REMAINDER};
use crate::tally::{expanded, Tally};

const CALLS: [&str; 2] = ["give back", "bring in"];
const LAYOUTS: [&str; 2] = ["1", "2"];
/// The calls of the pool that refuse one with a free block at E.
const OTHERS: [&str; 9] = ["N", "T", "G", "A", "P", "W", "S", "C", "Y"];

/// Every branch in the order of the table; `@` stands for each of the two calls, `%` for each layout,
/// `~` for each of the other calls.
const NAMES: [&str; 34] = [
    "@, layout %: one goes home",
    "@, layout %: two go home",
    "@, layout %: several go home",
    "@, layout %: more than 4,000 go home",
    "@, layout %: a held block stops them",
    "@, layout %: they reach n",
    "@, layout %: the remainder had 8 bytes",
    "@, layout %: free large blocks stay",
    "@, layout %: a bin loses all its blocks",
    "@, layout %: a bin loses its first alone",
    "@, layout %: a bin loses its first and the next, and keeps others",
    "@, layout %: a bin keeps its first and loses its last",
    "@, layout %: a bin keeps its first and its last and loses others",
    "@, layout %: a bin loses blocks with one that stays between them",
    "@, layout %: a bin keeps all its blocks, others lose some",
    "@, layout %: bins of several sizes lose blocks",
    "@, layout %: the list of a bin leads up and down",
    "give back, layout %: alone, and free blocks of its size stay",
    "give back, layout %: with others of its own size",
    "give back, layout %: not at E, the block below is free",
    "give back, layout %: not at E, the block above is free",
    "give back, layout %: not at E, held blocks around it",
    "give back, layout %: a large block, while small ones are free",
    "give back: refused 5, 4 past a block that went home",
    "bring in, layout %: none at E, and nothing was brought in before",
    "bring in, layout %: none at E, brought in just before",
    "bring in, layout %: none at E, brought in before and calls between",
    "bring in, layout %: E is n",
    "bring in: refused 1",
    "bring in: refused 1, though the bytes are a pool's as far as they go",
    "bring in: refused 2, a free block seems to stand at E",
    "bring in: refused 2, a held block seems to stand at E",
    "bring in: refused 2, E is n or no place in the pool",
    "~ refused 2 for the free block at E alone",
];

/// What became of the pool since it was brought in.
#[derive(Clone, Copy, PartialEq, Eq)]
pub enum Since {
    Never,
    BroughtIn,
    Changed,
}

pub struct Counts {
    tally: Tally,
}

impl Counts {
    pub fn new() -> Counts {
        let mut names = NAMES.iter().map(|name| name.to_string()).collect();
        for (mark, words) in [('@', &CALLS[..]), ('%', &LAYOUTS), ('~', &OTHERS)] {
            names = expanded(names, mark, words);
        }
        Counts { tally: Tally::new(names) }
    }

    /// Name and count in the order of the list.
    pub fn table(&self) -> Vec<(String, u64)> {
        self.tally.table()
    }

    fn add(&mut self, call: &str, state: &State, what: &str) {
        self.tally.add(&format!("{}, layout {}: {}", call, state.layout.number(), what));
    }

    /// One of the calls that a free block at E refuses.
    pub fn refused(&mut self, letter: char) {
        self.tally.add(&format!("{} refused 2 for the free block at E alone", letter));
    }

    pub fn brought_in(&mut self, before: &[u8], answer: &Result<usize, Refusal>, since: Since) {
        match answer {
            Ok(count) => {
                let was = calls::old_state_of(before).expect("no other pool is brought in");
                let (is, _) = rules::bring_in(&was);
                match count {
                    0 => self.none(&was, since),
                    _ => self.homes(CALLS[1], &was, &is),
                }
            }
            Err(Refusal::NotAllowed) => {
                self.tally.add("bring in: refused 1");
                let whole = before.len() / 8 * 8;
                if calls::old_state_of(&before[..whole]).is_ok() {
                    let name = "refused 1, though the bytes are a pool's as far as they go";
                    self.tally.add(&format!("bring in: {}", name));
                }
            }
            Err(_) => {
                let edge = get8(before, E_WORD);
                let inside = edge < before.len() as u64 && edge % 8 == 0;
                let what = match inside && edge > 0 {
                    false => "E is n or no place in the pool",
                    true if get4(before, edge as usize) % 2 == 0 => {
                        "a free block seems to stand at E"
                    }
                    true => "a held block seems to stand at E",
                };
                self.tally.add(&format!("bring in: refused 2, {}", what));
            }
        }
    }

    fn none(&mut self, was: &State, since: Since) {
        let before = match since {
            Since::Never => "and nothing was brought in before",
            Since::BroughtIn => "brought in just before",
            Since::Changed => "brought in before and calls between",
        };
        self.add(CALLS[1], was, &format!("none at E, {}", before));
        if was.high.is_empty() {
            self.add(CALLS[1], was, "E is n");
        }
    }

    pub fn gave_back(&mut self, before: &[u8], offset: u32, answer: &Result<usize, Refusal>) {
        let was = match calls::state_of(before) {
            Ok(was) => was,
            Err(_) => return,
        };
        let call = CALLS[0];
        if answer.is_err() {
            let (r, e) = (was.remainder_start() as u32, was.remainder_end() as u32);
            // The head still says a small block, held or free, and it lies where the pool has none.
            let inside = offset > r + 4 && offset < e && offset % 8 == 4;
            let size = if inside { get4(before, offset as usize - 4) / 4 } else { 0 };
            if size % 8 == 0 && size > 0 && size as usize <= GREATEST_SMALL {
                self.tally.add("give back: refused 5, 4 past a block that went home");
            }
            return;
        }
        let (is, _) = rules::give_back(&was, offset).expect("it was given back");
        let start = offset as usize - 4;
        let place = was.high.iter().position(|block| block.start == start);
        match place {
            None if was.small_bins.is_empty() => {}
            None => self.add(call, &was, "a large block, while small ones are free"),
            Some(0) => {
                let own = was.high[0].size;
                let free = |state: &State| state.small_bins.get(&own).map_or(0, Vec::len);
                if was.high.len() - is.high.len() == 1 && free(&was) > 0 {
                    self.add(call, &was, "alone, and free blocks of its size stay");
                }
                if free(&is) < free(&was) {
                    self.add(call, &was, "with others of its own size");
                }
                self.homes(call, &was, &is);
            }
            Some(place) => {
                let below = !was.high[place - 1].held;
                let above = was.high.get(place + 1).map_or(false, |block| !block.held);
                if below {
                    self.add(call, &was, "not at E, the block below is free");
                }
                if above {
                    self.add(call, &was, "not at E, the block above is free");
                }
                if !below && !above {
                    self.add(call, &was, "not at E, held blocks around it");
                }
            }
        }
    }

    fn homes(&mut self, call: &str, was: &State, is: &State) {
        let count = was.high.len() - is.high.len();
        let mut seen = vec![match count {
            1 => "one goes home",
            2 => "two go home",
            _ => "several go home",
        }];
        if count > 4_000 {
            seen.push("more than 4,000 go home");
        }
        seen.push(if is.high.is_empty() { "they reach n" } else { "a held block stops them" });
        if was.remainder_size() == LEAST_REMAINDER {
            seen.push("the remainder had 8 bytes");
        }
        if !was.large_bins.is_empty() {
            seen.push("free large blocks stay");
        }
        let edge = is.remainder_end();
        let lists: Vec<Vec<bool>> = was
            .small_bins
            .values()
            .map(|starts| starts.iter().map(|start| *start >= edge).collect())
            .collect();
        let losing = lists.iter().filter(|stay| stay.contains(&false)).count();
        if losing > 1 {
            seen.push("bins of several sizes lose blocks");
        }
        for stay in &lists {
            seen.extend(lost(stay, losing > 0));
        }
        let turns = |starts: &Vec<usize>| {
            starts.windows(2).any(|pair| pair[0] < pair[1])
                && starts.windows(2).any(|pair| pair[0] > pair[1])
        };
        if was.small_bins.values().any(turns) {
            seen.push("the list of a bin leads up and down");
        }
        seen.sort_unstable();
        seen.dedup();
        seen.into_iter().for_each(|what| self.add(call, was, what));
    }
}

/// What a list loses, given for each of its blocks whether it stays.
fn lost(stay: &[bool], some: bool) -> Vec<&'static str> {
    let mut seen = Vec::new();
    let (first, last) = (stay[0], stay[stay.len() - 1]);
    let staying = stay.iter().filter(|stays| **stays).count();
    if staying == stay.len() {
        return if some { vec!["a bin keeps all its blocks, others lose some"] } else { seen };
    }
    if staying == 0 {
        return vec!["a bin loses all its blocks"];
    }
    if !first && staying + 1 == stay.len() {
        seen.push("a bin loses its first alone");
    }
    if !first && !stay[1] {
        seen.push("a bin loses its first and the next, and keeps others");
    }
    if first && !last {
        seen.push("a bin keeps its first and loses its last");
    }
    if first && last {
        seen.push("a bin keeps its first and its last and loses others");
    }
    let behind = stay.iter().skip_while(|stays| **stays).skip_while(|stays| !**stays);
    if behind.skip_while(|stays| **stays).next().is_some() {
        seen.push("a bin loses blocks with one that stays between them");
    }
    seen
}
