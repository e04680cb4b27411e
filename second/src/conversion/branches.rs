//! Which branches a move takes, seen from the bytes before it and the answer, and counted for each
//! way by itself.

use crate::calls;
use crate::layout::{get4, index_word, LEVEL};
use crate::rules::Refusal;
use crate::state::{Layout, State, FALSE_BLOCK};
use crate::tally::{expanded, Tally};

const WAYS: [&str; 2] = ["from 1 to 2", "from 2 to 1"];
const OLD: [&str; 2] = ["1", "2"];
/// What a pool that is not sound may say by its false block's level word.
const SAID: [&str; 3] = ["layout 1", "layout 2", "no layout"];

/// Every branch in the order of the table; `@` stands for each way, `#` for each height, `%` for
/// each layout named as old, `~` for what the false block says.
const NAMES: [&str; 25] = [
    "@: no bin",
    "@: one bin",
    "@: several bins",
    "@: a bin of height #",
    "@: a block behind its bin's first",
    "@: all bins have height 1",
    "@: from the false block the levels lead to different bins",
    "@: from a first block the levels lead to different bins",
    "@: a first block is the last at some of its levels alone",
    "@: a level passes a bin over that is lower",
    "@: a level above the lowest leads to a lower address",
    "@: a level above the lowest leads to a higher address",
    "@: a word from level 2 to the height is not 0",
    "@: a word above the height is not 0",
    "@: the first move",
    "@: moved again at once",
    "@: moved again after calls",
    "refused 1, old is a layout",
    "refused 1, old is none either",
    "refused 8, old is 0",
    "refused 8, old is above 2",
    "refused 8, old is a layout in its low bits",
    "refused 8, the pool is not sound either",
    "refused 2, old is %, the false block says ~",
    "refused 13, old is %",
];

/// What became of the pool since it was moved.
#[derive(Clone, Copy, PartialEq, Eq)]
pub enum Since {
    Never,
    Moved,
    Changed,
}

pub struct Counts {
    tally: Tally,
}

impl Counts {
    pub fn new() -> Counts {
        let heights: Vec<String> = (1..=13).map(|height| height.to_string()).collect();
        let heights: Vec<&str> = heights.iter().map(String::as_str).collect();
        let mut names = NAMES.iter().map(|name| name.to_string()).collect();
        for (mark, words) in [('@', &WAYS[..]), ('#', &heights), ('%', &OLD), ('~', &SAID)] {
            names = expanded(names, mark, words);
        }
        Counts { tally: Tally::new(names) }
    }

    /// Name and count in the order of the list.
    pub fn table(&self) -> Vec<(String, u64)> {
        self.tally.table()
    }

    pub fn observe(
        &mut self,
        before: &[u8],
        old: u32,
        answer: &Result<usize, Refusal>,
        since: Since,
    ) {
        match answer {
            Ok(_) => {
                let state = calls::state_of(before).expect("only a sound pool is moved");
                self.moved(before, &state, since)
            }
            Err(refusal) => self.refused(before, old, *refusal),
        }
    }

    fn refused(&mut self, before: &[u8], old: u32, refusal: Refusal) {
        let layout = Layout::of_number(old);
        match refusal {
            Refusal::NotAllowed if layout.is_some() => self.tally.add("refused 1, old is a layout"),
            Refusal::NotAllowed => self.tally.add("refused 1, old is none either"),
            Refusal::NoLayout => {
                let which = if old == 0 { "0" } else { "above 2" };
                self.tally.add(&format!("refused 8, old is {}", which));
                if [old % 256, old % 65_536].iter().any(|low| Layout::of_number(*low).is_some()) {
                    self.tally.add("refused 8, old is a layout in its low bits");
                }
                if calls::inspect(before).is_err() {
                    self.tally.add("refused 8, the pool is not sound either");
                }
            }
            Refusal::NotSound => {
                let said = match get4(before, FALSE_BLOCK + LEVEL) {
                    1 => SAID[0],
                    13 => SAID[1],
                    _ => SAID[2],
                };
                let name = format!("refused 2, old is {}, the false block says {}", old, said);
                self.tally.add(&name);
            }
            _ => self.tally.add(&format!("refused {}, old is {}", refusal.number(), old)),
        }
    }

    fn moved(&mut self, before: &[u8], state: &State, since: Since) {
        let way = WAYS[state.layout as usize - 1];
        let mut add = |what: &str| self.tally.add(&format!("{}: {}", way, what));
        add(match since {
            Since::Never => "the first move",
            Since::Moved => "moved again at once",
            Since::Changed => "moved again after calls",
        });
        add(match state.large_bins.len() {
            0 => "no bin",
            1 => "one bin",
            _ => "several bins",
        });
        if state.large_bins.values().any(|starts| starts.len() > 1) {
            add("a block behind its bin's first");
        }
        // The false block first; the heights are those of layout 2 both ways.
        let mut towers = vec![(FALSE_BLOCK, Layout::Two.levels())];
        let firsts = state.firsts();
        towers.extend(firsts.iter().map(|(start, size)| (*start, Layout::Two.height(*size))));
        for height in 1..=13 {
            if towers[1..].iter().any(|tower| tower.1 == height) {
                add(&format!("a bin of height {}", height));
            }
        }
        if towers.len() > 1 && towers[1..].iter().all(|tower| tower.1 == 1) {
            add("all bins have height 1");
        }
        for what in seen(before, &towers) {
            add(what);
        }
    }
}

/// What the levels above the lowest meet, each once.
fn seen(before: &[u8], towers: &[(usize, usize)]) -> Vec<&'static str> {
    let mut seen = Vec::new();
    for (place, (start, height)) in towers.iter().enumerate() {
        let next = |level: usize| towers[place + 1..].iter().find(|tower| tower.1 >= level);
        let nexts: Vec<Option<usize>> =
            (1..=*height).map(|level| next(level).map(|tower| tower.0)).collect();
        let bins: Vec<usize> = nexts.iter().copied().flatten().collect();
        if bins.iter().any(|bin| *bin != bins[0]) {
            seen.push(match place {
                0 => "from the false block the levels lead to different bins",
                _ => "from a first block the levels lead to different bins",
            });
            seen.push("a level passes a bin over that is lower");
        }
        for bin in bins.iter().skip(1) {
            seen.push(match bin < start {
                true => "a level above the lowest leads to a lower address",
                false => "a level above the lowest leads to a higher address",
            });
        }
        if place == 0 {
            continue;
        }
        if !bins.is_empty() && bins.len() < nexts.len() {
            seen.push("a first block is the last at some of its levels alone");
        }
        for level in 2..=Layout::Two.levels() {
            if get4(before, start + index_word(level)) != 0 {
                seen.push(match level <= *height {
                    true => "a word from level 2 to the height is not 0",
                    false => "a word above the height is not 0",
                });
            }
        }
    }
    seen.sort_unstable();
    seen.dedup();
    seen
}
