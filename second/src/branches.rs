//! Which branches of the rules a request takes, seen from the state before it and the answer, and
//! counted for each layout by itself. Random tapes are only worth their number if none of these
//! stays at 0.

use crate::rules::{largest_grant, need, Refusal};
use crate::state::{
    Bins, Block, Layout, State, GREATEST_POOL, GREATEST_SMALL, LEAST_LARGE, LOW_RUN,
};
use crate::tally::{expanded, Tally};
use crate::tape::Request;

pub type Outcome = Result<(State, usize), Refusal>;

/// Places in a list or in the chain, in the order in which names are listed.
const PLACES: [&str; 4] = ["alone", "first", "in the middle", "last"];

/// Where an offset can lie that is no held payload's.
pub const NOT_HELD: [&str; 9] = [
    "past n",
    "below 168",
    "4 past R",
    "elsewhere in the remainder",
    "4 past a free small block",
    "4 past a free large block",
    "elsewhere in a free block",
    "a held block's start",
    "inside a held block",
];

/// How many levels a bin reaches, in the order in which names are listed.
const HEIGHTS: [&str; 6] = ["1", "2", "3 or 4", "5 to 8", "9 to 12", "13"];

/// Every branch in the order of the table; `@` stands for each of the four places, `~` for each
/// place of an offset, `#` for each height.
const NAMES: [&str; 97] = [
    "lay out: the first pool",
    "lay out: over an old pool",
    "lay out: refused 1, no pool yet",
    "lay out: refused 1, the old pool stays",
    "take: refused 1, no pool yet",
    "give back: refused 1, no pool yet",
    "figures: refused 1, no pool yet",
    "figures: the largest grant is a small bin's",
    "figures: the largest grant is a large bin's",
    "figures: the largest grant is the remainder's",
    "figures: there is no grant",
    "record refused 7: other kind",
    "record refused 7: short body",
    "take: refused 3",
    "take small: first of its bin, alone",
    "take small: first of its bin, others behind it",
    "take small: cut from the remainder",
    "take small: cut from the remainder, 8 left",
    "take small: refused 4, a larger small bin has blocks",
    "take small: refused 4, a free large block would hold it",
    "take small: refused 4, only the remainder is free",
    "take large: exact bin, first alone",
    "take large: exact bin, second of two",
    "take large: exact bin, second of three or more",
    "take large: exact bin emptied, in the chain @",
    "take large: split of a bin's first",
    "take large: split of the second of two",
    "take large: split of the second of three or more",
    "take large: split bin emptied, in the chain @",
    "take large: split leaves exactly 72",
    "take large: rest enters an empty bin, in the chain @",
    "take large: rest enters a bin of one",
    "take large: rest enters a bin of two or more",
    "take large: split, a bin below b + 72 passed over",
    "take large: remainder's low end, no free large block",
    "take large: remainder's low end, smaller bins only",
    "take large: remainder's low end, a bin below b + 72 passed over",
    "take large: remainder's low end, 8 left",
    "take large: refused 4, a free large block is larger (the 144 rule)",
    "take large: refused 4, scattered room would do",
    "take large: refused 4, the remainder is exactly b",
    "take large: refused 4, all free room is too little",
    "take large: refused 4, b above 65,536",
    "give back: refused 5, ~",
    "give back small: into an empty bin",
    "give back small: into a bin with blocks",
    "give back small: at E, alone, a held block above",
    "give back small: at E, alone, no block above",
    "give back small: at E, with one above",
    "give back small: at E, with several above, up to a held block",
    "give back small: at E, with several above, up to n",
    "give back small: at E, a bin is emptied",
    "give back small: at E, a bin's first goes and another becomes first",
    "give back small: at E, blocks go from behind a bin's first",
    "give back small: at E, a bin keeps all its blocks",
    "give back large: no neighbour free",
    "give back large: below free",
    "give back large: above free",
    "give back large: both free",
    "give back large: below stands in its bin @",
    "give back large: above stands in its bin @",
    "give back large: both in one bin, below then above, first and second",
    "give back large: both in one bin, below then above, further on",
    "give back large: both in one bin, above then below, first and second",
    "give back large: both in one bin, above then below, further on",
    "give back large: both in one bin, others between",
    "give back large: both are their whole bin",
    "give back large: both head neighbouring bins, below's smaller",
    "give back large: both head neighbouring bins, above's smaller",
    "give back large: both are neighbouring bins, below's smaller",
    "give back large: both are neighbouring bins, above's smaller",
    "give back large: single block enters an empty bin, in the chain @",
    "give back large: joined run enters an empty bin, in the chain @",
    "give back large: single block enters a bin of one",
    "give back large: single block enters a bin of two or more",
    "give back large: joined run enters a bin with blocks",
    "give back large: into the remainder, none free below",
    "give back large: into the remainder, a free block below",
    "index: a bin of height # opens",
    "index: a bin of height # is emptied",
    "index: in a bin of height 1 the second becomes first",
    "index: in a bin of height 2 the second becomes first",
    "index: in a bin of height 3 or 4 the second becomes first",
    "index: in a bin of height 5 to 8 the second becomes first",
    "index: in a bin of height 9 to 12 the second becomes first",
    "index: where one stood, the bins before it differ from level to level",
    "index: where one stood, the bins behind it differ from level to level",
    "index: where one opens, the bins before it differ from level to level",
    "index: where one opens, the bins behind it differ from level to level",
    "index: the highest level is left without a bin",
    "index: the highest level gets its first bin",
    "give back large: both head bins that are neighbours at several levels, below's smaller",
    "give back large: both head bins that are neighbours at several levels, above's smaller",
    "give back large: both head bins that are neighbours above level 1 alone, below's smaller",
    "give back large: both head bins that are neighbours above level 1 alone, above's smaller",
    "give back large: both head bins, below alone in it and above not, neighbours above level 1",
    "give back large: both head bins, above alone in it and below not, neighbours above level 1",
];

/// Branches that a call takes on a pool image, where there is no tape and always a pool.
pub fn of_a_pool(name: &str) -> bool {
    let calls = ["take", "give back", "figures", "index"];
    calls.iter().any(|call| name.starts_with(call)) && !name.contains("no pool yet")
}

/// Whether a branch can be taken in a layout. What is met before there is a pool, or where a record
/// cannot be read, is counted for layout 1.
pub fn of_layout(name: &str, layout: Layout) -> bool {
    let levels = name.starts_with("index") || name.contains("level");
    let no_layout = name.contains("no pool yet") && !name.starts_with("lay out");
    match layout {
        Layout::One => !levels,
        Layout::Two => !no_layout && !name.starts_with("record"),
    }
}

/// How often a branch was taken, in layout 1 and in layout 2.
pub type Taken = [u64; 2];

pub struct Counts {
    tallies: [Tally; 2],
    /// Of the pool, or of the laying out, that is counted.
    layout: Layout,
}

impl Counts {
    pub fn new() -> Counts {
        let mut names = NAMES.iter().map(|name| name.to_string()).collect();
        for (mark, words) in [('@', &PLACES[..]), ('~', &NOT_HELD), ('#', &HEIGHTS)] {
            names = expanded(names, mark, words);
        }
        let tallies = [Tally::new(names.clone()), Tally::new(names)];
        Counts { tallies, layout: Layout::One }
    }

    fn add(&mut self, name: &str) {
        self.tallies[self.layout as usize - 1].add(name);
    }

    fn add_at(&mut self, name: &str, place: usize) {
        self.add(&name.replace('@', PLACES[place]));
    }

    /// Name and counts in the order of the list.
    pub fn table(&self) -> Vec<(String, Taken)> {
        let both = self.tallies[0].table().into_iter().zip(self.tallies[1].table());
        both.map(|((name, one), (_, two))| (name, [one, two])).collect()
    }

    pub fn unreadable(&mut self, short_body: bool) {
        self.layout = Layout::One;
        let name = if short_body { "short body" } else { "other kind" };
        self.add(&format!("record refused 7: {}", name));
    }

    /// Counts one request; `outcome` is there for takes and give-backs on a pool.
    pub fn observe(&mut self, before: Option<&State>, request: Request, outcome: Option<&Outcome>) {
        self.layout = match request {
            Request::LayOut(layout, _) => layout,
            _ => before.map_or(Layout::One, |state| state.layout),
        };
        if let (Some(before), Some(Ok((after, _))), Layout::Two) = (before, outcome, self.layout) {
            self.index(before, after);
        }
        match (before, request, outcome) {
            (Some(state), Request::Take(s), Some(outcome)) => self.take(state, s, outcome),
            (Some(state), Request::GiveBack(offset), Some(outcome)) => {
                self.give_back(state, offset, outcome)
            }
            (_, Request::LayOut(_, n), _) => self.lay_out(before.is_some(), n),
            (None, Request::Take(_), _) => self.add("take: refused 1, no pool yet"),
            (None, Request::GiveBack(_), _) => self.add("give back: refused 1, no pool yet"),
            (None, Request::Figures, _) => self.add("figures: refused 1, no pool yet"),
            (Some(state), Request::Figures, _) => self.figures(state),
            (_, other, _) => panic!("{:?} on a pool has an outcome", other),
        }
    }

    fn figures(&mut self, state: &State) {
        let largest = largest_grant(state);
        let size = need(largest as u32);
        self.add(match largest {
            0 => "figures: there is no grant",
            _ if state.small_bins.contains_key(&size) => {
                "figures: the largest grant is a small bin's"
            }
            _ if state.large_bins.contains_key(&size) => {
                "figures: the largest grant is a large bin's"
            }
            _ => "figures: the largest grant is the remainder's",
        });
    }

    fn lay_out(&mut self, pool: bool, n: u32) {
        self.add(match (crate::state::allowed(n as usize), pool) {
            (true, false) => "lay out: the first pool",
            (true, true) => "lay out: over an old pool",
            (false, false) => "lay out: refused 1, no pool yet",
            (false, true) => "lay out: refused 1, the old pool stays",
        });
    }

    fn take(&mut self, before: &State, s: u32, outcome: &Outcome) {
        let size = need(s);
        match outcome {
            Err(Refusal::SizeZero) => self.add("take: refused 3"),
            Err(_) if size <= GREATEST_SMALL => self.small_refused(before, size),
            Err(_) => self.large_refused(before, size),
            Ok(_) if size <= GREATEST_SMALL => self.small_taken(before, size),
            Ok((after, _)) => self.large_taken(before, after, size),
        }
    }

    fn small_taken(&mut self, before: &State, size: usize) {
        match before.small_bins.get(&size).map(Vec::len) {
            Some(1) => self.add("take small: first of its bin, alone"),
            Some(_) => self.add("take small: first of its bin, others behind it"),
            None if before.remainder_size() == size + 8 => {
                self.add("take small: cut from the remainder, 8 left")
            }
            None => self.add("take small: cut from the remainder"),
        }
    }

    fn small_refused(&mut self, before: &State, size: usize) {
        let larger_bin = before.small_bins.range(size + 1..).next().is_some();
        if larger_bin {
            self.add("take small: refused 4, a larger small bin has blocks");
        }
        if !before.large_bins.is_empty() {
            self.add("take small: refused 4, a free large block would hold it");
        }
        if before.free().next().is_none() {
            self.add("take small: refused 4, only the remainder is free");
        }
    }

    fn large_refused(&mut self, before: &State, size: usize) {
        let greatest = before.large_bins.keys().next_back().copied().unwrap_or(0);
        if size > GREATEST_POOL {
            self.add("take large: refused 4, b above 65,536");
        } else if greatest > size {
            self.add("take large: refused 4, a free large block is larger (the 144 rule)");
        } else if before.remainder_size() == size {
            self.add("take large: refused 4, the remainder is exactly b");
        } else if before.free_word() + 4 >= size {
            self.add("take large: refused 4, scattered room would do");
        } else {
            self.add("take large: refused 4, all free room is too little");
        }
    }

    fn large_taken(&mut self, before: &State, after: &State, size: usize) {
        let bins = &before.large_bins;
        if let Some(starts) = bins.get(&size) {
            self.add(match starts.len() {
                1 => "take large: exact bin, first alone",
                2 => "take large: exact bin, second of two",
                _ => "take large: exact bin, second of three or more",
            });
            if starts.len() == 1 {
                let place = chain_place(bins, size);
                self.add_at("take large: exact bin emptied, in the chain @", place);
            }
        } else if let Some((whole, _)) = bins.range(size + LEAST_LARGE..).next() {
            self.split(before, after, size, *whole);
        } else {
            self.low_end(before, size);
        }
    }

    fn split(&mut self, before: &State, after: &State, size: usize, whole: usize) {
        let bins = &before.large_bins;
        self.add(match bins[&whole].len() {
            1 => "take large: split of a bin's first",
            2 => "take large: split of the second of two",
            _ => "take large: split of the second of three or more",
        });
        if bins[&whole].len() == 1 {
            self.add_at("take large: split bin emptied, in the chain @", chain_place(bins, whole));
        }
        if whole == size + LEAST_LARGE {
            self.add("take large: split leaves exactly 72");
        }
        if passed_over(bins, size) {
            self.add("take large: split, a bin below b + 72 passed over");
        }
        match after.large_bins[&(whole - size)].len() {
            1 => {
                let place = chain_place(&after.large_bins, whole - size);
                self.add_at("take large: rest enters an empty bin, in the chain @", place);
            }
            2 => self.add("take large: rest enters a bin of one"),
            _ => self.add("take large: rest enters a bin of two or more"),
        }
    }

    fn low_end(&mut self, before: &State, size: usize) {
        let bins = &before.large_bins;
        self.add(if bins.is_empty() {
            "take large: remainder's low end, no free large block"
        } else if passed_over(bins, size) {
            "take large: remainder's low end, a bin below b + 72 passed over"
        } else {
            "take large: remainder's low end, smaller bins only"
        });
        if before.remainder_size() == size + 8 {
            self.add("take large: remainder's low end, 8 left");
        }
    }

    fn give_back(&mut self, before: &State, offset: u32, outcome: &Outcome) {
        let after = match outcome {
            Ok((after, _)) => after,
            Err(_) => {
                let place = place_not_held(before, offset as usize);
                return self.add(&format!("give back: refused 5, {}", place));
            }
        };
        let start = offset as usize - 4;
        if start == before.remainder_end() {
            return self.homes(before, after);
        }
        if let Some(block) = before.high.iter().find(|block| block.start == start) {
            let empty = !before.small_bins.contains_key(&block.size);
            let bin = if empty { "an empty bin" } else { "a bin with blocks" };
            return self.add(&format!("give back small: into {}", bin));
        }
        let index = before.low.iter().position(|block| block.start == start).unwrap();
        let below = index.checked_sub(1).map(|i| before.low[i]).filter(|block| !block.held);
        let above = before.low.get(index + 1).copied().filter(|block| !block.held);
        self.neighbours(&before.large_bins, below, above);
        self.run_goes(before, after, index, below, above);
    }

    /// A small block that stood at E is home, and those above it that were free.
    fn homes(&mut self, before: &State, after: &State) {
        let above = before.high.len() - after.high.len() - 1;
        self.add(match (above, after.high.is_empty()) {
            (0, false) => "give back small: at E, alone, a held block above",
            (0, true) => "give back small: at E, alone, no block above",
            (1, _) => "give back small: at E, with one above",
            (_, false) => "give back small: at E, with several above, up to a held block",
            (_, true) => "give back small: at E, with several above, up to n",
        });
        for (size, starts) in &before.small_bins {
            self.add(match after.small_bins.get(size) {
                None => "give back small: at E, a bin is emptied",
                Some(stay) if stay[0] != starts[0] => {
                    "give back small: at E, a bin's first goes and another becomes first"
                }
                Some(stay) if stay.len() < starts.len() => {
                    "give back small: at E, blocks go from behind a bin's first"
                }
                Some(_) => "give back small: at E, a bin keeps all its blocks",
            });
        }
    }

    /// What became of the index: bins that opened, bins that were emptied, other first blocks.
    fn index(&mut self, before: &State, after: &State) {
        for (size, starts) in &before.large_bins {
            match after.large_bins.get(size) {
                None => {
                    self.add(&format!("index: a bin of height {} is emptied", tall(*size)));
                    self.levels_around(&before.large_bins, *size, "stood");
                }
                Some(others) if !others.contains(&starts[0]) => {
                    let name = format!("index: in a bin of height {}", tall(*size));
                    self.add(&format!("{} the second becomes first", name));
                }
                Some(_) => {}
            }
        }
        for size in after.large_bins.keys().filter(|size| !before.large_bins.contains_key(size)) {
            self.add(&format!("index: a bin of height {} opens", tall(*size)));
            self.levels_around(&after.large_bins, *size, "opens");
        }
        let (was, is) = (highest(&before.large_bins), highest(&after.large_bins));
        if was > is {
            self.add("index: the highest level is left without a bin");
        } else if was < is {
            self.add("index: the highest level gets its first bin");
        }
    }

    /// Whether the bins next to one at the levels that it reaches are not all the same.
    fn levels_around(&mut self, bins: &Bins, size: usize, what: &str) {
        let levels = 1..=Layout::Two.height(size);
        let reach = |level: usize| move |other: &&usize| Layout::Two.height(**other) >= level;
        let before = levels.clone().map(|j| bins.range(..size).map(|b| b.0).rev().find(reach(j)));
        let behind = levels.map(|j| bins.range(size + 1..).map(|b| b.0).find(reach(j)));
        let (before, behind): (Vec<_>, Vec<_>) = (before.collect(), behind.collect());
        for (side, bins) in [("before", before), ("behind", behind)] {
            if bins.iter().any(|bin| *bin != bins[0]) {
                let name = format!("index: where one {}, the bins {} it differ", what, side);
                self.add(&format!("{} from level to level", name));
            }
        }
    }

    fn neighbours(&mut self, bins: &Bins, below: Option<Block>, above: Option<Block>) {
        self.add(match (below, above) {
            (None, None) => "give back large: no neighbour free",
            (Some(_), None) => "give back large: below free",
            (None, Some(_)) => "give back large: above free",
            (Some(_), Some(_)) => "give back large: both free",
        });
        if let Some(block) = below {
            self.add_at("give back large: below stands in its bin @", list_place(bins, block));
        }
        if let Some(block) = above {
            self.add_at("give back large: above stands in its bin @", list_place(bins, block));
        }
        if let (Some(below), Some(above)) = (below, above) {
            if below.size == above.size {
                self.both_in_one_bin(&bins[&below.size], below, above);
            } else {
                self.both_in_two_bins(bins, below, above);
            }
        }
    }

    fn both_in_one_bin(&mut self, starts: &[usize], below: Block, above: Block) {
        let i = starts.iter().position(|start| *start == below.start).unwrap();
        let j = starts.iter().position(|start| *start == above.start).unwrap();
        if starts.len() == 2 {
            self.add("give back large: both are their whole bin");
        }
        if i.abs_diff(j) > 1 {
            return self.add("give back large: both in one bin, others between");
        }
        let order = if i < j { "below then above" } else { "above then below" };
        let place = if i.min(j) == 0 { "first and second" } else { "further on" };
        self.add(&format!("give back large: both in one bin, {}, {}", order, place));
    }

    fn both_in_two_bins(&mut self, bins: &Bins, below: Block, above: Block) {
        let (small, large) = (below.size.min(above.size), below.size.max(above.size));
        let neighbours = bins.range(small + 1..large).next().is_none();
        let heads = bins[&below.size][0] == below.start && bins[&above.size][0] == above.start;
        let whole = bins[&below.size].len() == 1 && bins[&above.size].len() == 1;
        let which = if below.size < above.size { "below's" } else { "above's" };
        if neighbours && whole {
            self.add(&format!("give back large: both are neighbouring bins, {} smaller", which));
        } else if neighbours && heads {
            let name = "give back large: both head neighbouring bins";
            self.add(&format!("{}, {} smaller", name, which));
        }
        if heads && self.layout == Layout::Two {
            self.both_in_the_index(bins, below.size, above.size);
        }
    }

    /// Of two bins that both lose their first block, at which levels one follows the other.
    fn both_in_the_index(&mut self, bins: &Bins, below: usize, above: usize) {
        let (small, large) = (below.min(above), below.max(above));
        let between = bins.range(small + 1..large).map(|(size, _)| Layout::Two.height(*size));
        let hidden = between.max().unwrap_or(0);
        let shared = Layout::Two.height(small).min(Layout::Two.height(large));
        let which = if below < above { "below's" } else { "above's" };
        let name = "give back large: both head bins";
        if hidden == 0 && shared > 1 {
            let levels = "that are neighbours at several levels";
            self.add(&format!("{} {}, {} smaller", name, levels, which));
        }
        if hidden > 0 && shared > hidden {
            let levels = "that are neighbours above level 1 alone";
            self.add(&format!("{} {}, {} smaller", name, levels, which));
        }
        let alone = |size: usize| bins[&size].len() == 1;
        if shared > hidden && shared > 1 && alone(below) != alone(above) {
            let (one, other) = if alone(below) { ("below", "above") } else { ("above", "below") };
            let levels = "neighbours above level 1";
            self.add(&format!("{}, {} alone in it and {} not, {}", name, one, other, levels));
        }
    }

    fn run_goes(
        &mut self,
        before: &State,
        after: &State,
        index: usize,
        below: Option<Block>,
        above: Option<Block>,
    ) {
        if index + 1 == before.low.len() {
            let with = if below.is_some() { "a free block below" } else { "none free below" };
            return self.add(&format!("give back large: into the remainder, {}", with));
        }
        let others = below.map_or(0, |block| block.size) + above.map_or(0, |block| block.size);
        let size = before.low[index].size + others;
        let what = if others == 0 { "single block" } else { "joined run" };
        let place = chain_place(&after.large_bins, size);
        match (after.large_bins[&size].len(), others) {
            (1, _) => {
                let name = format!("give back large: {} enters an empty bin, in the chain @", what);
                self.add_at(&name, place)
            }
            (2, 0) => self.add("give back large: single block enters a bin of one"),
            (_, 0) => self.add("give back large: single block enters a bin of two or more"),
            _ => self.add("give back large: joined run enters a bin with blocks"),
        }
    }
}

/// Where an offset lies that is not 4 past the start of a held block: one of `NOT_HELD`.
pub fn place_not_held(state: &State, offset: usize) -> &'static str {
    let start = offset.wrapping_sub(4);
    let (r, e) = (state.remainder_start(), state.remainder_end());
    let around = state.blocks().find(|block| block.start <= offset && offset < block.end());
    match around {
        _ if offset >= state.n => "past n",
        _ if offset < LOW_RUN => "below 168",
        _ if start == r => "4 past R",
        _ if r <= offset && offset < e => "elsewhere in the remainder",
        Some(block) if !block.held && start == block.start => {
            if block.size <= GREATEST_SMALL {
                "4 past a free small block"
            } else {
                "4 past a free large block"
            }
        }
        Some(block) if !block.held => "elsewhere in a free block",
        Some(block) if offset == block.start => "a held block's start",
        _ => "inside a held block",
    }
}

/// A bin that would hold `size` but may not be split for it.
fn passed_over(bins: &Bins, size: usize) -> bool {
    bins.range(size + 1..size + LEAST_LARGE).next().is_some()
}

/// The height of a bin of layout 2, as it is listed.
fn tall(size: usize) -> &'static str {
    match Layout::Two.height(size) {
        1 => HEIGHTS[0],
        2 => HEIGHTS[1],
        3 | 4 => HEIGHTS[2],
        5..=8 => HEIGHTS[3],
        9..=12 => HEIGHTS[4],
        _ => HEIGHTS[5],
    }
}

/// The highest level of layout 2 that has a bin, 0 where there is none.
fn highest(bins: &Bins) -> usize {
    bins.keys().map(|size| Layout::Two.height(*size)).max().unwrap_or(0)
}

fn place(index: usize, length: usize) -> usize {
    match (index, length) {
        (_, 1) => 0,
        (0, _) => 1,
        (index, length) if index + 1 == length => 3,
        _ => 2,
    }
}

fn chain_place(bins: &Bins, size: usize) -> usize {
    place(bins.range(..size).count(), bins.len())
}

fn list_place(bins: &Bins, block: Block) -> usize {
    let starts = &bins[&block.size];
    place(starts.iter().position(|start| *start == block.start).unwrap(), starts.len())
}
