//! The pool as the paper sees it: blocks in address order and bins as ordered lists.
//! Nothing here knows of bytes; the remainder is what the two runs of blocks leave between them.

use std::collections::BTreeMap;

pub const FALSE_BLOCK: usize = 96;
pub const LOW_RUN: usize = 168;
pub const LEAST_LARGE: usize = 72;
pub const GREATEST_SMALL: usize = 64;
pub const LEAST_REMAINDER: usize = 8;
pub const LEAST_POOL: usize = 176;
pub const GREATEST_POOL: usize = 65_536;

pub fn allowed(n: usize) -> bool {
    n % 8 == 0 && (LEAST_POOL..=GREATEST_POOL).contains(&n)
}

/// How the bins are indexed (request 2026-04). Blocks, lists and every answer are the same in both.
#[derive(Clone, Copy, Debug, PartialEq, Eq)]
pub enum Layout {
    One = 1,
    Two = 2,
}

impl Layout {
    pub const BOTH: [Layout; 2] = [Layout::One, Layout::Two];

    pub fn number(self) -> u32 {
        self as u32
    }

    pub fn of_number(number: u32) -> Option<Layout> {
        Layout::BOTH.into_iter().find(|layout| layout.number() == number)
    }

    pub fn other(self) -> Layout {
        match self {
            Layout::One => Layout::Two,
            Layout::Two => Layout::One,
        }
    }

    /// How many levels the index has, all of which start at the false block.
    pub fn levels(self) -> usize {
        match self {
            Layout::One => 1,
            Layout::Two => 13,
        }
    }

    /// How many levels a bin of this size reaches: 1, and one more each time that size / 8 can be
    /// halved.
    pub fn height(self, size: usize) -> usize {
        1 + (1..self.levels()).take_while(|times| size % (8 << times) == 0).count()
    }
}

#[derive(Clone, Copy, Debug, PartialEq, Eq)]
pub struct Block {
    pub start: usize,
    pub size: usize,
    pub held: bool,
}

impl Block {
    pub fn end(&self) -> usize {
        self.start + self.size
    }
}

/// Size of the bin, then the starts of its blocks, first one first. A bin without blocks is absent.
pub type Bins = BTreeMap<usize, Vec<usize>>;

#[derive(Clone, Debug, PartialEq, Eq)]
pub struct State {
    pub n: usize,
    pub layout: Layout,
    /// Large blocks from 168 to R.
    pub low: Vec<Block>,
    /// Small blocks from E to n.
    pub high: Vec<Block>,
    pub small_bins: Bins,
    pub large_bins: Bins,
}

impl State {
    pub fn fresh(n: usize, layout: Layout) -> State {
        State {
            n,
            layout,
            low: Vec::new(),
            high: Vec::new(),
            small_bins: Bins::new(),
            large_bins: Bins::new(),
        }
    }

    /// R
    pub fn remainder_start(&self) -> usize {
        self.low.last().map_or(LOW_RUN, Block::end)
    }

    /// E
    pub fn remainder_end(&self) -> usize {
        self.high.first().map_or(self.n, |block| block.start)
    }

    pub fn remainder_size(&self) -> usize {
        self.remainder_end() - self.remainder_start()
    }

    pub fn blocks(&self) -> impl Iterator<Item = &Block> {
        self.low.iter().chain(self.high.iter())
    }

    pub fn held(&self) -> impl Iterator<Item = &Block> {
        self.blocks().filter(|block| block.held)
    }

    pub fn free(&self) -> impl Iterator<Item = &Block> {
        self.blocks().filter(|block| !block.held)
    }

    pub fn free_word(&self) -> usize {
        self.free().map(|block| block.size).sum::<usize>() + self.remainder_size() - 4
    }

    /// Start and size of each large bin's first block, smallest bin first.
    pub fn firsts(&self) -> Vec<(usize, usize)> {
        self.large_bins.iter().map(|(size, starts)| (starts[0], *size)).collect()
    }

    pub fn well_formed(&self) -> Result<(), String> {
        self.runs_fit()?;
        self.edge_fits()?;
        self.bins_fit()
    }

    /// E is n, or the block at E is held (request 2026-06).
    pub fn edge_fits(&self) -> Result<(), String> {
        match self.high.first() {
            Some(block) if !block.held => {
                Err(format!("a free block stands at E = {}", block.start))
            }
            _ => Ok(()),
        }
    }

    /// The pool's size and both runs of blocks are as the paper says; bins are not looked at.
    pub fn runs_fit(&self) -> Result<(), String> {
        if !allowed(self.n) {
            return Err(format!("a pool of {} bytes is not allowed", self.n));
        }
        end_to_end(&self.low, LOW_RUN)?;
        end_to_end(&self.high, self.remainder_end())?;
        if self.high.last().map_or(false, |block| block.end() != self.n) {
            return Err("the high run does not end at n".to_string());
        }
        if self.remainder_start() + LEAST_REMAINDER > self.remainder_end() {
            return Err("the remainder is below 8 bytes".to_string());
        }
        if let Some(block) = self.low.iter().find(|block| block.size < LEAST_LARGE) {
            return Err(format!("the block at {} in the low run is small", block.start));
        }
        if let Some(block) = self.high.iter().find(|block| block.size > GREATEST_SMALL) {
            return Err(format!("the block at {} in the high run is large", block.start));
        }
        if let Some(pair) = self.low.windows(2).find(|pair| !pair[0].held && !pair[1].held) {
            return Err(format!("free large blocks touch at {}", pair[1].start));
        }
        if self.low.last().map_or(false, |block| !block.held) {
            return Err("the block just below R is free".to_string());
        }
        Ok(())
    }

    /// Each free block stands in the bin of its size once, and nothing else stands in a bin.
    pub fn bins_fit(&self) -> Result<(), String> {
        bins_list(&self.small_bins, &self.high, "small")?;
        bins_list(&self.large_bins, &self.low, "large")
    }
}

fn end_to_end(run: &[Block], from: usize) -> Result<(), String> {
    let mut at = from;
    for block in run {
        if block.start != at {
            return Err(format!("the block at {} should start at {}", block.start, at));
        }
        if block.size == 0 || block.size % 8 != 0 {
            return Err(format!("the block at {} has size {}", block.start, block.size));
        }
        at = block.end();
    }
    Ok(())
}

/// Compared as sorted pairs, so that a block listed twice, nowhere or in a wrong bin shows.
fn bins_list(bins: &Bins, run: &[Block], kind: &str) -> Result<(), String> {
    if bins.values().any(|starts| starts.is_empty()) {
        return Err(format!("a {} bin without blocks is kept", kind));
    }
    let mut listed: Vec<(usize, usize)> = Vec::new();
    for (size, starts) in bins {
        listed.extend(starts.iter().map(|start| (*start, *size)));
    }
    listed.sort_unstable();
    let free = run.iter().filter(|block| !block.held);
    let wanted: Vec<(usize, usize)> = free.map(|block| (block.start, block.size)).collect();
    if listed == wanted {
        Ok(())
    } else {
        Err(format!("the {} bins do not list each free block once", kind))
    }
}
