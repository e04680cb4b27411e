//! How the state answers: the rules of granting, coming back, asking and counting.
//! Each rule works on a copy, so that a refusal cannot leave half a change behind.

use crate::state::{Bins, Block, Layout, State, GREATEST_SMALL, LEAST_LARGE, LEAST_REMAINDER};

#[derive(Clone, Copy, Debug, PartialEq, Eq)]
pub enum Refusal {
    NotAllowed = 1,
    NotSound = 2,
    SizeZero = 3,
    NoRoom = 4,
    NotHeld = 5,
    ListLength = 6,
    Unreadable = 7,
    NoLayout = 8,
    /// The next three are the piston bank's own.
    NoPiston = 10,
    NotARecord = 11,
    WrongBank = 12,
    OtherLayout = 13,
}

impl Refusal {
    pub fn number(self) -> u32 {
        self as u32
    }
}

/// The block that a payload of s bytes needs, worked out in 64 bits.
pub fn need(s: u32) -> usize {
    ((s as u64 + 4 + 7) / 8 * 8) as usize
}

/// The state after a take, and the payload offset. The copy is made where there is room, so that
/// a size that is refused costs little: the figures ask for many.
pub fn take(state: &State, s: u32) -> Result<(State, usize), Refusal> {
    if s == 0 {
        return Err(Refusal::SizeZero);
    }
    let size = need(s);
    let taken =
        if size <= GREATEST_SMALL { take_small(state, size) } else { take_large(state, size) };
    taken.map(|(after, start)| (after, start + 4)).ok_or(Refusal::NoRoom)
}

fn take_small(state: &State, size: usize) -> Option<(State, usize)> {
    if let Some(start) = state.small_bins.get(&size).map(|starts| starts[0]) {
        let mut after = state.clone();
        leave(&mut after.small_bins, size, start);
        block_mut(&mut after.high, start).held = true;
        return Some((after, start));
    }
    if state.remainder_size() < size + LEAST_REMAINDER {
        return None;
    }
    let start = state.remainder_end() - size;
    let mut after = state.clone();
    after.high.insert(0, Block { start, size, held: true });
    Some((after, start))
}

fn take_large(state: &State, size: usize) -> Option<(State, usize)> {
    if let Some(start) = state.large_bins.get(&size).map(|starts| used(starts)) {
        let mut after = state.clone();
        leave(&mut after.large_bins, size, start);
        block_mut(&mut after.low, start).held = true;
        return Some((after, start));
    }
    let larger = state.large_bins.range(size + LEAST_LARGE..).next();
    if let Some((whole, start)) = larger.map(|(whole, starts)| (*whole, used(starts))) {
        let mut after = state.clone();
        split(&mut after, start, whole, size);
        return Some((after, start));
    }
    if state.remainder_size() < size + LEAST_REMAINDER {
        return None;
    }
    let start = state.remainder_start();
    let mut after = state.clone();
    after.low.push(Block { start, size, held: true });
    Some((after, start))
}

/// The second block of a bin where there is one, else the first.
fn used(starts: &[usize]) -> usize {
    starts[1.min(starts.len() - 1)]
}

/// The low `size` bytes become held, the rest a free block of its own.
fn split(state: &mut State, start: usize, whole: usize, size: usize) {
    leave(&mut state.large_bins, whole, start);
    let index = index_of(&state.low, start);
    let rest = Block { start: start + size, size: whole - size, held: false };
    state.low[index] = Block { start, size, held: true };
    state.low.insert(index + 1, rest);
    enter(&mut state.large_bins, rest.size, rest.start);
}

/// The state after a give-back, and the payload bytes.
pub fn give_back(state: &State, offset: u32) -> Result<(State, usize), Refusal> {
    let (mut after, payload) = give_back_old(state, offset)?;
    if payload + 4 <= GREATEST_SMALL {
        go_home(&mut after);
    }
    Ok((after, payload))
}

/// The same by the rule before request 2026-06: no small block is ever joined. Pools stored under
/// it are made by this.
pub fn give_back_old(state: &State, offset: u32) -> Result<(State, usize), Refusal> {
    let block = held_block(state, offset)?;
    let mut after = state.clone();
    if block.size <= GREATEST_SMALL {
        block_mut(&mut after.high, block.start).held = false;
        after.small_bins.entry(block.size).or_default().insert(0, block.start);
    } else {
        give_back_large(&mut after, block.start);
    }
    Ok((after, block.size - 4))
}

/// As long as the block at E is free, it leaves its bin and joins the remainder; how many did.
fn go_home(state: &mut State) -> usize {
    let count = state.high.iter().take_while(|block| !block.held).count();
    for block in state.high.drain(..count) {
        leave(&mut state.small_bins, block.size, block.start);
    }
    count
}

/// The state after bringing in one that follows the old rule, and how many blocks went home.
pub fn bring_in(state: &State) -> (State, usize) {
    let mut after = state.clone();
    let count = go_home(&mut after);
    (after, count)
}

fn give_back_large(state: &mut State, start: usize) {
    let mut index = index_of(&state.low, start);
    let mut run = state.low[index];
    run.held = false;
    if index + 1 < state.low.len() && !state.low[index + 1].held {
        let above = state.low.remove(index + 1);
        leave(&mut state.large_bins, above.size, above.start);
        run.size += above.size;
    }
    if index > 0 && !state.low[index - 1].held {
        let below = state.low.remove(index - 1);
        leave(&mut state.large_bins, below.size, below.start);
        run = Block { start: below.start, size: below.size + run.size, held: false };
        index -= 1;
    }
    if index + 1 == state.low.len() {
        state.low.pop();
    } else {
        state.low[index] = run;
        enter(&mut state.large_bins, run.size, run.start);
    }
}

/// Second place, or first where the bin was empty.
fn enter(bins: &mut Bins, size: usize, start: usize) {
    let starts = bins.entry(size).or_default();
    let place = 1.min(starts.len());
    starts.insert(place, start);
}

fn leave(bins: &mut Bins, size: usize, start: usize) {
    let starts = bins.get_mut(&size).expect("a free block has a bin");
    starts.retain(|other| *other != start);
    if starts.is_empty() {
        bins.remove(&size);
    }
}

fn index_of(run: &[Block], start: usize) -> usize {
    run.binary_search_by_key(&start, |block| block.start).expect("a listed block stands in its run")
}

fn block_mut(run: &mut [Block], start: usize) -> &mut Block {
    let index = index_of(run, start);
    &mut run[index]
}

/// The state after the move to the other layout (request 2026-05). Blocks and the order of every
/// bin are no matter of the layout, so nothing else is to be done.
pub fn convert(state: &State, old: Layout) -> Result<State, Refusal> {
    if state.layout != old {
        return Err(Refusal::OtherLayout);
    }
    Ok(State { layout: old.other(), ..state.clone() })
}

/// The held block whose payload starts at the offset.
pub fn held_block(state: &State, offset: u32) -> Result<Block, Refusal> {
    let found = state.held().find(|block| block.start + 4 == offset as usize);
    found.copied().ok_or(Refusal::NotHeld)
}

/// The greatest payload size that take grants, found by asking it for one size after the other;
/// 0 where it grants none. A block for a payload of n bytes does not fit into the pool.
pub fn largest_grant(state: &State) -> usize {
    let sizes = 1..=state.n as u32;
    sizes.rev().find(|s| take(state, *s).is_ok()).unwrap_or(0) as usize
}

pub fn figures(state: &State) -> [usize; 7] {
    [
        state.held().count(),
        state.held().map(|block| block.size).sum(),
        state.high.iter().filter(|block| !block.held).count(),
        state.low.iter().filter(|block| !block.held).count(),
        state.remainder_size(),
        state.free_word(),
        largest_grant(state),
    ]
}

pub const CLASSES: usize = 53;

pub fn class_size(k: usize) -> usize {
    (4 + k % 4) << (k / 4 + 1)
}

/// The least class whose size is at least the payload.
pub fn class_of(payload: usize) -> usize {
    (0..CLASSES).find(|k| class_size(*k) >= payload).expect("a pool's payload is below 64K")
}

pub fn class_counts(state: &State) -> [u32; CLASSES] {
    let mut counts = [0; CLASSES];
    for block in state.held() {
        counts[class_of(block.size - 4)] += 1;
    }
    counts
}
