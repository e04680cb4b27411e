//! Random sound images: a well-formed state, reached by requests or put together directly, written
//! over random bytes, so that every byte that is not governed is a stranger's.

use crate::layout;
use crate::random::Random;
use crate::rules::{self, Refusal};
use crate::state::{Bins, Block, Layout, State, LEAST_LARGE, LEAST_REMAINDER, LOW_RUN};
use crate::tapes::{edge_size, payload_of};

type GiveBack = fn(&State, u32) -> Result<(State, usize), Refusal>;

pub fn random_image(random: &mut Random, n: usize) -> (State, Vec<u8>) {
    let state = of_either_layout(random, n);
    let old = random.bytes(n);
    let bytes = layout::write(&state, &old);
    (state, bytes)
}

/// The same by the rule before request 2026-06.
pub fn random_old_image(random: &mut Random, n: usize) -> (State, Vec<u8>) {
    let state = old_state(random, n);
    let old = random.bytes(n);
    let bytes = layout::write(&state, &old);
    (state, bytes)
}

pub fn of_either_layout(random: &mut Random, n: usize) -> State {
    let mut state =
        if random.chance(1, 4) { many_bins(random, n) } else { random_state(random, n) };
    state.layout = *random.pick(&Layout::BOTH);
    state
}

/// Of layout 1.
pub fn random_state(random: &mut Random, n: usize) -> State {
    if random.chance(1, 3) {
        reached(random, n, rules::give_back)
    } else {
        let state = put_together(random, n);
        with_edge(random, state)
    }
}

/// Where free blocks stand at E they go home, or the first of them is held after all.
fn with_edge(random: &mut Random, mut state: State) -> State {
    match state.high.first_mut() {
        Some(block) if !block.held && random.chance(1, 2) => {
            block.held = true;
            state.small_bins = bins_in_any_order(random, &state.high);
            state
        }
        _ => rules::bring_in(&state).0,
    }
}

/// A state by the rule before request 2026-06, of either layout: mostly with free blocks at E.
pub fn old_state(random: &mut Random, n: usize) -> State {
    let mut state = match random.below(3) {
        0 => reached(random, n, rules::give_back_old),
        1 => put_together(random, n),
        _ => put_together_below_free(random, n),
    };
    state.layout = *random.pick(&Layout::BOTH);
    state
}

/// With a run of free blocks from E on, few or many.
fn put_together_below_free(random: &mut Random, n: usize) -> State {
    let mut state = put_together(random, n);
    let most = *random.pick(&[1, 2, 5, 20, state.high.len()]);
    let count = random.below(most.min(state.high.len()) + 1);
    state.high[..count].iter_mut().for_each(|block| block.held = false);
    state.small_bins = bins_in_any_order(random, &state.high);
    state
}

pub fn random_pool_size(random: &mut Random) -> usize {
    let (low, high) = match random.below(100) {
        0..=39 => (176, 600),
        40..=84 => (600, 2_500),
        85..=97 => (2_500, 8_000),
        _ => (8_000, 30_000),
    };
    random.between(low / 8, high / 8) * 8
}

/// Block sizes, few of them, so that bins hold several blocks.
fn few_sizes(random: &mut Random, least: usize, greatest: usize) -> Vec<usize> {
    let count = *random.pick(&[1, 2, 3, 4, 5, 8]);
    (0..count).map(|_| random.between(least / 8, greatest.max(least) / 8) * 8).collect()
}

/// By takes and give-backs; the way back is that of the rule in force, or of the old one.
fn reached(random: &mut Random, n: usize, give_back: GiveBack) -> State {
    let mut state = State::fresh(n, Layout::One);
    let top = *random.pick(&[80, 160, n / 4]);
    let mut sizes = few_sizes(random, 72, top);
    sizes.extend(few_sizes(random, 8, 64));
    for step in 0..random.between(5, 200) {
        let held: Vec<usize> = state.held().map(|block| block.start + 4).collect();
        let takes = if step % 40 < 20 { 80 } else { 40 };
        let outcome = if held.is_empty() || random.chance(takes, 100) {
            let block = *random.pick(&sizes);
            let edge = if random.chance(1, 8) { edge_size(&state, random) } else { None };
            let s = edge.unwrap_or_else(|| payload_of(block, random));
            rules::take(&state, s)
        } else {
            give_back(&state, *random.pick(&held) as u32)
        };
        if let Ok((after, _)) = outcome {
            state = after;
        }
    }
    state
}

/// By the old rule: whatever the blocks at E are.
fn put_together(random: &mut Random, n: usize) -> State {
    let room = n - LOW_RUN - LEAST_REMAINDER;
    let low_room = if random.chance(1, 4) { room } else { random.below(room / 8 + 1) * 8 };
    let mut state = State::fresh(n, Layout::One);
    state.low = low_run(random, low_room);
    let left = room - (state.remainder_start() - LOW_RUN);
    let high_room = if random.chance(1, 3) { left } else { random.below(left + 1) };
    state.high = high_run(random, n, high_room);
    state.large_bins = bins_in_any_order(random, &state.low);
    state.small_bins = bins_in_any_order(random, &state.high);
    state
}

/// Free blocks of many sizes, whose bins reach many levels, with held ones between them; of layout 1.
pub fn many_bins(random: &mut Random, n: usize) -> State {
    let room = n - LOW_RUN - LEAST_REMAINDER;
    let count = random.between(2, 60);
    let held = *random.pick(&[72, 80, 128]);
    let free = few_tall_sizes(random, room / 2, count);
    let sizes = |i: usize| if i % 2 == 0 { free[i % free.len()] } else { held };
    let sizes: Vec<usize> = (0..2 * count).map(sizes).collect();
    let mut state = State::fresh(n, Layout::One);
    state.low = alternating(&sizes, room);
    state.large_bins = bins_in_any_order(random, &state.low);
    state
}

fn few_tall_sizes(random: &mut Random, most: usize, count: usize) -> Vec<usize> {
    let different = random.between(1, count);
    (0..different).map(|_| tall_size(random, most)).collect()
}

/// The size of a large block that reaches a level that was drawn, or near it.
pub fn tall_size(random: &mut Random, most: usize) -> usize {
    let unit = 8 << random.below(13);
    let most_times = *random.pick(&[1, 3, 9, 40]);
    let times = random.between(1, most_times);
    let size = (unit * times).max((LEAST_LARGE + unit - 1) / unit * unit);
    if size <= most {
        size
    } else {
        LEAST_LARGE + 8 * random.below(8)
    }
}

fn low_run(random: &mut Random, room: usize) -> Vec<Block> {
    let top = *random.pick(&[72, 96, 200, 144, 1_000]);
    let mut sizes = few_sizes(random, 72, top.min(room.max(72)));
    for _ in 0..random.below(4) {
        // Sums of sizes, so that the rest of a split meets blocks of its own size.
        let sum = *random.pick(&sizes) + *random.pick(&sizes);
        sizes.push(sum);
    }
    let mut run: Vec<Block> = Vec::new();
    let mut start = LOW_RUN;
    loop {
        let size = *random.pick(&sizes);
        if start + size > LOW_RUN + room {
            break;
        }
        let below_held = run.last().map_or(true, |block| block.held);
        run.push(Block { start, size, held: !below_held || random.chance(1, 2) });
        start += size;
    }
    if let Some(last) = run.last_mut() {
        // The one just below R is held; sometimes it takes all the room that is left.
        last.held = true;
        if random.chance(1, 5) {
            last.size += LOW_RUN + room - start;
        }
    }
    run
}

fn high_run(random: &mut Random, n: usize, room: usize) -> Vec<Block> {
    let top = *random.pick(&[8, 24, 64]);
    let sizes = few_sizes(random, 8, top);
    let mut run = Vec::new();
    let mut start = n;
    loop {
        let size = *random.pick(&sizes);
        if start < n - room + size {
            break;
        }
        start -= size;
        run.insert(0, Block { start, size, held: random.chance(1, 2) });
    }
    run
}

pub fn bins_in_any_order(random: &mut Random, run: &[Block]) -> Bins {
    let mut bins = Bins::new();
    for block in run.iter().filter(|block| !block.held) {
        bins.entry(block.size).or_default().push(block.start);
    }
    for starts in bins.values_mut() {
        random.shuffle(starts);
    }
    bins
}

/// A great pool of either layout with blocks whose bins reach the high levels, held and free; often
/// one of them reaches the thirteenth.
pub fn tall_state(random: &mut Random) -> State {
    let n = 65_536 - 8 * random.below(1_000);
    let room = n - LOW_RUN - LEAST_REMAINDER;
    let few = [2_048, 4_096, 4_096, 8_192, 2_048 * random.between(1, 7), 72, 72, 128, 96];
    let mut sizes: Vec<usize> = (0..random.between(6, 60)).map(|_| *random.pick(&few)).collect();
    if random.chance(4, 5) {
        let place = random.below(3);
        sizes.insert(place, 32_768);
    }
    let mut state = State::fresh(n, *random.pick(&Layout::BOTH));
    state.low = alternating(&sizes, room);
    let mut below_held = true;
    for block in &mut state.low {
        block.held = !below_held || random.chance(1, 2);
        below_held = block.held;
    }
    if let Some(last) = state.low.last_mut() {
        last.held = true;
    }
    state.large_bins = bins_in_any_order(random, &state.low);
    state
}

/// A pool of n bytes that is full of held 8-byte blocks.
pub fn full_of_small(n: usize) -> State {
    let mut state = State::fresh(n, Layout::One);
    let first = LOW_RUN + LEAST_REMAINDER;
    state.high = (first..n).step_by(8).map(|start| Block { start, size: 8, held: true }).collect();
    state
}

/// How many there are of `extreme_states`.
pub const EXTREMES: usize = 16;

/// Sizes of free blocks whose bins reach all thirteen levels, in no order; every second is held.
const TALL: [usize; 20] = [
    128, 72, 32_768, 72, 256, 72, 8_192, 72, 16_384, 72, 512, 72, 4_096, 72, 1_024, 72, 384, 72,
    176, 72,
];

/// Pools of the greatest size at their limits, each in both layouts: most small blocks, most large
/// blocks, most bins, tallest bins.
pub fn extreme_states(random: &mut Random) -> Vec<State> {
    let n = crate::state::GREATEST_POOL;
    let room = n - LOW_RUN - LEAST_REMAINDER;
    let mut states = Vec::new();
    let mut small = full_of_small(n);
    small.high.iter_mut().enumerate().for_each(|(i, block)| block.held = i % 3 == 0);
    let mut all_but_the_edge = small.clone();
    all_but_the_edge.high.iter_mut().for_each(|block| block.held = false);
    all_but_the_edge.high[0].held = true;
    let equal = vec![72; room / 72];
    let rising: Vec<usize> = (0..222).map(|i| if i % 2 == 0 { 72 + 4 * i } else { 72 }).collect();
    let mut mixed = rising.clone();
    random.shuffle(&mut mixed);
    states.push(small);
    states.push(all_but_the_edge);
    for sizes in [equal, rising, mixed] {
        let mut state = State::fresh(n, Layout::One);
        state.low = alternating(&sizes, room);
        states.push(state);
    }
    let mut whole = State::fresh(n, Layout::One);
    whole.low.push(Block { start: LOW_RUN, size: room, held: true });
    states.push(whole);
    states.push(State::fresh(n, Layout::One));
    let mut tall = State::fresh(n, Layout::One);
    tall.low = alternating(&TALL, room);
    states.push(tall);
    for state in &mut states {
        state.large_bins = bins_in_any_order(random, &state.low);
        state.small_bins = bins_in_any_order(random, &state.high);
    }
    let second = states.iter().map(|state| State { layout: Layout::Two, ..state.clone() });
    let second: Vec<State> = second.collect();
    states.extend(second);
    states
}

/// How many there are of `extreme_old_states`.
pub const OLD_EXTREMES: usize = 6;

/// Pools of the greatest size by the rule before request 2026-06, each in both layouts, full of small
/// blocks that are free from E on: all of one size, up to one in the middle, of all sizes.
pub fn extreme_old_states(random: &mut Random) -> Vec<State> {
    let n = crate::state::GREATEST_POOL;
    let mut one_size = full_of_small(n);
    one_size.high.iter_mut().for_each(|block| block.held = false);
    let mut to_the_middle = one_size.clone();
    let middle = to_the_middle.high.len() / 2;
    to_the_middle.high[middle].held = true;
    let mut all_sizes = State::fresh(n, Layout::One);
    let mut start = n;
    while start > LOW_RUN + LEAST_REMAINDER + 64 {
        let size = 8 * random.between(1, 8);
        start -= size;
        all_sizes.high.push(Block { start, size, held: start > n - 2_000 && random.chance(1, 4) });
    }
    all_sizes.high.reverse();
    let mut states = vec![one_size, to_the_middle, all_sizes];
    for state in &mut states {
        state.small_bins = bins_in_any_order(random, &state.high);
    }
    let second = states.iter().map(|state| State { layout: Layout::Two, ..state.clone() });
    let second: Vec<State> = second.collect();
    states.extend(second);
    states
}

/// Free and held in turn, the last one held.
fn alternating(sizes: &[usize], room: usize) -> Vec<Block> {
    let mut run: Vec<Block> = Vec::new();
    let mut start = LOW_RUN;
    for (index, size) in sizes.iter().enumerate() {
        if start + size <= LOW_RUN + room {
            run.push(Block { start, size: *size, held: index % 2 == 1 });
            start += size;
        }
    }
    for index in 1..run.len() {
        run[index].held |= !run[index - 1].held;
    }
    if let Some(last) = run.last_mut() {
        last.held = true;
    }
    run
}
