//! The state as bytes. Writing lays all governed words of a state over the old bytes; reading
//! rebuilds the one state that could be meant and then holds every governed word against the bytes.

use crate::state::{allowed, Bins, Block, Layout, State, FALSE_BLOCK, GREATEST_SMALL, LOW_RUN};

/// Places of words, from a block's start or from the pool's first byte.
pub const FREE_WORD: usize = 0;
pub const R_WORD: usize = 16;
pub const E_WORD: usize = 24;
pub const PREVIOUS: usize = 4;
pub const NEXT: usize = 8;
pub const LEVEL: usize = 12;
/// The index word of the lowest level, and the only one in layout 1.
pub const CHAIN: usize = 64;
/// A free small block's only link.
pub const SMALL_NEXT: usize = 4;

/// The index word of a level, counted from 1; each higher one stands 4 bytes before.
pub fn index_word(level: usize) -> usize {
    CHAIN + 4 - 4 * level
}

/// The 8-byte word that names the first block of a small bin.
pub fn small_bin_word(size: usize) -> usize {
    24 + size
}

pub fn head(size: usize, below_not_free: bool, held: bool) -> u32 {
    4 * size as u32 + 2 * below_not_free as u32 + held as u32
}

/// A signed distance, as the 32-bit word that stores it.
pub fn distance(from: usize, to: usize) -> u32 {
    (to as i64 - from as i64) as i32 as u32
}

pub fn get4(bytes: &[u8], at: usize) -> u32 {
    u32::from_le_bytes([bytes[at], bytes[at + 1], bytes[at + 2], bytes[at + 3]])
}

pub fn get8(bytes: &[u8], at: usize) -> u64 {
    get4(bytes, at) as u64 + ((get4(bytes, at + 4) as u64) << 32)
}

pub fn put4(bytes: &mut [u8], at: usize, value: u32) {
    bytes[at..at + 4].copy_from_slice(&value.to_le_bytes());
}

pub fn put8(bytes: &mut [u8], at: usize, value: u64) {
    bytes[at..at + 8].copy_from_slice(&value.to_le_bytes());
}

/// Offset and value of a 4-byte word; every governed byte lies in exactly one of them.
pub type Word = (usize, u32);

pub fn governed(state: &State) -> Vec<Word> {
    let mut words = Vec::new();
    opening_words(state, &mut words);
    let index = index_words(state.layout, &state.firsts());
    false_block_zeros(&index, &mut words);
    words.extend(index);
    head_words(state, &mut words);
    small_list_words(&state.small_bins, &mut words);
    large_list_words(&state.large_bins, &mut words);
    words
}

fn opening_words(state: &State, words: &mut Vec<Word>) {
    let mut values =
        vec![state.free_word(), FALSE_BLOCK, state.remainder_start(), state.remainder_end()];
    for size in (8..=GREATEST_SMALL).step_by(8) {
        let first = state.small_bins.get(&size).and_then(|starts| starts.first());
        values.push(first.copied().unwrap_or(0));
    }
    for (index, value) in values.iter().enumerate() {
        words.push((8 * index, *value as u32));
        words.push((8 * index + 4, 0));
    }
}

/// The level word and the index words of the false block and of these first blocks, each given by
/// its start and its bin's size, in the order in which the index meets them. A word leads to the
/// next of them that reaches its level, and is 0 where none does.
pub fn index_words(layout: Layout, firsts: &[(usize, usize)]) -> Vec<Word> {
    let mut towers = vec![(FALSE_BLOCK, layout.levels())];
    towers.extend(firsts.iter().map(|(start, size)| (*start, layout.height(*size))));
    let mut words = Vec::new();
    for (place, (start, height)) in towers.iter().enumerate() {
        words.push((start + LEVEL, *height as u32));
        for level in 1..=*height {
            let next = towers[place + 1..].iter().find(|(_, other)| *other >= level);
            let value = next.map_or(0, |(to, _)| distance(*start, *to));
            words.push((start + index_word(level), value));
        }
    }
    words
}

/// What the index leaves of the false block is 0 and governed.
fn false_block_zeros(index: &[Word], words: &mut Vec<Word>) {
    let rest = (FALSE_BLOCK..LOW_RUN).step_by(4);
    let rest = rest.filter(|at| index.iter().all(|(there, _)| there != at));
    words.extend(rest.map(|at| (at, 0)));
}

fn head_words(state: &State, words: &mut Vec<Word>) {
    let mut below_not_free = true;
    for block in &state.low {
        let value = head(block.size, below_not_free, block.held);
        words.push((block.start, value));
        if !block.held {
            words.push((block.end() - 4, value));
        }
        below_not_free = block.held;
    }
    let remainder = head(state.remainder_size(), true, false);
    words.push((state.remainder_start(), remainder));
    for block in &state.high {
        words.push((block.start, head(block.size, true, block.held)));
    }
}

fn small_list_words(bins: &Bins, words: &mut Vec<Word>) {
    for starts in bins.values() {
        for (index, start) in starts.iter().enumerate() {
            let next = starts.get(index + 1).copied().unwrap_or(0);
            words.push((start + SMALL_NEXT, next as u32));
        }
    }
}

fn large_list_words(bins: &Bins, words: &mut Vec<Word>) {
    for starts in bins.values() {
        for (index, start) in starts.iter().enumerate() {
            let previous = index.checked_sub(1).map_or(*start, |before| starts[before]);
            let next = starts.get(index + 1).unwrap_or(start);
            words.push((start + PREVIOUS, distance(*start, previous)));
            words.push((start + NEXT, distance(*start, *next)));
        }
    }
}

/// The old bytes with all governed words of the state laid over them.
pub fn write(state: &State, old: &[u8]) -> Vec<u8> {
    let mut bytes = old.to_vec();
    for (at, value) in governed(state) {
        put4(&mut bytes, at, value);
    }
    bytes
}

/// The state that the bytes hold, or why they hold none.
pub fn read(bytes: &[u8]) -> Result<State, String> {
    let state = read_old(bytes)?;
    state.edge_fits()?;
    Ok(state)
}

/// The same by the rule before request 2026-06: a free block may stand at E.
pub fn read_old(bytes: &[u8]) -> Result<State, String> {
    if !allowed(bytes.len()) {
        return Err(format!("a pool of {} bytes is not allowed", bytes.len()));
    }
    let mut state = State::fresh(bytes.len(), layout_of(bytes)?);
    let start = place(bytes, R_WORD)?;
    let end = place(bytes, E_WORD)?;
    state.low = walk(bytes, LOW_RUN, start)?;
    state.high = walk(bytes, end, bytes.len())?;
    state.runs_fit()?;
    state.small_bins = small_lists(bytes, &state.high)?;
    state.large_bins = large_lists(bytes, &state.low)?;
    state.bins_fit()?;
    match governed(&state).iter().find(|(at, value)| get4(bytes, *at) != *value) {
        Some((at, value)) => {
            Err(format!("the word at {} is {} and should be {}", at, get4(bytes, *at), value))
        }
        None => Ok(state),
    }
}

/// The false block's level word tells the layouts apart.
fn layout_of(bytes: &[u8]) -> Result<Layout, String> {
    let levels = get4(bytes, FALSE_BLOCK + LEVEL);
    let found = Layout::BOTH.into_iter().find(|layout| layout.levels() == levels as usize);
    found.ok_or_else(|| format!("no layout has {} levels", levels))
}

/// An 8-byte word that has to be an offset in the pool or its end.
fn place(bytes: &[u8], at: usize) -> Result<usize, String> {
    let value = get8(bytes, at);
    if value <= bytes.len() as u64 {
        Ok(value as usize)
    } else {
        Err(format!("the word at {} leads out of the pool", at))
    }
}

/// Blocks end to end as their heads say. Flags other than `a` are left to the comparison.
fn walk(bytes: &[u8], from: usize, to: usize) -> Result<Vec<Block>, String> {
    if from > to || from % 8 != 0 || to % 8 != 0 {
        return Err(format!("no run of blocks goes from {} to {}", from, to));
    }
    let mut run = Vec::new();
    let mut at = from;
    while at < to {
        let word = get4(bytes, at);
        let size = (word / 32 * 8) as usize;
        if size == 0 || size > to - at {
            return Err(format!("the head at {} has size {}", at, size));
        }
        run.push(Block { start: at, size, held: word % 2 == 1 });
        at += size;
    }
    Ok(run)
}

fn block_at(run: &[Block], start: i64) -> Result<Block, String> {
    run.binary_search_by_key(&start, |block| block.start as i64)
        .map(|index| run[index])
        .map_err(|_| format!("a list leads to {}, where no block starts", start))
}

fn small_lists(bytes: &[u8], run: &[Block]) -> Result<Bins, String> {
    let mut bins = Bins::new();
    for size in (8..=GREATEST_SMALL).step_by(8) {
        let mut starts = Vec::new();
        let mut at = place(bytes, small_bin_word(size))? as i64;
        while at != 0 {
            let block = block_at(run, at)?;
            starts.push(block.start);
            stop_ring(&starts, run)?;
            at = get4(bytes, block.start + SMALL_NEXT) as i64;
        }
        if !starts.is_empty() {
            bins.insert(size, starts);
        }
    }
    Ok(bins)
}

/// Along the lowest level. Bins are filed by size; a level that does not rise, and all that stands
/// in the others, is then seen by the comparison.
fn large_lists(bytes: &[u8], run: &[Block]) -> Result<Bins, String> {
    let mut bins = Bins::new();
    let mut from = FALSE_BLOCK;
    loop {
        let step = get4(bytes, from + CHAIN) as i32;
        if step == 0 {
            return Ok(bins);
        }
        let first = block_at(run, from as i64 + step as i64)?;
        if bins.contains_key(&first.size) {
            return Err(format!("the chain meets bin {} twice", first.size));
        }
        bins.insert(first.size, large_list(bytes, run, first.start)?);
        from = first.start;
    }
}

fn large_list(bytes: &[u8], run: &[Block], first: usize) -> Result<Vec<usize>, String> {
    let mut starts = vec![first];
    let mut at = first;
    loop {
        let step = get4(bytes, at + NEXT) as i32;
        if step == 0 {
            return Ok(starts);
        }
        at = block_at(run, at as i64 + step as i64)?.start;
        starts.push(at);
        stop_ring(&starts, run)?;
    }
}

/// A list longer than its run of blocks must meet one of them twice.
fn stop_ring(starts: &[usize], run: &[Block]) -> Result<(), String> {
    if starts.len() > run.len() {
        return Err("a list closes into a ring".to_string());
    }
    Ok(())
}
