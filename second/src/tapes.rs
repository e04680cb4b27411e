//! Random tapes. They are steered by the state that they lead to, so that requests meet bins,
//! neighbours and edges instead of being refused most of the time.

use crate::branches::Counts;
use crate::images::tall_size;
use crate::random::Random;
use crate::rules;
use crate::state::{allowed, Layout, State};
use crate::tape::{Request, LONGEST};

/// What one tape is like.
struct Style {
    n: usize,
    /// Sizes of blocks, drawn again and again so that bins fill with equals.
    blocks: Vec<usize>,
    records: usize,
    /// In how many of 100 requests a size or an offset is chosen for its edge.
    odd: usize,
}

struct Maker<'a> {
    random: Random,
    style: Style,
    state: Option<State>,
    tape: Vec<u8>,
    counts: &'a mut Counts,
}

/// The numbered random tape of a seed; branches taken are added to the counts.
pub fn random_tape(seed: u64, number: u64, counts: &mut Counts) -> Vec<u8> {
    let mut random = Random::of_case(seed, 2, number);
    let style = random_style(&mut random, number);
    let mut maker = Maker { random, style, state: None, tape: Vec::new(), counts };
    maker.make();
    maker.tape
}

fn random_style(random: &mut Random, number: u64) -> Style {
    let (low, high) = match number % 8 {
        0 | 1 => (176, 400),
        2 | 3 => (600, 2_000),
        4 | 5 => (1_200, 5_000),
        6 => (4_000, 20_000),
        _ => (20_000, 65_536),
    };
    let n = if random.chance(1, 16) { 65_536 } else { random.between(low, high) / 8 * 8 };
    let records = match random.below(100) {
        0..=9 => random.between(1, 6),
        10..=59 => random.between(7, 80),
        60..=94 => random.between(80, 400),
        95..=98 => random.between(400, 2_000),
        _ => 7_000,
    };
    let odd = *random.pick(&[2, 10, 10, 30]);
    if number % 16 == 15 {
        return tall_style(random, records, odd);
    }
    Style { n, blocks: random_sizes(random, n), records, odd }
}

/// A great pool and few sizes, whose bins reach the highest levels.
fn tall_style(random: &mut Random, records: usize, odd: usize) -> Style {
    let n = 65_536 - 8 * random.below(500);
    let tall = [2_048, 4_096, 8_192, 16_384, 32_768];
    let mut blocks: Vec<usize> = (0..random.between(1, 3)).map(|_| *random.pick(&tall)).collect();
    blocks.extend([72, 80]);
    Style { n, blocks, records, odd }
}

/// A handful of block sizes, most of them large, some of them sums of others.
fn random_sizes(random: &mut Random, n: usize) -> Vec<usize> {
    let greatest = match random.below(4) {
        0 => 80,
        1 => 160,
        2 => (n / 8).max(160),
        _ => (n / 3).max(160),
    };
    let count = random.between(1, 6);
    let mut sizes: Vec<usize> = (0..count).map(|_| random.between(9, greatest / 8) * 8).collect();
    if random.chance(1, 4) {
        // Bins that reach many levels.
        sizes = (0..count + 1).map(|_| tall_size(random, (n / 4).max(72))).collect();
    }
    for _ in 0..random.below(3) {
        let sum = *random.pick(&sizes) + *random.pick(&sizes);
        sizes.push(sum);
    }
    for _ in 0..random.below(4) {
        sizes.push(random.between(1, 8) * 8);
    }
    sizes
}

impl Maker<'_> {
    fn make(&mut self) {
        if self.random.chance(1, 20) {
            self.before_any_pool();
        }
        let n = self.style.n as u32;
        let layout = *self.random.pick(&Layout::BOTH);
        self.step(Request::LayOut(layout, n));
        // Runs of mostly taking and mostly giving back, to fill the pool and to scatter it.
        let mut takes = 90;
        let mut change = self.random.between(5, 60);
        for record in 0..self.style.records {
            if self.tape.len() + 16 > LONGEST {
                break;
            }
            if record == change {
                takes = *self.random.pick(&[15, 30, 50, 60, 80]);
                change += self.random.between(5, 60);
            }
            let request = self.request(takes);
            let granted = self.step(request);
            if !granted && takes > 60 && self.random.chance(1, 3) {
                takes = 30;
            }
        }
        self.step(Request::Figures);
        if self.random.chance(1, 10) {
            self.unreadable_end();
        }
    }

    fn before_any_pool(&mut self) {
        for _ in 0..self.random.between(1, 4) {
            let request = match self.random.below(4) {
                0 => self.refused_pool(),
                1 => Request::Take(*self.random.pick(&[0, 1, 100])),
                2 => Request::GiveBack(*self.random.pick(&[0, 4, 172])),
                _ => Request::Figures,
            };
            self.step(request);
        }
    }

    fn refused_pool(&mut self) -> Request {
        let any = self.random.word() | 1;
        let lengths = [0, 8, 168, 175, 177, 180, 65_535, 65_544, 1 << 31, u32::MAX - 7, any];
        let n = *self.random.pick(&lengths);
        Request::LayOut(*self.random.pick(&Layout::BOTH), n)
    }

    /// Another kind, or a body cut short; sometimes with more bytes behind it.
    fn unreadable_end(&mut self) {
        let short_body = self.random.chance(1, 2);
        if short_body {
            self.tape.push(*self.random.pick(&[1, 2, 3, 5]));
            let body = self.random.below(4);
            let bytes = self.random.bytes(body);
            self.tape.extend(bytes);
        } else {
            let kind = *self.random.pick(&[0, 6, 7, 49, 76, 77, 128, 255]);
            self.tape.push(kind);
            let more = self.random.below(12);
            let bytes = self.random.bytes(more);
            self.tape.extend(bytes);
        }
        self.counts.unreadable(short_body);
    }

    /// Appends the request and follows it; false where a take or a give-back is refused.
    fn step(&mut self, request: Request) -> bool {
        request.append_to(&mut self.tape);
        let outcome = match (&self.state, request) {
            (Some(state), Request::Take(s)) => Some(rules::take(state, s)),
            (Some(state), Request::GiveBack(offset)) => Some(rules::give_back(state, offset)),
            _ => None,
        };
        self.counts.observe(self.state.as_ref(), request, outcome.as_ref());
        match (request, outcome) {
            (Request::LayOut(layout, n), _) if allowed(n as usize) => {
                self.state = Some(State::fresh(n as usize, layout))
            }
            (_, Some(Ok((after, _)))) => self.state = Some(after),
            (_, Some(Err(_))) => return false,
            _ => {}
        }
        true
    }

    fn request(&mut self, takes: usize) -> Request {
        let state = self.state.as_ref().expect("a pool is laid out by now");
        let random = &mut self.random;
        match random.below(200) {
            0..=9 => return Request::Figures,
            10 => return self.refused_pool(),
            11 if random.chance(1, 3) => {
                let layout = *random.pick(&Layout::BOTH);
                return Request::LayOut(layout, self.style.n as u32);
            }
            _ => {}
        }
        let odd = random.chance(self.style.odd, 100);
        let held: Vec<usize> = state.held().map(|block| block.start).collect();
        if random.chance(takes, 100) || (held.is_empty() && !odd) {
            let size = if odd { edge_size(state, random) } else { None };
            let block = *random.pick(&self.style.blocks);
            Request::Take(size.unwrap_or_else(|| payload_of(block, random)))
        } else if odd {
            Request::GiveBack(odd_offset(state, random))
        } else {
            let any = *random.pick(&held) as u32 + 4;
            let joining = if random.chance(1, 6) { joining_offset(state, random) } else { None };
            let edge = if random.chance(1, 8) { edge_offset(state) } else { None };
            Request::GiveBack(joining.or(edge).unwrap_or(any))
        }
    }
}

/// Some payload that needs exactly this block.
pub fn payload_of(block: usize, random: &mut Random) -> u32 {
    (block as u32 - 4).saturating_sub(random.below(8) as u32).max(1)
}

/// A size on an edge of the grant rule in this state.
pub fn edge_size(state: &State, random: &mut Random) -> Option<u32> {
    let bins: Vec<usize> = state.large_bins.keys().copied().collect();
    let remainder = state.remainder_size();
    let block = match random.below(16) {
        0 => return Some(0),
        1 => return Some(*random.pick(&[u32::MAX, u32::MAX - 3, u32::MAX - 11, 1 << 31, 65_536])),
        2 => return Some(random.word() >> random.below(32)),
        3 => random.between(1, 9) * 8,
        4 | 5 => remainder,
        6 => remainder.checked_sub(8)?,
        7 => remainder.checked_sub(16)?,
        _ if bins.is_empty() => return None,
        8 => *random.pick(&bins),
        9 => random.pick(&bins).checked_sub(72)?,
        10 => random.pick(&bins).checked_sub(64)?,
        11 => random.pick(&bins) - 8,
        // The rest of a split then has the size of another bin, or falls between two.
        12 | 13 => random.pick(&bins).checked_sub(*random.pick(&bins))?,
        _ => {
            let bin = *random.pick(&bins);
            random.between(9, bin / 8) * 8
        }
    };
    if block < 8 {
        return None;
    }
    Some(payload_of(block, random))
}

/// A held large block between two free ones, where there is one.
pub fn joining_offset(state: &State, random: &mut Random) -> Option<u32> {
    let between = state.low.windows(3).filter(|three| !three[0].held && !three[2].held);
    let starts: Vec<usize> = between.map(|three| three[1].start).collect();
    if starts.is_empty() {
        return None;
    }
    Some(*random.pick(&starts) as u32 + 4)
}

/// Of the block at E, which goes home, where there is one.
pub fn edge_offset(state: &State) -> Option<u32> {
    state.high.first().filter(|block| block.held).map(|block| block.start as u32 + 4)
}

/// An offset that is mostly no held payload's: starts, middles, free blocks, remainder, outside.
pub fn odd_offset(state: &State, random: &mut Random) -> u32 {
    let blocks: Vec<_> = state.blocks().copied().collect();
    let free: Vec<_> = state.free().copied().collect();
    let remainder = state.remainder_start();
    let offset = match random.below(12) {
        0 => random.word() as usize,
        1 => *random.pick(&[0, 4, 8, 96, 100, 164, 168, 171]),
        2 => state.n + random.below(16),
        3 => remainder + 4,
        4 => random.between(remainder, state.remainder_end() - 1),
        5 => *random.pick(&[u32::MAX as usize, u32::MAX as usize - 3, 1 << 31, 65_536, 65_540]),
        6 | 7 if !free.is_empty() => random.pick(&free).start + 4,
        8 if !free.is_empty() => random.pick(&free).start + random.below(8),
        9 if !blocks.is_empty() => random.pick(&blocks).start,
        10 if !blocks.is_empty() => {
            let block = *random.pick(&blocks);
            block.start + random.below(block.size)
        }
        _ => random.below(state.n),
    };
    offset as u32
}
