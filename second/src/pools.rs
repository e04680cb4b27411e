//! Small pools as text of the prover's language, for the test that the paper's definitions write
//! the same bytes: each a state, and what this program writes of it over a patterned buffer.

use crate::images::random_state;
use crate::layout;
use crate::random::Random;
use crate::rules;
use crate::state::{Bins, Block, Layout, State, LEAST_LARGE, LEAST_REMAINDER, LOW_RUN};

const SIZES: [usize; 12] = [176, 192, 256, 344, 368, 400, 416, 440, 464, 480, 496, 512];
/// The sizes of the bins of two pools of layout 2, of heights 2 and 3, and of 1 and 5.
const INDEXED: [&[usize]; 2] = [&[80, 96], &[72, 128]];
/// From this length on a pool has room for a free large block and a free small one.
const ROOMY: usize = 344;

pub fn text(seed: u64) -> String {
    let mut random = Random::new(seed);
    let mut states: Vec<State> = SIZES.iter().map(|n| state_of(&mut random, *n)).collect();
    states.extend(INDEXED.iter().map(|sizes| indexed(sizes)));
    let mut out = String::from(HEAD);
    for (index, state) in states.iter().enumerate() {
        pool(&mut out, index + 1, state);
    }
    list(&mut out, "states : List State", "states", "state", states.len());
    list(&mut out, "pools : List (List ℕ)", "pools", "pool", states.len());
    out
}

const HEAD: &str = "\
-- Fourteen small pools, written by the second program (`second pools`): blocks and lists, and every byte of them over a patterned buffer. The
-- last two have layout 2.
use mathlib.Core.List.{List, [], ◌∷◌}
use Prim.Native.Nat.{ℕ}
use Rattle.words.specs.Choice.{if=}
use Rattle.paper.specs.Blocks.{held, free, block, State}
";

/// A random state of n bytes; with room for it, one that has a small and a large bin in use.
fn state_of(random: &mut Random, n: usize) -> State {
    loop {
        let state = random_state(random, n);
        let in_use = !state.small_bins.is_empty() && !state.large_bins.is_empty();
        if in_use || n < ROOMY {
            return state;
        }
    }
}

/// A pool of layout 2 with a free block of each of these sizes, each below a held one, and the
/// least remainder.
fn indexed(sizes: &[usize]) -> State {
    let large: usize = sizes.iter().map(|size| size + LEAST_LARGE).sum();
    let mut state = State::fresh(LOW_RUN + large + LEAST_REMAINDER, Layout::Two);
    let mut offsets = Vec::new();
    for size in sizes {
        for block in [*size, LEAST_LARGE] {
            let (after, offset) =
                rules::take(&state, block as u32 - 4).expect("there is room for every block");
            state = after;
            offsets.push(offset);
        }
    }
    for offset in offsets.into_iter().step_by(2) {
        state = rules::give_back(&state, offset as u32).expect("each was taken").0;
    }
    state
}

pub fn pattern(n: usize) -> Vec<u8> {
    (0..n).map(|i| ((7 * i + 3) % 256) as u8).collect()
}

fn pool(out: &mut String, number: usize, state: &State) {
    let rest = state.remainder_end() - state.remainder_start();
    let written = layout::write(state, &pattern(state.n));
    let bytes: Vec<String> = written.iter().map(|byte| byte.to_string()).collect();
    out.push_str(&format!("\nabbrev pub state{} : State\nstate{} =\n", number, number));
    out.push_str(&format!(
        "    record {{ top = {}; low = {}; rest = {}; high = {}; bins = λ z. {} }}\n",
        state.layout.levels(),
        blocks(&state.low),
        rest,
        blocks(&state.high),
        bins(&state.small_bins, &state.large_bins)
    ));
    out.push_str(&format!("\nabbrev pub pool{} : List ℕ\npool{} =\n", number, number));
    for line in bytes.chunks(32) {
        out.push_str(&format!("    {} ∷\n", line.join(" ∷ ")));
    }
    out.push_str("    []\n");
}

fn blocks(run: &[Block]) -> String {
    let kind = |block: &Block| if block.held { "held" } else { "free" };
    let each: Vec<String> =
        run.iter().map(|block| format!("block {} {} ∷ ", block.size, kind(block))).collect();
    each.concat() + "[]"
}

fn bins(small: &Bins, large: &Bins) -> String {
    let mut text = String::from("[]");
    for (size, starts) in small.iter().chain(large.iter()).rev() {
        let each: Vec<String> = starts.iter().map(|start| format!("{} ∷ ", start)).collect();
        text = format!("if= z {} ({}[]) ({})", size, each.concat(), text);
    }
    text
}

fn list(out: &mut String, signature: &str, name: &str, item: &str, count: usize) {
    out.push_str(&format!("\nabbrev pub {}\n{} = ", signature, name));
    for number in 1..=count {
        out.push_str(&format!("{}{} ∷ ", item, number));
    }
    out.push_str("[]\n");
}
