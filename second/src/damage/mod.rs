//! Damaged images: each sort of damage starts from a sound image and breaks (or only seems to
//! break) one rule, keeping the others where it can. Whether the result is sound is never assumed.

mod blocks;
mod chain;
mod ends;
mod index;
mod lists;
mod words;

use crate::images::{bins_in_any_order, random_image, random_old_image};
use crate::layout::{self, distance, get8, put4, put8, FREE_WORD, NEXT, PREVIOUS};
use crate::random::Random;
use crate::state::{Block, State, LOW_RUN};

/// A sound image on its way to being damaged.
pub struct Patient {
    state: State,
    bytes: Vec<u8>,
}

/// Nothing where the image lacks what the damage needs.
type Sort = fn(&mut Patient, &mut Random) -> Option<()>;

pub const SORTS: [(&str, Sort); 67] = [
    ("bit flipped in a governed word", words::bit_flipped),
    ("governed word changed", words::word_changed),
    ("governed words swapped", words::words_swapped),
    ("links swapped", words::links_swapped),
    ("only ungoverned bytes changed", words::ungoverned_changed),
    ("small list closes on itself", lists::small_ring),
    ("large list closes on itself", lists::large_ring),
    ("ring apart from a small bin's first", lists::small_ring_apart),
    ("ring apart from a large bin's first", lists::large_ring_apart),
    ("free small block listed nowhere", lists::small_nowhere),
    ("free large block listed nowhere", lists::large_nowhere),
    ("small block listed in two bins", lists::small_twice),
    ("large block listed in two bins", lists::large_twice),
    ("block in another bin", lists::wrong_bin),
    ("chain skips a bin", chain::chain_skips),
    ("chain order wrong", chain::chain_order),
    ("chain closes on itself", chain::chain_ring),
    ("bin in two pieces of the chain", chain::chain_pieces),
    ("chain to a second block", chain::chain_to_second),
    ("a flag turned", blocks::held_turned),
    ("held block made free with all its words", blocks::made_free),
    ("free block made held with all its words", blocks::made_held),
    ("P flag turned", words::below_turned),
    ("footer changed", words::footer_changed),
    ("free word off", words::free_word_off),
    ("R moved", ends::start_moved),
    ("R moved with the words for it", ends::start_moved_well),
    ("E moved", ends::end_moved),
    ("E moved with the words for it", ends::end_moved_well),
    ("block at E made free with all its words", ends::edge_freed),
    ("run of blocks at E made free with all their words", ends::edge_run_freed),
    ("free block cut from the remainder's end", ends::edge_cut),
    ("high half of an opening word", words::high_half),
    ("second opening word not 96", words::second_word),
    ("level word wrong", words::level_changed),
    ("false block's reserved word", words::false_reserved),
    ("two free large blocks touch", blocks::two_free_touch),
    ("block below R free", blocks::free_below_remainder),
    ("size not a multiple of 8", words::size_bits),
    ("small block in the low run", blocks::small_in_low),
    ("large block in the high run", blocks::large_in_high),
    ("held block swallows held ones", blocks::swallow_held),
    ("held block swallows a free one", blocks::swallow_free),
    ("large list member that is no start", lists::false_member),
    ("the same in place of a true member", lists::false_member_instead),
    ("small list member that is no start", lists::false_small_member),
    ("the same in place of a true small member", lists::false_small_member_instead),
    ("one link led elsewhere", chain::link_led),
    ("link to the false block, R or 0", chain::link_to_special),
    ("small bin's word out of place", words::small_bin_word_off),
    ("remainder gone", ends::remainder_gone),
    ("n not allowed or not this pool's", ends::other_length),
    ("bytes at random", ends::random_bytes),
    ("the other layout's level word", index::other_layout),
    ("converted by half", index::half_converted),
    ("height one off", index::height_off),
    ("a level more than the height, with all words", index::too_tall),
    ("a level less than the height, with all words", index::too_low),
    ("reserved word above the height", index::above_the_height),
    ("a level skips a bin", index::level_skips),
    ("a level's order wrong", index::level_order),
    ("a level closes on itself", index::level_ring),
    ("a level through a lower bin", index::level_to_lower),
    ("a level through a second block", index::level_to_second),
    ("one index word off", index::word_off),
    ("index words of one block swapped", index::words_of_a_tower_swapped),
    ("a level above all bins used", index::empty_level_used),
];

pub struct Damaged {
    pub sort: &'static str,
    pub bytes: Vec<u8>,
    /// A payload offset of the image before the damage, so that calls aim at something.
    pub offset: u32,
}

/// What makes a sound image of so many bytes.
type Make = fn(&mut Random, usize) -> (State, Vec<u8>);

/// The numbered damaged image; the sorts take turns, and one in eight gets a second damage.
pub fn damaged(seed: u64, number: u64) -> Damaged {
    damaged_from(Random::of_case(seed, 4, number), number, random_image)
}

/// The same from an image that is sound by the rule before request 2026-06.
pub fn damaged_old(seed: u64, number: u64) -> Damaged {
    damaged_from(Random::of_case(seed, 23, number), number, random_old_image)
}

fn damaged_from(mut random: Random, number: u64, make: Make) -> Damaged {
    let (name, sort) = SORTS[number as usize % SORTS.len()];
    let mut patient = suitable(&mut random, sort, make);
    if random.chance(1, 8) && patient.bytes.len() == patient.state.n {
        let (_, more) = SORTS[random.below(4)];
        more(&mut patient, &mut random);
    }
    let held: Vec<usize> = patient.state.held().map(|block| block.start).collect();
    let start = if held.is_empty() { LOW_RUN } else { *random.pick(&held) };
    Damaged { sort: name, bytes: patient.bytes, offset: start as u32 + 4 }
}

/// Tries images until one has what the sort of damage needs.
fn suitable(random: &mut Random, sort: Sort, make: Make) -> Patient {
    loop {
        let top = *random.pick(&[60, 150, 300, 400]);
        let n = random.between(22, top) * 8;
        let (state, bytes) = make(random, n);
        let mut patient = Patient { state, bytes };
        if sort(&mut patient, random).is_some() {
            return patient;
        }
    }
}

/// A member of a list, or nothing where it is empty.
fn any<T: Copy>(random: &mut Random, from: &[T]) -> Option<T> {
    if from.is_empty() {
        None
    } else {
        Some(*random.pick(from))
    }
}

impl Patient {
    fn rewrite(&mut self) {
        self.bytes = layout::write(&self.state, &self.bytes);
    }

    fn set(&mut self, at: usize, value: u32) {
        put4(&mut self.bytes, at, value);
    }

    fn link(&mut self, word: usize, from: usize, to: usize) {
        self.set(from + word, distance(from, to));
    }

    fn add_to_free_word(&mut self, more: i64) {
        let value = get8(&self.bytes, FREE_WORD) as i64 + more;
        put8(&mut self.bytes, FREE_WORD, value as u64);
    }

    fn free_large(&self) -> Vec<Block> {
        self.state.low.iter().filter(|block| !block.held).copied().collect()
    }

    fn free_small(&self) -> Vec<Block> {
        self.state.high.iter().filter(|block| !block.held).copied().collect()
    }

    /// A large bin of at least this many blocks.
    fn large_bin(&self, random: &mut Random, least: usize) -> Option<Vec<usize>> {
        let bins = self.state.large_bins.values();
        let bins: Vec<&Vec<usize>> = bins.filter(|starts| starts.len() >= least).collect();
        any(random, &bins).cloned()
    }

    fn small_bin(&self, random: &mut Random, least: usize) -> Option<Vec<usize>> {
        let bins = self.state.small_bins.values();
        let bins: Vec<&Vec<usize>> = bins.filter(|starts| starts.len() >= least).collect();
        any(random, &bins).cloned()
    }

    fn bin_heads(&self) -> Vec<usize> {
        self.state.large_bins.values().map(|starts| starts[0]).collect()
    }

    /// Writes the chain, and with it every level of the index, through these first blocks in their
    /// order, whatever their sizes are.
    fn chain_through(&mut self, heads: &[usize]) {
        let size = |start: usize| self.state.low.iter().find(|block| block.start == start);
        let firsts = heads.iter().map(|start| (*start, size(*start).map_or(72, |b| b.size)));
        for (at, value) in layout::index_words(self.state.layout, &firsts.collect::<Vec<_>>()) {
            self.set(at, value);
        }
    }

    /// Writes these blocks as one list with its links both ways.
    fn list_through(&mut self, starts: &[usize]) {
        for (index, start) in starts.iter().enumerate() {
            let previous = if index == 0 { *start } else { starts[index - 1] };
            let next = *starts.get(index + 1).unwrap_or(start);
            self.link(PREVIOUS, *start, previous);
            self.link(NEXT, *start, next);
        }
    }

    /// New blocks for the low run, with the bins and all words that follow from them.
    fn set_low(&mut self, random: &mut Random, low: Vec<Block>) {
        self.state.low = low;
        self.state.large_bins = bins_in_any_order(random, &self.state.low);
        self.rewrite();
    }

    fn set_high(&mut self, random: &mut Random, high: Vec<Block>) {
        self.state.high = high;
        self.state.small_bins = bins_in_any_order(random, &self.state.high);
        self.rewrite();
    }
}
