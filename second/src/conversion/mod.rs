//! Cases for the move to the other layout (request 2026-05). Every command is carried out here too,
//! so that this program's own move is held to what the request says of it, and so that a run of
//! commands can aim at what is there.

mod branches;
pub mod fixed;
mod laws;
mod runs;
mod wrong;

pub use branches::Counts;
pub use laws::there_and_back;

use crate::cases::{Group, LawCase};
use crate::images::EXTREMES;
use crate::probe::{Bench, Command};
use crate::random::Random;
use crate::script::Script;
use crate::state::State;
use crate::{calls, layout};
use branches::Since;

pub const GROUPS: [Group<Counts>; 6] = [
    ("conversions of sound images", 700, runs::sound),
    ("conversions of images with tall bins", 60, runs::tall),
    ("conversions of extreme images", EXTREMES as u64, runs::extreme),
    ("conversions in runs of calls", 240, runs::between_calls),
    ("conversions of damaged images", 500, wrong::damaged),
    ("conversions in the order of refusals", 48, wrong::order),
];

/// Numbers that are no layout's, among them such as a shorter number would take for one.
const NO_LAYOUT: [u32; 14] =
    [0, 0, 3, 3, 4, 8, 13, 256, 257, 258, 65_537, 65_538, 1 << 31, u32::MAX];

struct Maker<'a> {
    random: Random,
    script: Script,
    bench: Bench,
    counts: &'a mut Counts,
    faults: Vec<String>,
    /// What became of the pool since it was moved.
    since: Since,
}

impl<'a> Maker<'a> {
    fn new(random: Random, counts: &'a mut Counts) -> Maker<'a> {
        let (script, bench, faults) = (Script::new(), Bench::default(), Vec::new());
        Maker { random, script, bench, counts, faults, since: Since::Never }
    }

    fn finish(self, name: String) -> LawCase {
        LawCase { name, input: self.script.input, faults: self.faults }
    }

    fn hold(&mut self, law: Result<(), String>) {
        self.faults.extend(law.err());
    }

    fn image(&mut self, bytes: &[u8]) {
        self.script.image(bytes);
        self.bench.pool = bytes.to_vec();
        self.since = Since::Never;
    }

    /// A state over bytes of a stranger: so what the layouts leave alone in a first block is mostly
    /// not 0, and a move that clears or keeps too much shows.
    fn written(&mut self, state: &State) {
        let old = self.random.bytes(state.n);
        self.image(&layout::write(state, &old));
    }

    /// Of a pool that is sound.
    fn state(&self) -> State {
        calls::state_of(&self.bench.pool).expect("the pool is sound")
    }

    fn dump(&mut self) {
        self.script.plain(b'D');
    }

    fn convert(&mut self, old: u32) {
        self.script.number(b'Y', old);
        let before = self.bench.pool.clone();
        let answer = calls::convert(&mut self.bench.pool, old);
        self.counts.observe(&before, old, &answer, self.since);
        let law = laws::hold(&before, old, &answer, &self.bench.pool);
        self.hold(law.map_err(|why| format!("Y {}: {}", old, why)));
        if answer.is_ok() {
            self.since = Since::Moved;
        }
    }

    fn take(&mut self, s: u32) {
        self.script.number(b'T', s);
        self.bench.serve(Command::Take(s));
        self.changed();
    }

    fn give_back(&mut self, offset: u32) {
        self.script.number(b'G', offset);
        self.bench.serve(Command::GiveBack(offset));
        self.changed();
    }

    fn write(&mut self, offset: u32, bytes: &[u8]) {
        self.script.write_part(offset, bytes);
        self.bench.serve(Command::WritePart(offset, bytes));
    }

    fn changed(&mut self) {
        if self.since != Since::Never {
            self.since = Since::Changed;
        }
    }
}
