//! Cases for small blocks that go home, and for bringing in (request 2026-06). Every command is
//! carried out here too, so that this program's own calls are held to what the request says of them,
//! and so that a run of commands can aim at what is there.

mod branches;
pub mod fixed;
mod laws;
mod runs;
mod slips;
mod wrong;

pub use branches::Counts;
pub use slips::shown;

use crate::cases::{Group, LawCase};
use crate::images::{EXTREMES, OLD_EXTREMES};
use crate::probe::{Bench, Command, Reader};
use crate::random::Random;
use crate::script::Script;
use crate::state::State;
use crate::{calls, layout};
use branches::Since;

pub const GROUPS: [Group<Counts>; 8] = [
    ("bring-ins of old images", 700, runs::old),
    ("bring-ins of sound images", 300, runs::sound),
    ("bring-ins of extreme images", EXTREMES as u64, runs::extreme),
    ("bring-ins of extreme old images", OLD_EXTREMES as u64, runs::extreme_old),
    ("blocks that go home in runs of calls", 300, runs::between_calls),
    ("bring-ins of damaged images", 600, wrong::damaged),
    ("bring-ins of damaged old images", 1_200, wrong::damaged_old),
    ("bring-ins in the order of refusals", 48, wrong::order),
];

struct Maker<'a> {
    random: Random,
    script: Script,
    bench: Bench,
    counts: &'a mut Counts,
    faults: Vec<String>,
    /// What became of the pool since it was brought in.
    since: Since,
}

impl<'a> Maker<'a> {
    fn new(random: Random, counts: &'a mut Counts) -> Maker<'a> {
        let (script, bench, faults) = (Script::new(), Bench::default(), Vec::new());
        Maker { random, script, bench, counts, faults, since: Since::Never }
    }

    fn finish(self, name: String) -> LawCase {
        LawCase { name, input: self.script.input, faults: self.faults }
    }

    fn hold(&mut self, what: &str, law: Result<(), String>) {
        self.faults.extend(law.err().map(|why| format!("{}: {}", what, why)));
    }

    fn image(&mut self, bytes: &[u8]) {
        self.script.image(bytes);
        self.bench.pool = bytes.to_vec();
        self.since = Since::Never;
    }

    /// A state over bytes of a stranger, so that a byte that is cleared or written shows.
    fn written(&mut self, state: &State) {
        let old = self.random.bytes(state.n);
        self.image(&layout::write(state, &old));
    }

    /// Of a pool that is sound.
    fn state(&self) -> State {
        calls::state_of(&self.bench.pool).expect("the pool is sound")
    }

    fn dump(&mut self) {
        self.script.plain(b'D');
    }

    fn bring_in(&mut self) {
        self.script.plain(b'H');
        let before = self.bench.pool.clone();
        let answer = calls::bring_in(&mut self.bench.pool);
        self.counts.brought_in(&before, &answer, self.since);
        let law = laws::brought_in(&before, &answer, &self.bench.pool);
        self.hold("H", law);
        if answer.is_ok() {
            self.since = Since::BroughtIn;
        }
    }

    fn give_back(&mut self, offset: u32) {
        self.script.number(b'G', offset);
        let before = self.bench.pool.clone();
        let answer = calls::give_back(&mut self.bench.pool, offset);
        self.counts.gave_back(&before, offset, &answer);
        let law = laws::gave_back(&before, offset, &answer, &self.bench.pool);
        self.hold(&format!("G {}", offset), law);
        self.changed();
    }

    fn take(&mut self, s: u32) {
        self.script.number(b'T', s);
        self.bench.serve(Command::Take(s));
        self.changed();
    }

    fn write(&mut self, offset: u32, bytes: &[u8]) {
        self.script.write_part(offset, bytes);
        self.bench.serve(Command::WritePart(offset, bytes));
    }

    fn convert(&mut self) {
        let old = self.state().layout.number();
        self.script.number(b'Y', old);
        self.bench.serve(Command::Convert(old));
        self.changed();
    }

    fn changed(&mut self) {
        if self.since != Since::Never {
            self.since = Since::Changed;
        }
    }

    /// Every call of the pool but bringing in, each with arguments that a sound pool would serve. Where the pool
    /// is sound by the old rule alone, each is refused with 2 and changes nothing.
    fn every_other_call(&mut self) {
        let read = calls::old_state_of(&self.bench.pool);
        let state = read.as_ref().ok();
        let offset = state.and_then(|state| state.held().next()).map_or(172, |b| b.start + 4);
        let level = state.map_or(1, |state| state.layout.number());
        let mut script = Script::new();
        script.plain(b'N').number(b'T', 4).number(b'T', 100);
        script.number(b'G', offset as u32).number(b'A', offset as u32);
        script.number(b'P', offset as u32).write_part(offset as u32, &[7, 7]);
        script.plain(b'S').number(b'C', 53).number(b'Y', level);
        self.script.input.extend_from_slice(&script.input);
        let unsound = state.is_some() && calls::state_of(&self.bench.pool).is_err();
        let before = self.bench.pool.clone();
        let mut reader = Reader::new(&script.input);
        while let Some(command) = reader.command() {
            let line = self.bench.serve(command);
            let letter = line.as_bytes()[0];
            if unsound {
                self.counts.refused(letter as char);
                let two = line[1..].starts_with(" 2 0");
                self.faults.extend((!two).then(|| format!("{} is not refused with 2", line)));
            }
        }
        let changed = unsound && before != self.bench.pool;
        self.faults.extend(changed.then(|| "a call that is refused changed a byte".to_string()));
    }
}
