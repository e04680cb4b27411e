//! Cases for the piston bank: random commands for a pool and its bank, with dumps of both behind
//! each that may change something. Every command is carried out here too, so that the next can aim
//! at what is there, and so that this program's own calls are held to the bank's laws.

mod branches;
pub mod fixed;
mod laws;
mod runs;
mod wrong;

pub use branches::Counts;

use crate::bank::{self, body_bytes, Bank, PISTONS};
use crate::calls;
use crate::cases::{Group, LawCase};
use crate::images::EXTREMES;
use crate::probe::{Bench, Command};
use crate::random::Random;
use crate::rules::Refusal;
use crate::script::Script;
use crate::state::{Layout, State};
use laws::Log;

#[derive(Clone, Debug)]
pub enum Call {
    /// Piston, kind, body.
    Set(u32, u8, Vec<u8>),
    Clear(u32),
    Recall(u32),
}

impl Call {
    pub fn name(&self) -> &'static str {
        match self {
            Call::Set(..) => "set",
            Call::Clear(_) => "clear",
            Call::Recall(_) => "recall",
        }
    }

    pub fn piston(&self) -> u32 {
        match self {
            Call::Set(piston, ..) | Call::Clear(piston) | Call::Recall(piston) => *piston,
        }
    }
}

pub const GROUPS: [Group<Counts>; 9] = [
    ("banks on fresh pools", 400, runs::fresh),
    ("banks beside other users", 300, runs::shared),
    ("banks on pools that are moved", 120, runs::moved),
    ("wrong banks", 300, wrong::banks),
    ("banks with records that do not read", 200, wrong::records),
    ("banks on damaged images", 500, wrong::pools),
    ("banks on pools that are brought in", 120, wrong::old),
    ("banks in the order of refusals", 16, wrong::order),
    ("banks on extreme images", EXTREMES as u64, wrong::extreme),
];

struct Maker<'a> {
    random: Random,
    script: Script,
    bench: Bench,
    counts: &'a mut Counts,
    faults: Vec<String>,
    /// Kept on a fresh pool that only the bank uses.
    log: Option<Log>,
}

impl<'a> Maker<'a> {
    /// Cases follow one another in one run of the probe, and an I leaves the bank as it is: so
    /// each begins with an empty one.
    fn new(random: Random, counts: &'a mut Counts) -> Maker<'a> {
        let bench = Bench::default();
        let mut script = Script::new();
        script.bank(&bench.bank);
        Maker { random, script, bench, counts, faults: Vec::new(), log: None }
    }

    fn finish(self, name: String) -> LawCase {
        LawCase { name, input: self.script.input, faults: self.faults }
    }

    fn hold(&mut self, law: Result<(), String>, call: &Call) {
        if let Err(why) = law {
            self.faults.push(format!("{:?}: {}", call, why));
        }
    }

    fn image(&mut self, bytes: &[u8]) {
        self.script.image(bytes);
        self.bench.pool = bytes.to_vec();
    }

    /// In either layout.
    fn lay_out(&mut self) {
        let number = self.random.pick(&Layout::BOTH).number();
        self.script.number(b'M', number).plain(b'D');
        self.bench.serve(Command::LayOutAs(number));
    }

    fn put_bank(&mut self, bank: Bank) {
        self.script.bank(&bank);
        self.bench.bank = bank;
    }

    /// Of a pool that is sound.
    fn state(&self) -> State {
        calls::state_of(&self.bench.pool).expect("the pool is sound")
    }

    /// The call, and its refusal.
    fn call(&mut self, call: Call) -> Option<Refusal> {
        let before = self.bench.clone();
        let Bench { pool, bank } = &mut self.bench;
        let answer = match &call {
            Call::Set(piston, kind, body) => {
                self.script.set(*piston, *kind, body).plain(b'D').plain(b'V');
                bank::set(pool, bank, *piston, *kind, body)
            }
            Call::Clear(piston) => {
                self.script.number(b'Q', *piston).plain(b'D').plain(b'V');
                bank::clear(pool, bank, *piston)
            }
            Call::Recall(piston) => {
                self.script.number(b'R', *piston);
                bank::recall(pool, bank, *piston).map(|_| pool.len())
            }
        };
        let refused = answer.err();
        self.counts.observe(&before, &call, refused);
        let law = laws::hold(&before, &call, &answer, &self.bench);
        self.hold(law, &call);
        if let Some(log) = &mut self.log {
            let law = log.follow(&call, refused, &self.bench);
            self.hold(law, &call);
        }
        refused
    }

    /// To the other layout, behind which the bank is the same.
    fn convert(&mut self) {
        let old = self.state().layout.number();
        self.script.number(b'Y', old).plain(b'D').plain(b'V');
        self.bench.serve(Command::Convert(old));
        let law = self.log.as_ref().map_or(Ok(()), |log| log.shown(&self.bench));
        self.faults.extend(law.err().map(|why| format!("Y {}: {}", old, why)));
    }

    /// Bringing in, behind which the bank is the same.
    fn bring_in(&mut self) {
        self.script.plain(b'H').plain(b'D').plain(b'V');
        self.bench.serve(Command::BringIn);
    }

    /// What these pistons show, and all that are not empty.
    fn recall_all(&mut self, pistons: &[u32]) {
        for piston in 0..PISTONS as u32 {
            if self.bench.bank[piston as usize] != 0 || pistons.contains(&piston) {
                self.call(Call::Recall(piston));
            }
        }
    }

    fn take(&mut self, s: u32) {
        self.script.number(b'T', s).plain(b'D');
        self.bench.serve(Command::Take(s));
    }

    fn give_back(&mut self, offset: u32) {
        self.script.number(b'G', offset).plain(b'D');
        self.bench.serve(Command::GiveBack(offset));
    }

    /// Writes into a held payload, as far as it reaches.
    fn write(&mut self, offset: u32, bytes: &[u8]) {
        self.script.write_part(offset, bytes).plain(b'D');
        self.bench.serve(Command::WritePart(offset, bytes));
    }

    /// Some call of the bank, and its refusal.
    fn any_call(&mut self, habits: &Habits) -> Option<Refusal> {
        let random = &mut self.random;
        let piston = match random.chance(habits.odd, 100) {
            true => *random.pick(&ABOVE),
            false => *random.pick(&habits.pistons),
        };
        let call = match random.below(100) {
            part if part < habits.sets => {
                let (kind, body) = some_record(random, habits.odd);
                Call::Set(piston, kind, body)
            }
            part if part < habits.sets + habits.clears => Call::Clear(piston),
            _ => Call::Recall(piston),
        };
        self.call(call)
    }
}

/// The pistons that are not empty.
fn named(bank: &Bank) -> Vec<u32> {
    (0..PISTONS as u32).filter(|piston| bank[*piston as usize] != 0).collect()
}

/// How the calls of a run are chosen.
struct Habits {
    /// Few of them, so that they are set again and again, or all.
    pistons: Vec<u32>,
    /// In how many of 100 calls it is a set, a clear.
    sets: usize,
    clears: usize,
    /// In how many of 100 calls an argument is chosen to be refused.
    odd: usize,
}

impl Habits {
    fn random(random: &mut Random, odd: usize) -> Habits {
        let mut pistons: Vec<u32> = (0..PISTONS as u32).collect();
        random.shuffle(&mut pistons);
        pistons.truncate(*random.pick(&[1, 2, 4, 8, 32]));
        let sets = *random.pick(&[35, 60, 90]);
        let clears = *random.pick(&[4, 10, 30]);
        Habits { pistons, sets, clears, odd }
    }
}

/// Pistons that are none: just above 31, and such as a shorter number would take for a low one.
const ABOVE: [u32; 10] = [32, 32, 32, 33, 63, 64, 256, 65_536, 1 << 31, u32::MAX];

/// Kinds that are none, and lengths on both sides of a body's.
const KINDS: [u8; 10] = [0, 0, 4, 4, 5, 127, 128, 129, 131, 255];
const LENGTHS: [usize; 13] = [0, 1, 7, 8, 9, 15, 16, 17, 31, 32, 33, 63, 64];
/// What a kind before the first and one after the last might be.
const NEXT: [(u8, usize); 3] = [(0, 0), (0, 4), (4, 64)];

/// Kind and body; in so many of 100 cases they are chosen to be refused.
fn some_record(random: &mut Random, odd: usize) -> (u8, Vec<u8>) {
    let kind = *random.pick(&[1, 2, 3]);
    let length = body_bytes(kind).expect("kinds 1 to 3 are known");
    let (kind, length) = match random.below(4) {
        _ if !random.chance(odd, 100) => (kind, length),
        0 => (*random.pick(&KINDS), length),
        1 => (kind, *random.pick(&LENGTHS)),
        2 => (*random.pick(&KINDS), *random.pick(&LENGTHS)),
        _ => *random.pick(&NEXT),
    };
    (kind, random.bytes(length))
}
