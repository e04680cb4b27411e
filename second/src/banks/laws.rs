//! What must hold of the bank's calls, said without its rules: a refusal changes nothing, a set
//! writes one new payload, and every other held payload keeps its place and its bytes; and of a run
//! of calls on a fresh pool that only the bank uses, that each piston shows its latest accepted
//! setting.

use super::Call;
use crate::bank::{self, PISTONS};
use crate::calls;
use crate::probe::Bench;
use crate::report::demand;
use crate::rules::{need, Refusal};
use std::collections::BTreeMap;

/// The offset of each held payload, and its bytes.
type Payloads = BTreeMap<u32, Vec<u8>>;

fn payloads(pool: &[u8]) -> Result<Payloads, String> {
    let state = calls::state_of(pool).map_err(|_| "the pool is not sound".to_string())?;
    let each = |start: usize, end: usize| (start as u32 + 4, pool[start + 4..end].to_vec());
    Ok(state.held().map(|block| each(block.start, block.end())).collect())
}

/// Of one call, on any pool and bank.
pub fn hold(
    before: &Bench,
    call: &Call,
    answer: &Result<usize, Refusal>,
    after: &Bench,
) -> Result<(), String> {
    if answer.is_err() || matches!(call, Call::Recall(_)) {
        return demand(before == after, "a refusal or a recall changed something");
    }
    demand(*answer == Ok(before.pool.len()), "the answer is not n")?;
    let piston = call.piston() as usize;
    let mut bank = before.bank;
    bank[piston] = after.bank[piston];
    demand(bank == after.bank, "another piston's number changed")?;
    let (old, new) = (before.bank[piston], after.bank[piston]);
    let mut wanted = payloads(&before.pool)?;
    if let Call::Set(_, kind, body) = call {
        demand(new != 0 && !wanted.contains_key(&new), "the block is not a new one")?;
        let record = [&[*kind], &body[..]].concat();
        wanted.insert(new, written(&before.pool, new as usize, &record));
    } else {
        demand(new == 0, "a cleared piston is not empty")?;
        demand(old != 0 || before == after, "clearing an empty piston changed something")?;
    }
    demand(old == 0 || wanted.remove(&old).is_some(), "the old block was not held")?;
    demand(wanted == payloads(&after.pool)?, "another payload changed, or the new one is wrong")
}

/// The payload that a record gets: the record, and behind it what stood there before.
fn written(pool: &[u8], offset: usize, record: &[u8]) -> Vec<u8> {
    let mut payload = pool[offset..offset + need(record.len() as u32) - 4].to_vec();
    payload[..record.len()].copy_from_slice(record);
    payload
}

/// The latest accepted setting of each piston, empty where it was cleared.
pub struct Log {
    settings: Vec<Vec<u8>>,
}

impl Log {
    pub fn new() -> Log {
        Log { settings: vec![Vec::new(); PISTONS] }
    }

    /// Notes the call, and holds what every piston shows behind it to the log.
    pub fn follow(
        &mut self,
        call: &Call,
        refused: Option<Refusal>,
        after: &Bench,
    ) -> Result<(), String> {
        let never = [Refusal::NotAllowed, Refusal::NotSound, Refusal::WrongBank];
        demand(!refused.map_or(false, |refusal| never.contains(&refusal)), "refused 1, 2 or 12")?;
        match call {
            Call::Set(piston, kind, body) if refused.is_none() => {
                self.settings[*piston as usize] = [&[*kind], &body[..]].concat()
            }
            Call::Clear(piston) if refused.is_none() => self.settings[*piston as usize].clear(),
            _ => {}
        }
        self.shown(after)
    }

    /// Each piston shows its latest accepted setting.
    pub fn shown(&self, after: &Bench) -> Result<(), String> {
        for (piston, setting) in self.settings.iter().enumerate() {
            let shown = bank::recall(&after.pool, &after.bank, piston as u32);
            let same = shown.map_or(false, |part| after.pool[part] == setting[..]);
            demand(same, "a piston does not show its latest accepted setting")?;
        }
        Ok(())
    }
}
