//! What must hold of a move, said of the bytes and without the words that layout.rs governs: the
//! first refusal that applies is the answer and changes nothing; blocks, held payloads and the order
//! of every bin stay; each level leads through the bins that reach it; and no other word changes.

use crate::calls;
use crate::layout::{get4, index_word, LEVEL};
use crate::report::demand;
use crate::rules::Refusal;
use crate::state::{allowed, Layout, State, FALSE_BLOCK};

/// Of one call, on any bytes.
pub fn hold(
    before: &[u8],
    old: u32,
    answer: &Result<usize, Refusal>,
    after: &[u8],
) -> Result<(), String> {
    let first = refusals(before, old).into_iter().find(|(applies, _)| *applies);
    demand(answer.err() == first.map(|(_, refusal)| refusal), "it is not the first refusal")?;
    if answer.is_err() {
        return demand(before == after, "a refusal changed a byte");
    }
    demand(*answer == Ok(before.len()), "the answer is not n")?;
    let was = sound(before)?;
    let is = sound(after)?;
    demand(is.layout.number() != old, "the layout is the old one")?;
    demand(State { layout: was.layout, ..is.clone() } == was, "blocks or bins have changed")?;
    let payloads = was.held().all(|b| before[b.start + 4..b.end()] == after[b.start + 4..b.end()]);
    demand(payloads, "a held payload has changed")?;
    only_these_change(before, after, &may_change(&is))?;
    words_stand(after, &is)
}

/// All that can be said against the call, in the order in which it is asked.
fn refusals(pool: &[u8], old: u32) -> [(bool, Refusal); 4] {
    let read = calls::state_of(pool);
    let other = read.as_ref().map_or(false, |state| state.layout.number() != old);
    [
        (!allowed(pool.len()), Refusal::NotAllowed),
        (old != 1 && old != 2, Refusal::NoLayout),
        (read.is_err(), Refusal::NotSound),
        (other, Refusal::OtherLayout),
    ]
}

fn sound(pool: &[u8]) -> Result<State, String> {
    calls::state_of(pool).map_err(|_| "the pool is not sound".to_string())
}

/// Where the words stand that a move to this state's layout gives a value: level words, the false
/// block's words above the lowest, and to layout 2 those of the first blocks.
fn may_change(is: &State) -> Vec<usize> {
    let mut words = vec![FALSE_BLOCK + LEVEL];
    words.extend((2..=13).map(|level| FALSE_BLOCK + index_word(level)));
    for (start, size) in is.firsts() {
        words.push(start + LEVEL);
        words.extend((2..=is.layout.height(size)).map(|level| start + index_word(level)));
    }
    words
}

fn only_these_change(before: &[u8], after: &[u8], words: &[usize]) -> Result<(), String> {
    let changed =
        (0..before.len()).step_by(4).filter(|at| before[*at..*at + 4] != after[*at..*at + 4]);
    match changed.into_iter().find(|at| !words.contains(at)) {
        Some(at) => Err(format!("the word at {} has changed", at)),
        None => Ok(()),
    }
}

/// The level words; and each level, followed from the false block, meets the bins that reach it from
/// the smallest to the greatest and ends. In layout 1 no bin reaches a level above the lowest, and
/// there the false block's words are 0 all the same.
fn words_stand(after: &[u8], is: &State) -> Result<(), String> {
    let levels = if is.layout == Layout::One { 1 } else { 13 };
    demand(get4(after, FALSE_BLOCK + LEVEL) == levels as u32, "the false block's level word")?;
    for level in 1..=13 {
        let reach = |size: usize| level == 1 || level <= levels && size % (8 << (level - 1)) == 0;
        let wanted = is.firsts().into_iter().filter(|(_, size)| reach(*size));
        let mut at = FALSE_BLOCK;
        for (start, _) in wanted {
            at = at.wrapping_add(get4(after, at + index_word(level)) as i32 as usize);
            if at != start {
                return Err(format!("level {} does not lead to {}", level, start));
            }
        }
        demand(get4(after, at + index_word(level)) == 0, "a level does not end")?;
    }
    let stands = |(start, size): &(usize, usize)| {
        get4(after, start + LEVEL) as usize == is.layout.height(*size)
    };
    demand(is.firsts().iter().all(stands), "a level word is not the height")
}

/// Of a sound pool: there and back gives the same state, and every byte again but for those that
/// `returned` excuses.
pub fn there_and_back(pool: &[u8]) -> Result<(), String> {
    let was = sound(pool)?;
    let mut back = pool.to_vec();
    for layout in [was.layout, was.layout.other()] {
        let before = back.clone();
        let answer = calls::convert(&mut back, layout.number());
        hold(&before, layout.number(), &answer, &back)?;
    }
    returned(pool, &back)
}

/// Of a pool that was moved there and back: from layout 2 no byte differs; from layout 1 only the
/// words of level 2 to the height in a bin's first block may, which layout 1 does not govern.
pub fn returned(pool: &[u8], back: &[u8]) -> Result<(), String> {
    let was = sound(pool)?;
    demand(sound(back)? == was, "there and back is another state")?;
    if was.layout == Layout::Two {
        return demand(pool == back, "there and back from layout 2 has changed a byte");
    }
    let upper = |(start, size): (usize, usize)| {
        (2..=Layout::Two.height(size)).map(move |level| start + index_word(level))
    };
    let words: Vec<usize> = was.firsts().into_iter().flat_map(upper).collect();
    only_these_change(pool, back, &words)
}
