//! The piston bank: 32 pistons, each empty or naming one record of a pool.

use crate::refusal::{answer, within};
use crate::{raw, same_length, Pool, Refusal};

/// How many pistons a bank has: 0 to 31.
pub const PISTONS: usize = 32;

/// What a piston is set to, and what it shows: one of three kinds, each with its bytes of tab bits.
///
/// It has its bytes itself, and borrows none of the pool's. So a recalled record can be set at another piston, and outlives the next call,
/// neither of which a borrow of the pool would allow. What is copied are 32 bytes at most, which is nothing beside the reading of the pool.
#[derive(Clone, Copy, Debug, PartialEq, Eq)]
pub enum Record {
    /// Kind 1.
    Eight([u8; 8]),
    /// Kind 2.
    Sixteen([u8; 16]),
    /// Kind 3.
    ThirtyTwo([u8; 32]),
}

impl Record {
    /// The record of a kind's number and a body, as they come from a wire or a file.
    /// Refused: [`NoRecord`](Refusal::NoRecord).
    pub fn new(kind: u8, body: &[u8]) -> Result<Record, Refusal> {
        let record = match kind {
            1 => body.try_into().map(Record::Eight),
            2 => body.try_into().map(Record::Sixteen),
            3 => body.try_into().map(Record::ThirtyTwo),
            _ => return Err(Refusal::NoRecord),
        };
        record.map_err(|_| Refusal::NoRecord)
    }

    /// The number of its kind.
    pub fn kind(&self) -> u8 {
        match self {
            Record::Eight(_) => 1,
            Record::Sixteen(_) => 2,
            Record::ThirtyTwo(_) => 3,
        }
    }

    /// Its tab bits.
    pub fn body(&self) -> &[u8] {
        match self {
            Record::Eight(body) => body,
            Record::Sixteen(body) => body,
            Record::ThirtyTwo(body) => body,
        }
    }
}

/// A bank in 32 lent numbers: 0 for an empty piston, else the offset of its record's payload.
///
/// ```
/// use icewimple_pool::{Bank, Layout, Pool, Record, Refusal};
///
/// let (mut buffer, mut numbers) = ([0; 1024], [0; 32]);
/// let mut pool = Pool::lay_out(&mut buffer, Layout::One)?;
/// let mut bank = Bank::empty(&mut numbers);
/// bank.set(&mut pool, 3, &Record::Sixteen([0x81; 16]))?;
/// if let Some(record) = bank.recall(&pool, 3)? {
///     bank.set(&mut pool, 4, &record)?;
/// }
/// bank.clear(&mut pool, 3)?;
/// assert_eq!(bank.recall(&pool, 3), Ok(None));
/// assert_eq!(bank.recall(&pool, 4), Ok(Some(Record::Sixteen([0x81; 16]))));
/// # Ok::<(), Refusal>(())
/// ```
///
/// The numbers are lent as the pool's buffer is, so that both can stand in a memory that keeps its bytes, where they belong together. Every
/// call reads pool and numbers first, and a refusal changes neither. From [`Bank::empty`] and a sound pool on, each piston shows its latest
/// accepted setting, also beside others who use the pool, as long as they write inside payloads of their own alone and give back
/// none that a piston names.
///
/// # What to do at `NotNamed`
///
/// [`Refusal::NotNamed`] says that pool and numbers do not belong together. Where they name an offset that is not held, or one offset twice,
/// every call is refused. Bring a copy of both back, or make the false numbers 0: those pistons are empty then, and the others show what they
/// showed. Of pistons that name one offset only the organist knows which one is right. Where the recalled record alone does not read, set that
/// piston anew, or clear it.
///
/// ```
/// # use icewimple_pool::{Bank, Layout, Pool, Record, Refusal};
/// # let (mut buffer, mut numbers) = ([0; 1024], [0; 32]);
/// # let mut pool = Pool::lay_out(&mut buffer, Layout::One)?;
/// # let mut bank = Bank::empty(&mut numbers);
/// # bank.set(&mut pool, 3, &Record::Eight([1; 8]))?;
/// # bank.set(&mut pool, 4, &Record::Eight([2; 8]))?;
/// # pool.give_back(bank.numbers()[3])?;
/// # assert_eq!(bank.recall(&pool, 4), Err(Refusal::NotNamed));
/// let numbers = bank.into_numbers();
/// for number in numbers.iter_mut().filter(|number| **number != 0) {
///     if pool.ask(*number) == Err(Refusal::NotHeld) {
///         *number = 0;
///     }
/// }
/// let bank = Bank::open(numbers);
/// # assert_eq!(bank.recall(&pool, 3), Ok(None));
/// # assert_eq!(bank.recall(&pool, 4), Ok(Some(Record::Eight([2; 8]))));
/// # Ok::<(), Refusal>(())
/// ```
#[derive(Debug)]
pub struct Bank<'a> {
    numbers: &'a mut [u32; PISTONS],
}

impl<'a> Bank<'a> {
    /// An empty bank, whatever the numbers are. Blocks that they named stay held.
    pub fn empty(numbers: &'a mut [u32; PISTONS]) -> Bank<'a> {
        numbers.fill(0);
        Bank { numbers }
    }

    /// The bank that the numbers are. Nothing is asked here: every call asks them all.
    pub fn open(numbers: &'a mut [u32; PISTONS]) -> Bank<'a> {
        Bank { numbers }
    }

    /// The numbers.
    pub fn numbers(&self) -> &[u32; PISTONS] {
        self.numbers
    }

    /// The lent numbers, back. [`Bank::open`] takes them again.
    pub fn into_numbers(self) -> &'a mut [u32; PISTONS] {
        self.numbers
    }

    /// Sets a piston: a new block gets the record, then the old one is given back. With no room the old setting stays.
    /// Refused: [`NoPiston`](Refusal::NoPiston), [`NotNamed`](Refusal::NotNamed), [`NoRoom`](Refusal::NoRoom).
    pub fn set(&mut self, pool: &mut Pool, piston: u32, record: &Record) -> Result<(), Refusal> {
        let result = raw::bank_set(pool.bytes, self.numbers, piston, record.kind(), record.body());
        let n = answer(
            result,
            &[
                Refusal::NotAllowed,
                Refusal::NotSound,
                Refusal::NoPiston,
                Refusal::NotNamed,
                Refusal::NoRoom,
            ],
        )?;
        same_length(n, pool.bytes.len(), result)?;
        let size = 1 + record.body().len() as u32;
        within(pool.bytes.len(), self.number(piston, result)?, size, result)
    }

    /// Clears a piston, and gives its block back; one that is empty stays as it is.
    /// Refused: [`NoPiston`](Refusal::NoPiston), [`NotNamed`](Refusal::NotNamed).
    pub fn clear(&mut self, pool: &mut Pool, piston: u32) -> Result<(), Refusal> {
        let result = raw::bank_clear(pool.bytes, self.numbers, piston);
        let n = answer(result, &ASKED)?;
        same_length(n, pool.bytes.len(), result)?;
        if self.number(piston, result)? == 0 {
            Ok(())
        } else {
            Err(Refusal::Unforeseen(result))
        }
    }

    /// The record of a piston, or `None` where it is empty.
    /// Refused: [`NoPiston`](Refusal::NoPiston), [`NotNamed`](Refusal::NotNamed).
    pub fn recall(&self, pool: &Pool, piston: u32) -> Result<Option<Record>, Refusal> {
        let result = raw::bank_recall(pool.bytes, self.numbers, piston);
        let size = answer(result, &ASKED)?;
        match self.number(piston, result)? {
            0 if size == 0 => Ok(None),
            offset => read(pool.bytes, offset, size, result).map(Some),
        }
    }

    /// The piston's number, after a call that was done: of a piston that is not there none is.
    fn number(&self, piston: u32, result: u64) -> Result<u32, Refusal> {
        self.numbers.get(piston as usize).copied().ok_or(Refusal::Unforeseen(result))
    }
}

/// What a clear and a recall may be refused with.
const ASKED: [Refusal; 4] =
    [Refusal::NotAllowed, Refusal::NotSound, Refusal::NoPiston, Refusal::NotNamed];

/// The record of `size` bytes at `offset`: where the library says that one stands, one does.
fn read(bytes: &[u8], offset: u32, size: u32, result: u64) -> Result<Record, Refusal> {
    within(bytes.len(), offset, size, result)?;
    match bytes[offset as usize..][..size as usize].split_first() {
        Some((kind, body)) => Record::new(*kind, body).or(Err(Refusal::Unforeseen(result))),
        None => Err(Refusal::Unforeseen(result)),
    }
}

#[cfg(test)]
mod tests {
    use super::*;

    #[test]
    fn a_kind_and_a_body_make_a_record_in_three_cases() {
        let bytes = [7; 64];
        for kind in 0..=255 {
            for long in 0..=64 {
                match Record::new(kind, &bytes[..long]) {
                    Ok(record) => {
                        assert!([(1, 8), (2, 16), (3, 32)].contains(&(kind, long)));
                        assert_eq!((record.kind(), record.body()), (kind, &bytes[..long]));
                    }
                    Err(refusal) => {
                        assert!(![(1, 8), (2, 16), (3, 32)].contains(&(kind, long)));
                        assert_eq!(refusal, Refusal::NoRecord);
                    }
                }
            }
        }
    }

    #[test]
    fn a_record_that_is_not_where_the_library_says_is_unforeseen() {
        let mut bytes = [7; 256];
        for (kind, size) in [(1, 9), (2, 17), (3, 33)] {
            bytes[172] = kind;
            let record = read(&bytes, 172, size, 5);
            assert_eq!(record, Record::new(kind, &bytes[173..172 + size as usize]));
            for wrong in [0, 1, size - 1, size + 1, 84, 85, u32::MAX] {
                assert_eq!(read(&bytes, 172, wrong, 5), Err(Refusal::Unforeseen(5)), "{wrong}");
            }
        }
        for kind in [0, 4, 255] {
            bytes[172] = kind;
            assert_eq!(read(&bytes, 172, 9, 5), Err(Refusal::Unforeseen(5)), "{kind}");
        }
        for offset in [0, 168, 248, 256, u32::MAX] {
            assert_eq!(read(&bytes, offset, 9, 5), Err(Refusal::Unforeseen(5)), "{offset}");
        }
    }
}
