//! A memory pool for records that must not be lost, in a buffer that you lend: a safe wrapper over the proved calls of the crate `board`.
//!
//! ```
//! use icewimple_pool::{Layout, Pool, Refusal};
//!
//! let mut buffer = [0; 1024];
//! let mut pool = Pool::lay_out(&mut buffer, Layout::One)?;
//! let offset = pool.take(100)?;
//! pool.lend_mut(offset)?.fill(b'x');
//! pool.give_back(offset)?;
//! assert_eq!(pool.give_back(offset), Err(Refusal::NotHeld));
//! # Ok::<(), Refusal>(())
//! ```
//!
//! A pool has one of two layouts, and every call serves both with the same answers: [`Layout`] says which one to lay out, and
//! [`Pool::convert`] moves a pool from one to the other. A pool that version 0.5 or an older one has stored is brought in once, by
//! [`Pool::bring_in`].
//! Above the pool stands [`Bank`], a bank of 32 pistons, each empty or naming one [`Record`] of the pool.
//!
//! Every call reads the pool's bytes first, and a refusal changes none of them. What each answers is proved of the library
//! (`docs/PROMISES.md`); here it is only passed on. An answer that the library's contract rules out is not believed: it comes back
//! as [`Refusal::Unforeseen`], and nothing panics.
//! It needs neither an allocator nor `std`; without the feature `std`, which is on unless you turn it off, [`Refusal`] is no
//! `std::error::Error`, and that is all. The archive `libboard.a`, which `tools/library` builds, is looked for in `target/staticlib` of
//! the repository, or in the folder that `ICEWIMPLE_LIBRARY` names.
#![no_std]
#![deny(unsafe_code, unsafe_op_in_unsafe_fn, missing_docs)]

#[cfg(any(feature = "std", test))]
extern crate std;

mod bank;
#[allow(unsafe_code)]
mod raw;
mod refusal;

pub use bank::{Bank, Record, PISTONS};
use core::fmt;
pub use refusal::Refusal;
use refusal::{answer, within};

/// The version of the calls, as `POOL_VERSION` in the C header (`docs/CHANGES.md`).
pub const VERSION: &str = env!("CARGO_PKG_VERSION");

/// How many size classes there are.
pub const CLASSES: usize = 53;

/// No block has fewer bytes.
const LEAST_BLOCK: usize = 8;

/// The seven figures of a pool. Held bytes + free word + 172 is the pool's length.
#[derive(Clone, Copy, Debug, PartialEq, Eq)]
pub struct Figures {
    /// How many blocks are held.
    pub held_blocks: u32,
    /// Their sizes together, heads included.
    pub held_bytes: u32,
    /// How many small blocks are free.
    pub free_small: u32,
    /// How many large blocks are free.
    pub free_large: u32,
    /// The remainder's size.
    pub remainder: u32,
    /// All free sizes, less 4.
    pub free_word: u32,
    /// The greatest size that `take` would grant now, 0 if there is none. Every greater one is refused with `Refusal::NoRoom`.
    pub largest: u32,
}

/// How a pool's bytes are laid out (`docs/FORMAT.md`). Every answer is the same on both.
#[derive(Clone, Copy, Debug, PartialEq, Eq)]
pub enum Layout {
    /// Layout 1, which all firmware knows.
    One,
    /// Layout 2, with an index over the free large blocks: faster where many different sizes are free.
    Two,
}

impl Layout {
    /// The layout of a number, as from a setting or a wire.
    /// Refused: [`NoLayout`](Refusal::NoLayout).
    pub fn new(number: u32) -> Result<Layout, Refusal> {
        match number {
            1 => Ok(Layout::One),
            2 => Ok(Layout::Two),
            _ => Err(Refusal::NoLayout),
        }
    }

    /// Its number.
    pub fn number(self) -> u32 {
        match self {
            Layout::One => 1,
            Layout::Two => 2,
        }
    }
}

/// A pool in a lent buffer.
pub struct Pool<'a> {
    bytes: &'a mut [u8],
}

impl<'a> Pool<'a> {
    /// Lays the buffer out as a fresh pool of that layout, whatever stands there.
    /// Refused: [`NotAllowed`](Refusal::NotAllowed).
    pub fn lay_out(bytes: &'a mut [u8], layout: Layout) -> Result<Pool<'a>, Refusal> {
        let result = raw::lay_out(bytes, layout.number());
        same_length(answer(result, &[Refusal::NotAllowed])?, bytes.len(), result)?;
        Ok(Pool { bytes })
    }

    /// The pool that the buffer has, of either layout, if it is sound.
    /// Refused: [`NotAllowed`](Refusal::NotAllowed), [`NotSound`](Refusal::NotSound).
    pub fn open(bytes: &'a mut [u8]) -> Result<Pool<'a>, Refusal> {
        inspect(bytes)?;
        Ok(Pool { bytes })
    }

    /// The pool that the buffer has, of either layout, where version 0.5 or an older one may have stored it; and how many blocks went home.
    /// These versions left free small blocks where the remainder ends, and [`Pool::open`] refuses that. Here they join the remainder. Held
    /// payloads stay as they are and where they are, so every offset means what it meant, a [`Bank`]'s too. A pool that `open` takes is taken
    /// with 0, and none of its bytes changes.
    /// Refused: [`NotAllowed`](Refusal::NotAllowed), and [`NotSound`](Refusal::NotSound) if it was not sound for these versions either.
    ///
    /// ```
    /// # use icewimple_pool::{Layout, Pool, Refusal};
    /// # let mut stored = [0; 1024];
    /// # Pool::lay_out(&mut stored, Layout::One)?;
    /// // once, after the update
    /// let (mut pool, went_home) = Pool::bring_in(&mut stored)?;
    /// # assert_eq!(went_home, 0);
    /// # pool.take(100)?;
    /// # Ok::<(), Refusal>(())
    /// ```
    pub fn bring_in(bytes: &'a mut [u8]) -> Result<(Pool<'a>, u32), Refusal> {
        let result = raw::bring_in(bytes);
        let went_home = answer(result, &[Refusal::NotAllowed, Refusal::NotSound])?;
        if went_home as usize > bytes.len() / LEAST_BLOCK {
            return Err(Refusal::Unforeseen(result));
        }
        Ok((Pool { bytes }, went_home))
    }

    /// The pool's bytes.
    pub fn bytes(&self) -> &[u8] {
        self.bytes
    }

    /// The lent buffer, back. [`Pool::open`] takes it again.
    pub fn into_bytes(self) -> &'a mut [u8] {
        self.bytes
    }

    /// Grants a payload of at least `size` bytes, which are not cleared; answers its offset.
    /// Refused: [`SizeZero`](Refusal::SizeZero), [`NoRoom`](Refusal::NoRoom).
    pub fn take(&mut self, size: u32) -> Result<u32, Refusal> {
        let result = raw::take(self.bytes, size);
        let offset = answer(
            result,
            &[Refusal::NotAllowed, Refusal::NotSound, Refusal::SizeZero, Refusal::NoRoom],
        )?;
        within(self.bytes.len(), offset, size, result)?;
        Ok(offset)
    }

    /// Takes the payload at `offset` back; answers how many bytes it had. A free small block where the remainder ends joins it.
    /// Refused: [`NotHeld`](Refusal::NotHeld).
    pub fn give_back(&mut self, offset: u32) -> Result<u32, Refusal> {
        let result = raw::give_back(self.bytes, offset);
        let size = answer(result, &[Refusal::NotAllowed, Refusal::NotSound, Refusal::NotHeld])?;
        within(self.bytes.len(), offset, size, result)?;
        Ok(size)
    }

    /// How many bytes the payload at `offset` has.
    /// Refused: [`NotHeld`](Refusal::NotHeld).
    pub fn ask(&self, offset: u32) -> Result<u32, Refusal> {
        let result = raw::ask(self.bytes, offset);
        let size = answer(result, &[Refusal::NotAllowed, Refusal::NotSound, Refusal::NotHeld])?;
        within(self.bytes.len(), offset, size, result)?;
        Ok(size)
    }

    /// Moves the pool from the layout `old` to the other one, in the same buffer. Blocks, held payloads and the order of every list stay, so
    /// every offset means what it meant, a [`Bank`]'s too.
    /// Refused: [`OtherLayout`](Refusal::OtherLayout), and then the pool has the other layout already.
    ///
    /// ```
    /// # use icewimple_pool::{Layout, Pool, Refusal};
    /// # let mut buffer = [0; 1024];
    /// # let mut pool = Pool::lay_out(&mut buffer, Layout::One)?;
    /// // whichever it had, it has layout 2 afterwards
    /// match pool.convert(Layout::One) {
    ///     Ok(()) | Err(Refusal::OtherLayout) => {}
    ///     Err(refusal) => return Err(refusal),
    /// }
    /// # assert_eq!(pool.convert(Layout::Two), Ok(()));
    /// # Ok::<(), Refusal>(())
    /// ```
    ///
    /// Moved back, a pool that began in layout 2 has all its bytes again. One that began in layout 1 differs at most in words that layout 1
    /// leaves unused (`docs/FORMAT.md`).
    pub fn convert(&mut self, old: Layout) -> Result<(), Refusal> {
        let result = raw::convert(self.bytes, old.number());
        let n = answer(result, &[Refusal::NotAllowed, Refusal::NotSound, Refusal::OtherLayout])?;
        same_length(n, self.bytes.len(), result)
    }

    /// The payload at `offset`, for reading.
    /// Refused: [`NotHeld`](Refusal::NotHeld).
    pub fn lend(&self, offset: u32) -> Result<&[u8], Refusal> {
        let (start, size) = (offset as usize, self.ask(offset)? as usize);
        // `ask` has seen that the payload is within the pool
        Ok(&self.bytes[start..start + size])
    }

    /// The payload at `offset`, for writing. Whatever is written there, the pool stays sound.
    /// Refused: [`NotHeld`](Refusal::NotHeld).
    pub fn lend_mut(&mut self, offset: u32) -> Result<&mut [u8], Refusal> {
        let (start, size) = (offset as usize, self.ask(offset)? as usize);
        // `ask` has seen that the payload is within the pool
        Ok(&mut self.bytes[start..start + size])
    }

    /// Whether the pool is sound, once more. Nobody but the pool writes outside its payloads while the buffer is lent, so this is refused
    /// only where the memory itself fails.
    pub fn inspect(&self) -> Result<(), Refusal> {
        inspect(self.bytes)
    }

    /// The seven figures.
    pub fn figures(&self) -> Result<Figures, Refusal> {
        let mut list = [0; 7];
        let result = raw::figures(self.bytes, &mut list);
        let held = answer(result, &[Refusal::NotAllowed, Refusal::NotSound])?;
        let [held_blocks, held_bytes, free_small, free_large, remainder, free_word, largest] = list;
        if held != held_blocks {
            return Err(Refusal::Unforeseen(result));
        }
        Ok(Figures {
            held_blocks,
            held_bytes,
            free_small,
            free_large,
            remainder,
            free_word,
            largest,
        })
    }

    /// How many held blocks there are of each size class: a block counts in the least class whose size is at least its payload.
    pub fn class_count(&self) -> Result<[u32; CLASSES], Refusal> {
        let mut counts = [0; CLASSES];
        let result = raw::class_count(self.bytes, &mut counts);
        answer(result, &[Refusal::NotAllowed, Refusal::NotSound])?;
        Ok(counts)
    }
}

impl fmt::Debug for Pool<'_> {
    fn fmt(&self, f: &mut fmt::Formatter) -> fmt::Result {
        f.debug_struct("Pool").field("n", &self.bytes.len()).finish()
    }
}

fn inspect(bytes: &[u8]) -> Result<(), Refusal> {
    let result = raw::inspect(bytes);
    same_length(answer(result, &[Refusal::NotAllowed, Refusal::NotSound])?, bytes.len(), result)
}

fn same_length(value: u32, n: usize, result: u64) -> Result<(), Refusal> {
    if value as usize == n {
        Ok(())
    } else {
        Err(Refusal::Unforeseen(result))
    }
}
