//! The refusals, and what is believed of the library's answers.

use core::fmt;

/// Why a call was refused. The paper's number 6, `POOL_LIST_LENGTH` for C, cannot be met here: the lists are arrays.
#[derive(Clone, Copy, Debug, PartialEq, Eq)]
pub enum Refusal {
    /// 1: the length is not a multiple of 8 from 176 to 65,536.
    NotAllowed,
    /// 2: the pool is not sound. Or version 0.5 or an older one has stored it: [`Pool::bring_in`](crate::Pool::bring_in) takes such a pool, and
    /// refuses one that was never sound.
    NotSound,
    /// 3: the size is 0.
    SizeZero,
    /// 4: no room by the grant rule.
    NoRoom,
    /// 5: the offset is not the start of a held payload.
    NotHeld,
    /// 8: the number is no layout's. Only [`Layout::new`](crate::Layout::new) meets it.
    NoLayout,
    /// 10: the piston is above 31.
    NoPiston,
    /// 11: the kind is unknown, or the body has another length than its kind says. Only [`Record::new`](crate::Record::new) meets it.
    NoRecord,
    /// 12: the bank names an offset that is not held, or one offset twice; or the recalled record does not read. [`Bank`](crate::Bank) says
    /// what to do.
    NotNamed,
    /// 13: the pool has not the layout that was named as its old one. It is sound, so it has the other one.
    OtherLayout,
    /// The library answered what its contract rules out, so it is not the proved one. The answer as it came.
    Unforeseen(u64),
}

impl Refusal {
    /// The paper's number of the refusal; an unforeseen answer has none.
    pub fn number(self) -> Option<u32> {
        match self {
            Refusal::NotAllowed => Some(1),
            Refusal::NotSound => Some(2),
            Refusal::SizeZero => Some(3),
            Refusal::NoRoom => Some(4),
            Refusal::NotHeld => Some(5),
            Refusal::NoLayout => Some(8),
            Refusal::NoPiston => Some(10),
            Refusal::NoRecord => Some(11),
            Refusal::NotNamed => Some(12),
            Refusal::OtherLayout => Some(13),
            Refusal::Unforeseen(_) => None,
        }
    }
}

impl fmt::Display for Refusal {
    fn fmt(&self, f: &mut fmt::Formatter) -> fmt::Result {
        match self {
            Refusal::NotAllowed => {
                write!(f, "the length is not a multiple of 8 from 176 to 65,536")
            }
            Refusal::NotSound => write!(f, "the pool is not sound"),
            Refusal::SizeZero => write!(f, "the size is 0"),
            Refusal::NoRoom => write!(f, "no room by the grant rule"),
            Refusal::NotHeld => write!(f, "the offset is not the start of a held payload"),
            Refusal::NoLayout => write!(f, "the layout's number is neither 1 nor 2"),
            Refusal::NoPiston => write!(f, "the piston is above 31"),
            Refusal::NoRecord => write!(f, "the kind is unknown, or its body has another length"),
            Refusal::NotNamed => {
                write!(f, "the bank names an offset that is not held, or one twice, or no record")
            }
            Refusal::OtherLayout => {
                write!(f, "the pool has not the layout that was named as its old one")
            }
            Refusal::Unforeseen(result) => {
                write!(f, "the library answered {result:#x}, which its contract rules out")
            }
        }
    }
}

#[cfg(feature = "std")]
impl std::error::Error for Refusal {}

/// The value of a call that is done, or the refusal, where it is one that the call may give.
pub(crate) fn answer(result: u64, may: &[Refusal]) -> Result<u32, Refusal> {
    let (number, value) = ((result >> 32) as u32, result as u32);
    if number == 0 {
        return Ok(value);
    }
    match may.iter().find(|refusal| refusal.number() == Some(number)) {
        Some(refusal) if value == 0 => Err(*refusal),
        _ => Err(Refusal::Unforeseen(result)),
    }
}

/// A payload of a sound pool of n bytes lies within it, past the header.
pub(crate) fn within(n: usize, offset: u32, size: u32, result: u64) -> Result<(), Refusal> {
    match (offset as usize).checked_add(size as usize) {
        Some(end) if 168 < offset && end <= n => Ok(()),
        _ => Err(Refusal::Unforeseen(result)),
    }
}

#[cfg(test)]
mod tests {
    use super::*;
    use std::string::ToString;

    const MAY: [Refusal; 2] = [Refusal::NotAllowed, Refusal::NotHeld];

    #[test]
    fn an_answer_is_a_value_or_a_refusal_that_the_call_may_give() {
        assert_eq!(answer(0, &MAY), Ok(0));
        assert_eq!(answer(0xFFFF_FFFF, &MAY), Ok(0xFFFF_FFFF));
        assert_eq!(answer(1 << 32, &MAY), Err(Refusal::NotAllowed));
        assert_eq!(answer(5 << 32, &MAY), Err(Refusal::NotHeld));
    }

    #[test]
    fn any_other_answer_is_unforeseen() {
        for result in
            [2 << 32, 6 << 32, 7 << 32, 12 << 32, 13 << 32, 1 << 63, (5 << 32) + 1, u64::MAX]
        {
            assert_eq!(answer(result, &MAY), Err(Refusal::Unforeseen(result)));
        }
    }

    #[test]
    fn a_payload_outside_the_pool_is_unforeseen() {
        assert_eq!(within(1024, 172, 852, 9), Ok(()));
        for (offset, size) in [(172, 853), (168, 4), (0, 4), (1024, 1), (u32::MAX, u32::MAX)] {
            assert_eq!(within(1024, offset, size, 9), Err(Refusal::Unforeseen(9)));
        }
    }

    #[test]
    fn refusals_say_their_number_and_why() {
        let numbers = [
            Refusal::NotAllowed,
            Refusal::NotSound,
            Refusal::SizeZero,
            Refusal::NoRoom,
            Refusal::NotHeld,
            Refusal::NoLayout,
            Refusal::NoPiston,
            Refusal::NoRecord,
            Refusal::NotNamed,
            Refusal::OtherLayout,
        ]
        .map(|r| r.number());
        assert_eq!(numbers, [1, 2, 3, 4, 5, 8, 10, 11, 12, 13].map(Some));
        assert_eq!(Refusal::Unforeseen(7 << 32).number(), None);
        assert_eq!(Refusal::NotHeld.to_string(), "the offset is not the start of a held payload");
        assert_eq!(Refusal::NoLayout.to_string(), "the layout's number is neither 1 nor 2");
        assert_eq!(
            Refusal::OtherLayout.to_string(),
            "the pool has not the layout that was named as its old one"
        );
        assert_eq!(
            Refusal::Unforeseen(16).to_string(),
            "the library answered 0x10, which its contract rules out"
        );
    }
}
