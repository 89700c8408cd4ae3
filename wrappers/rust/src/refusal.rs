//! Refusals.
use std::error::Error;
use std::fmt;

/// Why a call is refused, with its number in documents 01 and 02.
#[derive(Clone, Copy, Debug, PartialEq, Eq)]
pub enum Refusal {
    DoesNotFit = 1,
    Registers = 2,
    NoSuchWord = 3,
    NoSuchTarget = 4,
    BlockGone = 5,
    TargetGone = 6,
    NoFreeBlock = 7,
    Damage = 8,
    TooManyUnits = 9,
    NotWellFormed = 10,
    OtherLength = 13,
}

impl Refusal {
    /// The refusal of a number; none for 0. Another number is none of the library's, and panics.
    pub fn of(number: u32) -> Option<Refusal> {
        use Refusal::*;
        let all = [
            DoesNotFit,
            Registers,
            NoSuchWord,
            NoSuchTarget,
            BlockGone,
            TargetGone,
            NoFreeBlock,
            Damage,
            TooManyUnits,
            NotWellFormed,
            OtherLength,
        ];
        let found = || *all.iter().find(|refusal| refusal.number() == number).expect("a refusal of the library's");
        (number != 0).then(found)
    }

    /// The documents' number.
    pub fn number(self) -> u32 {
        self as u32
    }
}

impl fmt::Display for Refusal {
    fn fmt(&self, f: &mut fmt::Formatter<'_>) -> fmt::Result {
        f.write_str(match self {
            Refusal::DoesNotFit => "M, U or a buffer's length doesn't fit",
            Refusal::Registers => "the registers are not legal",
            Refusal::NoSuchWord => "there is no such block, word or field",
            Refusal::NoSuchTarget => "there is no such target",
            Refusal::BlockGone => "the block is free or doomed",
            Refusal::TargetGone => "the target is free or doomed",
            Refusal::NoFreeBlock => "too few blocks are free",
            Refusal::Damage => "the heap is damaged",
            Refusal::TooManyUnits => "too many units for one call",
            Refusal::NotWellFormed => "the heap is not well-formed, or the bytes are not the image of a heap that is",
            Refusal::OtherLength => "a buffer is too short, or the buffers are not of the image's lengths",
        })
    }
}

/// A refused call. It changed nothing, except that the units done before the refusal stand; only Work, Allocate and Allocate
/// chain have any.
#[derive(Clone, Copy, Debug, PartialEq, Eq)]
pub struct Refused {
    pub refusal: Refusal,
    pub units: u32,
}

impl Refused {
    /// Nothing for 0, else the refusal of this number.
    pub(crate) fn unless_zero(number: u32, units: u32) -> Result<(), Refused> {
        Refusal::of(number).map_or(Ok(()), |refusal| Err(Refused { refusal, units }))
    }
}

impl fmt::Display for Refused {
    fn fmt(&self, f: &mut fmt::Formatter<'_>) -> fmt::Result {
        write!(f, "refused by {}: {}", self.refusal.number(), self.refusal)
    }
}

impl Error for Refused {}
