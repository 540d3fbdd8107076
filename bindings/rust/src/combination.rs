use crate::{sys, MonoIndex, Refusal, Repetition};
use core::fmt;
use core::iter::FusedIterator;

/// A set of symbols below 64, as bits. Its rank, signed union, complement and deletions are those of the [`MonoIndex`] it turns into.
///
/// ```
/// use gudrenoss::Combination;
///
/// let live = Combination::from_bits(0b101010);
/// assert_eq!(live.position_of(3)?, 1);
/// assert_eq!(live.select(Combination::from_bits(0b101))?.bits(), 0b100010);
/// assert_eq!(live.iter().collect::<Vec<_>>(), [1, 3, 5]);
/// assert_eq!(live.to_string(), "{1, 3, 5}");
/// # Ok::<(), gudrenoss::Refusal>(())
/// ```
#[derive(Debug, Clone, Copy, PartialEq, Eq, Hash, PartialOrd, Ord, Default)]
#[must_use]
pub struct Combination(u64);

impl Combination {
    /// The set whose members are the ones of `bits`.
    pub fn from_bits(bits: u64) -> Self {
        Combination(bits)
    }

    /// The members as bits.
    #[must_use]
    pub fn bits(self) -> u64 {
        self.0
    }

    /// Whether `index` is a member; from 64 up it is not.
    #[must_use]
    pub fn contains(self, index: u64) -> bool {
        let mut contains = false;
        let _ = sys::gudrenoss_set_contains(self.0, index, &mut contains);
        contains
    }

    /// The set with `index`.
    ///
    /// # Errors
    ///
    /// [`Outside`](Refusal::Outside) above 63, [`Repeated`](Refusal::Repeated) if it is a member.
    pub fn inserted(self, index: u64) -> Result<Self, Refusal> {
        sys::number(|with| sys::gudrenoss_set_insert(self.0, index, with)).map(Combination)
    }

    /// How many members are below the member `index`.
    ///
    /// # Errors
    ///
    /// [`Outside`](Refusal::Outside) if it is not a member.
    pub fn position_of(self, index: u64) -> Result<u64, Refusal> {
        sys::number(|position| sys::gudrenoss_set_position(self.0, index, position))
    }

    /// The members at the given positions.
    ///
    /// # Errors
    ///
    /// [`Outside`](Refusal::Outside) if a position is not below the number of members.
    pub fn select(self, positions: Combination) -> Result<Self, Refusal> {
        sys::number(|selected| sys::gudrenoss_set_select(self.0, positions.0, selected)).map(Combination)
    }

    /// The members, lowest first.
    pub fn iter(self) -> Members {
        Members(self.0)
    }

    /// How many sets of as many members are earlier.
    #[must_use]
    pub fn rank(self) -> u64 {
        MonoIndex::from(self).rank()
    }
}

impl fmt::Display for Combination {
    fn fmt(&self, f: &mut fmt::Formatter<'_>) -> fmt::Result {
        f.debug_set().entries(*self).finish()
    }
}

impl IntoIterator for Combination {
    type Item = u64;
    type IntoIter = Members;
    fn into_iter(self) -> Members {
        self.iter()
    }
}

/// The members of a [`Combination`], lowest first.
#[derive(Debug, Clone)]
#[must_use]
pub struct Members(u64);

impl Iterator for Members {
    type Item = u64;
    fn next(&mut self) -> Option<u64> {
        let lowest = self.0.trailing_zeros();
        self.0 &= self.0.wrapping_sub(1);
        (lowest < 64).then_some(u64::from(lowest))
    }
    fn size_hint(&self) -> (usize, Option<usize>) {
        (self.0.count_ones() as usize, Some(self.0.count_ones() as usize))
    }
}

impl ExactSizeIterator for Members {}

impl FusedIterator for Members {}

impl From<Combination> for MonoIndex {
    /// The set as an index over 64, which every set is.
    fn from(set: Combination) -> MonoIndex {
        MonoIndex::from_bits(Repetition::Forbidden, 64, set.0).expect("every set is a word over 64")
    }
}
