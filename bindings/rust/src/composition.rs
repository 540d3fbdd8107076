use crate::{sys, Refusal, Symbols};
use core::fmt;
use core::ops::Add;

/// A list of exponents: entry e at symbol s stands for the multiset in which s occurs e times. It has at most 64 entries, of sum at
/// most 64, and its word fits into an index; a list that passes these limits is refused as [`TooWide`](Refusal::TooWide).
///
/// ```
/// use gudrenoss::Composition;
///
/// let term = Composition::new(&[1, 0, 2])?;
/// assert_eq!(term.word()?, [0, 2, 2]);
/// assert_eq!((&term + &Composition::new(&[0, 3, 1])?)?.parts(), [1, 3, 3]);
/// # Ok::<(), gudrenoss::Refusal>(())
/// ```
#[derive(Debug, Clone, Copy, PartialEq, Eq, Hash)]
#[must_use]
pub struct Composition {
    parts: Symbols,
}

impl Composition {
    /// The list with these entries.
    ///
    /// # Errors
    ///
    /// [`TooWide`](Refusal::TooWide).
    pub fn new(parts: &[u64]) -> Result<Self, Refusal> {
        sys::number(|rank| sys::gudrenoss_exponents_rank(parts, rank)).map(|_| Composition {
            parts: Symbols::copied(parts),
        })
    }

    /// The list of `nparts` entries of a word in any order.
    ///
    /// # Errors
    ///
    /// [`TooWide`](Refusal::TooWide), [`Outside`](Refusal::Outside).
    pub fn from_word(nparts: u64, word: &[u64]) -> Result<Self, Refusal> {
        Self::filled(|entries, written| sys::gudrenoss_exponents_from_word(nparts, word, entries, written))
    }

    /// The list of `nparts` entries and sum `degree` at a rank.
    ///
    /// # Errors
    ///
    /// [`TooWide`](Refusal::TooWide), [`NoSuchRank`](Refusal::NoSuchRank).
    pub fn from_rank(nparts: u64, degree: u64, rank: u64) -> Result<Self, Refusal> {
        Self::filled(|entries, written| sys::gudrenoss_exponents_from_rank(nparts, degree, rank, entries, written))
    }

    /// The entries.
    #[must_use]
    pub fn parts(&self) -> &[u64] {
        &self.parts
    }

    /// The number of entries.
    #[must_use]
    pub fn nparts(&self) -> usize {
        self.parts.len()
    }

    /// The sum of the entries.
    #[must_use]
    pub fn degree(&self) -> u64 {
        self.parts.iter().sum()
    }

    /// The word: each symbol as often as its entry says.
    ///
    /// # Errors
    ///
    /// [`TooWide`](Refusal::TooWide), which no list made here is.
    pub fn word(&self) -> Result<Symbols, Refusal> {
        Symbols::filled(|word, written| Refusal::judge(sys::gudrenoss_exponents_word(&self.parts, word, written)))
    }

    /// The rank of the word.
    ///
    /// # Errors
    ///
    /// [`TooWide`](Refusal::TooWide), which no list made here is.
    pub fn rank(&self) -> Result<u64, Refusal> {
        sys::number(|rank| sys::gudrenoss_exponents_rank(&self.parts, rank))
    }

    fn filled(call: impl FnOnce(&mut [u64], &mut u64) -> sys::Status) -> Result<Self, Refusal> {
        let parts = Symbols::filled(|entries, written| Refusal::judge(call(entries, written)))?;
        Ok(Composition { parts })
    }
}

impl fmt::Display for Composition {
    fn fmt(&self, f: &mut fmt::Formatter<'_>) -> fmt::Result {
        self.parts.fmt(f)
    }
}

impl Add for &Composition {
    type Output = Result<Composition, Refusal>;
    /// The sum, which is the product of the terms.
    ///
    /// # Errors
    ///
    /// [`Shape`](Refusal::Shape), [`TooWide`](Refusal::TooWide).
    fn add(self, other: &Composition) -> Result<Composition, Refusal> {
        Composition::filled(|entries, written| sys::gudrenoss_exponents_add(&self.parts, &other.parts, entries, written))
    }
}
