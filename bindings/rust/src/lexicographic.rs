//! Old tables: terms in lexicographic order over a fixed alphabet. Widening the alphabet renumbers terms in this order.

use crate::{sys, Refusal, Repetition, Symbols};

impl Repetition {
    /// The lexicographic rank of a word over `nsymbols`: how many words of the family and length over `nsymbols` are earlier, the lowest
    /// position being the most significant. Unlike [`rank`](Repetition::rank) it changes when the alphabet is widened.
    ///
    /// # Errors
    ///
    /// [`TooWide`](Refusal::TooWide), [`NotMonotone`](Refusal::NotMonotone), [`Outside`](Refusal::Outside).
    ///
    /// # Examples
    ///
    /// ```
    /// use gudrenoss::{Refusal, Repetition};
    /// assert_eq!(Repetition::Allowed.lexicographic_rank(2, &[1, 1]), Ok(2));
    /// assert_eq!(Repetition::Allowed.lexicographic_rank(3, &[1, 1]), Ok(3));
    /// assert_eq!(Repetition::Forbidden.lexicographic_rank(4, &[5, 4]), Err(Refusal::NotMonotone { at: 1 }));
    /// ```
    pub fn lexicographic_rank(self, nsymbols: u64, word: &[u64]) -> Result<u64, Refusal> {
        sys::number(|rank| sys::gudrenoss_lex_rank(self.allowed(), nsymbols, word, rank))
    }

    /// The word of a lexicographic rank over `nsymbols`.
    ///
    /// # Errors
    ///
    /// [`TooWide`](Refusal::TooWide), [`NoSuchRank`](Refusal::NoSuchRank).
    ///
    /// # Examples
    ///
    /// ```
    /// use gudrenoss::{Refusal, Repetition};
    /// assert_eq!(Repetition::Allowed.word_from_lexicographic_rank(3, 2, 3)?, [1, 1]);
    /// # Ok::<(), Refusal>(())
    /// ```
    pub fn word_from_lexicographic_rank(self, nsymbols: u64, degree: u64, rank: u64) -> Result<Symbols, Refusal> {
        Symbols::filled(|word, written| {
            let allowed = self.allowed();
            Refusal::judge(sys::gudrenoss_lex_unrank(allowed, nsymbols, degree, rank, word, written))
        })
    }

    /// The next word of as many symbols over `nsymbols` in lexicographic order.
    ///
    /// # Errors
    ///
    /// [`TooWide`](Refusal::TooWide), [`NotMonotone`](Refusal::NotMonotone), [`Outside`](Refusal::Outside), [`Last`](Refusal::Last).
    ///
    /// # Examples
    ///
    /// ```
    /// use gudrenoss::{Refusal, Repetition};
    /// assert_eq!(Repetition::Allowed.lexicographic_successor(3, &[0, 2])?, [1, 1]);
    /// assert_eq!(Repetition::Allowed.lexicographic_successor(3, &[2, 2]), Err(Refusal::Last));
    /// # Ok::<(), Refusal>(())
    /// ```
    pub fn lexicographic_successor(self, nsymbols: u64, word: &[u64]) -> Result<Symbols, Refusal> {
        Symbols::filled(|next, written| {
            let allowed = self.allowed();
            Refusal::judge(sys::gudrenoss_lex_successor(allowed, nsymbols, word, next, written))
        })
    }

    /// The body of an old table, eight bytes an entry in lexicographic order, as that of a new one, by rank. Both have exactly the count
    /// of entries.
    ///
    /// # Errors
    ///
    /// [`TooWide`](Refusal::TooWide), [`Shape`](Refusal::Shape).
    ///
    /// # Examples
    ///
    /// ```
    /// use gudrenoss::{Refusal, Repetition};
    /// // Over three quantities the words of degree 2 are 00 01 02 11 12 22 in the old order, and 00 01 11 02 12 22 by rank.
    /// let old: Vec<u8> = (0..6).flat_map(|entry: u64| entry.to_le_bytes()).collect();
    /// let (mut new, mut again) = ([0; 48], [0; 48]);
    /// Repetition::Allowed.body_from_lexicographic(3, 2, &old, &mut new)?;
    /// assert_eq!([new[16], new[24]], [3, 2]);
    /// Repetition::Allowed.body_to_lexicographic(3, 2, &new, &mut again)?;
    /// assert_eq!(again[..], old[..]);
    /// assert_eq!(Repetition::Allowed.body_to_lexicographic(3, 2, &new[8..], &mut again), Err(Refusal::Shape));
    /// # Ok::<(), Refusal>(())
    /// ```
    pub fn body_from_lexicographic(self, nsymbols: u64, degree: u64, old: &[u8], new: &mut [u8]) -> Result<(), Refusal> {
        let allowed = self.allowed();
        sys::number(|written| sys::gudrenoss_lex_to_colex(allowed, nsymbols, degree, old, new, written)).map(drop)
    }

    /// The way back: the body of a table by rank, as one in lexicographic order. There and back gives the same bytes.
    ///
    /// # Errors
    ///
    /// [`TooWide`](Refusal::TooWide), [`Shape`](Refusal::Shape).
    pub fn body_to_lexicographic(self, nsymbols: u64, degree: u64, new: &[u8], old: &mut [u8]) -> Result<(), Refusal> {
        let allowed = self.allowed();
        sys::number(|written| sys::gudrenoss_lex_from_colex(allowed, nsymbols, degree, new, old, written)).map(drop)
    }
}
