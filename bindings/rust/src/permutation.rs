use crate::symbols::listed;
use crate::sys::CAPACITY;
use crate::{sys, Refusal, Sign};
use core::fmt;
use core::hash::{Hash, Hasher};

/// A permutation of at most 64 entries: it sends `i` to entry `i`. Those of at most twenty are numbered: in order of rank the
/// decreasing one is first and the identity last. Every call judges the entries that it is given: [`TooWide`](Refusal::TooWide) if
/// there are more than 64, or more than twenty where a rank is asked for, and [`NotAPermutation`](Refusal::NotAPermutation) if they
/// are no bijection.
///
/// ```
/// use gudrenoss::{Permutation, Refusal};
///
/// let p = Permutation::new(&[0, 2, 1]);
/// assert_eq!(p.rank(), Ok(3));
/// assert_eq!(Permutation::from_rank(3, 3), Ok(p));
/// assert_eq!(Permutation::new(&[1, 1]).sign(), Err(Refusal::NotAPermutation));
/// ```
#[derive(Clone, Copy)]
#[must_use]
pub struct Permutation(sys::Record);

impl Permutation {
    /// The permutation with these entries. They are not judged here; of more than 64 only the number is kept.
    pub fn new(entries: &[u64]) -> Self {
        let mut kept = [0; CAPACITY];
        kept.iter_mut().zip(entries).for_each(|(place, &entry)| *place = entry);
        Permutation(sys::Record {
            entries: kept,
            len: entries.len() as u64,
        })
    }

    /// The permutation with these entries, judged.
    ///
    /// # Errors
    ///
    /// [`TooWide`](Refusal::TooWide), [`NotAPermutation`](Refusal::NotAPermutation).
    pub fn new_checked(entries: &[u64]) -> Result<Self, Refusal> {
        let p = Permutation::new(entries);
        p.sign().map(|_| p)
    }

    /// The permutation of length `n` at a rank.
    ///
    /// # Errors
    ///
    /// [`TooWide`](Refusal::TooWide), [`NoSuchRank`](Refusal::NoSuchRank).
    pub fn from_rank(n: u64, rank: u64) -> Result<Self, Refusal> {
        Self::given(|entries, len| sys::gudrenoss_permutation_unrank(n, rank, entries, len))
    }

    /// The number of entries.
    #[must_use]
    pub fn len(&self) -> u64 {
        self.0.len
    }

    /// Whether it has no entries.
    #[must_use]
    pub fn is_empty(&self) -> bool {
        self.0.len == 0
    }

    /// The entries, at most 64.
    #[must_use]
    pub fn parts(&self) -> &[u64] {
        &self.0.entries[..self.0.len.min(CAPACITY as u64) as usize]
    }

    /// Where it sends `i`.
    ///
    /// # Errors
    ///
    /// [`TooWide`](Refusal::TooWide), [`NotAPermutation`](Refusal::NotAPermutation), [`Outside`](Refusal::Outside).
    pub fn apply(&self, i: u64) -> Result<u64, Refusal> {
        sys::number(|entry| sys::gudrenoss_permutation_image(&self.0.entries, self.0.len, i, entry))
    }

    /// The inverse.
    ///
    /// # Errors
    ///
    /// [`TooWide`](Refusal::TooWide), [`NotAPermutation`](Refusal::NotAPermutation).
    pub fn inverse(&self) -> Result<Self, Refusal> {
        Self::given(|entries, len| sys::gudrenoss_permutation_inverse(&self.0.entries, self.0.len, entries, len))
    }

    /// This one after the other: it sends `i` to `self(other(i))`.
    ///
    /// # Errors
    ///
    /// [`TooWide`](Refusal::TooWide), [`Shape`](Refusal::Shape), [`NotAPermutation`](Refusal::NotAPermutation).
    pub fn compose(&self, other: &Self) -> Result<Self, Refusal> {
        let (p, q) = (&self.0, &other.0);
        Self::given(|entries, len| sys::gudrenoss_permutation_compose(&p.entries, p.len, &q.entries, q.len, entries, len))
    }

    /// The sign of the number of inversions.
    ///
    /// # Errors
    ///
    /// [`TooWide`](Refusal::TooWide), [`NotAPermutation`](Refusal::NotAPermutation).
    pub fn sign(&self) -> Result<Sign, Refusal> {
        let mut minus = false;
        Refusal::judge(sys::gudrenoss_permutation_sign(&self.0.entries, self.0.len, &mut minus))?;
        Ok(Sign::from_minus(minus))
    }

    /// The rank.
    ///
    /// # Errors
    ///
    /// [`TooWide`](Refusal::TooWide), [`NotAPermutation`](Refusal::NotAPermutation).
    pub fn rank(&self) -> Result<u64, Refusal> {
        sys::number(|rank| sys::gudrenoss_permutation_rank(&self.0.entries, self.0.len, rank))
    }

    /// The permutation of the next rank.
    ///
    /// # Errors
    ///
    /// [`TooWide`](Refusal::TooWide), [`NotAPermutation`](Refusal::NotAPermutation), [`Last`](Refusal::Last).
    pub fn successor(&self) -> Result<Self, Refusal> {
        Self::given(|entries, len| sys::gudrenoss_permutation_successor(&self.0.entries, self.0.len, entries, len))
    }

    fn given(call: impl FnOnce(&mut [u64; CAPACITY], &mut u64) -> sys::Status) -> Result<Self, Refusal> {
        let mut record = sys::Record {
            entries: [0; CAPACITY],
            len: 0,
        };
        Refusal::judge(call(&mut record.entries, &mut record.len))?;
        Ok(Permutation(record))
    }
}

// Past the length stand zeros in every record that is made here, so two are the same exactly if their entries and lengths are.
impl PartialEq for Permutation {
    fn eq(&self, other: &Self) -> bool {
        self.0.len == other.0.len && self.0.entries == other.0.entries
    }
}

impl Eq for Permutation {}

impl Hash for Permutation {
    fn hash<H: Hasher>(&self, state: &mut H) {
        self.0.len.hash(state);
        self.parts().hash(state);
    }
}

impl fmt::Display for Permutation {
    fn fmt(&self, f: &mut fmt::Formatter<'_>) -> fmt::Result {
        listed(f, self.parts())
    }
}

impl fmt::Debug for Permutation {
    fn fmt(&self, f: &mut fmt::Formatter<'_>) -> fmt::Result {
        f.debug_list().entries(self.parts()).finish()
    }
}
