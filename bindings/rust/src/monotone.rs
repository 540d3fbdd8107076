use crate::{sys, Refusal, RefusedAt, Sign, Symbols};
use core::fmt;
use core::iter::FusedIterator;

/// The two families of words: those that strictly increase, which are subsets, and those that weakly increase, which are multisets.
#[derive(Debug, Clone, Copy, PartialEq, Eq, Hash, PartialOrd, Ord, Default)]
pub enum Repetition {
    /// No symbol occurs twice.
    #[default]
    Forbidden,
    /// Symbols may repeat.
    Allowed,
}

impl fmt::Display for Repetition {
    fn fmt(&self, f: &mut fmt::Formatter<'_>) -> fmt::Result {
        f.write_str(if self.allowed() { "allowed" } else { "forbidden" })
    }
}

impl Repetition {
    pub(crate) fn allowed(self) -> bool {
        self == Repetition::Allowed
    }

    /// How many words have `degree` symbols below `nsymbols`.
    ///
    /// # Errors
    ///
    /// [`TooWide`](Refusal::TooWide).
    ///
    /// # Examples
    ///
    /// ```
    /// use gudrenoss::{Refusal, Repetition};
    /// assert_eq!(Repetition::Forbidden.count(4, 2), Ok(6));
    /// assert_eq!(Repetition::Allowed.count(1, 65), Err(Refusal::TooWide));
    /// ```
    pub fn count(self, nsymbols: u64, degree: u64) -> Result<u64, Refusal> {
        sys::number(|count| sys::gudrenoss_count(self.allowed(), nsymbols, degree, count))
    }

    /// The rank of a word: how many words of the family and length are earlier.
    ///
    /// # Errors
    ///
    /// [`TooWide`](Refusal::TooWide), [`NotMonotone`](Refusal::NotMonotone).
    pub fn rank(self, word: &[u64]) -> Result<u64, Refusal> {
        sys::number(|rank| sys::gudrenoss_rank(self.allowed(), word, rank))
    }

    /// The ranks of many indices over `nsymbols`, each given by its bits, written to `ranks`; none is written unless all are. The answer is
    /// how many there are.
    ///
    /// # Errors
    ///
    /// That of the first index that is none, [`TooWide`](Refusal::TooWide) or [`Outside`](Refusal::Outside), with its position;
    /// [`Shape`](Refusal::Shape) with the first position for which `ranks` has no place.
    ///
    /// ```
    /// # use gudrenoss::{RefusedAt, Refusal, Repetition};
    /// let mut ranks = [0; 2];
    /// assert_eq!(Repetition::Forbidden.rank_all(4, &[10, 3], &mut ranks), Ok(2));
    /// assert_eq!(ranks, [4, 0]);
    /// let refused = RefusedAt { refusal: Refusal::Outside, position: 1 };
    /// assert_eq!(Repetition::Forbidden.rank_all(4, &[10, 16], &mut ranks), Err(refused));
    /// ```
    pub fn rank_all(self, nsymbols: u64, bits: &[u64], ranks: &mut [u64]) -> Result<u64, RefusedAt> {
        let mut written = 0;
        let back = sys::gudrenoss_rank_all(self.allowed(), nsymbols, bits, ranks, &mut written);
        RefusedAt::judge(back.number, back.at).map(|()| written)
    }

    /// The word of a rank.
    ///
    /// # Errors
    ///
    /// [`TooWide`](Refusal::TooWide), [`NoSuchRank`](Refusal::NoSuchRank).
    ///
    /// # Examples
    ///
    /// ```
    /// use gudrenoss::{Refusal, Repetition};
    /// assert_eq!(Repetition::Allowed.word_from_rank(3, 2, 3)?, [0, 2]);
    /// assert_eq!(Repetition::Allowed.word_from_rank(2, 2, 3), Err(Refusal::NoSuchRank));
    /// # Ok::<(), Refusal>(())
    /// ```
    pub fn word_from_rank(self, nsymbols: u64, degree: u64, rank: u64) -> Result<Symbols, Refusal> {
        Symbols::filled(|word, written| {
            let allowed = self.allowed();
            Refusal::judge(sys::gudrenoss_unrank(allowed, nsymbols, degree, rank, word, written))
        })
    }
}

/// A word of a family over the symbols below `nsymbols`, as the bits of its shifted symbols. One that holds no such word cannot be made:
/// every way to one is checked.
#[derive(Debug, Clone, Copy, PartialEq, Eq, Hash, PartialOrd, Ord, Default)]
#[must_use]
pub struct MonoIndex {
    repetition: Repetition,
    nsymbols: u64,
    shifted: u64,
}

impl MonoIndex {
    /// The index of a word over `nsymbols`.
    ///
    /// # Errors
    ///
    /// [`TooWide`](Refusal::TooWide), [`NotMonotone`](Refusal::NotMonotone), [`Outside`](Refusal::Outside).
    ///
    /// # Examples
    ///
    /// ```
    /// use gudrenoss::{MonoIndex, Refusal, Repetition};
    /// let term = MonoIndex::new(Repetition::Allowed, 3, &[0, 2])?;
    /// assert_eq!((term.nsymbols(), term.shifted_bits(), term.degree(), term.rank()), (3, 9, 2, 3));
    /// assert_eq!(MonoIndex::new(Repetition::Allowed, 2, &[0, 2]), Err(Refusal::Outside));
    /// # Ok::<(), Refusal>(())
    /// ```
    pub fn new(repetition: Repetition, nsymbols: u64, word: &[u64]) -> Result<Self, Refusal> {
        Self::given(repetition, |alphabet, bits| {
            sys::gudrenoss_pack(repetition.allowed(), nsymbols, word, alphabet, bits)
        })
    }

    /// The index over `nsymbols` with these bits. `MonoIndex::try_from((repetition, nsymbols, bits))` is the same.
    ///
    /// # Errors
    ///
    /// [`TooWide`](Refusal::TooWide), [`Outside`](Refusal::Outside).
    ///
    /// # Examples
    ///
    /// ```
    /// use gudrenoss::{MonoIndex, Refusal, Repetition};
    /// assert_eq!(MonoIndex::from_bits(Repetition::Forbidden, 3, 5)?.word(), [0, 2]);
    /// assert_eq!(MonoIndex::from_bits(Repetition::Forbidden, 2, 5), Err(Refusal::Outside));
    /// # Ok::<(), Refusal>(())
    /// ```
    pub fn from_bits(repetition: Repetition, nsymbols: u64, bits: u64) -> Result<Self, Refusal> {
        sys::number(|degree| sys::gudrenoss_degree(repetition.allowed(), nsymbols, bits, degree))?;
        Ok(MonoIndex {
            repetition,
            nsymbols,
            shifted: bits,
        })
    }

    /// The index over `nsymbols` of a word in any order, with the sign of sorting it.
    ///
    /// # Errors
    ///
    /// [`TooWide`](Refusal::TooWide), [`Repeated`](Refusal::Repeated), [`Outside`](Refusal::Outside).
    pub fn from_word(repetition: Repetition, nsymbols: u64, word: &[u64]) -> Result<(Sign, Self), Refusal> {
        Self::signed(repetition, |minus, alphabet, bits| {
            sys::gudrenoss_canonicalise(repetition.allowed(), nsymbols, word, minus, alphabet, bits)
        })
    }

    /// The index of a degree and rank, where no alphabet is named: over the largest that leaves room, which is 64, or 65 less the degree
    /// where symbols may repeat.
    ///
    /// # Errors
    ///
    /// [`TooWide`](Refusal::TooWide), [`NoSuchRank`](Refusal::NoSuchRank).
    pub fn from_rank(repetition: Repetition, degree: u64, rank: u64) -> Result<Self, Refusal> {
        Self::given(repetition, |alphabet, bits| {
            sys::gudrenoss_unrank_any(repetition.allowed(), degree, rank, alphabet, bits)
        })
    }

    /// The index of a degree and rank over `nsymbols`.
    ///
    /// # Errors
    ///
    /// [`TooWide`](Refusal::TooWide), [`NoSuchRank`](Refusal::NoSuchRank).
    pub fn from_rank_over(repetition: Repetition, nsymbols: u64, degree: u64, rank: u64) -> Result<Self, Refusal> {
        Self::given(repetition, |alphabet, bits| {
            sys::gudrenoss_unrank_over(repetition.allowed(), nsymbols, degree, rank, alphabet, bits)
        })
    }

    /// Its family.
    #[must_use]
    pub fn repetition(self) -> Repetition {
        self.repetition
    }

    /// Its alphabet: every symbol of its word is below this.
    #[must_use]
    pub fn nsymbols(self) -> u64 {
        self.nsymbols
    }

    /// Its bits: one for each shifted symbol.
    #[must_use]
    pub fn shifted_bits(self) -> u64 {
        self.shifted
    }

    /// How many symbols its word has.
    #[must_use]
    pub fn degree(self) -> u64 {
        sys::number(|degree| sys::gudrenoss_degree(self.allowed(), self.nsymbols, self.shifted, degree)).expect(CHECKED)
    }

    /// Its word.
    pub fn word(self) -> Symbols {
        Symbols::filled(|word, written| {
            Refusal::judge(sys::gudrenoss_unpack(
                self.allowed(),
                self.nsymbols,
                self.shifted,
                word,
                written,
            ))
        })
        .expect(CHECKED)
    }

    /// The symbol at a position.
    ///
    /// # Errors
    ///
    /// [`Outside`](Refusal::Outside).
    pub fn symbol(self, position: u64) -> Result<u64, Refusal> {
        sys::number(|symbol| sys::gudrenoss_symbol(self.allowed(), self.nsymbols, self.shifted, position, symbol))
    }

    /// Its rank: how many words of the family and degree are earlier. It does not depend on the alphabet.
    #[must_use]
    pub fn rank(self) -> u64 {
        sys::number(|rank| sys::gudrenoss_rank_of(self.allowed(), self.nsymbols, self.shifted, rank)).expect(CHECKED)
    }

    /// The product of the factorials of the multiplicities.
    ///
    /// # Errors
    ///
    /// [`TooBig`](Refusal::TooBig).
    pub fn stabilizer(self) -> Result<u64, Refusal> {
        sys::number(|stabilizer| sys::gudrenoss_stabilizer(self.allowed(), self.nsymbols, self.shifted, stabilizer))
    }

    /// The next index of the family, alphabet and degree.
    ///
    /// # Errors
    ///
    /// [`Last`](Refusal::Last).
    pub fn colex_successor(self) -> Result<Self, Refusal> {
        Self::given(self.repetition, |alphabet, bits| {
            sys::gudrenoss_successor(self.allowed(), self.nsymbols, self.shifted, alphabet, bits)
        })
    }

    /// All indices of a family and degree over `nsymbols`, in order of rank.
    ///
    /// # Errors
    ///
    /// [`TooWide`](Refusal::TooWide).
    pub fn all(repetition: Repetition, nsymbols: u64, degree: u64) -> Result<MonoIndices, Refusal> {
        let (mut standing, mut over, mut at, mut remaining) = (false, 0, 0, 0);
        Refusal::judge(sys::gudrenoss_walk_start(
            repetition.allowed(),
            nsymbols,
            degree,
            &mut standing,
            &mut over,
            &mut at,
            &mut remaining,
        ))?;
        Ok(MonoIndices {
            repetition,
            standing,
            over,
            at,
            remaining,
        })
    }

    /// The two words joined into one sorted word over the larger alphabet, with the sign of that.
    ///
    /// # Errors
    ///
    /// [`Family`](Refusal::Family), [`Repeated`](Refusal::Repeated), [`TooWide`](Refusal::TooWide).
    ///
    /// # Examples
    ///
    /// ```
    /// use gudrenoss::{MonoIndex, Repetition, Sign};
    /// let set = |nsymbols, bits| MonoIndex::from_bits(Repetition::Forbidden, nsymbols, bits);
    /// assert_eq!(set(2, 2)?.merge(set(5, 1)?)?, (Sign::Neg, set(5, 3)?));
    /// # Ok::<(), gudrenoss::Refusal>(())
    /// ```
    pub fn merge(self, other: Self) -> Result<(Sign, Self), Refusal> {
        Self::signed(self.repetition, |minus, alphabet, bits| {
            sys::gudrenoss_merge(
                self.allowed(),
                self.nsymbols,
                self.shifted,
                other.allowed(),
                other.nsymbols,
                other.shifted,
                minus,
                alphabet,
                bits,
            )
        })
    }

    /// The word without the symbol at a position: the sign, the symbol, and what is left, over the same alphabet.
    ///
    /// # Errors
    ///
    /// [`Outside`](Refusal::Outside).
    pub fn deletion(self, position: u64) -> Result<(Sign, u64, Self), Refusal> {
        let mut symbol = 0;
        let (sign, rest) = Self::signed(self.repetition, |minus, alphabet, bits| {
            sys::gudrenoss_delete(
                self.allowed(),
                self.nsymbols,
                self.shifted,
                position,
                minus,
                &mut symbol,
                alphabet,
                bits,
            )
        })?;
        Ok((sign, symbol, rest))
    }

    /// The symbols below `nsymbols` that the set does not have, over `nsymbols`, with the sign of the set followed by them. The set's own
    /// alphabet may be another.
    ///
    /// # Errors
    ///
    /// [`Family`](Refusal::Family), [`TooWide`](Refusal::TooWide), [`Outside`](Refusal::Outside).
    pub fn complement_signed(self, nsymbols: u64) -> Result<(Sign, Self), Refusal> {
        Self::signed(Repetition::Forbidden, |minus, alphabet, bits| {
            sys::gudrenoss_complement(self.allowed(), self.nsymbols, self.shifted, nsymbols, minus, alphabet, bits)
        })
    }

    fn allowed(self) -> bool {
        self.repetition.allowed()
    }

    /// The index that a call gives; the library gives no other than one that holds a word over its alphabet (proved).
    fn given(repetition: Repetition, call: impl FnOnce(&mut u64, &mut u64) -> sys::Status) -> Result<Self, Refusal> {
        let (mut nsymbols, mut shifted) = (0, 0);
        Refusal::judge(call(&mut nsymbols, &mut shifted))?;
        Ok(MonoIndex {
            repetition,
            nsymbols,
            shifted,
        })
    }

    fn signed(
        repetition: Repetition,
        call: impl FnOnce(&mut bool, &mut u64, &mut u64) -> sys::Status,
    ) -> Result<(Sign, Self), Refusal> {
        let mut minus = false;
        let index = Self::given(repetition, |alphabet, bits| call(&mut minus, alphabet, bits))?;
        Ok((Sign::from_minus(minus), index))
    }
}

/// Why a call on an index that was made cannot be refused.
const CHECKED: &str = "an index holds a word over its alphabet";

impl TryFrom<(Repetition, u64, u64)> for MonoIndex {
    type Error = Refusal;

    /// The index with this family, alphabet and these bits, as [`MonoIndex::from_bits`] makes it.
    fn try_from((repetition, nsymbols, bits): (Repetition, u64, u64)) -> Result<Self, Refusal> {
        MonoIndex::from_bits(repetition, nsymbols, bits)
    }
}

/// A walk through all indices of a family, alphabet and degree, in order of rank.
#[derive(Debug, Clone)]
#[must_use]
pub struct MonoIndices {
    repetition: Repetition,
    standing: bool,
    over: u64,
    at: u64,
    remaining: u64,
}

impl MonoIndices {
    /// How many indices it has still to give.
    #[must_use]
    pub fn remaining(&self) -> u64 {
        self.remaining
    }

    /// The next index.
    ///
    /// # Errors
    ///
    /// [`Last`](Refusal::Last) when the walk is finished.
    pub fn step(&mut self) -> Result<MonoIndex, Refusal> {
        MonoIndex::given(self.repetition, |alphabet, bits| {
            sys::gudrenoss_walk_step(
                self.repetition.allowed(),
                &mut self.standing,
                &mut self.over,
                &mut self.at,
                &mut self.remaining,
                alphabet,
                bits,
            )
        })
    }
}

impl Iterator for MonoIndices {
    type Item = MonoIndex;
    fn next(&mut self) -> Option<MonoIndex> {
        self.step().ok()
    }
    fn size_hint(&self) -> (usize, Option<usize>) {
        (self.remaining as usize, Some(self.remaining as usize))
    }
}

impl ExactSizeIterator for MonoIndices {}

impl FusedIterator for MonoIndices {}
