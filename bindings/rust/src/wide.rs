//! Wide indices: a shifted alphabet up to 128, in 128 bits, with no alphabet of their own. Counts and ranks are `u64` here too.

use crate::{sys, MonoIndex, Refusal, Repetition, Sign, Symbols};

impl Repetition {
    /// How many words have `degree` symbols below `nsymbols`, with a shifted alphabet up to 128.
    ///
    /// # Errors
    ///
    /// [`TooWide`](Refusal::TooWide), [`TooBig`](Refusal::TooBig) where there are 2^64 or more.
    ///
    /// # Examples
    ///
    /// ```
    /// use gudrenoss::{Refusal, Repetition};
    /// assert_eq!(Repetition::Allowed.wide_count(127, 2), Ok(8128));
    /// assert_eq!(Repetition::Forbidden.wide_count(128, 16), Err(Refusal::TooBig));
    /// assert_eq!(Repetition::Forbidden.wide_count(129, 0), Err(Refusal::TooWide));
    /// ```
    pub fn wide_count(self, nsymbols: u64, degree: u64) -> Result<u64, Refusal> {
        sys::number(|count| sys::gudrenoss_wide_count(self.allowed(), nsymbols, degree, count))
    }

    /// The rank of a word whose shifted symbols are below 128. Where [`rank`](Repetition::rank) answers it is the same.
    ///
    /// # Errors
    ///
    /// [`TooWide`](Refusal::TooWide), [`NotMonotone`](Refusal::NotMonotone), [`TooBig`](Refusal::TooBig) where it is 2^64 or more.
    pub fn wide_rank(self, word: &[u64]) -> Result<u64, Refusal> {
        sys::number(|rank| sys::gudrenoss_wide_rank(self.allowed(), word, rank))
    }

    /// The word of a rank, with a shifted alphabet up to 128.
    ///
    /// # Errors
    ///
    /// [`TooWide`](Refusal::TooWide), [`TooBig`](Refusal::TooBig) where the count is 2^64 or more, [`NoSuchRank`](Refusal::NoSuchRank).
    ///
    /// # Examples
    ///
    /// ```
    /// use gudrenoss::{Refusal, Repetition};
    /// assert_eq!(Repetition::Forbidden.wide_word_from_rank(128, 2, 2016)?, [0, 64]);
    /// assert_eq!(Repetition::Forbidden.wide_word_from_rank(128, 64, 0), Err(Refusal::TooBig));
    /// # Ok::<(), Refusal>(())
    /// ```
    pub fn wide_word_from_rank(self, nsymbols: u64, degree: u64, rank: u64) -> Result<Symbols<128>, Refusal> {
        Symbols::filled(|word, written| {
            let allowed = self.allowed();
            Refusal::judge(sys::gudrenoss_wide_unrank(allowed, nsymbols, degree, rank, word, written))
        })
    }
}

/// A word of a family, as the 128 bits of its shifted symbols. It has no alphabet: every family with any bits is one.
#[derive(Debug, Clone, Copy, PartialEq, Eq, Hash, PartialOrd, Ord, Default)]
#[must_use]
pub struct WideIndex {
    repetition: Repetition,
    shifted: u128,
}

impl WideIndex {
    /// The index with these bits. `WideIndex::from((repetition, bits))` is the same.
    ///
    /// # Examples
    ///
    /// ```
    /// use gudrenoss::{Refusal, Repetition, WideIndex};
    /// // After the set of 63 alone comes that of 64.
    /// let last_of_64 = WideIndex::from_bits(Repetition::Forbidden, 1 << 63);
    /// assert_eq!(last_of_64.colex_successor()?.shifted_bits(), 1 << 64);
    /// assert_eq!(last_of_64.rank(), Ok(63));
    /// assert_eq!(WideIndex::from_bits(Repetition::Forbidden, 1 << 127).colex_successor(), Err(Refusal::Last));
    /// # Ok::<(), Refusal>(())
    /// ```
    pub fn from_bits(repetition: Repetition, bits: u128) -> Self {
        WideIndex {
            repetition,
            shifted: bits,
        }
    }

    /// The index of a degree and rank, where no alphabet is named: all 128 bits may be used.
    ///
    /// # Errors
    ///
    /// [`TooWide`](Refusal::TooWide), [`TooBig`](Refusal::TooBig) for the degrees 16 to 112, [`NoSuchRank`](Refusal::NoSuchRank).
    pub fn from_rank(repetition: Repetition, degree: u64, rank: u64) -> Result<Self, Refusal> {
        Self::given(repetition, |low, high| {
            sys::gudrenoss_wide_unrank_any(repetition.allowed(), degree, rank, low, high)
        })
    }

    /// The index of a degree and rank over `nsymbols`.
    ///
    /// # Errors
    ///
    /// [`TooWide`](Refusal::TooWide), [`TooBig`](Refusal::TooBig) where the count is 2^64 or more, [`NoSuchRank`](Refusal::NoSuchRank).
    pub fn from_rank_over(repetition: Repetition, nsymbols: u64, degree: u64, rank: u64) -> Result<Self, Refusal> {
        Self::given(repetition, |low, high| {
            sys::gudrenoss_wide_unrank_over(repetition.allowed(), nsymbols, degree, rank, low, high)
        })
    }

    /// Its family.
    #[must_use]
    pub fn repetition(self) -> Repetition {
        self.repetition
    }

    /// Its bits: one for each shifted symbol.
    #[must_use]
    pub fn shifted_bits(self) -> u128 {
        self.shifted
    }

    /// Its rank: how many words of the family and degree are earlier.
    ///
    /// # Errors
    ///
    /// [`TooBig`](Refusal::TooBig) where it is 2^64 or more.
    pub fn rank(self) -> Result<u64, Refusal> {
        sys::number(|rank| sys::gudrenoss_wide_rank_of(self.allowed(), self.low(), self.high(), rank))
    }

    /// The next index of the family and degree in 128 bits.
    ///
    /// # Errors
    ///
    /// [`Last`](Refusal::Last).
    pub fn colex_successor(self) -> Result<Self, Refusal> {
        Self::given(self.repetition, |low, high| {
            sys::gudrenoss_wide_successor(self.allowed(), self.low(), self.high(), low, high)
        })
    }

    /// The two words joined into one sorted word, with the sign of that.
    ///
    /// # Errors
    ///
    /// [`Family`](Refusal::Family), [`Repeated`](Refusal::Repeated), [`TooWide`](Refusal::TooWide) where a shifted symbol is above 127.
    pub fn merge(self, other: Self) -> Result<(Sign, Self), Refusal> {
        Self::signed(self.repetition, |minus, low, high| {
            sys::gudrenoss_wide_merge(
                self.allowed(),
                self.low(),
                self.high(),
                other.allowed(),
                other.low(),
                other.high(),
                minus,
                low,
                high,
            )
        })
    }

    /// The word without the symbol at a position: the sign, the symbol, and what is left.
    ///
    /// # Errors
    ///
    /// [`Outside`](Refusal::Outside).
    ///
    /// # Examples
    ///
    /// ```
    /// use gudrenoss::{Repetition, Sign, WideIndex};
    /// let pair = WideIndex::from_bits(Repetition::Allowed, 1 << 64 | 1);
    /// assert_eq!(pair.deletion(0)?, (Sign::Pos, 0, WideIndex::from_bits(Repetition::Allowed, 1 << 63)));
    /// # Ok::<(), gudrenoss::Refusal>(())
    /// ```
    pub fn deletion(self, position: u64) -> Result<(Sign, u64, Self), Refusal> {
        let mut symbol = 0;
        let (sign, rest) = Self::signed(self.repetition, |minus, low, high| {
            let (allowed, from_low, from_high) = (self.allowed(), self.low(), self.high());
            sys::gudrenoss_wide_delete(allowed, from_low, from_high, position, minus, &mut symbol, low, high)
        })?;
        Ok((sign, symbol, rest))
    }

    fn allowed(self) -> bool {
        self.repetition.allowed()
    }

    fn low(self) -> u64 {
        self.shifted as u64
    }

    fn high(self) -> u64 {
        (self.shifted >> 64) as u64
    }

    /// The index whose halves a call gives.
    fn given(repetition: Repetition, call: impl FnOnce(&mut u64, &mut u64) -> sys::Status) -> Result<Self, Refusal> {
        let (mut low, mut high) = (0, 0);
        Refusal::judge(call(&mut low, &mut high))?;
        Ok(Self::from_bits(repetition, u128::from(high) << 64 | u128::from(low)))
    }

    fn signed(
        repetition: Repetition,
        call: impl FnOnce(&mut bool, &mut u64, &mut u64) -> sys::Status,
    ) -> Result<(Sign, Self), Refusal> {
        let mut minus = false;
        let index = Self::given(repetition, |low, high| call(&mut minus, low, high))?;
        Ok((Sign::from_minus(minus), index))
    }
}

impl From<(Repetition, u128)> for WideIndex {
    /// The index with this family and these bits, as [`WideIndex::from_bits`] makes it.
    fn from((repetition, bits): (Repetition, u128)) -> Self {
        WideIndex::from_bits(repetition, bits)
    }
}

impl From<WideIndex> for u128 {
    /// The bits of an index.
    fn from(index: WideIndex) -> Self {
        index.shifted
    }
}

impl From<MonoIndex> for WideIndex {
    /// The same word as a wide index, which forgets the alphabet. Its rank is the same.
    fn from(index: MonoIndex) -> Self {
        WideIndex::from_bits(index.repetition(), index.shifted_bits().into())
    }
}
