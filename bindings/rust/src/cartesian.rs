use crate::{sys, Combination, Refusal, Symbols};

/// A shape: one radix for each axis, at most 16, axis 0 least significant. Every call refuses more axes as
/// [`TooWide`](Refusal::TooWide).
///
/// ```
/// use gudrenoss::Radix;
///
/// let shape = Radix::new(&[2, 3, 4]);
/// assert_eq!(shape.linearize(&[1, 2, 3])?, 23);
/// assert_eq!(shape.delinearize(23)?, [1, 2, 3]);
/// # Ok::<(), gudrenoss::Refusal>(())
/// ```
#[derive(Debug, Clone, Copy, PartialEq, Eq, Hash)]
#[must_use]
pub struct Radix<'a> {
    radices: &'a [u64],
}

impl<'a> Radix<'a> {
    /// The shape with these radices.
    pub fn new(radices: &'a [u64]) -> Self {
        Radix { radices }
    }

    /// The radices.
    #[must_use]
    pub fn radices(&self) -> &'a [u64] {
        self.radices
    }

    /// The number of axes.
    #[must_use]
    pub fn naxes(&self) -> usize {
        self.radices.len()
    }

    /// The product of the radices.
    ///
    /// # Errors
    ///
    /// [`TooWide`](Refusal::TooWide), [`TooBig`](Refusal::TooBig).
    pub fn count(&self) -> Result<u64, Refusal> {
        sys::number(|count| sys::gudrenoss_shape_count(self.radices, count))
    }

    /// The product of the radices before each axis.
    ///
    /// # Errors
    ///
    /// [`TooWide`](Refusal::TooWide), [`TooBig`](Refusal::TooBig).
    pub fn strides(&self) -> Result<Symbols, Refusal> {
        Symbols::filled(|strides, written| Refusal::judge(sys::gudrenoss_shape_strides(self.radices, strides, written)))
    }

    /// The number of a list of digits.
    ///
    /// # Errors
    ///
    /// [`TooWide`](Refusal::TooWide), [`Shape`](Refusal::Shape), [`Outside`](Refusal::Outside), [`TooBig`](Refusal::TooBig).
    pub fn linearize(&self, digits: &[u64]) -> Result<u64, Refusal> {
        sys::number(|number| sys::gudrenoss_shape_linearize(self.radices, digits, number))
    }

    /// The digits of a number.
    ///
    /// # Errors
    ///
    /// [`TooWide`](Refusal::TooWide), [`TooBig`](Refusal::TooBig), [`NoSuchRank`](Refusal::NoSuchRank).
    pub fn delinearize(&self, linear: u64) -> Result<Symbols, Refusal> {
        Symbols::filled(|digits, written| Refusal::judge(sys::gudrenoss_shape_delinearize(self.radices, linear, digits, written)))
    }

    /// The sum of the strides of the axes in a set.
    ///
    /// # Errors
    ///
    /// [`TooWide`](Refusal::TooWide), [`Outside`](Refusal::Outside), [`TooBig`](Refusal::TooBig).
    pub fn corner_offset(&self, corner: Combination) -> Result<u64, Refusal> {
        sys::number(|offset| sys::gudrenoss_shape_corner(self.radices, corner.bits(), offset))
    }
}

/// A word of digits over one radix, as its rank, position 0 least significant. Every call judges it:
/// [`TooWide`](Refusal::TooWide) if the degree is above 64, [`TooBig`](Refusal::TooBig) if radix^degree is 2^64 or more,
/// [`NoSuchRank`](Refusal::NoSuchRank) if the rank is not below that.
///
/// ```
/// use gudrenoss::Word;
///
/// let word = Word::new(3, &[2, 0, 1])?;
/// assert_eq!(word.rank(), 11);
/// assert_eq!(word.deletion(1)?, (0, Word::from_rank(3, 2, 5)));
/// # Ok::<(), gudrenoss::Refusal>(())
/// ```
#[derive(Debug, Clone, Copy, PartialEq, Eq, Hash, Default)]
#[must_use]
pub struct Word {
    radix: u64,
    degree: u64,
    rank: u64,
}

impl Word {
    /// The word with these symbols.
    ///
    /// # Errors
    ///
    /// [`TooWide`](Refusal::TooWide), [`Outside`](Refusal::Outside), [`TooBig`](Refusal::TooBig).
    pub fn new(radix: u64, symbols: &[u64]) -> Result<Self, Refusal> {
        Self::made(radix, |degree, rank| {
            sys::gudrenoss_digits_from_symbols(radix, symbols, degree, rank)
        })
    }

    /// The word with this degree and rank. It is not judged here.
    pub fn from_rank(radix: u64, degree: u64, rank: u64) -> Self {
        Word { radix, degree, rank }
    }

    /// How many words there are: radix^degree.
    ///
    /// # Errors
    ///
    /// [`TooWide`](Refusal::TooWide), [`TooBig`](Refusal::TooBig).
    pub fn count(radix: u64, degree: u64) -> Result<u64, Refusal> {
        sys::number(|count| sys::gudrenoss_digits_count(radix, degree, count))
    }

    /// The radix.
    #[must_use]
    pub fn radix(self) -> u64 {
        self.radix
    }

    /// The number of digits.
    #[must_use]
    pub fn degree(self) -> u64 {
        self.degree
    }

    /// The rank: the sum of the symbol at each position p times radix^p.
    #[must_use]
    pub fn rank(self) -> u64 {
        self.rank
    }

    /// The symbols.
    ///
    /// # Errors
    ///
    /// The word's checks.
    pub fn symbols(self) -> Result<Symbols, Refusal> {
        Symbols::filled(|symbols, written| {
            Refusal::judge(sys::gudrenoss_digits_symbols(
                self.radix,
                self.degree,
                self.rank,
                symbols,
                written,
            ))
        })
    }

    /// The symbol at a position.
    ///
    /// # Errors
    ///
    /// The word's checks, [`Outside`](Refusal::Outside).
    pub fn symbol(self, position: u64) -> Result<u64, Refusal> {
        sys::number(|symbol| sys::gudrenoss_digits_symbol(self.radix, self.degree, self.rank, position, symbol))
    }

    /// How often a symbol occurs.
    ///
    /// # Errors
    ///
    /// The word's checks.
    pub fn multiplicity(self, symbol: u64) -> Result<u64, Refusal> {
        sys::number(|often| sys::gudrenoss_digits_multiplicity(self.radix, self.degree, self.rank, symbol, often))
    }

    /// The product of the factorials of the multiplicities.
    ///
    /// # Errors
    ///
    /// The word's checks, [`TooBig`](Refusal::TooBig).
    pub fn stabilizer(self) -> Result<u64, Refusal> {
        sys::number(|stabilizer| sys::gudrenoss_digits_stabilizer(self.radix, self.degree, self.rank, stabilizer))
    }

    /// The two words joined, this one's digits lowest.
    ///
    /// # Errors
    ///
    /// The checks of both words, [`Shape`](Refusal::Shape), [`TooWide`](Refusal::TooWide), [`TooBig`](Refusal::TooBig).
    pub fn concat(self, other: Self) -> Result<Self, Refusal> {
        Self::made(self.radix, |degree, rank| {
            sys::gudrenoss_digits_concat(
                self.radix,
                self.degree,
                self.rank,
                other.radix,
                other.degree,
                other.rank,
                degree,
                rank,
            )
        })
    }

    /// The symbol at a position, and the word without it.
    ///
    /// # Errors
    ///
    /// The word's checks, [`Outside`](Refusal::Outside).
    pub fn deletion(self, position: u64) -> Result<(u64, Self), Refusal> {
        let mut symbol = 0;
        let rest =
            sys::number(|rest| sys::gudrenoss_digits_delete(self.radix, self.degree, self.rank, position, &mut symbol, rest))?;
        Ok((symbol, Word::from_rank(self.radix, self.degree - 1, rest)))
    }

    fn made(radix: u64, call: impl FnOnce(&mut u64, &mut u64) -> sys::Status) -> Result<Self, Refusal> {
        let mut degree = 0;
        let rank = sys::number(|rank| call(&mut degree, rank))?;
        Ok(Word { radix, degree, rank })
    }
}
