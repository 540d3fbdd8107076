use core::hash::{Hash, Hasher};
use core::ops::Deref;
use core::{array, fmt, iter, slice};

/// A list of at most `N` numbers, held inline: a word, a list of digits, strides or exponents. `N` is 64 unless it is said, and 128 for
/// the word of a wide index. It reads as a slice.
///
/// ```
/// use gudrenoss::Repetition;
///
/// let word = Repetition::Allowed.word_from_rank(3, 2, 3)?;
/// assert_eq!(word, [0, 2]);
/// assert_eq!(word.into_iter().sum::<u64>(), 2);
/// assert_eq!(word.to_string(), "0 2");
/// # Ok::<(), gudrenoss::Refusal>(())
/// ```
#[derive(Clone, Copy)]
#[must_use]
pub struct Symbols<const N: usize = 64> {
    places: [u64; N],
    len: usize,
}

impl<const N: usize> Symbols<N> {
    /// The list that `fill` writes. It is lent `N` places, which suffice for every call, and says how many it has written.
    pub(crate) fn filled<E>(fill: impl FnOnce(&mut [u64], &mut u64) -> Result<(), E>) -> Result<Self, E> {
        let (mut places, mut written) = ([0; N], 0);
        fill(&mut places, &mut written)?;
        Ok(Symbols {
            places,
            len: written as usize,
        })
    }

    /// A copy of a list of at most `N` numbers.
    pub(crate) fn copied(list: &[u64]) -> Self {
        let mut places = [0; N];
        places[..list.len()].copy_from_slice(list);
        Symbols { places, len: list.len() }
    }
}

impl<const N: usize> Deref for Symbols<N> {
    type Target = [u64];
    fn deref(&self) -> &[u64] {
        &self.places[..self.len]
    }
}

impl<const N: usize> AsRef<[u64]> for Symbols<N> {
    fn as_ref(&self) -> &[u64] {
        self
    }
}

impl<const N: usize> IntoIterator for Symbols<N> {
    type Item = u64;
    type IntoIter = iter::Take<array::IntoIter<u64, N>>;
    fn into_iter(self) -> Self::IntoIter {
        self.places.into_iter().take(self.len)
    }
}

impl<'a, const N: usize> IntoIterator for &'a Symbols<N> {
    type Item = &'a u64;
    type IntoIter = slice::Iter<'a, u64>;
    fn into_iter(self) -> Self::IntoIter {
        self.iter()
    }
}

impl<const N: usize> PartialEq for Symbols<N> {
    fn eq(&self, other: &Self) -> bool {
        **self == **other
    }
}

impl<const N: usize> Eq for Symbols<N> {}

impl<const N: usize> Hash for Symbols<N> {
    fn hash<H: Hasher>(&self, state: &mut H) {
        (**self).hash(state);
    }
}

impl<const N: usize, const M: usize> PartialEq<[u64; M]> for Symbols<N> {
    fn eq(&self, other: &[u64; M]) -> bool {
        **self == *other
    }
}

impl<const N: usize> PartialEq<[u64]> for Symbols<N> {
    fn eq(&self, other: &[u64]) -> bool {
        **self == *other
    }
}

impl<const N: usize> PartialEq<&[u64]> for Symbols<N> {
    fn eq(&self, other: &&[u64]) -> bool {
        **self == **other
    }
}

impl<const N: usize> fmt::Debug for Symbols<N> {
    fn fmt(&self, f: &mut fmt::Formatter<'_>) -> fmt::Result {
        f.debug_list().entries(self.iter()).finish()
    }
}

impl<const N: usize> fmt::Display for Symbols<N> {
    fn fmt(&self, f: &mut fmt::Formatter<'_>) -> fmt::Result {
        listed(f, self)
    }
}

/// Writes numbers with a space between two.
pub(crate) fn listed(f: &mut fmt::Formatter<'_>, numbers: &[u64]) -> fmt::Result {
    for (i, n) in numbers.iter().enumerate() {
        write!(f, "{}{n}", if i == 0 { "" } else { " " })?;
    }
    Ok(())
}
