use crate::{sys, Refusal};

/// The derivative by `symbol` of a surface: a table of the signed coefficients of all multisets of `degree` symbols below `alphabet`, in
/// rank order. The entry of the derivative at a word is the coefficient of the word with `symbol` added, times the number of times that
/// `symbol` stands in it then. It is written to the first places of `entries`, and the answer says to how many; the others are left as
/// they were, and after a refusal all of them.
///
/// ```
/// use gudrenoss::derivative;
///
/// // 5 p p + 6 p t + 7 t t, with p as quantity 0 and t as quantity 1: the sensitivity to t is 6 p + 14 t.
/// let mut by_t = [0; 2];
/// assert_eq!(derivative(2, 2, 1, &[5, 6, 7], &mut by_t)?, 2);
/// assert_eq!(by_t, [6, 14]);
/// # Ok::<(), gudrenoss::Refusal>(())
/// ```
///
/// # Errors
///
/// In this order: [`TooWide`](Refusal::TooWide); [`Outside`](Refusal::Outside) for degree 0, and for a symbol outside the alphabet;
/// [`Shape`](Refusal::Shape) for a table that has not exactly its count, and for too few entries; [`TooBig`](Refusal::TooBig) for an entry
/// that is no `i64`.
pub fn derivative(alphabet: u64, degree: u64, symbol: u64, table: &[i64], entries: &mut [i64]) -> Result<usize, Refusal> {
    let written = sys::number(|written| sys::gudrenoss_derivative(alphabet, degree, symbol, table, entries, written))?;
    Ok(written as usize)
}
