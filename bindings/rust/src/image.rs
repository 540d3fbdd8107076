use crate::{sys, MonoIndex, Refusal, Repetition};
use core::iter::FusedIterator;

/// An image of coefficient tables that is lent, and was found good. It is read where it lies; `docs/RULES.md`, section 15, has its format.
///
/// ```
/// use gudrenoss::{Image, MonoIndex, Refusal, Repetition};
///
/// // One table: multisets of one symbol below 2, with the coefficients 5 and 6.
/// let bytes = [
///     1, 0, 0, 0, 1, 1, 2, 0, 16, 0, 0, 0, 2, 0, 0, 0, 5, 0, 0, 0, 0, 0, 0, 0, 6, 0, 0, 0, 0, 0, 0, 0,
/// ];
/// let image = Image::new(&bytes)?;
/// assert_eq!(image.lookup(&MonoIndex::new(Repetition::Allowed, 40, &[1])?), Ok(6));
/// assert_eq!(image.lookup(&MonoIndex::new(Repetition::Allowed, 40, &[2])?), Err(Refusal::NoSuchRank));
/// assert_eq!(Image::new(&bytes[..31]), Err(Refusal::BadImage { at: 31 }));
/// # Ok::<(), Refusal>(())
/// ```
#[derive(Debug, Clone, Copy, PartialEq, Eq)]
#[must_use]
pub struct Image<'a> {
    bytes: &'a [u8],
    tables: u64,
}

/// A table of an image.
#[derive(Debug, Clone, Copy, PartialEq, Eq, Hash)]
pub struct Table {
    /// The family of its words.
    pub repetition: Repetition,
    /// How many symbols each of them has.
    pub degree: u64,
    /// How many symbols there are.
    pub nsymbols: u64,
    /// Where its body begins, counted from the first byte of the image.
    pub offset: u64,
    /// How many entries of eight bytes its body has: one for each word.
    pub entries: u64,
}

impl<'a> Image<'a> {
    /// The image that these bytes are.
    ///
    /// # Errors
    ///
    /// [`BadImage`](Refusal::BadImage).
    pub fn new(bytes: &'a [u8]) -> Result<Self, Refusal> {
        let tables = sys::number(|tables| sys::gudrenoss_image_check(bytes, tables))?;
        Ok(Image { bytes, tables })
    }

    /// Joins a contents list and bodies into an image in `room`, and gives what of `room` it fills. The two may be split anywhere.
    ///
    /// # Errors
    ///
    /// [`BadImage`](Refusal::BadImage), of the two joined, and then [`Shape`](Refusal::Shape), if `room` is too short.
    pub fn written(contents: &[u8], bodies: &[u8], room: &'a mut [u8]) -> Result<Self, Refusal> {
        let len = sys::number(|written| sys::gudrenoss_image_write(contents, bodies, room, written))?;
        Image::new(&room[..len as usize])
    }

    /// Its bytes.
    #[must_use]
    pub fn bytes(&self) -> &'a [u8] {
        self.bytes
    }

    /// How many tables it has.
    #[must_use]
    pub fn len(&self) -> usize {
        self.tables as usize
    }

    /// Whether it has no table: never.
    #[must_use]
    pub fn is_empty(&self) -> bool {
        self.tables == 0
    }

    /// The table of a family and a degree.
    ///
    /// # Errors
    ///
    /// [`NoSuchTable`](Refusal::NoSuchTable).
    pub fn table(&self, repetition: Repetition, degree: u64) -> Result<Table, Refusal> {
        let (mut nsymbols, mut offset, mut entries) = (0, 0, 0);
        let allowed = repetition == Repetition::Allowed;
        Refusal::judge(sys::gudrenoss_image_row(
            self.bytes,
            allowed,
            degree,
            &mut nsymbols,
            &mut offset,
            &mut entries,
        ))?;
        Ok(Table {
            repetition,
            degree,
            nsymbols,
            offset,
            entries,
        })
    }

    /// The tables, in the order of the image.
    pub fn tables(&self) -> Tables<'a> {
        Tables { image: *self, next: 0 }
    }

    /// The coefficient of a term, as the 64 bits of its entry.
    ///
    /// # Errors
    ///
    /// [`NoSuchTable`](Refusal::NoSuchTable) if no table has the family and degree of the term, [`NoSuchRank`](Refusal::NoSuchRank) if the
    /// term uses a symbol that the table does not have.
    pub fn lookup(&self, term: &MonoIndex) -> Result<u64, Refusal> {
        let allowed = term.repetition() == Repetition::Allowed;
        sys::number(|coefficient| {
            sys::gudrenoss_image_lookup(self.bytes, allowed, term.nsymbols(), term.shifted_bits(), coefficient)
        })
    }
}

impl Table {
    /// The coefficient of a term in this table of an image, which is not checked again: for many terms of one table. With the table of the
    /// term's family and degree that is what [`Image::lookup`] gives.
    ///
    /// # Errors
    ///
    /// [`Outside`](Refusal::Outside) if the body does not lie within the image, [`NoSuchRank`](Refusal::NoSuchRank) if it has no entry of the
    /// term's rank.
    pub fn lookup(&self, image: &Image<'_>, term: &MonoIndex) -> Result<u64, Refusal> {
        let (allowed, n, bits) = (term.repetition() == Repetition::Allowed, term.nsymbols(), term.shifted_bits());
        sys::number(|coefficient| {
            sys::gudrenoss_image_at(
                image.bytes,
                self.nsymbols,
                self.offset,
                self.entries,
                allowed,
                n,
                bits,
                coefficient,
            )
        })
    }
}

/// The tables of an image, in its order.
#[derive(Debug, Clone)]
#[must_use]
pub struct Tables<'a> {
    image: Image<'a>,
    next: usize,
}

impl Iterator for Tables<'_> {
    type Item = Table;

    fn next(&mut self) -> Option<Table> {
        let at = 4 + 12 * self.next;
        if self.next == self.image.len() {
            return None;
        }
        self.next += 1;
        let repetition = if self.image.bytes[at] == 1 {
            Repetition::Allowed
        } else {
            Repetition::Forbidden
        };
        self.image.table(repetition, self.image.bytes[at + 1].into()).ok()
    }

    fn size_hint(&self) -> (usize, Option<usize>) {
        let left = self.image.len() - self.next;
        (left, Some(left))
    }
}

impl ExactSizeIterator for Tables<'_> {}
impl FusedIterator for Tables<'_> {}

/// The check of an image that comes in pieces, in memory of fixed size. However it is cut, what [`end`](Pieces::end) gives is what
/// [`Image::new`] gives for the whole.
///
/// ```
/// use gudrenoss::{Pieces, Refusal};
///
/// let mut pieces = Pieces::new();
/// assert_eq!(pieces.feed(&[0xff, 0xff]), Ok(()));
/// assert_eq!(pieces.clone().end(), Err(Refusal::BadImage { at: 2 }));
/// assert_eq!(pieces.feed(&[0xff, 0]), Err(Refusal::BadImage { at: 0 }));
/// assert_eq!(pieces.end(), Err(Refusal::BadImage { at: 0 }));
/// ```
#[derive(Clone)]
#[must_use]
pub struct Pieces {
    bytes: [u8; 772],
    seen: u64,
    state: u64,
    at: u64,
}

impl Pieces {
    /// Before the first piece.
    pub fn new() -> Self {
        let mut p = Pieces {
            bytes: [0; 772],
            seen: 0,
            state: 0,
            at: 0,
        };
        let _ = sys::gudrenoss_pieces_start(&mut p.bytes, &mut p.seen, &mut p.state, &mut p.at);
        p
    }

    /// One more piece, of any length. After a refusal or the end it changes nothing.
    ///
    /// # Errors
    ///
    /// [`BadImage`](Refusal::BadImage), as soon as no byte that follows could change it.
    pub fn feed(&mut self, piece: &[u8]) -> Result<(), Refusal> {
        let _ = sys::gudrenoss_pieces_feed(&mut self.bytes, &mut self.seen, &mut self.state, &mut self.at, piece);
        self.verdict().map(|_| ())
    }

    /// The end of the image: how many tables it has. A second end gives the same again.
    ///
    /// # Errors
    ///
    /// [`BadImage`](Refusal::BadImage).
    pub fn end(&mut self) -> Result<u64, Refusal> {
        let _ = sys::gudrenoss_pieces_end(&mut self.bytes, &mut self.seen, &mut self.state, &mut self.at);
        Ok(self.verdict()?.unwrap_or(0))
    }

    /// What is known: the number of tables after the end of a good image, nothing while more may come.
    ///
    /// # Errors
    ///
    /// [`BadImage`](Refusal::BadImage).
    pub fn verdict(&self) -> Result<Option<u64>, Refusal> {
        let (mut still, mut tables) = (false, 0);
        Refusal::judge(sys::gudrenoss_pieces_verdict(self.state, self.at, &mut still, &mut tables))?;
        Ok((!still).then_some(tables))
    }
}

impl Default for Pieces {
    fn default() -> Self {
        Pieces::new()
    }
}

impl core::fmt::Debug for Pieces {
    fn fmt(&self, f: &mut core::fmt::Formatter<'_>) -> core::fmt::Result {
        f.debug_struct("Pieces")
            .field("seen", &self.seen)
            .field("state", &self.state)
            .field("at", &self.at)
            .finish_non_exhaustive()
    }
}
