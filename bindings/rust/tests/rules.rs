//! The rules of docs/RULES.md through the bindings: its examples, its corners, and every refusal of every call.

use gudrenoss::Repetition::{Allowed, Forbidden};
use gudrenoss::{derivative, Combination, Composition, MonoIndex, Permutation, Radix, Refusal, Sign, WideIndex, Word};

const TOP: u64 = u64::MAX;
const HIGH_BIT: u64 = 1 << 63;

fn set(nsymbols: u64, bits: u64) -> MonoIndex {
    MonoIndex::from_bits(Forbidden, nsymbols, bits).unwrap()
}

fn multiset(nsymbols: u64, bits: u64) -> MonoIndex {
    MonoIndex::from_bits(Allowed, nsymbols, bits).unwrap()
}

#[test]
fn counts() {
    assert_eq!(Forbidden.count(4, 2), Ok(6));
    assert_eq!(Allowed.count(0, 0), Ok(1));
    assert_eq!(Allowed.count(0, 3), Ok(0));
    assert_eq!(Allowed.count(1, 64), Ok(1));
    assert_eq!(Forbidden.count(64, 32), Ok(1832624140942590534));
    assert_eq!(Allowed.count(1, 65), Err(Refusal::TooWide));
    assert_eq!(Allowed.count(TOP, 2), Err(Refusal::TooWide));
    assert_eq!(Forbidden.count(65, 0), Err(Refusal::TooWide));
}

#[test]
fn words_and_ranks() {
    assert_eq!(Forbidden.rank(&[1, 3]), Ok(4));
    assert_eq!(Allowed.rank(&[1, 1]), Ok(2));
    assert_eq!(Allowed.rank(&[]), Ok(0));
    assert_eq!(Forbidden.rank(&[1, 1]), Err(Refusal::NotMonotone { at: 1 }));
    assert_eq!(Allowed.rank(&[3, 5, 4, 1]), Err(Refusal::NotMonotone { at: 2 }));
    assert_eq!(Forbidden.rank(&[70, 69]), Err(Refusal::NotMonotone { at: 1 }));
    assert_eq!(Forbidden.rank(&[64]), Err(Refusal::TooWide));
    assert_eq!(Allowed.rank(&[0; 65]), Err(Refusal::TooWide));
    assert_eq!(Allowed.word_from_rank(3, 2, 3).unwrap(), [0, 2]);
    assert_eq!(Forbidden.word_from_rank(9, 0, 0).unwrap(), []);
    assert_eq!(Allowed.word_from_rank(2, 2, 3), Err(Refusal::NoSuchRank));
    assert_eq!(Allowed.word_from_rank(2, 65, 0), Err(Refusal::TooWide));
}

#[test]
fn indices_of_words() {
    assert_eq!(MonoIndex::new(Allowed, 3, &[1, 1, 2]), Ok(multiset(3, 22)));
    assert_eq!(MonoIndex::new(Forbidden, 4, &[0, 2]), Ok(set(4, 5)));
    assert_eq!(MonoIndex::new(Allowed, 3, &[2, 1]), Err(Refusal::NotMonotone { at: 1 }));
    assert_eq!(MonoIndex::new(Allowed, 3, &[0, 2, 2, 1]), Err(Refusal::NotMonotone { at: 3 }));
    assert_eq!(
        MonoIndex::new(Forbidden, 3, &[0, 2, 2, 1]),
        Err(Refusal::NotMonotone { at: 2 })
    );
    assert_eq!(MonoIndex::new(Allowed, 63, &[0, 63]), Err(Refusal::TooWide));
    assert_eq!(MonoIndex::new(Forbidden, 65, &[]), Err(Refusal::TooWide));
    assert_eq!(MonoIndex::new(Allowed, 64, &[0, 0]), Err(Refusal::TooWide));
    assert_eq!(MonoIndex::new(Forbidden, 3, &[64]), Err(Refusal::TooWide));
    assert_eq!(MonoIndex::new(Forbidden, 3, &[3]), Err(Refusal::Outside));
}

#[test]
fn indices_are_checked() {
    assert_eq!(MonoIndex::try_from((Forbidden, 4, 5)), Ok(set(4, 5)));
    assert_eq!(MonoIndex::from_bits(Forbidden, 0, 0), Ok(MonoIndex::default()));
    assert_eq!(MonoIndex::from_bits(Allowed, 1, TOP).map(MonoIndex::degree), Ok(64));
    assert_eq!(MonoIndex::from_bits(Forbidden, 2, 4), Err(Refusal::Outside));
    assert_eq!(MonoIndex::from_bits(Allowed, 0, 1), Err(Refusal::Outside));
    assert_eq!(MonoIndex::from_bits(Allowed, 64, 3), Err(Refusal::TooWide));
    assert_eq!(MonoIndex::try_from((Allowed, TOP, 3)), Err(Refusal::TooWide));
    assert_eq!(MonoIndex::try_from((Forbidden, 65, 0)), Err(Refusal::TooWide));
}

#[test]
fn indices() {
    assert_eq!(multiset(3, 25).word(), [0, 2, 2]);
    assert_eq!(set(5, 25).word(), [0, 3, 4]);
    assert_eq!(set(64, TOP).word().len(), 64);
    assert_eq!((set(64, TOP).degree(), set(0, 0).degree()), (64, 0));
    assert_eq!(multiset(3, 25).repetition(), Allowed);
    assert_eq!((multiset(3, 25).nsymbols(), multiset(3, 25).shifted_bits()), (3, 25));
    assert_ne!(multiset(3, 25), multiset(4, 25));
    assert_eq!(multiset(2, 6).symbol(1), Ok(1));
    assert_eq!(set(3, 6).symbol(1), Ok(2));
    assert_eq!(set(3, 6).symbol(2), Err(Refusal::Outside));
    assert_eq!((set(4, 10).rank(), set(64, 10).rank(), multiset(2, 6).rank()), (4, 4, 2));
    assert_eq!(MonoIndex::from_rank(Allowed, 2, 3), Ok(multiset(63, 9)));
    assert_eq!(MonoIndex::from_rank(Allowed, 0, 0), Ok(multiset(64, 0)));
    assert_eq!(MonoIndex::from_rank(Forbidden, 2, 3), Ok(set(64, 9)));
    assert_eq!(MonoIndex::from_rank(Forbidden, 1, 64), Err(Refusal::NoSuchRank));
    assert_eq!(MonoIndex::from_rank(Forbidden, 65, 0), Err(Refusal::TooWide));
    assert_eq!(MonoIndex::from_rank_over(Allowed, 3, 2, 3), Ok(multiset(3, 9)));
    assert_eq!(MonoIndex::from_rank_over(Allowed, 2, 2, 3), Err(Refusal::NoSuchRank));
    assert_eq!(MonoIndex::from_rank_over(Allowed, 65, 0, 0), Err(Refusal::TooWide));
    assert_eq!(set(64, 3).colex_successor(), Ok(set(64, 5)));
    assert_eq!(multiset(4, 12).colex_successor(), Ok(multiset(4, 17)));
    assert_eq!(multiset(3, 12).colex_successor(), Err(Refusal::Last));
    assert_eq!(set(64, HIGH_BIT >> 1).colex_successor(), Ok(set(64, HIGH_BIT)));
    assert_eq!(set(64, HIGH_BIT).colex_successor(), Err(Refusal::Last));
    assert_eq!(multiset(3, 0).colex_successor(), Err(Refusal::Last));
}

#[test]
fn walks() {
    for (repetition, nsymbols, degree) in [
        (Allowed, 3, 2),
        (Forbidden, 6, 3),
        (Allowed, 4, 0),
        (Forbidden, 2, 3),
        (Forbidden, 64, 63),
    ] {
        let mut walk = MonoIndex::all(repetition, nsymbols, degree).unwrap();
        let count = repetition.count(nsymbols, degree).unwrap();
        assert_eq!(walk.remaining(), count);
        assert_eq!(walk.len() as u64, count);
        for rank in 0..count {
            let index = walk.step().unwrap();
            assert_eq!((index.rank(), index.degree(), index.repetition()), (rank, degree, repetition));
            assert_eq!(index.nsymbols(), nsymbols);
            assert_eq!(walk.remaining(), count - rank - 1);
        }
        assert_eq!(walk.step(), Err(Refusal::Last));
        assert_eq!(walk.next(), None);
    }
    assert_eq!(MonoIndex::all(Forbidden, 65, 1).map(|_| ()), Err(Refusal::TooWide));
}

#[test]
fn signed_operations() {
    assert_eq!(MonoIndex::from_word(Forbidden, 4, &[2, 0]), Ok((Sign::Neg, set(4, 5))));
    assert_eq!(MonoIndex::from_word(Allowed, 3, &[2, 0, 2]), Ok((Sign::Pos, multiset(3, 25))));
    assert_eq!(MonoIndex::from_word(Forbidden, 64, &[64, 64]), Err(Refusal::Repeated));
    assert_eq!(MonoIndex::from_word(Forbidden, 64, &[64, 0]), Err(Refusal::TooWide));
    assert_eq!(MonoIndex::from_word(Forbidden, 65, &[3, 3]), Err(Refusal::TooWide));
    assert_eq!(MonoIndex::from_word(Forbidden, 3, &[3, 0]), Err(Refusal::Outside));

    assert_eq!(set(2, 2).merge(set(2, 1)), Ok((Sign::Neg, set(2, 3))));
    assert_eq!(set(5, 1).merge(set(3, 2)), Ok((Sign::Pos, set(5, 3))));
    assert_eq!(set(3, 1).merge(set(5, 2)), Ok((Sign::Pos, set(5, 3))));
    assert_eq!(multiset(3, 9).merge(multiset(3, 4)), Ok((Sign::Pos, multiset(3, 25))));
    assert_eq!(set(0, 0).merge(multiset(0, 0)), Err(Refusal::Family));
    assert_eq!(set(3, 3).merge(set(3, 6)), Err(Refusal::Repeated));
    assert_eq!(multiset(64, HIGH_BIT).merge(multiset(64, 1)), Err(Refusal::TooWide));
    assert_eq!(multiset(64, 0).merge(multiset(1, 3)), Err(Refusal::TooWide));

    assert_eq!(multiset(3, 22).deletion(1), Ok((Sign::Pos, 1, multiset(3, 10))));
    assert_eq!(set(5, 22).deletion(1), Ok((Sign::Neg, 2, set(5, 18))));
    assert_eq!(set(64, 5 | HIGH_BIT).deletion(2), Ok((Sign::Pos, 63, set(64, 5))));
    assert_eq!(set(5, 22).deletion(3), Err(Refusal::Outside));

    assert_eq!(set(64, 5).complement_signed(4), Ok((Sign::Neg, set(4, 10))));
    assert_eq!(set(3, 5).complement_signed(4), Ok((Sign::Neg, set(4, 10))));
    assert_eq!(set(64, 5).complement_signed(2), Err(Refusal::Outside));
    assert_eq!(multiset(0, 0).complement_signed(65), Err(Refusal::Family));
    assert_eq!(set(64, HIGH_BIT).complement_signed(65), Err(Refusal::TooWide));
    assert_eq!(set(1, 1).complement_signed(0), Err(Refusal::Outside));

    assert_eq!(multiset(3, 22).stabilizer(), Ok(2));
    assert_eq!(set(64, TOP).stabilizer(), Ok(1));
    assert_eq!(multiset(1, 0x1fffff).stabilizer(), Err(Refusal::TooBig));
}

#[test]
fn signs() {
    assert_eq!(Sign::Neg * Sign::Neg, Sign::Pos);
    assert_eq!(Sign::Pos * Sign::Neg, -Sign::Pos);
    assert_eq!((Sign::Pos.as_i32(), Sign::Neg.as_i32()), (1, -1));
    assert!(Sign::Pos.is_pos() && Sign::Neg.is_neg());
    assert_eq!(format!("{}{}", Sign::Pos, Sign::Neg), "+-");
}

#[test]
fn sets() {
    let odd = Combination::from_bits(42);
    assert_eq!(odd.inserted(0).map(Combination::bits), Ok(43));
    assert_eq!(odd.inserted(1), Err(Refusal::Repeated));
    assert_eq!(odd.inserted(64), Err(Refusal::Outside));
    assert!(odd.contains(5) && !odd.contains(4) && !Combination::from_bits(TOP).contains(64));
    assert_eq!(odd.position_of(5), Ok(2));
    assert_eq!(odd.position_of(2), Err(Refusal::Outside));
    assert_eq!(odd.select(Combination::from_bits(5)), Ok(Combination::from_bits(34)));
    assert_eq!(odd.select(Combination::from_bits(8)), Err(Refusal::Outside));
    assert_eq!(odd.rank(), 1 + 3 + 10);
}

#[test]
fn members_and_texts() {
    let odd = Combination::from_bits(42);
    assert_eq!(odd.iter().len(), 3);
    assert_eq!(odd.into_iter().collect::<Vec<_>>(), [1, 3, 5]);
    assert_eq!(Combination::from_bits(HIGH_BIT | 1).iter().collect::<Vec<_>>(), [0, 63]);
    assert_eq!(Combination::from_bits(TOP).iter().count(), 64);
    assert_eq!(Combination::from_bits(0).iter().next(), None);
    assert_eq!(
        format!("{odd} {} {}", Combination::default(), Allowed),
        "{1, 3, 5} {} allowed"
    );
    let word = multiset(3, 25).word();
    assert_eq!(
        (&word).into_iter().copied().collect::<Vec<_>>(),
        word.into_iter().collect::<Vec<_>>()
    );
    let slice: &[u64] = &[0, 2, 2];
    assert!(word == [0, 2, 2] && word == *slice && word == slice && word != slice[1..]);
    assert_eq!(
        format!("{word} {} {}", Permutation::new(&[1, 0]), Composition::new(&[3, 0]).unwrap()),
        "0 2 2 1 0 3 0"
    );
    let words: std::collections::HashSet<_> = [multiset(3, 25).word(), word, set(5, 25).word()].into_iter().collect();
    assert_eq!(words.len(), 2);
    let orders: std::collections::HashSet<_> = [Permutation::new(&[1, 0]), Permutation::from_rank(2, 0).unwrap()]
        .into_iter()
        .collect();
    assert_eq!(orders.len(), 1);
}

#[test]
fn permutations() {
    let p = Permutation::new(&[2, 0, 1]);
    let wide = Permutation::new(&[0; 65]);
    let bad = Permutation::new(&[0, 0, 1]);
    assert_eq!(p.apply(0), Ok(2));
    assert_eq!(p.apply(3), Err(Refusal::Outside));
    assert_eq!(p.inverse(), Ok(Permutation::new(&[1, 2, 0])));
    assert_eq!(Permutation::new(&[1, 0, 2]).compose(&p), Ok(Permutation::new(&[2, 1, 0])));
    assert_eq!(p.compose(&Permutation::new(&[0])), Err(Refusal::Shape));
    assert_eq!(p.sign(), Ok(Sign::Pos));
    assert_eq!(Permutation::new(&[0, 2, 1]).rank(), Ok(3));
    assert_eq!(Permutation::from_rank(3, 0), Ok(Permutation::new(&[2, 1, 0])));
    assert_eq!(Permutation::from_rank(3, 6), Err(Refusal::NoSuchRank));
    assert_eq!(Permutation::from_rank(21, 0), Err(Refusal::TooWide));
    assert_eq!(Permutation::new(&[0, 2, 1]).successor(), Ok(Permutation::new(&[1, 0, 2])));
    assert_eq!(Permutation::new(&[0, 1, 2]).successor(), Err(Refusal::Last));
    assert_eq!(Permutation::new(&[]).rank(), Ok(0));
    assert!(Permutation::new(&[]).is_empty() && wide.len() == 65 && wide.parts().len() == 64);
    assert_eq!(Permutation::new_checked(&[1, 0]), Ok(Permutation::new(&[1, 0])));
    assert_eq!(Permutation::new_checked(&[0; 65]), Err(Refusal::TooWide));
    assert_eq!(Permutation::new_checked(&[0, 0, 1]), Err(Refusal::NotAPermutation));
    for (q, refusal) in [(wide, Refusal::TooWide), (bad, Refusal::NotAPermutation)] {
        assert_eq!(q.apply(9), Err(refusal));
        assert_eq!(q.inverse(), Err(refusal));
        assert_eq!(q.compose(&q), Err(refusal));
        assert_eq!(q.sign(), Err(refusal));
        assert_eq!(q.rank(), Err(refusal));
        assert_eq!(q.successor(), Err(refusal));
    }
}

#[test]
fn permutations_of_64() {
    let falling: Vec<u64> = (0..64).rev().collect();
    let rising: Vec<u64> = (0..64).collect();
    let p = Permutation::new_checked(&falling).unwrap();
    assert_eq!(p.sign(), Ok(Sign::Pos));
    assert_eq!(p.inverse(), Ok(p));
    assert_eq!(p.compose(&p), Ok(Permutation::new(&rising)));
    assert_eq!(p.apply(63), Ok(0));
    assert_eq!(p.apply(64), Err(Refusal::Outside));
    for length in [21, 64] {
        let q = Permutation::new(&rising[..length]);
        assert_eq!(q.rank(), Err(Refusal::TooWide));
        assert_eq!(q.successor(), Err(Refusal::TooWide));
        assert_eq!(q.sign(), Ok(Sign::Pos));
    }
}

#[test]
fn every_permutation_of_four() {
    let mut p = Permutation::from_rank(4, 0).unwrap();
    for rank in 0..24 {
        assert_eq!(p.rank(), Ok(rank));
        assert_eq!(Permutation::from_rank(4, rank), Ok(p));
        assert_eq!(p.compose(&p.inverse().unwrap()), Ok(Permutation::new(&[0, 1, 2, 3])));
        match p.successor() {
            Ok(next) => p = next,
            Err(refusal) => assert_eq!((rank, refusal), (23, Refusal::Last)),
        }
    }
}

#[test]
fn shapes() {
    let shape = Radix::new(&[2, 3, 4]);
    let wide = Radix::new(&[1; 17]);
    let big = Radix::new(&[1 << 40, 1 << 40, 0]);
    assert_eq!((shape.naxes(), shape.radices()), (3, &[2, 3, 4][..]));
    assert_eq!(shape.count(), Ok(24));
    assert_eq!(Radix::new(&[]).count(), Ok(1));
    assert_eq!(big.count(), Ok(0));
    assert_eq!(Radix::new(&[1 << 40, 1 << 40]).count(), Err(Refusal::TooBig));
    assert_eq!(wide.count(), Err(Refusal::TooWide));
    assert_eq!(shape.strides().unwrap(), [1, 2, 6]);
    assert_eq!(big.strides(), Err(Refusal::TooBig));
    assert_eq!(wide.strides(), Err(Refusal::TooWide));
    assert_eq!(shape.linearize(&[1, 2, 3]), Ok(23));
    assert_eq!(shape.linearize(&[1, 2]), Err(Refusal::Shape));
    assert_eq!(shape.linearize(&[1, 3, 0]), Err(Refusal::Outside));
    assert_eq!(Radix::new(&[1 << 40, 1 << 40]).linearize(&[0, 0]), Err(Refusal::TooBig));
    assert_eq!(wide.linearize(&[0; 17]), Err(Refusal::TooWide));
    assert_eq!(shape.delinearize(23).unwrap(), [1, 2, 3]);
    assert_eq!(shape.delinearize(24), Err(Refusal::NoSuchRank));
    assert_eq!(big.delinearize(0), Err(Refusal::NoSuchRank));
    assert_eq!(wide.delinearize(0), Err(Refusal::TooWide));
    assert_eq!(shape.corner_offset(Combination::from_bits(6)), Ok(8));
    assert_eq!(shape.corner_offset(Combination::from_bits(8)), Err(Refusal::Outside));
    assert_eq!(big.corner_offset(Combination::from_bits(4)), Err(Refusal::TooBig));
    assert_eq!(wide.corner_offset(Combination::from_bits(0)), Err(Refusal::TooWide));
}

#[test]
fn digit_words() {
    let word = Word::new(3, &[2, 0, 1]).unwrap();
    assert_eq!((word.radix(), word.degree(), word.rank()), (3, 3, 11));
    assert_eq!(Word::count(2, 63), Ok(HIGH_BIT));
    assert_eq!(Word::count(2, 64), Err(Refusal::TooBig));
    assert_eq!(Word::count(1, 65), Err(Refusal::TooWide));
    assert_eq!(Word::new(3, &[3]), Err(Refusal::Outside));
    assert_eq!(Word::new(2, &[1; 64]), Err(Refusal::TooBig));
    assert_eq!(Word::new(1, &[0; 65]), Err(Refusal::TooWide));
    assert_eq!(word.symbols().unwrap(), [2, 0, 1]);
    assert_eq!(word.symbol(2), Ok(1));
    assert_eq!(word.symbol(3), Err(Refusal::Outside));
    assert_eq!(word.multiplicity(0), Ok(1));
    assert_eq!(word.multiplicity(9), Ok(0));
    assert_eq!(Word::from_rank(2, 4, 0).stabilizer(), Ok(24));
    assert_eq!(Word::from_rank(1, 21, 0).stabilizer(), Err(Refusal::TooBig));
    assert_eq!(
        Word::new(3, &[2, 1]).unwrap().concat(Word::new(3, &[2]).unwrap()),
        Word::new(3, &[2, 1, 2])
    );
    assert_eq!(Word::from_rank(2, 0, 0).concat(Word::from_rank(3, 0, 0)), Err(Refusal::Shape));
    assert_eq!(
        Word::from_rank(2, 40, 0).concat(Word::from_rank(2, 40, 0)),
        Err(Refusal::TooWide)
    );
    assert_eq!(
        Word::from_rank(2, 32, 0).concat(Word::from_rank(2, 32, 0)),
        Err(Refusal::TooBig)
    );
    assert_eq!(word.deletion(1), Ok((0, Word::from_rank(3, 2, 5))));
    assert_eq!(word.deletion(3), Err(Refusal::Outside));
    assert_eq!(Word::from_rank(0, 0, 0).deletion(0), Err(Refusal::Outside));
    for (bad, refusal) in [
        (Word::from_rank(1, 65, 0), Refusal::TooWide),
        (Word::from_rank(2, 64, 0), Refusal::TooBig),
        (Word::from_rank(3, 3, 27), Refusal::NoSuchRank),
    ] {
        assert_eq!(bad.symbols(), Err(refusal));
        assert_eq!(bad.symbol(0), Err(refusal));
        assert_eq!(bad.multiplicity(0), Err(refusal));
        assert_eq!(bad.stabilizer(), Err(refusal));
        assert_eq!(bad.concat(word), Err(refusal));
        assert_eq!(word.concat(bad), Err(refusal));
        assert_eq!(bad.deletion(0), Err(refusal));
    }
}

#[test]
fn exponents() {
    let term = Composition::new(&[1, 0, 2]).unwrap();
    assert_eq!((term.parts(), term.nparts(), term.degree()), (&[1, 0, 2][..], 3, 3));
    assert_eq!(term.word().unwrap(), [0, 2, 2]);
    assert_eq!(Composition::from_word(3, &[2, 0, 2]), Ok(term));
    assert_eq!(Composition::from_word(3, &[3]), Err(Refusal::Outside));
    assert_eq!(Composition::from_word(64, &[0, 0]), Err(Refusal::TooWide));
    assert_eq!(Composition::new(&[1, 0, 1]).unwrap().rank(), Ok(3));
    assert_eq!(Composition::new(&[HIGH_BIT, HIGH_BIT]), Err(Refusal::TooWide));
    assert_eq!(Composition::new(&[0; 65]), Err(Refusal::TooWide));
    assert_eq!(Composition::from_rank(3, 2, 3), Composition::new(&[1, 0, 1]));
    assert_eq!(Composition::from_rank(2, 2, 3), Err(Refusal::NoSuchRank));
    assert_eq!(Composition::from_rank(2, 64, 0), Err(Refusal::TooWide));
    assert_eq!(&term + &Composition::new(&[0, 3, 1]).unwrap(), Composition::new(&[1, 3, 3]));
    assert_eq!(&term + &Composition::new(&[0]).unwrap(), Err(Refusal::Shape));
    assert_eq!(
        &Composition::new(&[33]).unwrap() + &Composition::new(&[32]).unwrap(),
        Err(Refusal::TooWide)
    );
}

#[test]
fn derivatives() {
    let mut entries = [77; 4];
    assert_eq!(derivative(2, 2, 0, &[5, 6, 7], &mut entries), Ok(2));
    assert_eq!(entries, [10, 6, 77, 77]);
    assert_eq!(derivative(2, 2, 1, &[5, 6, 7], &mut entries), Ok(2));
    assert_eq!(entries, [6, 14, 77, 77]);
    assert_eq!(derivative(3, 1, 2, &[1, 2, -3], &mut entries), Ok(1));
    assert_eq!(entries, [-3, 14, 77, 77]);
    assert_eq!(derivative(2, 2, 0, &[i64::MIN / 2, i64::MIN, 0], &mut entries), Ok(2));
    assert_eq!(entries, [i64::MIN, i64::MIN, 77, 77]);
    let kept = entries;
    for (refusal, alphabet, degree, symbol, table, room) in [
        (Refusal::TooWide, 65, 0, 0, &[][..], 4),
        (Refusal::TooWide, 2, 64, 0, &[][..], 4),
        (Refusal::TooWide, 0, 65, 0, &[][..], 4),
        (Refusal::Outside, 2, 0, 0, &[1][..], 4),
        (Refusal::Outside, 2, 2, 2, &[1][..], 4),
        (Refusal::Outside, 0, 1, 0, &[][..], 4),
        (Refusal::Shape, 2, 2, 0, &[1, 2][..], 4),
        (Refusal::Shape, 2, 2, 0, &[1, 2, 3, 4][..], 4),
        (Refusal::Shape, 2, 2, 0, &[i64::MAX, 2, 3][..], 1),
        (Refusal::TooBig, 2, 2, 0, &[1 << 62, 2, 3][..], 4),
        (Refusal::TooBig, 2, 2, 1, &[1, 2, i64::MIN / 2 - 1][..], 4),
    ] {
        assert_eq!(
            derivative(alphabet, degree, symbol, table, &mut entries[..room]),
            Err(refusal)
        );
        assert_eq!(entries, kept);
    }
    // One order may be refused alone: a term that later vanishes is too big.
    let mut first = [0; 2];
    assert_eq!(derivative(2, 2, 0, &[1 << 62, 0, 0], &mut first), Err(Refusal::TooBig));
    assert_eq!(derivative(2, 2, 1, &[1 << 62, 0, 0], &mut first), Ok(2));
    assert_eq!(derivative(2, 1, 0, &first, &mut entries), Ok(1));
    assert_eq!(entries[0], 0);
}

#[test]
fn old_tables() {
    let (forbidden, allowed) = (Forbidden, Allowed);
    // widening the alphabet renumbers
    assert_eq!(allowed.lexicographic_rank(2, &[1, 1]), Ok(2));
    assert_eq!(allowed.lexicographic_rank(3, &[1, 1]), Ok(3));
    // 1, 2 with its position, 1, 7
    assert_eq!(forbidden.lexicographic_rank(65, &[5, 4]), Err(Refusal::TooWide));
    assert_eq!(forbidden.lexicographic_rank(4, &[5, 4]), Err(Refusal::NotMonotone { at: 1 }));
    assert_eq!(forbidden.lexicographic_rank(4, &[64]), Err(Refusal::TooWide));
    assert_eq!(forbidden.lexicographic_rank(4, &[4]), Err(Refusal::Outside));
    for (family, n, k) in [(forbidden, 5, 3), (allowed, 3, 3), (forbidden, 4, 0), (forbidden, 3, 3), (allowed, 0, 3)] {
        let count = family.count(n, k).unwrap();
        let words: Vec<_> = (0..count).map(|r| family.word_from_lexicographic_rank(n, k, r).unwrap()).collect();
        assert!(words.windows(2).all(|pair| pair[0][..] < pair[1][..]));
        for (r, word) in words.iter().enumerate() {
            assert_eq!(family.lexicographic_rank(n, word), Ok(r as u64));
            let next = words.get(r + 1).copied().ok_or(Refusal::Last);
            assert_eq!(family.lexicographic_successor(n, word), next);
        }
        assert_eq!(family.word_from_lexicographic_rank(n, k, count), Err(Refusal::NoSuchRank));
        // each entry, the number of its word in the old order, lands at the rank of that word, and comes back
        let old: Vec<u8> = (0..count).flat_map(u64::to_le_bytes).collect();
        let (mut new, mut again) = (vec![0; old.len()], vec![0; old.len()]);
        family.body_from_lexicographic(n, k, &old, &mut new).unwrap();
        for (r, word) in words.iter().enumerate() {
            let at = 8 * family.rank(word).unwrap() as usize;
            assert_eq!(new[at..at + 8], (r as u64).to_le_bytes());
        }
        family.body_to_lexicographic(n, k, &new, &mut again).unwrap();
        assert_eq!(again, old);
        // exact lengths: room to spare is refused too
        let mut longer = vec![7; old.len() + 8];
        assert_eq!(family.body_from_lexicographic(n, k, &old, &mut longer), Err(Refusal::Shape));
        assert_eq!(family.body_to_lexicographic(n, k, &longer, &mut new), Err(Refusal::Shape));
        assert!(longer.iter().all(|&b| b == 7));
    }
    assert_eq!(allowed.body_from_lexicographic(64, 2, &[], &mut []), Err(Refusal::TooWide));
}

fn wide(repetition: gudrenoss::Repetition, bits: u128) -> WideIndex {
    WideIndex::from_bits(repetition, bits)
}

#[test]
fn wide_words() {
    assert_eq!(Forbidden.wide_count(128, 15), Ok(13216710966550396800));
    assert_eq!(Forbidden.wide_count(128, 16), Err(Refusal::TooBig));
    assert_eq!(Forbidden.wide_count(128, 113), Ok(13216710966550396800));
    assert_eq!(Allowed.wide_count(1, 128), Ok(1));
    assert_eq!(Allowed.wide_count(1, 129), Err(Refusal::TooWide));
    assert_eq!(Allowed.wide_count(TOP, 2), Err(Refusal::TooWide));
    assert_eq!(Forbidden.wide_rank(&[127]), Ok(127));
    assert_eq!(Forbidden.wide_rank(&[128]), Err(Refusal::TooWide));
    assert_eq!(Allowed.wide_rank(&[0; 128]), Ok(0));
    assert_eq!(Allowed.wide_rank(&[0; 129]), Err(Refusal::TooWide));
    assert_eq!(Allowed.wide_rank(&[0, 127]), Err(Refusal::TooWide));
    assert_eq!(Forbidden.wide_rank(&[200, 199]), Err(Refusal::NotMonotone { at: 1 }));
    let top: Vec<u64> = (64..128).collect();
    assert_eq!(Forbidden.wide_rank(&top), Err(Refusal::TooBig));
    assert_eq!(Forbidden.wide_word_from_rank(128, 1, 127).unwrap(), [127]);
    assert_eq!(Allowed.wide_word_from_rank(1, 128, 0).unwrap(), [0; 128]);
    assert_eq!(Forbidden.wide_word_from_rank(128, 1, 128), Err(Refusal::NoSuchRank));
    assert_eq!(Forbidden.wide_word_from_rank(128, 64, 0), Err(Refusal::TooBig));
    assert_eq!(Forbidden.wide_word_from_rank(129, 64, 0), Err(Refusal::TooWide));
}

#[test]
fn wide_indices() {
    assert_eq!(WideIndex::from_rank(Forbidden, 1, 64), Ok(wide(Forbidden, 1 << 64)));
    assert_eq!(WideIndex::from_rank(Allowed, 128, 0), Ok(wide(Allowed, u128::MAX)));
    assert_eq!(WideIndex::from_rank(Allowed, 128, 1), Err(Refusal::NoSuchRank));
    assert_eq!(WideIndex::from_rank(Allowed, 16, 0), Err(Refusal::TooBig));
    assert_eq!(WideIndex::from_rank(Allowed, 129, 0), Err(Refusal::TooWide));
    assert_eq!(WideIndex::from_rank_over(Allowed, 3, 2, 3), Ok(multiset(3, 9).into()));
    assert_eq!(WideIndex::from_rank_over(Allowed, 2, 2, 3), Err(Refusal::NoSuchRank));
    assert_eq!(WideIndex::from_rank_over(Forbidden, 128, 64, 0), Err(Refusal::TooBig));
    assert_eq!(WideIndex::from_rank_over(Forbidden, 129, 64, 0), Err(Refusal::TooWide));
    assert_eq!(wide(Forbidden, 1 << 127).rank(), Ok(127));
    assert_eq!(wide(Forbidden, u128::MAX << 64).rank(), Err(Refusal::TooBig));
    assert_eq!(wide(Forbidden, 1 << 63).colex_successor(), Ok(wide(Forbidden, 1 << 64)));
    assert_eq!(wide(Forbidden, 3 << 62).colex_successor(), Ok(wide(Forbidden, 1 << 64 | 1)));
    assert_eq!(wide(Allowed, 0).colex_successor(), Err(Refusal::Last));
    assert_eq!(wide(Allowed, 7 << 125).colex_successor(), Err(Refusal::Last));
    assert_eq!(u128::from(wide(Allowed, 7 << 125)), 7 << 125);
    assert_eq!(WideIndex::from((Allowed, 5)).repetition(), Allowed);
}

#[test]
fn wide_signed_operations() {
    let (low, high) = (wide(Forbidden, 1), wide(Forbidden, 1 << 64));
    assert_eq!(high.merge(low), Ok((Sign::Neg, wide(Forbidden, 1 << 64 | 1))));
    assert_eq!(low.merge(high), Ok((Sign::Pos, wide(Forbidden, 1 << 64 | 1))));
    assert_eq!(high.merge(high), Err(Refusal::Repeated));
    assert_eq!(high.merge(wide(Allowed, 1 << 64)), Err(Refusal::Family));
    assert_eq!(
        wide(Allowed, 1 << 63).merge(wide(Allowed, 1)),
        Ok((Sign::Pos, wide(Allowed, 1 << 64 | 1)))
    );
    assert_eq!(wide(Allowed, 1 << 127).merge(wide(Allowed, 1)), Err(Refusal::TooWide));
    assert_eq!(
        wide(Allowed, 1 << 127).merge(wide(Allowed, 0)),
        Ok((Sign::Pos, wide(Allowed, 1 << 127)))
    );
    assert_eq!(
        wide(Allowed, 1 << 64 | 1).deletion(0),
        Ok((Sign::Pos, 0, wide(Allowed, 1 << 63)))
    );
    assert_eq!(wide(Allowed, 1 << 64 | 1).deletion(1), Ok((Sign::Pos, 63, wide(Allowed, 1))));
    assert_eq!(
        wide(Forbidden, 1 << 127 | 1).deletion(1),
        Ok((Sign::Neg, 127, wide(Forbidden, 1)))
    );
    assert_eq!(wide(Forbidden, 1 << 127 | 1).deletion(2), Err(Refusal::Outside));
}

#[test]
fn wide_and_narrow_agree() {
    for repetition in [Forbidden, Allowed] {
        for degree in 0..6 {
            for index in MonoIndex::all(repetition, 6, degree).unwrap() {
                let same = WideIndex::from(index);
                assert_eq!(same.rank(), Ok(index.rank()));
                assert_eq!(repetition.wide_rank(&index.word()), Ok(index.rank()));
                assert_eq!(WideIndex::from_rank_over(repetition, 6, degree, index.rank()), Ok(same));
                if let Ok(next) = index.colex_successor() {
                    assert_eq!(same.colex_successor(), Ok(next.into()));
                }
                for p in 0..degree {
                    let (sign, symbol, rest) = index.deletion(p).unwrap();
                    assert_eq!(same.deletion(p), Ok((sign, symbol, rest.into())));
                }
            }
        }
    }
}
