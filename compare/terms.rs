// The groups of indices and words: rank, successor, unranking, count, merge, deletion, canonicalising, packing, rank of a word, symbol.
//
//   Sample      the inputs of one family: indices with their degree, their words one behind the other, and a number more for each
//   groups      one function for each call, which races it for both families
//
// A Forbidden index is here over the alphabet 64, an Allowed one over the widest, 65 - k.

use crate::race::{ANSWER, LAST, REPEATED, Race, Random, Status};
use multiindex::{Combination, MonoIndex, Repetition, Sign};
use std::hint::black_box;

#[link(name = "capi", kind = "static")]
unsafe extern "C" {
    fn gudrenoss_rank_of(allowed: bool, n: u64, bits: u64, rank: &mut u64) -> Status;
    fn gudrenoss_successor(allowed: bool, n: u64, bits: u64, next_alphabet: &mut u64, next_bits: &mut u64) -> Status;
    fn gudrenoss_unrank_any(allowed: bool, k: u64, r: u64, alphabet: &mut u64, bits: &mut u64) -> Status;
    fn gudrenoss_unrank_over(allowed: bool, n: u64, k: u64, r: u64, alphabet: &mut u64, bits: &mut u64) -> Status;
    fn gudrenoss_count(allowed: bool, n: u64, k: u64, count: &mut u64) -> Status;
    fn gudrenoss_symbol(allowed: bool, n: u64, bits: u64, p: u64, symbol: &mut u64) -> Status;
    fn gudrenoss_rank(allowed: bool, word: *const u64, len: usize, rank: &mut u64) -> Status;
    fn gudrenoss_pack(allowed: bool, n: u64, word: *const u64, len: usize, alphabet: &mut u64, bits: &mut u64) -> Status;
    fn gudrenoss_canonicalise(allowed: bool, n: u64, word: *const u64, len: usize, minus: &mut bool, alphabet: &mut u64, bits: &mut u64) -> Status;
    fn gudrenoss_merge(
        allowed: bool,
        n: u64,
        bits: u64,
        other_allowed: bool,
        other_n: u64,
        other_bits: u64,
        minus: &mut bool,
        alphabet: &mut u64,
        merged: &mut u64,
    ) -> Status;
    fn gudrenoss_delete(
        allowed: bool,
        n: u64,
        bits: u64,
        p: u64,
        minus: &mut bool,
        symbol: &mut u64,
        rest_alphabet: &mut u64,
        rest: &mut u64,
    ) -> Status;
}

// The shapes.
type Ranks = unsafe extern "C" fn(bool, u64, u64, &mut u64) -> Status;
type Steps = unsafe extern "C" fn(bool, u64, u64, &mut u64, &mut u64) -> Status;
type Unranks = unsafe extern "C" fn(bool, u64, u64, u64, &mut u64, &mut u64) -> Status;
type Symbols = unsafe extern "C" fn(bool, u64, u64, u64, &mut u64) -> Status;
type Words = unsafe extern "C" fn(bool, *const u64, usize, &mut u64) -> Status;
type Packs = unsafe extern "C" fn(bool, u64, *const u64, usize, &mut u64, &mut u64) -> Status;
type Canons = unsafe extern "C" fn(bool, u64, *const u64, usize, &mut bool, &mut u64, &mut u64) -> Status;
type Merges = unsafe extern "C" fn(bool, u64, u64, bool, u64, u64, &mut bool, &mut u64, &mut u64) -> Status;
type Deletes = unsafe extern "C" fn(bool, u64, u64, u64, &mut bool, &mut u64, &mut u64, &mut u64) -> Status;

// ---- the Rust's values

fn family(allowed: bool) -> Repetition {
    if allowed { Repetition::Allowed } else { Repetition::Forbidden }
}

// The original makes an Allowed index of a word only. A call of the shape of ours is handed bits, so here they are put into an index as it lies
// in memory; `laid_out` tells that it lies so.
#[repr(C)]
#[derive(Clone, Copy)]
struct Laid {
    bits: u64,
    family: Repetition,
}

fn index(allowed: bool, bits: u64) -> MonoIndex {
    const { assert!(size_of::<MonoIndex>() == size_of::<Laid>()) }
    unsafe { std::mem::transmute::<Laid, MonoIndex>(Laid { bits, family: family(allowed) }) }
}

fn laid_out() -> bool {
    let word = [3usize, 3, 5, 9];
    let made = [false, true].map(|allowed| MonoIndex::new(family(allowed), word.iter().copied().skip(!allowed as usize)));
    made.iter().zip([false, true]).all(|(x, allowed)| {
        let y = index(allowed, x.shifted_bits());
        *x == y && y.repetition() == family(allowed) && y.shifted_bits() == x.shifted_bits()
    })
}

fn is_minus(sign: Sign) -> bool {
    sign == Sign::Neg
}

fn widest(allowed: bool, k: u64) -> u64 {
    if allowed { 65 - k } else { 64 }
}

unsafe fn list<'a>(word: *const u64, len: usize) -> &'a [usize] {
    unsafe { std::slice::from_raw_parts(word.cast(), len) }
}

// ---- the other side, as functions of the same shape

extern "C" fn their_rank_of(allowed: bool, _: u64, bits: u64, rank: &mut u64) -> Status {
    *rank = index(allowed, bits).rank() as u64;
    ANSWER
}

extern "C" fn their_successor(allowed: bool, n: u64, bits: u64, next_alphabet: &mut u64, next_bits: &mut u64) -> Status {
    match index(allowed, bits).colex_successor() {
        Some(next) => {
            (*next_alphabet, *next_bits) = (n, next.shifted_bits());
            ANSWER
        }
        None => LAST,
    }
}

extern "C" fn their_unrank_any(allowed: bool, k: u64, r: u64, alphabet: &mut u64, bits: &mut u64) -> Status {
    *alphabet = widest(allowed, k);
    *bits = MonoIndex::from_rank(family(allowed), k as usize, r as usize).shifted_bits();
    ANSWER
}

// The Rust unranks to an index over no alphabet, so n is passed and only handed back.
extern "C" fn their_unrank_over(allowed: bool, n: u64, k: u64, r: u64, alphabet: &mut u64, bits: &mut u64) -> Status {
    *alphabet = n;
    *bits = MonoIndex::from_rank(family(allowed), k as usize, r as usize).shifted_bits();
    ANSWER
}

extern "C" fn their_count(allowed: bool, n: u64, k: u64, count: &mut u64) -> Status {
    *count = family(allowed).count(n as usize, k as usize) as u64;
    ANSWER
}

extern "C" fn their_symbol(allowed: bool, _: u64, bits: u64, p: u64, symbol: &mut u64) -> Status {
    *symbol = index(allowed, bits).symbol(p as usize) as u64;
    ANSWER
}

unsafe extern "C" fn their_rank(allowed: bool, word: *const u64, len: usize, rank: &mut u64) -> Status {
    *rank = family(allowed).rank(unsafe { list(word, len) }) as u64;
    ANSWER
}

unsafe extern "C" fn their_pack(allowed: bool, n: u64, word: *const u64, len: usize, alphabet: &mut u64, bits: &mut u64) -> Status {
    *alphabet = n;
    *bits = MonoIndex::new(family(allowed), unsafe { list(word, len) }.iter().copied()).shifted_bits();
    ANSWER
}

unsafe extern "C" fn their_canonicalise(
    allowed: bool,
    n: u64,
    word: *const u64,
    len: usize,
    minus: &mut bool,
    alphabet: &mut u64,
    bits: &mut u64,
) -> Status {
    match MonoIndex::from_word(family(allowed), unsafe { list(word, len) }.iter().copied()) {
        Some((sign, x)) => {
            (*minus, *alphabet, *bits) = (is_minus(sign), n, x.shifted_bits());
            ANSWER
        }
        None => REPEATED,
    }
}

extern "C" fn their_merge(
    allowed: bool,
    n: u64,
    bits: u64,
    other_allowed: bool,
    other_n: u64,
    other_bits: u64,
    minus: &mut bool,
    alphabet: &mut u64,
    merged: &mut u64,
) -> Status {
    match index(allowed, bits).merge(&index(other_allowed, other_bits)) {
        Some((sign, x)) => {
            (*minus, *alphabet, *merged) = (is_minus(sign), n.max(other_n), x.shifted_bits());
            ANSWER
        }
        None => REPEATED,
    }
}

extern "C" fn their_delete(
    allowed: bool,
    n: u64,
    bits: u64,
    p: u64,
    minus: &mut bool,
    symbol: &mut u64,
    rest_alphabet: &mut u64,
    rest: &mut u64,
) -> Status {
    match index(allowed, bits).deletions().nth(p as usize) {
        Some((sign, s, x)) => {
            (*minus, *symbol, *rest_alphabet, *rest) = (is_minus(sign), s as u64, n, x.shifted_bits());
            ANSWER
        }
        None => Status { number: 7, at: 0 },
    }
}

// ---- the inputs

// Indices of one family; `at` says where the word of each begins in `words`.
struct Sample {
    allowed: bool,
    name: &'static str,
    bits: Vec<u64>,
    degree: Vec<u64>,
    values: Vec<MonoIndex>,
    words: Vec<u64>,
    at: Vec<usize>,
}

fn symbols(allowed: bool, bits: u64) -> impl Iterator<Item = u64> {
    Combination::from_bits(bits).iter().enumerate().map(move |(i, s)| s as u64 - if allowed { i as u64 } else { 0 })
}

impl Sample {
    // Numbers with as many ones as the degrees say in turn, below 2^width, all ones drawn evenly.
    fn new(size: usize, allowed: bool, degrees: &[u64], width: u64) -> Sample {
        let mut random = Random::new(1);
        let degree: Vec<u64> = (0..size).map(|i| degrees[i % degrees.len()]).collect();
        let bits: Vec<u64> = degree.iter().map(|&k| drawn_set(k, width, &mut random)).collect();
        let (mut words, mut at) = (vec![], vec![]);
        for &b in &bits {
            at.push(words.len());
            words.extend(symbols(allowed, b));
        }
        let values = bits.iter().map(|&b| index(allowed, b)).collect();
        Sample { allowed, name: if allowed { "Allowed" } else { "Forbidden" }, bits, degree, values, words, at }
    }

    fn n(&self, i: usize) -> u64 {
        widest(self.allowed, self.degree[i])
    }

    fn word(&self, i: usize) -> (*const u64, usize) {
        (self.words[self.at[i]..].as_ptr(), self.degree[i] as usize)
    }

    fn list(&self, i: usize) -> &[usize] {
        let (word, len) = self.word(i);
        unsafe { list(word, len) }
    }

    // The words in an order that was drawn.
    fn shuffled(mut self) -> Sample {
        let mut random = Random::new(2);
        for i in 0..self.bits.len() {
            let word = &mut self.words[self.at[i]..self.at[i] + self.degree[i] as usize];
            (1..word.len()).rev().for_each(|j| word.swap(j, random.below(j as u64 + 1) as usize));
        }
        self
    }
}

fn drawn_set(k: u64, width: u64, random: &mut Random) -> u64 {
    let mut bits = 0u64;
    while (bits.count_ones() as u64) < k {
        bits |= 1 << random.below(width);
    }
    bits
}

// ---- the groups

fn rank_of(race: &Race, s: &Sample, inputs: &str) {
    let [here, there] = black_box([gudrenoss_rank_of as Ranks, their_rank_of as Ranks]);
    let said = |call: Ranks, i: usize| {
        let mut rank = 0;
        unsafe { call(s.allowed, s.n(i), s.bits[i], &mut rank) }.with(&[rank])
    };
    race.run(["rank", s.name, inputs], s.bits.len(), |i| said(here, i), |i| said(there, i), |i| ANSWER.with(&[s.values[i].rank() as u64]));
}

fn successor(race: &Race, s: &Sample, inputs: &str) {
    let [here, there] = black_box([gudrenoss_successor as Steps, their_successor as Steps]);
    let said = |call: Steps, i: usize| {
        let (mut n, mut bits) = (0, 0);
        unsafe { call(s.allowed, s.n(i), s.bits[i], &mut n, &mut bits) }.with(&[n, bits])
    };
    let inlined = |i: usize| match s.values[i].colex_successor() {
        Some(x) => ANSWER.with(&[s.n(i), x.shifted_bits()]),
        None => LAST.with(&[0, 0]),
    };
    race.run(["successor", s.name, inputs], s.bits.len(), |i| said(here, i), |i| said(there, i), inlined);
}

fn unrank_any(race: &Race, s: &Sample, inputs: &str) {
    let [here, there] = black_box([gudrenoss_unrank_any as Steps, their_unrank_any as Steps]);
    let ranks: Vec<u64> = s.values.iter().map(|x| x.rank() as u64).collect();
    let said = |call: Steps, i: usize| {
        let (mut n, mut bits) = (0, 0);
        unsafe { call(s.allowed, s.degree[i], ranks[i], &mut n, &mut bits) }.with(&[n, bits])
    };
    let inlined = |i: usize| {
        let x = MonoIndex::from_rank(family(s.allowed), s.degree[i] as usize, ranks[i] as usize);
        ANSWER.with(&[s.n(i), x.shifted_bits()])
    };
    race.run(["unrank", s.name, inputs], s.bits.len(), |i| said(here, i), |i| said(there, i), inlined);
}

// Ranks drawn evenly below the count, of the degrees from 1 to 12 that have a word over n, in turn.
fn unrank_over(race: &Race, allowed: bool, n: u64) {
    let mut random = Random::new(3);
    let name = if allowed { "Allowed" } else { "Forbidden" };
    let count = |k: u64| family(allowed).count(n as usize, k as usize) as u64;
    let degrees: Vec<u64> = (1..=12).filter(|&k| count(k) > 0).collect();
    let asked: Vec<(u64, u64)> = (0..race.size).map(|i| degrees[i % degrees.len()]).map(|k| (k, random.below(count(k)))).collect();
    let [here, there] = black_box([gudrenoss_unrank_over as Unranks, their_unrank_over as Unranks]);
    let said = |call: Unranks, i: usize| {
        let (mut over, mut bits) = (0, 0);
        unsafe { call(allowed, n, asked[i].0, asked[i].1, &mut over, &mut bits) }.with(&[over, bits])
    };
    let inlined = |i: usize| {
        let x = MonoIndex::from_rank(family(allowed), asked[i].0 as usize, asked[i].1 as usize);
        ANSWER.with(&[n, x.shifted_bits()])
    };
    let inputs = format!("over {n}, 1-{}", degrees.last().unwrap());
    race.run(["unrank", name, &inputs], race.size, |i| said(here, i), |i| said(there, i), inlined);
}

// Alphabets drawn evenly from those that are not too wide.
fn count(race: &Race, s: &Sample, inputs: &str) {
    let mut random = Random::new(4);
    let asked: Vec<(u64, u64)> = s.degree.iter().map(|&k| (1 + random.below(widest(s.allowed, k)), k)).collect();
    let [here, there] = black_box([gudrenoss_count as Ranks, their_count as Ranks]);
    let said = |call: Ranks, i: usize| {
        let mut count = 0;
        unsafe { call(s.allowed, asked[i].0, asked[i].1, &mut count) }.with(&[count])
    };
    let inlined = |i: usize| ANSWER.with(&[family(s.allowed).count(asked[i].0 as usize, asked[i].1 as usize) as u64]);
    race.run(["count", s.name, inputs], s.bits.len(), |i| said(here, i), |i| said(there, i), inlined);
}

// Two indices of one family whose degrees, 1 to 6 each, have a product: disjoint, or over an alphabet with room for both.
fn merge(race: &Race, allowed: bool) {
    let mut random = Random::new(5);
    let name = if allowed { "Allowed" } else { "Forbidden" };
    let n = if allowed { 53 } else { 64 };
    let mut pair = |i: usize| {
        let (k, l) = (1 + (i % 6) as u64, 1 + (i / 6 % 6) as u64);
        let width = |k: u64| if allowed { n + k - 1 } else { n };
        let a = drawn_set(k, width(k), &mut random);
        let mut b = drawn_set(l, width(l), &mut random);
        while !allowed && a & b != 0 {
            b = drawn_set(l, width(l), &mut random);
        }
        (a, b)
    };
    let pairs: Vec<(u64, u64)> = (0..race.size).map(&mut pair).collect();
    let values: Vec<(MonoIndex, MonoIndex)> = pairs.iter().map(|&(a, b)| (index(allowed, a), index(allowed, b))).collect();
    let [here, there] = black_box([gudrenoss_merge as Merges, their_merge as Merges]);
    let said = |call: Merges, i: usize| {
        let (mut minus, mut over, mut bits) = (false, 0, 0);
        unsafe { call(allowed, n, pairs[i].0, allowed, n, pairs[i].1, &mut minus, &mut over, &mut bits) }.with(&[minus as u64, over, bits])
    };
    let inlined = |i: usize| match values[i].0.merge(&values[i].1) {
        Some((sign, x)) => ANSWER.with(&[is_minus(sign) as u64, n, x.shifted_bits()]),
        None => REPEATED.with(&[0, 0, 0]),
    };
    race.run(["merge", name, "1-6 with 1-6"], race.size, |i| said(here, i), |i| said(there, i), inlined);
}

fn positions(s: &Sample) -> Vec<u64> {
    let mut random = Random::new(6);
    s.degree.iter().map(|&k| random.below(k)).collect()
}

fn delete(race: &Race, s: &Sample, inputs: &str) {
    let p = positions(s);
    let [here, there] = black_box([gudrenoss_delete as Deletes, their_delete as Deletes]);
    let said = |call: Deletes, i: usize| {
        let (mut minus, mut symbol, mut over, mut rest) = (false, 0, 0, 0);
        unsafe { call(s.allowed, s.n(i), s.bits[i], p[i], &mut minus, &mut symbol, &mut over, &mut rest) }.with(&[minus as u64, symbol, over, rest])
    };
    let inlined = |i: usize| match s.values[i].deletions().nth(p[i] as usize) {
        Some((sign, symbol, x)) => ANSWER.with(&[is_minus(sign) as u64, symbol as u64, s.n(i), x.shifted_bits()]),
        None => Status { number: 7, at: 0 }.with(&[0, 0, 0, 0]),
    };
    race.run(["deletion", s.name, inputs], s.bits.len(), |i| said(here, i), |i| said(there, i), inlined);
}

fn symbol(race: &Race, s: &Sample, inputs: &str) {
    let p = positions(s);
    let [here, there] = black_box([gudrenoss_symbol as Symbols, their_symbol as Symbols]);
    let said = |call: Symbols, i: usize| {
        let mut symbol = 0;
        unsafe { call(s.allowed, s.n(i), s.bits[i], p[i], &mut symbol) }.with(&[symbol])
    };
    let inlined = |i: usize| ANSWER.with(&[s.values[i].symbol(p[i] as usize) as u64]);
    race.run(["symbol", s.name, inputs], s.bits.len(), |i| said(here, i), |i| said(there, i), inlined);
}

fn rank(race: &Race, s: &Sample, inputs: &str) {
    let [here, there] = black_box([gudrenoss_rank as Words, their_rank as Words]);
    let said = |call: Words, i: usize| {
        let (mut rank, (word, len)) = (0, s.word(i));
        unsafe { call(s.allowed, word, len, &mut rank) }.with(&[rank])
    };
    let inlined = |i: usize| ANSWER.with(&[family(s.allowed).rank(s.list(i)) as u64]);
    race.run(["rank of a word", s.name, inputs], s.bits.len(), |i| said(here, i), |i| said(there, i), inlined);
}

fn pack(race: &Race, s: &Sample, inputs: &str) {
    let [here, there] = black_box([gudrenoss_pack as Packs, their_pack as Packs]);
    let said = |call: Packs, i: usize| {
        let (mut n, mut bits, (word, len)) = (0, 0, s.word(i));
        unsafe { call(s.allowed, s.n(i), word, len, &mut n, &mut bits) }.with(&[n, bits])
    };
    let inlined = |i: usize| ANSWER.with(&[s.n(i), MonoIndex::new(family(s.allowed), s.list(i).iter().copied()).shifted_bits()]);
    race.run(["pack", s.name, inputs], s.bits.len(), |i| said(here, i), |i| said(there, i), inlined);
}

fn canonicalise(race: &Race, s: &Sample, inputs: &str) {
    let [here, there] = black_box([gudrenoss_canonicalise as Canons, their_canonicalise as Canons]);
    let said = |call: Canons, i: usize| {
        let (mut minus, mut n, mut bits, (word, len)) = (false, 0, 0, s.word(i));
        unsafe { call(s.allowed, s.n(i), word, len, &mut minus, &mut n, &mut bits) }.with(&[minus as u64, n, bits])
    };
    let inlined = |i: usize| match MonoIndex::from_word(family(s.allowed), s.list(i).iter().copied()) {
        Some((sign, x)) => ANSWER.with(&[is_minus(sign) as u64, s.n(i), x.shifted_bits()]),
        None => REPEATED.with(&[0, 0, 0]),
    };
    race.run(["canonicalise", s.name, inputs], s.bits.len(), |i| said(here, i), |i| said(there, i), inlined);
}

// ---- ranks of many indices in one call, where the library has it

#[cfg(batches)]
mod slices {
    use super::*;

    const LEN: usize = 1_000;

    unsafe extern "C" {
        fn gudrenoss_rank_all(allowed: bool, n: u64, bits: *const u64, len: usize, ranks: *mut u64, room: usize, written: &mut u64) -> Status;
    }

    type Alls = unsafe extern "C" fn(bool, u64, *const u64, usize, *mut u64, usize, &mut u64) -> Status;

    unsafe extern "C" fn their_rank_all(allowed: bool, _: u64, bits: *const u64, len: usize, ranks: *mut u64, room: usize, written: &mut u64) -> Status {
        let (bits, ranks) = unsafe { (std::slice::from_raw_parts(bits, len), std::slice::from_raw_parts_mut(ranks, room)) };
        ranks.iter_mut().zip(bits).for_each(|(rank, &b)| *rank = index(allowed, b).rank() as u64);
        *written = len as u64;
        ANSWER
    }

    // All over one alphabet: 64, or the widest that has room for 12 symbols.
    pub fn run(race: &Race, allowed: bool) {
        let mut random = Random::new(10);
        let (name, n) = if allowed { ("Allowed", 53) } else { ("Forbidden", 64) };
        let width = |k: u64| if allowed { n + k - 1 } else { n };
        let bits: Vec<u64> = (0..race.size).map(|i| 1 + i as u64 % 12).map(|k| drawn_set(k, width(k), &mut random)).collect();
        let values: Vec<MonoIndex> = bits.iter().map(|&b| index(allowed, b)).collect();
        let all = |ranks: &[u64]| ANSWER.with(&[LEN as u64, ranks.iter().enumerate().fold(0, |said, (i, &r)| said ^ r.wrapping_add(i as u64))]);
        let [here, there] = black_box([gudrenoss_rank_all as Alls, their_rank_all as Alls]);
        let said = |call: Alls, i: usize, out: &mut [u64; LEN]| {
            let mut written = 0;
            let back = unsafe { call(allowed, n, bits[i * LEN..].as_ptr(), LEN, out.as_mut_ptr(), LEN, &mut written) };
            assert!(back.number == 0 && written == LEN as u64, "a slice is refused");
            all(out)
        };
        let (mut a, mut b, mut c) = ([0; LEN], [0; LEN], [0; LEN]);
        let inlined = |i: usize| {
            c.iter_mut().zip(&values[i * LEN..]).for_each(|(rank, x)| *rank = x.rank() as u64);
            all(&c)
        };
        race.run_slices(["rank, a slice at once", name, "degrees 1-12"], race.size / LEN, LEN, |i| said(here, i, &mut a), |i| said(there, i, &mut b), inlined);
    }
}

pub fn run(race: &Race) {
    assert!(laid_out(), "an index of the original does not lie in memory as it is said here");
    let mixed: Vec<u64> = (1..=12).collect();
    let of_index: [(&str, fn(&Race, &Sample, &str)); 9] = [
        ("rank", rank_of),
        ("successor", successor),
        ("unrank", unrank_any),
        ("count", count),
        ("deletion", delete),
        ("symbol", symbol),
        ("rank of a word", rank),
        ("pack", pack),
        ("canonicalise", canonicalise),
    ];
    for allowed in [false, true] {
        for (name, group) in of_index.iter().filter(|(name, _)| race.wants(name)) {
            let s = Sample::new(race.size, allowed, &mixed, 64);
            let s = if *name == "canonicalise" { s.shuffled() } else { s };
            group(race, &s, "degrees 1-12");
        }
        #[cfg(batches)]
        if race.wants("rank, a slice at once") {
            slices::run(race, allowed);
        }
        if race.wants("merge") {
            merge(race, allowed);
        }
        for n in [8, 16, 32].into_iter().filter(|_| race.wants("unrank")) {
            unrank_over(race, allowed, n);
        }
        for &k in if allowed { &[6, 32][..] } else { &[2, 6, 32, 48] } {
            for (_, group) in of_index[..3].iter().filter(|(name, _)| race.wants(name)) {
                group(race, &Sample::new(race.part(), allowed, &[k], 64), &format!("degree {k}"));
            }
        }
        for k in [32, 64].into_iter().filter(|_| race.wants("canonicalise")) {
            let s = Sample::new(race.part(), allowed, &[k], 64).shuffled();
            canonicalise(race, &s, &format!("{k} symbols"));
        }
    }
}
