// The groups of digit words: count, concatenation, symbol, at 2^60, at 10^12 and with radices 2 to 16 mixed.

use crate::race::{ANSWER, Race, Random, Status};
use multiindex::Word;
use std::hint::black_box;

unsafe extern "C" {
    fn gudrenoss_digits_count(radix: u64, degree: u64, count: &mut u64) -> Status;
    fn gudrenoss_digits_symbol(radix: u64, degree: u64, rank: u64, p: u64, symbol: &mut u64) -> Status;
    fn gudrenoss_digits_concat(
        radix: u64,
        degree: u64,
        rank: u64,
        other_radix: u64,
        other_degree: u64,
        other_rank: u64,
        joined: &mut u64,
        joined_rank: &mut u64,
    ) -> Status;
}

type Counts = unsafe extern "C" fn(u64, u64, &mut u64) -> Status;
type Symbols = unsafe extern "C" fn(u64, u64, u64, u64, &mut u64) -> Status;
type Concats = unsafe extern "C" fn(u64, u64, u64, u64, u64, u64, &mut u64, &mut u64) -> Status;

fn word(radix: u64, degree: u64, rank: u64) -> Word {
    Word::from_rank(radix as usize, degree as usize, rank as usize)
}

extern "C" fn their_count(radix: u64, degree: u64, count: &mut u64) -> Status {
    *count = Word::count(radix as usize, degree as usize) as u64;
    ANSWER
}

extern "C" fn their_symbol(radix: u64, degree: u64, rank: u64, p: u64, symbol: &mut u64) -> Status {
    *symbol = word(radix, degree, rank).symbol(p as usize) as u64;
    ANSWER
}

extern "C" fn their_concat(
    radix: u64,
    degree: u64,
    rank: u64,
    other_radix: u64,
    other_degree: u64,
    other_rank: u64,
    joined: &mut u64,
    joined_rank: &mut u64,
) -> Status {
    let both = word(radix, degree, rank).concat(&word(other_radix, other_degree, other_rank));
    (*joined, *joined_rank) = (both.degree() as u64, both.rank() as u64);
    ANSWER
}

// A digit word cut in two, and a position in it.
struct Cut {
    radix: u64,
    degree: u64,
    rank: u64,
    first: u64,
    low: u64,
    high: u64,
    p: u64,
}

fn cut(radix: u64, degree: u64, random: &mut Random) -> Cut {
    let rank = random.below(radix.pow(degree as u32));
    let first = random.below(degree + 1);
    let power = radix.pow(first as u32);
    Cut { radix, degree, rank, first, low: rank % power, high: rank / power, p: random.below(degree) }
}

// Words of one shape, or of all radices from 2 to 16 with every degree whose words can be counted.
fn sample(size: usize, shape: Option<(u64, u64)>) -> Vec<Cut> {
    let mut random = Random::new(7);
    let mut one = || {
        let radix = 2 + random.below(15);
        let longest = (1..64).take_while(|&d| radix.checked_pow(d).is_some()).last().unwrap() as u64;
        let (radix, degree) = shape.unwrap_or((radix, 1 + random.below(longest)));
        cut(radix, degree, &mut random)
    };
    (0..size).map(|_| one()).collect()
}

pub fn run(race: &Race) {
    for (inputs, shape) in [("2^60", Some((2, 60))), ("10^12", Some((10, 12))), ("radices 2-16", None)] {
        if !["digits: count", "digits: concat", "digits: symbol"].iter().any(|call| race.wants(call)) {
            return;
        }
        let drawn = sample(race.size, shape);
        if race.wants("digits: count") {
            let [here, there] = black_box([gudrenoss_digits_count as Counts, their_count as Counts]);
            let said = |call: Counts, i: usize| {
                let mut count = 0;
                unsafe { call(drawn[i].radix, drawn[i].degree, &mut count) }.with(&[count])
            };
            let inlined = |i: usize| ANSWER.with(&[Word::count(drawn[i].radix as usize, drawn[i].degree as usize) as u64]);
            race.run(["digits: count", "", inputs], race.size, |i| said(here, i), |i| said(there, i), inlined);
        }
        if race.wants("digits: concat") {
            let values: Vec<(Word, Word)> = drawn.iter().map(|c| (word(c.radix, c.first, c.low), word(c.radix, c.degree - c.first, c.high))).collect();
            let [here, there] = black_box([gudrenoss_digits_concat as Concats, their_concat as Concats]);
            let said = |call: Concats, i: usize| {
                let (c, mut degree, mut rank) = (&drawn[i], 0, 0);
                unsafe { call(c.radix, c.first, c.low, c.radix, c.degree - c.first, c.high, &mut degree, &mut rank) }.with(&[degree, rank])
            };
            let inlined = |i: usize| {
                let both = values[i].0.concat(&values[i].1);
                ANSWER.with(&[both.degree() as u64, both.rank() as u64])
            };
            race.run(["digits: concat", "", inputs], race.size, |i| said(here, i), |i| said(there, i), inlined);
        }
        if race.wants("digits: symbol") {
            let values: Vec<Word> = drawn.iter().map(|c| word(c.radix, c.degree, c.rank)).collect();
            let [here, there] = black_box([gudrenoss_digits_symbol as Symbols, their_symbol as Symbols]);
            let said = |call: Symbols, i: usize| {
                let (c, mut symbol) = (&drawn[i], 0);
                unsafe { call(c.radix, c.degree, c.rank, c.p, &mut symbol) }.with(&[symbol])
            };
            let inlined = |i: usize| ANSWER.with(&[values[i].symbol(drawn[i].p as usize) as u64]);
            race.run(["digits: symbol", "", inputs], race.size, |i| said(here, i), |i| said(there, i), inlined);
        }
    }
}
