// Times the wide rank, successor and unranking over 128: the Rust original with 128 bits beside this port's static library, on the same inputs, in one
// program. Both sides are functions of one shape, that of the C boundary, and both are called through a pointer that the compiler does not see through.
// The original has one table of binomials for all widths, 64 bits an entry, which stops at 2^64 - 1; so it is asked about ranks below 2^64 alone.
//
//   sample     fifty thousand sets of so many numbers below 128, from a fixed seed
//   run        one call over a list of inputs: the least time of each side over a number of rounds, in turns, and their ratio; both have to say the same

use multiindex::{CombinationOver, MonoIndexOver, Repetition};
use std::hint::black_box;
use std::time::{Duration, Instant};

const SIZE: usize = 50_000;
const ROUNDS: usize = 15;

// A refusal's number, 0 for an answer, and its place.
#[repr(C)]
struct Status {
    number: u64,
    at: u64,
}

const ANSWER: Status = Status { number: 0, at: 0 };
const LAST: Status = Status { number: 4, at: 0 };

#[link(name = "capi", kind = "static")]
unsafe extern "C" {
    fn gudrenoss_wide_rank_of(allowed: bool, low: u64, high: u64, rank: &mut u64) -> Status;
    fn gudrenoss_wide_successor(allowed: bool, low: u64, high: u64, next_low: &mut u64, next_high: &mut u64) -> Status;
    fn gudrenoss_wide_unrank_any(allowed: bool, k: u64, r: u64, low: &mut u64, high: &mut u64) -> Status;
}

type Ranks = unsafe extern "C" fn(bool, u64, u64, &mut u64) -> Status;
type Steps = unsafe extern "C" fn(bool, u64, u64, &mut u64, &mut u64) -> Status;

// ---- the other side, as functions of the same shape

fn whole(low: u64, high: u64) -> MonoIndexOver<u128> {
    MonoIndexOver::from(CombinationOver::from_bits(u128::from(high) << 64 | u128::from(low)))
}

fn put(index: MonoIndexOver<u128>, low: &mut u64, high: &mut u64) -> Status {
    *low = index.shifted_bits() as u64;
    *high = (index.shifted_bits() >> 64) as u64;
    ANSWER
}

extern "C" fn their_rank(_: bool, low: u64, high: u64, rank: &mut u64) -> Status {
    *rank = whole(low, high).rank() as u64;
    ANSWER
}

extern "C" fn their_successor(_: bool, low: u64, high: u64, next_low: &mut u64, next_high: &mut u64) -> Status {
    match whole(low, high).colex_successor() {
        Some(index) => put(index, next_low, next_high),
        None => LAST,
    }
}

extern "C" fn their_unrank(_: bool, k: u64, r: u64, low: &mut u64, high: &mut u64) -> Status {
    put(MonoIndexOver::from_rank(Repetition::Forbidden, k as usize, r as usize), low, high)
}

// ---- the inputs

fn sample(degrees: &[u64]) -> Vec<(u128, u64)> {
    let mut state = 0x9E37_79B9_7F4A_7C15u64;
    let mut of_degree = |k: u64| {
        let mut bits = 0u128;
        while bits.count_ones() < k as u32 {
            state ^= state << 13;
            state ^= state >> 7;
            state ^= state << 17;
            bits |= 1 << (state % 128);
        }
        bits
    };
    (0..SIZE).map(|i| degrees[i % degrees.len()]).map(|k| (of_degree(k), k)).collect()
}

// ---- the race

fn said(call: &impl Fn(u64, u64, &mut u64, &mut u64) -> Status, (a, b): (u64, u64)) -> u64 {
    let (mut low, mut high) = (0, 0);
    let back = call(a, b, &mut low, &mut high);
    back.number.wrapping_add(back.at).wrapping_add(low).wrapping_add(high.wrapping_mul(7))
}

fn timed(inputs: &[(u64, u64)], call: &impl Fn(u64, u64, &mut u64, &mut u64) -> Status) -> (Duration, u64) {
    let start = Instant::now();
    let sum = inputs.iter().fold(0u64, |sum, &input| sum.wrapping_mul(31).wrapping_add(said(call, input)));
    (start.elapsed(), sum)
}

fn run(
    name: &str,
    group: &str,
    inputs: &[(u64, u64)],
    ours: impl Fn(u64, u64, &mut u64, &mut u64) -> Status,
    theirs: impl Fn(u64, u64, &mut u64, &mut u64) -> Status,
) {
    let (mut here, mut there) = (Duration::MAX, Duration::MAX);
    for _ in 0..ROUNDS {
        let (a, ours_said) = timed(inputs, &ours);
        let (b, theirs_said) = timed(inputs, &theirs);
        assert_eq!(ours_said, theirs_said, "the answers differ: {name}, {group}");
        here = here.min(a);
        there = there.min(b);
    }
    let each = |d: Duration| d.as_secs_f64() * 1e9 / inputs.len() as f64;
    println!("{name:12} {group:>6} {:>10.1} {:>10.1} {:>8.2}", each(here), each(there), each(here) / each(there));
}

fn main() {
    println!("{:12} {:>6} {:>10} {:>10} {:>8}", "over 128", "degree", "here, ns", "Rust, ns", "ratio");
    let [rank_here, rank_there] = black_box([gudrenoss_wide_rank_of as Ranks, their_rank as Ranks]);
    let [next_here, next_there] = black_box([gudrenoss_wide_successor as Steps, their_successor as Steps]);
    let [unrank_here, unrank_there] = black_box([gudrenoss_wide_unrank_any as Steps, their_unrank as Steps]);
    let mixed: Vec<u64> = (1..=12).collect();
    for (group, degrees) in [("1-12", &mixed[..]), ("1", &[1]), ("2", &[2]), ("4", &[4]), ("6", &[6]), ("12", &[12]), ("15", &[15])] {
        let sets = sample(degrees);
        let halves: Vec<(u64, u64)> = sets.iter().map(|&(bits, _)| (bits as u64, (bits >> 64) as u64)).collect();
        run(
            "rank",
            group,
            &halves,
            |low, high, out, _| unsafe { rank_here(false, low, high, out) },
            |low, high, out, _| unsafe { rank_there(false, low, high, out) },
        );
        run(
            "successor",
            group,
            &halves,
            |low, high, x, y| unsafe { next_here(false, low, high, x, y) },
            |low, high, x, y| unsafe { next_there(false, low, high, x, y) },
        );
        let ranks: Vec<(u64, u64)> = sets.iter().map(|&(bits, k)| (k, MonoIndexOver::from(CombinationOver::from_bits(bits)).rank() as u64)).collect();
        run(
            "unrank",
            group,
            &ranks,
            |k, r, x, y| unsafe { unrank_here(false, k, r, x, y) },
            |k, r, x, y| unsafe { unrank_there(false, k, r, x, y) },
        );
    }
}
