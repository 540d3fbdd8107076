// What the groups of the benchmark have in common.
//
//   Status      what comes back over the C boundary
//   Random      numbers from a fixed seed
//   Race        how the groups are run: timed, on a million inputs, or for whoever counts instructions, on a few; `part` is a fifth of
//               either, for groups beside those that were asked for
//   Race::run   one group: the answers of all sides are compared, call by call; then the sides run in turns, each round in another order.
//               It writes a line: call, family, inputs, how many calls, and the nanoseconds of each side in every round
//   mark        what a counter of instructions looks for between the sides

use std::hint::black_box;
use std::time::Instant;

const SIZE: usize = 1_000_000;
const COUNTED: usize = 5_000;

// A refusal's number, 0 for an answer, and its place.
#[repr(C)]
pub struct Status {
    pub number: u64,
    pub at: u64,
}

pub const ANSWER: Status = Status { number: 0, at: 0 };
pub const LAST: Status = Status { number: 4, at: 0 };
pub const REPEATED: Status = Status { number: 5, at: 0 };

impl Status {
    // What a call said, in one number.
    pub fn with(self, values: &[u64]) -> u64 {
        values.iter().fold(self.number.rotate_left(32) ^ self.at, |said, &value| said.rotate_left(7) ^ value)
    }
}

pub struct Random(u64);

impl Random {
    pub fn new(seed: u64) -> Random {
        Random(0x9E37_79B9_7F4A_7C15 ^ seed << 32)
    }

    pub fn next(&mut self) -> u64 {
        self.0 ^= self.0 << 13;
        self.0 ^= self.0 >> 7;
        self.0 ^= self.0 << 17;
        self.0
    }

    pub fn below(&mut self, n: u64) -> u64 {
        self.next() % n
    }
}

#[unsafe(no_mangle)]
#[inline(never)]
pub extern "C" fn benchmark_mark() {
    black_box(());
}

pub struct Race {
    rounds: usize,
    counting: bool,
    only: String,
    pub size: usize,
}

// All calls of one side once; what they say is put together, so that none can be left out.
fn once(calls: usize, call: &mut impl FnMut(usize) -> u64) -> u64 {
    (0..calls).fold(0u64, |said, i| said.rotate_left(1) ^ call(i))
}

fn timed(calls: usize, call: &mut impl FnMut(usize) -> u64) -> u64 {
    let start = Instant::now();
    black_box(once(calls, call));
    start.elapsed().as_nanos() as u64
}

impl Race {
    pub fn new(counting: bool, rounds: usize, only: &str) -> Race {
        Race { rounds, counting, only: only.to_string(), size: if counting { COUNTED } else { SIZE } }
    }

    pub fn part(&self) -> usize {
        self.size / 5
    }

    pub fn wants(&self, call: &str) -> bool {
        self.only.is_empty() || call.contains(&self.only)
    }

    pub fn run(
        &self,
        names: [&str; 3],
        calls: usize,
        ours: impl FnMut(usize) -> u64,
        theirs: impl FnMut(usize) -> u64,
        inlined: impl FnMut(usize) -> u64,
    ) {
        self.run_slices(names, calls, 1, ours, theirs, inlined);
    }

    // The same for a call that takes so many inputs at once: it counts as so many calls.
    pub fn run_slices(
        &self,
        [call, family, inputs]: [&str; 3],
        calls: usize,
        each: usize,
        mut ours: impl FnMut(usize) -> u64,
        mut theirs: impl FnMut(usize) -> u64,
        mut inlined: impl FnMut(usize) -> u64,
    ) {
        for i in 0..calls {
            let said = ours(i);
            assert!(said == theirs(i) && said == inlined(i), "the answers differ: {call} {family} {inputs}, input {i}");
        }
        if self.counting {
            benchmark_mark();
            black_box(once(calls, &mut ours));
            benchmark_mark();
            black_box(once(calls, &mut theirs));
            benchmark_mark();
            black_box(once(calls, &mut inlined));
            benchmark_mark();
            println!("{call}\t{family}\t{inputs}\t{}", calls * each);
            return;
        }
        let mut times = [vec![], vec![], vec![]];
        for round in 0..self.rounds {
            for turn in 0..3 {
                match (round + turn) % 3 {
                    0 => times[0].push(timed(calls, &mut ours)),
                    1 => times[1].push(timed(calls, &mut theirs)),
                    _ => times[2].push(timed(calls, &mut inlined)),
                }
            }
        }
        let row = |side: &Vec<u64>| side.iter().map(|t| t.to_string()).collect::<Vec<_>>().join(",");
        println!("{call}\t{family}\t{inputs}\t{}\t{}\t{}\t{}", calls * each, row(&times[0]), row(&times[1]), row(&times[2]));
    }
}
