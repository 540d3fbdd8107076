// The groups of permutations: image, sign, inverse, composition, rank, unranking and successor at 4, 12 and 20 entries, the first four also at 64.
//
// The Rust's calls of the shape of ours make a permutation of the record that they are lent, which nobody checks (`new`), and write the result to such
// a record; in the groups that say "checked" they have it checked as the original offers it (`new_checked`). Inlined, the Rust works on vectors of its
// own, checked by nobody, and a result is a new vector, which is freed. Ours check all 64 places of every record. The original has a
// successor in its enumeration alone, so both sides walk from the first permutation on.
//
//   Record      a permutation as it is lent
//   theirs      the Rust's calls of the shape of ours
//   run         the groups

use crate::race::{ANSWER, Race, Random, Status};
use multiindex::{Permutation, Sign, factorial};
use std::hint::black_box;

const DRAWN: usize = 512;
const CAPACITY: usize = 64;

type Entries = [u64; CAPACITY];

unsafe extern "C" {
    fn gudrenoss_permutation_image(p: &Entries, n: u64, i: u64, entry: &mut u64) -> Status;
    fn gudrenoss_permutation_sign(p: &Entries, n: u64, minus: &mut bool) -> Status;
    fn gudrenoss_permutation_inverse(p: &Entries, n: u64, entries: &mut Entries, len: &mut u64) -> Status;
    fn gudrenoss_permutation_compose(p: &Entries, n: u64, q: &Entries, m: u64, entries: &mut Entries, len: &mut u64) -> Status;
    fn gudrenoss_permutation_rank(p: &Entries, n: u64, rank: &mut u64) -> Status;
    fn gudrenoss_permutation_unrank(n: u64, r: u64, entries: &mut Entries, len: &mut u64) -> Status;
    fn gudrenoss_permutation_successor(p: &Entries, n: u64, entries: &mut Entries, len: &mut u64) -> Status;
}

type Images = unsafe extern "C" fn(&Entries, u64, u64, &mut u64) -> Status;
type Signs = unsafe extern "C" fn(&Entries, u64, &mut bool) -> Status;
type Inverses = unsafe extern "C" fn(&Entries, u64, &mut Entries, &mut u64) -> Status;
type Composes = unsafe extern "C" fn(&Entries, u64, &Entries, u64, &mut Entries, &mut u64) -> Status;
type Ranks = unsafe extern "C" fn(&Entries, u64, &mut u64) -> Status;
type Unranks = unsafe extern "C" fn(u64, u64, &mut Entries, &mut u64) -> Status;

// ---- the other side, as functions of the same shape

fn made<const CHECKED: bool>(p: &Entries, n: u64) -> Permutation {
    let entries = p[..n as usize].iter().map(|&e| e as usize);
    if CHECKED { Permutation::new_checked(entries).expect("a permutation") } else { Permutation::new(entries) }
}

fn put(p: &Permutation, entries: &mut Entries, len: &mut u64) -> Status {
    let (first, past) = entries.split_at_mut(p.len());
    first.iter_mut().zip(p.parts()).for_each(|(place, &part)| *place = part as u64);
    past.fill(0);
    *len = p.len() as u64;
    ANSWER
}

extern "C" fn their_image<const CHECKED: bool>(p: &Entries, n: u64, i: u64, entry: &mut u64) -> Status {
    *entry = made::<CHECKED>(p, n).apply(i as usize) as u64;
    ANSWER
}

extern "C" fn their_sign<const CHECKED: bool>(p: &Entries, n: u64, minus: &mut bool) -> Status {
    *minus = made::<CHECKED>(p, n).sign() == Sign::Neg;
    ANSWER
}

extern "C" fn their_inverse<const CHECKED: bool>(p: &Entries, n: u64, entries: &mut Entries, len: &mut u64) -> Status {
    put(&made::<CHECKED>(p, n).inverse(), entries, len)
}

extern "C" fn their_compose<const CHECKED: bool>(p: &Entries, n: u64, q: &Entries, m: u64, entries: &mut Entries, len: &mut u64) -> Status {
    put(&made::<CHECKED>(p, n).compose(&made::<CHECKED>(q, m)), entries, len)
}

extern "C" fn their_rank<const CHECKED: bool>(p: &Entries, n: u64, rank: &mut u64) -> Status {
    *rank = made::<CHECKED>(p, n).rank() as u64;
    ANSWER
}

extern "C" fn their_unrank(n: u64, r: u64, entries: &mut Entries, len: &mut u64) -> Status {
    put(&Permutation::from_rank(n as usize, r as usize), entries, len)
}

#[inline(never)]
fn their_next(walk: &mut impl Iterator<Item = Permutation>, entries: &mut Entries, len: &mut u64) -> Status {
    walk.next().map_or(Status { number: 4, at: 0 }, |p| put(&p, entries, len))
}

// ---- the inputs

struct Record {
    entries: Entries,
    len: u64,
}

impl Record {
    fn new(p: &Permutation) -> Record {
        let mut record = Record { entries: [0; CAPACITY], len: 0 };
        put(p, &mut record.entries, &mut record.len);
        record
    }

    // What is looked at of a result, each time that it is timed.
    fn ends(&self, status: Status) -> u64 {
        status.with(&[self.len, self.entries[0], self.entries[self.len as usize - 1]])
    }
}

fn ends(p: &Permutation) -> u64 {
    let parts = p.parts();
    ANSWER.with(&[parts.len() as u64, parts[0] as u64, parts[parts.len() - 1] as u64])
}

fn sample(n: usize) -> Vec<Permutation> {
    let mut random = Random::new(8);
    let mut shuffled = || {
        let mut p: Vec<usize> = (0..n).collect();
        (1..n).rev().for_each(|i| p.swap(i, random.below(i as u64 + 1) as usize));
        Permutation::new(p)
    };
    (0..DRAWN).map(|_| shuffled()).collect()
}

// ---- the groups

// Whether two writers of records give the same ones, in all places, for all that was drawn.
fn same(mut ours: impl FnMut(usize, &mut Record) -> Status, mut theirs: impl FnMut(usize, &mut Record) -> Status) {
    for i in 0..DRAWN {
        let (mut a, mut b) = (Record { entries: [7; CAPACITY], len: 9 }, Record { entries: [8; CAPACITY], len: 6 });
        let (said, other) = (ours(i, &mut a), theirs(i, &mut b));
        assert!(said.number == other.number && said.at == other.at && a.entries == b.entries && a.len == b.len, "the permutations differ: {i}");
    }
}

fn small<const CHECKED: bool>(race: &Race, n: usize, inputs: &str) {
    let values = sample(n);
    let records: Vec<Record> = values.iter().map(Record::new).collect();
    let both = |i: usize| (i % DRAWN, DRAWN - 1 - i % DRAWN);
    let named = |call: &str| if CHECKED { format!("permutation: {call}, checked") } else { format!("permutation: {call}") };
    if race.wants(&named("image")) {
        let [here, there] = black_box([gudrenoss_permutation_image as Images, their_image::<CHECKED> as Images]);
        let said = |call: Images, i: usize| {
            let (p, mut entry) = (&records[both(i).0], 0);
            unsafe { call(&p.entries, p.len, (i % n) as u64, &mut entry) }.with(&[entry])
        };
        let inlined = |i: usize| ANSWER.with(&[values[both(i).0].apply(i % n) as u64]);
        race.run([&named("image"), "", inputs], race.part(), |i| said(here, i), |i| said(there, i), inlined);
    }
    if race.wants(&named("sign")) {
        let [here, there] = black_box([gudrenoss_permutation_sign as Signs, their_sign::<CHECKED> as Signs]);
        let said = |call: Signs, i: usize| {
            let (p, mut minus) = (&records[both(i).0], false);
            unsafe { call(&p.entries, p.len, &mut minus) }.with(&[minus as u64])
        };
        let inlined = |i: usize| ANSWER.with(&[(values[both(i).0].sign() == Sign::Neg) as u64]);
        race.run([&named("sign"), "", inputs], race.part(), |i| said(here, i), |i| said(there, i), inlined);
    }
    if race.wants(&named("inverse")) {
        let [here, there] = black_box([gudrenoss_permutation_inverse as Inverses, their_inverse::<CHECKED> as Inverses]);
        let made = |call: Inverses, i: usize, out: &mut Record| {
            let p = &records[both(i).0];
            unsafe { call(&p.entries, p.len, &mut out.entries, &mut out.len) }
        };
        same(|i, out| made(here, i, out), |i, out| made(there, i, out));
        let (mut a, mut b) = (Record::new(&values[0]), Record::new(&values[0]));
        let ours = |i: usize| { let said = made(here, i, &mut a); a.ends(said) };
        let theirs = |i: usize| { let said = made(there, i, &mut b); b.ends(said) };
        race.run([&named("inverse"), "", inputs], race.part(), ours, theirs, |i| ends(&values[both(i).0].inverse()));
    }
    if race.wants(&named("compose")) {
        let [here, there] = black_box([gudrenoss_permutation_compose as Composes, their_compose::<CHECKED> as Composes]);
        let made = |call: Composes, i: usize, out: &mut Record| {
            let (p, q) = (&records[both(i).0], &records[both(i).1]);
            unsafe { call(&p.entries, p.len, &q.entries, q.len, &mut out.entries, &mut out.len) }
        };
        same(|i, out| made(here, i, out), |i, out| made(there, i, out));
        let (mut a, mut b) = (Record::new(&values[0]), Record::new(&values[0]));
        let ours = |i: usize| { let said = made(here, i, &mut a); a.ends(said) };
        let theirs = |i: usize| { let said = made(there, i, &mut b); b.ends(said) };
        race.run([&named("compose"), "", inputs], race.part(), ours, theirs, |i| ends(&values[both(i).0].compose(&values[both(i).1])));
    }
    if n <= 20 && race.wants(&named("rank")) {
        let [here, there] = black_box([gudrenoss_permutation_rank as Ranks, their_rank::<CHECKED> as Ranks]);
        let said = |call: Ranks, i: usize| {
            let (p, mut rank) = (&records[both(i).0], 0);
            unsafe { call(&p.entries, p.len, &mut rank) }.with(&[rank])
        };
        let inlined = |i: usize| ANSWER.with(&[values[both(i).0].rank() as u64]);
        race.run([&named("rank"), "", inputs], race.part(), |i| said(here, i), |i| said(there, i), inlined);
    }
}

fn unrank(race: &Race, n: usize, inputs: &str) {
    let mut random = Random::new(9);
    let ranks: Vec<u64> = (0..race.part()).map(|_| random.below(factorial(n) as u64)).collect();
    let [here, there] = black_box([gudrenoss_permutation_unrank as Unranks, their_unrank as Unranks]);
    let made = |call: Unranks, i: usize, out: &mut Record| unsafe { call(n as u64, ranks[i], &mut out.entries, &mut out.len) };
    same(|i, out| made(here, i, out), |i, out| made(there, i, out));
    let (mut a, mut b) = (Record::new(&Permutation::identity(n)), Record::new(&Permutation::identity(n)));
    let ours = |i: usize| { let said = made(here, i, &mut a); a.ends(said) };
    let theirs = |i: usize| { let said = made(there, i, &mut b); b.ends(said) };
    race.run(["permutation: unrank", "", inputs], race.part(), ours, theirs, |i| ends(&Permutation::from_rank(n, ranks[i] as usize)));
}

// A walk from the first permutation on, begun again where it ends.
fn successor(race: &Race, n: usize, inputs: &str) {
    let lap = (factorial(n) - 1).min(race.part());
    let first = Permutation::from_rank(n, 0);
    let [here] = black_box([gudrenoss_permutation_successor as Inverses]);
    let begun = || {
        let mut walk = Permutation::all(n);
        walk.next();
        walk
    };
    let mut at = [Record::new(&first), Record::new(&first)];
    let ours = |i: usize| {
        if i % lap == 0 {
            at[i % 2] = Record::new(&first);
        }
        let [a, b] = &mut at;
        let (p, q) = if i % 2 == 0 { (a, b) } else { (b, a) };
        let said = unsafe { here(&p.entries, p.len, &mut q.entries, &mut q.len) };
        q.ends(said)
    };
    let (mut walk, mut own, mut b) = (begun(), begun(), Record::new(&first));
    let theirs = |i: usize| {
        if i % lap == 0 {
            walk = begun();
        }
        let said = their_next(&mut walk, &mut b.entries, &mut b.len);
        b.ends(said)
    };
    let inlined = |i: usize| {
        if i % lap == 0 {
            own = begun();
        }
        ends(&own.next().expect("a next permutation"))
    };
    race.run(["permutation: successor", "", inputs], race.part(), ours, theirs, inlined);
}

pub fn run(race: &Race) {
    for n in [4, 12, 20, 64] {
        let inputs = format!("{n} entries");
        small::<false>(race, n, &inputs);
        if n == 12 {
            small::<true>(race, n, &inputs);
        }
        if n <= 20 && race.wants("permutation: unrank") {
            unrank(race, n, &inputs);
        }
        if n <= 20 && race.wants("permutation: successor") {
            successor(race, n, &inputs);
        }
    }
}
