// Every verb in turn, on inputs drawn around its limits: `some` puts n of them.

use crate::random::Random;
use crate::requests::{Requests, count, least, list, two_lists, widest};

const LENDING: [&str; 9] = ["unrank", "unpack", "strides", "delinearize", "digitsymbols", "expword", "expfrom", "expunrank", "expadd"];

// Every verb of `ask`; one with more to it stands twice.
const VERBS: [&str; 56] = [
    "count", "walk", "unrank", "unrankover", "unrankany", "rank", "rankof", "pack", "unpack", "canonical", "next", "merge", "delete",
    "symbol", "stabilizer", "complement", "degree", "insert", "position", "contains", "select", "permrank", "permsign", "perminverse",
    "permnext", "permunrank", "permimage", "permcompose", "shapecount", "strides", "linearize", "delinearize", "corner", "digits",
    "digitcount", "digitsymbols", "digitsymbol", "digitmultiplicity", "digitstabilizer", "digitconcat", "digitdelete", "exprank",
    "expword", "expfrom", "expunrank", "expadd", "unrank", "rank", "rankof", "canonical", "next", "merge", "delete", "linearize",
    "delinearize", "digitconcat",
];

pub fn some(to: &mut Requests, n: u64, seed: u64) {
    let mut g = Random::new(seed);
    for i in 0..n {
        let verb = VERBS[(i % VERBS.len() as u64) as usize];
        let request = request(&mut g, verb);
        let lends = LENDING.contains(&verb);
        if lends && g.one_in(12) || g.one_in(400) {
            let room = if g.one_in(20) { g.number() } else { g.below(68) };
            to.put(&format!("room {room} {request}"));
        } else {
            to.put(&request);
        }
    }
}

fn request(g: &mut Random, verb: &str) -> String {
    match verb {
        "count" | "walk" | "unrank" | "unrankover" | "unrankany" => of_terms(g, verb),
        "rank" | "pack" | "canonical" => of_word(g, verb),
        "insert" | "position" | "contains" | "select" => of_set(g, verb),
        "shapecount" | "strides" | "linearize" | "delinearize" | "corner" => of_shape(g, verb),
        _ if verb.starts_with("perm") => of_permutation(g, verb),
        _ if verb.starts_with("digit") => of_digits(g, verb),
        _ if verb.starts_with("exp") => of_exponents(g, verb),
        _ => of_index(g, verb),
    }
}

// ---- the requests of each group

fn of_terms(g: &mut Random, verb: &str) -> String {
    let f = g.family();
    match verb {
        "count" => {
            let (n, k) = terms(g, f);
            format!("count {f} {n} {k}")
        }
        "walk" => {
            let (n, k) = terms(g, f);
            let c = count(f, n, k);
            let s = if c < 2000 { g.rank(c).wrapping_add(1).clamp(1, 3000) } else { g.between(1, 200) };
            format!("walk {f} {n} {k} {s}")
        }
        "unrank" | "unrankover" => {
            let (n, k) = terms(g, f);
            let r = rank(g, count(f, n, k));
            format!("{verb} {f} {n} {k} {r}")
        }
        "unrankany" => {
            let k = if g.one_in(20) { g.number() } else { g.between(0, 66) };
            let r = rank(g, count("forbidden", 64, k));
            format!("unrankany {f} {k} {r}")
        }
        _ => unreachable!(),
    }
}

fn of_word(g: &mut Random, verb: &str) -> String {
    let f = g.family();
    let w = some_word(g, f, verb == "canonical");
    if verb == "rank" {
        return format!("rank {f}{}", list(&w));
    }
    let n = alphabet(g, w.iter().max().map_or(0, |s| s.saturating_add(1)), widest(f, w.len() as u64));
    format!("{verb} {f} {n}{}", list(&w))
}

fn of_index(g: &mut Random, verb: &str) -> String {
    let f = g.family();
    match verb {
        "rankof" | "unpack" | "next" | "stabilizer" | "degree" => {
            let x = g.bits();
            format!("{verb} {}", index(g, f, x))
        }
        "merge" => merge(g, f),
        "delete" | "symbol" => {
            let x = g.bits();
            let p = if g.one_in(20) { g.number() } else { g.below(x.count_ones() as u64 + 1) };
            format!("{verb} {} {p}", index(g, f, x))
        }
        "complement" => {
            let x = g.bits();
            let above = 64 - x.leading_zeros() as u64;
            let n = match g.below(4) {
                0 => above + g.below(3),
                1 => above.saturating_sub(g.below(3)),
                2 => g.number(),
                _ => g.between(above, 66),
            };
            let f = if g.one_in(8) { f } else { "forbidden" };
            format!("complement {} {n}", index(g, f, x))
        }
        _ => unreachable!(),
    }
}

fn of_set(g: &mut Random, verb: &str) -> String {
    match verb {
        "insert" | "position" | "contains" => {
            let s = if g.one_in(10) { g.number() } else { g.below(66) };
            format!("{verb} {} {s}", g.bits())
        }
        "select" => {
            let (x, p) = (g.bits(), g.bits());
            let inside = (1u64.checked_shl(x.count_ones()).unwrap_or(0)).wrapping_sub(1);
            format!("select {x} {}", if g.one_in(6) { p } else { p & inside })
        }
        _ => unreachable!(),
    }
}

fn of_permutation(g: &mut Random, verb: &str) -> String {
    match verb {
        "permrank" | "permsign" | "perminverse" | "permnext" => {
            let n = permutation_length(g);
            let p = permutation(g, n);
            format!("{verb}{}", list(&p))
        }
        "permunrank" => {
            let n = if g.one_in(20) { g.number() } else { g.between(0, 21) };
            let r = rank(g, (1..=n.min(20)).product());
            format!("permunrank {n} {r}")
        }
        "permimage" => {
            let n = permutation_length(g);
            let p = permutation(g, n);
            let i = if g.one_in(20) { g.number() } else { g.below(n + 1) };
            format!("permimage {i} /{}", list(&p))
        }
        "permcompose" => {
            let n = permutation_length(g);
            let m = if g.one_in(12) { permutation_length(g) } else { n };
            let (p, q) = (permutation(g, n), permutation(g, m));
            format!("permcompose{}", two_lists(&p, &q))
        }
        _ => unreachable!(),
    }
}

fn of_shape(g: &mut Random, verb: &str) -> String {
    match verb {
        "shapecount" | "strides" => format!("{verb}{}", list(&shape(g))),
        "linearize" => {
            let r = shape(g);
            let d = digits(g, &r);
            format!("linearize{}", two_lists(&r, &d))
        }
        "delinearize" => {
            let r = shape(g);
            let x = match r.iter().try_fold(1u64, |c, &x| c.checked_mul(x)) {
                Some(c) => g.rank(c),
                None => g.number(),
            };
            format!("delinearize {x} /{}", list(&r))
        }
        "corner" if g.one_in(8) => {
            let (large, small) = (g.between(1, 5), g.between(1, 5));
            let mut r: Vec<u64> = (0..large).map(|_| g.next() >> g.below(48)).collect();
            r.push(0);
            r.extend((0..small).map(|_| g.between(0, 9)));
            let set = g.next() & ((1 << r.len()) - 1);
            let after = !((1 << (large + 1)) - 1);
            format!("corner {} /{}", if g.one_in(4) { set } else { set & after | g.below(2) }, list(&r))
        }
        "corner" => {
            let r = shape(g);
            let inside = (1u64 << r.len()) - 1;
            let set = g.bits();
            format!("corner {} /{}", if g.one_in(12) { set } else { set & inside }, list(&r))
        }
        _ => unreachable!(),
    }
}

fn of_digits(g: &mut Random, verb: &str) -> String {
    match verb {
        "digits" => {
            let (radix, degree, _) = digit_word(g, 70);
            let mut s: Vec<u64> = (0..degree.min(70)).map(|_| if g.one_in(4) { radix.wrapping_sub(1) } else { g.below(radix) }).collect();
            if g.one_in(12) {
                g.disturb(&mut s);
            }
            format!("digits {radix} /{}", list(&s))
        }
        "digitcount" => {
            let (radix, degree, _) = digit_word(g, u64::MAX);
            format!("digitcount {radix} {degree}")
        }
        "digitsymbols" => digit_request(g, verb, 200),
        "digitstabilizer" => stabilizer_of_digits(g),
        "digitsymbol" | "digitdelete" => {
            let (radix, degree, rank) = digit_word(g, u64::MAX);
            let p = if g.one_in(20) { g.number() } else { g.below(degree.min(70) + 1) };
            format!("{verb} {radix} {degree} {rank} {p}")
        }
        "digitmultiplicity" => {
            let word = digit_request(g, verb, 200);
            let s = if g.one_in(8) { g.number() } else { g.below(12) };
            format!("{word} {s}")
        }
        "digitconcat" => digit_concat(g),
        _ => unreachable!(),
    }
}

fn of_exponents(g: &mut Random, verb: &str) -> String {
    match verb {
        "exprank" | "expword" => format!("{verb}{}", list(&exponents(g))),
        "expfrom" => {
            let (n, k) = terms(g, "allowed");
            let n = n.min(100);
            let mut w: Vec<u64> = (0..k.min(70)).map(|_| g.below(n)).collect();
            if g.one_in(12) {
                g.disturb(&mut w);
            }
            format!("expfrom {n} /{}", list(&w))
        }
        "expunrank" => {
            let (n, k) = terms(g, "allowed");
            let (n, k) = (n.min(300), k.min(300));
            let r = rank(g, count("allowed", n, k));
            format!("expunrank {n} {k} {r}")
        }
        "expadd" => exponent_sum(g),
        _ => unreachable!(),
    }
}

// ---- the inputs

// An alphabet and a degree whose shifted alphabet is mostly at most 64, often just that.
fn terms(g: &mut Random, family: &str) -> (u64, u64) {
    if g.one_in(16) {
        return (g.number(), g.number());
    }
    let shifted = if g.one_in(3) { g.between(60, 66) } else { g.between(0, 64) };
    let k = if g.one_in(8) { g.between(0, 66) } else { g.below(shifted + 1) };
    let n = if family == "allowed" && k > 0 { (shifted + 1).saturating_sub(k) } else { shifted };
    (n, k)
}

fn rank(g: &mut Random, count: u64) -> u64 {
    if g.one_in(16) { g.number() } else { g.rank(count) }
}

fn some_word(g: &mut Random, family: &str, any_order: bool) -> Vec<u64> {
    let mut w = match g.below(8) {
        0 => {
            let n = g.between(60, 68);
            let step = if family == "allowed" { 0 } else { 1 };
            let first = g.below(2);
            (0..n).map(|i| first + i * step).collect()
        }
        1 => {
            let n = g.below(5);
            let mut w: Vec<u64> = (0..n).map(|_| g.number()).collect();
            w.sort();
            w
        }
        _ => g.word(family),
    };
    if any_order {
        g.shuffle(&mut w);
    }
    if g.one_in(6) {
        g.disturb(&mut w);
    }
    w
}

fn merge(g: &mut Random, f: &str) -> String {
    let (x, y) = if f == "forbidden" {
        let (x, y) = (g.bits(), g.bits());
        (x, if g.one_in(6) { y } else { y & !x })
    } else if g.one_in(8) {
        (g.bits(), g.bits())
    } else {
        allowed_pair(g)
    };
    let other = if g.one_in(40) { g.family() } else { f };
    let together = (x.count_ones() + y.count_ones()) as u64;
    let n = alphabet(g, least(f, x), widest(f, together));
    let m = alphabet(g, least(other, y), widest(other, together));
    format!("merge {f} {n} {x} {other} {m} {y}")
}

// An index over an alphabet that is mostly the widest.
fn index(g: &mut Random, f: &str, x: u64) -> String {
    let n = alphabet(g, least(f, x), widest(f, x.count_ones() as u64));
    format!("{f} {n} {x}")
}

// An alphabet from the lowest that a word has to the widest that it may have, at either end, or just past it.
fn alphabet(g: &mut Random, low: u64, high: u64) -> u64 {
    match g.below(12) {
        0 => low.saturating_sub(1),
        1 | 2 => low,
        3 => high + 1,
        4 => g.number(),
        5 | 6 if low <= high => g.between(low, high),
        _ => high,
    }
}

// Two Allowed words whose merge ends at most one past bit 63.
fn allowed_pair(g: &mut Random) -> (u64, u64) {
    let total = g.between(0, 64);
    let left = g.below(total + 1);
    let symbols = 64 - total + g.between(1, 2);
    let bits = |g: &mut Random, k: u64| {
        let mut w: Vec<u64> = (0..k).map(|_| g.below(symbols)).collect();
        w.sort();
        w.iter().enumerate().filter(|(i, s)| **s + (*i as u64) < 64).fold(0, |x, (i, s)| x | 1u64 << (s + i as u64))
    };
    (bits(g, left), bits(g, total - left))
}

fn permutation_length(g: &mut Random) -> u64 {
    match g.below(6) {
        0 | 1 => g.between(18, 22),
        2 => g.between(21, 66),
        _ => g.between(0, 20),
    }
}

fn permutation(g: &mut Random, n: u64) -> Vec<u64> {
    let mut p: Vec<u64> = (0..n).collect();
    match g.below(6) {
        0 => p.reverse(),
        1 => {
            let i = g.below(n + 1) as usize;
            p[i..].reverse();
        }
        2 => {
            p.reverse();
            let i = g.below(n.min(7) + 1) as usize;
            g.shuffle(&mut p[..i]);
        }
        _ => g.shuffle(&mut p),
    }
    if g.one_in(8) {
        g.disturb(&mut p);
    }
    p
}

// The radices of a shape, whose product is often near 2^64.
fn shape(g: &mut Random) -> Vec<u64> {
    let mut r: Vec<u64> = match g.below(6) {
        0 => (0..g.below(7)).map(|_| g.between(0, 5)).collect(),
        1 => {
            let mut left = g.between(60, 66);
            let n = g.between(1, 16);
            let mut r = vec![];
            for _ in 0..n {
                let e = g.below(left.min(63) + 1);
                left -= e;
                r.push(1 << e);
            }
            r
        }
        2 | 3 => {
            let n = g.between(1, 8);
            let mut product = 1u128;
            let mut r = vec![];
            for _ in 0..n {
                let most = (u64::MAX as u128 / product) as u64;
                let x = if most < 2 { 1 } else { 1 + (g.next() >> g.below(63)) % most };
                product *= x as u128;
                r.push(x);
            }
            let last = ((1u128 << 64) / product) as u64;
            r.push(last.saturating_add(g.below(3)).saturating_sub(1));
            g.shuffle(&mut r);
            r
        }
        4 => (0..g.below(4)).map(|_| g.number()).collect(),
        _ => (0..g.between(14, 18)).map(|_| g.between(1, 4)).collect(),
    };
    if !r.is_empty() && g.one_in(8) {
        let i = g.below(r.len() as u64) as usize;
        r[i] = g.below(2);
    }
    r
}

fn digits(g: &mut Random, r: &[u64]) -> Vec<u64> {
    let mut d: Vec<u64> = r.iter().map(|&x| if g.one_in(4) { x.wrapping_sub(1) } else { g.below(x) }).collect();
    match g.below(16) {
        0 => g.disturb(&mut d),
        1 => {
            d.pop();
        }
        2 => d.push(0),
        3 => {
            let i = g.below(r.len() as u64) as usize;
            if let Some(x) = d.get_mut(i) {
                *x = r[i].saturating_add(g.below(3))
            }
        }
        _ => {}
    }
    d
}

// A radix, a degree of at most `longest` and a rank; radix^degree is often near 2^64, and the rank near that.
fn digit_word(g: &mut Random, longest: u64) -> (u64, u64, u64) {
    let (radix, degree) = match g.below(6) {
        0 => (g.between(0, 4), g.between(0, 66)),
        1 => (g.number(), g.below(3)),
        2 => (g.below(20), g.below(12)),
        3 if g.one_in(4) => (g.number(), g.number()),
        _ => {
            let degree = g.between(1, 64);
            let root = 2f64.powf(64.0 / degree as f64) as u64;
            (root.saturating_add(g.below(3)).saturating_sub(1), degree)
        }
    };
    let degree = degree.min(longest);
    let rank = match power(radix, degree) {
        Some(c) if !g.one_in(16) => g.rank(c),
        _ => g.number(),
    };
    (radix, degree, rank)
}

fn digit_request(g: &mut Random, verb: &str, longest: u64) -> String {
    let (radix, degree, rank) = digit_word(g, longest);
    format!("{verb} {radix} {degree} {rank}")
}

// Small radices, with many equal digits among them.
fn stabilizer_of_digits(g: &mut Random) -> String {
    let (radix, degree, rank) = digit_word(g, 70);
    let radix = if g.one_in(50) { radix } else { radix.min(40) };
    let rank = match power(radix, degree) {
        Some(c) if g.one_in(2) => g.bits() % c.max(1),
        Some(c) => rank % (c.saturating_add(1)).max(1),
        None => rank,
    };
    format!("digitstabilizer {radix} {degree} {rank}")
}

fn digit_concat(g: &mut Random) -> String {
    let (radix, degree, rank) = digit_word(g, u64::MAX);
    let split = g.below(degree.min(70) + 1);
    let part = |g: &mut Random, degree: u64| match power(radix, degree) {
        Some(c) if !g.one_in(16) => g.rank(c),
        _ => g.number(),
    };
    if g.one_in(12) {
        let (other, more, second) = digit_word(g, u64::MAX);
        return format!("digitconcat {radix} {degree} {rank} {other} {more} {second}");
    }
    let rest = degree.min(70) - split + if g.one_in(4) { g.below(3) } else { 0 };
    let (first, second) = (part(g, split), part(g, rest));
    let other = if g.one_in(20) { radix.wrapping_add(1) } else { radix };
    format!("digitconcat {radix} {split} {first} {other} {rest} {second}")
}

// Exponents of n symbols with sum k.
fn spread(g: &mut Random, n: u64, k: u64) -> Vec<u64> {
    let mut e = vec![0; n as usize];
    let few = if g.one_in(2) { n } else { 1 + g.below(n) };
    for _ in 0..k {
        let at = g.below(few) as usize;
        if let Some(x) = e.get_mut(at) {
            *x += 1
        }
    }
    g.shuffle(&mut e);
    e
}

fn exponents(g: &mut Random) -> Vec<u64> {
    if g.one_in(12) {
        let n = g.below(5);
        return (0..n).map(|_| g.number()).collect();
    }
    let (n, k) = terms(g, "allowed");
    spread(g, n.min(70), k.min(70))
}

fn exponent_sum(g: &mut Random) -> String {
    if g.one_in(12) {
        return format!("expadd{}", two_lists(&exponents(g), &exponents(g)));
    }
    let (n, k) = terms(g, "allowed");
    let (n, k) = (n.min(70), k.min(70));
    let first = g.below(k + 1);
    let other = if g.one_in(20) { n + 1 } else { n };
    let (a, b) = (spread(g, n, first), spread(g, other, k - first));
    format!("expadd{}", two_lists(&a, &b))
}

fn power(radix: u64, degree: u64) -> Option<u64> {
    radix.checked_pow(degree.try_into().ok()?)
}
