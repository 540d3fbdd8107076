// Every verb on all small inputs: `all` puts them.

use crate::requests::{Requests, alphabets, count, index, least, list, two_lists, widest};

const FAMILIES: [&str; 2] = ["forbidden", "allowed"];

pub fn all(to: &mut Requests) {
    counts(to);
    ranks(to);
    words(to);
    indices(to);
    pairs(to);
    sets(to);
    every_permutation(to);
    shapes(to);
    digit_words(to);
    exponents(to);
}

fn counts(to: &mut Requests) {
    for f in FAMILIES {
        for n in 0..=70 {
            for k in 0..=70 {
                to.put(&format!("count {f} {n} {k}"));
            }
        }
    }
}

fn ranks(to: &mut Requests) {
    for f in FAMILIES {
        for (n, k) in (0..=9).flat_map(|n| (0..=6).map(move |k| (n, k))) {
            for r in 0..count(f, n, k) + 2 {
                to.put(&format!("unrank {f} {n} {k} {r}"));
                to.put(&format!("unrankover {f} {n} {k} {r}"));
                to.put(&format!("walk {f} {n} {k} {}", r + 1));
            }
            for room in 0..=7 {
                to.put(&format!("room {room} unrank {f} {n} {k} 0"));
            }
        }
        for k in 0..=66 {
            let c = count("forbidden", 64, k);
            for r in (0..40).chain(c.saturating_sub(40)..c.saturating_add(3)) {
                to.put(&format!("unrankany {f} {k} {r}"));
            }
        }
    }
}

fn words(to: &mut Requests) {
    let words = [lists(7, 4), lists(3, 7)].concat();
    for w in words {
        for f in FAMILIES {
            to.put(&format!("rank {f}{}", list(&w)));
            let (low, high) = (w.iter().max().map_or(0, |s| s + 1), widest(f, w.len() as u64));
            for n in [low.saturating_sub(1), low, high, high + 1] {
                to.put(&format!("pack {f} {n}{}", list(&w)));
                to.put(&format!("canonical {f} {n}{}", list(&w)));
            }
        }
    }
}

fn indices(to: &mut Requests) {
    let edges = (0..64).flat_map(|s| [1u64 << s, u64::MAX << s, u64::MAX >> s, 1 << s | 1 << 63, 1 << 63 | ((1 << s) - 1)]);
    let all: Vec<u64> = (0..4096).chain(edges).collect();
    for x in all {
        for f in FAMILIES {
            for n in alphabets(f, x) {
                for verb in ["rankof", "unpack", "next", "stabilizer", "degree"] {
                    to.put(&format!("{verb} {f} {n} {x}"));
                }
                let p = x % 3;
                to.put(&format!("delete {f} {n} {x} {p}"));
                to.put(&format!("symbol {f} {n} {x} {p}"));
            }
            let k = x.count_ones() as u64;
            if x >= 1024 && x % 7 == 0 {
                continue;
            }
            let x = index(f, x);
            for p in 0..=k + 1 {
                to.put(&format!("delete {x} {p}"));
                to.put(&format!("symbol {x} {p}"));
            }
            to.put(&format!("room {} unpack {x}", k.saturating_sub(1)));
            to.put(&format!("room {k} unpack {x}"));
        }
    }
}

fn pairs(to: &mut Requests) {
    for (x, y) in (0..96u64).flat_map(|x| (0..96u64).map(move |y| (x, y))) {
        for f in FAMILIES {
            let together = widest(f, (x.count_ones() + y.count_ones()) as u64);
            to.put(&format!("merge {f} {together} {x} {f} {together} {y}"));
            to.put(&format!("merge {f} {} {x} {f} {} {y}", least(f, x), least(f, y)));
            to.put(&format!("merge {} {}", index(f, x), index(f, y)));
            if x < 12 && y < 12 {
                for g in FAMILIES {
                    to.put(&format!("merge {} {}", index(f, x), index(g, y)));
                    for (n, m) in alphabets(f, x).into_iter().flat_map(|n| alphabets(g, y).map(|m| (n, m))) {
                        to.put(&format!("merge {f} {n} {x} {g} {m} {y}"));
                    }
                }
            }
        }
        to.put(&format!("select {x} {y}"));
    }
}

fn sets(to: &mut Requests) {
    for x in 0..256u64 {
        for n in 0..=9 {
            for own in alphabets("forbidden", x) {
                to.put(&format!("complement forbidden {own} {x} {n}"));
            }
            to.put(&format!("insert {x} {n}"));
            to.put(&format!("position {x} {n}"));
            to.put(&format!("contains {x} {n}"));
        }
        to.put(&format!("complement {} 8", index("allowed", x)));
    }
    for s in 0..=66u64 {
        for x in [0, 1, 1 << 63, u64::MAX, u64::MAX >> 1, u64::MAX - 1] {
            to.put(&format!("complement {} {s}", index("forbidden", x)));
            to.put(&format!("complement {} {s}", index("allowed", x)));
            to.put(&format!("insert {x} {s}"));
            to.put(&format!("position {x} {s}"));
            to.put(&format!("contains {x} {s}"));
        }
    }
}

fn every_permutation(to: &mut Requests) {
    let good = (0..=7).flat_map(permutations);
    for p in good.chain(lists(5, 4)) {
        for verb in ["permrank", "permsign", "perminverse", "permnext"] {
            to.put(&format!("{verb}{}", list(&p)));
        }
        if p.len() < 6 {
            for i in 0..=p.len() as u64 + 1 {
                to.put(&format!("permimage {i} /{}", list(&p)));
            }
        }
    }
    let few: Vec<_> = (0..=4).flat_map(permutations).chain(lists(3, 3)).collect();
    for p in &few {
        for q in &few {
            to.put(&format!("permcompose{}", two_lists(p, q)));
        }
    }
    for n in 0..=22u64 {
        let c: u64 = (1..=n.min(20)).product();
        for r in (0..c.min(5040)).chain([c - 1, c, c + 1]) {
            to.put(&format!("permunrank {n} {r}"));
        }
    }
}

fn shapes(to: &mut Requests) {
    for r in [lists(5, 4), lists(2, 7)].concat() {
        to.put(&format!("shapecount{}", list(&r)));
        to.put(&format!("strides{}", list(&r)));
        to.put(&format!("room {} strides{}", r.len().saturating_sub(1), list(&r)));
        for corner in 0..1 << (r.len() + 1).min(5) {
            to.put(&format!("corner {corner} /{}", list(&r)));
        }
        if r.len() > 3 {
            continue;
        }
        for x in 0..=r.iter().product::<u64>() + 1 {
            to.put(&format!("delinearize {x} /{}", list(&r)));
            to.put(&format!("room {} delinearize {x} /{}", r.len().saturating_sub(1), list(&r)));
        }
    }
    for r in lists(4, 3) {
        for d in lists(4, 3) {
            to.put(&format!("linearize{}", two_lists(&r, &d)));
        }
    }
}

fn digit_words(to: &mut Requests) {
    for radix in 0..=5u64 {
        for s in lists(radix + 1, 4) {
            to.put(&format!("digits {radix} /{}", list(&s)));
        }
        for degree in 0..=66 {
            to.put(&format!("digitcount {radix} {degree}"));
        }
        for degree in 0..=5 {
            for rank in 0..=radix.pow(degree).min(300) + 1 {
                let word = format!("{radix} {degree} {rank}");
                to.put(&format!("digitsymbols {word}"));
                to.put(&format!("room {} digitsymbols {word}", degree.saturating_sub(1)));
                to.put(&format!("digitstabilizer {word}"));
                for p in 0..=degree.max(radix as u32) + 1 {
                    to.put(&format!("digitsymbol {word} {p}"));
                    to.put(&format!("digitmultiplicity {word} {p}"));
                    to.put(&format!("digitdelete {word} {p}"));
                }
            }
        }
    }
    let few: Vec<(u64, u32, u64)> = (0..=3u64)
        .flat_map(|radix| (0..=3).flat_map(move |degree| (0..=radix.pow(degree).min(9)).map(move |rank| (radix, degree, rank))))
        .collect();
    for (a, b, c) in &few {
        for (d, e, f) in &few {
            to.put(&format!("digitconcat {a} {b} {c} {d} {e} {f}"));
        }
    }
}

fn exponents(to: &mut Requests) {
    for e in [lists(5, 4), lists(3, 6)].concat() {
        to.put(&format!("exprank{}", list(&e)));
        to.put(&format!("expword{}", list(&e)));
        to.put(&format!("room {} expword{}", e.iter().sum::<u64>().saturating_sub(1), list(&e)));
    }
    for (n, w) in (0..=4u64).flat_map(|n| lists(5, 4).into_iter().map(move |w| (n, w))) {
        to.put(&format!("expfrom {n} /{}", list(&w)));
        to.put(&format!("room {} expfrom {n} /{}", n.saturating_sub(1), list(&w)));
    }
    for (n, k) in (0..=6).flat_map(|n| (0..=6).map(move |k| (n, k))) {
        for r in 0..count("allowed", n, k) + 2 {
            to.put(&format!("expunrank {n} {k} {r}"));
        }
        to.put(&format!("room {} expunrank {n} {k} 0", n.saturating_sub(1)));
    }
    for a in lists(4, 3) {
        for b in lists(4, 3) {
            to.put(&format!("expadd{}", two_lists(&a, &b)));
        }
        to.put(&format!("room {} expadd{}", a.len().saturating_sub(1), two_lists(&a, &a)));
    }
}

// ---- the inputs

// All lists of at most `length` numbers below the bound.
fn lists(bound: u64, length: usize) -> Vec<Vec<u64>> {
    let mut all = vec![vec![]];
    let mut from = 0;
    for _ in 0..length {
        let to = all.len();
        for i in from..to {
            for x in 0..bound {
                let mut longer = all[i].clone();
                longer.push(x);
                all.push(longer);
            }
        }
        from = to;
    }
    all
}

// All permutations of a length.
fn permutations(n: u64) -> Vec<Vec<u64>> {
    if n == 0 {
        return vec![vec![]];
    }
    let shorter = permutations(n - 1);
    let with = |p: &Vec<u64>, i: usize| [&p[..i], &[n - 1], &p[i..]].concat();
    shorter.iter().flat_map(|p| (0..n as usize).map(move |i| with(p, i))).collect()
}
