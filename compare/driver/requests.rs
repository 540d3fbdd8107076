// The requests that are made, and how they are written.
//
//   Requests     hands each request on, and none twice
//   list         numbers as they stand in a request; two_lists with the `/` between them
//   count        how many words there are, for ranks around it
//   widest       the alphabet of the words of k symbols whose shifted alphabet is 64; least, the smallest one that an index has
//   index        an index over the widest; alphabets, those at its limits, two of which it is refused over

use crate::original::choose;
use std::collections::HashSet;
use std::collections::hash_map::DefaultHasher;
use std::hash::{Hash, Hasher};

pub struct Requests<'a> {
    seen: HashSet<u64>,
    take: &'a mut dyn FnMut(&str),
}

impl<'a> Requests<'a> {
    pub fn new(take: &'a mut dyn FnMut(&str)) -> Self {
        Self { seen: HashSet::new(), take }
    }

    pub fn put(&mut self, request: &str) {
        let mut hasher = DefaultHasher::new();
        request.hash(&mut hasher);
        if self.seen.insert(hasher.finish()) {
            (self.take)(request)
        }
    }
}

pub fn list(numbers: &[u64]) -> String {
    numbers.iter().map(|x| format!(" {x}")).collect()
}

pub fn two_lists(a: &[u64], b: &[u64]) -> String {
    format!("{} /{}", list(a), list(b))
}

// How many words there are, where the shifted alphabet is at most 64, and otherwise 0.
pub fn count(family: &str, n: u64, k: u64) -> u64 {
    let shifted = n as u128 + if family == "allowed" && k > 0 { k as u128 - 1 } else { 0 };
    if k > 64 || shifted > 64 { 0 } else { choose(shifted as usize, k as usize) }
}

pub fn widest(family: &str, k: u64) -> u64 {
    if family == "allowed" && k > 0 { 65u64.saturating_sub(k).max(1) } else { 64 }
}

pub fn least(family: &str, bits: u64) -> u64 {
    let top = 64 - bits.leading_zeros() as u64;
    if family == "allowed" && bits > 0 { top + 1 - bits.count_ones() as u64 } else { top }
}

pub fn index(family: &str, bits: u64) -> String {
    format!("{family} {} {bits}", widest(family, bits.count_ones() as u64))
}

pub fn alphabets(family: &str, bits: u64) -> [u64; 4] {
    let (low, high) = (least(family, bits), widest(family, bits.count_ones() as u64));
    [low.saturating_sub(1), low, high, high + 1]
}
