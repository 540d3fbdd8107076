// What the Rust original does on a request of `ask`'s language (docs/RULES.md, section 13).
//
//   Outcome      an answer line in `ask`'s own format, no value, a panic with its cause, or not run at all
//   outcome      the outcome of one request: the words are taken apart, the original is called, the answer is printed
//   not_run      the requests on which the original does not return, by the entry of docs/DIFFERENCES.md that says why
//
// An output that is lent has no counterpart there, so `room R` is read and changes nothing. Nor has the alphabet of an index: the original is
// asked about the bits alone, and the alphabet of its answer is put in front by the rule for it (docs/RULES.md). So a walk that was made up,
// the verb `step`, is not asked.

use multiindex::{Combination, Composition, MonoIndex, Permutation, Radix, Repetition, Sign, Word, binomial};
use std::any::Any;
use std::fmt::Display;
use std::panic::{AssertUnwindSafe, catch_unwind};

pub enum Outcome {
    Answer(String),
    NoValue,
    Panic(&'static str),
    NotRun(&'static str),
}

impl Display for Outcome {
    fn fmt(&self, f: &mut std::fmt::Formatter) -> std::fmt::Result {
        match self {
            Outcome::Answer(line) => f.write_str(line),
            Outcome::NoValue => f.write_str("none"),
            Outcome::Panic(cause) => write!(f, "panic {cause}"),
            Outcome::NotRun(entry) => write!(f, "not run {entry}"),
        }
    }
}

// ---- the request, taken apart

#[derive(Default)]
struct Request {
    families: Vec<Repetition>,
    lists: [Vec<usize>; 2],
}

impl Request {
    // Families and numbers in their order; the numbers after a `/` are the second list.
    fn new<'a>(words: impl Iterator<Item = &'a str>) -> Self {
        let mut request = Self::default();
        let mut list = 0;
        for word in words {
            match word {
                "forbidden" => request.families.push(Repetition::Forbidden),
                "allowed" => request.families.push(Repetition::Allowed),
                "/" => list += 1,
                _ => request.lists[list].push(word.parse().expect("driver: a number")),
            }
        }
        request
    }
    fn family(&self) -> Repetition {
        self.families[0]
    }
    fn list(&self) -> &[usize] {
        &self.lists[0]
    }
    fn second(&self) -> &[usize] {
        &self.lists[1]
    }
    // The i-th number of a request without lists, or before the `/`.
    fn at(&self, i: usize) -> usize {
        self.lists[0][i]
    }
    // The i-th index: its bits, and its alphabet, which the original does not know.
    fn index(&self, i: usize) -> MonoIndex {
        index_of(self.families[i], self.at(2 * i + 1) as u64)
    }
    fn alphabet(&self, i: usize) -> usize {
        self.at(2 * i)
    }
    // The word that stands after its alphabet.
    fn word(&self) -> impl Iterator<Item = usize> {
        self.list()[1..].iter().copied()
    }
    fn set(&self, i: usize) -> Combination {
        Combination::from_bits(self.at(i) as u64)
    }
    fn permutation(&self, list: usize) -> Permutation {
        Permutation::new(self.lists[list].iter().copied())
    }
    fn digit_word(&self, i: usize) -> Word {
        Word::from_rank(self.at(i), self.at(i + 1), self.at(i + 2))
    }
    fn exponents(&self, list: usize) -> Composition {
        Composition::new(self.lists[list].clone())
    }
}

// The index with the given bits. Only a Forbidden one can be made from bits, so an Allowed one is made from its word.
fn index_of(family: Repetition, bits: u64) -> MonoIndex {
    let set = Combination::from_bits(bits);
    let index = match family {
        Repetition::Forbidden => set.into(),
        Repetition::Allowed => MonoIndex::new(family, set.iter().enumerate().map(|(i, s)| s - i)),
    };
    assert_eq!(index.shifted_bits(), bits, "driver: the index has other bits");
    index
}

// ---- the requests that are not run

// More turns of a loop, or places of a list, than this are no useful time.
const TURNS: usize = 1 << 17;

// Unranking finds a symbol by counting up from the lowest: are there more than TURNS symbols s with C(s, k) at most r? Not from k = 5
// on, where the number passes 2^64 before; there the original stops by an overflow. Where an alphabet is named, it stops at once unless
// the rank is below the count, which takes as large an alphabet.
fn counts_up(k: usize, r: usize) -> bool {
    let r = r as u128;
    let t = TURNS as u128;
    match k {
        1 => r >= t,
        2 => r >= t * (t - 1) / 2,
        3 => r >= t * (t - 1) * (t - 2) / 6,
        4 => r >= t * (t - 1) * (t - 2) / 6 * (t - 3) / 4,
        _ => false,
    }
}

// The places of the word of an exponent list.
fn places(exponents: &[usize]) -> u128 {
    exponents.iter().map(|&e| e as u128).sum()
}

fn not_run(verb: &str, q: &Request) -> Option<&'static str> {
    let long = |length: usize| length > TURNS;
    let list = q.list();
    match verb {
        "unrank" | "unrankover" if long(q.at(1)) => Some("D23"),
        "unrank" | "unrankover" if long(q.at(0)) && counts_up(q.at(1), q.at(2)) => Some("D19"),
        "unrankany" if counts_up(q.at(0), q.at(1)) => Some("D19"),
        "expunrank" if long(q.at(0)) || long(q.at(1)) => Some("D23"),
        "digitsymbols" | "digitmultiplicity" if long(q.at(1)) => Some("D23"),
        "digitdelete" if long(q.at(3)) && long(q.at(1)) => Some("D23"),
        "digitstabilizer" if long(q.at(1)) && q.at(0) > 0 => Some("D23"),
        "digitstabilizer" if q.at(0).saturating_mul(q.at(1).max(1)) > TURNS => Some("D20"),
        "exprank" | "expword" if places(list) > TURNS as u128 => Some("D23"),
        "expfrom" if long(q.at(0)) => Some("D23"),
        _ => None,
    }
}

// ---- the answers

fn line<T: Display>(values: impl IntoIterator<Item = T>) -> String {
    values.into_iter().map(|v| v.to_string()).collect::<Vec<_>>().join(" ")
}

fn one(value: impl Display) -> Option<String> {
    Some(value.to_string())
}

// An index over n, and one with its sign.
fn over(n: usize, index: MonoIndex) -> String {
    format!("{n} {}", index.shifted_bits())
}

fn signed_over(n: usize, (sign, index): (Sign, MonoIndex)) -> String {
    format!("{sign} {}", over(n, index))
}

// The alphabet of an index that was unranked over none.
fn widest(family: Repetition, k: usize) -> usize {
    match family {
        Repetition::Allowed if k > 0 => 65usize.saturating_sub(k),
        _ => 64,
    }
}

fn degree_and_rank(word: Word) -> Option<String> {
    Some(format!("{} {}", word.degree(), word.rank()))
}

// The permutation after p. The original has a successor only inside its enumeration `all`, so it is taken from there for the first
// permutations of a length, and where the rank is larger by unranking the next rank; the two are compared where both are had.
fn permutation_after(p: &Permutation) -> Option<Permutation> {
    if !p.is_valid() {
        return Permutation::new_checked(p.iter());
    }
    let n = p.len();
    let rank = p.rank();
    if rank < 720 {
        let next = Permutation::all(n).nth(rank + 1);
        let unranked = n <= 20 && next.as_ref().is_some_and(|q| *q != Permutation::from_rank(n, rank + 1));
        assert!(!unranked, "driver: the enumeration and unranking differ");
        return next;
    }
    (rank + 1 < multiindex::factorial(n)).then(|| Permutation::from_rank(n, rank + 1))
}

// Of the original's two ways from a rank to an index, the one over an alphabet gives a word, which is packed for `unrankover`; the other
// gives an index and names no alphabet, which is `unrankany`.
fn answer(verb: &str, q: &Request) -> Option<String> {
    match verb {
        "count" => one(q.family().count(q.at(0), q.at(1))),
        "walk" => MonoIndex::all(q.family(), q.at(0), q.at(1)).nth(q.at(2) - 1).map(|x| over(q.at(0), x)),
        "unrank" => Some(line(q.family().word_from_rank(q.at(0), q.at(1), q.at(2)))),
        "unrankover" => {
            let word = q.family().word_from_rank(q.at(0), q.at(1), q.at(2));
            Some(over(q.at(0), MonoIndex::new(q.family(), word)))
        }
        "unrankany" => Some(over(widest(q.family(), q.at(0)), MonoIndex::from_rank(q.family(), q.at(0), q.at(1)))),
        "rank" => one(q.family().rank(q.list())),
        "rankof" => one(q.index(0).rank()),
        "pack" => Some(over(q.at(0), MonoIndex::new(q.family(), q.word()))),
        "unpack" => Some(line(q.index(0).word())),
        "canonical" => MonoIndex::from_word(q.family(), q.word()).map(|t| signed_over(q.at(0), t)),
        "next" => q.index(0).colex_successor().map(|x| over(q.alphabet(0), x)),
        "merge" => q.index(0).merge(&q.index(1)).map(|t| signed_over(q.alphabet(0).max(q.alphabet(1)), t)),
        "delete" => q.index(0).deletions().nth(q.at(2)).map(|(sign, symbol, x)| format!("{sign} {symbol} {}", over(q.alphabet(0), x))),
        "symbol" => one(q.index(0).symbol(q.at(2))),
        "stabilizer" => one(q.index(0).stabilizer()),
        "complement" => Some(signed_over(q.at(2), q.index(0).complement_signed(q.at(2)))),
        "degree" => one(q.index(0).degree()),
        "insert" => one(q.set(0).inserted(q.at(1)).bits()),
        "position" => one(q.set(0).position_of(q.at(1))),
        "contains" => one(if q.set(0).contains(q.at(1)) { "yes" } else { "no" }),
        "select" => one(q.set(0).select(q.set(1)).bits()),
        "permrank" => one(q.permutation(0).rank()),
        "permsign" => one(q.permutation(0).sign()),
        "perminverse" => Some(line(q.permutation(0).inverse().iter())),
        "permnext" => permutation_after(&q.permutation(0)).map(|p| line(p.iter())),
        "permunrank" => Some(line(Permutation::from_rank(q.at(0), q.at(1)).iter())),
        "permimage" => one(q.permutation(1).apply(q.at(0))),
        "permcompose" => Some(line(q.permutation(0).compose(&q.permutation(1)).iter())),
        "shapecount" => one(Radix::new(q.list().iter().copied()).count()),
        "strides" => Some(line(Radix::new(q.list().iter().copied()).strides())),
        "linearize" => one(Radix::new(q.list().iter().copied()).linearize(q.second())),
        "delinearize" => Some(line(Radix::new(q.second().iter().copied()).delinearize(q.at(0)))),
        "corner" => one(Radix::new(q.second().iter().copied()).corner_offset(q.set(0))),
        "digits" => degree_and_rank(Word::new(q.at(0), q.second().iter().copied())),
        "digitcount" => one(Word::count(q.at(0), q.at(1))),
        "digitsymbols" => Some(line(q.digit_word(0).symbols())),
        "digitsymbol" => one(q.digit_word(0).symbol(q.at(3))),
        "digitmultiplicity" => one(q.digit_word(0).multiplicity(q.at(3))),
        "digitstabilizer" => one(q.digit_word(0).stabilizer()),
        "digitconcat" => degree_and_rank(q.digit_word(0).concat(&q.digit_word(3))),
        "digitdelete" => q.digit_word(0).deletions().nth(q.at(3)).map(|(symbol, word)| format!("{symbol} {}", word.rank())),
        "exprank" => one(q.exponents(0).rank()),
        "expword" => Some(line(q.exponents(0).word())),
        "expfrom" => Some(line(Composition::from_word(q.at(0), q.second()).into_parts())),
        "expunrank" => Some(line(Composition::from_rank(q.at(0), q.at(1), q.at(2)).into_parts())),
        "expadd" => Some(line((&q.exponents(0) + &q.exponents(1)).into_parts())),
        _ => panic!("driver: no verb of ask: {verb}"),
    }
}

// Why the original panicked, by what it says.
fn cause(payload: &(dyn Any + Send)) -> &'static str {
    let said = match (payload.downcast_ref::<&str>(), payload.downcast_ref::<String>()) {
        (Some(s), _) => s,
        (_, Some(s)) => s.as_str(),
        _ => "",
    };
    if said.starts_with("attempt to") && said.ends_with("overflow") {
        "overflow"
    } else if said.starts_with("attempt to") && said.contains("zero") {
        "zero"
    } else if said.starts_with("index out of bounds") {
        "bounds"
    } else if said.contains("driver:") {
        eprintln!("{said}");
        std::process::exit(2)
    } else {
        "assertion"
    }
}

pub fn outcome(request: &str) -> Outcome {
    let mut words = request.split(' ').peekable();
    if words.peek() == Some(&"room") {
        words.nth(1);
    }
    let verb = words.next().expect("driver: a verb");
    let q = Request::new(words);
    if let Some(entry) = not_run(verb, &q) {
        return Outcome::NotRun(entry);
    }
    match catch_unwind(AssertUnwindSafe(|| answer(verb, &q))) {
        Ok(Some(line)) => Outcome::Answer(line),
        Ok(None) => Outcome::NoValue,
        Err(payload) => Outcome::Panic(cause(&*payload)),
    }
}

// The original's count of the words of a shifted alphabet, for those who make requests: exact up to 64.
pub fn choose(n: usize, k: usize) -> u64 {
    binomial(n, k) as u64
}
