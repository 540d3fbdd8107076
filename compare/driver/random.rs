// Numbers drawn from a fixed seed, so that every run makes the same requests.
//
//   Random       splitmix64
//   number       a number of any size, often at an edge: 0, 64, 2^32, 2^63, 2^64 - 1
//   bits         64 bits of any density, often in runs, often with bit 63
//   word         symbols in rising order that often reach 63 when shifted, or pass it by one

pub struct Random(u64);

const EDGES: [u64; 18] = [0, 1, 2, 3, 19, 20, 21, 62, 63, 64, 65, 66, 127, 128, 129, 255, 256, 65536];

impl Random {
    pub fn new(seed: u64) -> Self {
        Self(seed)
    }
    pub fn next(&mut self) -> u64 {
        self.0 = self.0.wrapping_add(0x9e3779b97f4a7c15);
        let mut z = self.0;
        z = (z ^ (z >> 30)).wrapping_mul(0xbf58476d1ce4e5b9);
        z = (z ^ (z >> 27)).wrapping_mul(0x94d049bb133111eb);
        z ^ (z >> 31)
    }
    // Below the bound; 0 for the bound 0.
    pub fn below(&mut self, bound: u64) -> u64 {
        if bound == 0 { 0 } else { self.next() % bound }
    }
    // From low up to and with high.
    pub fn between(&mut self, low: u64, high: u64) -> u64 {
        low + self.below(high - low + 1)
    }
    pub fn one_in(&mut self, n: u64) -> bool {
        self.below(n) == 0
    }
    pub fn of<T: Copy>(&mut self, choices: &[T]) -> T {
        choices[self.below(choices.len() as u64) as usize]
    }
    pub fn family(&mut self) -> &'static str {
        self.of(&["forbidden", "allowed"])
    }

    pub fn number(&mut self) -> u64 {
        match self.below(5) {
            0 => self.of(&EDGES),
            1 => self.below(70),
            2 => self.next() >> self.below(64),
            3 => (1 << self.of(&[32, 63])) + self.below(3) - 1,
            _ => u64::MAX - self.below(70),
        }
    }

    pub fn bits(&mut self) -> u64 {
        let x = match self.below(6) {
            0 => self.next(),
            1 => self.next() & self.next() & self.next(),
            2 => self.next() | self.next() | self.next(),
            3 => self.run(),
            4 => self.run() | self.run() | self.run(),
            _ => {
                let few = self.below(4);
                (0..few).fold(0, |x, _| x | 1 << self.below(64))
            }
        };
        match self.below(8) {
            0 => !x,
            1 => x | 1 << 63,
            2 => x >> self.below(64),
            _ => x,
        }
    }
    // Ones in a row.
    fn run(&mut self) -> u64 {
        let (length, place) = (self.between(1, 64), self.below(64));
        (u64::MAX >> (64 - length)) << place
    }

    // A number that is below the count: anywhere, at its two ends, or just past it.
    pub fn rank(&mut self, count: u64) -> u64 {
        match self.below(8) {
            0 => count.wrapping_sub(1),
            1 => count,
            2 => self.below(20).min(count.saturating_sub(1)),
            3 => count.saturating_sub(self.below(20)),
            _ => self.below(count),
        }
    }

    pub fn word(&mut self, family: &str) -> Vec<u64> {
        let bits = self.bits();
        let set = (0..64).filter(|s| bits >> s & 1 == 1);
        let shift = |i: usize| if family == "allowed" { i as u64 } else { 0 };
        let mut word: Vec<u64> = set.enumerate().map(|(i, s)| s - shift(i)).collect();
        if self.one_in(8) {
            let high = self.between(60, 66);
            word.push(high.saturating_sub(shift(word.len())));
        }
        word
    }

    pub fn shuffle(&mut self, word: &mut [u64]) {
        for i in (1..word.len()).rev() {
            word.swap(i, self.below(i as u64 + 1) as usize);
        }
    }

    // The word with one symbol changed, doubled or moved, which often breaks its rule.
    pub fn disturb(&mut self, word: &mut Vec<u64>) {
        if word.is_empty() {
            return;
        }
        let i = self.below(word.len() as u64) as usize;
        match self.below(4) {
            0 => word[i] = self.number(),
            1 => word.insert(i, word[i]),
            2 => word[i] = word[i].wrapping_add(self.between(0, 2)).wrapping_sub(1),
            _ => {
                let j = self.below(word.len() as u64) as usize;
                word.swap(i, j)
            }
        }
        word.truncate(80);
    }
}
