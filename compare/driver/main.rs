// Makes requests in `ask`'s language and says what the Rust original does on each: one line a call, the request, a tab, the outcome
// (original.rs). The requests come in this order: the lines of standard input; all small inputs, and N at random, which are left out
// where N is not given.
//
//   driver [N] < requests > calls

mod drawn;
mod original;
mod random;
mod requests;
mod small;

use std::io::{BufRead, BufWriter, Write, stdin, stdout};

const SEED: u64 = 710139;

fn main() {
    std::panic::set_hook(Box::new(|_| {}));
    let mut out = BufWriter::with_capacity(1 << 20, stdout().lock());
    let mut take = |request: &str| writeln!(out, "{request}\t{}", original::outcome(request)).unwrap();
    let mut requests = requests::Requests::new(&mut take);
    for line in stdin().lock().lines() {
        requests.put(&line.unwrap());
    }
    if let Some(n) = std::env::args().nth(1) {
        small::all(&mut requests);
        drawn::some(&mut requests, n.parse().unwrap(), SEED);
    }
    out.flush().unwrap();
}
