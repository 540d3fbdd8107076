// The benchmark: the Rust original beside this port's static library, on the same inputs, in one program.
//
//   speed time ROUNDS [CALL]    times every group, or those of the calls whose name has CALL in it (race.rs)
//   speed count 0 [CALL]        runs each side a little, between marks, for a counter of instructions
//
// Each group has three sides. Ours is the call of the library. The Rust's is a function of the same shape, that of the C boundary; both are called
// through a pointer that the compiler does not see through, so that both pay for one call with all of its arguments. The third is the Rust on
// values of its own, inlined in the loop. Inputs are drawn once, from a fixed seed. This side tests every record that it takes; the original, which
// has no alphabet and trusts its values, does not.
//
//   terms.rs     indices and words of both families
//   orders.rs    permutations
//   digits.rs    digit words

mod digits;
mod orders;
mod race;
mod terms;

fn main() {
    let words: Vec<String> = std::env::args().skip(1).collect();
    let [mode, rounds, only] = match &words[..] {
        [mode, rounds] => [mode.as_str(), rounds.as_str(), ""],
        [mode, rounds, only] => [mode.as_str(), rounds.as_str(), only.as_str()],
        _ => panic!("usage: speed time ROUNDS [CALL]"),
    };
    let race = race::Race::new(mode == "count", rounds.parse().expect("a number of rounds"), only);
    terms::run(&race);
    orders::run(&race);
    digits::run(&race);
}
