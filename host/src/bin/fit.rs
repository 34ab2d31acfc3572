//! Fits the coefficients of crates/angles/src/guess.rt: prints its lines that have them, the largest
//! errors, and how often the guesses are another step than the answers.

use host::fit::Guess;

const COUNT: usize = 1_000_000;

fn main() {
    let guess = Guess::fitted();
    for part in guess.parts() {
        let unit = if part.name == "rough_root" { "of the root" } else { "steps" };
        println!("{}, off by {:.6} {unit} at most:", part.name, part.error);
        print!("{}", part.lines);
    }
    println!("Of {COUNT} uniform arguments, the guess is another step than the answer for:");
    for (name, from, to) in [
        ("asin", 0.0, 1.0),
        ("acos", 0.0, 1.0),
        ("acos", -1.0, 0.0),
        ("atan", 0.0, 1.0),
        ("atan", 0.0, 8.0),
    ] {
        let wrong = guess.wrong(name, from, to, COUNT);
        println!("{name} from {from} to {to}: {wrong}, 1 in {}", COUNT / wrong);
    }
}
