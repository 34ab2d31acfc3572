//! crates/angles/src/guess.rt has the coefficients that the fit gives, to the last digit.

use host::fit::{Guess, QUARTER};

const CODE: &str = include_str!("../../crates/angles/src/guess.rt");

/// What stands in the code between `start`, which is there once, and the next `end`.
fn between(start: &str, end: &str) -> &'static str {
    assert_eq!(CODE.matches(start).count(), 1, "{start}");
    let after = CODE.split_once(start).unwrap().1;
    after.split_once(end).unwrap().0
}

#[test]
fn the_code_has_the_fitted_coefficients() {
    let counts =
        [("rough_root", 2), ("small_cosine_arc", 3), ("sine_arc", 14), ("tangent_arc", 10)];
    for (part, (name, count)) in Guess::fitted().parts().iter().zip(counts) {
        assert_eq!(part.name, name);
        assert_eq!(part.lines.matches('.').count(), count, "{}", part.lines);
        let body = between(&format!("fn {name}("), "\n}\n");
        assert!(body.contains(&part.lines), "{name} has not\n{}", part.lines);
    }
}

/// What the fit takes for granted.
#[test]
fn the_code_has_the_other_numbers() {
    assert_eq!(between("const QUARTER: f64 = ", ";").parse(), Ok(QUARTER));
    let root = between("fn rough_root(", "\n}\n");
    assert!(root.contains("let b = f64::to_bits(u) >> 1;"));
    assert!(root.contains("f64::from_bits(6909647724535087104 - (b & 0x3fff_ffff_ffff_ffff))"));
    assert!(between("fn small_cosine_arc(", "\n}\n").contains("s + s * e * (0.5 + 0.375 * e)"));
    assert!(between("fn sine_arc(", "\n}\n").contains("if a <= 0.984375 {"));
}

#[test]
fn the_guesses_are_as_near_as_the_page_says() {
    let [root, cosine, sine, tangent] = Guess::fitted().parts();
    for (part, largest) in [(root, 0.0007), (cosine, 0.0006), (sine, 0.0033), (tangent, 0.0038)] {
        assert!(part.error <= largest, "{}: {}", part.name, part.error);
    }
}
