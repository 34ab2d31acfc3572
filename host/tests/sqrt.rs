//! The square root against the processor's, which IEEE 754 makes the nearest f32.

use host::prng::Prng;
use host::{entries, floats};

#[track_caller]
fn check(patterns: impl IntoIterator<Item = u32>) {
    for pattern in patterns {
        let x = f32::from_bits(pattern);
        let (ours, expected) = (entries::sqrt(x), x.sqrt());
        assert!(
            floats::same(ours, expected),
            "sqrt({x:e}, {pattern:08x}): {ours:e}, not {expected:e}"
        );
    }
}

/// Checks 2^19 patterns to each side of `middle`, so far as there are any.
#[track_caller]
fn check_about(middle: u32) {
    check(floats::window(middle, 1 << 19));
}

#[test]
fn at_the_edges() {
    check(floats::edges().into_iter().map(f32::to_bits));
}

#[test]
fn of_four_is_two() {
    assert_eq!(entries::sqrt(4.0).to_bits(), 2.0f32.to_bits());
}

#[test]
fn of_negative_numbers_and_nans_is_nan() {
    for pattern in (0x8000_0001..=u32::MAX).step_by(997).chain(0x7f80_0001..0x7f80_1000) {
        assert!(entries::sqrt(f32::from_bits(pattern)).is_nan(), "{pattern:08x}");
    }
}

#[test]
fn around_zero() {
    check_about(0);
    check_about(0x8000_0000);
}

#[test]
fn around_the_least_normal() {
    check_about(f32::MIN_POSITIVE.to_bits());
}

#[test]
fn around_one() {
    check_about(1.0f32.to_bits());
}

#[test]
fn around_the_largest() {
    check_about(f32::MAX.to_bits());
}

#[test]
fn of_whole_squares_and_their_neighbours() {
    for root in 0..=4096u32 {
        let square = ((root * root) as f32).to_bits();
        check([square.saturating_sub(1), square, square + 1]);
    }
}

#[test]
fn at_random() {
    let mut prng = Prng::new(1);
    check((0..10_000_000).map(|_| prng.word()));
}
