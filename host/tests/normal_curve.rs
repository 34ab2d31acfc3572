//! fnorml against Abramowitz and Stegun 26.2.18, as an exact fraction:
//! P(x) = 1 - 1/2 (1 + c1 x + c2 x^2 + c3 x^3 + c4 x^4)^-4, and P(-x) = 1 - P(x).

use host::entries::fnorml;
use host::exact::{fraction, Nat};
use host::floats;
use host::prng::Prng;

/// 1, c1 to c4, times a million.
const C: [u128; 5] = [1_000_000, 196_854, 115_194, 344, 19_527];

/// Distances are in units of 2^-40, rounded up.
const BITS: u32 = 40;

/// No distance is above 2^-22. The greatest of all is 2.3397e-7 at WORST (`sweep normal-curve`).
const BOUND: u128 = 1 << (BITS - 22);
const WORST: f32 = f32::from_bits(0x3c56_b5f5);

/// |fnorml(x) - P(x)|, for a finite x.
fn distance(x: f32) -> u128 {
    // With |x| = n / 2^k the polynomial is sum / one, both times a million and 2^4k.
    let (n, k) = fraction(x);
    let term = |i: u32| &(&Nat::from(C[i as usize]) * &n.pow(i)) << (k * (4 - i));
    let one = term(0);
    let sum = (1..5).fold(one.clone(), |sum, i| &sum + &term(i));
    // 1 - P(|x|) = tail / whole.
    let (tail, whole) = (one.pow(4), &sum.pow(4) << 1);
    let expected = if x < 0.0 { tail } else { &whole - &tail };
    let (ours, places) = fraction(fnorml(x));
    let whole_scaled = &whole << places;
    (&ours * &whole).distance(&(&expected << places)).over(&whole_scaled, BITS)
}

/// Checks the bound at each x and -x, and says where the distance is greatest.
fn check(name: &str, values: impl Iterator<Item = f32>) {
    let both_signs = values.flat_map(|x| [x, -x]);
    let (greatest, x) = both_signs.map(|x| (distance(x), x)).max_by_key(|found| found.0).unwrap();
    let in_units = greatest as f64 / (1u128 << BITS) as f64;
    println!("{name}: greatest distance {in_units:.4e} at {x:?}");
    assert!(greatest <= BOUND, "{name}: {in_units:e} at {x:?}");
}

#[test]
fn near_26_2_18_on_a_grid_up_to_5() {
    check("grid of 2^-13", (0..=5 << 13).map(|i| i as f32 / 8192.0));
}

#[test]
fn near_26_2_18_at_the_edges_up_to_5() {
    check("edges", floats::edges().into_iter().filter(|x| (0.0..=5.0).contains(x)));
}

#[test]
fn near_26_2_18_where_the_distance_is_greatest() {
    check("worst", [WORST].into_iter());
}

#[test]
fn near_26_2_18_at_random_up_to_5() {
    let mut prng = Prng::new(2);
    check("even", (0..50_000).map(|_| prng.within(0.0, 5.0)));
    let top = 5.0f32.to_bits() as usize + 1;
    check("all exponents", (0..10_000).map(|_| f32::from_bits(prng.below(top) as u32)));
}

#[test]
fn at_zero_is_a_half() {
    assert_eq!(fnorml(0.0), 0.5);
    assert_eq!(fnorml(-0.0), 0.5);
}

#[test]
fn clamped_beyond_5_where_26_2_18_is_not() {
    for x in floats::edges().into_iter().filter(|x| x.abs() > 5.0) {
        assert_eq!(fnorml(x).to_bits(), fnorml(5.0f32.copysign(x)).to_bits(), "{x:e}");
    }
    assert_eq!(fnorml(f32::NAN).to_bits(), fnorml(5.0).to_bits());
}
