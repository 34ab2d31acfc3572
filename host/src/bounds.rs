//! Document 01's bounds of the angle functions, over whole numbers alone.

use crate::exact::{fraction, Int, Nat};
use std::cmp::Ordering::{self, Greater, Less};

/// Half-widths are counted in units of 2^-32, STEP of them to a step of 2^-22.
const PLACES: u32 = 32;
pub const STEP: u128 = 1 << 10;

/// The half-width that is promised of the arcs. Its one place is Width.antt, in steps.
pub fn half_width() -> u128 {
    let text = include_str!("../../crates/angles/specs/Width.antt");
    let steps = text.lines().find_map(|line| line.strip_prefix("half_width = "));
    let steps = steps.and_then(|steps| steps.trim().parse::<u128>().ok());
    steps.expect("Width.antt has a line `half_width = N`") * STEP
}

/// A finite x as n / 2^k.
fn whole(x: f32) -> (Int, u32) {
    let (n, k) = fraction(x);
    (Int::new(x < 0.0, n), k)
}

/// x as a ratio, infinity as 1 over 0.
fn ratio(x: f32) -> [Int; 2] {
    if x.is_infinite() {
        return [Int::new(x < 0.0, Nat::from(1)), Int::new(false, Nat::from(0))];
    }
    let (n, k) = whole(x);
    [n, Int::new(false, &Nat::from(1) << k)]
}

/// The sine series x - x^3 / 3! + .. + x^25 / 25!, the cosine series 1 - x^2 / 2! + .. +
/// x^24 / 24!, and 1, all times one number.
struct Series {
    sine: Int,
    cosine: Int,
    one: Int,
}

/// The series at n / 2^k, times 25! 2^25k.
fn series((n, k): (Int, u32)) -> Series {
    let size = n.size();
    let mut sums: [Nat; 4] = std::array::from_fn(|_| Nat::from(0));
    let mut power = Nat::from(1);
    // Of four terms on end the first and the third are the cosine's, and two are taken away.
    for i in 0..26 {
        let falling = (i + 1..26).product::<u128>();
        let term = &(&power * &Nat::from(falling)) << (k * (25 - i as u32));
        let sum = &mut sums[i as usize % 4];
        *sum = &*sum + &term;
        power = &power * &size;
    }
    let factorial = (1..26).product::<u128>();
    let [cos_plus, sin_plus, cos_minus, sin_minus] = sums;
    Series {
        sine: match n.sign() {
            Less => Int::difference(sin_minus, sin_plus),
            _ => Int::difference(sin_plus, sin_minus),
        },
        cosine: Int::difference(cos_plus, cos_minus),
        one: Int::new(false, &Nat::from(factorial) << (25 * k)),
    }
}

/// Whether the answer is no farther than `width` from value / one.
fn near(answer: f32, width: u128, value: &Int, one: &Int) -> bool {
    if !answer.is_finite() {
        return false;
    }
    let [n, divisor] = ratio(answer);
    let distance = (&(&n * one) - &(value * &divisor)).size();
    let whole = (one * &divisor).size();
    &distance << PLACES <= &whole * &Nat::from(width)
}

pub fn sin(x: f32, answer: f32, width: u128) -> bool {
    let s = series(whole(x));
    near(answer, width, &s.sine, &s.one)
}

pub fn cos(x: f32, answer: f32, width: u128) -> bool {
    let s = series(whole(x));
    near(answer, width, &s.cosine, &s.one)
}

/// On which side of an argument a moved angle has its sine, cosine or tangent: Less where `low`
/// is below `high`. None where it is dropped, as `kept` is not above 0.
fn side(kept: &Int, low: Int, high: Int) -> Option<Ordering> {
    (kept.sign() == Greater).then(|| (&low - &high).sign())
}

/// Whether the answer lies within -2 to 4 and, moved down and up by `width`, on the two sides;
/// at most one of the moved angles is dropped.
fn between(answer: f32, width: u128, side: impl Fn(Series) -> Option<Ordering>) -> bool {
    if !(-2.0..=4.0).contains(&answer) {
        return false;
    }
    let (n, k) = whole(answer);
    let places = k.max(PLACES);
    let scaled = |n: &Int, k: u32| n * &Int::new(false, &Nat::from(1) << (places - k));
    let moved = |down: bool| {
        let by = Int::new(!down, Nat::from(width));
        side(series((&scaled(&n, k) - &scaled(&by, PLACES), places)))
    };
    let (down, up) = (moved(true), moved(false));
    down.or(up).is_some() && down != Some(Greater) && up != Some(Less)
}

pub fn asin(x: f32, answer: f32, width: u128) -> bool {
    let [n, divisor] = ratio(x);
    between(answer, width, |s| side(&s.cosine, &s.sine * &divisor, &n * &s.one))
}

/// The cosine falls, so that the sides change places.
pub fn acos(x: f32, answer: f32, width: u128) -> bool {
    let [n, divisor] = ratio(x);
    between(answer, width, |s| side(&s.sine, &n * &s.one, &s.cosine * &divisor))
}

pub fn atan(x: f32, answer: f32, width: u128) -> bool {
    let [n, divisor] = ratio(x);
    between(answer, width, |s| side(&s.cosine, &s.sine * &divisor, &n * &s.cosine))
}
