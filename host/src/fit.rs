//! The guesses of crates/angles/src/guess.rt, and the fit of their coefficients: the largest error,
//! in steps, is to be as small as a guess of that form can have it.
//!
//! The fit adds, multiplies, divides and takes square roots, nothing else: these are the same on
//! every machine, and so are the coefficients, to the last bit.

use crate::angles;
use crate::prng::Prng;
use std::f64::consts::{FRAC_1_SQRT_2, FRAC_PI_2};

/// An angle of 1, in steps of 2^-22.
pub const STEPS: f64 = 4194304.0;
/// A quarter turn, in steps.
pub const QUARTER: f64 = FRAC_PI_2 * STEPS;
/// Up to here the arcsine is guessed by a quotient, beyond by the arccosine.
pub const SEAM: f64 = 0.984375;

/// The guesses' coefficients; a polynomial's first is that of power 0.
pub struct Guess {
    root: [f64; 2],
    cosine: [f64; 3],
    sine: ([f64; 7], [f64; 7]),
    tangent: [f64; 10],
}

/// The functions of guess.rt, in its order of operations.
impl Guess {
    fn rough_root(&self, u: f64) -> f64 {
        let v = seed(u);
        v * (self.root[0] - self.root[1] * u * v * v)
    }

    fn small_cosine_arc(&self, a: f64) -> f64 {
        let c = &self.cosine;
        let u = 1.0 - a;
        let y = self.rough_root(u);
        let r = u * y;
        let e = 1.0 - r * y;
        let s = r * (c[0] + u * (c[1] + u * c[2]));
        s + s * e * (0.5 + 0.375 * e)
    }

    fn sine_arc(&self, a: f64) -> f64 {
        if a > SEAM {
            return QUARTER - self.small_cosine_arc(a);
        }
        let y = a * a;
        let y2 = y * y;
        let y4 = y2 * y2;
        let [over, under] = [&self.sine.0, &self.sine.1].map(|c| {
            let c0 = c[0] + y * c[1];
            let c1 = c[2] + y * c[3];
            let c2 = c[4] + y * c[5] + y2 * c[6];
            c0 + y2 * c1 + y4 * c2
        });
        a * over / under
    }

    fn tangent_arc(&self, r: f64) -> f64 {
        let c = &self.tangent;
        let y = r * r;
        let y2 = y * y;
        let y4 = y2 * y2;
        let q0 = c[0] + y * c[1];
        let q1 = c[2] + y * c[3];
        let q2 = c[4] + y * c[5];
        let q3 = c[6] + y * c[7];
        let q4 = c[8] + y * c[9];
        r * ((q0 + y2 * q1) + y4 * ((q2 + y2 * q3) + y4 * q4))
    }
}

/// The reciprocal root before its one step: half of u's pattern, taken from 0x5fe4 << 48. Times √u
/// this is from √(3/4), at u = 3, to √(27/32), at u = 3/2. With any other constant the ratio of the
/// two is greater, and so is the error after the step.
fn seed(u: f64) -> f64 {
    f64::from_bits(6909647724535087104 - (u.to_bits() >> 1))
}

impl Guess {
    pub fn fitted() -> Guess {
        // The arccosine of 1 − x² is twice the arcsine of x / √2.
        let cosine = fitted::<3, 1>(|x| 2.0 * asin(x * FRAC_1_SQRT_2), (1.0 - SEAM).sqrt()).0;
        let tangent = fitted::<10, 1>(atan, 1.0).0;
        Guess { root: fitted_root(), cosine, sine: fitted(asin, SEAM), tangent }
    }
}

/// The coefficients a and b of the step v (a − b u v²) from the seed v. With z = v√u it gives
/// z (a − b z²) / √u. From the least z to the greatest, z (a − b z²) climbs to its top, at
/// z² = s / 3 with s = a / b, and falls again. With this s it is the same at both ends, and with this
/// b as far below 1 there as it is above 1 at the top.
fn fitted_root() -> [f64; 2] {
    let (least, greatest) = (0.75f64.sqrt(), 0.84375f64.sqrt());
    let s = least * least + least * greatest + greatest * greatest;
    let top = (s / 3.0).sqrt() * (s - s / 3.0);
    let b = 2.0 / (top + least * (s - least * least));
    [s * b, b]
}

/// The arctangent: the angle is halved five times; then nine terms of the series.
fn atan(x: f64) -> f64 {
    let t = (0..5).fold(x, |t, _| t / (1.0 + (1.0 + t * t).sqrt()));
    let series = (0..9).rev().fold(0.0, |sum, k| 1.0 / f64::from(2 * k + 1) - t * t * sum);
    32.0 * t * series
}

/// The arcsine, below 1.
fn asin(x: f64) -> f64 {
    atan(x / ((1.0 - x) * (1.0 + x)).sqrt())
}

/// How many places are looked at for the largest errors.
const GRID: usize = 1 << 12;
/// The largest errors are equal after 4 rounds for a polynomial, after 9 for the quotient, but for
/// rounding.
const ROUNDS: usize = 12;

/// A place: the argument x, the Chebyshev polynomials there (of x², brought to −1 .. 1), the arc.
struct Place {
    x: f64,
    t: [f64; 10],
    arc: f64,
}

/// Fits x · over(x²) / under(x²), in steps, to an odd arc from 0 to `end`; `over` has N
/// coefficients, `under` has D and the first is 1. Remez's exchange: in each round the error has one
/// size and signs by turns at N + D places, and the next round's places are those of the largest
/// errors.
fn fitted<const N: usize, const D: usize>(
    arc: impl Fn(f64) -> f64,
    end: f64,
) -> ([f64; N], [f64; D]) {
    // Denser towards the end, where the largest errors are nearer to each other.
    let grid: Vec<_> = (1..=GRID)
        .map(|i| i as f64 / GRID as f64)
        .map(|i| end * i * (1.5 - 0.5 * i * i))
        .map(|x| Place { x, t: chebyshev(2.0 * (x / end) * (x / end) - 1.0), arc: arc(x) })
        .collect();
    let mut places: Vec<_> = (1..=N + D).map(|i| i * GRID / (N + D) - 1).collect();
    let (mut over, mut under) = ([0.0; N], [0.0; D]);
    under[0] = 1.0;
    for _ in 0..ROUNDS {
        // x · over − arc · under = ±size · under; that it be linear, the last round's `under` is on
        // the right.
        let rows = places.iter().enumerate().map(|(i, &place)| {
            let Place { x, t, arc } = &grid[place];
            let size = if i % 2 == 0 { dot(&under, t) } else { -dot(&under, t) };
            let over = t[..N].iter().map(|t| x * t);
            over.chain(t[1..D].iter().map(|t| -arc * t)).chain([size, *arc]).collect()
        });
        let solution = solved(rows.collect());
        over.copy_from_slice(&solution[..N]);
        under[1..].copy_from_slice(&solution[N..N + D - 1]);
        let errors = grid.iter().map(|p| p.x * dot(&over, &p.t) / dot(&under, &p.t) - p.arc);
        let farthest = extremes(errors, N + D);
        if farthest.len() == N + D {
            places = farthest;
        }
    }
    let (over, under) = (powers(&over, end * end), powers(&under, end * end));
    (over.map(|c| c / under[0] * STEPS), under.map(|c| c / under[0]))
}

/// The Chebyshev polynomials at z.
fn chebyshev(z: f64) -> [f64; 10] {
    let mut t = [1.0; 10];
    t[1] = z;
    for k in 2..10 {
        t[k] = 2.0 * z * t[k - 1] - t[k - 2];
    }
    t
}

fn dot(c: &[f64], t: &[f64]) -> f64 {
    c.iter().zip(t).map(|(c, t)| c * t).sum()
}

/// The coefficients of y's powers, from those of the Chebyshev polynomials of 2y / end − 1.
fn powers<const N: usize>(c: &[f64; N], end: f64) -> [f64; N] {
    let mut powers = [0.0; N];
    let (mut last, mut this) = ([0.0; N], [0.0; N]);
    this[0] = 1.0;
    for (k, c) in c.iter().enumerate() {
        for i in 0..N {
            powers[i] += c * this[i];
        }
        let factor = if k == 0 { 1.0 } else { 2.0 };
        let next = std::array::from_fn(|i| {
            let shifted = if i == 0 { 0.0 } else { 2.0 / end * this[i - 1] };
            factor * (shifted - this[i]) - last[i]
        });
        (last, this) = (this, next);
    }
    powers
}

/// The place of the largest error in each run of one sign. While these are more than `count`, the
/// first or the last is left out, whose error is smaller.
fn extremes(errors: impl Iterator<Item = f64>, count: usize) -> Vec<usize> {
    let mut found: Vec<(usize, f64)> = Vec::new();
    for (i, e) in errors.enumerate() {
        match found.last_mut() {
            Some(last) if last.1 * e >= 0.0 => {
                if e.abs() > last.1.abs() {
                    *last = (i, e);
                }
            }
            _ => found.push((i, e)),
        }
    }
    while found.len() > count {
        let last = found.len() - 1;
        found.remove(if found[0].1.abs() < found[last].1.abs() { 0 } else { last });
    }
    found.into_iter().map(|(i, _)| i).collect()
}

/// Solves linear equations; a row has the coefficients, then the right side.
fn solved(mut rows: Vec<Vec<f64>>) -> Vec<f64> {
    let n = rows.len();
    for k in 0..n {
        let pivot = (k..n).max_by(|&i, &j| rows[i][k].abs().total_cmp(&rows[j][k].abs())).unwrap();
        rows.swap(k, pivot);
        let pivot = rows[k].clone();
        for (_, row) in rows.iter_mut().enumerate().filter(|(i, _)| *i != k) {
            let factor = row[k] / pivot[k];
            for (a, p) in row.iter_mut().zip(&pivot).skip(k) {
                *a -= factor * p;
            }
        }
    }
    (0..n).map(|k| rows[k][n] / rows[k][k]).collect()
}

/// A function of guess.rt: its lines that have fitted coefficients, and its largest error, in steps;
/// that of `rough_root` is relative.
pub struct Part {
    pub name: &'static str,
    pub lines: String,
    pub error: f64,
}

impl Guess {
    /// The errors are against f64's own functions, at 2^20 places.
    pub fn parts(&self) -> [Part; 4] {
        let ([a, b], [c0, c1, c2]) = (self.root, self.cosine);
        let root = format!("        v * ({a:?} - {b:?} * u * v * v)\n");
        let cosine = format!("    let s = r * ({c0:?} + u * ({c1:?} + u * {c2:?}));\n");
        let sine = pairs("        ", "n", &self.sine.0) + &pairs("        ", "d", &self.sine.1);
        let tangent = pairs("    ", "q", &self.tangent);
        let of_root = |u: f64| self.rough_root(u) * u.sqrt() - 1.0;
        let of_cosine = |a: f64| self.small_cosine_arc(a) - a.acos() * STEPS;
        let of_sine = |a: f64| self.sine_arc(a) - a.asin() * STEPS;
        let of_tangent = |r: f64| self.tangent_arc(r) - r.atan() * STEPS;
        [
            Part { name: "rough_root", lines: root, error: largest(of_root, 0.5, 2.0) },
            Part { name: "small_cosine_arc", lines: cosine, error: largest(of_cosine, SEAM, 1.0) },
            Part { name: "sine_arc", lines: sine, error: largest(of_sine, 0.0, SEAM) },
            Part { name: "tangent_arc", lines: tangent, error: largest(of_tangent, 0.0, 1.0) },
        ]
    }

    /// For how many of `count` uniform arguments the guess is another step than the answer.
    pub fn wrong(&self, name: &str, from: f32, to: f32, count: usize) -> usize {
        let function = angles::named(name).unwrap();
        let mut prng = Prng::new(17);
        let mut is_wrong = || {
            let x = prng.within(from, to);
            self.nearest_step(name, x) as f32 != (function.ours)(x).abs() * STEPS as f32
        };
        (0..count).filter(|_| is_wrong()).count()
    }

    /// The guess in whole steps, as arcsine.rt, arccosine.rt and arctangent.rt take it.
    fn nearest_step(&self, name: &str, x: f32) -> u32 {
        let w = f64::from(x.abs());
        let guess = match name {
            "asin" => self.sine_arc(w),
            "acos" if x < 0.0 => QUARTER + self.sine_arc(w),
            "acos" => QUARTER - self.sine_arc(w),
            "atan" if w > 1.0 => QUARTER - self.tangent_arc(1.0 / w.min(8388608.0)),
            "atan" => self.tangent_arc(w),
            _ => panic!("no guess for {name}"),
        };
        let in_256ths = (guess + 17592186044416.0).to_bits() as u32;
        in_256ths / 256 + in_256ths / 128 % 2
    }
}

/// A polynomial's coefficients two by two, a line each; the last line has three where one is over.
fn pairs(indent: &str, name: &str, c: &[f64]) -> String {
    let term = |c: f64, y: &str| {
        let sign = if c < 0.0 { '-' } else { '+' };
        format!(" {sign} {y} * {:?}", c.abs())
    };
    let mut lines = String::new();
    for k in 0..c.len() / 2 {
        lines += &format!("{indent}let {name}{k} = {:?}{}", c[2 * k], term(c[2 * k + 1], "y"));
        if 2 * k + 3 == c.len() {
            lines += &term(c[2 * k + 2], "y2");
        }
        lines += ";\n";
    }
    lines
}

fn largest(error: impl Fn(f64) -> f64, from: f64, to: f64) -> f64 {
    let places = (0..=1 << 20).map(|i| from + (to - from) * f64::from(i) / f64::from(1 << 20));
    places.map(|x| error(x).abs()).max_by(f64::total_cmp).unwrap()
}
