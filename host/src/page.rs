//! docs/ANGLES.md as a program: written from that page alone, sharing no code with the crates.

/// The product; it panics where 128 bits do not hold it, in every build.
const fn mul(a: u128, b: u128) -> u128 {
    a.checked_mul(b).expect("a product within 128 bits")
}

const fn power(base: u128, exponent: u32) -> u128 {
    base.checked_pow(exponent).expect("a power within 128 bits")
}

const fn factorial(n: u32) -> u128 {
    if n == 0 {
        return 1;
    }
    mul(n as u128, factorial(n - 1))
}

/// Always below 2^64: the sums and the small multiples of such numbers are far below 2^128.
fn mh(a: u128, b: u128) -> u128 {
    mul(a, b) / (1 << 64)
}

/// ⌊2^scale · 512^j / (4j + first)!⌋ for j = 0, 1, ..
const fn coefficients<const COUNT: usize>(scale: u32, first: u32) -> [u128; COUNT] {
    let mut c = [0; COUNT];
    let mut j = 0;
    while j < COUNT {
        c[j] = mul(power(2, scale), power(512, j as u32)) / factorial(4 * j as u32 + first);
        j += 1;
    }
    c
}

const SIN_PLUS: [u128; 7] = coefficients(60, 1);
const SIN_MINUS: [u128; 6] = coefficients(64, 3);
const COS_PLUS: [u128; 7] = coefficients(57, 0);
const COS_MINUS: [u128; 6] = coefficients(63, 2);

/// c_0 + mh(v, c_1 + mh(v, c_2 + .. mh(v, c_last)))
fn h(v: u128, c: &[u128]) -> u128 {
    c.iter().rev().fold(0, |h, c_j| c_j + mh(v, h))
}

/// sin_plus and sin_minus at n.
fn sin_parts(n: u128) -> (u128, u128) {
    let z = mh(n, n);
    let v = 8 * mh(z, z);
    (mh(n, h(v, &SIN_PLUS)), mh(4 * mh(n, z), h(v, &SIN_MINUS)))
}

/// cos_plus and cos_minus at n.
fn cos_parts(n: u128) -> (u128, u128) {
    let z = mh(n, n);
    let v = 8 * mh(z, z);
    (h(v, &COS_PLUS), mh(z, h(v, &COS_MINUS)))
}

/// ⌊|x| · 2^scale⌋ of a finite x.
fn scaled(x: f32, scale: i32) -> u128 {
    let bits = x.abs().to_bits();
    let (digits, exponent) = match bits >> 23 {
        0 => (bits, -149),
        e => (bits % (1 << 23) + (1 << 23), e as i32 - 150),
    };
    let (digits, shift) = (u128::from(digits), exponent + scale);
    let factor = power(2, shift.unsigned_abs());
    if shift < 0 {
        digits / factor
    } else {
        mul(digits, factor)
    }
}

fn negate_if(minus: bool, size: f32) -> f32 {
    if minus {
        -size
    } else {
        size
    }
}

/// The f32 for plus − minus.
fn difference((plus, minus): (u128, u128)) -> f32 {
    let nearest = (plus.abs_diff(minus) / (1 << 27)) as f32;
    negate_if(minus > plus, nearest / (1 << 30) as f32)
}

/// k steps for the least k whose half step n_k fails the test, or top steps.
fn arc(top: u128, test: impl Fn(u128) -> bool) -> f32 {
    let (mut low, mut high) = (0, top);
    while low < high {
        let k = (low + high) / 2;
        if test(mul(2 * k + 1, 1 << 38)) {
            low = k + 1;
        } else {
            high = k;
        }
    }
    low as f32 / (1 << 22) as f32
}

pub fn sin(x: f32) -> f32 {
    if !(-4.0..=4.0).contains(&x) {
        return f32::NAN;
    }
    negate_if(x < 0.0, difference(sin_parts(scaled(x, 61))))
}

pub fn cos(x: f32) -> f32 {
    if !(-4.0..=4.0).contains(&x) {
        return f32::NAN;
    }
    difference(cos_parts(scaled(x, 61)))
}

pub fn asin(x: f32) -> f32 {
    if !(-1.0..=1.0).contains(&x) {
        return f32::NAN;
    }
    let t = scaled(x, 57);
    let size = arc(6588397, |n| {
        let (sin_plus, sin_minus) = sin_parts(n);
        sin_plus + 64 <= t + sin_minus
    });
    negate_if(x < 0.0, size)
}

pub fn acos(x: f32) -> f32 {
    if !(-1.0..=1.0).contains(&x) {
        return f32::NAN;
    }
    let t = scaled(x, 57);
    arc(13176794, |n| {
        let (cos_plus, cos_minus) = cos_parts(n);
        if x < 0.0 {
            cos_minus + 64 <= cos_plus + t
        } else {
            t + 65 + cos_minus <= cos_plus
        }
    })
}

pub fn atan(x: f32) -> f32 {
    if x.is_nan() {
        return f32::NAN;
    }
    let t = scaled(x.abs().min((1 << 23) as f32), 40);
    let size = arc(6588397, |n| {
        let ((sin_plus, sin_minus), (cos_plus, cos_minus)) = (sin_parts(n), cos_parts(n));
        let left = sin_plus / (1 << 24) + mh(t, cos_minus) + 16;
        left <= mh(t, cos_plus) + sin_minus / (1 << 24)
    });
    negate_if(x < 0.0, size)
}
