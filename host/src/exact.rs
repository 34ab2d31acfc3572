//! Exact numbers of any size.

use std::cmp::Ordering;
use std::iter::repeat_n;
use std::ops::{Add, Mul, Shl, Sub};

/// A natural number: 64 bits a limb, least first, no zero limb at the top.
#[derive(Clone, PartialEq, Eq)]
pub struct Nat(Vec<u64>);

impl Nat {
    fn trimmed(mut limbs: Vec<u64>) -> Self {
        while limbs.last() == Some(&0) {
            limbs.pop();
        }
        Nat(limbs)
    }

    pub fn pow(&self, exponent: u32) -> Nat {
        (0..exponent).fold(Nat::from(1), |power, _| &power * self)
    }

    /// The distance of two numbers.
    pub fn distance(&self, other: &Nat) -> Nat {
        if self < other {
            other - self
        } else {
            self - other
        }
    }

    /// self / divisor × 2^bits, rounded up; self / divisor is below 1.
    pub fn over(&self, divisor: &Nat, bits: u32) -> u128 {
        assert!(self < divisor && bits < 128);
        let mut rest = self.clone();
        let mut quotient = 0;
        for _ in 0..bits {
            rest = &rest << 1;
            quotient *= 2;
            if rest >= *divisor {
                rest = &rest - divisor;
                quotient += 1;
            }
        }
        quotient + u128::from(rest != Nat::from(0))
    }
}

impl From<u128> for Nat {
    fn from(n: u128) -> Self {
        let (low, high) = split(n);
        Nat::trimmed(vec![low, high as u64])
    }
}

impl Ord for Nat {
    fn cmp(&self, other: &Nat) -> Ordering {
        let by_length = self.0.len().cmp(&other.0.len());
        by_length.then_with(|| self.0.iter().rev().cmp(other.0.iter().rev()))
    }
}

impl PartialOrd for Nat {
    fn partial_cmp(&self, other: &Nat) -> Option<Ordering> {
        Some(self.cmp(other))
    }
}

/// A limb, and what it carries to the next one.
fn split(sum: u128) -> (u64, u128) {
    (sum as u64, sum >> 64)
}

impl Add for &Nat {
    type Output = Nat;

    fn add(self, other: &Nat) -> Nat {
        let length = self.0.len().max(other.0.len()) + 1;
        let mut carry = 0;
        let limbs = (0..length).map(|i| {
            let limb = |n: &Nat| u128::from(n.0.get(i).copied().unwrap_or(0));
            let sum;
            (sum, carry) = split(limb(self) + limb(other) + carry);
            sum
        });
        Nat::trimmed(limbs.collect())
    }
}

/// The difference; the second number is not above the first.
impl Sub for &Nat {
    type Output = Nat;

    fn sub(self, other: &Nat) -> Nat {
        assert!(other <= self);
        let mut borrow = false;
        let limbs = self.0.iter().enumerate().map(|(i, &limb)| {
            let (limb, under) = limb.overflowing_sub(other.0.get(i).copied().unwrap_or(0));
            let (limb, under_again) = limb.overflowing_sub(u64::from(borrow));
            borrow = under || under_again;
            limb
        });
        Nat::trimmed(limbs.collect())
    }
}

impl Mul for &Nat {
    type Output = Nat;

    fn mul(self, other: &Nat) -> Nat {
        let mut limbs: Vec<_> = repeat_n(0, self.0.len() + other.0.len()).collect();
        for (i, &a) in self.0.iter().enumerate() {
            let mut carry = 0;
            for (j, &b) in other.0.iter().enumerate() {
                let sum = u128::from(a) * u128::from(b) + u128::from(limbs[i + j]) + carry;
                (limbs[i + j], carry) = split(sum);
            }
            limbs[i + other.0.len()] = carry as u64;
        }
        Nat::trimmed(limbs)
    }
}

impl Shl<u32> for &Nat {
    type Output = Nat;

    fn shl(self, bits: u32) -> Nat {
        let mut limbs: Vec<_> = repeat_n(0, bits as usize / 64).collect();
        limbs.reserve(self.0.len() + 1);
        let mut carry = 0;
        for &limb in &self.0 {
            let (low, high) = split(u128::from(limb) << (bits % 64));
            limbs.push(low | carry);
            carry = high as u64;
        }
        limbs.push(carry);
        Nat::trimmed(limbs)
    }
}

/// A whole number: the difference of two natural ones.
pub struct Int {
    plus: Nat,
    minus: Nat,
}

impl Int {
    pub fn new(negative: bool, size: Nat) -> Int {
        match negative {
            false => Int { plus: size, minus: Nat::from(0) },
            true => Int { plus: Nat::from(0), minus: size },
        }
    }

    pub fn difference(plus: Nat, minus: Nat) -> Int {
        Int { plus, minus }
    }

    /// Less for a number below 0.
    pub fn sign(&self) -> Ordering {
        self.plus.cmp(&self.minus)
    }

    pub fn size(&self) -> Nat {
        self.plus.distance(&self.minus)
    }
}

impl Sub for &Int {
    type Output = Int;

    fn sub(self, other: &Int) -> Int {
        Int { plus: &self.plus + &other.minus, minus: &self.minus + &other.plus }
    }
}

impl Mul for &Int {
    type Output = Int;

    fn mul(self, other: &Int) -> Int {
        Int {
            plus: &(&self.plus * &other.plus) + &(&self.minus * &other.minus),
            minus: &(&self.plus * &other.minus) + &(&self.minus * &other.plus),
        }
    }
}

/// |x| as n × 2^e, for a finite x.
pub fn digits(x: f32) -> (u32, i32) {
    assert!(x.is_finite());
    let biased = x.to_bits() >> 23 & 0xff;
    let significand = x.to_bits() & 0x7f_ffff | u32::from(biased > 0) << 23;
    (significand, biased.max(1) as i32 - 150)
}

/// |x| as n / 2^k with the least k, for a finite x.
pub fn fraction(x: f32) -> (Nat, u32) {
    let (mut n, mut exponent) = digits(x);
    while exponent < 0 && n % 2 == 0 {
        (n, exponent) = (n / 2, exponent + 1);
    }
    let n = Nat::from(u128::from(n));
    match exponent {
        0.. => (&n << exponent as u32, 0),
        _ => (n, -exponent as u32),
    }
}
