//! The host's own exact arithmetic, against the machine's where both fit.

use host::exact::{digits, fraction, Int, Nat};
use host::floats;
use host::prng::Prng;

/// A number below 2^bits, with every length as likely.
fn random(prng: &mut Prng, bits: usize) -> u128 {
    let wide = u128::from(prng.long()) << 64 | u128::from(prng.long());
    wide >> (128 - bits + prng.below(bits))
}

#[test]
fn naturals_agree_with_u128() {
    let mut prng = Prng::new(14);
    for _ in 0..30_000 {
        let [a, b] = std::array::from_fn(|_| random(&mut prng, 127));
        assert!(&Nat::from(a) + &Nat::from(b) == Nat::from(a + b));
        assert!(Nat::from(a).distance(&Nat::from(b)) == Nat::from(a.abs_diff(b)));
        assert_eq!(Nat::from(a).cmp(&Nat::from(b)), a.cmp(&b));
        let [a, b] = std::array::from_fn(|_| random(&mut prng, 63));
        let shift = prng.below(64) as u32;
        assert!(&Nat::from(a) * &Nat::from(b) == Nat::from(a * b));
        assert!(&Nat::from(a) << shift == Nat::from(a << shift));
        assert!(Nat::from(a % 1000).pow(5) == Nat::from((a % 1000).pow(5)));
        let (less, more) = (a.min(b), a.max(b) + 1);
        assert_eq!(Nat::from(less).over(&Nat::from(more), 60), (less << 60).div_ceil(more));
    }
}

#[test]
fn long_naturals_obey_the_laws() {
    let mut prng = Prng::new(15);
    for _ in 0..1_000 {
        let [a, b, c] = std::array::from_fn(|_| Nat::from(random(&mut prng, 128)).pow(9));
        assert!(&a * &(&b + &c) == &(&a * &b) + &(&a * &c));
        assert!(&(&a + &b) - &b == a);
        assert!(&a << 77 == &a * &(&Nat::from(1) << 77));
    }
}

#[test]
fn whole_numbers_agree_with_i128() {
    let mut prng = Prng::new(17);
    let int = |n: i128| Int::new(n < 0, Nat::from(n.unsigned_abs()));
    for _ in 0..30_000 {
        let [a, b, c] = std::array::from_fn(|_| {
            let size = random(&mut prng, 40) as i128;
            prng.among(&[size, -size])
        });
        let (found, expected) = (&(&int(a) * &int(b)) - &int(c), a * b - c);
        assert!(found.size() == Nat::from(expected.unsigned_abs()));
        assert_eq!(found.sign(), expected.cmp(&0));
    }
}

#[test]
fn a_float_is_its_fraction() {
    for x in floats::edges().into_iter().filter(|x| x.is_finite()) {
        let (n, k) = fraction(x);
        // |x| < 2^128 and k <= 149, so both sides are whole numbers of 2^-149.
        let (low, high) = (u128::from(x.to_bits() & 0x7f_ffff), x.abs().to_bits() >> 23);
        let steps = match high {
            0 => Nat::from(low),
            _ => &Nat::from(low | 1 << 23) << (high - 1),
        };
        assert!(&n << (149 - k) == steps, "{x:e}");
        let (significand, exponent) = digits(x);
        let significand = Nat::from(u128::from(significand));
        assert!(&significand << (exponent + 149) as u32 == steps, "{x:e}");
    }
}
