use host::entries::{self, MufHour};
use host::prng::Prng;
use host::{floats, oracle};

/// Both zeros, infinities and NaNs, the least numbers, and numbers about the clamps.
const SPECIAL: [f32; 16] = [
    0.0,
    -0.0,
    f32::NAN,
    f32::from_bits(0xff80_0001),
    f32::INFINITY,
    f32::NEG_INFINITY,
    f32::from_bits(1),
    f32::from_bits(0x8000_0001),
    f32::MAX,
    f32::MIN,
    0.001,
    -0.001,
    5.0,
    1.0,
    -7.5,
    12.25,
];

fn check(hour: MufHour, fmhz: f32, fgo: f32, fset: f32, il: usize) {
    let mut ours = f32::from_bits(0x7fa1_2345);
    let number = entries::prbmuf(&hour, fmhz, fgo, fset, il, &mut ours);
    let rust = oracle::prbmuf(&hour.into(), fmhz, fgo, fset, il);
    let at = || {
        let (sigl, sigu) = (hour.sigl[il - 1], hour.sigu[il - 1]);
        format!("fmhz {fmhz:e}, fgo {fgo:e}, fset {fset:e}, il {il}, sigl {sigl:e}, sigu {sigu:e}")
    };
    assert_eq!(number, 0, "{}", at());
    assert!(floats::same(ours, rust), "{}: {ours:e}, not {rust:e}", at());
}

/// Four different columns, so that another layer's decile shows.
fn random_hour(prng: &mut Prng, mut decile: impl FnMut(&mut Prng) -> f32) -> MufHour {
    MufHour {
        sigl: std::array::from_fn(|_| decile(prng)),
        sigu: std::array::from_fn(|_| decile(prng)),
    }
}

#[test]
fn prbmuf_at_special_values() {
    let mut prng = Prng::new(8);
    for fmhz in SPECIAL {
        for fgo in SPECIAL {
            for fset in SPECIAL {
                for decile in SPECIAL {
                    for il in 1..=4 {
                        let mut hour = random_hour(&mut prng, Prng::float);
                        hour.sigl[il - 1] = decile;
                        hour.sigu[il - 1] = decile;
                        check(hour, fmhz, fgo, fset, il);
                    }
                }
            }
        }
    }
}

#[test]
fn prbmuf_at_frequencies() {
    let mut prng = Prng::new(9);
    for _ in 0..2_000_000 {
        let hour = random_hour(&mut prng, |prng| prng.within(0.0, 6.0));
        let [fmhz, fgo, fset] = std::array::from_fn(|_| prng.within(-1.0, 30.0));
        let il = 1 + prng.below(4);
        check(hour, fmhz, fgo, fset, il);
    }
}

#[test]
fn prbmuf_at_random() {
    let mut prng = Prng::new(10);
    for _ in 0..2_000_000 {
        let hour = random_hour(&mut prng, Prng::float);
        let [fmhz, fgo, fset] = std::array::from_fn(|_| prng.float());
        let il = 1 + prng.below(4);
        check(hour, fmhz, fgo, fset, il);
    }
}

#[test]
fn prbmuf_without_a_median() {
    let hour = MufHour { sigl: [f32::NAN; 4], sigu: [f32::NAN; 4] };
    for il in 1..=4 {
        for fset in [0.0, -0.0, -1.0, f32::NEG_INFINITY] {
            for (fmhz, expected) in [(8.0, 1.0), (9.0, 1.0), (9.5, 0.0), (f32::NAN, 0.0)] {
                let mut out = f32::NAN;
                assert_eq!(entries::prbmuf(&hour, fmhz, 9.0, fset, il, &mut out), 0);
                assert_eq!(out.to_bits(), f32::to_bits(expected), "fmhz {fmhz}, fset {fset}");
                check(hour, fmhz, 9.0, fset, il);
            }
        }
    }
}
