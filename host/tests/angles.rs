//! The angle functions against docs/ANGLES.md, bit for bit, and against document 01's bounds,
//! exactly.

use host::angles::{named, FUNCTIONS};
use host::bounds::STEP;
use std::f32::consts::{PI, TAU};

macro_rules! tests {
    ($($name:ident)+) => {$(
        mod $name {
            use host::angles::named;

            #[test]
            fn as_the_page_has_it() {
                let f = named(stringify!($name)).unwrap();
                f.check_page(f.arguments(1 << 16, 1_000_000));
            }

            #[test]
            fn within_the_bound() {
                let f = named(stringify!($name)).unwrap();
                f.check_bound(f.arguments(1 << 10, 200_000));
            }
        }
    )+};
}

tests! { sin cos asin acos atan }

#[test]
fn zeros_have_the_signs_that_the_page_tells() {
    let least = f32::from_bits(1);
    let odd: [(f32, f32); 4] = [(0.0, 0.0), (-0.0, 0.0), (least, 0.0), (-least, -0.0)];
    let acos = [(1.0, 0.0)];
    for (name, zeros) in [("sin", &odd[..]), ("asin", &odd), ("atan", &odd), ("acos", &acos)] {
        let f = named(name).unwrap();
        for (x, zero) in zeros {
            assert_eq!((f.ours)(*x).to_bits(), zero.to_bits(), "{name}({x:e})");
            assert_eq!((f.page)(*x).to_bits(), zero.to_bits(), "the page's {name}({x:e})");
        }
    }
}

/// The checker itself: it takes no answer that is a step too far, none that is half a turn or a
/// whole one off, and no number where there is no answer.
#[test]
fn the_bound_refuses_other_answers() {
    for f in &FUNCTIONS {
        let promised = (f.promised)();
        let far = (promised / STEP + 1) as f32 / (1 << 22) as f32;
        for x in f.arguments(100, 1_000) {
            let right = (f.ours)(x);
            let wrong = match right.is_nan() {
                true => [0.0; 9],
                false => [
                    right + far,
                    right - far,
                    right + PI,
                    right - PI,
                    right + TAU,
                    right - TAU,
                    f32::NAN,
                    f32::INFINITY,
                    f32::NEG_INFINITY,
                ],
            };
            for answer in wrong {
                assert!(!f.meets(x, answer, promised), "{}({x:e}): {answer:e}", f.name);
            }
        }
    }
}
