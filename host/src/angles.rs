//! The angle functions: each with what it is held against, and the arguments to try.

use crate::prng::Prng;
use crate::{bounds, entries, floats, page};
use std::f32::consts::{FRAC_PI_2, PI};

pub struct Function {
    pub name: &'static str,
    pub ours: fn(f32) -> f32,
    pub page: fn(f32) -> f32,
    pub rust: fn(f32) -> f32,
    pub in_f64: fn(f64) -> f64,
    /// The greatest size of an argument that has an answer.
    pub limit: f32,
    /// The half-width that is promised, in units of 2^-32.
    pub promised: fn() -> u128,
    bound: fn(f32, f32, u128) -> bool,
}

macro_rules! functions {
    ($($name:ident up to $limit:expr, within $promised:expr;)+) => {
        pub static FUNCTIONS: [Function; 5] = [$(Function {
            name: stringify!($name),
            ours: |x| entries::$name(x),
            page: page::$name,
            rust: f32::$name,
            in_f64: f64::$name,
            limit: $limit,
            promised: $promised,
            bound: bounds::$name,
        }),+];
    };
}

functions! {
    sin up to 4.0, within || bounds::STEP;
    cos up to 4.0, within || bounds::STEP;
    asin up to 1.0, within bounds::half_width;
    acos up to 1.0, within bounds::half_width;
    atan up to f32::INFINITY, within bounds::half_width;
}

pub fn named(name: &str) -> Option<&'static Function> {
    FUNCTIONS.iter().find(|f| f.name == name)
}

impl Function {
    /// A size up to which arguments can be drawn evenly.
    pub fn spread(&self) -> f32 {
        self.limit.min(8.0)
    }

    /// The edges; `reach` patterns to each side of 0, a step, 1, π/2, π, 4, 2^22 and 2^23, and the
    /// first `reach` half steps, all of both signs; `random` arguments: of all patterns, of those
    /// up to the limit, and evenly spread ones.
    pub fn arguments(&self, reach: u32, random: usize) -> impl Iterator<Item = f32> {
        let whole = (1 << 22) as f32;
        let places = [0.0, 1.0 / whole, 1.0, FRAC_PI_2, PI, 4.0, whole, 2.0 * whole];
        let windows = places.into_iter().flat_map(move |x| floats::window(x.to_bits(), reach));
        let half_steps = (0..reach).map(move |k| (k as f32 + 0.5) / whole);
        let chosen = windows.map(f32::from_bits).chain(half_steps).flat_map(|x| [x, -x]);
        let mut prng = Prng::new(16);
        let (patterns, spread) = (self.limit.to_bits() as usize + 1, self.spread());
        let drawn = (0..random).map(move |i| match i % 4 {
            0 => prng.float(),
            1 => f32::from_bits(prng.below(patterns) as u32),
            2 => -f32::from_bits(prng.below(patterns) as u32),
            _ => prng.within(-spread, spread),
        });
        floats::edges().into_iter().chain(chosen).chain(drawn)
    }

    /// Whether an answer meets document 01's bound with this half-width.
    pub fn meets(&self, x: f32, answer: f32, width: u128) -> bool {
        if x.abs() <= self.limit {
            (self.bound)(x, answer, width)
        } else {
            answer.is_nan()
        }
    }

    /// Checks the bound at each argument. Prints the least half-width that all their answers
    /// meet, in steps, and an argument that needs it.
    pub fn check_bound(&self, arguments: impl Iterator<Item = f32>) {
        let promised = (self.promised)();
        let (mut count, mut least, mut at) = (0, 0, 0.0);
        for x in arguments {
            let answer = (self.ours)(x);
            assert!(self.meets(x, answer, promised), "beyond the bound: {}", self.show(x));
            while !self.meets(x, answer, least) {
                (least, at) = (least + 1, x);
            }
            count += 1;
        }
        let steps = least as f64 / bounds::STEP as f64;
        println!("{count} arguments, half-width {steps:.3} steps, needed by {}", self.show(at));
    }

    /// Checks at each argument that the page gives the same bits.
    pub fn check_page(&self, arguments: impl Iterator<Item = f32>) {
        for x in arguments {
            let expected = (self.page)(x);
            assert!(floats::same((self.ours)(x), expected), "{}, not {expected:e}", self.show(x));
        }
    }

    fn show(&self, x: f32) -> String {
        format!("{}({x:e}, {:08x}): {:e}", self.name, x.to_bits(), (self.ours)(x))
    }
}
