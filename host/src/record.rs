//! Records whose fields are filled, compared and shown one by one.

use crate::prng::Prng;

/// The numbers of one field.
#[derive(Clone, Copy, Debug)]
pub enum Numbers<'a> {
    Floats(&'a [f32]),
    Words(&'a [u32]),
    Count(usize),
}

impl Numbers<'_> {
    /// Whether two fields have the same numbers, where `same` tells when floats are.
    pub fn are(self, other: Self, same: fn(f32, f32) -> bool) -> bool {
        match (self, other) {
            (Numbers::Floats(a), Numbers::Floats(b)) => a.iter().zip(b).all(|(a, b)| same(*a, *b)),
            (Numbers::Words(a), Numbers::Words(b)) => a == b,
            (Numbers::Count(a), Numbers::Count(b)) => a == b,
            _ => false,
        }
    }

    /// A word for each number, floats by their bits: "NaN is written 7FC00000 hexadecimal."
    fn put(self, words: &mut Vec<u32>) {
        let bits = |x: &f32| if x.is_nan() { 0x7fc0_0000 } else { x.to_bits() };
        match self {
            Numbers::Floats(floats) => words.extend(floats.iter().map(bits)),
            Numbers::Words(these) => words.extend(these),
            Numbers::Count(count) => words.push(u32::try_from(count).expect("a count of 32 bits")),
        }
    }
}

/// The type of a field.
pub trait Field {
    fn numbers(&self) -> Numbers<'_>;
    /// Any bits.
    fn random(prng: &mut Prng) -> Self;
    /// By the next words, one for each number.
    fn read(words: &mut impl Iterator<Item = u32>) -> Self;
}

fn next(words: &mut impl Iterator<Item = u32>) -> u32 {
    words.next().expect("a word for each number")
}

impl Field for f32 {
    fn numbers(&self) -> Numbers<'_> {
        Numbers::Floats(std::slice::from_ref(self))
    }

    fn random(prng: &mut Prng) -> Self {
        prng.float()
    }

    fn read(words: &mut impl Iterator<Item = u32>) -> Self {
        f32::from_bits(next(words))
    }
}

impl<const N: usize> Field for [f32; N] {
    fn numbers(&self) -> Numbers<'_> {
        Numbers::Floats(self)
    }

    fn random(prng: &mut Prng) -> Self {
        std::array::from_fn(|_| prng.float())
    }

    fn read(words: &mut impl Iterator<Item = u32>) -> Self {
        std::array::from_fn(|_| f32::from_bits(next(words)))
    }
}

impl Field for u32 {
    fn numbers(&self) -> Numbers<'_> {
        Numbers::Words(std::slice::from_ref(self))
    }

    fn random(prng: &mut Prng) -> Self {
        prng.word()
    }

    fn read(words: &mut impl Iterator<Item = u32>) -> Self {
        next(words)
    }
}

impl<const N: usize> Field for [u32; N] {
    fn numbers(&self) -> Numbers<'_> {
        Numbers::Words(self)
    }

    fn random(prng: &mut Prng) -> Self {
        prng.words()
    }

    fn read(words: &mut impl Iterator<Item = u32>) -> Self {
        std::array::from_fn(|_| next(words))
    }
}

impl Field for usize {
    fn numbers(&self) -> Numbers<'_> {
        Numbers::Count(*self)
    }

    fn random(prng: &mut Prng) -> Self {
        prng.long() as usize
    }

    fn read(words: &mut impl Iterator<Item = u32>) -> Self {
        next(words) as usize
    }
}

/// From our type of a field to the Rust's and back: layer numbers are i32 there, u32 here.
pub trait Cast<T> {
    fn cast(self) -> T;
}

impl<T> Cast<T> for T {
    fn cast(self) -> T {
        self
    }
}

macro_rules! as_words {
    ($($from:ty, $to:ty);+) => {$(
        impl Cast<$to> for $from {
            fn cast(self) -> $to {
                self as $to
            }
        }

        impl<const N: usize> Cast<[$to; N]> for [$from; N] {
            fn cast(self) -> [$to; N] {
                self.map(|word| word as $to)
            }
        }
    )+};
}

as_words! { u32, i32; i32, u32 }

/// A record, with each field by its name.
pub trait Record {
    fn fields(&self) -> Vec<(&'static str, Numbers<'_>)>;

    /// The first field in which two records differ.
    fn difference(&self, other: &Self, same: fn(f32, f32) -> bool) -> Option<&'static str> {
        let mut pairs = self.fields().into_iter().zip(other.fields());
        let differing = pairs.find(|((_, a), (_, b))| !a.are(*b, same));
        differing.map(|((name, _), _)| name)
    }

    /// All numbers in the fields' order, a word each.
    fn words(&self) -> Vec<u32> {
        let mut words = Vec::new();
        self.fields().into_iter().for_each(|(_, numbers)| numbers.put(&mut words));
        words
    }
}

/// Defines a record whose fields are taken one by one. One field may stand apart, between two `;`: it
/// is drawn apart, so that all others, and what is drawn after them, are as without it.
macro_rules! fields {
    (
        $(#[$meta:meta])*
        $name:ident {
            $($($field:ident)+: $type:ty),+
            $(; apart $own:ident: $own_type:ty; $($($later:ident)+: $later_type:ty),+)?
            $(,)?
        }
    ) => {
        $(#[$meta])*
        #[repr(C)]
        #[derive(Clone, Copy)]
        pub struct $name {
            $($(pub $field: $type,)+)+
            $(pub $own: $own_type, $($(pub $later: $later_type,)+)+)?
        }

        impl $name {
            /// Any bits in every field.
            pub fn random(prng: &mut crate::prng::Prng) -> Self {
                use crate::record::Field;
                Self {
                    $($($field: <$type>::random(prng),)+)+
                    $(
                        $own: <$own_type>::random(&mut prng.apart()),
                        $($($later: <$later_type>::random(prng),)+)+
                    )?
                }
            }

            /// By its numbers' words in the fields' order.
            pub fn read(words: &mut impl Iterator<Item = u32>) -> Self {
                use crate::record::Field;
                Self {
                    $($($field: <$type>::read(words),)+)+
                    $(
                        $own: <$own_type>::read(words),
                        $($($later: <$later_type>::read(words),)+)+
                    )?
                }
            }

            /// 0 in every field.
            pub fn zeros() -> Self {
                Self::read(&mut std::iter::repeat(0))
            }
        }

        impl crate::record::Record for $name {
            fn fields(&self) -> Vec<(&'static str, crate::record::Numbers<'_>)> {
                use crate::record::Field;
                vec![
                    $($((stringify!($field), self.$field.numbers()),)+)+
                    $(
                        (stringify!($own), self.$own.numbers()),
                        $($((stringify!($later), self.$later.numbers()),)+)+
                    )?
                ]
            }
        }
    };
}

/// Defines such a record with the field names of the Rust's record of the same name, and the way
/// from one to the other. The field that stands apart the Rust's has not: from there it comes as 0.
macro_rules! fields_of_the_rust {
    (
        $(#[$meta:meta])*
        $name:ident {
            $($($field:ident)+: $type:ty),+
            $(; apart $own:ident: $own_type:ty; $($($later:ident)+: $later_type:ty),+)?
            $(,)?
        }
    ) => {
        crate::record::fields! {
            $(#[$meta])*
            $name {
                $($($field)+: $type),+
                $(; apart $own: $own_type; $($($later)+: $later_type),+)?
            }
        }

        #[cfg(oracle)]
        impl From<$name> for crate::oracle::$name {
            #[allow(clippy::needless_update)]
            fn from(ours: $name) -> Self {
                use crate::record::Cast;
                Self {
                    $($($field: ours.$field.cast(),)+)+
                    $($($($later: ours.$later.cast(),)+)+)?
                    ..Default::default()
                }
            }
        }

        #[cfg(oracle)]
        impl From<crate::oracle::$name> for $name {
            fn from(rust: crate::oracle::$name) -> Self {
                use crate::record::Cast;
                Self {
                    $($($field: rust.$field.cast(),)+)+
                    $(
                        $own: Self::zeros().$own,
                        $($($later: rust.$later.cast(),)+)+
                    )?
                }
            }
        }
    };
}

pub(crate) use {fields, fields_of_the_rust};
