//! The place of every word of a job and of an answer, counted in words of 4 bytes from 0. Words are
//! written least byte first, floats by their bits.

/// How many points a job has.
pub const POINTS: usize = 5;
/// How many critical frequencies a point has: E, F1, F2.
pub const POINT_NUMBERS: usize = 3;
/// How many rows a table has, and `ifob` for each angle.
pub const TABLE_ROWS: usize = 30;
/// How many table angles there are.
pub const ANGLES: usize = 40;
/// How many rows an answer's columns have.
pub const COLUMN_ROWS: usize = 45;
/// How many layers an answer has angles of.
pub const LAYERS: usize = 3;
/// How many slots for rays an answer has.
pub const SLOTS: usize = 6;

/// One place after the other: each name, how many words it has, and what it is.
macro_rules! places {
    ($all:ident, $bytes:ident, $of:literal: $($name:ident $words:expr, $what:literal;)+) => {
        places!(@ 0; $($name $words, $what;)+);

        /// The names of the places of
        #[doc = concat!($of, ", with the number of their words, in their order.")]
        pub const $all: &[(&str, usize)] = &[$((stringify!($name), $words)),+];

        /// How many bytes
        #[doc = concat!($of, " has.")]
        pub const $bytes: usize = 4 * (0 $(+ $words)+);
    };
    (@ $place:expr; $name:ident $words:expr, $what:literal; $($rest:tt)*) => {
        #[doc = $what]
        pub const $name: usize = $place;
        places!(@ $name + $words; $($rest)*);
    };
    (@ $place:expr;) => {};
}

/// Where a job has its words.
pub mod job {
    use super::{ANGLES, POINTS, POINT_NUMBERS, TABLE_ROWS};
    places! { NAMES, BYTES, "a job":
        K 1, "The point whose critical frequencies count, from 0; unsigned.";
        NANG 1, "How many of the 40 table angles are used; unsigned.";
        FREQ 1, "The frequency in MHz.";
        AMIND 1, "The minimum take-off angle in degrees.";
        GHOP 1, "The asked hop in radians.";
        FI POINTS * POINT_NUMBERS, "The critical frequencies in MHz: E, F1, F2 of each point.";
        FVERT TABLE_ROWS, "The vertical frequencies in MHz.";
        HPRIM TABLE_ROWS, "The virtual heights in km.";
        HTRUE TABLE_ROWS, "The true heights in km.";
        AFAC TABLE_ROWS, "The absorption factors.";
        IFOB ANGLES * TABLE_ROWS, "The oblique table in kHz, angle by angle; signed.";
    }
}

/// Where an answer has its words.
pub mod answer {
    use super::{COLUMN_ROWS, LAYERS, SLOTS};
    places! { NAMES, BYTES, "an answer":
        ROWS 1, "How many rows were written; unsigned.";
        LOOKS 1, "How many looks at the oblique table were taken; unsigned.";
        PAIRS 1, "How many pairs of rows were tried; unsigned.";
        DELPEN LAYERS, "The penetration angles of E, F1, F2 in degrees.";
        DSKPKM 1, "The skip distance in km.";
        DELSKP 1, "The take-off angle of its row in degrees.";
        HPSKP 1, "The virtual height of its row in km.";
        HTSKP 1, "The true height of its row in km.";
        DMAXKM 1, "The farthest hop in km.";
        FVSKP 1, "The vertical frequency of the skip distance's row in MHz.";
        ISKP 1, "The layer that the walk was in at that row; unsigned.";
        IAFTXR 1, "The number of the last row written; unsigned.";
        DELFX COLUMN_ROWS, "The rows' take-off angles in degrees.";
        HPFLX COLUMN_ROWS, "The rows' virtual heights in km.";
        HTFLX COLUMN_ROWS, "The rows' true heights in km.";
        GDFLX COLUMN_ROWS, "The rows' hop lengths in km.";
        FVFLX COLUMN_ROWS, "The rows' vertical frequencies in MHz.";
        AFFLX COLUMN_ROWS, "The rows' absorption factors.";
        IMODE COLUMN_ROWS, "The rows' layers; unsigned.";
        KIND COLUMN_ROWS, "The rows' kinds; unsigned.";
        DELMOD SLOTS, "The slots' take-off angles in degrees.";
        HPMOD SLOTS, "The slots' virtual heights in km, with a minus where too low.";
        HTMOD SLOTS, "The slots' true heights in km.";
        FVMOD SLOTS, "The slots' vertical frequencies in MHz.";
        ITMOD SLOTS, "The slots' layers, 5 where empty; unsigned.";
        AFMOD SLOTS, "The slots' absorption factors.";
    }
}

/// The word at a place.
pub(crate) fn word(bytes: &[u8], place: usize) -> u32 {
    let bytes = bytes[4 * place..][..4].try_into().expect("four bytes");
    u32::from_le_bytes(bytes)
}

/// The float at a place.
pub(crate) fn float(bytes: &[u8], place: usize) -> f32 {
    f32::from_bits(word(bytes, place))
}

/// Floats one after the other.
pub(crate) fn floats<const N: usize>(bytes: &[u8], place: usize) -> [f32; N] {
    std::array::from_fn(|i| float(bytes, place + i))
}

pub(crate) fn put(bytes: &mut [u8], place: usize, word: u32) {
    bytes[4 * place..][..4].copy_from_slice(&word.to_le_bytes());
}

pub(crate) fn put_floats(bytes: &mut [u8], place: usize, floats: &[f32]) {
    for (i, x) in floats.iter().enumerate() {
        put(bytes, place + i, x.to_bits());
    }
}
