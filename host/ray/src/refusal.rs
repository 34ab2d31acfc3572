//! Why a job, or a path by sporadic E, is refused.

use std::error::Error;
use std::fmt;

/// The number of the first limit that a job or [`Es`](crate::Es) breaks, with its sentence.
///
/// ```
/// use ray::{Job, Refusal};
///
/// let refusal = Job::from_bytes(&[0; 77]).unwrap_err();
/// assert_eq!(refusal, Refusal::JOB);
/// assert_eq!(refusal.number(), 1);
/// assert_eq!(refusal.sentence(), "the job is not 5360 bytes long");
/// assert_eq!(refusal.to_string(), "refused, limit 1: the job is not 5360 bytes long");
/// ```
#[derive(Clone, Copy, Debug, PartialEq, Eq, Hash, PartialOrd, Ord)]
pub struct Refusal(u32);

/// A constant for each number, and the table of the sentences.
macro_rules! refusals {
    ($($name:ident $number:literal, $sentence:literal;)+) => {
        impl Refusal {
            $(
                #[doc = concat!("Limit ", $number, ": ", $sentence, ".")]
                pub const $name: Refusal = Refusal($number);
            )+

            /// All of them, by number: 1 to 10 are a job's; 5, 6 and 14 sporadic E's.
            pub const ALL: &[Refusal] = &[$(Refusal::$name),+];

            /// What the limit says.
            pub fn sentence(self) -> &'static str {
                match self.0 {
                    $($number => $sentence,)+
                    _ => "no limit has this number",
                }
            }
        }
    };
}

refusals! {
    JOB 1, "the job is not 5360 bytes long";
    ANSWER 2, "the answer is not 1640 bytes long";
    K 3, "the point k is not within 0 to 4";
    NANG 4, "the number of table angles, nang, is not within 0 to 40";
    FREQ 5, "the frequency, freq, is not within 2 to 30 MHz";
    AMIND 6, "the minimum angle, amind, is not within 0 to 90 deg";
    GHOP 7, "the asked hop, ghop, is not within 0 to 4 radians";
    FI 8, "a critical frequency of the point is not within its range";
    TABLE 9, "a value of the tables is not within its range";
    IFOB 10, "an entry of the oblique table, ifob, is not within 0 to 99999 kHz";
    ES 14, "km, fs, hs, gcd, gcdkm or fsdead is not within its range";
}

impl Refusal {
    /// From what the library returned: none of 0.
    pub(crate) fn of(number: u32) -> Option<Refusal> {
        (number != 0).then_some(Refusal(number))
    }

    /// The number of the limit, from 1.
    pub fn number(self) -> u32 {
        self.0
    }
}

impl fmt::Display for Refusal {
    fn fmt(&self, f: &mut fmt::Formatter<'_>) -> fmt::Result {
        write!(f, "refused, limit {}: {}", self.0, self.sentence())
    }
}

impl Error for Refusal {}
