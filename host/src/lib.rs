//! The test host: holds the library's entry points against the Rust and against exact numbers.

pub mod angles;
pub mod bounds;
pub mod con;
pub mod demand;
#[cfg(oracle)]
pub mod differences;
pub mod ensure;
pub mod entries;
pub mod esmod;
pub mod exact;
pub mod fdist;
pub mod findf;
pub mod fit;
pub mod floats;
pub mod guarded;
pub mod job;
pub mod limits;
#[cfg(oracle)]
pub mod oracle;
pub mod page;
#[cfg(oracle)]
pub mod peer;
pub mod prng;
pub mod record;
#[cfg(oracle)]
pub mod replay;
pub mod samples;
pub mod tally;

// The sliced Rust reads `crate::perf`.
#[cfg(oracle)]
use oracle::perf;
