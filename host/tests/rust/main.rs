//! The library against the Rust. Without its source nothing here can run.

#[cfg(oracle)]
mod allmodes;
#[cfg(oracle)]
mod by_reference;
#[cfg(oracle)]
mod esmod;
#[cfg(oracle)]
mod fdist;
#[cfg(oracle)]
mod findf;
#[cfg(oracle)]
mod fnorml;
#[cfg(oracle)]
mod job;
#[cfg(oracle)]
mod mutants;
#[cfg(oracle)]
mod prbmuf;
#[cfg(oracle)]
mod replay;
#[cfg(oracle)]
mod worked_cases;

#[cfg(not(oracle))]
#[test]
#[ignore = "the Rust source is not at hand: set HFCAST_SRC"]
fn the_library_against_the_rust() {}
