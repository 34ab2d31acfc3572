//! Prints the rays by sporadic E of a path of 1,600 km:  es
//!
//! Exit status: as examples/es.c has it.

use ray::{Es, EsHop, EsPoint, EARTH_KM};
use std::io::Write;
use std::process::ExitCode;
use std::{fmt, io};

struct Slot(u32, Option<EsHop>);

impl fmt::Display for Slot {
    fn fmt(&self, f: &mut fmt::Formatter<'_>) -> fmt::Result {
        let Slot(number, hop) = self;
        match hop {
            None => write!(f, "slot {number}: empty"),
            Some(hop) => write!(
                f,
                "slot {number}: {:.3} deg, hops {}, height {:.1} km, delay {:.3} ms",
                hop.angle, hop.hops, hop.height, hop.delay
            ),
        }
    }
}

fn main() -> ExitCode {
    // Lower decile, median and upper decile in MHz, the layer's height in km.
    let points =
        [EsPoint { fs: [3.1, 5.0, 7.4], hs: 110.0 }, EsPoint { fs: [2.2, 3.6, 5.9], hs: 105.0 }];
    let km = 1600.0;
    let path =
        Es { points: &points, gcd: km / EARTH_KM, gcdkm: km, amind: 3.0, freq: 14.2, fsdead: 1.0 };
    match path.solve() {
        Err(refusal) => {
            eprintln!("{refusal}");
            ExitCode::from(refusal.number() as u8)
        }
        Ok(modes) => {
            let (slot4, slot5) = (Slot(4, modes.slot4), Slot(5, modes.slot5));
            match writeln!(io::stdout(), "{slot4}\n{slot5}") {
                Ok(()) => ExitCode::SUCCESS,
                Err(e) => {
                    eprintln!("standard output: {e}");
                    ExitCode::from(74)
                }
            }
        }
    }
}
