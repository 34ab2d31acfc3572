//! The limits of document 01 and of its orders as the tests compute them, apart from the library.

use crate::entries::{AllModes, EsJob, FdistJob, FindfJob, Zon};
use crate::job::{Answer, Job};
use std::ops::RangeInclusive;

pub const FREQ: RangeInclusive<f32> = 2.0..=30.0;
pub const AMIND: RangeInclusive<f32> = 0.0..=90.0;
pub const GHOP: RangeInclusive<f32> = 0.0..=4.0;
pub const FI_SECOND: RangeInclusive<f32> = 0.0..=100.0;
pub const FI_THIRD: RangeInclusive<f32> = 0.1..=100.0;
pub const FVERT: RangeInclusive<f32> = 0.0..=100.0;
pub const HPRIM: RangeInclusive<f32> = 0.0..=10000.0;
pub const HTRUE: RangeInclusive<f32> = 0.0..=2000.0;
pub const AFAC: RangeInclusive<f32> = -1000000.0..=1000000.0;
pub const IFOB: RangeInclusive<i32> = 0..=99999;
pub const KM: RangeInclusive<usize> = 1..=5;
pub const HS: RangeInclusive<f32> = 80.0..=200.0;
pub const GCD: RangeInclusive<f32> = 0.001..=3.2;
pub const GCDKM: RangeInclusive<f32> = 0.0..=20100.0;
/// "each fs and fsdead"
pub const FS: RangeInclusive<f32> = 0.0..=100.0;

/// The number of the first test that fails, else 0.
fn first_broken(tests: &[(u32, &dyn Fn() -> bool)]) -> u32 {
    tests.iter().find(|(_, holds)| !holds()).map_or(0, |(number, _)| *number)
}

/// The limit that the job call breaks first on these bytes and an answer of this length, else 0.
pub fn job(bytes: &[u8], answer: usize) -> u32 {
    if bytes.len() != Job::BYTES {
        1
    } else if answer != Answer::BYTES {
        2
    } else {
        numbers(&Job::read(bytes))
    }
}

/// The limit that `findf` breaks first, else 0: it has no hop length, which is the job's alone.
pub fn findf(walk: &FindfJob) -> u32 {
    numbers(&Job { walk: *walk, ghop: *GHOP.start() })
}

/// Limits 3 to 10.
fn numbers(Job { walk: job, ghop }: &Job) -> u32 {
    let all = |column: &[f32], range: RangeInclusive<f32>| column.iter().all(|x| range.contains(x));
    first_broken(&[
        (3, &|| job.k <= 4),
        (4, &|| job.nang <= 40),
        (5, &|| FREQ.contains(&job.freq)),
        (6, &|| AMIND.contains(&job.amind)),
        (7, &|| GHOP.contains(ghop)),
        (8, &|| FI_SECOND.contains(&job.fi[job.k][1])),
        (8, &|| FI_THIRD.contains(&job.fi[job.k][2])),
        (9, &|| all(&job.fvert, FVERT) && all(&job.hprim, HPRIM)),
        (9, &|| all(&job.htrue, HTRUE) && all(&job.afac, AFAC)),
        (10, &|| job.ifob.iter().all(|entry| IFOB.contains(entry))),
    ])
}

/// The limit that `fdist` breaks first, else 0.
pub fn fdist(job: &FdistJob) -> u32 {
    first_broken(&[
        (5, &|| FREQ.contains(&job.freq)),
        (6, &|| AMIND.contains(&job.amind)),
        (7, &|| GHOP.contains(&job.ghop)),
    ])
}

/// The limit that `esmod` breaks first, else 0: "Errors: 14, a point count outside 1 to 5, or a
/// number outside these ranges (of the points, only those counted), after 5 and 6."
pub fn esmod(job: &EsJob) -> u32 {
    first_broken(&[
        (5, &|| FREQ.contains(&job.freq)),
        (6, &|| AMIND.contains(&job.amind)),
        (14, &|| KM.contains(&job.km)),
        (14, &|| job.fs[..job.km].as_flattened().iter().all(|fs| FS.contains(fs))),
        (14, &|| job.hs[..job.km].iter().all(|hs| HS.contains(hs))),
        (14, &|| GCD.contains(&job.gcd) && GCDKM.contains(&job.gcdkm)),
        (14, &|| FS.contains(&job.fsdead)),
    ])
}

/// The limit that `accumulate` breaks first, else 0: 11, then 12.
pub fn accumulate(m: &AllModes, zon: &Zon, ist: usize, lst: usize) -> u32 {
    if ist == 0 || lst > 7 {
        return 11;
    }
    let slots = (1..=7).filter(|slot| (ist..=lst).contains(slot));
    let added = slots.filter(|slot| zon.hp[slot - 1] > 0.0).count();
    match m.nmmod.checked_add(added) {
        Some(count) if count <= 20 => 0,
        _ => 12,
    }
}
