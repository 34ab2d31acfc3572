//! fdist by value and by reference: jobs for it, and the check of one.

use crate::con::RZ;
use crate::entries::{self, FdistJob, HopModes, Reflectrix, Searched};
use crate::findf::{self, inside, near};
use crate::floats;
use crate::limits;
use crate::prng::Prng;
use crate::record::Record;
use crate::tally::Tally;
use std::ops::RangeInclusive;

#[cfg(oracle)]
use crate::oracle::counts::{self, Counts};
#[cfg(oracle)]
use crate::oracle::{self, as_it_comes, counted, led};

/// The library's fdist.
pub fn ours(m: HopModes, job: &FdistJob) -> Searched {
    entries::fdist(m, job.rfx, job.ghop, job.amind, job.freq)
}

/// The library's fdist by reference.
pub fn by_reference(m: HopModes, job: &FdistJob) -> Searched {
    entries::fdist_by_reference(m, job.rfx, job.ghop, job.amind, job.freq)
}

#[cfg(oracle)]
pub type RustFdist = fn(&mut oracle::HopModes, &oracle::Reflectrix, f32, f32, f32);

/// One of the oracle's.
#[cfg(oracle)]
pub fn rust(fdist: RustFdist, m: HopModes, job: &FdistJob) -> HopModes {
    let mut rust = oracle::HopModes::from(m);
    fdist(&mut rust, &job.rfx.into(), job.ghop, job.amind, job.freq);
    rust.into()
}

/// One that counts pairs and rays.
#[cfg(oracle)]
pub fn counting(fdist: RustFdist, m: HopModes, job: &FdistJob) -> Searched {
    counts::take();
    let m = rust(fdist, m, job);
    let Counts { pairs, rays, .. } = counts::take();
    Searched { refusal: 0, pairs, rays, m }
}

/// The led one, with the pairs and rays of its counted copy.
#[cfg(oracle)]
pub fn led(m: HopModes, job: &FdistJob) -> Searched {
    let led = rust(led::fdist, m, job);
    let counted = counting(counted::fdist, m, job);
    assert_eq!(counted.m.difference(&led, floats::same), None);
    Searched { m: led, ..counted }
}

/// Checks a job on used slots, by value and by reference: the number by the limits, a refusal's
/// slots as they were, accepted ones as the led Rust has them.
pub fn check(old: HopModes, job: &FdistJob, tally: &mut Tally) {
    let refusal = limits::fdist(job);
    let FdistJob { ghop, amind, freq, .. } = *job;
    let at = || format!("ghop {ghop:e}, amind {amind:e}, freq {freq:e}");
    tally.refusals[refusal as usize] += 1;
    #[cfg(oracle)]
    let expected = (refusal == 0).then(|| led(old, job));
    let answers = [ours(old, job), by_reference(old, job)];
    for s in &answers {
        assert_eq!(s.refusal, refusal, "{}", at());
        if refusal > 0 {
            assert_eq!((s.pairs, s.rays), (0, 0), "{}", at());
            assert_eq!(s.m.difference(&old, floats::identical), None, "{}", at());
        }
        assert!(s.pairs <= 44, "{}", at());
        #[cfg(oracle)]
        if let Some(expected) = &expected {
            assert_eq!(s.m.difference(&expected.m, floats::same), None, "{}", at());
            assert_eq!((s.pairs, s.rays), (expected.pairs, expected.rays), "{}", at());
        }
    }
    if refusal == 0 {
        tally.add_search(answers[0].pairs, answers[0].rays);
    }
    #[cfg(oracle)]
    if let Some(expected) = &expected {
        tally.differences.add(&expected.m, &rust(as_it_comes::fdist, old, job));
    }
}

/// Checks jobs of one kind, each on slots of any contents.
pub fn check_jobs(seed: u64, jobs: u64, kind: fn(&mut Prng) -> FdistJob) -> Tally {
    let (mut prng, mut tally) = (Prng::new(seed), Tally::default());
    for _ in 0..jobs {
        let old = HopModes::random(&mut prng);
        check(old, &kind(&mut prng), &mut tally);
    }
    tally
}

/// A search on what a realistic walk left, mostly for a length within its reach; at times for
/// the very length of a row.
pub fn after_a_walk(prng: &mut Prng) -> FdistJob {
    let walk = findf::realistic(prng);
    let rfx = findf::ours(Reflectrix::random(prng), &walk).rfx;
    let row = prng.below(rfx.rows_this_call.max(1));
    let lengths = [rfx.gdflx[row], prng.within(0.0, 1.05 * rfx.dmaxkm), prng.within(0.0, 4000.0)];
    let ghop = (prng.among(&lengths) / RZ).max(0.0).min(*limits::GHOP.end());
    FdistJob { rfx, ghop, amind: walk.amind, freq: walk.freq }
}

/// A search on 45 rows of any contents, drawn to be about the length, the minimum angle and the
/// tests on heights.
pub fn arbitrary(prng: &mut Prng) -> FdistJob {
    let numbers = [prng.within(0.0, 4.0), prng.within(0.1, 1.0), inside(prng, limits::GHOP)];
    let ghop = prng.among(&numbers);
    let numbers = [0.0, prng.within(0.0, 90.0), inside(prng, limits::AMIND)];
    let amind = prng.among(&numbers);
    let freq = inside(prng, limits::FREQ);
    let mut rfx = Reflectrix::random(prng);
    let d = ghop * RZ;
    rfx.gdflx = lengths(prng, d);
    rfx.hpflx = heights(prng);
    rfx.delfx = angles(prng, amind);
    if prng.below(2) == 0 {
        rfx.htflx = std::array::from_fn(|_| prng.within(60.0, 500.0));
        rfx.fvflx = std::array::from_fn(|_| prng.within(0.0, 20.0));
        rfx.afflx = std::array::from_fn(|_| prng.within(0.0, 10.0));
    }
    let far = [f32::INFINITY, 2.0 * d + 1.0, d.next_up()];
    let close = [d, d.next_down(), 0.0, f32::NAN, rfx.dmaxkm];
    rfx.dmaxkm = if prng.below(8) == 0 { prng.among(&close) } else { prng.among(&far) };
    FdistJob { rfx, ghop, amind, freq }
}

/// Lengths about d: zigzags, rises and falls, a rise beyond d, one length or any bits; among them
/// d itself, the same length again, a metre more or less, NaN and infinities.
fn lengths(prng: &mut Prng, d: f32) -> [f32; 45] {
    let manner = prng.below(7);
    let odd = manner > 3 || prng.below(4) > 0;
    let (step, spread) = (prng.within(0.0, 500.0), prng.within(0.0, 5000.0));
    let (one, crossing) = (prng.within(0.0, 25000.0), prng.below(45) as f32);
    let one = prng.among(&[d, d + 0.001, one]);
    let mut before = one;
    std::array::from_fn(|row| {
        let away = prng.within(0.0, spread);
        let other = match manner {
            0 if row % 2 == 0 => d + away,
            0 => d - away,
            1 => d + step * (row as f32 - crossing),
            2 => d - step * (row as f32 - crossing),
            3 => d + step * (row as f32 + 1.0),
            4 => one,
            5 => prng.float(),
            _ => d + away - 0.5 * spread,
        };
        before = match prng.below(16) {
            _ if !odd => other,
            0 => d,
            1 => before,
            2 => d + prng.among(&[0.001, -0.001, 0.002, -0.002, 0.0005]),
            3 => near(prng, d, 0.0..=f32::MAX),
            4 if manner > 4 => prng.among(&[f32::NAN, f32::INFINITY, f32::NEG_INFINITY, 0.0, -d]),
            _ => other,
        };
        before
    })
}

/// Heights above 0, with a few others among them in some jobs, or any bits.
fn heights(prng: &mut Prng) -> [f32; 45] {
    let others = [0.0, -0.0, -300.0, f32::NAN, f32::INFINITY, f32::from_bits(1)];
    let (any, rarity) = (prng.below(8) == 0, prng.among(&[1 << 30, 40, 10]));
    std::array::from_fn(|_| match prng.below(rarity) {
        _ if any => prng.float(),
        0 => prng.among(&others),
        _ => prng.within(60.0, 800.0),
    })
}

/// Angles from 0 to 90, about the minimum, all just below it, or any bits.
fn angles(prng: &mut Prng, amind: f32) -> [f32; 45] {
    let manner = prng.below(6);
    std::array::from_fn(|_| match manner {
        0 => prng.float(),
        1 => prng.among(&[amind, amind.next_down(), amind.next_up(), f32::NAN, 90.0]),
        2 => amind.next_down(),
        _ => prng.within(0.0, 90.0),
    })
}

/// One of the numbers that have limits, and its range.
pub fn limited(job: &mut FdistJob, place: usize) -> (&mut f32, RangeInclusive<f32>) {
    match place {
        0 => (&mut job.freq, limits::FREQ),
        1 => (&mut job.amind, limits::AMIND),
        _ => (&mut job.ghop, limits::GHOP),
    }
}

/// An arbitrary search with each of freq, amind and ghop about its limits, or well inside.
pub fn about_limits(prng: &mut Prng) -> FdistJob {
    let mut job = arbitrary(prng);
    for place in 0..3 {
        if prng.below(2) == 0 {
            let (number, range) = limited(&mut job, place);
            *number = prng.among(&floats::about(*range.start(), *range.end()));
        }
    }
    job
}
