//! Jobs for esmod: coast-like, adversarial within the limits, and about the limits.

use super::{ours, Slots};
use crate::con::{PIO2, RZ};
use crate::entries::{self, EsJob};
use crate::findf::{inside, near};
use crate::prng::Prng;
use crate::{floats, limits};
use std::ops::RangeInclusive;

/// The three kinds of jobs.
pub type Kind = fn(&mut Prng) -> EsJob;
pub const KINDS: [(&str, Kind); 3] =
    [("coast-like", coast), ("adversarial", adversarial), ("about the limits", about_limits)];

/// The point that governs: the first of those counted that have the smallest middle fs.
pub fn governing(job: &EsJob) -> usize {
    let counted = 0..job.km.clamp(1, 5);
    counted.reduce(|k, next| if job.fs[next][1] < job.fs[k][1] { next } else { k }).unwrap_or(0)
}

/// The farthest hop on the ground by a layer of this height, in km.
pub fn farthest(hs: f32) -> f32 {
    2.0 * RZ * (PIO2 - entries::asin(1.0 / (1.0 + hs / RZ)))
}

/// A path of up to 4,500 km and a layer at some 110 km, with the deciles of its critical frequency
/// at each point; at times a point has no sporadic E.
pub fn coast(prng: &mut Prng) -> EsJob {
    let gcdkm = prng.within(50.0, 4500.0);
    let heights = [[110.0; 5], std::array::from_fn(|_| prng.within(95.0, 125.0))];
    let hs = prng.among(&heights);
    let fs = std::array::from_fn(|_| {
        let median = if prng.below(32) == 0 { 0.0 } else { prng.within(0.5, 12.0) };
        [median * prng.within(0.4, 0.9), median, median * prng.within(1.1, 2.0)]
    });
    let aminds = [0.0, 3.0, prng.within(0.0, 15.0)];
    EsJob {
        km: 1 + prng.below(5),
        fs,
        hs,
        gcd: gcdkm / RZ,
        gcdkm,
        amind: prng.among(&aminds),
        freq: prng.within(2.0, 30.0),
        fsdead: prng.within(0.0, 3.0),
    }
}

/// A job within the limits: a coast-like one, some of whose numbers are ties, on either side of
/// esmod's tests or at the ends of their ranges.
pub fn adversarial(prng: &mut Prng) -> EsJob {
    let mut job = coast(prng);
    turn_points(prng, &mut job);
    turn_path(prng, &mut job);
    let freqs = [job.freq, inside(prng, limits::FREQ)];
    job.freq = prng.among(&freqs);
    match prng.below(8) {
        0 => job.fsdead = near(prng, job.freq, limits::FS),
        1 => job.fsdead = inside(prng, limits::FS),
        _ => {}
    }
    turn_amind(prng, &mut job);
    job
}

/// Ties among the middle fs, at times about 0; any heights; the points that are not counted may
/// hold anything.
fn turn_points(prng: &mut Prng, job: &mut EsJob) {
    let ties = prng.below(2) == 0;
    let tie = prng.within(0.0, 100.0);
    let tie = prng.among(&[tie, tie, 100.0, f32::MIN_POSITIVE, f32::from_bits(1)]);
    let (dead, any_height) = (prng.below(8) == 0, prng.below(2) == 0);
    for (fs, hs) in job.fs.iter_mut().zip(&mut job.hs) {
        match prng.below(4) {
            0 | 1 if ties => fs[1] = tie,
            2 if ties => fs[1] = near(prng, tie, limits::FS),
            3 if dead => fs[1] = prng.among(&[0.0, -0.0, f32::from_bits(1), f32::from_bits(2)]),
            _ => {}
        }
        if any_height {
            *hs = inside(prng, limits::HS);
            (fs[0], fs[2]) = (inside(prng, limits::FS), inside(prng, limits::FS));
        }
    }
    if prng.below(2) == 0 {
        for point in job.km..5 {
            job.fs[point] = std::array::from_fn(|_| prng.float());
            job.hs[point] = prng.float();
        }
    }
}

/// A length about one or two of the farthest hops by the governing point, or anything; an angle
/// that goes with it, or anything.
fn turn_path(prng: &mut Prng, job: &mut EsJob) {
    let reach = farthest(job.hs[governing(job)]);
    job.gcdkm = match prng.below(8) {
        0 | 1 => near(prng, reach, limits::GCDKM),
        2 | 3 => near(prng, 2.0 * reach, limits::GCDKM),
        4 => inside(prng, limits::GCDKM),
        5 => prng.within(0.0, 2.0 * reach),
        _ => job.gcdkm,
    };
    let angles = [job.gcd, job.gcdkm / RZ, job.gcdkm / RZ, inside(prng, limits::GCD)];
    job.gcd = prng.among(&angles).clamp(*limits::GCD.start(), *limits::GCD.end());
}

/// A minimum angle about that of one of the hops, or anything.
fn turn_amind(prng: &mut Prng, job: &mut EsJob) {
    let hops = Slots::from(ours(&EsJob { amind: 0.0, ..*job }));
    let angle = hops.b[prng.below(2)];
    job.amind = match prng.below(4) {
        0 | 1 if angle > 0.0 => near(prng, angle, limits::AMIND),
        2 => inside(prng, limits::AMIND),
        _ => job.amind,
    };
}

/// Numbers of points about the limits: all up to 7, and such as are 1 to 5 in their low words.
pub const KMS: [usize; 11] = [0, 1, 2, 3, 4, 5, 6, 7, 1 << 32, (1 << 32) + 3, usize::MAX];

/// How many of a job's floats have limits, where all points are counted.
pub const LIMITED: usize = 5 + 5 + 15;

/// One of these floats, its range, and the number of its limit.
pub fn limited(job: &mut EsJob, place: usize) -> (&mut f32, RangeInclusive<f32>, u32) {
    match place {
        0 => (&mut job.freq, limits::FREQ, 5),
        1 => (&mut job.amind, limits::AMIND, 6),
        2 => (&mut job.gcd, limits::GCD, 14),
        3 => (&mut job.gcdkm, limits::GCDKM, 14),
        4 => (&mut job.fsdead, limits::FS, 14),
        5..10 => (&mut job.hs[place - 5], limits::HS, 14),
        _ => (&mut job.fs.as_flattened_mut()[place - 10], limits::FS, 14),
    }
}

/// An adversarial job with up to four numbers about their limits, uncounted ones among them.
pub fn about_limits(prng: &mut Prng) -> EsJob {
    let mut job = adversarial(prng);
    for _ in 0..=prng.below(4) {
        // The numbers that stand alone as often as those of the points.
        match prng.below(8) {
            0 => job.km = prng.among(&KMS),
            turn => {
                let place = prng.below(if turn % 2 == 0 { 5 } else { LIMITED });
                let (number, range, _) = limited(&mut job, place);
                *number = prng.among(&floats::about(*range.start(), *range.end()));
            }
        }
    }
    job
}
