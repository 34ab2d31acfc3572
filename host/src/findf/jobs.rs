//! Jobs for findf: realistic, adversarial within the limits, and about the limits.

use crate::con::RZ;
use crate::entries::FindfJob;
use crate::prng::Prng;
use crate::{floats, limits};
use std::ops::RangeInclusive;

/// The 40 take-off angles in degrees, by their rule.
pub fn take_off_angles() -> impl Iterator<Item = f32> {
    let steps = (1..=6).chain((8..=56).step_by(2)).chain((60..=85).step_by(5));
    [0.0, 0.5].into_iter().chain(steps.map(|degrees| degrees as f32)).chain([89.99])
}

/// A parabolic layer: critical frequency, height of the peak and half thickness.
#[derive(Clone, Copy)]
struct Layer {
    critical: f32,
    peak: f32,
    half: f32,
}

impl Layer {
    fn true_height(self, f: f32) -> f32 {
        let x = f / self.critical;
        self.peak - self.half * (1.0 - x * x).sqrt()
    }

    fn virtual_height(self, f: f32) -> f32 {
        let x = f / self.critical;
        self.peak - self.half + 0.5 * self.half * x * ((1.0 + x) / (1.0 - x)).ln()
    }
}

/// The whole kHz of a frequency, as findf takes them.
pub fn khz(freq: f32) -> i32 {
    (1000.0 * freq) as i32
}

/// A job of parabolic layers E, F2 and, in half of the jobs, F1, with ifob by the formula of the
/// Rust's fobby up to nang and anything beyond.
pub fn realistic(prng: &mut Prng) -> FindfJob {
    let e = Layer { critical: prng.within(0.6, 4.0), peak: 110.0, half: 20.0 };
    let has_f1 = prng.below(2) == 0;
    let critical = 1.3 * e.critical + prng.within(0.0, 1.5);
    let f1 = Layer { critical, peak: prng.within(170.0, 220.0), half: 50.0 };
    let below = if has_f1 { f1.critical } else { e.critical };
    let critical = 1.2 * below + prng.within(0.3, 9.0);
    let f2 = Layer { critical, peak: prng.within(240.0, 450.0), half: prng.within(40.0, 120.0) };
    let f1_or_f2 = if has_f1 { f1 } else { f2 };
    let around = (f2.critical * prng.within(0.8, 4.0)).clamp(2.0, 30.0);
    let freqs = [around, prng.within(2.0, 30.0)];
    let aminds = [0.0, 3.0, prng.within(0.0, 15.0)];
    let mut job = FindfJob {
        k: prng.below(5),
        nang: prng.among(&[40, 34, 29, 24, 19, 14, 12, 9]),
        freq: prng.among(&freqs),
        amind: prng.among(&aminds),
        fi: std::array::from_fn(|_| std::array::from_fn(|_| prng.within(0.0, 12.0))),
        fvert: [0.0; 30],
        hprim: [0.0; 30],
        htrue: [0.0; 30],
        afac: [0.0; 30],
        ifob: std::array::from_fn(|_| prng.below(100_000) as i32),
    };
    job.fi[job.k] = [e.critical, if has_f1 { f1.critical } else { 0.0 }, f2.critical];
    let last = 0.99 * f1_or_f2.critical;
    let mut rows = |first: usize, count: usize, layer: Layer, low: f32, high: f32| {
        for i in 0..count {
            let f = low + (high - low) * i as f32 / (count - 1) as f32;
            let (ht, hp) = (layer.true_height(f), layer.virtual_height(f));
            job.fvert[first + i] = f;
            job.htrue[first + i] = ht;
            job.hprim[first + i] = hp;
            job.afac[first + i] = 0.02 * (hp - ht);
        }
    };
    rows(0, 10, e, 0.01, 0.99 * e.critical);
    rows(10, if has_f1 { 10 } else { 20 }, f1_or_f2, 1.05 * e.critical, last);
    if has_f1 {
        rows(20, 10, f2, 1.01 * f1.critical, 0.99 * f2.critical);
    }
    fill_ifob(&mut job);
    job
}

/// The oblique frequencies in kHz of the first nang angles.
fn fill_ifob(job: &mut FindfJob) {
    for (angle, column) in take_off_angles().zip(job.ifob.chunks_mut(30)).take(job.nang) {
        let rcosd = RZ * angle.to_radians().cos();
        for ((entry, fvert), htrue) in column.iter_mut().zip(job.fvert).zip(job.htrue) {
            let sphe = rcosd / (RZ + htrue);
            let cphe = (1.0 - sphe * sphe).max(0.000001).sqrt();
            *entry = khz(fvert / cphe).clamp(*limits::IFOB.start(), *limits::IFOB.end());
        }
    }
}

/// A number of the range, which is not below 0: `x` or up to three patterns to a side, so far as
/// the range goes.
pub fn near(prng: &mut Prng, x: f32, range: RangeInclusive<f32>) -> f32 {
    let (low, high) = (*range.start(), *range.end());
    let pattern = x.max(low).min(high).to_bits() + prng.below(7) as u32;
    f32::from_bits(pattern.saturating_sub(3)).clamp(low, high)
}

/// A number of the range: an end, a number beside it, a zero, a subnormal or any other.
pub fn inside(prng: &mut Prng, range: RangeInclusive<f32>) -> f32 {
    let (low, high) = (*range.start(), *range.end());
    let mut numbers: Vec<f32> = floats::about(low, high);
    numbers.retain(|x| range.contains(x));
    numbers.extend([prng.within(low, high).clamp(low, high); 4]);
    prng.among(&numbers)
}

/// A job within the limits: a realistic one, some of whose parts are made of ties, ends of
/// ranges, sawteeth, constants, and numbers on either side of the tests in penang.
pub fn adversarial(prng: &mut Prng) -> FindfJob {
    let mut job = realistic(prng);
    let whole = prng.within(2.0, 30.0).round();
    let freqs = [job.freq, job.freq, whole, 2.0, 30.0, inside(prng, limits::FREQ)];
    job.freq = prng.among(&freqs);
    let nangs = [job.nang, 40, prng.below(41)];
    job.nang = prng.among(&nangs);
    let angle = take_off_angles().nth(prng.below(40)).unwrap();
    let aminds = [job.amind, angle, near(prng, angle, limits::AMIND), 0.0, -0.0, 90.0];
    job.amind = prng.among(&aminds);
    let [_, second, third] = job.fi[job.k];
    let seconds = [second, 0.0, 3.0, inside(prng, limits::FI_SECOND)];
    let thirds = [third, inside(prng, limits::FI_THIRD)];
    job.fi = std::array::from_fn(|_| std::array::from_fn(|_| prng.float()));
    job.fi[job.k][1] = prng.among(&seconds);
    job.fi[job.k][2] = prng.among(&thirds);
    if prng.below(2) == 0 {
        turn_columns(prng, &mut job);
    }
    if prng.below(2) == 0 {
        turn_penang_rows(prng, &mut job);
    }
    if prng.below(4) == 0 {
        fill_ifob(&mut job);
    }
    turn_ifob(prng, &mut job);
    job
}

/// Fills some of the four columns anew: with one number, or row by row.
fn turn_columns(prng: &mut Prng, job: &mut FindfJob) {
    let FindfJob { fvert, hprim, htrue, afac, .. } = job;
    let ranges = [limits::FVERT, limits::HPRIM, limits::HTRUE, limits::AFAC];
    for (column, range) in [fvert, hprim, htrue, afac].into_iter().zip(ranges) {
        match prng.below(4) {
            0 => *column = [inside(prng, range); 30],
            1 => *column = std::array::from_fn(|_| inside(prng, range.clone())),
            _ => {}
        }
    }
}

/// Puts the rows that penang reads about its thresholds.
fn turn_penang_rows(prng: &mut Prng, job: &mut FindfJob) {
    let freq = job.freq;
    for row in [9, 19, 27, 28, 29] {
        let fvert = match prng.below(8) {
            0 => freq * 0.9999f32.sqrt(),
            1 => freq,
            2 => freq - 0.0001,
            3 => freq * prng.within(1.0, 2.0),
            4 => 0.0,
            5 | 6 => freq * prng.within(0.0, 1.0),
            _ => continue,
        };
        job.fvert[row] = near(prng, fvert, limits::FVERT);
        if prng.below(2) == 0 {
            // The cosine about 0.999999.
            let ratio = job.fvert[row] / freq;
            let htrue = RZ * (0.999999 / (1.0 - ratio * ratio).sqrt() - 1.0);
            job.htrue[row] = near(prng, htrue, limits::HTRUE);
        }
    }
}

/// Fills some of ifob's angles anew, all in the same manner.
fn turn_ifob(prng: &mut Prng, job: &mut FindfJob) {
    let at = khz(job.freq);
    let ties = [at - 1, at, at + 1];
    let (manner, constant) = (prng.below(8), prng.among(&[0, 99999, at - 1, at, at + 1]));
    let (period, share) = (2 + prng.below(4), 1 + prng.below(4));
    for column in job.ifob.chunks_mut(30) {
        if prng.below(share) > 0 {
            continue;
        }
        let crossing = prng.below(31);
        for (row, entry) in column.iter_mut().enumerate() {
            *entry = match manner {
                0 => constant,
                1 => prng.among(&[at - 1, at, at + 1, 0, 99999]),
                2 => prng.among(&ties),
                3 if row % period == 0 => at + 500,
                3 => at - 500,
                4 => prng.below(100_000) as i32,
                5 if row < crossing => 0,
                5 => at + prng.below(2) as i32,
                6 if row % 10 == 0 => 0,
                6 => 99999,
                _ if prng.below(8) == 0 => prng.among(&ties),
                _ => *entry,
            };
        }
    }
}

/// The three kinds of jobs.
pub type Kind = fn(&mut Prng) -> FindfJob;
pub const KINDS: [(&str, Kind); 3] =
    [("realistic", realistic), ("adversarial", adversarial), ("about the limits", about_limits)];

/// How many of a job's floats have limits.
pub const LIMITED: usize = 4 + 4 * 30;

/// One of the floats that have limits, and its range. A k above 4 counts as 0.
pub fn limited(job: &mut FindfJob, place: usize) -> (&mut f32, RangeInclusive<f32>) {
    let point = if job.k <= 4 { job.k } else { 0 };
    match place {
        0 => (&mut job.freq, limits::FREQ),
        1 => (&mut job.amind, limits::AMIND),
        2 => (&mut job.fi[point][1], limits::FI_SECOND),
        3 => (&mut job.fi[point][2], limits::FI_THIRD),
        4..34 => (&mut job.fvert[place - 4], limits::FVERT),
        34..64 => (&mut job.hprim[place - 34], limits::HPRIM),
        64..94 => (&mut job.htrue[place - 64], limits::HTRUE),
        _ => (&mut job.afac[place - 94], limits::AFAC),
    }
}

/// Counts and entries about their limits.
pub const KS: [usize; 7] = [0, 3, 4, 5, 6, 1 << 32, usize::MAX];
pub const NANGS: [usize; 7] = [0, 39, 40, 41, 1 << 32, (1 << 32) + 40, usize::MAX];
pub const ENTRIES: [i32; 8] = [0, 1, 99999, 100000, -1, i32::MIN, i32::MAX, 1 << 30];

/// An adversarial job with up to four numbers about their limits.
pub fn about_limits(prng: &mut Prng) -> FindfJob {
    let mut job = adversarial(prng);
    for _ in 0..=prng.below(4) {
        match prng.below(8) {
            0 => job.k = prng.among(&KS),
            1 => job.nang = prng.among(&NANGS),
            2 => job.ifob[prng.below(1200)] = prng.among(&ENTRIES),
            // Freq, amind and fi as often as the columns.
            turn => {
                let place = prng.below(if turn % 2 == 0 { 4 } else { LIMITED });
                let (number, range) = limited(&mut job, place);
                *number = prng.among(&floats::about(*range.start(), *range.end()));
            }
        }
    }
    job
}
