//! Jobs for the job call: realistic, adversarial within the limits, and about the limits.

use super::Job;
use crate::con::RZ;
use crate::entries::{FindfJob, Reflectrix};
use crate::findf::{self, inside, khz, near};
use crate::prng::Prng;
use crate::{floats, limits};

/// The three kinds of jobs.
pub type Kind = fn(&mut Prng) -> Job;
pub const KINDS: [(&str, Kind); 3] =
    [("realistic", realistic), ("adversarial", adversarial), ("about the limits", about_limits)];

/// What a job's walk leaves.
fn walked(walk: &FindfJob) -> Reflectrix {
    findf::ours(Reflectrix::zeros(), walk).rfx
}

/// A realistic walk, and a length that is mostly within its reach.
pub fn realistic(prng: &mut Prng) -> Job {
    let walk = findf::realistic(prng);
    let ghop = ghop_within_reach(prng, &walked(&walk));
    Job { walk, ghop }
}

/// A length between the nearest and the farthest hop, or a little beyond; or up to 4,000 km.
fn ghop_within_reach(prng: &mut Prng, rfx: &Reflectrix) -> f32 {
    let reach = prng.within(0.95 * rfx.dskpkm, 1.02 * rfx.dmaxkm);
    let lengths = [reach, reach, prng.within(0.0, 4000.0)];
    ghop_of(prng.among(&lengths))
}

/// An adversarial walk, or one whose lengths zigzag or are equal, and a length about those of its
/// rows.
pub fn adversarial(prng: &mut Prng) -> Job {
    let mut walk = findf::adversarial(prng);
    if prng.below(4) == 0 {
        turn_heights(prng, &mut walk);
    }
    let rfx = walked(&walk);
    let row = prng.below(rfx.rows_this_call.max(1));
    if prng.below(4) == 0 {
        walk.amind = near(prng, rfx.delfx[row], limits::AMIND);
    }
    let ghop = ghop_about(prng, &rfx, row);
    Job { walk, ghop }
}

/// An adversarial walk with up to four numbers about their limits, and a length that is about its
/// limits in every other job.
pub fn about_limits(prng: &mut Prng) -> Job {
    let mut walk = findf::about_limits(prng);
    for count in [&mut walk.k, &mut walk.nang] {
        *count = (*count).min(u32::MAX as usize);
    }
    let inside = inside(prng, limits::GHOP);
    let mut about = floats::about(*limits::GHOP.start(), *limits::GHOP.end());
    about.extend(vec![inside; about.len()]);
    Job { walk, ghop: prng.among(&about) }
}

/// A height for a row of the tables.
type Height = fn(&mut Prng, usize) -> f32;

/// Low and high in turn: the lengths lie on the two sides of many a length.
fn zigzag(prng: &mut Prng, row: usize) -> f32 {
    if row.is_multiple_of(2) {
        prng.within(50.0, 300.0)
    } else {
        prng.within(800.0, 2000.0)
    }
}

/// So low that lengths are a few metres or none, but for a row here and there: lengths are equal.
fn flat(prng: &mut Prng, row: usize) -> f32 {
    if row.is_multiple_of(10) {
        prng.within(100.0, 400.0)
    } else {
        prng.among(&[1e-10, 1e-20, f32::from_bits(1)])
    }
}

fn any_height(prng: &mut Prng, _row: usize) -> f32 {
    inside(prng, limits::HPRIM)
}

/// Heights of one manner, and entries by which the walk goes through the rows of a layer, one to
/// an angle, or stays on one for some angles. The layers end at angles well between 0 and 90.
fn turn_heights(prng: &mut Prng, walk: &mut FindfJob) {
    let manners: [Height; 4] = [zigzag, zigzag, flat, any_height];
    let height = prng.among(&manners);
    walk.hprim = std::array::from_fn(|row| height(prng, row));
    let low = prng.below(2) == 0;
    walk.htrue = walk.hprim.map(|hprim| if low { 0.0 } else { hprim.min(100.0) });
    for row in [9, 19, 27, 28, 29] {
        walk.fvert[row] = walk.freq * prng.within(0.3, 0.9);
    }
    walk.fi[walk.k][2] = prng.among(&[100.0, 10.0, 1.0]);
    walk.amind = prng.among(&[0.0, 0.0, 3.0]);
    let (at, stay) = (khz(walk.freq), prng.below(4));
    let mut reached = [0; 3];
    for column in walk.ifob.chunks_mut(30) {
        for (layer, reached) in column.chunks_mut(10).zip(&mut reached) {
            *reached += usize::from(prng.below(4) >= stay);
            // Below the frequency up to the row reached, far above it from there on.
            for (row, entry) in layer.iter_mut().enumerate() {
                *entry = if row <= *reached { at - 1 } else { 99999 };
            }
        }
    }
}

/// The hop length in radians that makes `length` km, to the bit where there is one.
pub fn ghop_of(length: f32) -> f32 {
    let about = (length / RZ).max(0.0).min(*limits::GHOP.end());
    let mut near = floats::window(about.to_bits(), 2).map(f32::from_bits);
    near.find(|ghop| ghop * RZ == length && limits::GHOP.contains(ghop)).unwrap_or(about)
}

/// A length about those of the rows: a row's own, a metre or two from it, between two neighbours,
/// at the nearest or the farthest hop; or anything within reach or within the limits.
fn ghop_about(prng: &mut Prng, rfx: &Reflectrix, row: usize) -> f32 {
    let (own, next) = (rfx.gdflx[row], rfx.gdflx[row + 1]);
    let length = match prng.below(8) {
        0 | 1 => own,
        2 => own + prng.among(&[0.001, -0.001, 0.002, -0.002, 0.0005]),
        3 | 4 => prng.within(own, next),
        5 => prng.among(&[rfx.dmaxkm, rfx.dmaxkm.next_down(), rfx.dskpkm]),
        6 => return ghop_within_reach(prng, rfx),
        _ => return inside(prng, limits::GHOP),
    };
    ghop_of(length)
}
