//! The rays by sporadic E.

use crate::layout::{POINTS, POINT_NUMBERS};
use crate::{call, Refusal};

/// Sporadic E at a point of the path.
#[derive(Clone, Copy, Debug, Default, PartialEq)]
pub struct EsPoint {
    /// The critical frequency in MHz: its lower decile, median and upper decile, each 0 to 100. The
    /// median alone has a bearing on the rays.
    pub fs: [f32; POINT_NUMBERS],
    /// The height of the layer: 80 to 200 km.
    pub hs: f32,
}

/// A path, and what is asked of sporadic E on it.
///
/// ```
/// use ray::{Es, EsPoint, Refusal, EARTH_KM};
///
/// let points = [
///     EsPoint { fs: [3.1, 5.0, 7.4], hs: 110.0 },
///     EsPoint { fs: [2.2, 3.6, 5.9], hs: 105.0 },
/// ];
/// let km = 1600.0;
/// let path = Es { points: &points, gcd: km / EARTH_KM, gcdkm: km, amind: 3.0, freq: 14.2, fsdead: 1.0 };
/// let modes = path.solve()?;
/// let hop = modes.slot4.unwrap();
/// assert_eq!((hop.hops, hop.height), (1, 105.0));
/// assert_eq!(format!("{:.3} deg, {:.3} ms", hop.angle, hop.delay), "3.809 deg, 5.423 ms");
/// assert_eq!(modes.hops().map(|hop| hop.hops).collect::<Vec<_>>(), [1, 2]);
///
/// // One hop is now too low; it leaves slot 4 empty.
/// let modes = Es { amind: 10.0, ..path }.solve()?;
/// assert_eq!(modes.slot4, None);
/// assert_eq!(modes.slot5.unwrap().hops, 2);
///
/// assert_eq!(Es { points: &[], ..path }.solve(), Err(Refusal::ES));
/// # Ok::<(), Refusal>(())
/// ```
#[derive(Clone, Copy, Debug, PartialEq)]
pub struct Es<'a> {
    /// The points that count, 1 to 5. The first of those whose median is the smallest governs.
    pub points: &'a [EsPoint],
    /// The path as an angle at the earth's centre: 0.001 to 3.2 radians.
    pub gcd: f32,
    /// The path's length: 0 to 20100 km. It is not compared with `gcd`.
    pub gcdkm: f32,
    /// The minimum take-off angle: 0 to 90 degrees.
    pub amind: f32,
    /// The frequency: 2 to 30 MHz.
    pub freq: f32,
    /// The frequency at or below which there is no ray: 0 to 100 MHz.
    pub fsdead: f32,
}

/// A ray by sporadic E.
#[derive(Clone, Copy, Debug, PartialEq)]
#[non_exhaustive]
pub struct EsHop {
    /// The take-off angle in degrees, `b`: at or above the minimum.
    pub angle: f32,
    /// The number of hops, `hn`: 1 or 2.
    pub hops: u32,
    /// The height of the layer in km, `hp`: that of the point that governs.
    pub height: f32,
    /// The delay over the whole path in ms, `timed`.
    pub delay: f32,
}

impl EsHop {
    /// None of an empty slot.
    fn of(slot: call::EsHop) -> Option<EsHop> {
        let call::EsHop { b, hn, hp, timed } = slot;
        (hn > 0.0).then_some(EsHop { angle: b, hops: hn as u32, height: hp, delay: timed })
    }
}

/// The rays of a path, in their slots.
#[derive(Clone, Copy, Debug, PartialEq)]
#[non_exhaustive]
pub struct EsModes {
    /// The least number of hops by which the layer can reach so far, if that is 1 or 2. None where
    /// its angle is below the minimum, or where there is no sporadic E.
    pub slot4: Option<EsHop>,
    /// One hop more, in the same way.
    pub slot5: Option<EsHop>,
}

impl EsModes {
    /// The rays, those of fewer hops first.
    pub fn hops(&self) -> impl Iterator<Item = EsHop> {
        [self.slot4, self.slot5].into_iter().flatten()
    }
}

impl Es<'_> {
    /// The rays, or the first limit broken: [`Refusal::FREQ`], [`Refusal::AMIND`], [`Refusal::ES`].
    pub fn solve(&self) -> Result<EsModes, Refusal> {
        let Es { points, gcd, gcdkm, amind, freq, fsdead } = *self;
        // The library refuses a sixth point by the count.
        let mut first = [EsPoint::default(); POINTS];
        first.iter_mut().zip(points).for_each(|(place, point)| *place = *point);
        let (fs, hs) = (first.map(|point| point.fs), first.map(|point| point.hs));
        let answer = call::ray_esmod(points.len(), &fs, &hs, gcd, gcdkm, amind, freq, fsdead);
        match Refusal::of(answer.refusal) {
            None => {
                let [slot4, slot5] = [answer.slot4, answer.slot5].map(EsHop::of);
                Ok(EsModes { slot4, slot5 })
            }
            Some(refusal) => Err(refusal),
        }
    }
}
