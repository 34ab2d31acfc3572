//! What a job's answer holds.

use crate::layout::{self, answer as place};
use crate::layout::{COLUMN_ROWS, LAYERS, SLOTS};
use std::fmt;

/// A layer by its number.
#[derive(Clone, Copy, PartialEq, Eq, Hash, PartialOrd, Ord)]
pub struct Layer(u32);

impl Layer {
    /// The lowest layer, 1.
    pub const E: Layer = Layer(1);
    /// The middle layer, 2.
    pub const F1: Layer = Layer(2);
    /// The highest layer, 3.
    pub const F2: Layer = Layer(3);
    /// What an empty slot has for a layer, 5.
    const EMPTY: Layer = Layer(5);

    /// The number in the answer.
    pub fn number(self) -> u32 {
        self.0
    }
}

impl fmt::Display for Layer {
    /// `E`, `F1` or `F2`.
    fn fmt(&self, f: &mut fmt::Formatter<'_>) -> fmt::Result {
        match *self {
            Layer::E => f.pad("E"),
            Layer::F1 => f.pad("F1"),
            Layer::F2 => f.pad("F2"),
            Layer(number) => write!(f, "layer {number}"),
        }
    }
}

impl fmt::Debug for Layer {
    fn fmt(&self, f: &mut fmt::Formatter<'_>) -> fmt::Result {
        fmt::Display::fmt(self, f)
    }
}

/// How a row of the reflectrix came about.
///
/// ```
/// use ray::{Job, Kind};
///
/// let answer = Job::from_bytes(include_bytes!("../../../jobs/noon.job"))?.solve()?;
/// let rows: Vec<_> = answer.rows().collect();
/// let cusp = rows.iter().position(|row| row.kind == Kind::Cusp).unwrap();
/// assert_eq!(rows[cusp].angle, answer.penetration_angles()[0]);
/// assert_eq!(rows[cusp + 1].kind, Kind::AfterCusp);
/// assert!(rows[cusp].layer < rows[cusp + 1].layer);
/// # Ok::<(), ray::Refusal>(())
/// ```
#[derive(Clone, Copy, Debug, PartialEq, Eq, Hash)]
pub enum Kind {
    /// Of a row that was not written, 0. No row of [`Answer::rows`] has it.
    Unwritten,
    /// Read off a row of the tables, 1: its entry at that angle is the frequency, or the layer's
    /// lowest entry there is not below it.
    Exact,
    /// Between two rows of the tables, 2.
    Interpolated,
    /// The last row of a layer, at the angle above which the wave pierces the layer, 3.
    Cusp,
    /// The first row of the next layer, 0.001 degrees above the cusp before it, 4.
    AfterCusp,
}

impl Kind {
    fn of(number: u32) -> Kind {
        match number {
            1 => Kind::Exact,
            2 => Kind::Interpolated,
            3 => Kind::Cusp,
            4 => Kind::AfterCusp,
            // The library writes no other than 0.
            _ => Kind::Unwritten,
        }
    }

    /// The number in the answer.
    pub fn number(self) -> u32 {
        self as u32
    }
}

/// A row of the reflectrix: one take-off angle, and where the wave then goes.
#[derive(Clone, Copy, Debug, PartialEq)]
#[non_exhaustive]
pub struct Row {
    /// The take-off angle in degrees, `delfx`.
    pub angle: f32,
    /// The virtual height in km, corrected, `hpflx`.
    pub virtual_height: f32,
    /// The true height in km, `htflx`.
    pub true_height: f32,
    /// The hop length in km, `gdflx`. In odd tables it may be NaN or below 0.
    pub hop_length: f32,
    /// The vertical frequency in MHz, `fvflx`.
    pub frequency: f32,
    /// The absorption factor, `afflx`.
    pub absorption: f32,
    /// The layer, `imode`.
    pub layer: Layer,
    /// How the row came about, `kind`.
    pub kind: Kind,
}

/// What a slot holds: an angle at which the asked hop is made.
#[derive(Clone, Copy, Debug, PartialEq)]
#[non_exhaustive]
pub struct Ray {
    /// The number of the slot, from 1.
    pub slot: usize,
    /// The take-off angle in degrees, `delmod`.
    pub angle: f32,
    /// The virtual height in km, `hpmod`. Of a ray that is too low it is without the minus that
    /// marks it in the answer.
    pub virtual_height: f32,
    /// The true height in km, `htmod`.
    pub true_height: f32,
    /// The vertical frequency in MHz, `fvmod`.
    pub frequency: f32,
    /// The absorption factor, `afmod`.
    pub absorption: f32,
    /// The layer, `itmod`.
    pub layer: Layer,
}

/// One of the six slots.
#[derive(Clone, Copy, Debug, PartialEq)]
pub enum Slot {
    /// Nothing was found for it.
    Empty,
    /// One was found, and its angle is not at or above the minimum.
    TooLow(Ray),
    /// A ray: its angle is at or above the minimum.
    Ray(Ray),
}

/// The nearest ground that the wave reaches, and the row that reaches it.
#[derive(Clone, Copy, Debug, PartialEq)]
#[non_exhaustive]
pub struct Skip {
    /// The skip distance in km, `dskpkm`.
    pub distance: f32,
    /// The take-off angle in degrees, `delskp`.
    pub angle: f32,
    /// The virtual height in km, `hpskp`.
    pub virtual_height: f32,
    /// The true height in km, `htskp`.
    pub true_height: f32,
    /// The vertical frequency in MHz, `fvskp`.
    pub frequency: f32,
    /// The layer that the walk was in, `iskp`: at a row after a cusp it is the lower one.
    pub layer: Layer,
}

/// The answer to an accepted job.
///
/// ```
/// use ray::{Job, Slot};
///
/// let job = Job::from_bytes(include_bytes!("../../../jobs/too-low.job"))?;
/// let answer = job.solve()?;
/// assert_eq!(answer.rays().len(), 0);
/// let Slot::TooLow(found) = answer.slots()[0] else { panic!() };
/// assert!(found.angle < job.amind());
///
/// let last = answer.rows().last().unwrap();
/// assert_eq!(format!("{:.1} km at {:.0} deg", last.hop_length, last.angle), "1930.5 km at 16 deg");
/// assert_eq!(format!("{:.1}", answer.skip().unwrap().distance), "1284.0");
/// assert_eq!(format!("{:.1}", answer.farthest_km().unwrap()), "2438.2");
/// # Ok::<(), ray::Refusal>(())
/// ```
#[derive(Clone, PartialEq)]
pub struct Answer {
    bytes: Box<[u8; Answer::BYTES]>,
    amind: f32,
}

impl Answer {
    /// How many bytes an answer has.
    pub const BYTES: usize = layout::answer::BYTES;

    /// The answer to a job of this minimum angle.
    pub(crate) fn new(bytes: [u8; Answer::BYTES], amind: f32) -> Answer {
        Answer { bytes: Box::new(bytes), amind }
    }

    /// The bytes, as the library wrote them.
    pub fn as_bytes(&self) -> &[u8; Answer::BYTES] {
        &self.bytes
    }

    fn word(&self, place: usize) -> u32 {
        layout::word(self.as_bytes(), place)
    }

    fn float(&self, place: usize) -> f32 {
        layout::float(self.as_bytes(), place)
    }

    /// The reflectrix: the rows that the walk wrote, upward.
    pub fn rows(&self) -> impl ExactSizeIterator<Item = Row> + '_ {
        // The library writes 44 at most.
        let rows = (self.word(place::ROWS) as usize).min(COLUMN_ROWS);
        (0..rows).map(|i| Row {
            angle: self.float(place::DELFX + i),
            virtual_height: self.float(place::HPFLX + i),
            true_height: self.float(place::HTFLX + i),
            hop_length: self.float(place::GDFLX + i),
            frequency: self.float(place::FVFLX + i),
            absorption: self.float(place::AFFLX + i),
            layer: Layer(self.word(place::IMODE + i)),
            kind: Kind::of(self.word(place::KIND + i)),
        })
    }

    /// The six slots, in their order.
    pub fn slots(&self) -> [Slot; SLOTS] {
        std::array::from_fn(|i| self.slot(i))
    }

    fn slot(&self, i: usize) -> Slot {
        let ray = Ray {
            slot: i + 1,
            angle: self.float(place::DELMOD + i),
            virtual_height: self.float(place::HPMOD + i),
            true_height: self.float(place::HTMOD + i),
            frequency: self.float(place::FVMOD + i),
            absorption: self.float(place::AFMOD + i),
            layer: Layer(self.word(place::ITMOD + i)),
        };
        // The layer alone tells an empty slot: its angle, 0, reaches a minimum of 0.
        if ray.layer == Layer::EMPTY {
            Slot::Empty
        } else if ray.angle >= self.amind {
            Slot::Ray(ray)
        } else {
            Slot::TooLow(Ray { virtual_height: ray.virtual_height.abs(), ..ray })
        }
    }

    /// The rays: what the accepted slots hold, in their order.
    pub fn rays(&self) -> impl ExactSizeIterator<Item = Ray> {
        let rays = self.slots().into_iter().filter_map(|slot| match slot {
            Slot::Ray(ray) => Some(ray),
            _ => None,
        });
        rays.collect::<Vec<_>>().into_iter()
    }

    /// How many looks at the oblique table the walk took: at most `nang` + 28.
    pub fn looks(&self) -> u32 {
        self.word(place::LOOKS)
    }

    /// How many pairs of neighbouring rows the search tried: at most 44.
    pub fn pairs(&self) -> u32 {
        self.word(place::PAIRS)
    }

    /// The angles in degrees above which the wave pierces E, F1 and F2, `delpen`: 0 where it always
    /// does, 89.9 where it never does, 90 where it does not come so far. Without F1 its angle is
    /// E's.
    pub fn penetration_angles(&self) -> [f32; LAYERS] {
        layout::floats(self.as_bytes(), place::DELPEN)
    }

    /// The nearest ground reached. None where no row has given it: none is shorter than 10,000 km,
    /// or F2 is always pierced.
    pub fn skip(&self) -> Option<Skip> {
        let layer = self.word(place::ISKP);
        (layer != 0).then(|| Skip {
            distance: self.float(place::DSKPKM),
            angle: self.float(place::DELSKP),
            virtual_height: self.float(place::HPSKP),
            true_height: self.float(place::HTSKP),
            frequency: self.float(place::FVSKP),
            layer: Layer(layer),
        })
    }

    /// The farthest hop in km at or above the minimum angle, `dmaxkm`; none where that is not above
    /// 0.
    pub fn farthest_km(&self) -> Option<f32> {
        Some(self.float(place::DMAXKM)).filter(|km| *km > 0.0)
    }
}

impl fmt::Debug for Answer {
    fn fmt(&self, f: &mut fmt::Formatter<'_>) -> fmt::Result {
        f.debug_struct("Answer")
            .field("rows", &self.rows().collect::<Vec<_>>())
            .field("slots", &self.slots())
            .field("looks", &self.looks())
            .field("pairs", &self.pairs())
            .field("penetration_angles", &self.penetration_angles())
            .field("skip", &self.skip())
            .field("farthest_km", &self.farthest_km())
            .finish()
    }
}
