//! A job made number by number, each held to its range.

use crate::layout::{self, job as place};
use crate::layout::{ANGLES, POINTS, POINT_NUMBERS, TABLE_ROWS};
use crate::{Job, Oblique, Refusal, Table, EARTH_KM};
use std::error::Error;
use std::fmt;

/// What a job has limits for.
#[derive(Clone, Copy, Debug, PartialEq, Eq, Hash)]
#[non_exhaustive]
pub enum Field {
    /// The point, `k`.
    K,
    /// The number of table angles, `nang`.
    Nang,
    /// The frequency, `freq`.
    Freq,
    /// The minimum angle, `amind`.
    Amind,
    /// The asked hop, `ghop`.
    Ghop,
    /// The critical frequency of F1 at the point: the second of `fi`.
    FiF1,
    /// The critical frequency of F2 at the point: the third of `fi`.
    FiF2,
    /// A vertical frequency, `fvert`.
    Fvert,
    /// A virtual height, `hprim`.
    Hprim,
    /// A true height, `htrue`.
    Htrue,
    /// An absorption factor, `afac`.
    Afac,
    /// An entry of the oblique table, `ifob`.
    Ifob,
}

/// The numbers that a field may have, ends included, in its unit. NaN is within no range.
#[derive(Clone, Copy, Debug, PartialEq)]
pub struct Range {
    /// The least.
    pub low: f32,
    /// The greatest.
    pub high: f32,
    /// The unit; empty where there is none.
    pub unit: &'static str,
}

impl Range {
    const fn new(low: f32, high: f32, unit: &'static str) -> Range {
        Range { low, high, unit }
    }

    /// Whether a number is within the range.
    pub fn contains(&self, x: f32) -> bool {
        (self.low..=self.high).contains(&x)
    }
}

impl fmt::Display for Range {
    fn fmt(&self, f: &mut fmt::Formatter<'_>) -> fmt::Result {
        write!(f, "{} to {}", self.low, self.high)?;
        if self.unit.is_empty() {
            Ok(())
        } else {
            write!(f, " {}", self.unit)
        }
    }
}

impl Field {
    /// All of them, in the order in which their limits are checked.
    pub const ALL: &[Field] = &[
        Field::K,
        Field::Nang,
        Field::Freq,
        Field::Amind,
        Field::Ghop,
        Field::FiF1,
        Field::FiF2,
        Field::Fvert,
        Field::Hprim,
        Field::Htrue,
        Field::Afac,
        Field::Ifob,
    ];

    /// The name of the job's word.
    pub fn name(self) -> &'static str {
        match self {
            Field::K => "k",
            Field::Nang => "nang",
            Field::Freq => "freq",
            Field::Amind => "amind",
            Field::Ghop => "ghop",
            Field::FiF1 | Field::FiF2 => "fi",
            Field::Fvert => "fvert",
            Field::Hprim => "hprim",
            Field::Htrue => "htrue",
            Field::Afac => "afac",
            Field::Ifob => "ifob",
        }
    }

    /// The numbers that it may have.
    pub fn range(self) -> Range {
        match self {
            Field::K => Range::new(0.0, 4.0, ""),
            Field::Nang => Range::new(0.0, 40.0, ""),
            Field::Freq => Range::new(2.0, 30.0, "MHz"),
            Field::Amind => Range::new(0.0, 90.0, "deg"),
            Field::Ghop => Range::new(0.0, 4.0, "radians"),
            Field::FiF1 => Range::new(0.0, 100.0, "MHz"),
            Field::FiF2 => Range::new(0.1, 100.0, "MHz"),
            Field::Fvert => Range::new(0.0, 100.0, "MHz"),
            Field::Hprim => Range::new(0.0, 10000.0, "km"),
            Field::Htrue => Range::new(0.0, 2000.0, "km"),
            Field::Afac => Range::new(-1000000.0, 1000000.0, ""),
            Field::Ifob => Range::new(0.0, 99999.0, "kHz"),
        }
    }

    /// How the library refuses a job that has another number there.
    pub fn refusal(self) -> Refusal {
        match self {
            Field::K => Refusal::K,
            Field::Nang => Refusal::NANG,
            Field::Freq => Refusal::FREQ,
            Field::Amind => Refusal::AMIND,
            Field::Ghop => Refusal::GHOP,
            Field::FiF1 | Field::FiF2 => Refusal::FI,
            Field::Fvert | Field::Hprim | Field::Htrue | Field::Afac => Refusal::TABLE,
            Field::Ifob => Refusal::IFOB,
        }
    }

    /// The place of its first word, and how many words it has, in a job of point k.
    fn words(self, k: usize) -> (usize, usize) {
        match self {
            Field::K => (place::K, 1),
            Field::Nang => (place::NANG, 1),
            Field::Freq => (place::FREQ, 1),
            Field::Amind => (place::AMIND, 1),
            Field::Ghop => (place::GHOP, 1),
            Field::FiF1 => (place::FI + POINT_NUMBERS * k + 1, 1),
            Field::FiF2 => (place::FI + POINT_NUMBERS * k + 2, 1),
            Field::Fvert => (place::FVERT, TABLE_ROWS),
            Field::Hprim => (place::HPRIM, TABLE_ROWS),
            Field::Htrue => (place::HTRUE, TABLE_ROWS),
            Field::Afac => (place::AFAC, TABLE_ROWS),
            Field::Ifob => (place::IFOB, ANGLES * TABLE_ROWS),
        }
    }

    /// The number that a word stands for. That of a count or an entry is exact wherever it is near
    /// the range: f32 has each whole number up to 2^24.
    fn number(self, word: u32) -> f32 {
        match self {
            Field::K | Field::Nang => word as f32,
            Field::Ifob => word as i32 as f32,
            _ => f32::from_bits(word),
        }
    }

    /// The first number that is not within the range.
    fn first_outside(self, job: &Job) -> Option<OutOfRange> {
        let (first, words) = self.words(job.k() as usize);
        let number = |index| self.number(layout::word(job.as_bytes(), first + index));
        let index = (0..words).find(|index| !self.range().contains(number(*index)))?;
        Some(OutOfRange { field: self, index, point: job.k(), value: number(index) })
    }
}

/// A number that is not within its range.
///
/// ```
/// use ray::{Field, Job, Refusal};
///
/// let noon = Job::from_bytes(include_bytes!("../../../jobs/noon.job"))?;
/// let mut hprim = noon.hprim();
/// hprim[16] = f32::NAN;
/// let wrong = noon.to_builder().hprim(&hprim).build().unwrap_err();
/// assert_eq!((wrong.field(), wrong.index()), (Field::Hprim, 16));
/// assert_eq!(wrong.range().high, 10000.0);
/// assert_eq!(wrong.refusal(), Refusal::TABLE);
/// assert_eq!(wrong.to_string(), "hprim, row 17, is NaN, not within 0 to 10000 km");
/// # Ok::<(), Refusal>(())
/// ```
#[derive(Clone, Copy, Debug)]
pub struct OutOfRange {
    field: Field,
    index: usize,
    point: u32,
    value: f32,
}

impl OutOfRange {
    /// Which number it is.
    pub fn field(&self) -> Field {
        self.field
    }

    /// Where in a table it stands, from 0; of `ifob`, 30 times the angle's place and the row's. 0
    /// for a number that stands alone.
    pub fn index(&self) -> usize {
        self.index
    }

    /// The number; a count or an entry beyond 2^24 is rounded.
    pub fn value(&self) -> f32 {
        self.value
    }

    /// What it may be.
    pub fn range(&self) -> Range {
        self.field.range()
    }

    /// How the library would refuse the job.
    pub fn refusal(&self) -> Refusal {
        self.field.refusal()
    }
}

impl fmt::Display for OutOfRange {
    fn fmt(&self, f: &mut fmt::Formatter<'_>) -> fmt::Result {
        let row = self.index % TABLE_ROWS + 1;
        write!(f, "{}", self.field.name())?;
        match self.field {
            Field::FiF1 => write!(f, ", F1 at point {},", self.point)?,
            Field::FiF2 => write!(f, ", F2 at point {},", self.point)?,
            Field::Fvert | Field::Hprim | Field::Htrue | Field::Afac => write!(f, ", row {row},")?,
            Field::Ifob => write!(f, ", angle {}, row {row},", self.index / TABLE_ROWS + 1)?,
            _ => {}
        }
        write!(f, " is {}, not within {}", self.value, self.range())
    }
}

impl Error for OutOfRange {}

/// Makes a [`Job`] number by number. [`JobBuilder::build`] holds each to its range.
///
/// ```
/// use ray::Job;
///
/// // Document 01's tables of zeros: no layer sends 2 MHz back.
/// let job = Job::builder().freq(2.0).point(0, [0.0, 0.0, 1.0]).ghop(0.5).build()?;
/// assert_eq!(job.hop_km(), 3185.0);
/// assert_eq!(job.solve()?.rows().len(), 0);
///
/// let unset = Job::builder().freq(2.0).build().unwrap_err();
/// assert_eq!(unset.to_string(), "fi, F2 at point 0, is 0, not within 0.1 to 100 MHz");
/// # Ok::<(), Box<dyn std::error::Error>>(())
/// ```
#[derive(Clone, Debug)]
#[must_use]
pub struct JobBuilder {
    bytes: Box<[u8; Job::BYTES]>,
}

impl Default for JobBuilder {
    fn default() -> Self {
        JobBuilder { bytes: Box::new([0; Job::BYTES]) }.nang(ANGLES as u32)
    }
}

impl From<&Job> for JobBuilder {
    fn from(job: &Job) -> Self {
        JobBuilder { bytes: Box::new(job.to_bytes()) }
    }
}

impl JobBuilder {
    fn word(mut self, place: usize, word: u32) -> Self {
        layout::put(&mut *self.bytes, place, word);
        self
    }

    fn floats(mut self, place: usize, floats: &[f32]) -> Self {
        layout::put_floats(&mut *self.bytes, place, floats);
        self
    }

    /// The point whose critical frequencies count, from 0: 0 to 4.
    pub fn k(self, k: u32) -> Self {
        self.word(place::K, k)
    }

    /// How many of the 40 table angles are used: 0 to 40.
    pub fn nang(self, nang: u32) -> Self {
        self.word(place::NANG, nang)
    }

    /// The frequency: 2 to 30 MHz.
    pub fn freq(self, mhz: f32) -> Self {
        self.floats(place::FREQ, &[mhz])
    }

    /// The minimum take-off angle: 0 to 90 degrees.
    pub fn amind(self, degrees: f32) -> Self {
        self.floats(place::AMIND, &[degrees])
    }

    /// The asked hop: 0 to 4 radians.
    pub fn ghop(self, radians: f32) -> Self {
        self.floats(place::GHOP, &[radians])
    }

    /// The asked hop in km: 0 to 25,480. The search multiplies the nearest radians by
    /// [`EARTH_KM`] again, so its length may be one last bit off: [`Job::hop_km`] tells.
    pub fn hop_km(self, km: f32) -> Self {
        self.ghop((f64::from(km) / f64::from(EARTH_KM)) as f32)
    }

    /// The point that counts, and its critical frequencies in MHz: E (any number), F1 (0 to 100,
    /// where 0 says that there is no F1), F2 (0.1 to 100). Where k is above 4 they have no place,
    /// and [`JobBuilder::build`] names k.
    pub fn point(self, k: u32, critical: [f32; POINT_NUMBERS]) -> Self {
        let point = k as usize;
        let this = self.k(k);
        if point < POINTS {
            this.floats(place::FI + POINT_NUMBERS * point, &critical)
        } else {
            this
        }
    }

    /// The critical frequencies of all points in MHz: E, F1, F2 of each.
    pub fn fi(self, points: &[[f32; POINT_NUMBERS]; POINTS]) -> Self {
        self.floats(place::FI, points.as_flattened())
    }

    /// The vertical frequencies: 0 to 100 MHz.
    pub fn fvert(self, mhz: &Table) -> Self {
        self.floats(place::FVERT, mhz)
    }

    /// The virtual heights: 0 to 10000 km.
    pub fn hprim(self, km: &Table) -> Self {
        self.floats(place::HPRIM, km)
    }

    /// The true heights: 0 to 2000 km.
    pub fn htrue(self, km: &Table) -> Self {
        self.floats(place::HTRUE, km)
    }

    /// The absorption factors: -1000000 to 1000000.
    pub fn afac(self, factors: &Table) -> Self {
        self.floats(place::AFAC, factors)
    }

    /// The oblique table: 0 to 99999 kHz.
    pub fn ifob(mut self, khz: &Oblique) -> Self {
        for (i, entry) in khz.as_flattened().iter().enumerate() {
            layout::put(&mut *self.bytes, place::IFOB + i, *entry as u32);
        }
        self
    }

    /// The job, which then breaks no limit; or the first number that is not within its range, in
    /// the order of the limits and of the words.
    pub fn build(self) -> Result<Job, OutOfRange> {
        let job = Job::from_words(self.bytes);
        match Field::ALL.iter().find_map(|field| field.first_outside(&job)) {
            None => Ok(job),
            Some(outside) => Err(outside),
        }
    }
}
