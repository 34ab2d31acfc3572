//! A job: its bytes, and what is asked.

use crate::layout::{self, job as place};
use crate::layout::{ANGLES, POINTS, POINT_NUMBERS, TABLE_ROWS};
use crate::{call, Answer, JobBuilder, Refusal, EARTH_KM};
use std::fmt;

/// A column of the ionogram tables: rows 1 to 10 are layer E, 11 to 20 F1, 21 to 30 F2; without F1,
/// 11 to 30 are F2.
pub type Table = [f32; TABLE_ROWS];

/// The oblique table: for each of the 40 take-off angles the frequencies of the 30 rows, in kHz.
pub type Oblique = [[i32; TABLE_ROWS]; ANGLES];

/// A job of [`Job::BYTES`] bytes. Made by a builder it breaks no limit; made from bytes it may, and
/// [`Job::solve`] says so.
#[derive(Clone, PartialEq, Eq)]
pub struct Job {
    bytes: Box<[u8; Job::BYTES]>,
}

impl Job {
    /// How many bytes a job has.
    pub const BYTES: usize = layout::job::BYTES;

    /// A builder whose numbers are all 0, but for `nang`, which is 40: `freq` and the point's
    /// critical frequency of F2 have to be set, since they may not be 0.
    pub fn builder() -> JobBuilder {
        JobBuilder::default()
    }

    /// A job of any words. Only the length is checked here, as limit 1.
    pub fn from_bytes(bytes: &[u8]) -> Result<Job, Refusal> {
        let bytes: Box<[u8]> = bytes.into();
        Ok(Job { bytes: bytes.try_into().map_err(|_| Refusal::JOB)? })
    }

    /// The job's bytes.
    pub fn to_bytes(&self) -> [u8; Job::BYTES] {
        *self.bytes
    }

    /// The job's bytes, lent.
    pub fn as_bytes(&self) -> &[u8; Job::BYTES] {
        &self.bytes
    }

    /// Works the job out.
    ///
    /// ```
    /// use ray::{Job, Refusal};
    ///
    /// let bad = Job::from_bytes(include_bytes!("../../../jobs/bad-table.job"))?;
    /// assert_eq!(bad.solve().unwrap_err(), Refusal::TABLE);
    /// # Ok::<(), Refusal>(())
    /// ```
    pub fn solve(&self) -> Result<Answer, Refusal> {
        let mut answer = [0; Answer::BYTES];
        match Refusal::of(call::job(self.as_bytes(), &mut answer)) {
            None => Ok(Answer::new(answer, self.amind())),
            Some(refusal) => Err(refusal),
        }
    }

    /// A builder that starts from this job's numbers.
    pub fn to_builder(&self) -> JobBuilder {
        JobBuilder::from(self)
    }

    pub(crate) fn from_words(bytes: Box<[u8; Job::BYTES]>) -> Job {
        Job { bytes }
    }

    /// The point whose critical frequencies count, from 0.
    pub fn k(&self) -> u32 {
        layout::word(self.as_bytes(), place::K)
    }

    /// How many of the 40 table angles are used.
    pub fn nang(&self) -> u32 {
        layout::word(self.as_bytes(), place::NANG)
    }

    /// The frequency in MHz.
    pub fn freq(&self) -> f32 {
        layout::float(self.as_bytes(), place::FREQ)
    }

    /// The minimum take-off angle in degrees.
    pub fn amind(&self) -> f32 {
        layout::float(self.as_bytes(), place::AMIND)
    }

    /// The asked hop in radians.
    pub fn ghop(&self) -> f32 {
        layout::float(self.as_bytes(), place::GHOP)
    }

    /// The asked hop in km, as the search takes it: [`Job::ghop`] times [`EARTH_KM`], rounded once.
    pub fn hop_km(&self) -> f32 {
        self.ghop() * EARTH_KM
    }

    /// The critical frequencies of the points in MHz: E, F1 (0: no F1), F2.
    pub fn fi(&self) -> [[f32; POINT_NUMBERS]; POINTS] {
        let point = |i| place::FI + POINT_NUMBERS * i;
        std::array::from_fn(|i| layout::floats(self.as_bytes(), point(i)))
    }

    /// The vertical frequencies in MHz.
    pub fn fvert(&self) -> Table {
        layout::floats(self.as_bytes(), place::FVERT)
    }

    /// The virtual heights in km.
    pub fn hprim(&self) -> Table {
        layout::floats(self.as_bytes(), place::HPRIM)
    }

    /// The true heights in km.
    pub fn htrue(&self) -> Table {
        layout::floats(self.as_bytes(), place::HTRUE)
    }

    /// The absorption factors.
    pub fn afac(&self) -> Table {
        layout::floats(self.as_bytes(), place::AFAC)
    }

    /// The oblique table in kHz.
    pub fn ifob(&self) -> Oblique {
        let entry = |angle, row| place::IFOB + TABLE_ROWS * angle + row;
        std::array::from_fn(|angle| {
            std::array::from_fn(|row| layout::word(self.as_bytes(), entry(angle, row)) as i32)
        })
    }
}

impl fmt::Debug for Job {
    /// What is asked; the tables are left out.
    fn fmt(&self, f: &mut fmt::Formatter<'_>) -> fmt::Result {
        f.debug_struct("Job")
            .field("k", &self.k())
            .field("nang", &self.nang())
            .field("freq", &self.freq())
            .field("amind", &self.amind())
            .field("ghop", &self.ghop())
            .finish_non_exhaustive()
    }
}
