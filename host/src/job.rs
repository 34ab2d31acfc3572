//! The job call: the bytes of a job and of its answer, by a reader and a writer of the host's own
//! (document 01, "The bytes of a job"), what the oracle answers, and jobs.

mod jobs;
pub use jobs::*;

use crate::demand;
#[cfg(oracle)]
use crate::ensure::unchanged;
use crate::ensure::{ensure, Checked};
use crate::entries::{FindfJob, HopModes, Reflectrix};
use crate::guarded::GuardedBytes;
use crate::limits;
use crate::prng::Prng;
use crate::record::{fields, Field, Record};
use crate::tally::Tally;

#[cfg(oracle)]
use crate::entries::{FdistJob, Searched, Walked};
#[cfg(oracle)]
use crate::oracle::{counted_as_it_comes, Variant};
#[cfg(oracle)]
use crate::{fdist, findf, floats};

/// The numbers of a job: a walk's, and the hop length of the search on what the walk left.
#[derive(Clone, Copy)]
pub struct Job {
    pub walk: FindfJob,
    pub ghop: f32,
}

/// "Words of 4 bytes, least byte first"
fn bytes_of(words: &[u32]) -> Vec<u8> {
    words.iter().flat_map(|word| word.to_le_bytes()).collect()
}

fn words_of(bytes: &[u8]) -> impl Iterator<Item = u32> + '_ {
    bytes.chunks_exact(4).map(|word| u32::from_le_bytes(word.try_into().unwrap()))
}

impl Job {
    pub const BYTES: usize = 5360;

    /// Document 01's sheet: "All-zero tables otherwise; freq 2, fi third 1, ghop 0.5", nang 40.
    pub fn zeros() -> Self {
        let zeros = [0.0; 30];
        let walk = FindfJob {
            k: 0,
            nang: 40,
            freq: 2.0,
            amind: 0.0,
            fi: [[0.0, 0.0, 1.0]; 5],
            fvert: zeros,
            hprim: zeros,
            htrue: zeros,
            afac: zeros,
            ifob: [0; 1200],
        };
        Job { walk, ghop: 0.5 }
    }

    /// "k and nang (unsigned), freq, amind, ghop, fi (5 × 3), fvert, hprim, htrue, afac (30 each),
    /// ifob (40 × 30, signed)", f32 by its bits, NaNs too.
    pub fn bytes(&self) -> Vec<u8> {
        let FindfJob { k, nang, freq, amind, fi, fvert, hprim, htrue, afac, ifob } = &self.walk;
        let mut words = [k, nang].map(|n| u32::try_from(*n).expect("a word")).to_vec();
        let mut floats = vec![*freq, *amind, self.ghop];
        floats.extend(fi.as_flattened());
        floats.extend([fvert, hprim, htrue, afac].into_iter().flatten());
        words.extend(floats.into_iter().map(f32::to_bits));
        words.extend(ifob.iter().map(|entry| *entry as u32));
        bytes_of(&words)
    }

    /// The numbers of a job of the right length.
    pub fn read(bytes: &[u8]) -> Self {
        assert_eq!(bytes.len(), Self::BYTES);
        let mut words = words_of(bytes);
        let [k, nang] = std::array::from_fn(|_| Field::read(&mut words));
        let [freq, amind, ghop] = Field::read(&mut words);
        let fi = std::array::from_fn(|_| Field::read(&mut words));
        let [fvert, hprim, htrue, afac] = std::array::from_fn(|_| Field::read(&mut words));
        let ifob = <[u32; 1200]>::read(&mut words).map(|entry| entry as i32);
        Job { walk: FindfJob { k, nang, freq, amind, fi, fvert, hprim, htrue, afac, ifob }, ghop }
    }
}

fields! {
    /// The words of an answer, in their order.
    Answer {
        rows looks pairs: u32,
        delpen: [f32; 3],
        dskpkm delskp hpskp htskp dmaxkm fvskp: f32,
        iskp iaftxr: u32,
        delfx hpflx htflx gdflx fvflx afflx: [f32; 45],
        imode kind: [u32; 45],
        delmod hpmod htmod fvmod: [f32; 6],
        itmod: [u32; 6],
        afmod: [f32; 6],
    }
}

impl Answer {
    pub const BYTES: usize = 1640;
    /// How many of its words are kinds. The others are what the Rust has.
    pub const KINDS: usize = 45;
    const OTHERS: usize = Self::BYTES / 4 - Self::KINDS;

    /// The answer of a walk that left `rfx`, and of the search on it.
    #[rustfmt::skip]
    pub fn new(looks: u32, pairs: u32, rfx: Reflectrix, m: HopModes) -> Self {
        let Reflectrix {
            delfx, hpflx, htflx, gdflx, fvflx, afflx, imode, kind, dskpkm, delskp, hpskp, htskp,
            dmaxkm, fvskp, iskp, delpen, iaftxr, rows_this_call,
        } = rfx;
        let HopModes { delmod, hpmod, htmod, fvmod, itmod, afmod } = m;
        Answer {
            rows: rows_this_call as u32, looks, pairs, delpen, dskpkm, delskp, hpskp, htskp, dmaxkm,
            fvskp, iskp, iaftxr: iaftxr as u32, delfx, hpflx, htflx, gdflx, fvflx, afflx, imode,
            kind, delmod, hpmod, htmod, fvmod, itmod, afmod,
        }
    }

    pub fn bytes(&self) -> [u8; Self::BYTES] {
        bytes_of(&self.words()).try_into().expect("410 words")
    }

    pub fn from_bytes(bytes: &[u8]) -> Self {
        assert_eq!(bytes.len(), Self::BYTES);
        Self::read(&mut words_of(bytes))
    }
}

/// The answer to a job, and its rays: "the walk from the all-zero reflectrix, then the search on
/// what it left".
#[cfg(oracle)]
pub fn solved(
    job: &Job,
    walk: impl Fn(Reflectrix, &FindfJob) -> Walked,
    search: impl Fn(HopModes, &FdistJob) -> Searched,
) -> (Answer, u32) {
    let Job { walk: FindfJob { amind, freq, .. }, ghop } = *job;
    let Walked { looks, rfx, .. } = walk(Reflectrix::zeros(), &job.walk);
    let search = search(HopModes::zeros(), &FdistJob { rfx, ghop, amind, freq });
    (Answer::new(looks, search.pairs, rfx, search.m), search.rays)
}

/// What the job call must leave in the answer of a job within the limits.
#[cfg(oracle)]
pub fn oracle_answer(job: &[u8]) -> [u8; Answer::BYTES] {
    solved(&Job::read(job), findf::led, fdist::led).0.bytes()
}

/// The answer of a variant that counts.
#[cfg(oracle)]
pub fn solved_by(variant: &Variant, job: &Job) -> Answer {
    let walk = |old, walk: &_| findf::counting(variant.findf, old, walk);
    let search = |old, search: &_| fdist::counting(variant.fdist, old, search);
    solved(job, walk, search).0
}

/// The job call that a variant makes.
#[cfg(oracle)]
pub fn call_of(variant: &Variant, job: &[u8], answer: &mut [u8]) -> u32 {
    let refusal = limits::job(job, answer.len());
    if refusal == 0 {
        answer.copy_from_slice(&solved_by(variant, &Job::read(job)).bytes());
    }
    refusal
}

/// A job call.
pub type Call = dyn Fn(&[u8], &mut [u8]) -> u32;

/// Holds a call on a job, and on an answer of any old contents, against the limits, the oracle and
/// demand 3, and tells its number. Both are lent at a place of every 16 bytes between bytes that no
/// call may touch.
pub fn check(
    call: &Call,
    job: &[u8],
    old: &[u8],
    places: [usize; 2],
    tally: &mut Tally,
) -> Checked<u32> {
    let lent_job = GuardedBytes::new(job, places[0]);
    let mut lent_answer = GuardedBytes::new(old, places[1]);
    let number = call(lent_job.lent(), lent_answer.lent_mut());
    ensure(lent_job.is_intact() && lent_answer.is_intact(), || "wrote elsewhere".to_string())?;
    ensure(lent_job.lent() == job, || "wrote into the job".to_string())?;
    let refusal = limits::job(job, old.len());
    ensure(number == refusal, || format!("{number}, not {refusal}"))?;
    tally.refusals[refusal as usize] += 1;
    if refusal > 0 {
        ensure(lent_answer.lent() == old, || format!("{refusal}, but wrote the answer"))?;
        return Ok(refusal);
    }
    let job = Job::read(job);
    let Job { walk: FindfJob { k, nang, freq, amind, .. }, ghop } = job;
    check_answer(&job, lent_answer.lent(), tally).map_err(|wrong| {
        format!("{wrong}: k {k}, nang {nang}, freq {freq:e}, amind {amind:e}, ghop {ghop:e}")
    })?;
    Ok(0)
}

/// An accepted job's answer: all words as the oracle has them, the kinds as its counted copy noted
/// them, NaN only as 7FC00000, and demand 3.
fn check_answer(job: &Job, bytes: &[u8], tally: &mut Tally) -> Checked {
    let answer = Answer::from_bytes(bytes);
    #[cfg(oracle)]
    let (expected, expected_rays) = solved(job, findf::led, fdist::led);
    #[cfg(oracle)]
    {
        unchanged(answer.difference(&expected, floats::same))?;
        ensure(bytes == expected.bytes(), || "a NaN of other bits".to_string())?;
    }
    let rays = demand::check(job, &answer, tally)?;
    #[cfg(oracle)]
    {
        ensure(rays == expected_rays, || format!("{rays} rays, not {expected_rays}"))?;
        tally.differences.add(&expected, &solved_by(&counted_as_it_comes::VARIANT, job));
    }
    let rows = answer.rows as usize;
    let (layers, lengths) = (&answer.imode[..rows], &answer.gdflx[..rows]);
    tally.add_walk(job.walk.nang, answer.looks, layers, lengths, answer.delpen[2]);
    tally.add_kinds(&answer.kind, rows)?;
    tally.add_search(answer.pairs, rays);
    Ok(())
}

/// Any bits for an answer. Those of the last words are drawn apart, so that the jobs are those that
/// were drawn before an answer had kinds.
fn any_contents(prng: &mut Prng) -> Vec<u8> {
    let last = prng.apart().words::<{ Answer::KINDS }>();
    let words = prng.words::<{ Answer::OTHERS }>();
    bytes_of(&[&words[..], &last].concat())
}

/// Checks jobs of one kind, each on an answer of any contents, at all places in turn.
pub fn check_jobs(call: &Call, seed: u64, jobs: u64, kind: Kind) -> Checked<Tally> {
    let (mut prng, mut tally) = (Prng::new(seed), Tally::default());
    for i in 0..jobs as usize {
        let old = any_contents(&mut prng);
        let job = kind(&mut prng).bytes();
        check(call, &job, &old, [i % 16, i / 16 % 16], &mut tally)?;
    }
    Ok(tally)
}
