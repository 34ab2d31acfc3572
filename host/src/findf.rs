//! findf by value and by reference: the check of a job, and jobs for it.

mod jobs;
pub use jobs::*;

use crate::ensure::{ensure, unchanged, Checked};
use crate::entries::{self, Figures, FindfJob, InPlace, Outcome, Reflectrix, Tables, Walked};
use crate::floats;
use crate::guarded::Guarded;
use crate::limits;
use crate::prng::Prng;
use crate::record::Record;
use crate::tally::Tally;

#[cfg(oracle)]
use crate::oracle::counts::{self, Counts};
#[cfg(oracle)]
use crate::oracle::{self, counted, counted_as_it_comes, led, AreaTables, IonoState};

/// The library's findf by value.
pub fn ours(rfx: Reflectrix, job: &FindfJob) -> Walked {
    let FindfJob { k, nang, freq, amind, fi, fvert, hprim, htrue, afac, ifob } = job;
    entries::findf(rfx, *k, *nang, *freq, *amind, fi, fvert, hprim, htrue, afac, ifob)
}

/// The library's findf by reference.
pub fn by_reference(rfx: Reflectrix, job: &FindfJob) -> Walked {
    let FindfJob { k, nang, freq, amind, fi, fvert, hprim, htrue, afac, ifob } = job;
    entries::findf_by_reference(rfx, *k, *nang, *freq, *amind, fi, fvert, hprim, htrue, afac, ifob)
}

/// The library's findf into a lent record; the tables are the job's.
pub fn in_place(rfx: &mut Reflectrix, job: &FindfJob, tables: &Tables) -> InPlace {
    let FindfJob { k, nang, freq, amind, fi, .. } = job;
    entries::findf_over(rfx, *k, *nang, *freq, *amind, fi, tables)
}

/// The library's findf into the columns of a record; the figures go in and come back by value.
pub fn into_columns(rfx: &mut Reflectrix, figures: Figures, job: &FindfJob) -> Outcome {
    let FindfJob { k, nang, freq, amind, fi, fvert, hprim, htrue, afac, ifob } = job;
    let Reflectrix { delfx, hpflx, htflx, gdflx, fvflx, afflx, imode, kind, .. } = rfx;
    entries::findf_into(
        delfx, hpflx, htflx, gdflx, fvflx, afflx, imode, kind, figures, *k, *nang, *freq, *amind,
        fi, fvert, hprim, htrue, afac, ifob,
    )
}

/// The same as by value, where the record stands between words that no call may touch.
fn ours_in_place(rfx: Reflectrix, job: &FindfJob) -> Walked {
    let mut lent = Guarded::new(rfx);
    let InPlace { refusal, looks } = in_place(&mut lent.lent, job, &Tables::from(job));
    assert!(lent.is_intact());
    Walked { refusal, looks, rfx: lent.lent }
}

/// The same into the columns of such a record.
fn ours_into_columns(rfx: Reflectrix, job: &FindfJob) -> Walked {
    let mut lent = Guarded::new(rfx);
    let Outcome { refusal, looks, figures } =
        into_columns(&mut lent.lent, Figures::from(&rfx), job);
    assert!(lent.is_intact());
    lent.lent.set_figures(figures);
    Walked { refusal, looks, rfx: lent.lent }
}

#[cfg(oracle)]
pub type RustFindf = fn(&mut oracle::Reflectrix, &IonoState, &AreaTables, usize, f32, f32, usize);

/// One of the oracle's. It has no kinds: they stay as they came.
#[cfg(oracle)]
pub fn rust(findf: RustFindf, rfx: Reflectrix, job: &FindfJob) -> Reflectrix {
    let mut rust = oracle::Reflectrix::from(rfx);
    findf(&mut rust, &job.into(), &job.into(), job.k, job.freq, job.amind, job.nang);
    Reflectrix { kind: rfx.kind, ..rust.into() }
}

/// One that counts looks, and notes the kind of each row that it writes.
#[cfg(oracle)]
pub fn counting(findf: RustFindf, rfx: Reflectrix, job: &FindfJob) -> Walked {
    counts::take();
    let rfx = rust(findf, rfx, job);
    let Counts { looks, kind, .. } = counts::take();
    Walked { refusal: 0, looks, rfx: Reflectrix { kind, ..rfx } }
}

/// The led one, with the looks and the kinds of its counted copy.
#[cfg(oracle)]
pub fn led(rfx: Reflectrix, job: &FindfJob) -> Walked {
    let led = rust(led::findf, rfx, job);
    let counted = counting(counted::findf, rfx, job);
    let rfx = Reflectrix { kind: counted.rfx.kind, ..led };
    assert_eq!(counted.rfx.difference(&rfx, floats::same), None);
    Walked { rfx, ..counted }
}

/// A findf by value.
pub type Walk = fn(Reflectrix, &FindfJob) -> Walked;

/// The library's.
pub const OURS: [Walk; 4] = [ours, ours_in_place, ours_into_columns, by_reference];

/// Checks a job on a used reflectrix, by each of `walks`: the number by the limits, a refusal's
/// reflectrix as it was, kinds too; an accepted one as the led Rust has it, and its kinds as the
/// counted copy noted them.
pub fn check(walks: &[Walk], old: Reflectrix, job: &FindfJob, tally: &mut Tally) -> Checked {
    let refusal = limits::findf(job);
    let FindfJob { k, nang, freq, amind, .. } = *job;
    let at = |what: String| format!("{what}: k {k}, nang {nang}, freq {freq:e}, amind {amind:e}");
    tally.refusals[refusal as usize] += 1;
    #[cfg(oracle)]
    let expected = (refusal == 0).then(|| led(old, job));
    let answers: Vec<Walked> = walks.iter().map(|walk| walk(old, job)).collect();
    for w in &answers {
        ensure(w.refusal == refusal, || at(format!("{}, not {refusal}", w.refusal)))?;
        if refusal > 0 {
            unchanged(w.rfx.difference(&old, floats::identical)).map_err(at)?;
            ensure(w.looks == 0, || at("looks of a refused job".to_string()))?;
        }
        #[cfg(oracle)]
        if let Some(expected) = &expected {
            unchanged(w.rfx.difference(&expected.rfx, floats::same)).map_err(at)?;
            ensure(w.looks == expected.looks, || at("another looks".to_string()))?;
        }
    }
    if refusal == 0 {
        let Walked { looks, rfx, .. } = &answers[0];
        let rows = rfx.rows_this_call;
        tally.add_walk(nang, *looks, &rfx.imode[..rows], &rfx.gdflx[..rows], rfx.delpen[2]);
        tally.add_kinds(&rfx.kind, rows).map_err(at)?;
    }
    #[cfg(oracle)]
    if let Some(expected) = &expected {
        let as_it_comes = counting(counted_as_it_comes::findf, old, job).rfx;
        tally.differences.add(&expected.rfx, &as_it_comes);
    }
    Ok(())
}

/// Checks jobs of one kind, each on a reflectrix of any contents.
pub fn check_jobs(walks: &[Walk], seed: u64, jobs: u64, kind: Kind) -> Checked<Tally> {
    let (mut prng, mut tally) = (Prng::new(seed), Tally::default());
    for _ in 0..jobs {
        let old = Reflectrix::random(&mut prng);
        check(walks, old, &kind(&mut prng), &mut tally)?;
    }
    Ok(tally)
}
