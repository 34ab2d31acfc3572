//! esmod, the rays by sporadic E: the check of a job, and jobs for it.

mod jobs;
pub use jobs::*;

use crate::ensure::{ensure, unchanged, Checked};
use crate::entries::{self, EsHop, EsJob, EsModes};
use crate::floats;
use crate::guarded::Guarded;
use crate::limits;
use crate::prng::Prng;
use crate::record::{fields, Record};
use crate::tally::Tally;

#[cfg(oracle)]
use crate::entries::Zon;
#[cfg(oracle)]
use crate::oracle::{as_it_comes, led, Losses, PassCtx, Variant};

fn bits((fs, hs): ([[f32; 3]; 5], [f32; 5])) -> ([[u32; 3]; 5], [u32; 5]) {
    (fs.map(|three| three.map(f32::to_bits)), hs.map(f32::to_bits))
}

/// The library's esmod, whose points are lent between words that no call may touch.
pub fn ours(job: &EsJob) -> EsModes {
    let EsJob { km, fs, hs, gcd, gcdkm, amind, freq, fsdead } = *job;
    let points = Guarded::new((fs, hs));
    let (lent_fs, lent_hs) = &points.lent;
    let answer = entries::esmod(km, lent_fs, lent_hs, gcd, gcdkm, amind, freq, fsdead);
    assert!(points.is_intact() && bits(points.lent) == bits((fs, hs)), "wrote into the points");
    answer
}

fields! {
    /// Slots 4 and 5: how many hops each has, 0 where it is empty, and its four numbers.
    Slots {
        hops: [u32; 2],
        b hn hp timed: [f32; 2],
    }
}

impl Slots {
    fn new(b: [f32; 2], hn: [f32; 2], hp: [f32; 2], timed: [f32; 2]) -> Self {
        Slots { hops: hn.map(|hn| hn as u32), b, hn, hp, timed }
    }

    /// "the empty values there, −1 in all four fields"
    pub fn empty() -> Self {
        let empty = [-1.0; 2];
        Slots::new(empty, empty, empty, empty)
    }

    /// An answer with these slots.
    pub fn answer(&self, refusal: u32) -> EsModes {
        let Slots { b, hn, hp, timed, .. } = self;
        let [slot4, slot5] =
            [0, 1].map(|i| EsHop { b: b[i], hn: hn[i], hp: hp[i], timed: timed[i] });
        EsModes { refusal, slot4, slot5 }
    }
}

impl From<EsModes> for Slots {
    fn from(EsModes { slot4, slot5, .. }: EsModes) -> Self {
        let both = |field: fn(EsHop) -> f32| [field(slot4), field(slot5)];
        Slots::new(both(|s| s.b), both(|s| s.hn), both(|s| s.hp), both(|s| s.timed))
    }
}

/// What a variant leaves in slots 4 and 5, where its losses come of these numbers.
#[cfg(oracle)]
pub fn rust(variant: &Variant, old: Zon, job: &EsJob, losses: &Losses) -> Slots {
    let (ctx, mut zon) = (PassCtx::new(job, losses), old.into());
    (variant.esmod)(&mut zon, &ctx, &losses.into(), &losses.into(), job.freq, job.fsdead);
    let both = |column: [f32; 7]| [column[3], column[4]];
    Slots::new(both(zon.b), both(zon.hn), both(zon.hp), both(zon.timed))
}

/// Numbers for the losses: any bits, or everywhere 0, 1, the least or the largest number, infinity
/// or NaN, of both signs.
#[cfg(oracle)]
pub fn any_losses(prng: &mut Prng) -> Losses {
    let words = [0, 1, 0x3f80_0000, 0x7f7f_ffff, 0x7f80_0000, 0x7fc0_0000];
    let word = prng.among(&words) | prng.among(&[0, 0x8000_0000]);
    if prng.below(2) == 0 {
        Losses::random(prng)
    } else {
        Losses::read(&mut std::iter::repeat(word))
    }
}

/// What a variant leaves, which must be the same `times` times, each with other old slots and other
/// numbers for the losses.
#[cfg(oracle)]
pub fn of_variant(variant: &Variant, times: usize, job: &EsJob, prng: &mut Prng) -> Checked<Slots> {
    let mut run = || rust(variant, Zon::from_words(prng.words()), job, &any_losses(prng));
    let first = run();
    for _ in 1..times {
        unchanged(first.difference(&run(), floats::identical))
            .map_err(|wrong| format!("{}, with other losses {wrong}", variant.name))?;
    }
    Ok(first)
}

/// The call that a variant makes.
#[cfg(oracle)]
pub fn call_of(variant: &Variant, job: &EsJob) -> EsModes {
    match limits::esmod(job) {
        0 => {
            let zeros = &mut std::iter::repeat(0);
            rust(variant, Zon::from_words([0; Zon::WORDS]), job, &Losses::read(zeros)).answer(0)
        }
        refusal => Slots::empty().answer(refusal),
    }
}

/// Such a call.
pub type Call = dyn Fn(&EsJob) -> EsModes;

/// Holds a call on a job against the limits, the led Rust and what order 1 says of the slots.
pub fn check(call: &Call, job: &EsJob, prng: &mut Prng, tally: &mut Tally) -> Checked {
    let answer = call(job);
    check_answer(answer, job, prng, tally).map_err(|wrong| format!("{wrong}: {job:?}"))
}

fn check_answer(answer: EsModes, job: &EsJob, prng: &mut Prng, tally: &mut Tally) -> Checked {
    let refusal = limits::esmod(job);
    ensure(answer.refusal == refusal, || format!("{}, not {refusal}", answer.refusal))?;
    tally.refusals[refusal as usize] += 1;
    let slots = Slots::from(answer);
    if refusal > 0 {
        return unchanged(slots.difference(&Slots::empty(), floats::identical));
    }
    check_by_the_rust(&slots, job, prng, tally)?;
    check_slots(&slots, job)?;
    tally.add_hops(slots.hops, governing(job));
    Ok(())
}

/// An accepted job's slots are the led Rust's.
#[cfg(oracle)]
fn check_by_the_rust(slots: &Slots, job: &EsJob, prng: &mut Prng, tally: &mut Tally) -> Checked {
    let expected = of_variant(&led::VARIANT, 2, job, prng)?;
    unchanged(slots.difference(&expected, floats::identical))?;
    let as_it_comes = of_variant(&as_it_comes::VARIANT, 1, job, prng)?;
    tally.differences.add(&expected, &as_it_comes);
    Ok(())
}

#[cfg(not(oracle))]
fn check_by_the_rust(_: &Slots, _: &EsJob, _: &mut Prng, _: &mut Tally) -> Checked {
    Ok(())
}

/// What holds of an accepted job's slots, from the job's numbers alone. No number is NaN.
fn check_slots(slots: &Slots, job: &EsJob) -> Checked {
    let point = governing(job);
    let none = job.freq <= job.fsdead || job.fs[point][1] <= 0.0;
    // "Two hops at most are tried."
    let tried = [[0, 0], [1, 0], [0, 2], [1, 2], [2, 0]];
    ensure(tried.contains(&slots.hops), || format!("hops {:?}", slots.hops))?;
    for i in 0..2 {
        let hop = [slots.b[i], slots.hn[i], slots.hp[i], slots.timed[i]];
        let holds = if slots.hops[i] == 0 {
            hop == [-1.0; 4]
        } else {
            let [b, hn, hp, timed] = hop;
            !none
                && hn == slots.hops[i] as f32
                && floats::identical(hp, job.hs[point])
                && b >= job.amind
                && b < 90.0
                && timed > 0.0
                && timed < f32::INFINITY
        };
        ensure(holds, || format!("slot {} is {hop:?}", 4 + i))?;
    }
    Ok(())
}

/// Checks jobs of one kind.
pub fn check_jobs(call: &Call, seed: u64, jobs: u64, kind: Kind) -> Checked<Tally> {
    let (mut prng, mut tally) = (Prng::new(seed), Tally::default());
    for _ in 0..jobs {
        let job = kind(&mut prng);
        check(call, &job, &mut prng, &mut tally)?;
    }
    Ok(tally)
}
