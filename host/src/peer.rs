//! The benchmark's peers: a job call on the Rust as it comes, as one would write it in Rust, with
//! document 01's limits and without. It has no counts: looks and pairs are 0. It has no kinds either:
//! their words it leaves as they are. And the lines of the Rust's esmod that make its geometry, in the
//! same two ways.

use crate::con::{PIO2, R2D, RZ, VOFL};
use crate::entries::{EsHop, EsJob, EsModes};
use crate::job::{Answer, Job};
use crate::limits;
use crate::oracle::as_it_comes::{fdist, findf};
use crate::oracle::{AreaTables, HopModes, IonoState, Ionogram, Numerics, Reflectrix};
use std::ops::RangeInclusive;

fn word(bytes: &[u8]) -> [u8; 4] {
    [bytes[0], bytes[1], bytes[2], bytes[3]]
}

/// Takes words from the front of a job.
struct Words<'a>(&'a [u8]);

impl Words<'_> {
    fn take(&mut self, count: usize) -> impl Iterator<Item = [u8; 4]> + '_ {
        let (words, rest) = self.0.split_at(4 * count);
        self.0 = rest;
        words.chunks_exact(4).map(word)
    }

    fn count(&mut self) -> usize {
        self.take(1).map(u32::from_le_bytes).next().unwrap_or_default() as usize
    }

    fn float(&mut self) -> f32 {
        self.floats::<1>()[0]
    }

    fn floats<const N: usize>(&mut self) -> [f32; N] {
        let mut floats = [0.0; N];
        floats.iter_mut().zip(self.take(N)).for_each(|(x, word)| *x = f32::from_le_bytes(word));
        floats
    }

    fn ints(&mut self, ints: &mut [i32]) {
        let words = self.take(ints.len());
        ints.iter_mut().zip(words).for_each(|(x, word)| *x = i32::from_le_bytes(word));
    }
}

/// Puts words into an answer, from its front on.
struct Room<'a>(&'a mut [u8]);

impl Room<'_> {
    fn put(&mut self, words: impl ExactSizeIterator<Item = u32>) {
        let (room, rest) = std::mem::take(&mut self.0).split_at_mut(4 * words.len());
        for (bytes, word) in room.chunks_exact_mut(4).zip(words) {
            bytes.copy_from_slice(&word.to_le_bytes());
        }
        self.0 = rest;
    }

    fn skip(&mut self, words: usize) {
        self.0 = &mut std::mem::take(&mut self.0)[4 * words..];
    }

    fn floats(&mut self, floats: &[f32]) {
        self.put(floats.iter().map(|x| if x.is_nan() { 0x7fc0_0000 } else { x.to_bits() }));
    }

    fn ints(&mut self, ints: &[i32]) {
        self.put(ints.iter().map(|x| *x as u32));
    }
}

/// Whether all are within a range: no early end, so that the compiler takes several at a time.
fn within<T: PartialOrd>(numbers: &[T], range: RangeInclusive<T>) -> bool {
    numbers.iter().fold(true, |all, x| all & (*range.start() <= *x) & (*x <= *range.end()))
}

/// The first of limits 3 to 10 that is broken, else 0.
fn broken(
    (k, nang): (usize, usize),
    (freq, amind, ghop): (f32, f32, f32),
    fi: &[[f32; 3]; 5],
    AreaTables { ion, ifob }: &AreaTables,
) -> u32 {
    if k > 4 {
        3
    } else if nang > 40 {
        4
    } else if !limits::FREQ.contains(&freq) {
        5
    } else if !limits::AMIND.contains(&amind) {
        6
    } else if !limits::GHOP.contains(&ghop) {
        7
    } else if !limits::FI_SECOND.contains(&fi[k][1]) || !limits::FI_THIRD.contains(&fi[k][2]) {
        8
    } else if !(within(&ion.fvert, limits::FVERT)
        && within(&ion.hprim, limits::HPRIM)
        && within(&ion.htrue, limits::HTRUE)
        && within(&ion.afac, limits::AFAC))
    {
        9
    } else if !within(ifob.as_flattened(), limits::IFOB) {
        10
    } else {
        0
    }
}

/// With the limits: what the library's call does, but for the counts and the kinds.
#[inline(never)]
pub fn job(job: &[u8], answer: &mut [u8]) -> u32 {
    solve::<true>(job, answer)
}

/// Without any limit but the lengths: the Rust's own trust in its caller.
#[inline(never)]
pub fn unchecked_job(job: &[u8], answer: &mut [u8]) -> u32 {
    solve::<false>(job, answer)
}

#[inline(always)]
fn solve<const CHECKED: bool>(job: &[u8], answer: &mut [u8]) -> u32 {
    if job.len() != Job::BYTES {
        return 1;
    }
    if answer.len() != Answer::BYTES {
        return 2;
    }
    let mut words = Words(job);
    let (k, nang) = (words.count(), words.count());
    let (freq, amind, ghop) = (words.float(), words.float(), words.float());
    let fi = std::array::from_fn(|_| words.floats());
    let state = IonoState { fi, numerics: Numerics };
    let mut area = AreaTables {
        ion: Ionogram {
            fvert: words.floats(),
            hprim: words.floats(),
            htrue: words.floats(),
            afac: words.floats(),
        },
        ifob: [[0; 30]; 40],
    };
    words.ints(area.ifob.as_flattened_mut());
    if CHECKED {
        let number = broken((k, nang), (freq, amind, ghop), &state.fi, &area);
        if number > 0 {
            return number;
        }
    }

    let mut rfx = Reflectrix::default();
    findf(&mut rfx, &state, &area, k, freq, amind, nang);
    let mut m = HopModes::default();
    fdist(&mut m, &rfx, ghop, amind, freq);

    let mut room = Room(answer);
    room.ints(&[rfx.rows_this_call as i32, 0, 0]);
    room.floats(&rfx.delpen);
    room.floats(&[rfx.dskpkm, rfx.delskp, rfx.hpskp, rfx.htskp, rfx.dmaxkm, rfx.fvskp]);
    room.ints(&[rfx.iskp, rfx.iaftxr as i32]);
    for column in [&rfx.delfx, &rfx.hpflx, &rfx.htflx, &rfx.gdflx, &rfx.fvflx, &rfx.afflx] {
        room.floats(column);
    }
    room.ints(&rfx.imode);
    room.skip(Answer::KINDS);
    for column in [&m.delmod, &m.hpmod, &m.htmod, &m.fvmod] {
        room.floats(column);
    }
    room.ints(&m.itmod);
    room.floats(&m.afmod);
    0
}

/// The first of esmod's limits that is broken, else 0.
fn broken_by_es(job: &EsJob) -> u32 {
    let EsJob { km, fs, hs, gcd, gcdkm, amind, freq, fsdead } = job;
    if !limits::FREQ.contains(freq) {
        5
    } else if !limits::AMIND.contains(amind) {
        6
    } else if limits::KM.contains(km)
        && within(fs[..*km].as_flattened(), limits::FS)
        && within(&hs[..*km], limits::HS)
        && limits::GCD.contains(gcd)
        && limits::GCDKM.contains(gcdkm)
        && limits::FS.contains(fsdead)
    {
        0
    } else {
        14
    }
}

/// With the limits: what the library's esmod does.
#[inline(never)]
pub fn esmod(job: &EsJob) -> EsModes {
    hops::<true>(job)
}

/// Without any: the Rust's own trust in its caller.
#[inline(never)]
pub fn unchecked_esmod(job: &EsJob) -> EsModes {
    hops::<false>(job)
}

#[inline(always)]
fn hops<const CHECKED: bool>(job: &EsJob) -> EsModes {
    let empty = EsHop { b: -1.0, hn: -1.0, hp: -1.0, timed: -1.0 };
    let mut modes = EsModes { refusal: 0, slot4: empty, slot5: empty };
    if CHECKED {
        modes.refusal = broken_by_es(job);
        if modes.refusal > 0 {
            return modes;
        }
    }
    let mut k = 0;
    for is in 0..job.km {
        if job.fs[k][1] - job.fs[is][1] > 0.0 {
            k = is;
        }
    }
    let hs = job.hs[k];
    if job.freq <= job.fsdead || job.fs[k][1] <= 0.0 {
        return modes;
    }
    let sdmax = 2.0 * RZ * (PIO2 - (1.0 / (1.0 + hs / RZ)).asin());
    let ihsrt = (job.gcdkm / sdmax + 1.0) as i32;
    for (ihop, slot) in (ihsrt..=2).zip([&mut modes.slot4, &mut modes.slot5]) {
        let hop = ihop as f32;
        let thet = 0.5 * (job.gcd / hop);
        let sine = thet.sin();
        let psi = (sine / (1.0 - thet.cos() + hs / RZ)).atan();
        let del = PIO2 - thet - psi;
        let adel = del * R2D;
        if adel < job.amind {
            continue;
        }
        let path = hop * (2.0 * sine * (RZ + hs) / del.cos());
        *slot = EsHop { b: adel, hn: hop, hp: hs, timed: path / VOFL };
    }
    modes
}
