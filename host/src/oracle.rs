//! The oracle: the sliced Rust over stubs that have only what the slices read. The build writes
//! the slices; oracle/slices.txt and oracle/alterations.txt list them.

#![allow(clippy::all, unused_imports)]

use crate::con::{D2R, PIO2, R2D, RZ, VOFL};
use crate::entries::EsJob;

/// The Rust's real number.
pub type R = f32;

/// The deciles, which `prbmuf` reads, and the frequencies that esmod hands to it.
#[derive(Clone, Copy)]
pub struct LayerMuf {
    pub sigl: R,
    pub sigu: R,
    pub yfot: R,
    pub ymuf: R,
    pub yhpf: R,
}

pub struct MufHour {
    pub layers: [LayerMuf; 4],
}

impl From<crate::entries::MufHour> for MufHour {
    fn from(ours: crate::entries::MufHour) -> Self {
        let [yfot, ymuf, yhpf] = [R::NAN; 3];
        let layer = |i| LayerMuf { sigl: ours.sigl[i], sigu: ours.sigu[i], yfot, ymuf, yhpf };
        MufHour { layers: std::array::from_fn(layer) }
    }
}

/// The Rust's numerics with `fast_cos_modes` off.
#[derive(Clone, Copy)]
pub struct Numerics;

impl Numerics {
    pub fn cos_modes(self, x: R) -> R {
        x.cos()
    }
}

pub struct IonoState {
    pub fi: [[R; 3]; 5],
    pub numerics: Numerics,
}

impl From<&crate::entries::FindfJob> for IonoState {
    fn from(job: &crate::entries::FindfJob) -> Self {
        IonoState { fi: job.fi, numerics: Numerics }
    }
}

impl From<&crate::entries::FindfJob> for AreaTables {
    fn from(job: &crate::entries::FindfJob) -> Self {
        let crate::entries::FindfJob { fvert, hprim, htrue, afac, .. } = *job;
        let column = |ia: usize| std::array::from_fn(|ih| job.ifob[30 * ia + ih]);
        AreaTables {
            ion: Ionogram { fvert, hprim, htrue, afac },
            ifob: std::array::from_fn(column),
        }
    }
}

crate::record::fields! {
    /// What esmod reads for its losses alone. Its hops' angles, counts, heights and delays do not
    /// depend on it, so it may hold any bits.
    Losses {
        critical_e gyz: [f32; 5],
        acav afe bfe dsl dsu asm: f32,
        transmit_gain receive_gain: [f32; 2],
        power ground_loss rcnse: f32,
        sigl sigu yfot ymuf yhpf: f32,
    }
}

/// The points, of which `fi` has E's critical frequency alone.
pub struct Points {
    pub km: usize,
    pub fi: [[R; 1]; 5],
}

pub struct AntennaSet {
    gains: [[R; 2]; 2],
    power: R,
}

impl AntennaSet {
    /// The gain and the efficiency at one end, 1 or 2.
    pub fn gain(&self, end: usize, _angle: R, _freq: R) -> (R, R) {
        self.gains[end - 1].into()
    }

    pub fn pwrdb(&self, _freq: R) -> R {
        self.power
    }
}

pub struct Geog {
    pub gyz: [R; 5],
}

pub struct SignalDistribution {
    pub acav: R,
    pub afe: R,
    pub bfe: R,
    pub dsl: R,
    pub dsu: R,
    pub asm: R,
}

pub struct DeckParams {
    pub amind: R,
}

pub struct NoiseResult {
    pub rcnse: R,
}

pub struct PassCtx {
    pub state: Points,
    pub ants: AntennaSet,
    pub fs: [[R; 3]; 5],
    pub hs: [R; 5],
    pub geog: Geog,
    pub sig: SignalDistribution,
    pub deck: DeckParams,
    pub gcd: R,
    pub gcdkm: R,
    ground_loss: R,
}

fn ground_loss_avg(ctx: &PassCtx, _angle: R, _freq: R, _km: usize) -> R {
    ctx.ground_loss
}

impl PassCtx {
    pub fn new(job: &EsJob, losses: &Losses) -> Self {
        let Losses { acav, afe, bfe, dsl, dsu, asm, ground_loss, .. } = *losses;
        PassCtx {
            state: Points { km: job.km, fi: losses.critical_e.map(|e| [e]) },
            ants: AntennaSet {
                gains: [losses.transmit_gain, losses.receive_gain],
                power: losses.power,
            },
            fs: job.fs,
            hs: job.hs,
            geog: Geog { gyz: losses.gyz },
            sig: SignalDistribution { acav, afe, bfe, dsl, dsu, asm },
            deck: DeckParams { amind: job.amind },
            gcd: job.gcd,
            gcdkm: job.gcdkm,
            ground_loss,
        }
    }
}

impl From<&Losses> for MufHour {
    fn from(losses: &Losses) -> Self {
        let Losses { sigl, sigu, yfot, ymuf, yhpf, .. } = *losses;
        MufHour { layers: [LayerMuf { sigl, sigu, yfot, ymuf, yhpf }; 4] }
    }
}

impl From<&Losses> for NoiseResult {
    fn from(losses: &Losses) -> Self {
        NoiseResult { rcnse: losses.rcnse }
    }
}

pub mod perf {
    pub const FINDF: usize = 4;
    pub const ESMOD: usize = 15;

    pub struct Step;

    impl Step {
        pub fn new(_step: usize) -> Self {
            Step
        }
    }
}

include!(concat!(env!("OUT_DIR"), "/once.rs"));

/// What the counted variants count and note, in this thread.
pub mod counts {
    use std::cell::Cell;
    use std::thread::LocalKey;

    thread_local! {
        pub static LOOKS: Cell<u32> = const { Cell::new(0) };
        pub static PAIRS: Cell<u32> = const { Cell::new(0) };
        pub static RAYS: Cell<u32> = const { Cell::new(0) };
        static KIND: Cell<[u32; 45]> = const { Cell::new([0; 45]) };
    }

    /// The looks, pairs and rays, and the kind of each row, 0 where none was noted.
    pub struct Counts {
        pub looks: u32,
        pub pairs: u32,
        pub rays: u32,
        pub kind: [u32; 45],
    }

    pub fn count(counter: &'static LocalKey<Cell<u32>>) {
        counter.set(counter.get() + 1);
    }

    /// Notes the kind of a row, which counts from 0.
    pub fn note(row: usize, kind: u32) {
        let mut noted = KIND.get();
        noted[row] = kind;
        KIND.set(noted);
    }

    /// Those since the thread last asked.
    pub fn take() -> Counts {
        let (looks, pairs, rays) = (LOOKS.take(), PAIRS.take(), RAYS.take());
        Counts { looks, pairs, rays, kind: KIND.replace([0; 45]) }
    }
}

/// findf, fdist and esmod of one variant.
#[derive(Clone, Copy)]
pub struct Variant {
    pub name: &'static str,
    pub findf: fn(&mut Reflectrix, &IonoState, &AreaTables, usize, R, R, usize),
    pub fdist: fn(&mut HopModes, &Reflectrix, R, R, R),
    pub esmod: fn(&mut Zon, &PassCtx, &MufHour, &NoiseResult, R, R),
}

// penang, findf, fdist and esmod as each variant of oracle/alterations.txt has them, in a module of its
// name: as they come, with their angle calls led to the library under test, led and counted, and
// with what a porter gets wrong.
include!(concat!(env!("OUT_DIR"), "/variants.rs"));

trait Led {
    fn ray_sin(self) -> R;
    fn ray_cos(self) -> R;
    fn ray_asin(self) -> R;
    fn ray_acos(self) -> R;
    fn ray_atan(self) -> R;
}

impl Led for R {
    fn ray_sin(self) -> R {
        crate::entries::sin(self)
    }

    fn ray_cos(self) -> R {
        crate::entries::cos(self)
    }

    fn ray_asin(self) -> R {
        crate::entries::asin(self)
    }

    fn ray_acos(self) -> R {
        crate::entries::acos(self)
    }

    fn ray_atan(self) -> R {
        crate::entries::atan(self)
    }
}

impl Numerics {
    fn ray_cos_modes(self, x: R) -> R {
        crate::entries::cos(x)
    }
}
