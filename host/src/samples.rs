//! The sample jobs of jobs/, made from layer heights, and the sample files of `ray es`.
//!
//! A layer is a parabola of electron density. The 30 sounding frequencies stand where the
//! engine's ionogram has them, and the oblique table is by the engine's own formula.

use crate::con::{D2R, RZ};
use crate::entries::FindfJob;
use crate::findf::{khz, take_off_angles};
use crate::job::Job;
use crate::limits;

/// What the call makes of a sample.
#[derive(Clone, Copy, Debug, PartialEq, Eq)]
pub enum Expected {
    Accepted { rows: usize, rays: usize },
    Refused(u32),
}

/// Where a sample's bytes come from.
pub enum Origin {
    Made(Box<Job>),
    /// Tables that no ionosphere has: stored as they were found, and known by their SHA-256.
    Kept(&'static str),
}

pub struct Sample {
    pub name: &'static str,
    /// What it shows, in a line.
    pub shows: &'static str,
    pub expected: Expected,
    pub origin: Origin,
}

/// The layers at a point: critical frequencies in MHz, heights of the peaks and the half
/// thickness of F2 in km. Without F1 its critical frequency is 0.
#[derive(Clone, Copy)]
struct Layers {
    foe: f64,
    fof1: f64,
    hm1: f64,
    fof2: f64,
    hm2: f64,
    ym2: f64,
}

const HME: f64 = 110.0;
const YME: f64 = 20.0;

impl Layers {
    fn has_f1(&self) -> bool {
        self.fof1 > 0.0
    }

    fn ym1(&self) -> f64 {
        self.hm1 / 4.0
    }

    /// The sounding frequencies.
    fn grid(&self) -> [f64; 30] {
        let Layers { foe, fof1, fof2, .. } = *self;
        let mut f = [0.0; 30];
        let fex = foe * (1.0f64 - 0.85 * 0.85).sqrt();
        (f[0], f[3]) = (0.01, fex);
        f[1] = f[0] + (fex - 0.01) / 3.0;
        f[2] = f[1] + (fex - 0.01) / 3.0;
        (f[8], f[9], f[10]) = (0.957 * foe, 0.99 * foe, 1.05 * foe);
        (f[29], f[28], f[27], f[26]) = (0.99 * fof2, 0.98 * fof2, 0.96 * fof2, 0.92 * fof2);
        let mut even = |first: usize, after: usize, step: f64| {
            for i in first..after {
                f[i] = f[i - 1] + step;
            }
        };
        even(4, 8, (0.957 * foe - fex) / 5.0);
        if self.has_f1() {
            even(11, 19, (0.99 * fof1 - 1.05 * foe) / 9.0);
            (f[19], f[20]) = (0.99 * fof1, 1.01 * fof1);
            let step = (f[26] - f[20]) / 6.0;
            for i in 21..26 {
                f[i] = f[i - 1] + step;
            }
        } else {
            even(11, 26, (0.92 * fof2 - 1.05 * foe) / 16.0);
        }
        f
    }

    /// The true and the virtual height at which row i comes back.
    fn heights(&self, i: usize, f: f64) -> (f64, f64) {
        let Layers { foe, fof1, hm1, fof2, hm2, ym2 } = *self;
        if i < 10 {
            let (t, p) = nose(f, foe, HME, YME);
            let low = |h: f64| if i < 3 { 70.0 + (h - 70.0) * i as f64 / 3.0 } else { h };
            (low(t), low(p))
        } else if self.has_f1() && i < 20 {
            let (t, p) = nose(f, fof1, hm1, self.ym1());
            (t, p + through(f, foe, YME))
        } else {
            let (t, p) = nose(f, fof2, hm2, ym2);
            let below = if self.has_f1() { through(f, fof1, self.ym1()) } else { 0.0 };
            (t, p + (through(f, foe, YME) + below))
        }
    }

    /// The first row, the row after the last, the foot and the half thickness of each layer.
    fn parts(&self) -> Vec<(usize, usize, f64, f64)> {
        let e = (0, 10, HME - YME, YME);
        let f2 = |first| (first, 30, self.hm2 - self.ym2, self.ym2);
        if self.has_f1() {
            vec![e, (10, 20, self.hm1 - self.ym1(), self.ym1()), f2(20)]
        } else {
            vec![e, f2(10)]
        }
    }

    /// fvert, hprim, htrue, afac.
    fn tables(&self) -> [[f32; 30]; 4] {
        let grid = self.grid();
        let (mut hprim, mut htrue, mut afac) = ([0.0f32; 30], [0.0f32; 30], [0.0f32; 30]);
        let mut last = 0.0;
        for (i, f) in grid.into_iter().enumerate() {
            let (t, p) = self.heights(i, f);
            last = t.max(last);
            (htrue[i], hprim[i]) = (last as f32, p.max(last).min(2500.0) as f32);
        }
        // The deviative loss, in the upper third of a layer alone.
        for (first, after, foot, half) in self.parts() {
            let middle = first + (after - first) * 7 / 10;
            let base = hprim[middle] - htrue[middle];
            for i in middle + 1..after {
                let x = f64::from(hprim[i] - htrue[i]) - f64::from(base);
                if x > 0.0 {
                    let loss = 0.2 * (-2.0 * (f64::from(htrue[i]) - foot) / half).exp();
                    afac[i] = (loss.max(0.05) * x) as f32;
                }
            }
        }
        [grid.map(|f| f as f32), hprim, htrue, afac]
    }

    /// The critical frequencies of the five points, of which a sample uses the first.
    fn points(&self) -> [[f32; 3]; 5] {
        [1.0, 0.97, 0.93, 1.04, 0.9]
            .map(|share| [self.foe, self.fof1, self.fof2].map(|x| (x * share) as f32))
    }
}

/// True and virtual height of a parabolic layer below its critical frequency.
fn nose(f: f64, fo: f64, hm: f64, ym: f64) -> (f64, f64) {
    let x = (f / fo).min(0.9999);
    (hm - ym * (1.0 - x * x).sqrt(), hm - ym + 0.5 * ym * x * ((1.0 + x) / (1.0 - x)).ln())
}

/// What a layer that is passed adds to the virtual height.
fn through(f: f64, fo: f64, ym: f64) -> f64 {
    let x = (f / fo).max(1.0005);
    ym * (x * ((x + 1.0) / (x - 1.0)).ln() - 2.0)
}

/// The oblique frequencies in kHz of all 40 angles.
fn oblique(fvert: &[f32; 30], htrue: &[f32; 30]) -> [i32; 1200] {
    let mut ifob = [0; 1200];
    for (angle, column) in take_off_angles().zip(ifob.chunks_mut(30)) {
        // The cosine by f64, rounded once: as good as exact, so the table is the same everywhere.
        let rcosd = RZ * f64::from(angle * D2R).cos() as f32;
        for ((entry, fvert), htrue) in column.iter_mut().zip(fvert).zip(htrue) {
            let sphe = rcosd / (RZ + htrue);
            let cphe = (1.0 - sphe * sphe).max(0.000001).sqrt();
            *entry = khz(fvert / cphe).clamp(*limits::IFOB.start(), *limits::IFOB.end());
        }
    }
    ifob
}

/// The job of layers, a frequency in MHz, a minimum angle in degrees and a length in km.
fn job(layers: Layers, freq: f32, amind: f32, km: f64, nang: usize) -> Job {
    let [fvert, hprim, htrue, afac] = layers.tables();
    let ifob = oblique(&fvert, &htrue);
    let fi = layers.points();
    let walk = FindfJob { k: 0, nang, freq, amind, fi, fvert, hprim, htrue, afac, ifob };
    Job { walk, ghop: (km / 6370.0) as f32 }
}

const NOON: Layers = Layers { foe: 3.4, fof1: 4.9, hm1: 195.0, fof2: 8.6, hm2: 300.0, ym2: 85.0 };
const EVENING: Layers =
    Layers { foe: 2.1, fof1: 0.0, hm1: 190.0, fof2: 6.0, hm2: 310.0, ym2: 80.0 };
const NIGHT: Layers = Layers { foe: 0.7, fof1: 0.0, hm1: 190.0, fof2: 4.4, hm2: 345.0, ym2: 90.0 };
const WEAK_NIGHT: Layers =
    Layers { foe: 0.6, fof1: 0.0, hm1: 190.0, fof2: 3.1, hm2: 350.0, ym2: 90.0 };
const STRONG_F1: Layers =
    Layers { foe: 3.66, fof1: 5.84, hm1: 200.0, fof2: 7.95, hm2: 310.0, ym2: 100.0 };
const MORNING: Layers =
    Layers { foe: 2.6, fof1: 3.9, hm1: 200.0, fof2: 7.4, hm2: 290.0, ym2: 80.0 };

fn noon() -> Job {
    job(NOON, 14.2, 3.0, 1600.0, 40)
}

/// All samples, in the order of jobs/README.md.
pub fn samples() -> Vec<Sample> {
    let made = |name, shows, rows, rays, job| Sample {
        name,
        shows,
        expected: Expected::Accepted { rows, rays },
        origin: Origin::Made(Box::new(job)),
    };
    let kept = |name, shows, rows, rays, sha256| Sample {
        name,
        shows,
        expected: Expected::Accepted { rows, rays },
        origin: Origin::Kept(sha256),
    };
    let mut bad_table = noon();
    bad_table.walk.hprim[16] = f32::NAN;
    let mut one_row = Job::zeros();
    one_row.walk.fvert[9] = 2.0;
    vec![
        made("noon", "E, F1 and F2 at 14.2 MHz", 25, 5, noon()),
        made(
            "night",
            "no F1, F2 alone: low and high ray just beyond the skip distance",
            26,
            2,
            job(NIGHT, 6.1, 5.0, 960.0, 40),
        ),
        made(
            "dead-f2",
            "25.6 MHz over a weak night layer: no layer sends this frequency back",
            0,
            0,
            job(WEAK_NIGHT, 25.6, 3.0, 1800.0, 40),
        ),
        made(
            "six-rays",
            "all six slots taken: each layer's low and high ray, two of them across a cusp",
            22,
            6,
            job(STRONG_F1, 15.34, 3.0, 1700.0, 40),
        ),
        made(
            "too-far",
            "the curve reaches 3,400 km, but only below the minimum angle",
            18,
            0,
            job(EVENING, 11.7, 4.0, 3400.0, 40),
        ),
        made(
            "skip-zone",
            "the listener is nearer than the nearest ground reached",
            18,
            0,
            job(EVENING, 11.7, 4.0, 800.0, 40),
        ),
        made(
            "too-low",
            "rays found, none at or above 10 deg; slot 1 holds the last, too low",
            17,
            0,
            job(NOON, 14.2, 10.0, 1350.0, 13),
        ),
        made(
            "overhead",
            "5.2 MHz, every layer in turn up to the zenith",
            44,
            1,
            job(MORNING, 5.2, 10.0, 250.0, 40),
        ),
        Sample {
            name: "bad-table",
            shows: "noon, with NaN as hprim of row 17",
            expected: Expected::Refused(9),
            origin: Origin::Made(Box::new(bad_table)),
        },
        made("all-zero", "tables of zeros", 0, 0, Job::zeros()),
        made(
            "x-one-row",
            "tables of zeros but for fvert of row 10: one row, at 89.9 deg",
            1,
            0,
            one_row,
        ),
        made(
            "x-far-off",
            "noon, with an asked length of 25,480 km",
            25,
            0,
            job(NOON, 14.2, 3.0, 25480.0, 40),
        ),
        kept(
            "x-no-length",
            "rows whose hop length is NaN or below 0",
            40,
            0,
            "96b03939fa407de55e95685463ae864757923e43fd461745d00241847299b77b",
        ),
        kept(
            "x-zigzag-44",
            "hop lengths up to 25,000 km that go up and down",
            44,
            6,
            "d766eb7d858ec5bff8c98a6eb61592750f86cb4e6893894f82bfdd8f8c87e5f3",
        ),
        kept(
            "x-equal-lengths",
            "neighbouring rows of one length: five of the rays at one angle",
            36,
            6,
            "7abad005ee7d83786de9ae84b3159377490014fb960ba3a79c74d45d17a3f38e",
        ),
        kept(
            "x-near-rays",
            "five rays within 4 deg",
            22,
            5,
            "61d5e55fa4ce1d59fe3cdb50aa475370bf25bb0976287b243a45e53513119494",
        ),
        kept(
            "x-wild-heights",
            "virtual heights down to -300,000 km",
            42,
            6,
            "6eca651659e74931a7fab03be1a0136c951bc812150db5347e847755ac80f8ac",
        ),
    ]
}

/// The file of `ray es`: the words of a call of esmod, in the order of `ray help`.
#[derive(Clone, Copy, Debug)]
pub struct EsFile {
    pub km: u32,
    pub fs: [[f32; 3]; 5],
    pub hs: [f32; 5],
    pub gcd: f32,
    pub gcdkm: f32,
    pub amind: f32,
    pub freq: f32,
    pub fsdead: f32,
}

impl EsFile {
    pub fn bytes(&self) -> Vec<u8> {
        let EsFile { km, fs, hs, gcd, gcdkm, amind, freq, fsdead } = *self;
        let numbers = [fs.as_flattened(), &hs, &[gcd, gcdkm, amind, freq, fsdead]].concat();
        let words = [km].into_iter().chain(numbers.into_iter().map(f32::to_bits));
        words.flat_map(u32::to_le_bytes).collect()
    }
}

/// A sample file of `ray es`: which of the slots 4 and 5 have a ray, or the refusal.
pub struct EsSample {
    pub name: &'static str,
    pub shows: &'static str,
    pub expected: Result<[bool; 2], u32>,
    pub words: EsFile,
}

impl EsSample {
    /// The file of jobs/.
    pub fn file(&self) -> String {
        format!("{}.es", self.name)
    }

    /// The line of jobs/README.md.
    fn line(&self) -> String {
        let expected = match self.expected {
            Ok([true, true]) => "rays in slots 4 and 5".into(),
            Ok([true, false]) => "a ray in slot 4".into(),
            Ok([false, true]) => "a ray in slot 5".into(),
            Ok([false, false]) => "no ray".into(),
            Err(number) => format!("refused, limit {number}"),
        };
        format!("| `{}` | {} | {expected} |\n", self.file(), self.shows)
    }
}

/// A path of three points over the sea in July; the two points behind them are not counted.
pub fn summer() -> EsFile {
    let fs = [[4.1, 6.8, 9.9], [3.6, 5.9, 9.0], [4.4, 7.4, 10.6], [0.0; 3], [0.0; 3]];
    let hs = [105.0, 110.0, 107.5, 0.0, 0.0];
    let gcdkm = 1450.0;
    let gcd = gcdkm / 6370.0;
    EsFile { km: 3, fs, hs, gcd, gcdkm, amind: 3.0, freq: 28.2, fsdead: 2.7 }
}

/// All samples of `ray es`, in the order of jobs/README.md.
pub fn es_samples() -> Vec<EsSample> {
    let sample = |name, shows, expected, words| EsSample { name, shows, expected, words };
    let with = |change: &dyn Fn(&mut EsFile)| {
        let mut file = summer();
        change(&mut file);
        file
    };
    let far = |km: f32| with(&|file| (file.gcd, file.gcdkm) = (km / 6370.0, km));
    vec![
        sample(
            "summer",
            "28.2 MHz over 1,450 km by one hop, and by two",
            Ok([true, true]),
            summer(),
        ),
        sample(
            "winter-night",
            "no sporadic E at one of three points, which governs",
            Ok([false, false]),
            with(&|file| (file.fs[2], file.freq) = ([0.0; 3], 12.1)),
        ),
        sample(
            "bad-height",
            "summer, with 75 km as hs of point 2",
            Err(14),
            with(&|file| file.hs[2] = 75.0),
        ),
        sample("x-two-hops", "summer, over 3,000 km", Ok([true, false]), far(3000.0)),
        sample(
            "x-second-alone",
            "summer, with a minimum angle above that of one hop",
            Ok([false, true]),
            with(&|file| file.amind = 12.0),
        ),
        sample("x-beyond", "summer, over 6,000 km", Ok([false, false]), far(6000.0)),
        sample(
            "x-cutoff",
            "summer, at a frequency that is just fsdead",
            Ok([false, false]),
            with(&|file| file.freq = file.fsdead),
        ),
    ]
}

impl Sample {
    /// The file of jobs/.
    pub fn file(&self) -> String {
        format!("{}.job", self.name)
    }

    /// The line of jobs/README.md.
    fn line(&self) -> String {
        let expected = match self.expected {
            Expected::Accepted { rows, rays } => {
                let s = |n: usize| if n == 1 { "" } else { "s" };
                format!("{rays} ray{}, {rows} row{}", s(rays), s(rows))
            }
            Expected::Refused(number) => format!("refused, limit {number}"),
        };
        format!("| `{}` | {} | {expected} |\n", self.file(), self.shows)
    }
}

const INTRODUCTION: &str = "\
# Sample jobs

Each `.job` is a job of 5,360 bytes (`docs/JOB.md`). The tables say what to expect of the answer.

";

const TABLE: &str = "\
| job | shows | answer |
|---|---|---|
";

const TESTS: &str = "
For tests, not for newcomers; the last five have tables that no ionosphere has:

";

const ES: &str = "
Each `.es` is a file of `ray es`: the numbers of one call of `esmod`, 104 bytes. `docs/JOB.md` has them, and how to write such a file.

| file | shows | answer |
|---|---|---|
";

const REGENERATE: &str = "
One command, in `host/`, writes these files and this page anew from layer heights:

    cargo run --release --offline --bin samples

The five with tables that no ionosphere has come from no layers: they are stored as they were
found, and the command leaves them alone. Tests of the host hold every file and this page to the
command, the five to their SHA-256, and every answer to its line here.
";

/// The text of jobs/README.md.
pub fn readme() -> String {
    let (tests, samples): (Vec<_>, Vec<_>) =
        samples().into_iter().partition(|sample| sample.name.starts_with("x-"));
    let lines = |samples: Vec<Sample>| samples.iter().map(Sample::line).collect::<String>();
    let es: String = es_samples().iter().map(EsSample::line).collect();
    [INTRODUCTION, TABLE, &lines(samples), TESTS, TABLE, &lines(tests), ES, &es, REGENERATE]
        .concat()
}
