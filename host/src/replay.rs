//! The records that crates/replay reads, made by the oracle (docs/REPLAY.md says what is in them).

use crate::entries::{
    AllModes, EsJob, EsModes, FdistJob, FindfJob, HopModes, MufHour, Reflectrix, Zon,
};
use crate::job::{self, Answer, Job};
use crate::prng::Prng;
use crate::record::{Numbers, Record as Fields};
use crate::samples::EsFile;
use crate::{esmod, fdist, findf, floats, limits, oracle, page};
use std::f32::consts::{FRAC_PI_2, PI};
use std::mem::offset_of;
use std::ops::{Range, RangeInclusive};

/// The arguments of a call, then all that it must give back.
struct Record {
    arguments: Bytes,
    answer: Bytes,
}

/// A file of records, all of one size.
pub struct File {
    pub name: &'static str,
    records: Vec<Record>,
}

impl File {
    pub fn bytes(&self) -> Vec<u8> {
        let parts = self.records.iter().flat_map(|r| [&r.arguments.0, &r.answer.0]);
        parts.flatten().copied().collect()
    }

    pub fn records(&self) -> usize {
        self.records.len()
    }
}

/// Words of 4 bytes, least byte first; a float by its bits, NaN as 7FC00000; a count as two words,
/// the low one first.
#[derive(Default)]
struct Bytes(Vec<u8>);

impl Bytes {
    fn word(mut self, word: u32) -> Self {
        self.0.extend(word.to_le_bytes());
        self
    }

    fn count(mut self, count: usize) -> Self {
        self.0.extend((count as u64).to_le_bytes());
        self
    }

    fn float(self, x: f32) -> Self {
        self.word(if x.is_nan() { 0x7fc0_0000 } else { x.to_bits() })
    }

    fn floats(self, xs: &[f32]) -> Self {
        xs.iter().fold(self, |bytes, x| bytes.float(*x))
    }

    fn bytes(mut self, these: &[u8]) -> Self {
        self.0.extend(these);
        self
    }

    fn fields(self, record: &impl Fields) -> Self {
        record.fields().into_iter().fold(self, |bytes, (_, numbers)| match numbers {
            Numbers::Floats(xs) => bytes.floats(xs),
            Numbers::Words(words) => words.iter().fold(bytes, |bytes, word| bytes.word(*word)),
            Numbers::Count(count) => bytes.count(count),
        })
    }

    /// Columns of floats, but for the places that hold none.
    fn columns(self, words: &[u32], others: [Range<usize>; 2]) -> Self {
        words.iter().enumerate().fold(self, |bytes, (place, word)| {
            if others.iter().any(|range| range.contains(&place)) {
                bytes.word(*word)
            } else {
                bytes.float(f32::from_bits(*word))
            }
        })
    }

    fn list(self, m: &AllModes) -> Self {
        let [nmode, counts] = [offset_of!(AllModes, nmode) / 4, offset_of!(AllModes, nrel) / 4];
        self.columns(&m.words(), [nmode..nmode + 20, counts..AllModes::WORDS])
    }

    fn zon(self, zon: &Zon) -> Self {
        let nmode = offset_of!(Zon, nmode) / 4;
        self.columns(&zon.words(), [nmode..nmode + 7, 0..0])
    }
}

fn start() -> Bytes {
    Bytes::default()
}

/// What an answer holds before the call.
const UNWRITTEN: [u8; Answer::BYTES] = [0xa5; Answer::BYTES];

/// The number of a job and an answer of any lengths, and the answer, which a refusal leaves.
fn job_answer(job: &[u8], answer: usize) -> Bytes {
    let refusal = limits::job(job, answer);
    let answer = if refusal == 0 { job::oracle_answer(job) } else { UNWRITTEN };
    start().word(refusal).bytes(&answer)
}

/// Jobs of one kind, the refused ones first.
fn jobs(name: &'static str, seed: u64, kind: job::Kind) -> File {
    let mut prng = Prng::new(seed);
    let mut jobs: Vec<_> = (0..200).map(|_| kind(&mut prng).bytes()).collect();
    jobs.sort_by_key(|job| limits::job(job, Answer::BYTES) == 0);
    let records = jobs
        .into_iter()
        .map(|job| Record {
            arguments: start().bytes(&job),
            answer: job_answer(&job, Answer::BYTES),
        })
        .collect();
    File { name, records }
}

fn findf_record(old: Reflectrix, job: FindfJob) -> Record {
    let refusal = limits::findf(&job);
    let (looks, rfx) = if refusal == 0 {
        let walked = findf::led(old, &job);
        (walked.looks, walked.rfx)
    } else {
        (0, old)
    };
    let FindfJob { k, nang, freq, amind, fi, fvert, hprim, htrue, afac, ifob } = job;
    let head = start().fields(&old).count(k).count(nang).floats(&[freq, amind]);
    let tables = [fvert, hprim, htrue, afac];
    let arguments = head.floats(fi.as_flattened()).floats(tables.as_flattened());
    Record {
        arguments: ifob.iter().fold(arguments, |bytes, entry| bytes.word(*entry as u32)),
        answer: start().word(refusal).word(looks).fields(&rfx),
    }
}

fn findf_file() -> File {
    let mut prng = Prng::new(104);
    let kinds = [(40, findf::realistic as findf::Kind), (30, findf::adversarial)];
    let kinds = kinds.into_iter().chain([(30, findf::about_limits as findf::Kind)]);
    let mut records = Vec::new();
    for (count, kind) in kinds {
        for _ in 0..count {
            let old = Reflectrix::random(&mut prng);
            records.push(findf_record(old, kind(&mut prng)));
        }
    }
    File { name: "findf", records }
}

fn fdist_record(old: HopModes, job: FdistJob) -> Record {
    let refusal = limits::fdist(&job);
    let (pairs, rays, m) = if refusal == 0 {
        let searched = fdist::led(old, &job);
        (searched.pairs, searched.rays, searched.m)
    } else {
        (0, 0, old)
    };
    let FdistJob { rfx, ghop, amind, freq } = job;
    Record {
        arguments: start().fields(&old).fields(&rfx).floats(&[ghop, amind, freq]),
        answer: start().word(refusal).word(pairs).word(rays).fields(&m),
    }
}

/// A search that tries all 44 pairs.
fn with_all_pairs(prng: &mut Prng) -> FdistJob {
    loop {
        let job = fdist::arbitrary(prng);
        if fdist::led(HopModes::zeros(), &job).pairs == 44 {
            return job;
        }
    }
}

/// A search on what the oracle's walk left, for the length of one of its rows or a length between.
fn after_a_walk(prng: &mut Prng) -> FdistJob {
    let walk = findf::realistic(prng);
    let rfx = findf::led(Reflectrix::random(prng), &walk).rfx;
    let row = prng.below(rfx.rows_this_call.max(1));
    let length = [rfx.gdflx[row], prng.within(0.0, rfx.dmaxkm)][prng.below(2)];
    FdistJob { rfx, ghop: job::ghop_of(length), amind: walk.amind, freq: walk.freq }
}

fn fdist_file() -> File {
    let mut prng = Prng::new(105);
    type Kind = fn(&mut Prng) -> FdistJob;
    let kinds: [(u32, Kind); 4] = [
        (60, with_all_pairs),
        (60, fdist::arbitrary),
        (40, after_a_walk),
        (40, fdist::about_limits),
    ];
    let mut records = Vec::new();
    for (count, kind) in kinds {
        for _ in 0..count {
            let old = HopModes::random(&mut prng);
            records.push(fdist_record(old, kind(&mut prng)));
        }
    }
    File { name: "fdist", records }
}

fn esmod_record(job: EsJob) -> Record {
    let EsModes { refusal, slot4, slot5 } = esmod::call_of(&oracle::led::VARIANT, &job);
    let EsJob { km, fs, hs, gcd, gcdkm, amind, freq, fsdead } = job;
    let file = EsFile { km: km as u32, fs, hs, gcd, gcdkm, amind, freq, fsdead };
    Record {
        arguments: start().bytes(&file.bytes()),
        answer: start().word(refusal).fields(&slot4).fields(&slot5),
    }
}

/// Jobs of the three kinds, whose km goes from 0 to 7 in its turn in every fourth.
fn esmod_file() -> File {
    let mut prng = Prng::new(116);
    let kinds: [(usize, esmod::Kind); 3] =
        [(100, esmod::coast), (200, esmod::adversarial), (100, esmod::about_limits)];
    let mut records = Vec::new();
    for (count, kind) in kinds {
        for turn in 0..count {
            let mut job = kind(&mut prng);
            if turn % 4 == 3 || job.km > 7 {
                job.km = turn / 4 % 8;
            }
            records.push(esmod_record(job));
        }
    }
    File { name: "esmod", records }
}

/// 500 arguments: of both signs the edges and the patterns beside them, NaN; the others drawn from
/// all patterns up to `limit` and evenly from `spread`, none of them below 0 where `spread` is not.
fn arguments(seed: u64, limit: f32, spread: RangeInclusive<f32>) -> Vec<f32> {
    let mut prng = Prng::new(seed);
    let (low, high) = (*spread.start(), *spread.end());
    let whole = (1 << 22) as f32;
    let least = f32::from_bits(1);
    let places = [0.0, least, f32::MIN_POSITIVE, 1.0 / whole, 0.5, 1.0, FRAC_PI_2, PI, 4.0, 5.0];
    let far = [whole, 2.0 * whole, f32::MAX, f32::INFINITY];
    let chosen = places.into_iter().chain(far).flat_map(|x| floats::window(x.to_bits(), 1));
    let chosen = chosen.map(f32::from_bits).flat_map(|x| [x, -x]);
    let mut arguments: Vec<f32> = [f32::NAN].into_iter().chain(chosen).collect();
    while arguments.len() < 500 {
        let pattern = f32::from_bits(prng.below(limit.to_bits() as usize + 1) as u32);
        arguments.push(match arguments.len() % 4 {
            0 => pattern,
            1 if low < 0.0 => -pattern,
            _ => prng.within(low, high),
        });
    }
    arguments
}

/// A function of one number, over arguments within its domain and beyond.
fn function(
    name: &'static str,
    seed: u64,
    limit: f32,
    spread: RangeInclusive<f32>,
    of: fn(f32) -> f32,
) -> File {
    let record = |x: f32| Record { arguments: start().float(x), answer: start().float(of(x)) };
    File { name, records: arguments(seed, limit, spread).into_iter().map(record).collect() }
}

fn prbmuf_record(hour: MufHour, [fmhz, fgo, fset]: [f32; 3], il: usize) -> Record {
    let answer = if (1..=4).contains(&il) {
        start().word(0).float(oracle::prbmuf(&hour.into(), fmhz, fgo, fset, il))
    } else {
        start().word(13).float(0.0)
    };
    let arguments = start().floats(&hour.sigl).floats(&hour.sigu);
    Record { arguments: arguments.floats(&[fmhz, fgo, fset]).count(il), answer }
}

fn prbmuf_file() -> File {
    let mut prng = Prng::new(113);
    let special = floats::about(0.001, 5.0);
    let records = (0..300)
        .map(|i| {
            let mut number = |low, high| match i % 3 {
                0 => prng.within(low, high),
                1 => prng.float(),
                _ => prng.among(&special),
            };
            let sigl = std::array::from_fn(|_| number(0.0, 6.0));
            let sigu = std::array::from_fn(|_| number(0.0, 6.0));
            let frequencies = std::array::from_fn(|_| number(-1.0, 30.0));
            let beyond = [0, 5, 6, 1 << 32, (1 << 32) + 1, usize::MAX];
            let il = if i % 10 == 9 { prng.among(&beyond) } else { 1 + prng.below(4) };
            prbmuf_record(MufHour { sigl, sigu }, frequencies, il)
        })
        .collect();
    File { name: "prbmuf", records }
}

fn reset_file() -> File {
    let mut prng = Prng::new(114);
    let records = (0..50)
        .map(|_| {
            let list = AllModes::from_words(prng.words());
            let mut rust = oracle::AllModes::from(list);
            rust.reset();
            Record { arguments: start().list(&list), answer: start().list(&rust.into()) }
        })
        .collect();
    File { name: "reset", records }
}

/// Lists, slots and their ends of any kind, until the call has this number.
fn accumulate_record(prng: &mut Prng, refusal: u32) -> Record {
    let heights = [300.0, 250.0, 0.0, -0.0, -1.0, f32::NAN, f32::INFINITY, f32::from_bits(1)];
    loop {
        let (mut m, mut zon) = (AllModes::from_words(prng.words()), Zon::from_words(prng.words()));
        m.nmmod = prng.among(&[0, 1, 7, 13, 14, 16, 18, 19, 20, 21, usize::MAX]);
        zon.hp = std::array::from_fn(|_| prng.among(&heights));
        let ist = prng.among(&[0, 1, 1, 1, 2, 3, 5, 7, 8, 9, usize::MAX]);
        let lst = prng.among(&[0, 1, 3, 5, 6, 7, 7, 7, 8, 1 << 32, usize::MAX]);
        if limits::accumulate(&m, &zon, ist, lst) == refusal {
            let mut rust = oracle::AllModes::from(m);
            if refusal == 0 {
                rust.accumulate(&zon.into(), ist, lst);
            }
            return Record {
                arguments: start().list(&m).zon(&zon).count(ist).count(lst),
                answer: start().word(refusal).list(&rust.into()),
            };
        }
    }
}

fn accumulate_file() -> File {
    let mut prng = Prng::new(115);
    let refusals = [[0; 30].as_slice(), &[11; 10], &[12; 10]].concat();
    let records = refusals.into_iter().map(|n| accumulate_record(&mut prng, n)).collect();
    File { name: "accumulate", records }
}

/// A case by name: a job, and the length of the answer that is lent.
type Named = (&'static str, Vec<u8>, usize);

/// Document 01's cases by name: "All-zero tables otherwise; freq 2, fi third 1, ghop 0.5", nang 40.
/// The answer's wrong lengths stand beside the job's.
fn named() -> Vec<Named> {
    let sheet = Job::zeros();
    let with = |name, change: fn(&mut FindfJob)| {
        let mut job = sheet;
        change(&mut job.walk);
        (name, job.bytes(), Answer::BYTES)
    };
    let whole = sheet.bytes();
    let longer = [whole.as_slice(), &[0]].concat();
    vec![
        with("nang 40", |walk| walk.nang = 40),
        with("nang 41", |walk| walk.nang = 41),
        with("k 4", |walk| walk.k = 4),
        with("k 5", |walk| walk.k = 5),
        with("ifob 99999", |walk| walk.ifob[0] = 99999),
        with("ifob 100000", |walk| walk.ifob[0] = 100000),
        ("job of 5,359 bytes", whole[..5359].to_vec(), Answer::BYTES),
        ("job of 5,360 bytes", whole.clone(), Answer::BYTES),
        ("job of 5,361 bytes", longer, Answer::BYTES),
        ("answer of 1,639 bytes", whole.clone(), 1639),
        ("answer of 1,641 bytes", whole, 1641),
    ]
}

/// The numbers and the answers of these cases. The program makes the jobs itself.
fn named_file() -> File {
    let answers = named().into_iter().map(|(_, job, answer)| job_answer(&job, answer));
    let records = answers.map(|answer| Record { arguments: start(), answer }).collect();
    File { name: "named", records }
}

/// All that is stored in data/.
pub fn files() -> Vec<File> {
    let files = vec![
        jobs("jobs_realistic", 101, job::realistic),
        jobs("jobs_adversarial", 102, job::adversarial),
        jobs("jobs_limits", 103, job::about_limits),
        findf_file(),
        fdist_file(),
        esmod_file(),
        function("sqrt", 106, f32::INFINITY, 0.0..=100.0, f32::sqrt),
        function("sin", 107, 4.0, -4.0..=4.0, page::sin),
        function("cos", 108, 4.0, -4.0..=4.0, page::cos),
        function("asin", 109, 1.0, -1.0..=1.0, page::asin),
        function("acos", 110, 1.0, -1.0..=1.0, page::acos),
        function("atan", 111, f32::INFINITY, -8.0..=8.0, page::atan),
        function("fnorml", 112, f32::INFINITY, -6.0..=6.0, oracle::fnorml),
        prbmuf_file(),
        reset_file(),
        accumulate_file(),
        named_file(),
    ];
    for file in &files {
        let size = |record: &Record| (record.arguments.0.len(), record.answer.0.len());
        assert!(file.records.iter().all(|record| size(record) == size(&file.records[0])));
    }
    files
}

/// What the program must print: of each file how many records agree, and how many of the first one
/// with a word of its answer altered; then the cases by name, and all together.
pub fn stdout(files: &[File]) -> String {
    let line = |name: &str, records: usize, altered: usize| {
        format!("{name}: {records} of {records} agree, and 0 of {altered} altered\n")
    };
    let mut text = String::new();
    let mut all_altered = 0;
    for file in files.iter().filter(|file| file.name != "named") {
        let altered = file.records[0].answer.0.len() / 4;
        text += &line(file.name, file.records(), altered);
        all_altered += altered;
    }
    for (name, job, answer) in named() {
        text += &match limits::job(&job, answer) {
            0 => format!("{name}: accepted\n"),
            refusal => format!("{name}: refused as {refusal}\n"),
        };
    }
    text += "root of 4: 2\n";
    text + &line("total", files.iter().map(File::records).sum::<usize>() + 1, all_altered)
}
