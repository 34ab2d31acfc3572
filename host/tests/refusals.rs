//! Limits 1 to 14: the right number, and nothing changed.

use host::entries::{self, AllModes, EsJob, FindfJob, HopModes, MufHour, Reflectrix, Zon};
use host::job::{self, Answer, Job};
use host::prng::Prng;
use host::tally::Tally;
use host::{esmod, fdist, findf, floats, limits};

const LAYERS_OUTSIDE: [usize; 6] = [0, 5, 6, 1 << 32, usize::MAX - 1, usize::MAX];
const COUNTS: [usize; 8] = [0, 13, 14, 19, 20, 21, 25, usize::MAX];

#[test]
fn prbmuf_refuses_a_layer_outside_1_to_4_first() {
    let mut prng = Prng::new(3);
    for il in LAYERS_OUTSIDE {
        for fset in [f32::NAN, f32::NEG_INFINITY, -1.0, -0.0, 0.0, 1.0, f32::INFINITY] {
            let hour = MufHour { sigl: [1.0; 4], sigu: [2.0; 4] };
            let before = prng.word();
            let mut out = f32::from_bits(before);
            assert_eq!(entries::prbmuf(&hour, 7.0, 9.0, fset, il, &mut out), 13, "{il} {fset}");
            assert_eq!(out.to_bits(), before, "{il} {fset}");
        }
    }
}

#[test]
fn prbmuf_takes_layers_1_to_4() {
    let hour = MufHour { sigl: [1.0; 4], sigu: [2.0; 4] };
    for il in 1..=4 {
        for fset in [-1.0, 0.0, 1.0] {
            let mut out = f32::NAN;
            assert_eq!(entries::prbmuf(&hour, 7.0, 9.0, fset, il, &mut out), 0, "{il} {fset}");
            assert!(!out.is_nan(), "{il} {fset}");
        }
    }
}

/// Calls accumulate on random columns and checks its number against the limits; where it
/// refuses, the list must be as it was.
fn check_accumulate(prng: &mut Prng, hp: [f32; 7], count: usize, ist: usize, lst: usize) -> u32 {
    let mut zon = Zon::from_words(prng.words());
    zon.hp = hp;
    let mut list = AllModes::from_words(prng.words());
    list.nmmod = count;
    let ours = entries::accumulate(list, zon, ist, lst);
    let at = format!("ist {ist}, lst {lst}, count {count}, heights {hp:?}");
    assert_eq!(ours.refusal, limits::accumulate(&list, &zon, ist, lst), "{at}");
    assert!(ours.refusal == 0 || ours.modes.words() == list.words(), "{at}");
    ours.refusal
}

#[test]
fn accumulate_refuses_slots_outside_1_to_7() {
    let mut prng = Prng::new(4);
    for (ist, lst) in [(0, 0), (0, 7), (1, 8), (9, 8), (usize::MAX, 8), (1, usize::MAX)] {
        for count in COUNTS {
            assert_eq!(check_accumulate(&mut prng, [-1.0; 7], count, ist, lst), 11);
            assert_eq!(check_accumulate(&mut prng, [300.0; 7], count, ist, lst), 11);
        }
    }
}

#[test]
fn accumulate_refuses_to_pass_20() {
    let mut prng = Prng::new(5);
    for count in (0..=25).chain([usize::MAX - 6, usize::MAX]) {
        let expected = |added: usize| if count <= 20 - added { 0 } else { 12 };
        assert_eq!(check_accumulate(&mut prng, [300.0; 7], count, 1, 7), expected(7));
        assert_eq!(check_accumulate(&mut prng, [300.0; 7], count, 7, 7), expected(1));
        assert_eq!(check_accumulate(&mut prng, [-300.0; 7], count, 1, 7), expected(0));
        assert_eq!(check_accumulate(&mut prng, [300.0; 7], count, 5, 4), expected(0));
    }
}

#[test]
fn accumulate_refuses_by_the_limits_alone() {
    let heights = [1.0, 0.0, -0.0, f32::NAN, f32::INFINITY, f32::NEG_INFINITY, f32::from_bits(1)];
    let mut prng = Prng::new(6);
    for ist in (0..=9).chain([usize::MAX]) {
        for lst in (0..=9).chain([usize::MAX]) {
            for count in (0..=25).chain([usize::MAX - 6, usize::MAX]) {
                for _ in 0..10 {
                    let hp = std::array::from_fn(|_| prng.among(&heights));
                    check_accumulate(&mut prng, hp, count, ist, lst);
                }
            }
        }
    }
}

/// The number that findf refuses a job with. It must be the one by the limits, and a refusal must
/// leave all as it was.
fn refusal(prng: &mut Prng, job: &FindfJob) -> u32 {
    findf::check(&findf::OURS, Reflectrix::random(prng), job, &mut Tally::default()).unwrap();
    limits::findf(job)
}

#[test]
fn findf_refuses_each_number_beyond_its_limits() {
    let mut prng = Prng::new(24);
    let good = findf::realistic(&mut prng);
    assert_eq!(refusal(&mut prng, &good), 0);
    for place in 0..findf::LIMITED {
        let range = findf::limited(&mut { good }, place).1;
        for number in floats::about(*range.start(), *range.end()) {
            let mut job = good;
            *findf::limited(&mut job, place).0 = number;
            let expected = [5, 6, 8, 8].get(place).unwrap_or(&9);
            let expected = if range.contains(&number) { 0 } else { *expected };
            assert_eq!(refusal(&mut prng, &job), expected, "place {place}, {number:e}");
        }
    }
    for at in 0..good.ifob.len() {
        for entry in findf::ENTRIES {
            let mut job = good;
            job.ifob[at] = entry;
            let expected = if limits::IFOB.contains(&entry) { 0 } else { 10 };
            assert_eq!(refusal(&mut prng, &job), expected, "entry {at}, {entry}");
        }
    }
    for k in findf::KS {
        for nang in findf::NANGS {
            let mut job = FindfJob { k, nang, ..good };
            job.fi = [[1.0; 3]; 5];
            let expected = if k > 4 {
                3
            } else if nang > 40 {
                4
            } else {
                0
            };
            assert_eq!(refusal(&mut prng, &job), expected, "k {k}, nang {nang}");
        }
    }
}

#[test]
fn findf_reads_no_limits_elsewhere() {
    let mut prng = Prng::new(25);
    for k in 0..5 {
        let mut job = findf::realistic(&mut prng);
        let [_, second, third] = job.fi[job.k];
        job.k = k;
        job.fi = [[f32::NAN; 3]; 5];
        job.fi[k] = [f32::NAN, second, third];
        assert_eq!(refusal(&mut prng, &job), 0, "k {k}");
    }
}

type Mend = fn(&mut FindfJob, &FindfJob);

/// All limits broken, then mended one by one: the numbers come in document 01's order.
#[test]
fn findf_refuses_by_the_first_limit_broken() {
    let mut prng = Prng::new(26);
    let good = FindfJob { k: 2, fi: [[1.0; 3]; 5], ..findf::realistic(&mut prng) };
    let broken = [f32::NAN, f32::INFINITY, f32::NEG_INFINITY, 2e6];
    for bad in broken {
        let mut job = FindfJob { k: 5, nang: 41, freq: bad, amind: bad, ..good };
        (job.fi, job.fvert, job.hprim) = ([[bad; 3]; 5], [bad; 30], [bad; 30]);
        (job.htrue, job.afac, job.ifob) = ([bad; 30], [bad; 30], [-1; 1200]);
        let mends: [(u32, Mend); 11] = [
            (3, |job, good| job.k = good.k),
            (4, |job, good| job.nang = good.nang),
            (5, |job, good| job.freq = good.freq),
            (6, |job, good| job.amind = good.amind),
            (8, |job, good| job.fi[2][1] = good.fi[2][1]),
            (8, |job, good| job.fi[2][2] = good.fi[2][2]),
            (9, |job, good| job.fvert = good.fvert),
            (9, |job, good| job.hprim = good.hprim),
            (9, |job, good| job.htrue = good.htrue),
            (9, |job, good| job.afac = good.afac),
            (10, |job, good| job.ifob = good.ifob),
        ];
        for (number, mend) in mends {
            assert_eq!(refusal(&mut prng, &job), number, "{bad}");
            mend(&mut job, &good);
        }
        assert_eq!(refusal(&mut prng, &job), 0, "{bad}");
    }
}

#[test]
fn fdist_refuses_by_the_first_limit_broken() {
    let mut prng = Prng::new(27);
    let mut tally = Tally::default();
    let about = |range: std::ops::RangeInclusive<f32>| floats::about(*range.start(), *range.end());
    for freq in about(limits::FREQ) {
        for amind in about(limits::AMIND) {
            for ghop in about(limits::GHOP) {
                let job = entries::FdistJob { freq, amind, ghop, ..fdist::arbitrary(&mut prng) };
                fdist::check(HopModes::random(&mut prng), &job, &mut tally);
            }
        }
    }
    // Of 14 numbers 4 are within freq's limits, 7 within amind's and 7 within ghop's.
    let [accepted, .., five, six, seven] = tally.refusals[..8] else { unreachable!() };
    let expected = [4 * 7 * 7, 10 * 14 * 14, 4 * 7 * 14, 4 * 7 * 7];
    assert_eq!([accepted, five, six, seven], expected);
}

/// The number that the job call refuses these bytes with, on an answer of this length and any
/// contents, both at any place. It must be the one by the limits, and a refusal must leave all as
/// it was.
fn job_refusal(prng: &mut Prng, bytes: &[u8], answer: usize) -> u32 {
    let old: Vec<u8> = (0..answer).map(|_| prng.word() as u8).collect();
    let places = [prng.below(16), prng.below(16)];
    job::check(&entries::job, bytes, &old, places, &mut Tally::default()).unwrap()
}

/// A job within the limits at every point, and one that breaks each of limits 3 to 10.
fn good_and_bad_job(prng: &mut Prng) -> [Vec<u8>; 2] {
    let mut good = job::realistic(prng);
    good.walk.fi = [[1.0; 3]; 5];
    [good.bytes(), vec![0xff; Job::BYTES]]
}

#[test]
fn jobs_of_every_wrong_length_are_refused() {
    let mut prng = Prng::new(35);
    // Lengths whose last 16 bits are right, too.
    let (job_length, answer_length) = (Job::BYTES, Answer::BYTES);
    let job_lengths = (0..job_length + 700).chain([job_length + (1 << 16)]);
    let answer_lengths = (0..answer_length + 700).chain([answer_length + (1 << 16)]);
    for job in good_and_bad_job(&mut prng) {
        let long = [&job[..], &[0x5a; 1 << 16]].concat();
        for length in job_lengths.clone().filter(|length| *length != job_length) {
            let other = prng.below(2 * answer_length);
            for answer in [answer_length, answer_length - 1, answer_length + 1, 0, other] {
                let number = job_refusal(&mut prng, &long[..length], answer);
                assert_eq!(number, 1, "job {length}, answer {answer}");
            }
        }
        for answer in answer_lengths.clone().filter(|length| *length != answer_length) {
            assert_eq!(job_refusal(&mut prng, &job, answer), 2, "answer {answer}");
            for length in [job_length - 1, job_length + 1, 0] {
                let number = job_refusal(&mut prng, &long[..length], answer);
                assert_eq!(number, 1, "job {length}, answer {answer}");
            }
        }
    }
    let [good, bad] = good_and_bad_job(&mut prng);
    assert_eq!(job_refusal(&mut prng, &good, answer_length), 0);
    assert_eq!(job_refusal(&mut prng, &bad, answer_length), 3);
}

/// The size that an answer had before its rows had kinds, and those about it and about the new one.
#[test]
fn answers_without_room_for_kinds_are_refused() {
    let mut prng = Prng::new(41);
    let jobs = good_and_bad_job(&mut prng);
    for size in [Answer::BYTES - 4 * Answer::KINDS, Answer::BYTES] {
        for answer in (size - 8..=size + 8).filter(|length| *length != Answer::BYTES) {
            for job in &jobs {
                assert_eq!(job_refusal(&mut prng, job, answer), 2, "answer {answer}");
            }
        }
    }
}

#[test]
fn jobs_are_taken_at_every_place() {
    let mut prng = Prng::new(36);
    let [good, bad] = good_and_bad_job(&mut prng);
    let old = [0xee; Answer::BYTES];
    for places in (0..16).flat_map(|job| (0..16).map(move |answer| [job, answer])) {
        let number = |job: &[u8]| {
            job::check(&entries::job, job, &old, places, &mut Tally::default()).unwrap()
        };
        assert_eq!([number(&good), number(&bad)], [0, 3], "{places:?}");
    }
}

/// A word of a job, or the same one at each point, set to a number about its limit.
struct Edge {
    limit: u32,
    words: Vec<usize>,
    bits: u32,
    within: bool,
}

impl Edge {
    fn set(&self, job: &mut [u8]) {
        for word in &self.words {
            job[4 * word..4 * word + 4].copy_from_slice(&self.bits.to_le_bytes());
        }
    }
}

/// The numbers of a job about their limits; of the tables, these rows and entries.
fn edges(rows: &[usize], entries: &[usize]) -> Vec<Edge> {
    let mut edges = Vec::new();
    let counts: [(u32, usize, u32); 2] = [(3, 0, 4), (4, 1, 40)];
    for (limit, word, most) in counts {
        for bits in [0, 1, most - 1, most, most + 1, most + (1 << 16), 1 << 31, u32::MAX] {
            edges.push(Edge { limit, words: vec![word], bits, within: bits <= most });
        }
    }
    let points = |word| (0..5).map(|point: usize| word + 3 * point).collect();
    let columns = [limits::FVERT, limits::HPRIM, limits::HTRUE, limits::AFAC].into_iter();
    let columns = (0..).zip(columns).flat_map(|(column, range)| {
        rows.iter().map(move |row| (9, vec![20 + 30 * column + row], range.clone()))
    });
    let floats = [
        (5, vec![2], limits::FREQ),
        (6, vec![3], limits::AMIND),
        (7, vec![4], limits::GHOP),
        (8, points(6), limits::FI_SECOND),
        (8, points(7), limits::FI_THIRD),
    ];
    for (limit, words, range) in floats.into_iter().chain(columns) {
        for number in floats::about(*range.start(), *range.end()) {
            let (words, bits) = (words.clone(), number.to_bits());
            edges.push(Edge { limit, words, bits, within: range.contains(&number) });
        }
    }
    for (at, entry) in entries.iter().flat_map(|at| findf::ENTRIES.map(|entry| (at, entry))) {
        let within = limits::IFOB.contains(&entry);
        edges.push(Edge { limit: 10, words: vec![140 + at], bits: entry as u32, within });
    }
    edges
}

/// The number of the first limit that some edges break, else 0.
fn first_broken(edges: &[&Edge]) -> u32 {
    edges.iter().filter(|edge| !edge.within).map(|edge| edge.limit).min().unwrap_or(0)
}

/// Each by itself, and with a wrong length.
#[test]
fn jobs_are_refused_for_each_number_beyond_its_limits() {
    let mut prng = Prng::new(39);
    let [good, _] = good_and_bad_job(&mut prng);
    let rows: Vec<usize> = (0..30).collect();
    let entries: Vec<usize> = (0..1200).collect();
    for edge in edges(&rows, &entries) {
        let mut job = good.clone();
        edge.set(&mut job);
        let at = format!("word {:?}, {:08x}", edge.words, edge.bits);
        assert_eq!(job_refusal(&mut prng, &job, Answer::BYTES), first_broken(&[&edge]), "{at}");
        assert_eq!(job_refusal(&mut prng, &job, Answer::BYTES - 1), 2, "{at}");
        assert_eq!(job_refusal(&mut prng, &job[1..], Answer::BYTES), 1, "{at}");
    }
}

/// Each with every other: of each table, the first and the last place.
#[test]
fn jobs_are_refused_by_the_first_of_two_limits() {
    let mut prng = Prng::new(37);
    let [good, _] = good_and_bad_job(&mut prng);
    let edges = edges(&[0, 29], &[0, 1199]);
    let mut found = [0; 11];
    for (i, one) in edges.iter().enumerate() {
        for two in edges[i..].iter().filter(|two| two.words != one.words) {
            let mut job = good.clone();
            one.set(&mut job);
            two.set(&mut job);
            let number = job_refusal(&mut prng, &job, Answer::BYTES);
            let words = (&one.words, &two.words);
            assert_eq!(
                number,
                first_broken(&[one, two]),
                "{words:?} {:08x?}",
                [one.bits, two.bits]
            );
            found[number as usize] += 1;
        }
    }
    assert!(found[3..].iter().all(|jobs| *jobs > 100), "{found:?}");
    assert!(found[0] > 1_000, "{found:?}");
}

/// All limits broken, then mended one by one: the numbers come in document 01's order.
#[test]
fn jobs_are_refused_by_the_first_of_all_limits() {
    let mut prng = Prng::new(38);
    let [good, _] = good_and_bad_job(&mut prng);
    let ends = [1, 2, 3, 4, 5, 20, 140, 1340].map(|word| 4 * word);
    let broken = [f32::NAN, f32::INFINITY, f32::NEG_INFINITY, 2e6];
    for bad in broken.map(|bad| bad.to_bits().to_le_bytes().repeat(1340)) {
        let long = [&bad[..], &[0]].concat();
        assert_eq!(job_refusal(&mut prng, &long, Answer::BYTES - 1), 1);
        assert_eq!(job_refusal(&mut prng, &bad, Answer::BYTES - 1), 2);
        // The words up to `end` are the good job's: k, nang, freq and so on.
        for (end, number) in [0].into_iter().chain(ends).zip([3, 4, 5, 6, 7, 8, 9, 10, 0]) {
            let job = [&good[..end], &bad[end..]].concat();
            assert_eq!(job_refusal(&mut prng, &job, Answer::BYTES), number, "{end}");
        }
    }
}

/// The number that esmod refuses a job with. It must be the one by the limits, and a refusal must
/// leave both slots empty.
fn es_refusal(prng: &mut Prng, job: &EsJob) -> u32 {
    esmod::check(&esmod::ours, job, prng, &mut Tally::default()).unwrap();
    limits::esmod(job)
}

/// A job within the limits, whatever its km.
fn good_es_job(prng: &mut Prng) -> EsJob {
    EsJob { km: 5, ..esmod::coast(prng) }
}

/// Where a number that has limits stands among the points, of those that do.
fn point_of(place: usize) -> Option<usize> {
    match place {
        0..5 => None,
        5..10 => Some(place - 5),
        _ => Some((place - 10) / 3),
    }
}

/// Each by itself, for every count of points: of those that are not counted none is looked at.
#[test]
fn esmod_refuses_each_number_beyond_its_limits() {
    let mut prng = Prng::new(65);
    let good = good_es_job(&mut prng);
    for km in esmod::KMS {
        let job = EsJob { km, ..good };
        let by_count = if limits::KM.contains(&km) { 0 } else { 14 };
        assert_eq!(es_refusal(&mut prng, &job), by_count, "{km}");
        for place in 0..esmod::LIMITED {
            let (_, range, number) = esmod::limited(&mut { job }, place);
            for float in floats::about(*range.start(), *range.end()) {
                let mut job = job;
                *esmod::limited(&mut job, place).0 = float;
                let counted = point_of(place).is_none_or(|point| point < km);
                let broken = counted && !range.contains(&float);
                // 5 and 6 come before the count of the points.
                let expected = if broken { number } else { by_count };
                let found = es_refusal(&mut prng, &job);
                assert_eq!(found, expected, "km {km}, place {place}, {float:e}");
            }
        }
    }
}

/// Each with every other.
#[test]
fn esmod_refuses_by_the_first_of_two_limits() {
    let mut prng = Prng::new(66);
    let good = good_es_job(&mut prng);
    let mut found = [0; 15];
    for one in 0..esmod::LIMITED {
        for two in one + 1..esmod::LIMITED {
            let (_, range, first) = esmod::limited(&mut { good }, one);
            let (_, other_range, second) = esmod::limited(&mut { good }, two);
            for x in floats::about(*range.start(), *range.end()) {
                for y in floats::about(*other_range.start(), *other_range.end()) {
                    let mut job = good;
                    *esmod::limited(&mut job, one).0 = x;
                    *esmod::limited(&mut job, two).0 = y;
                    let expected = match (range.contains(&x), other_range.contains(&y)) {
                        (false, false) => first.min(second),
                        (false, true) => first,
                        (true, false) => second,
                        (true, true) => 0,
                    };
                    assert_eq!(es_refusal(&mut prng, &job), expected, "{one} {x:e}, {two} {y:e}");
                    found[expected as usize] += 1;
                }
            }
        }
    }
    assert!([0, 5, 6, 14].iter().all(|number| found[*number] > 1_000), "{found:?}");
}

/// All limits broken, then mended one by one.
#[test]
fn esmod_refuses_by_the_first_of_all_limits() {
    let mut prng = Prng::new(67);
    let good = good_es_job(&mut prng);
    for bad in [f32::NAN, f32::INFINITY, f32::NEG_INFINITY, 2e6, -1.0] {
        let mut job = EsJob { km: 0, fs: [[bad; 3]; 5], hs: [bad; 5], gcd: bad, ..good };
        (job.gcdkm, job.amind, job.freq, job.fsdead) = (bad, bad, bad, bad);
        assert_eq!(es_refusal(&mut prng, &job), 5, "{bad}");
        job.freq = good.freq;
        assert_eq!(es_refusal(&mut prng, &job), 6, "{bad}");
        job.amind = good.amind;
        assert_eq!(es_refusal(&mut prng, &job), 14, "{bad}");
        job.km = good.km;
        for place in 2..esmod::LIMITED {
            assert_eq!(es_refusal(&mut prng, &job), 14, "{bad}, place {place}");
            *esmod::limited(&mut job, place).0 = *esmod::limited(&mut { good }, place).0;
        }
        assert_eq!(es_refusal(&mut prng, &job), 0, "{bad}");
    }
}
