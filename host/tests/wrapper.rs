//! The safe wrapper says what the answer's bytes say, and its builder refuses what the library
//! refuses.

use host::entries::{self, EsJob};
use host::esmod;
use host::job::{self as raw, KINDS};
use host::limits;
use host::prng::Prng;
use host::samples::samples;
use ray::{Answer, Es, EsHop, EsPoint, Field, Job, Kind, Layer, Ray, Refusal, Row, Skip, Slot};
use std::fs;
use std::path::Path;

/// The bytes of all samples.
fn stored() -> impl Iterator<Item = Vec<u8>> {
    let jobs = Path::new(env!("CARGO_MANIFEST_DIR")).join("../jobs");
    samples().into_iter().map(move |sample| fs::read(jobs.join(sample.file())).unwrap())
}

fn bits<const N: usize>(floats: [f32; N]) -> [u32; N] {
    floats.map(f32::to_bits)
}

/// Layer numbers have no other way out than their number.
fn row_words(row: Row) -> [u32; 8] {
    let Row {
        angle,
        virtual_height,
        true_height,
        hop_length,
        frequency,
        absorption,
        layer,
        kind,
        ..
    } = row;
    let [a, b, c, d, e, f] =
        bits([angle, virtual_height, true_height, hop_length, frequency, absorption]);
    [a, b, c, d, e, f, layer.number(), kind.number()]
}

fn ray_words(ray: Ray) -> [u32; 6] {
    let Ray { angle, virtual_height, true_height, frequency, absorption, layer, .. } = ray;
    let [a, b, c, d, e] = bits([angle, virtual_height, true_height, frequency, absorption]);
    [a, b, c, d, e, layer.number()]
}

fn skip_words(skip: Skip) -> [u32; 6] {
    let Skip { distance, angle, virtual_height, true_height, frequency, layer, .. } = skip;
    let [a, b, c, d, e] = bits([distance, angle, virtual_height, true_height, frequency]);
    [a, b, c, d, e, layer.number()]
}

/// An answer against its bytes, read by the host's own reader.
fn check_answer(answer: &Answer, amind: f32, bytes: &[u8]) {
    assert!(answer.as_bytes()[..] == *bytes);
    let words = raw::Answer::from_bytes(bytes);
    assert_eq!(answer.rows().len(), words.rows as usize);
    for (i, row) in answer.rows().enumerate() {
        assert!([Layer::E, Layer::F1, Layer::F2].contains(&row.layer));
        assert_ne!(row.kind, Kind::Unwritten);
        let [a, b, c, d, e, f] = bits([
            words.delfx[i],
            words.hpflx[i],
            words.htflx[i],
            words.gdflx[i],
            words.fvflx[i],
            words.afflx[i],
        ]);
        assert_eq!(row_words(row), [a, b, c, d, e, f, words.imode[i], words.kind[i]]);
    }
    let mut rays = answer.rays();
    for (i, slot) in answer.slots().into_iter().enumerate() {
        let ray = |height: f32| {
            let [a, b, c, d, e] =
                bits([words.delmod[i], height, words.htmod[i], words.fvmod[i], words.afmod[i]]);
            [a, b, c, d, e, words.itmod[i]]
        };
        match slot {
            Slot::Empty => assert_eq!((words.itmod[i], words.hpmod[i]), (5, -1.0)),
            Slot::TooLow(found) => {
                assert!(words.hpmod[i].is_sign_negative() || words.hpmod[i].is_nan());
                assert!(found.angle.is_nan() || found.angle < amind);
                assert_eq!(ray_words(found), ray(words.hpmod[i].abs()));
                assert_eq!(found.slot, i + 1);
            }
            Slot::Ray(found) => {
                assert!(found.angle >= amind);
                assert_eq!(ray_words(found), ray(words.hpmod[i]));
                assert_eq!(found.slot, i + 1);
                assert_eq!(rays.next().map(ray_words), Some(ray_words(found)));
            }
        }
    }
    assert!(rays.next().is_none());
    assert_eq!([answer.looks(), answer.pairs()], [words.looks, words.pairs]);
    assert_eq!(bits(answer.penetration_angles()), bits(words.delpen));
    match answer.skip() {
        None => assert!([10000.0, -1.0].contains(&words.dskpkm), "{}", words.dskpkm),
        Some(skip) => {
            let [a, b, c, d, e] =
                bits([words.dskpkm, words.delskp, words.hpskp, words.htskp, words.fvskp]);
            assert_eq!(skip_words(skip), [a, b, c, d, e, words.iskp]);
        }
    }
    assert_eq!(answer.farthest_km().unwrap_or(0.0), words.dmaxkm.max(0.0));
}

/// What became of a job.
#[derive(Default)]
struct Seen {
    accepted: usize,
    too_low: usize,
    rays: usize,
    refused: [usize; 11],
}

/// A job of any bytes: the wrapper against the library's own call.
fn check(bytes: &[u8], seen: &mut Seen) {
    let job = Job::from_bytes(bytes).unwrap();
    assert!(job.to_bytes()[..] == *bytes);
    let mut answer = [0xee; raw::Answer::BYTES];
    let number = entries::job(bytes, &mut answer);
    assert_eq!(number, limits::job(bytes, answer.len()));
    match job.solve() {
        Err(refusal) => {
            assert_eq!(refusal.number(), number);
            seen.refused[number as usize] += 1;
        }
        Ok(solved) => {
            assert_eq!(number, 0);
            check_answer(&solved, job.amind(), &answer);
            seen.accepted += 1;
            seen.rays += solved.rays().len();
            let low = |slot: &&Slot| matches!(slot, Slot::TooLow(_));
            seen.too_low += solved.slots().iter().filter(low).count();
        }
    }
    check_builder(&job, number);
}

/// The builder with a job's numbers gives the same bytes where the library accepts them, and else
/// names a number that is not within its range, with the library's refusal.
fn check_builder(job: &Job, number: u32) {
    let built = Job::builder()
        .k(job.k())
        .nang(job.nang())
        .freq(job.freq())
        .amind(job.amind())
        .ghop(job.ghop())
        .fi(&job.fi())
        .fvert(&job.fvert())
        .hprim(&job.hprim())
        .htrue(&job.htrue())
        .afac(&job.afac())
        .ifob(&job.ifob())
        .build();
    match built {
        Ok(built) => {
            assert_eq!(number, 0);
            assert!(built == *job);
            assert!(built.to_builder().build().unwrap() == *job);
        }
        Err(outside) => {
            assert_eq!(outside.refusal().number(), number, "{outside}");
            assert!(!outside.range().contains(outside.value()), "{outside}");
            assert_eq!(job.to_builder().build().unwrap_err().to_string(), outside.to_string());
        }
    }
}

#[test]
fn the_samples() {
    let mut seen = Seen::default();
    stored().for_each(|bytes| check(&bytes, &mut seen));
    assert_eq!((seen.accepted, seen.refused[9]), (16, 1));
    assert_eq!((seen.rays, seen.too_low), (5 + 2 + 6 + 1 + 6 + 6 + 5 + 6, 1));
}

#[test]
fn random_jobs() {
    let mut prng = Prng::new(50);
    let mut seen = Seen::default();
    for (_, kind) in KINDS {
        (0..10_000).for_each(|_| check(&kind(&mut prng).bytes(), &mut seen));
    }
    assert!(seen.accepted > 20_000, "{}", seen.accepted);
    assert!(seen.rays > 10_000 && seen.too_low > 100, "{} {}", seen.rays, seen.too_low);
    assert!(seen.refused[3..].iter().all(|jobs| *jobs > 100), "{:?}", seen.refused);
}

/// Each number about its limits by itself, with the sentence that names it.
#[test]
fn the_builder_names_the_number() {
    let noon = || Job::from_bytes(&stored().next().unwrap()).unwrap();
    let (mut fvert, mut htrue, mut afac) = (noon().fvert(), noon().htrue(), noon().afac());
    (fvert[0], htrue[29], afac[1]) = (-1.0, f32::INFINITY, -3e10);
    let mut ifob = noon().ifob();
    ifob[1][1] = -3;
    let cases = [
        (noon().to_builder().k(5), Field::K, "k is 5, not within 0 to 4"),
        (noon().to_builder().point(7, [1.0; 3]), Field::K, "k is 7, not within 0 to 4"),
        (noon().to_builder().nang(41), Field::Nang, "nang is 41, not within 0 to 40"),
        (noon().to_builder().freq(1.5), Field::Freq, "freq is 1.5, not within 2 to 30 MHz"),
        (noon().to_builder().amind(-1.0), Field::Amind, "amind is -1, not within 0 to 90 deg"),
        (noon().to_builder().ghop(f32::NAN), Field::Ghop, "ghop is NaN, not within 0 to 4 radians"),
        (
            noon().to_builder().hop_km(30000.0),
            Field::Ghop,
            "ghop is 4.709576, not within 0 to 4 radians",
        ),
        (
            noon().to_builder().point(3, [1.0, -1.0, 2.0]),
            Field::FiF1,
            "fi, F1 at point 3, is -1, not within 0 to 100 MHz",
        ),
        (
            noon().to_builder().point(4, [1.0, 2.0, 0.05]),
            Field::FiF2,
            "fi, F2 at point 4, is 0.05, not within 0.1 to 100 MHz",
        ),
        (
            noon().to_builder().fvert(&fvert),
            Field::Fvert,
            "fvert, row 1, is -1, not within 0 to 100 MHz",
        ),
        (
            noon().to_builder().htrue(&htrue),
            Field::Htrue,
            "htrue, row 30, is inf, not within 0 to 2000 km",
        ),
        (
            noon().to_builder().afac(&afac),
            Field::Afac,
            "afac, row 2, is -30000000000, not within -1000000 to 1000000",
        ),
        (
            noon().to_builder().ifob(&ifob),
            Field::Ifob,
            "ifob, angle 2, row 2, is -3, not within 0 to 99999 kHz",
        ),
    ];
    for (builder, field, sentence) in cases {
        let outside = builder.build().unwrap_err();
        assert_eq!((outside.field(), outside.to_string().as_str()), (field, sentence));
    }
}

/// A point's numbers go to their place, and a hop in km to the radians of the samples.
#[test]
fn the_builder_puts_what_it_is_given() {
    let noon = Job::from_bytes(&stored().next().unwrap()).unwrap();
    let job = noon.to_builder().point(2, [1.0, 0.0, 7.0]).hop_km(1600.0).build().unwrap();
    let mut fi = noon.fi();
    fi[2] = [1.0, 0.0, 7.0];
    assert_eq!((job.k(), job.fi(), job.ghop()), (2, fi, noon.ghop()));
}

#[test]
fn a_job_of_another_length_is_refused() {
    for length in [0, 1, 5359, 5361, 10720] {
        assert_eq!(Job::from_bytes(&vec![0; length]).unwrap_err(), Refusal::JOB);
    }
}

/// A ray by sporadic E, or -1 in all four numbers.
fn es_words(hop: Option<EsHop>) -> [u32; 4] {
    let numbers = |EsHop { angle, hops, height, delay, .. }| [angle, hops as f32, height, delay];
    bits(hop.map_or([-1.0; 4], numbers))
}

/// The wrapper against the library's own call, on as many points as the job counts, up to 7: those
/// beyond the fifth may be anything.
#[test]
fn random_jobs_of_sporadic_e() {
    let mut prng = Prng::new(51);
    let mut found = [0; 15];
    for (_, kind) in esmod::KINDS {
        for _ in 0..10_000 {
            let job = kind(&mut prng);
            let job = EsJob { km: job.km.min(7), ..job };
            let EsJob { km, gcd, gcdkm, amind, freq, fsdead, .. } = job;
            let point = |i| match i {
                0..5 => EsPoint { fs: job.fs[i], hs: job.hs[i] },
                _ => EsPoint { fs: [prng.float(); 3], hs: prng.float() },
            };
            let points: Vec<EsPoint> = (0..km).map(point).collect();
            let path = Es { points: &points, gcd, gcdkm, amind, freq, fsdead };
            let answer = esmod::ours(&job);
            match path.solve() {
                Err(refusal) => assert_eq!(refusal.number(), answer.refusal),
                Ok(modes) => {
                    assert_eq!(answer.refusal, 0);
                    for (ours, raw) in [(modes.slot4, answer.slot4), (modes.slot5, answer.slot5)] {
                        assert_eq!(es_words(ours), bits([raw.b, raw.hn, raw.hp, raw.timed]));
                    }
                    let both = [modes.slot4, modes.slot5].into_iter().flatten();
                    assert!(modes.hops().eq(both));
                }
            }
            found[answer.refusal as usize] += 1;
        }
    }
    for number in [0, 5, 6, 14] {
        assert!(found[number] > 500, "{number}: {found:?}");
    }
}
