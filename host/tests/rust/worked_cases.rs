//! Document 01's worked cases of findf, fdist and the job call, on the library and on the oracle
//! itself; and those that are not marked P, run by name.

use host::entries::{self, FdistJob, FindfJob, HopModes, Reflectrix, Searched, Walked};
use host::findf::Walk;
use host::job::{self, Answer, Call, Job};
use host::oracle::{self, as_it_comes, led};
use host::tally::Tally;
use host::{fdist, findf};

type Search = fn(HopModes, &FdistJob) -> Searched;

/// Stands for a count that nothing counts.
const UNCOUNTED: u32 = u32::MAX;

/// The kinds of one row, a cusp's.
const CUSP_ALONE: [u32; 45] = {
    let mut kinds = [0; 45];
    kinds[0] = 3;
    kinds
};

fn check_count(count: u32, expected: u32) {
    assert!(count == expected || count == UNCOUNTED, "{count}, not {expected}");
}

fn zeros() -> Reflectrix {
    oracle::Reflectrix::default().into()
}

/// Tables of zeros with this fvert in row 10.
fn sheet(fvert: f32, nang: usize) -> Job {
    let mut walk = FindfJob {
        k: 0,
        nang,
        freq: 2.0,
        amind: 0.0,
        fi: [[0.0; 3]; 5],
        fvert: [0.0; 30],
        hprim: [0.0; 30],
        htrue: [0.0; 30],
        afac: [0.0; 30],
        ifob: [0; 1200],
    };
    walk.fi = [[0.0, 0.0, 1.0]; 5];
    walk.fvert[9] = fvert;
    Job { walk, ghop: 0.5 }
}

/// findf on such tables.
fn walk(findf: Walk, fvert: f32, nang: usize) -> Walked {
    findf(zeros(), &sheet(fvert, nang).walk)
}

/// fdist for 3185 km on this reflectrix.
fn search(fdist: Search, rfx: Reflectrix, amind: f32) -> Searched {
    let job = FdistJob { rfx, ghop: 0.5, amind, freq: 2.0 };
    fdist(oracle::HopModes::default().into(), &job)
}

/// Rows of these lengths, of height 300 and angle 10; the layers number the rows.
fn rows(lengths: &[f32], dmaxkm: f32) -> Reflectrix {
    let mut rfx = Reflectrix { dmaxkm, ..zeros() };
    for (row, length) in lengths.iter().enumerate() {
        rfx.gdflx[row] = *length;
        rfx.hpflx[row] = 300.0;
        rfx.delfx[row] = 10.0;
        rfx.imode[row] = row as u32 + 1;
    }
    rfx
}

fn check(findf: Walk, fdist: Search) {
    let Walked { rfx, looks, .. } = walk(findf, 0.0, 40);
    assert_eq!((rfx.rows_this_call, rfx.dskpkm, rfx.dmaxkm), (0, -1.0, -1.0));
    check_count(looks, 0);
    let Searched { m, pairs, rays, .. } = search(fdist, rfx, 0.0);
    assert_eq!((m.hpmod, m.itmod), ([-1.0; 6], [5; 6]));
    check_count(pairs, 0);
    check_count(rays, 0);

    let Walked { rfx, looks, .. } = walk(findf, 2.0, 0);
    assert_eq!(rfx.delpen, [89.9, 90.0, 90.0]);
    assert_eq!((rfx.rows_this_call, rfx.dskpkm, rfx.dmaxkm), (0, 10000.0, 0.0));
    check_count(looks, 0);

    let Walked { rfx, looks, .. } = walk(findf, 2.0, 1);
    assert_eq!(rfx.rows_this_call, 0);
    check_count(looks, 10);

    let Walked { rfx, looks, .. } = walk(findf, 2.0, 40);
    assert_eq!((rfx.rows_this_call, rfx.delfx[0], rfx.imode[0]), (1, 89.9, 1));
    check_count(looks, 48);
    // By order 2 the row is a cusp's; what counts nothing notes no kind.
    if looks != UNCOUNTED {
        assert_eq!(rfx.kind, CUSP_ALONE);
    }

    // The first slot's height, and its layer: the number of the row that gave it.
    let found = |lengths: &[f32], dmaxkm: f32, amind: f32, expected: [u32; 2]| {
        let Searched { m, pairs, rays, .. } = search(fdist, rows(lengths, dmaxkm), amind);
        check_count(pairs, expected[0]);
        check_count(rays, expected[1]);
        (m.hpmod[0], m.itmod[0])
    };
    let none = (-1.0, 5);
    assert_eq!(found(&[3185.0, 4000.0], 5000.0, 0.0, [1, 1]), (300.0, 1));
    assert_eq!(found(&[1000.0, 3185.0, 4000.0], 5000.0, 0.0, [1, 1]), (300.0, 2));
    assert_eq!(found(&[1000.0, 1000.0], 5000.0, 0.0, [1, 1]), (300.0, 1));
    assert_eq!(found(&[3185.0, 3185.0], 5000.0, 0.0, [1, 0]), none);
    assert_eq!(found(&[3185.0, 4000.0], 5000.0, 12.0, [1, 0]), (-300.0, 1));
    assert_eq!(found(&[3185.0, 4000.0], 3185.0, 0.0, [0, 0]), none);
}

/// The cases of a job, by a job call.
fn check_job_call(call: &Call) {
    let answer = |fvert, nang| {
        let mut answer = [0xee; Answer::BYTES];
        assert_eq!(call(&sheet(fvert, nang).bytes(), &mut answer), 0);
        Answer::from_bytes(&answer)
    };
    let a = answer(0.0, 40);
    assert_eq!((a.rows, a.looks, a.pairs), (0, 0, 0));
    assert_eq!((a.dskpkm, a.dmaxkm), (-1.0, -1.0));
    assert_eq!((a.hpmod, a.itmod), ([-1.0; 6], [5; 6]));

    let a = answer(2.0, 0);
    assert_eq!((a.delpen, a.dskpkm, a.dmaxkm), ([89.9, 90.0, 90.0], 10000.0, 0.0));

    let a = answer(2.0, 1);
    assert_eq!((a.looks, a.rows), (10, 0));

    let a = answer(2.0, 40);
    assert_eq!((a.looks, a.rows, a.delfx[0], a.imode[0]), (48, 1, 89.9, 1));
    assert_eq!(a.kind, CUSP_ALONE);
}

#[test]
fn the_job_call_gives_the_worked_cases() {
    check_job_call(&entries::job);
}

#[test]
fn the_job_call_of_the_led_rust_gives_the_worked_cases() {
    check_job_call(&|job, answer| job::call_of(&oracle::counted::VARIANT, job, answer));
}

/// The number that the job call gives for a sheet, which the oracle must agree with.
fn number_of(change: impl Fn(&mut FindfJob), length: usize) -> u32 {
    let mut sheet = sheet(2.0, 40);
    change(&mut sheet.walk);
    let mut bytes = sheet.bytes();
    bytes.resize(length, 0);
    let old = [0xee; Answer::BYTES];
    job::check(&entries::job, &bytes, &old, [0, 0], &mut Tally::default()).unwrap()
}

#[test]
fn the_root_of_4_is_2() {
    assert_eq!(entries::sqrt(4.0).to_bits(), 2.0f32.to_bits());
    assert_eq!(f32::sqrt(4.0).to_bits(), 2.0f32.to_bits());
}

#[test]
fn nang_40_is_taken_and_41_refused() {
    assert_eq!(number_of(|walk| walk.nang = 40, Job::BYTES), 0);
    assert_eq!(number_of(|walk| walk.nang = 41, Job::BYTES), 4);
}

#[test]
fn k_4_is_taken_and_5_refused() {
    assert_eq!(number_of(|walk| walk.k = 4, Job::BYTES), 0);
    assert_eq!(number_of(|walk| walk.k = 5, Job::BYTES), 3);
}

#[test]
fn ifob_99999_is_taken_and_100000_refused() {
    for entry in [0, 599, 1199] {
        assert_eq!(number_of(|walk| walk.ifob[entry] = 99999, Job::BYTES), 0);
        assert_eq!(number_of(|walk| walk.ifob[entry] = 100000, Job::BYTES), 10);
    }
}

#[test]
fn a_job_of_5360_bytes_is_taken_and_of_5359_and_5361_refused() {
    assert_eq!([5359, 5360, 5361].map(|length| number_of(|_| {}, length)), [1, 0, 1]);
}

/// The oracle's forms of findf and fdist that do not count.
macro_rules! uncounted {
    ($form:ident) => {
        check(
            |rfx, job| Walked {
                refusal: 0,
                looks: UNCOUNTED,
                rfx: findf::rust($form::findf, rfx, job),
            },
            |m, job| Searched {
                refusal: 0,
                pairs: UNCOUNTED,
                rays: UNCOUNTED,
                m: fdist::rust($form::fdist, m, job),
            },
        )
    };
}

#[test]
fn the_library_gives_the_worked_cases() {
    check(findf::ours, fdist::ours);
    check(findf::by_reference, fdist::by_reference);
}

#[test]
fn the_rust_as_it_comes_gives_the_worked_cases() {
    uncounted!(as_it_comes);
}

#[test]
fn the_led_rust_gives_the_worked_cases() {
    uncounted!(led);
    check(findf::led, fdist::led);
}
