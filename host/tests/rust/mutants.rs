//! The comparisons find each slip of document 01's "Where a porter slips", each of its "Versions that
//! earn nothing" and slips of orders 1 and 2: they are put in the library's place, and the very checks
//! that the library passes must find a difference.

use host::demand;
use host::entries::{EsJob, EsModes, FindfJob, Reflectrix, Walked};
use host::findf::Walk;
use host::job::{self, adversarial, check_jobs, realistic, Answer, Call, Job, KINDS};
use host::limits;
use host::oracle::{self, Variant, VARIANTS};
use host::prng::Prng;
use host::tally::Tally;
use host::{esmod, fdist, findf};
use std::cell::Cell;

const JOBS: u64 = 10_000;

/// What the comparison finds in a job call, on jobs of all kinds.
fn found(call: &Call) -> Option<String> {
    KINDS.iter().find_map(|(_, kind)| check_jobs(call, 31, JOBS, *kind).err())
}

fn found_in(variant: &'static Variant) -> Option<String> {
    found(&|job, answer| job::call_of(variant, job, answer))
}

/// The led Rust with its counts: a job call as it should be.
fn right(job: &[u8], answer: &mut [u8]) -> u32 {
    job::call_of(&oracle::counted::VARIANT, job, answer)
}

#[test]
fn the_led_rust_is_found_equal() {
    assert_eq!(found(&right), None);
}

/// Slips that a job's answer shows.
const SLIPS: [Variant; 5] = [
    oracle::lowest_row::VARIANT,
    oracle::row_set_back::VARIANT,
    oracle::next_pair_tried::VARIANT,
    oracle::iskp_of_next_layer::VARIANT,
    oracle::equal_lengths_no_ray::VARIANT,
];

#[test]
fn each_slip_is_found() {
    for slip in &SLIPS {
        let found = found_in(slip).unwrap_or_else(|| panic!("{} is not found", slip.name));
        println!("{}: {found}", slip.name);
    }
}

/// A findf by value of a variant.
macro_rules! walk {
    ($variant:ident) => {
        (&oracle::$variant::VARIANT, |old: Reflectrix, walk: &FindfJob| {
            findf::counting(oracle::$variant::findf, old, walk)
        })
    };
}

/// Cleared columns: from the all-zero reflectrix, from which every job starts, they do not show.
const CLEARED: [(&Variant, Walk); 2] = [walk!(htflx_cleared), walk!(imode_cleared)];

/// What findf's comparison finds in a walk on used reflectrices.
fn found_in_walk(walk: Walk) -> Option<String> {
    findf::check_jobs(&[walk], 32, JOBS, findf::realistic).err()
}

#[test]
fn cleared_columns_are_found_on_used_reflectrices() {
    assert_eq!(found_in_walk(walk!(counted).1), None);
    for (slip, walk) in CLEARED {
        let found = found_in_walk(walk);
        let difference = found.unwrap_or_else(|| panic!("{} is not found", slip.name));
        println!("{}: {difference}", slip.name);
        assert_eq!(found_in(slip), None, "{}", slip.name);
    }
}

#[test]
fn no_variant_is_left_out() {
    let right = ["as_it_comes", "led", "counted", "counted_as_it_comes"];
    let slips = SLIPS.iter().chain(CLEARED.map(|(slip, _)| slip)).chain(&ES_SLIPS);
    let slips = slips.map(|slip| slip.name);
    let known: Vec<_> = right.into_iter().chain(slips).collect();
    assert_eq!(VARIANTS.len(), known.len());
    assert!(VARIANTS.iter().all(|variant| known.contains(&variant.name)), "{known:?}");
}

/// The right answer, altered.
fn altered(job: &[u8], answer: &mut [u8], alter: impl Fn(&Job, &mut Answer)) -> u32 {
    let number = right(job, answer);
    if number == 0 {
        let mut words = Answer::from_bytes(answer);
        alter(&Job::read(job), &mut words);
        answer.copy_from_slice(&words.bytes());
    }
    number
}

/// Fills layer E, feigns the other two: their rows have the height of the row before.
fn feigns_f1_and_f2(job: &[u8], answer: &mut [u8]) -> u32 {
    altered(job, answer, |_, words| {
        for row in 1..words.rows as usize {
            if words.imode[row] > 1 {
                words.hpflx[row] = words.hpflx[row - 1];
            }
        }
    })
}

fn reports_nang_and_28_looks(job: &[u8], answer: &mut [u8]) -> u32 {
    altered(job, answer, |job, words| words.looks = job.walk.nang as u32 + 28)
}

fn says_no_ray(job: &[u8], answer: &mut [u8]) -> u32 {
    altered(job, answer, |_, words| {
        words.pairs = 0;
        (words.delmod, words.hpmod, words.htmod) = ([0.0; 6], [-1.0; 6], [0.0; 6]);
        (words.fvmod, words.itmod, words.afmod) = ([0.0; 6], [5; 6], [0.0; 6]);
    })
}

fn leaves_the_answer_unwritten(job: &[u8], answer: &mut [u8]) -> u32 {
    limits::job(job, answer.len())
}

/// A job call as it should be, but for the walk.
fn by_walk(job: &[u8], answer: &mut [u8], walk: impl Fn(Reflectrix, &FindfJob) -> Walked) -> u32 {
    let number = limits::job(job, answer.len());
    if number == 0 {
        answer.copy_from_slice(&job::solved(&Job::read(job), walk, fdist::led).0.bytes());
    }
    number
}

/// One stored reflectrix for every job, with a true search on it.
fn stores_one_reflectrix(job: &[u8], answer: &mut [u8]) -> u32 {
    let stored = realistic(&mut Prng::new(33));
    by_walk(job, answer, |old, _| findf::led(old, &stored.walk))
}

fn turns_each_job_back(job: &[u8], answer: &mut [u8]) -> u32 {
    match limits::job(job, answer.len()) {
        0 => 10,
        number => number,
    }
}

/// A job call by its name.
type Version = (&'static str, fn(&[u8], &mut [u8]) -> u32);

const EARN_NOTHING: [Version; 6] = [
    ("fills layer E, feigns the other two", feigns_f1_and_f2),
    ("reports nang + 28 looks each time", reports_nang_and_28_looks),
    ("says \"no ray\" before trying a pair", says_no_ray),
    ("returns 0, answer unwritten", leaves_the_answer_unwritten),
    ("one stored reflectrix for every job", stores_one_reflectrix),
    ("turns each job back", turns_each_job_back),
];

#[test]
fn each_version_that_earns_nothing_is_found() {
    for (name, call) in EARN_NOTHING {
        let found = found(&call).unwrap_or_else(|| panic!("{name}: is not found"));
        println!("{name}: {found}");
    }
}

/// Refuses as it should, but has begun to write.
fn writes_before_it_refuses(job: &[u8], answer: &mut [u8]) -> u32 {
    if let Some(byte) = answer.last_mut() {
        *byte = !*byte;
    }
    right(job, answer)
}

fn tests_ghop_before_amind(job: &[u8], answer: &mut [u8]) -> u32 {
    match right(job, answer) {
        6 if !limits::GHOP.contains(&Job::read(job).ghop) => 7,
        number => number,
    }
}

fn writes_another_nan(job: &[u8], answer: &mut [u8]) -> u32 {
    let number = right(job, answer);
    for word in answer.chunks_exact_mut(4).filter(|word| *word == [0, 0, 0xc0, 0x7f]) {
        word.copy_from_slice(&[0, 0, 0xc0, 0xff]);
    }
    number
}

thread_local! {
    static LEFT: Cell<Reflectrix> = Cell::new(Reflectrix::zeros());
}

/// Starts not from the all-zero reflectrix but from what the job before left.
fn starts_from_the_last_reflectrix(job: &[u8], answer: &mut [u8]) -> u32 {
    by_walk(job, answer, |_, walk| {
        let walked = findf::led(LEFT.get(), walk);
        LEFT.set(walked.rfx);
        walked
    })
}

const OTHERS: [Version; 4] = [
    ("starts from the last reflectrix", starts_from_the_last_reflectrix),
    ("writes before it refuses", writes_before_it_refuses),
    ("tests ghop before amind", tests_ghop_before_amind),
    ("writes another NaN", writes_another_nan),
];

#[test]
fn other_wrong_versions_are_found() {
    for (name, call) in OTHERS {
        let found = found(&call).unwrap_or_else(|| panic!("{name}: is not found"));
        println!("{name}: {found}");
    }
}

/// A walk as it should be, with other kinds: these are told the old reflectrix and the new one.
fn with_kinds(
    old: Reflectrix,
    job: &FindfJob,
    kind: impl Fn(&Reflectrix, &Reflectrix) -> [u32; 45],
) -> Walked {
    let walked = findf::led(old, job);
    let kind = kind(&old, &walked.rfx);
    Walked { rfx: Reflectrix { kind, ..walked.rfx }, ..walked }
}

/// Rows that are not written keep the kinds that they had.
fn clears_no_kinds(old: Reflectrix, job: &FindfJob) -> Walked {
    with_kinds(old, job, |old, new| {
        let rows = new.rows_this_call;
        std::array::from_fn(|row| if row < rows { new.kind[row] } else { old.kind[row] })
    })
}

fn takes_kinds_from_imode(old: Reflectrix, job: &FindfJob) -> Walked {
    with_kinds(old, job, |_, new| {
        let rows = new.rows_this_call;
        std::array::from_fn(|row| if row < rows { new.imode[row] } else { 0 })
    })
}

/// Says cusp of the row after it, too.
fn takes_no_row_for_one_after_a_cusp(old: Reflectrix, job: &FindfJob) -> Walked {
    with_kinds(old, job, |_, new| new.kind.map(|kind| kind.min(3)))
}

/// Says interpolated of an exact row, too.
fn takes_no_row_for_exact(old: Reflectrix, job: &FindfJob) -> Walked {
    with_kinds(old, job, |_, new| new.kind.map(|kind| if kind == 1 { 2 } else { kind }))
}

/// Slips of order 2 by name, and whether a job shows them, which starts with no kinds.
const KIND_SLIPS: [(&str, Walk, bool); 4] = [
    ("kinds not cleared", clears_no_kinds, false),
    ("kind taken from imode", takes_kinds_from_imode, true),
    ("a row after a cusp taken for a cusp", takes_no_row_for_one_after_a_cusp, true),
    ("an exact row taken for an interpolated one", takes_no_row_for_exact, true),
];

#[test]
fn wrong_kinds_are_found() {
    for (name, walk, shows) in KIND_SLIPS {
        let difference = found_in_walk(walk).unwrap_or_else(|| panic!("{name}: is not found"));
        println!("{name}: {difference}");
        let in_jobs = found(&move |job, answer| by_walk(job, answer, walk));
        assert_eq!(in_jobs.is_some(), shows, "{name}: {in_jobs:?}");
    }
}

/// Whether demand 3's own check, without an oracle beside it, finds an altered answer.
fn demand_3_finds(alter: impl Fn(&Job, &mut Answer)) -> bool {
    let mut prng = Prng::new(34);
    (0..JOBS).any(|_| {
        let job = adversarial(&mut prng);
        let mut answer = job::solved(&job, findf::led, fdist::led).0;
        alter(&job, &mut answer);
        demand::check(&job, &answer, &mut Tally::default()).is_err()
    })
}

#[test]
fn demand_3_alone_finds_what_breaks_it() {
    assert!(!demand_3_finds(|_, _| {}));
    assert!(demand_3_finds(|job, answer| answer.looks = job.walk.nang as u32 + 29));
    assert!(demand_3_finds(|job, answer| answer.rows = job.walk.nang as u32 + 5));
    assert!(demand_3_finds(|_, answer| answer.pairs = 45));
    // A ray below the minimum angle whose height is not turned.
    assert!(demand_3_finds(|_, answer| answer.hpmod = answer.hpmod.map(f32::abs)));
    // No ray; rays one slot on; each field of a ray.
    assert!(demand_3_finds(|_, answer| answer.hpmod = [-1.0; 6]));
    assert!(demand_3_finds(|_, answer| {
        answer.delmod.rotate_right(1);
        answer.hpmod.rotate_right(1);
    }));
    assert!(demand_3_finds(|_, answer| answer.htmod = answer.htmod.map(f32::next_up)));
    assert!(demand_3_finds(|_, answer| answer.fvmod = answer.fvmod.map(f32::next_up)));
    assert!(demand_3_finds(|_, answer| answer.afmod = answer.afmod.map(f32::next_up)));
    assert!(demand_3_finds(|_, answer| answer.itmod = answer.itmod.map(|layer| layer + 1)));
}

/// What esmod's comparison finds in a call, on jobs of all kinds.
fn found_in_esmod(call: &esmod::Call) -> Option<String> {
    esmod::KINDS.iter().find_map(|(_, kind)| esmod::check_jobs(call, 64, JOBS, *kind).err())
}

/// The led esmod, with its limits.
fn right_esmod(job: &EsJob) -> EsModes {
    esmod::call_of(&oracle::led::VARIANT, job)
}

const ES_SLIPS: [Variant; 8] = [
    oracle::largest_fs::VARIANT,
    oracle::last_of_equals::VARIANT,
    oracle::hp_of_point_0::VARIANT,
    oracle::slot_given_back::VARIANT,
    oracle::amind_not_reached::VARIANT,
    oracle::fsdead_passed::VARIANT,
    oracle::path_of_one_hop::VARIANT,
    oracle::three_hops::VARIANT,
];

#[test]
fn each_slip_of_esmod_is_found() {
    assert_eq!(found_in_esmod(&right_esmod), None);
    for slip in &ES_SLIPS {
        let found = found_in_esmod(&|job| esmod::call_of(slip, job));
        let found = found.unwrap_or_else(|| panic!("{} is not found", slip.name));
        println!("{}: {found}", slip.name);
    }
}

/// Says 14 where 6 is due.
fn tests_sporadic_e_before_amind(job: &EsJob) -> EsModes {
    let mended = EsJob { amind: 0.0, ..*job };
    match (limits::esmod(job), limits::esmod(&mended)) {
        (6, 14) => right_esmod(&mended),
        _ => right_esmod(job),
    }
}

fn checks_uncounted_points(job: &EsJob) -> EsModes {
    match (limits::esmod(job), limits::esmod(&EsJob { km: 5, ..*job })) {
        (0, 14) => esmod::Slots::empty().answer(14),
        _ => right_esmod(job),
    }
}

fn checks_the_middle_fs_alone(job: &EsJob) -> EsModes {
    let fs = job.fs.map(|[_, middle, _]| [middle; 3]);
    right_esmod(&EsJob { fs, ..*job })
}

fn takes_gcdkm_up_to_20000(job: &EsJob) -> EsModes {
    match limits::esmod(job) {
        0 if job.gcdkm > 20000.0 => esmod::Slots::empty().answer(14),
        _ => right_esmod(job),
    }
}

/// Counts by the low word of km.
fn cuts_km_to_a_word(job: &EsJob) -> EsModes {
    right_esmod(&EsJob { km: job.km as u32 as usize, ..*job })
}

/// Refuses as it should, but with zeros in the slots.
fn leaves_zeros_in_a_refused_answer(job: &EsJob) -> EsModes {
    match limits::esmod(job) {
        0 => right_esmod(job),
        refusal => esmod::Slots::zeros().answer(refusal),
    }
}

/// Leaves slot 5 empty where slot 4 is.
fn ends_at_an_empty_slot_4(job: &EsJob) -> EsModes {
    let right = right_esmod(job);
    match esmod::Slots::from(right).hops {
        [0, _] => esmod::Slots::empty().answer(right.refusal),
        _ => right,
    }
}

/// Such a call by its name.
type EsVersion = (&'static str, fn(&EsJob) -> EsModes);

const ES_OTHERS: [EsVersion; 7] = [
    ("tests limit 14 before amind", tests_sporadic_e_before_amind),
    ("checks uncounted points", checks_uncounted_points),
    ("checks the middle fs alone", checks_the_middle_fs_alone),
    ("takes gcdkm up to 20000", takes_gcdkm_up_to_20000),
    ("cuts km to a word", cuts_km_to_a_word),
    ("leaves zeros in a refused answer", leaves_zeros_in_a_refused_answer),
    ("ends at an empty slot 4", ends_at_an_empty_slot_4),
];

#[test]
fn other_wrong_versions_of_esmod_are_found() {
    for (name, call) in ES_OTHERS {
        let found = found_in_esmod(&call).unwrap_or_else(|| panic!("{name}: is not found"));
        println!("{name}: {found}");
    }
}
