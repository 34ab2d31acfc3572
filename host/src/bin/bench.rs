//! Nanoseconds a call, the library beside the Rust: the least of several rounds. The library's
//! functions are called, while the compiler may have put the Rust's in line.

use host::angles::FUNCTIONS;
use host::entries;
use host::prng::Prng;
use std::hint::black_box;
use std::time::Instant;

#[cfg(oracle)]
use {
    host::job::{self, Answer, Job, Kind},
    host::peer,
    std::ops::RangeInclusive,
};

const INPUTS: usize = 4096;
const ROUNDS: usize = 50;

/// The time of one turn of `turn`, which is run over the inputs' numbers once.
fn round(mut turn: impl FnMut(usize)) -> f64 {
    let start = Instant::now();
    (0..INPUTS).for_each(&mut turn);
    start.elapsed().as_nanos() as f64 / INPUTS as f64
}

fn time(mut turn: impl FnMut(usize)) -> f64 {
    (0..ROUNDS).map(|_| round(&mut turn)).fold(f64::INFINITY, f64::min)
}

/// The times of several, in turn round by round: a processor that changes its speed does so for all.
#[cfg(oracle)]
fn race<const N: usize>(mut turns: [&mut dyn FnMut(usize); N]) -> [f64; N] {
    let mut least = [f64::INFINITY; N];
    for _ in 0..ROUNDS {
        for (turn, least) in turns.iter_mut().zip(&mut least) {
            *least = least.min(round(turn));
        }
    }
    least
}

/// Calls that do not wait for one another.
fn apart(inputs: &[f32], f: impl Fn(f32) -> f32) -> f64 {
    time(|i| {
        black_box(f(black_box(inputs[i])));
    })
}

/// Calls each of which waits for the answer of the one before: a product and a sum more.
fn in_turn(inputs: &[f32], f: impl Fn(f32) -> f32) -> f64 {
    let mut last = 0.0;
    time(|i| last = black_box(f(inputs[i] + 0.0 * last)))
}

fn print(name: &str, ours: f64, rust: f64) {
    let ratio = ours / rust;
    println!("{name:<22} {ours:7.1} ns   Rust {rust:7.1} ns   ratio {ratio:5.2}");
}

/// Both ways, over arguments from `low` to `high`.
fn compare(
    name: &str,
    ours: impl Fn(f32) -> f32,
    rust: impl Fn(f32) -> f32,
    [low, high]: [f32; 2],
) {
    let mut prng = Prng::new(1);
    let inputs: Vec<f32> = (0..INPUTS).map(|_| prng.within(low, high)).collect();
    print(&format!("{name}, apart"), apart(&inputs, &ours), apart(&inputs, &rust));
    print(&format!("{name}, in turn"), in_turn(&inputs, &ours), in_turn(&inputs, &rust));
}

fn main() {
    compare("sqrt", |x| entries::sqrt(x), f32::sqrt, [0.0, 100.0]);
    for f in &FUNCTIONS {
        compare(f.name, f.ours, f.rust, [-f.spread(), f.spread()]);
    }
    let mut prng = Prng::new(1);
    let inputs: Vec<f32> = (0..INPUTS).map(|_| prng.float()).collect();
    print("atan of any size", apart(&inputs, |x| entries::atan(x)), apart(&inputs, f32::atan));
    #[cfg(oracle)]
    {
        beside_the_rust();
        walks_and_searches();
        sporadic_e();
        jobs();
    }
    #[cfg(not(oracle))]
    println!("the Rust source is not at hand: set HFCAST_SRC for the others");
}

/// Few enough to stay in the processor's caches.
#[cfg(oracle)]
const JOBS: usize = 64;

/// So many jobs of one kind that have so many rows, and how many they have on average.
#[cfg(oracle)]
fn jobs_of(kind: Kind, rows: RangeInclusive<u32>, count: usize) -> (Vec<Vec<u8>>, f64) {
    let (mut prng, mut jobs, mut sum) = (Prng::new(1), Vec::new(), 0);
    while jobs.len() < count {
        let job = kind(&mut prng).bytes();
        let mut answer = [0; Answer::BYTES];
        assert_eq!(entries::job(&job, &mut answer), 0);
        let found = Answer::from_bytes(&answer).rows;
        if rows.contains(&found) {
            jobs.push(job);
            sum += found;
        }
    }
    (jobs, f64::from(sum) / count as f64)
}

/// The job call, bytes in and bytes out; the Rust as it comes with such a call and the same limits,
/// and without limits.
#[cfg(oracle)]
fn race_jobs(jobs: &[Vec<u8>]) -> [f64; 3] {
    let [mut ours, mut rust, mut unchecked] = [[0; Answer::BYTES]; 3];
    let count = jobs.len();
    race([
        &mut |i| {
            black_box(entries::job(black_box(&jobs[i % count]), black_box(&mut ours)));
        },
        &mut |i| {
            black_box(peer::job(black_box(&jobs[i % count]), black_box(&mut rust)));
        },
        &mut |i| {
            black_box(peer::unchecked_job(black_box(&jobs[i % count]), black_box(&mut unchecked)));
        },
    ])
}

#[cfg(oracle)]
fn print_jobs(name: &str, [ours, rust, unchecked]: [f64; 3]) {
    print(name, ours, rust);
    print("  Rust without limits", ours, unchecked);
}

#[cfg(oracle)]
fn jobs() {
    for (name, kind) in [("realistic", job::realistic as Kind), ("adversarial", job::adversarial)] {
        for (again, count) in [("new", INPUTS), ("again", JOBS)] {
            let (jobs, rows) = jobs_of(kind, 0..=45, count);
            print_jobs(&format!("job, {name}, {again}"), race_jobs(&jobs));
            println!("  {rows:.1} rows on average");
        }
    }
    let (without, _) = jobs_of(job::realistic, 0..=0, JOBS);
    let none = race_jobs(&without);
    print_jobs("job without rows", none);
    let (many, rows) = jobs_of(job::realistic, 30..=45, JOBS);
    let found = race_jobs(&many);
    print_jobs("job of many rows", found);
    print("  each row of them", (found[0] - none[0]) / rows, (found[1] - none[1]) / rows);
    refused("refused by limit 1", 1, &without, |job| job.truncate(Job::BYTES - 1));
    refused("  by 3: all is decoded", 3, &without, |job| job[0] = 5);
    refused("  by 10: the last entry", 10, &without, |job| job[Job::BYTES - 1] = 0x7f);
}

/// What a refused job has cost by then.
#[cfg(oracle)]
fn refused(name: &str, number: u32, jobs: &[Vec<u8>], change: fn(&mut Vec<u8>)) {
    let (mut jobs, mut answer) = (jobs.to_vec(), [0; Answer::BYTES]);
    jobs.iter_mut().for_each(change);
    let ours = time(|i| {
        let found = entries::job(black_box(&jobs[i % JOBS]), black_box(&mut answer));
        assert_eq!(found, number);
    });
    println!("{name:<23} {ours:6.1} ns");
}

/// findf on realistic jobs, and fdist on what such walks leave; the led Rust too, which has the
/// library's angle functions and no more of it.
#[cfg(oracle)]
fn walks_and_searches() {
    use host::entries::{FdistJob, FindfJob, HopModes, Reflectrix, Tables};
    use host::oracle::{self, as_it_comes, led, AreaTables, IonoState};
    use host::{fdist, findf};

    let mut prng = Prng::new(1);
    let jobs: [FindfJob; JOBS] = std::array::from_fn(|_| findf::realistic(&mut prng));
    let rust_jobs = jobs.each_ref().map(|job| (IonoState::from(job), AreaTables::from(job)));
    let rfx = Reflectrix::random(&mut prng);
    let tables = jobs.each_ref().map(Tables::from);
    let (mut copied, mut lent) = (rfx, rfx);
    let [mut as_it_comes_rfx, mut led_rfx] = [rfx; 2].map(oracle::Reflectrix::from);
    let rust = |findf: findf::RustFindf, rfx: &mut oracle::Reflectrix, i: usize| {
        let FindfJob { k, freq, amind, nang, .. } = jobs[i % JOBS];
        let (state, area) = black_box(&rust_jobs[i % JOBS]);
        findf(black_box(rfx), state, area, k, freq, amind, nang);
    };
    let [by_value, in_place, as_it_comes, led] = race([
        &mut |i| copied = findf::ours(copied, black_box(&jobs[i % JOBS])).rfx,
        &mut |i| {
            let (job, tables) = black_box((&jobs[i % JOBS], &tables[i % JOBS]));
            findf::in_place(black_box(&mut lent), job, tables);
        },
        &mut |i| rust(as_it_comes::findf, &mut as_it_comes_rfx, i),
        &mut |i| rust(led::findf, &mut led_rfx, i),
    ]);
    print("findf, by value", by_value, as_it_comes);
    print("  in place", in_place, as_it_comes);
    print("  the led Rust", led, as_it_comes);

    let jobs: [FdistJob; JOBS] = std::array::from_fn(|_| fdist::after_a_walk(&mut prng));
    let rust_jobs = jobs.each_ref().map(|job| oracle::Reflectrix::from(job.rfx));
    let m = HopModes::random(&mut prng);
    let mut ours_m = m;
    let [mut as_it_comes_m, mut led_m] = [m; 2].map(oracle::HopModes::from);
    let rust = |fdist: fdist::RustFdist, m: &mut oracle::HopModes, i: usize| {
        let FdistJob { ghop, amind, freq, .. } = jobs[i % JOBS];
        fdist(black_box(m), black_box(&rust_jobs[i % JOBS]), ghop, amind, freq);
    };
    let [ours, as_it_comes, led] = race([
        &mut |i| ours_m = fdist::ours(ours_m, black_box(&jobs[i % JOBS])).m,
        &mut |i| rust(as_it_comes::fdist, &mut as_it_comes_m, i),
        &mut |i| rust(led::fdist, &mut led_m, i),
    ]);
    print("fdist, after a walk", ours, as_it_comes);
    print("  the led Rust", led, as_it_comes);
}

/// esmod on new jobs: the lines of the Rust that make the geometry, with the same limits and without
/// any; then the whole Rust, which makes losses besides, over numbers and antennas that cost nothing.
#[cfg(oracle)]
fn sporadic_e() {
    use host::entries::{EsJob, Zon};
    use host::esmod::{adversarial, coast, Kind};
    use host::oracle::{self, as_it_comes, led, Losses, MufHour, NoiseResult, PassCtx, Variant};

    let losses = Losses::read(&mut std::iter::repeat(1.0f32.to_bits()));
    let (muf, noise) = (MufHour::from(&losses), NoiseResult::from(&losses));
    for (name, kind) in [("coast-like", coast as Kind), ("adversarial", adversarial)] {
        let mut prng = Prng::new(1);
        let jobs: Vec<EsJob> = (0..INPUTS).map(|_| kind(&mut prng)).collect();
        let contexts: Vec<PassCtx> = jobs.iter().map(|job| PassCtx::new(job, &losses)).collect();
        let [mut as_it_comes_zon, mut led_zon] =
            [(); 2].map(|()| oracle::Zon::from(Zon::from_words(prng.words())));
        let whole = |variant: &Variant, zon: &mut oracle::Zon, i: usize| {
            let EsJob { freq, fsdead, .. } = jobs[i];
            (variant.esmod)(black_box(zon), black_box(&contexts[i]), &muf, &noise, freq, fsdead);
        };
        let [ours, rust, unchecked, whole_rust, whole_led] = race([
            &mut |i| {
                let EsJob { km, fs, hs, gcd, gcdkm, amind, freq, fsdead } = black_box(&jobs[i]);
                let (gcd, gcdkm, amind) = (*gcd, *gcdkm, *amind);
                black_box(entries::esmod(*km, fs, hs, gcd, gcdkm, amind, *freq, *fsdead));
            },
            &mut |i| {
                black_box(peer::esmod(black_box(&jobs[i])));
            },
            &mut |i| {
                black_box(peer::unchecked_esmod(black_box(&jobs[i])));
            },
            &mut |i| whole(&as_it_comes::VARIANT, &mut as_it_comes_zon, i),
            &mut |i| whole(&led::VARIANT, &mut led_zon, i),
        ]);
        print(&format!("esmod, {name}"), ours, rust);
        print("  Rust without limits", ours, unchecked);
        print("  with its losses", ours, whole_rust);
        print("  the led Rust", whole_led, whole_rust);
    }
}

#[cfg(oracle)]
fn beside_the_rust() {
    use host::entries::{AllModes, MufHour, Zon};
    use host::oracle;

    compare("fnorml", |x| entries::fnorml(x), oracle::fnorml, [-6.0, 6.0]);

    let mut prng = Prng::new(1);
    let frequencies: Vec<[f32; 2]> =
        (0..INPUTS).map(|_| [prng.within(2.0, 30.0), prng.within(2.0, 30.0)]).collect();
    let hour = MufHour { sigl: [0.5, 1.0, 2.0, 3.0], sigu: [0.6, 1.1, 2.1, 3.1] };
    let rust_hour = oracle::MufHour::from(hour);
    let ours = time(|i| {
        let [fmhz, fgo] = black_box(frequencies[i]);
        let mut out = 0.0;
        entries::prbmuf(black_box(&hour), fmhz, fgo, fgo, 1 + i % 4, &mut out);
        black_box(out);
    });
    let rust = time(|i| {
        let [fmhz, fgo] = black_box(frequencies[i]);
        black_box(oracle::prbmuf(black_box(&rust_hour), fmhz, fgo, fgo, 1 + i % 4));
    });
    print("prbmuf", ours, rust);

    let list = AllModes::from_words(prng.words());
    let mut zon = Zon::from_words(prng.words());
    zon.hp = [300.0, -1.0, 250.0, 110.0, -1.0, -1.0, 320.0];
    let (mut ours_list, mut rust_list) = (list, oracle::AllModes::from(list));
    let rust_zon = oracle::Zon::from(zon);
    let ours = time(|_| {
        ours_list.nmmod = 0;
        ours_list = entries::accumulate(ours_list, *black_box(&zon), 1, 7).modes;
    });
    let rust = time(|_| {
        let list = black_box(&mut rust_list);
        list.nmmod = 0;
        list.accumulate(black_box(&rust_zon), 1, 7);
    });
    print("accumulate, 4 of 7", ours, rust);
    let ours = time(|_| ours_list = entries::reset(*black_box(&ours_list)));
    print("reset", ours, time(|_| black_box(&mut rust_list).reset()));
}
