//! Checks for when minutes do not matter: sweeps over all 2^32 f32, the exact bounds, 10^7 walks,
//! 10^7 jobs and 10^7 paths by sporadic E.

use host::angles::{named, Function, FUNCTIONS};
use host::{bounds, entries, floats};
#[cfg(oracle)]
use host::{ensure::Checked, tally::Tally};
use std::ops::Range;
use std::process::ExitCode;
use std::thread;
use std::time::Instant;

/// What `each` gives for every thread's share of the numbers below `total`.
fn shared<T: Send>(total: u64, each: impl Fn(Range<u64>) -> T + Sync) -> Vec<T> {
    let threads = thread::available_parallelism().map_or(1, |n| n.get() as u64);
    let start = |i: u64| i * total / threads;
    thread::scope(|scope| {
        let each = &each;
        let share = |i| start(i)..start(i + 1);
        let spawn = |i| scope.spawn(move || each(share(i)));
        let running: Vec<_> = (0..threads).map(spawn).collect();
        running.into_iter().map(|thread| thread.join().unwrap()).collect()
    })
}

/// As many as there are f32.
const PATTERNS: u64 = 1 << 32;

fn float(pattern: u64) -> f32 {
    f32::from_bits(pattern as u32)
}

/// Counts the arguments at which two functions differ, and shows one of them.
fn compare(ours: impl Fn(f32) -> f32 + Sync, expected: impl Fn(f32) -> f32 + Sync) -> ExitCode {
    let differs = |x: &f32| !floats::same(ours(*x), expected(*x));
    let found = shared(PATTERNS, |share| {
        let mut differing = share.map(float).filter(differs);
        let first = differing.next();
        (first, first.map_or(0, |_| 1 + differing.count() as u64))
    });
    let count: u64 = found.iter().map(|(_, count)| count).sum();
    println!("{count} differences in 2^32 arguments");
    if let Some(x) = found.iter().find_map(|(first, _)| *first) {
        println!("at {x:e} ({:08x}): {:e}, not {:e}", x.to_bits(), ours(x), expected(x));
    }
    ExitCode::from(u8::from(count > 0))
}

/// The greatest distance, and where it is.
fn greatest(distance: impl Fn(f32) -> f64 + Sync) -> f64 {
    let found = shared(PATTERNS, |share| {
        let distances = share.map(float).map(|x| (distance(x), x));
        distances.fold((0.0, 0.0), |greatest, d| if d.0 > greatest.0 { d } else { greatest })
    });
    let (greatest, x) = found.into_iter().max_by(|a, b| a.0.total_cmp(&b.0)).unwrap();
    println!("greatest distance {greatest:.6e} at {x:?} ({:08x})", x.to_bits());
    greatest
}

/// The distance of fnorml from Abramowitz and Stegun 26.2.18, in f64 arithmetic (which is some
/// 2^-50 off), over all arguments of size up to 5.
fn normal_curve() -> ExitCode {
    greatest(|x| {
        if !(-5.0..=5.0).contains(&x) {
            return 0.0;
        }
        let y = f64::from(x.abs());
        let sum = 1.0 + y * (0.196854 + y * (0.115194 + y * (0.000344 + y * 0.019527)));
        let tail = 0.5 / sum.powi(4);
        let expected = if x < 0.0 { tail } else { 1.0 - tail };
        (f64::from(entries::fnorml(x)) - expected).abs()
    });
    ExitCode::SUCCESS
}

/// In steps of 2^-22: more than f64's functions and the series of 13 terms can be off. Up to 4 the
/// series are within 2^-36 of the functions, and the angles at which they reach an argument
/// within 2^-33 of the arcs, but for 1 and -1 of asin and acos, which the tests check exactly.
const MARGIN: f64 = 1.0 / 256.0;

/// The distance in steps of an angle function from f64's, over all arguments: it must not be above
/// the promised one less the margin.
fn angle(f: &Function) -> ExitCode {
    let distance = |x: f32| {
        let answer = (f.ours)(x);
        match (x.abs() <= f.limit, answer.is_nan()) {
            (true, false) => (f64::from(answer) - (f.in_f64)(x.into())).abs() * f64::from(1 << 22),
            (false, true) => 0.0,
            _ => f64::INFINITY,
        }
    };
    let promised = (f.promised)() as f64 / bounds::STEP as f64;
    println!("{}, promised {promised} steps less {MARGIN}", f.name);
    ExitCode::from(u8::from(greatest(distance) > promised - MARGIN))
}

/// The exact checks of document 01's bounds, over more arguments than the tests have.
fn exact() -> ExitCode {
    thread::scope(|scope| {
        for f in &FUNCTIONS {
            scope.spawn(|| f.check_bound(f.arguments(1 << 12, 1_000_000)));
        }
    });
    ExitCode::SUCCESS
}

/// Checks 34 batches, with a seed each, and prints what their jobs came to.
#[cfg(oracle)]
fn batches(name: &str, check: impl Fn(u64) -> Checked<Tally> + Sync) {
    let mut tally = Tally::default();
    let check = |batch| check(1000 + batch).unwrap();
    let found = shared(34, |share| share.map(check).collect::<Vec<_>>());
    found.into_iter().flatten().for_each(|batch| tally.merge(batch));
    tally.print(name);
}

/// Each kind of findf's jobs: more than 10^7 jobs in all.
#[cfg(oracle)]
fn walks() -> ExitCode {
    for (name, kind) in host::findf::KINDS {
        let walks = &host::findf::OURS;
        batches(name, |seed| host::findf::check_jobs(walks, seed, 100_000, kind));
    }
    ExitCode::SUCCESS
}

/// Each kind of jobs for the job call: more than 10^7 in all.
#[cfg(oracle)]
fn jobs() -> ExitCode {
    for (name, kind) in host::job::KINDS {
        batches(name, |seed| host::job::check_jobs(&entries::job, seed, 100_000, kind));
    }
    ExitCode::SUCCESS
}

/// Each kind of esmod's jobs: more than 10^7 in all.
#[cfg(oracle)]
fn sporadic_e() -> ExitCode {
    for (name, kind) in host::esmod::KINDS {
        batches(name, |seed| host::esmod::check_jobs(&host::esmod::ours, seed, 100_000, kind));
    }
    ExitCode::SUCCESS
}

const USAGE: &str = "usage: sweep sqrt | normal-curve | exact | page FUNCTION
             sin | cos | asin | acos | atan
             fnorml | findf | job | esmod (need the Rust source)";

fn main() -> ExitCode {
    let start = Instant::now();
    let words: Vec<String> = std::env::args().skip(1).collect();
    let words: Vec<&str> = words.iter().map(String::as_str).collect();
    let exit = match (&words[..], words.last().and_then(|name| named(name))) {
        (["sqrt"], _) => compare(|x| entries::sqrt(x), f32::sqrt),
        #[cfg(oracle)]
        (["fnorml"], _) => compare(|x| entries::fnorml(x), host::oracle::fnorml),
        #[cfg(oracle)]
        (["findf"], _) => walks(),
        #[cfg(oracle)]
        (["job"], _) => jobs(),
        #[cfg(oracle)]
        (["esmod"], _) => sporadic_e(),
        (["normal-curve"], _) => normal_curve(),
        ([_], Some(f)) => angle(f),
        (["page", _], Some(f)) => compare(f.ours, f.page),
        (["exact"], _) => exact(),
        _ => {
            eprintln!("{USAGE}");
            return ExitCode::from(2);
        }
    };
    println!("{:.1} s", start.elapsed().as_secs_f64());
    exit
}
