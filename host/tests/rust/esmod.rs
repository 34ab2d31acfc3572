use host::entries::EsJob;
use host::esmod::{
    about_limits, adversarial, check, check_jobs, coast, farthest, of_variant, ours, Kind, Slots,
    KINDS,
};
use host::oracle::{as_it_comes, led};
use host::prng::Prng;
use host::record::Record;
use host::tally::Tally;
use host::{floats, limits, peer};

/// Checks jobs of one kind; all of them are accepted, and none of the four outcomes is missing.
fn check_accepted(name: &str, seed: u64, jobs: u64, kind: Kind) -> Tally {
    let tally = check_jobs(&ours, seed, jobs, kind).unwrap();
    tally.print(&format!("esmod, {name}"));
    assert_eq!(tally.refusals[0], jobs);
    assert!(tally.slots.iter().all(|found| *found > jobs / 50), "{:?}", tally.slots);
    assert!(tally.points.iter().all(|found| *found > jobs / 50), "{:?}", tally.points);
    tally
}

#[test]
fn esmod_on_coast_like_jobs() {
    check_accepted("coast-like", 60, 300_000, coast);
}

#[test]
fn esmod_on_adversarial_jobs() {
    check_accepted("adversarial", 61, 500_000, adversarial);
}

#[test]
fn esmod_about_the_limits() {
    let tally = check_jobs(&ours, 62, 200_000, about_limits).unwrap();
    tally.print("esmod, about the limits");
    for number in [0, 5, 6, 14] {
        assert!(tally.refusals[number] > 10_000, "{number}: {:?}", tally.refusals);
    }
    assert!(tally.slots.iter().all(|jobs| *jobs > 1_000), "{:?}", tally.slots);
}

/// The four numbers of the Rust's slots come of the job's alone: those that its losses come of may
/// be any.
#[test]
fn the_rusts_hops_do_not_depend_on_its_losses() {
    let mut prng = Prng::new(63);
    for kind in [coast, adversarial] {
        for _ in 0..5_000 {
            let job = kind(&mut prng);
            for variant in [&led::VARIANT, &as_it_comes::VARIANT] {
                of_variant(variant, 20, &job, &mut prng).unwrap();
            }
        }
    }
}

/// Lengths up to 40 patterns to each side of one and of two of the farthest hops: there the first
/// number of hops goes up, and a rounded sum may be 2 or 3 too early.
#[test]
fn esmod_at_the_farthest_hops() {
    let (mut prng, mut tally) = (Prng::new(68), Tally::default());
    let whole = (80..=200).map(|hs| hs as f32);
    let heights: Vec<f32> = whole.chain((0..400).map(|_| prng.within(80.0, 200.0))).collect();
    for hs in heights {
        for farthest in [farthest(hs), 2.0 * farthest(hs)] {
            for gcdkm in floats::window(farthest.to_bits(), 40).map(f32::from_bits) {
                let job = EsJob { km: 1, hs: [hs; 5], gcdkm, gcd: 0.2, ..coast(&mut prng) };
                check(&ours, &job, &mut prng, &mut tally).unwrap();
            }
        }
    }
    tally.print("esmod, at the farthest hops");
}

/// The benchmark's peers do what is timed: they answer as the Rust as it comes, and the one with
/// limits refuses by them.
#[test]
fn the_peers_of_esmod_answer_as_the_rust_as_it_comes() {
    let mut prng = Prng::new(69);
    for (_, kind) in KINDS {
        for _ in 0..10_000 {
            let job = kind(&mut prng);
            let (number, checked) = (limits::esmod(&job), peer::esmod(&job));
            assert_eq!(checked.refusal, number);
            let slots = Slots::from(checked);
            if number > 0 {
                assert_eq!(slots.difference(&Slots::empty(), floats::identical), None);
                continue;
            }
            let expected = of_variant(&as_it_comes::VARIANT, 1, &job, &mut prng).unwrap();
            for slots in [slots, peer::unchecked_esmod(&job).into()] {
                assert_eq!(slots.difference(&expected, floats::identical), None, "{job:?}");
            }
        }
    }
}
