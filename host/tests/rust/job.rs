use host::job::{about_limits, adversarial, check_jobs, realistic, solved_by, Answer, KINDS};
use host::oracle::counted_as_it_comes;
use host::prng::Prng;
use host::{entries, limits, peer};

#[test]
fn realistic_jobs() {
    let tally = check_jobs(&entries::job, 28, 100_000, realistic).unwrap();
    tally.print("realistic jobs");
    assert_eq!(tally.refusals[0], 100_000);
    assert!(tally.layers.iter().all(|jobs| *jobs > 10_000), "{:?}", tally.layers);
    assert!(tally.kinds.iter().all(|rows| *rows > 2_000), "{:?}", tally.kinds);
    assert!(tally.rays[..6].iter().all(|jobs| *jobs > 100), "{:?}", tally.rays);
    assert!(tally.standing > 25_000, "{}", tally.standing);
}

#[test]
fn adversarial_jobs() {
    let tally = check_jobs(&entries::job, 29, 200_000, adversarial).unwrap();
    tally.print("adversarial jobs");
    assert_eq!(tally.refusals[0], 200_000);
    assert!(tally.layers.iter().all(|jobs| *jobs > 20_000), "{:?}", tally.layers);
    assert!(tally.kinds.iter().all(|rows| *rows > 50_000), "{:?}", tally.kinds);
    assert!(tally.dead > 20_000, "{}", tally.dead);
    assert!(tally.nan > 2_000, "{}", tally.nan);
    // Document 01's bounds, which some jobs reach; with 44 rows the last pair tried is the 43rd.
    assert_eq!((tally.most_rows, tally.rows_beyond, tally.looks_beyond), (44, 4, 28));
    assert!(tally.pairs[..44].iter().all(|jobs| *jobs > 50), "{:?}", tally.pairs);
    assert!(tally.rays.iter().all(|jobs| *jobs > 2_000), "{:?}", tally.rays);
    assert!(tally.given.iter().all(|pairs| *pairs > 1_000), "{:?}", tally.given);
    assert!(tally.jumped > 5_000, "{}", tally.jumped);
    assert!(tally.passed > 20, "{}", tally.passed);
    assert!(tally.standing > 25_000, "{}", tally.standing);
}

#[test]
fn jobs_about_the_limits() {
    let tally = check_jobs(&entries::job, 30, 100_000, about_limits).unwrap();
    tally.print("jobs about the limits");
    for number in [0].into_iter().chain(3..=10) {
        assert!(tally.refusals[number] > 2_000, "{number}: {:?}", tally.refusals);
    }
}

/// The benchmark's peers do what is timed: they answer as the Rust as it comes, which has no kinds, and
/// the one with limits refuses by them.
#[test]
fn the_peers_answer_as_the_rust_as_it_comes() {
    let mut prng = Prng::new(40);
    for (_, kind) in KINDS {
        for _ in 0..10_000 {
            let job = kind(&mut prng);
            let bytes = job.bytes();
            let number = limits::job(&bytes, Answer::BYTES);
            let mut answer = [0xee; Answer::BYTES];
            assert_eq!(peer::job(&bytes, &mut answer), number);
            if number > 0 {
                assert!(answer == [0xee; Answer::BYTES]);
                continue;
            }
            let expected = solved_by(&counted_as_it_comes::VARIANT, &job);
            let kind = [u32::from_le_bytes([0xee; 4]); 45];
            let expected = Answer { looks: 0, pairs: 0, kind, ..expected }.bytes();
            assert!(answer == expected);
            let mut answer = [0xee; Answer::BYTES];
            assert_eq!(peer::unchecked_job(&bytes, &mut answer), 0);
            assert!(answer == expected);
        }
    }
}
