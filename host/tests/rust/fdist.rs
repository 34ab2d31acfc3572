use host::fdist::{about_limits, after_a_walk, arbitrary, check_jobs};

#[test]
fn fdist_on_arbitrary_reflectrices() {
    let tally = check_jobs(21, 500_000, arbitrary);
    tally.print("fdist, arbitrary");
    assert!(tally.pairs[44] > 5_000, "{:?}", tally.pairs);
    assert!(tally.rays.iter().all(|jobs| *jobs > 5_000), "{:?}", tally.rays);
}

#[test]
fn fdist_after_a_walk() {
    let tally = check_jobs(22, 100_000, after_a_walk);
    tally.print("fdist, after a walk");
    assert!(tally.rays[..3].iter().all(|jobs| *jobs > 1_000), "{:?}", tally.rays);
}

#[test]
fn fdist_about_the_limits() {
    let tally = check_jobs(23, 100_000, about_limits);
    tally.print("fdist, about the limits");
    for number in [0, 5, 6, 7] {
        assert!(tally.refusals[number] > 5_000, "{number}: {:?}", tally.refusals);
    }
}
