use host::findf::{about_limits, adversarial, check_jobs, realistic, take_off_angles, OURS};
use host::oracle;

#[test]
fn the_take_off_angles_are_the_rusts() {
    assert!(take_off_angles().eq(oracle::ANG));
}

#[test]
fn findf_on_realistic_jobs() {
    let tally = check_jobs(&OURS, 18, 100_000, realistic).unwrap();
    tally.print("findf, realistic");
    assert_eq!(tally.refusals[0], 100_000);
    assert!(tally.layers.iter().all(|jobs| *jobs > 10_000), "{:?}", tally.layers);
    assert!(tally.kinds.iter().all(|rows| *rows > 2_000), "{:?}", tally.kinds);
}

#[test]
fn findf_on_adversarial_jobs() {
    let tally = check_jobs(&OURS, 19, 200_000, adversarial).unwrap();
    tally.print("findf, adversarial");
    assert_eq!(tally.refusals[0], 200_000);
    assert!(tally.layers.iter().all(|jobs| *jobs > 20_000), "{:?}", tally.layers);
    assert!(tally.kinds.iter().all(|rows| *rows > 50_000), "{:?}", tally.kinds);
    assert!(tally.dead > 20_000, "{}", tally.dead);
    assert!(tally.nan > 2_000, "{}", tally.nan);
    // Document 01's bounds, which some jobs reach.
    assert_eq!((tally.most_rows, tally.rows_beyond, tally.looks_beyond), (44, 4, 28));
}

#[test]
fn findf_about_the_limits() {
    let tally = check_jobs(&OURS, 20, 100_000, about_limits).unwrap();
    tally.print("findf, about the limits");
    for number in [0, 3, 4, 5, 6, 8, 9, 10] {
        assert!(tally.refusals[number] > 2_000, "{number}: {:?}", tally.refusals);
    }
}
