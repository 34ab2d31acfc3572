use host::entries::{self, AllModes, Zon};
use host::prng::Prng;
use host::{limits, oracle};

/// The list and the slots after a call, where the Rust must agree bit for bit.
fn check_accumulate(list: AllModes, zon: Zon, ist: usize, lst: usize) {
    let ours = entries::accumulate(list, zon, ist, lst);
    assert_eq!(ours.refusal, 0);
    let mut rust = oracle::AllModes::from(list);
    rust.accumulate(&zon.into(), ist, lst);
    let rust = AllModes::from(rust);
    assert!(
        ours.modes.words() == rust.words(),
        "ist {ist}, lst {lst}, count {}, heights {:?}",
        list.nmmod,
        zon.hp
    );
}

/// A list of any words whose count is `count`.
fn random_list(prng: &mut Prng, count: usize) -> AllModes {
    let mut list = AllModes::from_words(prng.words());
    list.nmmod = count;
    list
}

#[test]
fn accumulate_wherever_it_is_allowed() {
    let heights =
        [300.0, 0.0, -0.0, -1.0, f32::NAN, f32::INFINITY, f32::NEG_INFINITY, f32::from_bits(1)];
    let mut prng = Prng::new(11);
    let mut allowed = 0;
    for ist in (1..=9).chain([usize::MAX]) {
        for lst in 0..=7 {
            for count in 0..=20 {
                for turn in 0..40 {
                    let mut zon = Zon::from_words(prng.words());
                    if turn % 2 == 0 {
                        zon.hp = std::array::from_fn(|_| prng.among(&heights));
                    }
                    let list = random_list(&mut prng, count);
                    if limits::accumulate(&list, &zon, ist, lst) == 0 {
                        check_accumulate(list, zon, ist, lst);
                        allowed += 1;
                    }
                }
            }
        }
    }
    assert!(allowed > 50_000, "{allowed}");
}

#[test]
fn accumulate_hop_after_hop_from_a_reset() {
    let mut prng = Prng::new(12);
    for _ in 0..10_000 {
        let list = random_list(&mut prng, 0);
        let mut rust = oracle::AllModes::from(list);
        let mut ours = entries::reset(list);
        rust.reset();
        loop {
            let zon = Zon::from_words(prng.words());
            let accumulated = entries::accumulate(ours, zon, 1, 7);
            if accumulated.refusal != 0 {
                break;
            }
            ours = accumulated.modes;
            rust.accumulate(&zon.into(), 1, 7);
        }
        assert!(ours.words() == AllModes::from(rust).words());
        assert!(ours.nmmod > 13, "{}", ours.nmmod);
    }
}

#[test]
fn reset_of_any_list() {
    let mut prng = Prng::new(13);
    for _ in 0..100_000 {
        let list = AllModes::from_words(prng.words());
        let ours = entries::reset(list);
        let mut rust = oracle::AllModes::from(list);
        rust.reset();
        assert!(ours.words() == AllModes::from(rust).words());
    }
}
