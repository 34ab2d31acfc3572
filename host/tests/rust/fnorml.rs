use host::prng::Prng;
use host::{entries, floats, oracle};

fn check(ypx: f32) {
    let (ours, rust) = (entries::fnorml(ypx), oracle::fnorml(ypx));
    assert!(
        floats::same(ours, rust),
        "fnorml({ypx:e}, {:08x}): {ours:e}, not {rust:e}",
        ypx.to_bits()
    );
}

#[test]
fn fnorml_at_the_edges() {
    floats::edges().into_iter().for_each(check);
}

#[test]
fn fnorml_at_random() {
    let mut prng = Prng::new(7);
    for _ in 0..5_000_000 {
        check(prng.float());
        check(prng.within(-6.0, 6.0));
    }
}
