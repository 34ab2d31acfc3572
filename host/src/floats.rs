//! When two floats count as equal, and the floats where functions tend to differ.

/// Equal bit for bit, all NaNs counting as equal.
pub fn same(a: f32, b: f32) -> bool {
    a.to_bits() == b.to_bits() || a.is_nan() && b.is_nan()
}

/// Equal bit for bit, NaNs too.
pub fn identical(a: f32, b: f32) -> bool {
    a.to_bits() == b.to_bits()
}

/// How many patterns lie from one number to the other.
pub fn steps_between(a: f32, b: f32) -> u32 {
    let place = |x: f32| match x.to_bits() {
        bits @ 0..=0x7fff_ffff => i64::from(bits),
        bits => -i64::from(bits & 0x7fff_ffff),
    };
    (place(a) - place(b)).unsigned_abs() as u32
}

/// The numbers about a range: its ends, what is just inside and just outside of them, both
/// zeros, the least subnormals, infinities and NaNs.
pub fn about(low: f32, high: f32) -> Vec<f32> {
    let ends = [low, high].into_iter().flat_map(|x| [x.next_down(), x, x.next_up()]);
    let least = f32::from_bits(1);
    let other = [0.0, -0.0, least, -least, f32::INFINITY, f32::NEG_INFINITY, f32::NAN, -f32::NAN];
    ends.chain(other).collect()
}

/// Of both signs: zero, the least and the largest subnormals and normals, infinity, quiet and
/// signalling NaNs, and each normal power of two, and five, with the patterns beside it.
pub fn edges() -> Vec<f32> {
    let powers = (0..0xff).map(|exponent| exponent << 23);
    let middles = powers.chain([5.0f32.to_bits(), 1, 0x7f80_0000, 0x7fc0_0000, 0x7fff_fffe]);
    let patterns = middles.flat_map(|p: u32| [p.saturating_sub(1), p, p + 1]);
    let both_signs = patterns.flat_map(|p| [p, p | 0x8000_0000]);
    both_signs.map(f32::from_bits).collect()
}

/// The patterns up to `reach` to each side of `middle`, so far as there are any.
pub fn window(middle: u32, reach: u32) -> std::ops::RangeInclusive<u32> {
    middle.saturating_sub(reach)..=middle.saturating_add(reach)
}
