//! SHA-256 (FIPS 180-4), for the check of the slices.

/// The first 32 bits of the fractional part of the `root`-th root of the prime `p`: the
/// greatest h with (h / 2^32 + whole part)^root <= p, found bit by bit.
const fn fraction_of_root(p: u128, root: u32) -> u32 {
    let mut scaled: u128 = 0;
    let mut bit = 36;
    while bit > 0 {
        bit -= 1;
        let tried = scaled | 1 << bit;
        if tried.pow(root) <= p << (32 * root) {
            scaled = tried;
        }
    }
    scaled as u32
}

/// The fractions of the `root`-th roots of the first N primes.
const fn fractions<const N: usize>(root: u32) -> [u32; N] {
    let mut table = [0; N];
    let mut found = 0;
    let mut n: u128 = 2;
    while found < N {
        let mut divisor = 2;
        while !n.is_multiple_of(divisor) {
            divisor += 1;
        }
        if divisor == n {
            table[found] = fraction_of_root(n, root);
            found += 1;
        }
        n += 1;
    }
    table
}

const START: [u32; 8] = fractions(2);
const K: [u32; 64] = fractions(3);

/// The digest of `message`, in hexadecimal.
pub fn sha256(message: &[u8]) -> String {
    let mut padded = message.to_vec();
    padded.push(0x80);
    while padded.len() % 64 != 56 {
        padded.push(0);
    }
    padded.extend((8 * message.len() as u64).to_be_bytes());

    let mut state = START;
    for block in padded.chunks_exact(64) {
        let mut w = [0; 64];
        for (word, bytes) in w.iter_mut().zip(block.chunks_exact(4)) {
            *word = u32::from_be_bytes(bytes.try_into().unwrap());
        }
        for t in 16..64 {
            let s0 = w[t - 15].rotate_right(7) ^ w[t - 15].rotate_right(18) ^ (w[t - 15] >> 3);
            let s1 = w[t - 2].rotate_right(17) ^ w[t - 2].rotate_right(19) ^ (w[t - 2] >> 10);
            w[t] = s1.wrapping_add(w[t - 7]).wrapping_add(s0).wrapping_add(w[t - 16]);
        }
        let [mut a, mut b, mut c, mut d, mut e, mut f, mut g, mut h] = state;
        for t in 0..64 {
            let sum1 = e.rotate_right(6) ^ e.rotate_right(11) ^ e.rotate_right(25);
            let choice = (e & f) ^ (!e & g);
            let t1 =
                h.wrapping_add(sum1).wrapping_add(choice).wrapping_add(K[t]).wrapping_add(w[t]);
            let sum0 = a.rotate_right(2) ^ a.rotate_right(13) ^ a.rotate_right(22);
            let majority = (a & b) ^ (a & c) ^ (b & c);
            (h, g, f, e) = (g, f, e, d.wrapping_add(t1));
            (d, c, b, a) = (c, b, a, t1.wrapping_add(sum0.wrapping_add(majority)));
        }
        for (word, add) in state.iter_mut().zip([a, b, c, d, e, f, g, h]) {
            *word = word.wrapping_add(add);
        }
    }
    state.iter().map(|word| format!("{word:08x}")).collect()
}
