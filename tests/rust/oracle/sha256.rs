/// SHA-256 (FIPS 180-4) of some bytes, in hex.
pub fn sha256(bytes: &[u8]) -> String {
    // the first 32 bits of the fractional parts of the cube roots of the first 64 primes, and of the square roots of the first 8
    let primes: Vec<u64> = (2u64..).filter(|n| (2..*n).all(|d| n % d != 0)).take(64).collect();
    let k: Vec<u32> = primes.iter().map(|&p| fraction(p, 3)).collect();
    let mut h: Vec<u32> = primes[..8].iter().map(|&p| fraction(p, 2)).collect();
    let mut padded = bytes.to_vec();
    padded.push(0x80);
    padded.resize((bytes.len() + 9).div_ceil(64) * 64 - 8, 0);
    padded.extend((8 * bytes.len() as u64).to_be_bytes());
    for block in padded.chunks_exact(64) {
        let mut w: Vec<u32> = block.chunks_exact(4).map(|b| u32::from_be_bytes(b.try_into().unwrap())).collect();
        for t in 16..64 {
            let (a, b): (u32, u32) = (w[t - 15], w[t - 2]);
            let s0 = a.rotate_right(7) ^ a.rotate_right(18) ^ (a >> 3);
            let s1 = b.rotate_right(17) ^ b.rotate_right(19) ^ (b >> 10);
            w.push(w[t - 16].wrapping_add(s0).wrapping_add(w[t - 7]).wrapping_add(s1));
        }
        let mut v = h.clone();
        for t in 0..64 {
            let s1 = v[4].rotate_right(6) ^ v[4].rotate_right(11) ^ v[4].rotate_right(25);
            let choice = (v[4] & v[5]) ^ (!v[4] & v[6]);
            let t1 = v[7].wrapping_add(s1).wrapping_add(choice).wrapping_add(k[t]).wrapping_add(w[t]);
            let s0 = v[0].rotate_right(2) ^ v[0].rotate_right(13) ^ v[0].rotate_right(22);
            let most = (v[0] & v[1]) ^ (v[0] & v[2]) ^ (v[1] & v[2]);
            v.rotate_right(1);
            v[4] = v[4].wrapping_add(t1);
            v[0] = t1.wrapping_add(s0.wrapping_add(most));
        }
        h.iter_mut().zip(&v).for_each(|(h, v)| *h = h.wrapping_add(*v));
    }
    h.iter().map(|word| format!("{word:08x}")).collect()
}

/// The first 32 bits after the point of a prime's square or cube root.
fn fraction(prime: u64, root: u32) -> u32 {
    // the largest x with x^root at most prime * 2^(32 root), found bit by bit; its low 32 bits
    let most = (prime as u128) << (32 * root);
    (0..36).rev().fold(0u128, |x, bit| if (x | 1 << bit).pow(root) <= most { x | 1 << bit } else { x }) as u32
}
