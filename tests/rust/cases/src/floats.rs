//! Floats by class, and steps of an ulp.

use crate::Rng;

/// The float k ulps further up (down for k below 0), through zero; infinities and NaN stay.
pub fn ulps(x: f32, k: i64) -> f32 {
    if !x.is_finite() {
        return x;
    }
    let bits = x.to_bits();
    let place = if bits >> 31 == 0 { bits as i64 } else { -((bits & 0x7fff_ffff) as i64) };
    let to = (place + k).clamp(-0x7f80_0000, 0x7f80_0000);
    if to < 0 || (to == 0 && bits >> 31 == 1 && k >= 0) {
        f32::from_bits(0x8000_0000 | (-to) as u32)
    } else {
        f32::from_bits(to as u32)
    }
}

pub fn near(rng: &mut Rng, x: f32, most: i64) -> f32 {
    ulps(x, rng.range(-most, most))
}

/// Zeros, subnormals, infinities and NaNs, the neighbours of each, and those of 1; with both signs.
pub fn corners() -> Vec<u32> {
    let zero = [0, 1, 2];
    let subnormal = [0x0040_0000, 0x007f_fffe, 0x007f_ffff, 0x0080_0000, 0x0080_0001];
    let one = [0x3f7f_ffff, 0x3f80_0000, 0x3f80_0001];
    let infinity = [0x7f7f_fffe, 0x7f7f_ffff, 0x7f80_0000];
    let nan = [0x7f80_0001, 0x7fbf_ffff, 0x7fc0_0000, 0x7fff_ffff];
    let plus = zero.iter().chain(&subnormal).chain(&one).chain(&infinity).chain(&nan);
    plus.flat_map(|x| [*x, x | 0x8000_0000]).collect()
}

/// Bits of every class of value.
pub fn any_bits(rng: &mut Rng) -> u32 {
    let sign = if rng.coin() { 0x8000_0000 } else { 0 };
    match rng.below(12) {
        0 => sign,
        1 => sign | rng.below(64) as u32,
        2 => sign | rng.below(0x80_0000) as u32,
        3 => sign | 0x7f80_0000,
        4 => sign | 0x7f80_0000 | rng.below(0x80_0000) as u32,
        5 => near_whole(rng).to_bits() ^ sign,
        6 => near_power(rng).to_bits() ^ sign,
        7 => sign | ((rng.range(100, 160) as u32) << 23) | rng.below(0x80_0000) as u32,
        _ => rng.u32(),
    }
}

/// A whole number or a half, up to 4 ulps off.
pub fn near_whole(rng: &mut Rng) -> f32 {
    let most = rng.pick(&[4, 64, 4_096, 8_388_608, 16_777_216]);
    let n = rng.below(2 * most) as f32 * 0.5;
    near(rng, n, 4)
}

/// A power of two, up to 4 ulps off.
pub fn near_power(rng: &mut Rng) -> f32 {
    let n = f32::from_bits((rng.range(1, 254) as u32) << 23);
    near(rng, n, 4)
}
