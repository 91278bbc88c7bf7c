//! The float helpers, which the crate groatpocket does not give out: its archive exports them for these runs.
//! Made from include/groatpocket.h by tests/rust/signatures (`-- write`), which `./test` holds it against: edit there.

use groatpocket as _;

extern "C" {
    fn gp_floor(x: f32) -> f32;
    fn gp_ceil(x: f32) -> f32;
    fn gp_round(x: f32) -> f32;
    fn gp_trunc(x: f32) -> f32;
    fn gp_abs(x: f32) -> f32;
    fn gp_signum(x: f32) -> f32;
    fn gp_min(a: f32, b: f32) -> f32;
    fn gp_max(a: f32, b: f32) -> f32;
    fn gp_copysign(magnitude: f32, sign: f32) -> f32;
    fn gp_clamp(x: f32, lo: f32, hi: f32) -> f32;
    fn gp_to_u32(x: f32) -> u32;
    fn gp_to_i32(x: f32) -> i32;
    fn gp_of_u32(n: u32) -> f32;
    fn gp_of_i32(n: i32) -> f32;
    fn gp_is_finite(x: f32) -> u8;
}

/// One helper over words, by its number in the list of floats.
pub fn one(helper: u32, [x, y, z]: [u32; 3]) -> u32 {
    // SAFETY of every call: numbers by value alone.
    unsafe {
        match helper {
            0x01 => gp_floor(f32::from_bits(x)).to_bits(),
            0x02 => gp_ceil(f32::from_bits(x)).to_bits(),
            0x03 => gp_round(f32::from_bits(x)).to_bits(),
            0x04 => gp_trunc(f32::from_bits(x)).to_bits(),
            0x05 => gp_abs(f32::from_bits(x)).to_bits(),
            0x06 => gp_signum(f32::from_bits(x)).to_bits(),
            0x10 => gp_min(f32::from_bits(x), f32::from_bits(y)).to_bits(),
            0x11 => gp_max(f32::from_bits(x), f32::from_bits(y)).to_bits(),
            0x12 => gp_copysign(f32::from_bits(x), f32::from_bits(y)).to_bits(),
            0x20 => gp_clamp(f32::from_bits(x), f32::from_bits(y), f32::from_bits(z)).to_bits(),
            0x07 => gp_to_u32(f32::from_bits(x)),
            0x08 => gp_to_i32(f32::from_bits(x)) as u32,
            0x09 => gp_of_u32(x).to_bits(),
            0x0a => gp_of_i32(x as i32).to_bits(),
            0x0b => (gp_is_finite(f32::from_bits(x)) != 0) as u32,
            _ => panic!("no helper {helper:02x}"),
        }
    }
}
