//! Lent slices with guard words on both sides, kept as bits so that NaN payloads count.

pub const GUARDS: usize = 8;
const GUARD: u32 = 0x7fa5_c35a;

/// A slice of 32-bit words between guards.
#[derive(Clone)]
pub struct Lent {
    words: Vec<u32>,
    len: usize,
}

impl Lent {
    pub fn new(content: &[u32]) -> Lent {
        let mut words = vec![GUARD; content.len() + 2 * GUARDS];
        words[GUARDS..GUARDS + content.len()].copy_from_slice(content);
        Lent { words, len: content.len() }
    }

    /// Zeros; the guards after them stand too. Large ones cost nothing until touched.
    pub fn zeros(len: usize) -> Lent {
        let mut words = vec![0u32; len + 2 * GUARDS];
        words[..GUARDS].fill(GUARD);
        words[GUARDS + len..].fill(GUARD);
        Lent { words, len }
    }

    pub fn len(&self) -> usize {
        self.len
    }

    pub fn is_empty(&self) -> bool {
        self.len == 0
    }

    pub fn guards_stand(&self) -> bool {
        let ends = self.words[..GUARDS].iter().chain(&self.words[GUARDS + self.len..]);
        ends.copied().all(|w| w == GUARD)
    }

    pub fn u32s(&self) -> &[u32] {
        &self.words[GUARDS..GUARDS + self.len]
    }

    pub fn u32s_mut(&mut self) -> &mut [u32] {
        &mut self.words[GUARDS..GUARDS + self.len]
    }

    pub fn f32s(&self) -> &[f32] {
        as_f32(self.u32s())
    }

    pub fn f32s_mut(&mut self) -> &mut [f32] {
        let words = self.u32s_mut();
        // SAFETY: same size and alignment, and every bit pattern is an f32.
        unsafe { std::slice::from_raw_parts_mut(words.as_mut_ptr().cast(), words.len()) }
    }

    pub fn i32s(&self) -> &[i32] {
        let words = self.u32s();
        // SAFETY: same size and alignment, and every bit pattern is an i32.
        unsafe { std::slice::from_raw_parts(words.as_ptr().cast(), words.len()) }
    }

    pub fn i32s_mut(&mut self) -> &mut [i32] {
        let words = self.u32s_mut();
        // SAFETY: same size and alignment, and every bit pattern is an i32.
        unsafe { std::slice::from_raw_parts_mut(words.as_mut_ptr().cast(), words.len()) }
    }
}

/// A slice of bytes between guard bytes, made of words that hold one byte each.
pub struct LentBytes {
    bytes: Vec<u8>,
    len: usize,
}

impl LentBytes {
    pub fn of(words: &[u32]) -> LentBytes {
        let guards = [GUARD as u8; GUARDS];
        let content: Vec<u8> = words.iter().map(|&w| w as u8).collect();
        LentBytes { bytes: [&guards[..], &content, &guards].concat(), len: words.len() }
    }

    pub fn u8s(&self) -> &[u8] {
        &self.bytes[GUARDS..GUARDS + self.len]
    }

    pub fn u8s_mut(&mut self) -> &mut [u8] {
        &mut self.bytes[GUARDS..GUARDS + self.len]
    }

    /// Puts the bytes back into words of their own; a guard byte changed ends the run.
    pub fn give_back(&self, words: &mut [u32]) {
        let ends = self.bytes[..GUARDS].iter().chain(&self.bytes[GUARDS + self.len..]);
        assert!(ends.copied().all(|b| b == GUARD as u8), "guard bytes were changed");
        words.iter_mut().zip(self.u8s()).for_each(|(w, b)| *w = *b as u32);
    }
}

pub fn as_f32(words: &[u32]) -> &[f32] {
    // SAFETY: same size and alignment, and every bit pattern is an f32.
    unsafe { std::slice::from_raw_parts(words.as_ptr().cast(), words.len()) }
}

/// Bits with -0 as +0: numbers that compare as equal.
pub fn one_zero(bits: u32) -> u32 {
    if bits == 0x8000_0000 {
        0
    } else {
        bits
    }
}

/// Bits with every NaN as one.
pub fn one_nan(bits: u32) -> u32 {
    if f32::from_bits(bits).is_nan() {
        0x7fc0_0000
    } else {
        bits
    }
}
