//! The smaller and the larger of two floats: minimumNumber and maximumNumber of IEEE 754-2019. Std leaves the sign of
//! two zeros open, so these are written out.

/// Where one is NaN, the other; -0 lies below +0.
pub fn min(a: f32, b: f32) -> f32 {
    if a.is_nan() || b < a || (a == b && b.is_sign_negative()) {
        b
    } else {
        a
    }
}

/// Where one is NaN, the other; +0 lies above -0.
pub fn max(a: f32, b: f32) -> f32 {
    if a.is_nan() || a < b || (a == b && a.is_sign_negative()) {
        b
    } else {
        a
    }
}
