//! Units and braking.
//!
//! "Lengths and positions are whole decimetres. Speeds are decimetres per cycle, and a cycle
//! is one time step."

/// "S(v) = v + (v − b) + (v − 2b) + .. while the terms are positive; S(0) = 0."
///
/// The term v − i·b is positive for the first `terms` values of i, so the sum is
/// terms·v − b·(0 + 1 + .. + (terms − 1)). Tests hold it against the sum term by term, and against the turns of R-5 of document 02. It has no
/// turns itself, so that it differs in kind from a sum.
// reading: b is at least 1 by rule 4; for b = 0 the sum never ends and u64::MAX stands for it.
pub fn s(b: u32, v: u32) -> u64 {
    if v == 0 {
        return 0;
    }
    if b == 0 {
        return u64::MAX;
    }
    let terms = u64::from(v.div_ceil(b));
    terms * u64::from(v) - terms * (terms - 1) / 2 * u64::from(b)
}

/// "B(v) = S(v) − v is the way still run after this cycle."
pub fn b_rest(b: u32, v: u32) -> u64 {
    s(b, v) - u64::from(v)
}
