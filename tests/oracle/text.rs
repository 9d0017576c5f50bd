//! The conventions of the programs' language: numbers without leading zero, patterns of eight digits, two digits a byte,
//! `-` for an empty vector or an empty run of bytes.

/// The pattern of a float; every NaN is printed as 7fc00000, since a float of the programs has one NaN.
/// The test is on the pattern: of `if x.is_nan() { 0x7FC0_0000 } else { x.to_bits() }` an optimising compiler kept only `x.to_bits()`.
pub fn pattern(x: f32) -> u32 {
    let p = x.to_bits();
    if p & 0x7FFF_FFFF > 0x7F80_0000 {
        0x7FC0_0000
    } else {
        p
    }
}

pub fn eight(x: f32) -> String {
    format!("{:08x}", pattern(x))
}

pub fn vector(v: &[f32]) -> String {
    if v.is_empty() {
        return "-".to_string();
    }
    v.iter().map(|&x| eight(x)).collect()
}

pub fn bytes(run: &[u8]) -> String {
    if run.is_empty() {
        return "-".to_string();
    }
    run.iter().map(|b| format!("{b:02x}")).collect()
}
