//! What a half reads as, by the Rust and by IEEE 754.
use vecq::format::f16_bits_to_f32;

/// The value of a finite half as a number: exact, since a double holds every one.
pub fn value(h: u16) -> f64 {
    let fraction = (h & 0x3FF) as f64;
    let exponent = (h >> 10 & 0x1F) as i32;
    let magnitude = if exponent == 0 {
        fraction * 2f64.powi(-24)
    } else {
        (1024.0 + fraction) * 2f64.powi(exponent - 25)
    };
    if h & 0x8000 == 0 { magnitude } else { -magnitude }
}

pub fn subnormal(h: u16) -> bool {
    h & 0x7C00 == 0 && h & 0x3FF != 0
}

/// The binary32 pattern that a half reads as: the Rust's, and the IEEE value where the Rust halves it.
pub fn reading(h: u16) -> u32 {
    let theirs = f16_bits_to_f32(h);
    if subnormal(h) {
        assert_eq!(theirs as f64 * 2.0, value(h), "the Rust halves the subnormal {h:04x}");
        return (value(h) as f32).to_bits();
    }
    theirs.to_bits()
}
