//! Numbers as people write them.

/// A whole number up to 2^64 - 1: digits alone, since a sign or a point is a slip where a key or a count is asked for.
pub fn whole(text: &[u8]) -> Option<u64> {
    let digits = text.iter().all(u8::is_ascii_digit);
    std::str::from_utf8(text).ok().filter(|_| digits)?.parse().ok()
}

/// The binary32 nearest to a decimal, in one rounding. Words such as inf and nan are no decimals.
pub fn decimal(text: &[u8]) -> Option<f32> {
    let plain = text.iter().all(|byte| matches!(byte, b'0'..=b'9' | b'+' | b'-' | b'.' | b'e' | b'E'));
    std::str::from_utf8(text).ok().filter(|_| plain)?.parse().ok()
}

/// The most bytes that a message quotes: a file that is no text can be one long word.
const MOST_SHOWN: usize = 40;

/// A word of the input for a message, in quotation marks, so that its blanks and control characters can be seen.
pub fn quoted(text: &[u8]) -> String {
    let (start, more) = match text.split_at_checked(MOST_SHOWN) {
        Some((start, rest)) if !rest.is_empty() => (start, ".."),
        _ => (text, ""),
    };
    format!("{:?}{more}", String::from_utf8_lossy(start))
}
