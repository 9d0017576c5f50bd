//! The choice of slots as documents 01 and 02 (Req 04) say it. The driver holds it to the Rust's lists, and answers by it where a score is -0, which the Rust ranks below +0.
use std::cmp::Reverse;
use std::collections::VecDeque;

/// 01: "its 32 bits, inverted if the top bit is set, else with the top bit flipped". 02: "The order number of -0 becomes that of +0."
pub fn order_number(score: f32) -> u32 {
    let p = if score == 0.0 { 0 } else { score.to_bits() };
    if p >> 31 == 1 { !p } else { p ^ 0x8000_0000 }
}

/// Whether 02 leaves a list out of the comparison: "Lists in which a live score is -0 are no longer held against the Rust".
pub fn has_minus_zero(scores: &[(usize, f32)]) -> bool {
    scores.iter().any(|hit| hit.1.to_bits() == (-0.0f32).to_bits())
}

/// The list of the slots with these scores, which come in slot order.
pub fn chosen(scores: &[(usize, f32)], k: usize) -> Vec<(usize, f32)> {
    // "k becomes min(k, live), then at least 1. T is the k-th highest order number of live slots (the lowest, if fewer)."
    let k = k.min(scores.len()).max(1);
    let mut numbers: Vec<u32> = scores.iter().map(|hit| order_number(hit.1)).collect();
    numbers.sort_unstable_by_key(|&number| Reverse(number));
    numbers.truncate(k);
    let t = numbers.last().copied().unwrap_or(0);
    // "Of live slots at or above T the first k by slot stay; each later one above T displaces the lowest-numbered slot at T."
    let (mut above, mut at) = (Vec::new(), VecDeque::new());
    for &hit in scores.iter().filter(|hit| order_number(hit.1) >= t) {
        let full = above.len() + at.len() == k;
        match order_number(hit.1) > t {
            true if full => {
                at.pop_front().expect("fewer than k are above T");
                above.push(hit);
            }
            true => above.push(hit),
            false if !full => at.push_back(hit),
            false => (),
        }
    }
    // "The list falls by order number, equals by rising slot"
    above.extend(at);
    above.sort_by_key(|&(slot, score)| (Reverse(order_number(score)), slot));
    above
}
