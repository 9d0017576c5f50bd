//! What the Rust makes of version 1 files, beside what `convert` made of them. On standard input stand pairs of files, a version 1 file and the converted one, each
//! with its length before it (four bytes, little-endian); the second is empty where `convert` refused. A line is printed for each pair:
//!
//! `alike C`     the Rust reads both, and the two indexes are alike but for the scales; those of the second are those of the first put through the Rust's
//!               `f32_to_f16_bits` and `f16_bits_to_f32`; what the Rust writes of the first is the second, byte for byte. C scales changed
//! `differs: W`  one of this doesn't hold
//! `read`        the Rust reads the first, and there is no second
//! `refused N`   the Rust refuses the first, N being document 01's number
//! `stops`       the Rust panics at the first
#[allow(dead_code)]
#[path = "../oracle/halves.rs"]
mod halves;

use std::io::{stdin, stdout, BufWriter, Read, Write};
use std::panic::{catch_unwind, set_hook};
use vecq::format::{f16_bits_to_f32, f32_to_f16_bits, Error};
use vecq::store::VecqIndex;

fn next<'a>(rest: &mut &'a [u8]) -> &'a [u8] {
    let (length, after) = rest.split_at(4);
    let length = u32::from_le_bytes(length.try_into().expect("four bytes")) as usize;
    let (file, after) = after.split_at(length);
    *rest = after;
    file
}

fn patterns(scales: &[f32]) -> Vec<u32> {
    scales.iter().map(|x| x.to_bits()).collect()
}

/// The first thing, other than scales, that two indexes don't share.
fn unlike(old: &VecqIndex, new: &VecqIndex) -> Option<&'static str> {
    let alike = [
        ("dim", old.dim() == new.dim()),
        ("working_dim", old.working_dim() == new.working_dim()),
        ("seed", old.seed() == new.seed()),
        ("bits", old.bits == new.bits),
        ("residual", old.residual == new.residual),
        ("n", old.n == new.n),
        ("live", old.live == new.live),
        ("bytes a slot", old.bytes_per_vector() == new.bytes_per_vector()),
        ("codes", old.codes == new.codes),
        ("keys", old.keys == new.keys),
        ("slots of keys", old.key_to_slot == new.key_to_slot && old.key_to_slots == new.key_to_slots),
        ("live marks", old.alive == new.alive),
        ("cascade", old.signature == new.signature),
        ("codes2", old.codes2 == new.codes2),
        ("scales2", patterns(&old.scales2) == patterns(&new.scales2)),
    ];
    alike.iter().find(|(_, alike)| !alike).map(|&(what, _)| what)
}

/// Whether a scale changed: read back as the IEEE value, since the Rust halves subnormal ones.
fn changed(x: f32) -> bool {
    let back = f32::from_bits(halves::reading(f32_to_f16_bits(x)));
    if x.is_nan() { back.to_bits() != x.to_bits() } else { back != x }
}

fn beside(old: &VecqIndex, file: &[u8]) -> Result<String, String> {
    let new = VecqIndex::from_bytes(file).map_err(|error| format!("the Rust refuses what was converted: {error}"))?;
    if let Some(what) = unlike(old, &new) {
        return Err(what.to_string());
    }
    let rounded: Vec<f32> = old.scales.iter().map(|&x| f16_bits_to_f32(f32_to_f16_bits(x))).collect();
    if let Some(slot) = (0..new.n).find(|&slot| new.scales[slot].to_bits() != rounded[slot].to_bits()) {
        let [was, is, right] = [&old.scales, &new.scales, &rounded].map(|scales| scales[slot].to_bits());
        return Err(format!("scale {slot}, {was:08X}, is {is:08X} and not {right:08X}"));
    }
    if old.to_bytes() != file {
        return Err("the Rust writes other bytes".to_string());
    }
    Ok(format!("alike {}", old.scales.iter().filter(|&&x| changed(x)).count()))
}

fn answer(old: &[u8], new: &[u8]) -> String {
    match catch_unwind(|| VecqIndex::from_bytes(old)) {
        Err(_) => "stops".to_string(),
        Ok(Err(Error::Truncated)) => "refused 14".to_string(),
        Ok(Err(Error::NotAStableFile)) => "refused 15".to_string(),
        Ok(Err(Error::UnsupportedVersion(_))) => "refused 16".to_string(),
        Ok(Err(error)) => format!("differs: {error}"),
        Ok(Ok(_)) if new.is_empty() => "read".to_string(),
        Ok(Ok(old)) => beside(&old, new).unwrap_or_else(|what| format!("differs: {what}")),
    }
}

fn main() {
    // A panic is an answer here.
    set_hook(Box::new(|_| {}));
    let mut input = Vec::new();
    stdin().lock().read_to_end(&mut input).expect("the pairs are read");
    let mut out = BufWriter::new(stdout().lock());
    let mut rest = &input[..];
    while !rest.is_empty() {
        let (old, new) = (next(&mut rest), next(&mut rest));
        writeln!(out, "{}", answer(old, new)).expect("an answer is written");
    }
    out.flush().expect("the answers are written");
}
