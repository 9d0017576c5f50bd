//! The commands that tell what a file holds: info, check, keys. They change nothing and take no lock.
use crate::arguments::{self, Arguments};
use crate::fault::{Done, Fault};
use crate::lists::{or_dash, yes_or_no};
use crate::output::print;
use crate::sha256;
use crate::stored::Stored;
use std::fmt::Write;
use vecq::{HeldSlot, Index};

// ---- what a file holds

pub fn check(arguments: &Arguments) -> Done<()> {
    Stored::read(arguments.path("FILE")?).map(|_| ())
}

pub fn info(arguments: &Arguments) -> Done<()> {
    let path = arguments.path("FILE")?;
    let stored = Stored::read(path)?;
    let version = Index::version(&stored.bytes).map_err(Fault::on(path.display()))?;
    let held = stored.index.held().map_err(Fault::on(path.display()))?;
    let mut text = facts(&stored, version, &held);
    if arguments.has("--slots") {
        text.push_str(&slot_lines(&stored.index));
    }
    print(&text)
}

fn facts(stored: &Stored, version: u16, held: &[HeldSlot]) -> String {
    let index = &stored.index;
    let facts = [
        ("version", version.to_string()),
        ("dim", index.dim().to_string()),
        ("working_dim", index.working_dim().to_string()),
        ("seed", index.seed().to_string()),
        ("bits", index.bits().to_string()),
        ("residual", yes_or_no(index.is_residual()).to_string()),
        ("slots", index.slots().to_string()),
        ("keyed", held.len().to_string()),
        ("keys", by_key(held).count().to_string()),
        ("bytes", stored.bytes.len().to_string()),
        ("sha256", sha256::of(&stored.bytes)),
    ];
    facts.iter().map(|(name, value)| format!("{name}\t{value}\n")).collect()
}

/// An empty line, the names of the columns, and a line for each slot.
fn slot_lines(index: &Index) -> String {
    let mut text = String::from("\nslot\tkey\thalf\tyear\n");
    for (slot, ((key, half), year)) in index.keys().zip(index.halves()).zip(index.years()).enumerate() {
        // Writing to a string can't fail.
        let _ = writeln!(text, "{slot}\t{}\t{half:04X}\t{year}", or_dash(key));
    }
    text
}

// ---- keys

/// The slots of each key, which stand together.
fn by_key(held: &[HeldSlot]) -> impl Iterator<Item = &[HeldSlot]> {
    held.chunk_by(|one, next| one.key == next.key)
}

pub fn keys(arguments: &Arguments) -> Done<()> {
    let path = arguments.path("FILE")?;
    let asked = arguments.more().iter().map(|word| arguments::key("KEY", word)).collect::<Done<Vec<u64>>>()?;
    let held = Stored::read(path)?.index.held().map_err(Fault::on(path.display()))?;
    if asked.is_empty() {
        let lines: String = by_key(&held).filter_map(|slots| Some(key_line(slots.first()?.key, slots))).collect();
        return print(&lines);
    }
    let lines: String = asked.iter().map(|key| key_line(*key, slots_of(&held, *key))).collect();
    print(&lines)?;
    if asked.iter().any(|key| slots_of(&held, *key).is_empty()) {
        return Err(Fault::No(String::new()));
    }
    Ok(())
}

fn slots_of(held: &[HeldSlot], key: u64) -> &[HeldSlot] {
    let start = held.partition_point(|slot| slot.key < key);
    let end = held.partition_point(|slot| slot.key <= key);
    held.get(start..end).unwrap_or_default()
}

fn key_line(key: u64, slots: &[HeldSlot]) -> String {
    let slots: Vec<String> = slots.iter().map(|held| held.slot.to_string()).collect();
    format!("{key}\t{}\n", or_dash(Some(slots.join(" ")).filter(|slots| !slots.is_empty())))
}
