//! As many games with one trait as there may be, at 4 bits. The Rust stops there, so documents 01 and 02 judge: tests/oracle/one_trait.rs and choice.rs.
use crate::choice::chosen;
use crate::data::{self, Keys, Width};
use crate::one_trait::{Query, Stage};
use crate::sys::{Answer, Raw, CASCADE, N};
use crate::{same, MOST_SLOTS};

/// A list with the bits of its scores.
type List = Vec<(u64, u32)>;

pub fn most_slots() {
    for width in [Width::Four, Width::Residual] {
        for (what, scale) in [("scales that differ", None), ("scales of 1", Some(1.0f32)), ("scales of -0", Some(-0.0))] {
            let mut ours = data::filled(1, width, MOST_SLOTS, MOST_SLOTS);
            if let Some(scale) = scale {
                ours.arrays.scales.fill(scale.to_bits());
                ours.arrays.scales2.fill(scale.to_bits());
            }
            data::kill(&mut ours, 0.1);
            data::key(&mut ours.arrays, Keys::Random, MOST_SLOTS);
            ours.record[CASCADE] = 1;
            // The last one's square is subnormal, so that its code is another.
            for entry in [0.3, -4.0, 1.6875 * 2f32.powi(-75)] {
                listed(&format!("width {}, {what}, entry {entry:e}", width.name()), &ours, entry);
            }
        }
    }
}

fn stages(ours: &Raw, slot: usize) -> (Stage, Option<Stage>) {
    let arrays = &ours.arrays;
    let stage = |bytes: &[u8], scales: &[u32]| Stage { byte: bytes[slot], scale: f32::from_bits(scales[slot]) };
    let second = !arrays.codes2.is_empty();
    (stage(&arrays.codes, &arrays.scales), second.then(|| stage(&arrays.codes2, &arrays.scales2)))
}

fn listed(what: &str, ours: &Raw, entry: f32) {
    let query = Query::prepared(data::SEED, entry);
    let live: Vec<(usize, u8)> = (0..ours.record[N] as usize).filter(|&slot| data::mark(&ours.arrays.alive, slot)).map(|slot| (slot, ours.arrays.codes[slot])).collect();
    let scores = |slots: &[usize]| slots.iter().map(|&slot| (slot, query.score(stages(ours, slot)))).collect::<Vec<(usize, f32)>>();
    let all = scores(&live.iter().map(|pair| pair.0).collect::<Vec<usize>>());
    for &(slot, score) in all.iter().step_by(4099) {
        same::equal(what, ours.score(slot, &[entry]).map(f32::to_bits), Ok(score.to_bits()));
    }
    for k in [0, 10, 3000, MOST_SLOTS] {
        let (hits, name) = (chosen(&all, k), |slot: usize| slot as u64);
        let found = by_slot(|slots, scores| ours.search(&[entry], k, slots, scores));
        alike(&format!("search, {what}, k {k}"), found, bits(&hits, name));
        let found = by_key(|keys, scores| ours.search_keyed(&[entry], k, keys, scores));
        alike(&format!("search_keyed, {what}, k {k}"), found, bits(&hits, |slot| Keys::Random.of(slot)));
        for r in [200, 40_000, MOST_SLOTS] {
            let hits = chosen(&scores(&query.candidates(&live, k, r)), k);
            let found = by_slot(|slots, scores| ours.search_cascade(&[entry], k, r, slots, scores));
            alike(&format!("search_cascade, {what}, k {k}, r {r}"), found, bits(&hits, name));
        }
    }
}

/// Equal scores by rising slot as well.
fn alike(what: &str, found: Answer<List>, right: List) {
    same::check(what, found.as_ref() == Ok(&right), || match found {
        Ok(list) => {
            let at = (0..list.len().max(right.len())).find(|&i| list.get(i) != right.get(i)).unwrap_or(0);
            format!("lists of {} and {} entries part at place {at}: ours {:x?}, right {:x?}", list.len(), right.len(), list.get(at), right.get(at))
        }
        Err(number) => format!("refused {number}"),
    });
}

fn bits(hits: &[(usize, f32)], name: impl Fn(usize) -> u64) -> List {
    hits.iter().map(|&(slot, score)| (name(slot), score.to_bits())).collect()
}

fn by_slot(search: impl FnOnce(&mut [u32], &mut [f32]) -> Answer<usize>) -> Answer<List> {
    let (mut slots, mut scores) = (vec![0; MOST_SLOTS], vec![0.0; MOST_SLOTS]);
    search(&mut slots, &mut scores).map(|count| (0..count).map(|i| (slots[i] as u64, scores[i].to_bits())).collect())
}

fn by_key(search: impl FnOnce(&mut [u64], &mut [f32]) -> Answer<usize>) -> Answer<List> {
    let (mut keys, mut scores) = (vec![0; MOST_SLOTS], vec![0.0; MOST_SLOTS]);
    search(&mut keys, &mut scores).map(|count| (0..count).map(|i| (keys[i], scores[i].to_bits())).collect())
}
