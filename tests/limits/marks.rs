//! The words of live marks (document 02, Req 02): 65,536 slots in 1,024 words, in more and in one fewer; bits that are set at or above the slots in use.
use crate::data::{self, first_marks, mark, set_mark, Keys, Width, MARKS, WIDTHS, YEAR};
use crate::kept::{like, refused};
use crate::random::Random;
use crate::rust::SCALAR;
use crate::sys::{Raw, CASCADE, LIVE, N};
use crate::{same, MOST_SLOTS};

const DIM: usize = 8;
/// As many words as all slots need.
const WORDS: usize = MOST_SLOTS / MARKS;
/// So many, one more, and many more are lent.
const LENT: [usize; 3] = [WORDS, WORDS + 1, 2000];

/// An index of `n` slots in arrays that hold `room`, but for so many words of live marks, and the keys 7 + 3 * slot.
fn index(width: Width, n: usize, room: usize, words: usize) -> Raw {
    let mut ours = data::filled(DIM, width, n, room);
    ours.arrays.alive.resize(words, 0);
    data::key(&mut ours.arrays, Keys::Rising, n);
    ours.record[CASCADE] = (width == Width::Four) as u64;
    ours
}

fn words_are(what: &str, ours: &Raw, right: &[u64]) {
    let alive = &ours.arrays.alive;
    let at = (0..alive.len()).find(|&i| right.get(i) != alive.get(i));
    same::check(what, alive.len() == right.len() && at.is_none(), || {
        let at = at.unwrap_or(0);
        format!("word {at} is {:016x?} and not {:016x?}", alive.get(at), right.get(at))
    });
}

/// Every call of an index that is there is refused by 13, and changes nothing.
fn all_refused(what: &str, ours: &mut Raw) {
    let vector = data::vector(&mut Random::new(61), DIM);
    let (mut slots, mut names, mut scores, mut file) = (vec![7; 10], vec![7; 10], vec![7.0; 10], vec![7; 1 << 21]);
    refused(what, ours, 13, |o| o.set_bits(4));
    refused(what, ours, 13, |o| o.enable_cascade());
    refused(what, ours, 13, |o| o.add(&vector, YEAR));
    refused(what, ours, 13, |o| o.add_keyed(7, &vector, YEAR, YEAR));
    refused(what, ours, 13, |o| o.add_keyed_multi(7, &vector, YEAR));
    refused(what, ours, 13, |o| o.relabel(7, 8));
    refused(what, ours, 13, |o| o.remove_keyed(7, YEAR));
    refused(what, ours, 13, |o| o.remove_keyed_at(7, 0, YEAR));
    refused(what, ours, 13, |o| o.compact());
    refused(what, ours, 13, |o| o.key_of(0));
    refused(what, ours, 13, |o| o.contains_key(7));
    refused(what, ours, 13, |o| o.slot_at(7, 0));
    refused(what, ours, 13, |o| o.score(0, &vector));
    refused(what, ours, 13, |o| o.search(&vector, 10, &mut slots, &mut scores));
    refused(what, ours, 13, |o| o.search_keyed(&vector, 10, &mut names, &mut scores));
    refused(what, ours, 13, |o| o.search_cascade(&vector, 10, 20, &mut slots, &mut scores));
    refused(what, ours, 13, |o| o.file_length());
    refused(what, ours, 13, |o| o.to_bytes(&mut file));
    let kept = slots.iter().all(|&s| s == 7) && names.iter().all(|&s| s == 7) && scores.iter().all(|&s| s == 7.0) && file.iter().all(|&b| b == 7);
    same::check(what, kept, || "a result or the file changed".to_string());
}

/// The most slots there may be, however many words are lent; a word fewer is 13, and 20 in reading.
pub fn most_slots() {
    let vector = data::vector(&mut Random::new(62), DIM);
    for width in WIDTHS {
        for words in LENT {
            let what = format!("width {}, {words} words", width.name());
            let mut ours = index(width, MOST_SLOTS - 1, MOST_SLOTS + 4, words);
            let mut rust = (SCALAR.index_of)(&ours);
            same::equal(&what, ours.add(&vector, YEAR), Ok(rust.add(&vector)));
            like(&what, &ours, rust.as_ref());
            words_are(&what, &ours, &first_marks(MOST_SLOTS, words));
            refused(&what, &mut ours, 8, |o| o.add(&vector, YEAR));
            refused(&what, &mut ours, 8, |o| o.add_keyed(2, &vector, YEAR, YEAR));
            // The borders of the last word, then a compaction.
            let mut marks = first_marks(MOST_SLOTS, words);
            for slot in [0, 63, 64, MOST_SLOTS - 65, MOST_SLOTS - 64, MOST_SLOTS - 2] {
                same::equal(&what, ours.remove_keyed_at(Keys::Rising.of(slot), slot, YEAR), Ok(true));
                set_mark(&mut marks, slot, false);
                words_are(&what, &ours, &marks);
            }
            same::equal(&what, ours.remove_keyed(Keys::Rising.of(MOST_SLOTS - 3), YEAR), Ok(true));
            same::equal(&what, ours.compact(), Ok(()));
            words_are(&what, &ours, &first_marks(MOST_SLOTS - 7, words));
            same::equal(&what, ours.add(&vector, YEAR), Ok(MOST_SLOTS - 7));
            words_are(&what, &ours, &first_marks(MOST_SLOTS - 6, words));
        }
        let what = format!("width {}, a word fewer than the slots in use need", width.name());
        for n in [MOST_SLOTS, MOST_SLOTS - 63] {
            let mut ours = index(width, n, MOST_SLOTS, WORDS);
            let file = (SCALAR.index_of)(&ours).to_bytes();
            ours.arrays.alive.truncate(WORDS - 1);
            all_refused(&what, &mut ours);
            refused(&what, &mut ours, 20, |o| o.from_bytes(&file));
        }
        let mut ours = index(width, MOST_SLOTS - 64, MOST_SLOTS, WORDS - 1);
        refused("room by words", &mut ours, 8, |o| o.add(&vector, YEAR));
        ours.arrays.alive.push(0);
        same::equal("a word more", ours.add(&vector, YEAR), Ok(MOST_SLOTS - 64));
        words_are("a word more", &ours, &first_marks(MOST_SLOTS - 63, WORDS));
    }
}

/// A bit set at or above the slots in use, in any lent word, past the 1,024th too, is 13.
pub fn stray() {
    for width in [Width::Four, Width::Five, Width::Residual] {
        for (n, words) in [(MOST_SLOTS, WORDS + 1), (MOST_SLOTS, 2000), (MOST_SLOTS - 1, WORDS), (MOST_SLOTS - 1, 2000), (1000, 2000), (1000, 16), (0, 1), (0, 2000)] {
            let room = MOST_SLOTS;
            let mut ours = index(width, n, room, words);
            let bits = words * MARKS;
            let mut strays = vec![n, n + 1, n / MARKS * MARKS + MARKS - 1, MOST_SLOTS - 1, MOST_SLOTS, MOST_SLOTS + 63, MOST_SLOTS + 64, bits - 1];
            strays.retain(|&bit| n <= bit && bit < bits);
            strays.sort_unstable();
            strays.dedup();
            for bit in strays {
                let what = format!("width {}, {n} slots in {words} words, bit {bit}", width.name());
                set_mark(&mut ours.arrays.alive, bit, true);
                all_refused(&what, &mut ours);
                // It is no live slot, whatever the count says.
                ours.record[LIVE] += 1;
                refused(&what, &mut ours, 13, |o| o.contains_key(7));
                ours.record[LIVE] -= 1;
                set_mark(&mut ours.arrays.alive, bit, false);
                same::equal(&what, ours.contains_key(7), Ok(n > 0));
            }
        }
    }
}

/// Making and reading clear every bit at or above the slots in use, in all lent words; refused, they leave them.
pub fn cleared() {
    for words in [1, WORDS - 1, WORDS, WORDS + 1, 2000] {
        for width in [Width::Five, Width::Residual] {
            let what = format!("making, {words} words, width {}", width.name());
            let dirty = || {
                let mut ours = index(width, 3, 100, words);
                ours.arrays.alive.fill(u64::MAX);
                ours
            };
            let mut ours = dirty();
            refused(&what, &mut ours, 4, |o| o.new(0, 1));
            refused(&what, &mut ours, 4, |o| o.with_working_dim(DIM, DIM + 1, 1));
            refused(&what, &mut ours, 13, |o| o.new(4096, 1));
            let made = if width.is_residual() { ours.with_residual(DIM, 1) } else { ours.new(DIM, 1) };
            same::equal(&what, made, Ok(()));
            words_are(&what, &ours, &vec![0; words]);
            same::equal(&what, ours.record[N], 0);
            let mut ours = dirty();
            same::equal(&what, ours.with_working_dim(DIM, DIM - 1, 1), Ok(()));
            words_are(&what, &ours, &vec![0; words]);
            ours.arrays.alive.clear();
            refused(&what, &mut ours, 13, |o| o.new(DIM, 1));
        }
        for n in [0, 1, 63, 64, 65, 1000, MOST_SLOTS - 1, MOST_SLOTS] {
            let what = format!("reading {n} slots, {words} words");
            let file = (SCALAR.index_of)(&index(Width::Six, n, n, n.div_ceil(MARKS))).to_bytes();
            let mut ours = index(Width::Six, 3, MOST_SLOTS, words);
            ours.arrays.alive.fill(u64::MAX);
            if words * MARKS < n {
                refused(&what, &mut ours, 20, |o| o.from_bytes(&file));
                continue;
            }
            refused(&what, &mut ours, 14, |o| o.from_bytes(&file[..file.len() - 1]));
            same::equal(&what, ours.from_bytes(&file), Ok(()));
            words_are(&what, &ours, &first_marks(n, words));
        }
    }
}

/// Compaction of an index in more words than it needs, dead slots in all of them.
pub fn compacted() {
    for width in [Width::Four, Width::Six] {
        for kind in [Keys::None, Keys::Random, Keys::One] {
            for (share, words) in [(0.5, WORDS), (0.001, WORDS + 1), (0.999, 2000), (1.0, 2000)] {
                let what = format!("width {}, keys {}, {share} dead, {words} words", width.name(), kind.name());
                let mut ours = index(width, MOST_SLOTS, MOST_SLOTS, words);
                data::kill(&mut ours, share);
                data::key(&mut ours.arrays, kind, MOST_SLOTS);
                ours.record[CASCADE] = 0;
                let live = (0..MOST_SLOTS).filter(|&slot| mark(&ours.arrays.alive, slot)).count();
                let mut rust = (SCALAR.index_of)(&ours);
                same::equal(&what, ours.compact(), Ok(()));
                rust.compact();
                like(&what, &ours, rust.as_ref());
                words_are(&what, &ours, &first_marks(live, words));
            }
        }
    }
}
