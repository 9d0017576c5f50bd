//! How much stack each call needs: it is made on a thread whose stack was painted before, and the lowest place that lost its paint is looked for.
use crate::data::{self, Keys, Width};
use crate::sys::{self, Answer, Raw, CASCADE};
use crate::random::Random;
use crate::same;
use crate::table::{count, Table};

/// No call may need more.
pub const MOST: usize = 1_500_000;
const STACK: usize = 8 << 20;
const PAINTED: usize = 6 << 20;
/// Left alone below the caller's frame, for the painting itself.
const NEAR: usize = 1024;
const PAINT: u8 = 0xA5;
const SLOTS: usize = 65_536;

/// The lowest byte of the region that isn't painted any more, counted from its top.
#[inline(never)]
fn touched(low: *const u8, length: usize) -> usize {
    let lowest = (0..length).find(|&i| unsafe { low.add(i).read_volatile() } != PAINT);
    lowest.map_or(0, |i| length - i)
}

#[inline(never)]
fn paint(low: *mut u8, length: usize) {
    (0..length).for_each(|i| unsafe { low.add(i).write_volatile(PAINT) });
}

/// Bytes of stack below this frame that a call touches. The frame's own address is what they are counted from.
#[inline(never)]
fn below(call: &mut dyn FnMut()) -> usize {
    let mark = 0u8;
    let here = std::hint::black_box(&mark as *const u8) as usize;
    let low = (here - PAINTED) as *mut u8;
    paint(low, PAINTED - NEAR);
    call();
    match touched(low, PAINTED - NEAR) {
        0 => NEAR,
        bytes => bytes + NEAR,
    }
}

/// The call on a thread of its own.
pub fn needed(mut call: impl FnMut() + Send) -> usize {
    std::thread::scope(|scope| {
        let thread = std::thread::Builder::new().stack_size(STACK).spawn_scoped(scope, || below(&mut call));
        thread.expect("a thread starts").join().expect("a thread ends")
    })
}

fn index(dim: usize, width: Width, n: usize, room: usize, kind: Keys) -> Raw {
    let mut ours = data::filled(dim, width, n, room);
    data::key(&mut ours.arrays, kind, n);
    ours.record[CASCADE] = (width == Width::Four) as u64;
    ours
}

/// The most that each call needed, and where.
struct Stacks {
    most: Vec<(&'static str, usize, String)>,
}

impl Stacks {
    /// Makes a call that must be accepted, and notes its stack.
    fn of<T>(&mut self, name: &'static str, case: &str, mut call: impl FnMut() -> Answer<T> + Send) {
        let mut refusal = Some(0);
        let bytes = needed(|| refusal = call().err());
        same::check(name, refusal.is_none(), || format!("{case}: refused by {refusal:?}"));
        match self.most.iter_mut().find(|entry| entry.0 == name) {
            Some(entry) if entry.1 < bytes => *entry = (name, bytes, case.to_string()),
            Some(_) => {}
            None => self.most.push((name, bytes, case.to_string())),
        }
    }

    fn print(&self) {
        println!("The most stack that each call needed, bytes; none may need more than {}.\n", count(MOST));
        let mut table = Table::new(&["call", "bytes", "within", "where"]);
        for (name, bytes, case) in &self.most {
            same::check(name, *bytes <= MOST, || format!("{case}: {bytes} bytes of stack"));
            table.row(vec![name.to_string(), count(*bytes), if *bytes <= MOST { "yes" } else { "NO" }.to_string(), case.clone()]);
        }
        table.print();
    }
}

/// Searches over as many slots as there can be: few listed and all, keys that one pass finds in order and keys that it doesn't.
fn searches(stacks: &mut Stacks) {
    let query = data::vector(&mut Random::new(3), 256);
    let (mut slots, mut names, mut scores) = (vec![0; SLOTS], vec![0; SLOTS], vec![0.0; SLOTS]);
    for kind in [Keys::None, Keys::Shuffled, Keys::Random] {
        for width in data::WIDTHS {
            let ours = index(256, width, SLOTS, SLOTS, kind);
            for k in [10, SLOTS] {
                let case = format!("width {}, keys {}, k {}", width.name(), kind.name(), count(k));
                stacks.of("search", &case, || ours.search(&query, k, &mut slots, &mut scores));
                stacks.of("search_keyed", &case, || ours.search_keyed(&query, k, &mut names, &mut scores));
                if width == Width::Four {
                    stacks.of("search_cascade", &case, || ours.search_cascade(&query, k, 200, &mut slots, &mut scores));
                }
            }
        }
    }
}

fn making(stacks: &mut Stacks) {
    let mut ours = index(256, Width::Residual, SLOTS, SLOTS, Keys::Shuffled);
    let mut made = ours.clone();
    stacks.of("new", "65,536 places", || made.new(256, 1));
    stacks.of("with_working_dim", "65,536 places", || made.with_working_dim(256, 100, 1));
    stacks.of("set_bits", "65,536 places", || made.set_bits(6));
    stacks.of("with_residual", "65,536 places", || made.with_residual(256, 1));
    stacks.of("enable_cascade", "65,536 slots", || ours.enable_cascade());
}

fn adding(stacks: &mut Stacks) {
    for (dim, n) in [(4096, 2000), (256, SLOTS - 3)] {
        let vector = data::vector(&mut Random::new(5), dim);
        for width in data::WIDTHS {
            for kind in [Keys::None, Keys::Random] {
                let mut ours = index(dim, width, n, n + 3, kind);
                let case = format!("width {}, {} slots of {} entries, keys {}", width.name(), count(n), count(dim), kind.name());
                stacks.of("add", &case, || ours.add(&vector, data::YEAR));
                stacks.of("add_keyed", &case, || ours.add_keyed(1, &vector, data::YEAR, data::YEAR));
                stacks.of("add_keyed_multi", &case, || ours.add_keyed_multi(1, &vector, data::YEAR));
            }
        }
    }
}

fn storing(stacks: &mut Stacks) {
    for width in data::WIDTHS {
        for kind in [Keys::None, Keys::Shuffled, Keys::Random] {
            let case = format!("width {}, keys {}", width.name(), kind.name());
            let mut ours = index(256, width, SLOTS, SLOTS, kind);
            let mut file = vec![0; 25 + SLOTS * (2 * (2 + 192) + 12) + 4];
            let mut length = 0;
            stacks.of("to_bytes", &case, || {
                let answer = ours.to_bytes(&mut file);
                length = answer.unwrap_or(0);
                answer
            });
            stacks.of("compact", &case, || ours.compact());
            stacks.of("from_bytes", &case, || ours.from_bytes(&file[..length]));
        }
    }
}

/// The calls about keys and single slots, which change marks and keys at most: over as many slots as there can be.
fn keys(stacks: &mut Stacks) {
    let query = data::vector(&mut Random::new(7), 4096);
    let most_entries = index(4096, Width::Six, 100, 100, Keys::Random);
    stacks.of("score", "width 6, 100 slots of 4,096 entries", || most_entries.score(50, &query));
    for kind in [Keys::None, Keys::Shuffled, Keys::Random] {
        let case = format!("65,536 slots, keys {}", kind.name());
        let mut ours = index(256, Width::Residual, SLOTS, SLOTS, kind);
        let key = ours.arrays.keys[SLOTS / 2];
        stacks.of("key_of", &case, || ours.key_of(SLOTS / 2));
        stacks.of("contains_key", &case, || ours.contains_key(key));
        stacks.of("slot_at", &case, || ours.slot_at(key, 0));
        stacks.of("score", &case, || ours.score(SLOTS / 2, &query[..256]));
        stacks.of("file_length", &case, || ours.file_length());
        stacks.of("relabel", &case, || ours.relabel(key, key ^ 1 << 63));
        stacks.of("remove_keyed_at", &case, || ours.remove_keyed_at(key ^ 1 << 63, SLOTS / 2, data::YEAR));
        stacks.of("remove_keyed", &case, || ours.remove_keyed(key, data::YEAR));
    }
}

/// Each call where it needs most: as many slots as there can be, keys that don't rise, every slot listed, every entry.
pub fn print() {
    let mut stacks = Stacks { most: Vec::new() };
    making(&mut stacks);
    adding(&mut stacks);
    searches(&mut stacks);
    storing(&mut stacks);
    keys(&mut stacks);
    let mut v = data::vector(&mut Random::new(5), 4096);
    stacks.of("fwht", "4,096 entries", || {
        sys::fwht(&mut v);
        Ok(())
    });
    stacks.print();
}
