//! Each of the 22 calls made once on an index, in a thread of 2 MB of stack, which is what `std` gives a thread. A call that needs more stops the program by
//! a signal.
use crate::files::Stated;
use crate::random::Random;
use crate::same;
use std::fmt::Debug;
use vecq::{Error, Index, MOST_SLOTS};

const STACK: usize = 2 << 20;

/// The present year: past that of every slot.
const PRESENT: u16 = u16::MAX;

/// An answer from a thread of its own.
fn small_thread<T: Send>(call: impl FnOnce() -> T + Send) -> T {
    std::thread::scope(|scope| {
        let thread = std::thread::Builder::new().stack_size(STACK).spawn_scoped(scope, call);
        thread.expect("a thread starts").join().expect("a thread ends")
    })
}

/// A call that must be accepted.
fn done<T: Send + Debug>(what: &str, call: impl FnOnce() -> Result<T, Error> + Send) -> Option<T> {
    let answer = small_thread(call);
    same::check(what, answer.is_ok(), || format!("{:?}", answer.as_ref().err()));
    answer.ok()
}

pub fn every_call(case: &str, stated: &Stated) {
    let file = stated.bytes(&mut Random::new(2));
    let said = |name: &str| format!("{name}, {case}");
    let Some(Read(mut index)) = done(&said("from_bytes"), || Index::from_bytes(&file, 0).map(Read)) else { return };
    let vector: Vec<f32> = (0..index.dim()).map(|i| (i % 9) as f32 - 3.5).collect();
    making(&index, &vector);
    if index.bits() == 4 {
        done(&said("enable_cascade"), || index.enable_cascade());
    }
    asking(&said, &index, &vector);
    // The first changes are made with every slot in use, the adds once there is room.
    done(&said("relabel"), || index.relabel(5, 6));
    done(&said("add_keyed over a slot"), || if index.contains_key(6)? { index.add_keyed(6, &vector, 2050, PRESENT) } else { Ok(0) });
    let last = index.slots() - 1;
    if let Ok(Some(key)) = index.key_of(last) {
        done(&said("remove_keyed_at"), || index.remove_keyed_at(key, last, PRESENT));
    }
    done(&said("remove_keyed_at of no slot"), || index.remove_keyed_at(5, last, PRESENT));
    done(&said("remove_keyed"), || index.remove_keyed(6, PRESENT));
    done(&said("to_bytes after removals"), || index.to_bytes().map(drop));
    done(&said("compact"), || index.compact());
    if index.slots() + 3 <= MOST_SLOTS {
        done(&said("add"), || index.add(&vector, 0));
        done(&said("add_keyed"), || index.add_keyed(6, &vector, 1, PRESENT));
        done(&said("add_keyed_multi"), || index.add_keyed_multi(6, &vector, 2050));
    } else {
        // No slot had a key, so none could be removed: the adds go through all their tests up to the last one.
        let answer = small_thread(|| (index.add(&vector, 0), index.add_keyed(6, &vector, 1, PRESENT), index.add_keyed_multi(6, &vector, 2050)));
        same::equal(&said("adds"), answer, (Err(8.into()), Err(8.into()), Err(8.into())));
    }
}

fn asking(said: &impl Fn(&str) -> String, index: &Index, vector: &[f32]) {
    let last = index.slots() - 1;
    done(&said("key_of"), || index.key_of(last));
    done(&said("contains_key"), || index.contains_key(5));
    done(&said("slot_at"), || index.slot_at(5, last));
    done(&said("score"), || index.score(last, vector));
    for k in [10, index.live()] {
        done(&said("search"), || index.search(vector, k).map(drop));
        done(&said("search_keyed"), || index.search_keyed(vector, k).map(drop));
        if index.bits() == 4 {
            done(&said("search_cascade"), || index.search_cascade(vector, k, 200).map(drop));
        }
    }
    done(&said("file_length"), || index.file_length());
    done(&said("to_bytes"), || index.to_bytes().map(drop));
}

/// Making and the width call, whatever the slots.
fn making(like: &Index, vector: &[f32]) {
    let dim = like.dim();
    done("new", || Index::new(dim, 1).map(Read));
    done("with_working_dim", || Index::with_working_dim(dim, dim.min(20), 1).map(Read));
    done("with_residual", || Index::with_residual(dim, 1).map(Read));
    let mut empty = Index::new(dim, 1).expect("an index is made");
    done("set_bits", || empty.set_bits(6));
    done("a first add", || empty.add(vector, 1));
}

/// An index, of which a message shows its counts alone.
struct Read(Index);

impl Debug for Read {
    fn fmt(&self, f: &mut std::fmt::Formatter<'_>) -> std::fmt::Result {
        write!(f, "an index of {} slots", self.0.slots())
    }
}
