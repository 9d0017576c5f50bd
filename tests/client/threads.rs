//! Several threads that ask one index at once are answered as one thread is, bit for bit.
use crate::files::Stated;
use crate::random::Random;
use crate::same;
use std::sync::Barrier;
use vecq::Index;

// Told by the compiler: an index may be sent to another thread, and asked by several.
const _: fn() = || {
    fn may_be_shared<T: Send + Sync>() {}
    may_be_shared::<Index>();
};

const DIM: usize = 64;
const QUERIES: usize = 60;
const THREADS: usize = 2;

type Bits = Vec<(u64, u32)>;

/// What one query is answered by every call that asks for scores.
#[derive(PartialEq, Debug)]
struct Answers {
    slots: Bits,
    keys: Bits,
    cascade: Bits,
    score: u32,
    file_length: usize,
}

fn asked(index: &Index, query: &[f32], number: usize) -> Answers {
    let k = 1 + number % 50;
    let slots = |hits: Vec<vecq::Hit>| hits.iter().map(|hit| (hit.slot as u64, hit.score.to_bits())).collect();
    Answers {
        slots: slots(index.search(query, k).expect("a search")),
        keys: index.search_keyed(query, k).expect("a keyed search").iter().map(|hit| (hit.key, hit.score.to_bits())).collect(),
        cascade: if index.is_cascade_enabled() { slots(index.search_cascade(query, k, 100).expect("a cascade")) } else { Bits::new() },
        score: index.score(number, query).expect("a score").to_bits(),
        file_length: index.file_length().expect("a length"),
    }
}

pub fn check() {
    for (version, width) in [(259, 4), (260, 4), (261, 5), (261, 6)] {
        let mut stated = Stated::new(version, DIM as u32, width, 5000);
        stated.keys = (0..stated.count).filter(|slot| slot % 3 != 0).map(|slot| (slot, (slot * 7919 % 1000) as u64)).collect();
        let mut index = Index::from_bytes(&stated.bytes(&mut Random::new(3)), 0).expect("a file is read");
        if width == 4 {
            index.enable_cascade().expect("the cascade is enabled");
        }
        together(&format!("version {version}, width {width}"), &index);
    }
}

fn together(case: &str, index: &Index) {
    let mut random = Random::new(4);
    let queries: Vec<Vec<f32>> = (0..QUERIES).map(|_| (0..DIM).map(|_| random.unit()).collect()).collect();
    let alone: Vec<Answers> = queries.iter().enumerate().map(|(number, query)| asked(index, query, number)).collect();
    let barrier = Barrier::new(THREADS);
    let answered: Vec<Vec<Answers>> = std::thread::scope(|scope| {
        let threads: Vec<_> = (0..THREADS)
            .map(|_| {
                scope.spawn(|| {
                    barrier.wait();
                    queries.iter().enumerate().map(|(number, query)| asked(index, query, number)).collect()
                })
            })
            .collect();
        threads.into_iter().map(|thread| thread.join().expect("a thread ends")).collect()
    });
    for answers in &answered {
        for (number, (one, of_two)) in alone.iter().zip(answers).enumerate() {
            same::check(&format!("query {number}, {case}"), one == of_two, || format!("{of_two:?} and not {one:?}"));
        }
    }
}
