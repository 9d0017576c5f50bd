//! Look-up: the searches, and refusal 13 by itself.
use crate::clock::{race, repeats, timed, Times};
use crate::data::{self, Keys, Width};
use crate::sys::{Arrays, Raw, BITS, CASCADE, DIM, N};
use crate::random::Random;
use crate::rust::{Rust, PUBLISHED, SCALAR};
use crate::same;
use std::cell::RefCell;
use std::mem::swap;

/// One index in three forms, and a query.
pub struct Look {
    what: String,
    ours: RefCell<Raw>,
    scalar: Box<dyn Rust>,
    published: Box<dyn Rust>,
    query: Vec<f32>,
    slots: RefCell<Vec<u32>>,
    names: RefCell<Vec<u64>>,
    scores: RefCell<Vec<f32>>,
}

pub struct Three {
    pub ours: Times,
    pub scalar: Times,
    pub published: Times,
}

/// A search under several kinds of keys. The Rust's doesn't look at them.
pub struct Searched {
    pub ours: Vec<Times>,
    pub scalar: Times,
    pub published: Times,
}

/// The arrays of keys under one kind of them.
struct KeySet {
    keys: Vec<u64>,
    keyed: Vec<bool>,
    held: Vec<u32>,
}

impl KeySet {
    fn new(ours: &Raw, kind: Keys, n: usize) -> Self {
        let mut arrays = Arrays { alive: ours.arrays.alive.clone(), keys: vec![0; n], keyed: vec![false; n], held: vec![0; n], ..Default::default() };
        data::key(&mut arrays, kind, n);
        KeySet { keys: arrays.keys, keyed: arrays.keyed, held: arrays.held }
    }

    fn exchange(&mut self, ours: &mut Raw) {
        swap(&mut self.keys, &mut ours.arrays.keys);
        swap(&mut self.keyed, &mut ours.arrays.keyed);
        swap(&mut self.held, &mut ours.arrays.held);
    }
}

impl Look {
    /// An index of `n` slots without keys, of which about the share `dead` is dead.
    pub fn new(dim: usize, width: Width, n: usize, dead: f64) -> Self {
        let mut ours = data::filled(dim, width, n, n);
        if dead > 0.0 {
            data::kill(&mut ours, dead);
        }
        Look::of(ours, format!("{n} slots of {dim} entries, width {}", width.name()))
    }

    /// An index of `n` slots of which `live` are live.
    pub fn sparse(dim: usize, width: Width, n: usize, live: usize) -> Self {
        let mut ours = data::filled(dim, width, n, n);
        data::spare(&mut ours, live);
        Look::of(ours, format!("{live} live of {n} slots of {dim} entries, width {}", width.name()))
    }

    /// An index of `n` slots without keys, of which every third is dead.
    pub fn thirds(dim: usize, width: Width, n: usize) -> Self {
        let mut ours = data::filled(dim, width, n, n);
        data::kill_thirds(&mut ours);
        Look::of(ours, format!("{n} slots of {dim} entries, every third dead, width {}", width.name()))
    }

    /// Under one kind of keys, the Rust's forms too.
    pub fn keyed(dim: usize, width: Width, n: usize, kind: Keys) -> Self {
        let mut ours = data::filled(dim, width, n, n);
        data::key(&mut ours.arrays, kind, n);
        Look::of(ours, format!("{n} slots of {dim} entries, width {}, keys {}", width.name(), kind.name()))
    }

    fn of(mut ours: Raw, what: String) -> Self {
        let (dim, n) = (ours.record[DIM] as usize, ours.record[N] as usize);
        // At 4 bits every search can be made; nothing but a cascade reads the mark.
        ours.record[CASCADE] = (ours.record[BITS] == 4) as u64;
        Look {
            what,
            scalar: (SCALAR.index_of)(&ours),
            published: (PUBLISHED.index_of)(&ours),
            ours: RefCell::new(ours),
            query: data::vector(&mut Random::new(3), dim),
            slots: RefCell::new(vec![0; n]),
            names: RefCell::new(vec![0; n]),
            scores: RefCell::new(vec![0.0; n]),
        }
    }

    fn n(&self) -> usize {
        self.ours.borrow().record[N] as usize
    }

    fn search_ours(&self, k: usize) {
        let found = self.ours.borrow().search(&self.query, k, &mut self.slots.borrow_mut(), &mut self.scores.borrow_mut());
        same::check(&self.what, found.is_ok(), || format!("search was refused by {found:?}"));
    }

    fn keyed_ours(&self, k: usize) -> usize {
        let found = self.ours.borrow().search_keyed(&self.query, k, &mut self.names.borrow_mut(), &mut self.scores.borrow_mut());
        found.unwrap_or_else(|number| {
            same::report(&self.what, &format!("keyed search was refused by {number}"));
            0
        })
    }

    fn cascade_ours(&self, k: usize, r: usize) {
        let found = self.ours.borrow().search_cascade(&self.query, k, r, &mut self.slots.borrow_mut(), &mut self.scores.borrow_mut());
        same::check(&self.what, found.is_ok(), || format!("cascade was refused by {found:?}"));
    }

    fn listed(&self, hits: usize) -> Vec<(usize, f32)> {
        let (slots, scores) = (self.slots.borrow(), self.scores.borrow());
        (0..hits).map(|i| (slots[i] as usize, scores[i])).collect()
    }

    pub fn search(&self, k: usize, kinds: &[Keys]) -> Searched {
        let n = self.n();
        let (right, published) = (self.scalar.search(&self.query, k), self.published.search(&self.query, k));
        same::lists(&format!("{}, k {k}: scalar and AVX2", self.what), &published, &right);
        let sets: Vec<RefCell<KeySet>> = kinds.iter().map(|&kind| RefCell::new(KeySet::new(&self.ours.borrow(), kind, n))).collect();
        for (set, kind) in sets.iter().zip(kinds) {
            set.borrow_mut().exchange(&mut self.ours.borrow_mut());
            self.search_ours(k);
            same::lists(&format!("{}, k {k}, keys {}", self.what, kind.name()), &self.listed(right.len()), &right);
            set.borrow_mut().exchange(&mut self.ours.borrow_mut());
        }
        let often = repeats(|| self.search_ours(k));
        let mut ours: Vec<_> = sets
            .iter()
            .map(|set| {
                move || {
                    set.borrow_mut().exchange(&mut self.ours.borrow_mut());
                    let seconds = timed(often, || self.search_ours(k));
                    set.borrow_mut().exchange(&mut self.ours.borrow_mut());
                    seconds
                }
            })
            .collect();
        let mut scalar = || timed(often, || self.scalar.search(&self.query, k));
        let mut published = || timed(often, || self.published.search(&self.query, k));
        let mut runs: Vec<&mut dyn FnMut() -> f64> = vec![&mut scalar, &mut published];
        runs.extend(ours.iter_mut().map(|run| run as &mut dyn FnMut() -> f64));
        let times = race(&mut runs);
        Searched { scalar: times[0], published: times[1], ours: times[2..].to_vec() }
    }

    /// Our search alone, over several indexes in one race.
    pub fn race(looks: &[Look], k: usize) -> Vec<Times> {
        let mut searches: Vec<_> = looks
            .iter()
            .map(|look| {
                look.agree(k);
                let often = repeats(|| look.search_ours(k));
                move || timed(often, || look.search_ours(k))
            })
            .collect();
        race(&mut searches.iter_mut().map(|run| run as &mut dyn FnMut() -> f64).collect::<Vec<_>>())
    }

    /// Whether our list is the Rust's.
    fn agree(&self, k: usize) {
        let right = self.scalar.search(&self.query, k);
        self.search_ours(k);
        same::lists(&format!("{}, k {k}", self.what), &self.listed(right.len()), &right);
    }

    /// A search whose query has one entry too many: 1 comes right after 13, so this is 13 alone.
    pub fn refusal_13(&self, kinds: &[Keys]) -> Vec<Times> {
        self.beside_13(0, kinds).1
    }

    /// The same in one race with a search without keys; without one where k is 0.
    pub fn beside_13(&self, k: usize, kinds: &[Keys]) -> (Times, Vec<Times>) {
        let (n, query) = (self.n(), vec![1.0; self.query.len() + 1]);
        let ask = || {
            let found = self.ours.borrow().search(&query, 1, &mut self.slots.borrow_mut(), &mut self.scores.borrow_mut());
            same::equal(&format!("{}: a query too long", self.what), found, Err(1));
        };
        let mut ours: Vec<_> = kinds
            .iter()
            .map(|&kind| {
                let mut set = KeySet::new(&self.ours.borrow(), kind, n);
                set.exchange(&mut self.ours.borrow_mut());
                let often = repeats(ask);
                set.exchange(&mut self.ours.borrow_mut());
                move || {
                    set.exchange(&mut self.ours.borrow_mut());
                    let seconds = timed(often, ask);
                    set.exchange(&mut self.ours.borrow_mut());
                    seconds
                }
            })
            .collect();
        let often = if k > 0 { repeats(|| self.search_ours(k)) } else { 1 };
        let mut whole = || if k > 0 { timed(often, || self.search_ours(k)) } else { 0.0 };
        let mut runs: Vec<&mut dyn FnMut() -> f64> = vec![&mut whole];
        runs.extend(ours.iter_mut().map(|run| run as &mut dyn FnMut() -> f64));
        let times = race(&mut runs);
        (times[0], times[1..].to_vec())
    }

    pub fn search_keyed(&self, k: usize) -> Three {
        let right = self.scalar.search_keyed(&self.query, k);
        let hits = self.keyed_ours(k);
        let ours: Vec<(u64, f32)> = (0..hits).map(|i| (self.names.borrow()[i], self.scores.borrow()[i])).collect();
        same::lists(&format!("{}: keyed search, k {k}", self.what), &ours, &right);
        let often = repeats(|| self.keyed_ours(k));
        let times = race(&mut [
            &mut || timed(often, || self.keyed_ours(k)),
            &mut || timed(often, || self.scalar.search_keyed(&self.query, k)),
            &mut || timed(often, || self.published.search_keyed(&self.query, k)),
        ]);
        Three { ours: times[0], scalar: times[1], published: times[2] }
    }

    /// The cascade, and our own full search in the same rounds.
    pub fn cascade(&self, k: usize, r: usize) -> (Three, Times) {
        let right = self.scalar.search_cascade(&self.query, k, r);
        self.cascade_ours(k, r);
        same::lists(&format!("{}: cascade, k {k}, r {r}", self.what), &self.listed(right.len()), &right);
        let often = repeats(|| self.cascade_ours(k, r));
        let times = race(&mut [
            &mut || timed(often, || self.cascade_ours(k, r)),
            &mut || timed(often, || self.scalar.search_cascade(&self.query, k, r)),
            &mut || timed(often, || self.published.search_cascade(&self.query, k, r)),
            &mut || timed(often, || self.search_ours(k)),
        ]);
        (Three { ours: times[0], scalar: times[1], published: times[2] }, times[3])
    }
}
