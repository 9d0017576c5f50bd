//! The lists of the program `encodings`: encodings, prepared queries, scores and order numbers against the Rust.
use crate::choice::order_number;
use crate::list::List;
use crate::one_trait;
use crate::random::Random;
use crate::text::{bytes, eight, pattern, vector};
use std::panic::{catch_unwind, set_hook, AssertUnwindSafe};
use vecq::lloyd;
use vecq::rhdh::{fwht, padded_dim, Rhdh, SignStream};
use vecq::store::VecqIndex;

/// What is fixed when an index is made.
#[derive(Clone, Copy)]
struct Header {
    width: u8,
    residual: bool,
    dim: usize,
    working: usize,
    seed: u64,
}

const MODES: [(u8, bool); 4] = [(4, false), (5, false), (6, false), (4, true)];

impl Header {
    fn new((width, residual): (u8, bool), dim: usize, seed: u64) -> Self {
        Header { width, residual, dim, working: dim, seed }
    }

    /// An empty index of the Rust.
    fn index(&self) -> VecqIndex {
        let mut index = VecqIndex::with_working_dim(self.dim, self.working, self.seed);
        index.set_bits(self.width);
        index.residual = self.residual;
        index
    }

    fn padded(&self) -> usize {
        padded_dim(self.working)
    }

    fn block_length(&self) -> usize {
        (self.padded() * self.width as usize).div_ceil(8)
    }

    fn block(&self, random: &mut Random) -> Vec<u8> {
        (0..self.block_length()).map(|_| random.word() as u8).collect()
    }

    fn text(&self) -> String {
        let Header { width, residual, dim, working, seed } = *self;
        format!("{width:x} {:x} {dim:x} {working:x} {seed:x}", residual as u8)
    }

    /// The same without the width and whether it is residual.
    fn space(&self) -> String {
        format!("{:x} {:x} {:x}", self.dim, self.working, self.seed)
    }
}

/// What the Rust's call gives for a vector, or the refusal. The Rust stops for 1 and 2; that a sum is infinite it lets pass, so 3 is document 01's.
fn judged(h: &Header, v: &[f32], call: impl FnOnce() -> String) -> String {
    let answer = catch_unwind(AssertUnwindSafe(call));
    if v.len() != h.dim {
        assert!(answer.is_err(), "the Rust takes a vector of another length");
        return "refused 1".to_string();
    }
    let sum: f32 = v[..h.working].iter().map(|x| x * x).sum();
    match answer {
        Err(_) => {
            assert!(sum == 0.0 || sum.is_nan(), "the Rust stops for another reason");
            "refused 2".to_string()
        }
        Ok(_) if sum.is_infinite() => "refused 3".to_string(),
        Ok(text) => text,
    }
}

/// The one slot of an index.
fn slot(index: &VecqIndex) -> String {
    let first = format!("{} {}", bytes(&index.codes), eight(index.scales[0]));
    if index.residual {
        format!("{first} {} {}", bytes(&index.codes2), eight(index.scales2[0]))
    } else {
        first
    }
}

// ---- the lines

fn encode(list: &mut List, h: Header, v: &[f32]) {
    let answer = judged(&h, v, || {
        let mut index = h.index();
        index.add(v);
        slot(&index)
    });
    list.ask(format!("encode {} {}", h.text(), vector(v)), answer);
}

fn over(list: &mut List, h: Header, block: &[u8], block2: &[u8], v: &[f32]) {
    let block2 = if h.residual { block2 } else { &[] };
    let answer = judged(&h, v, || {
        let mut index = h.index();
        index.add_keyed(1, &vec![1.0; h.dim]);
        index.codes.copy_from_slice(block);
        index.codes2.copy_from_slice(block2);
        index.add_keyed(1, v);
        slot(&index)
    });
    list.ask(format!("over {} {} {} {}", h.text(), bytes(block), bytes(block2), vector(v)), answer);
}

fn prepare(list: &mut List, h: Header, v: &[f32]) {
    let answer = judged(&h, v, || {
        let query = h.index().prepare_query(v);
        format!("{} {}", eight(query.rnorm), vector(&query.rotated))
    });
    list.ask(format!("prepare {} {}", h.space(), vector(v)), answer);
}

/// The Rust's score of the one slot of an index; where it stops at a game with one trait, document 02's.
fn slot_score(index: &VecqIndex, v: &[f32]) -> f32 {
    let query = index.prepare_query(v);
    if !one_trait::is_meant(index.working_dim(), index.bits()) {
        return index.score(&query, 0);
    }
    assert!(catch_unwind(AssertUnwindSafe(|| index.score(&query, 0))).is_err(), "the Rust scores a game with one trait at 4 bits");
    one_trait::Query::of(index, v).score(one_trait::stages(index, 0))
}

/// The scales are patterns: a NaN's is asked for too.
fn score(list: &mut List, h: Header, stage: (u32, &[u8]), stage2: (u32, &[u8]), v: &[f32]) {
    let answer = judged(&h, v, || {
        let mut index = h.index();
        index.add(&vec![1.0; h.dim]);
        index.codes.copy_from_slice(stage.1);
        index.scales[0] = f32::from_bits(stage.0);
        if h.residual {
            index.codes2.copy_from_slice(stage2.1);
            index.scales2[0] = f32::from_bits(stage2.0);
        }
        let score = slot_score(&index, v);
        if score.is_nan() { "refused 12".to_string() } else { format!("score {}", eight(score)) }
    });
    let first = format!("{:x} {} {:x} {}", h.width, h.space(), stage.0, bytes(stage.1));
    let line = if h.residual {
        format!("score2 {first} {:x} {} {}", stage2.0, bytes(stage2.1), vector(v))
    } else {
        format!("score {first} {}", vector(v))
    };
    list.ask(line, answer);
}

/// In the Rust the order number is part of the search and cannot be called.
fn order(list: &mut List, p: u32) {
    assert_eq!(pattern(f32::from_bits(p)), p, "no NaN");
    list.ask(format!("order {p:x}"), format!("{:x}", order_number(f32::from_bits(p))));
}

// ---- vectors

#[derive(Clone, Copy)]
enum Kind {
    Units,
    Mixed,
    Integers,
    Equal,
    Sparse,
    Odd,
}

const KINDS: [Kind; 6] = [Kind::Units, Kind::Mixed, Kind::Integers, Kind::Equal, Kind::Sparse, Kind::Odd];

/// Entries whose squares neither vanish nor pass the largest float, but for `Odd`: among those are zeros, infinities, NaNs, and ones too small or too large.
fn entries(n: usize, random: &mut Random, kind: Kind) -> Vec<f32> {
    let odd = [0.0, -0.0, f32::INFINITY, f32::NEG_INFINITY, f32::NAN, 1.0e30, -1.0e30, 2f32.powi(-75), 2f32.powi(-74), f32::from_bits(1)];
    let one = random.mixed(20, 20);
    (0..n)
        .map(|_| match kind {
            Kind::Units => random.unit(),
            Kind::Mixed => random.mixed(50, 50),
            Kind::Integers => random.below(9) as f32 - 4.0,
            Kind::Equal => one,
            Kind::Sparse => if random.below(4) == 0 { random.unit() } else { 0.0 },
            Kind::Odd => match random.below(3 * n as u64) {
                i if i < 2 => odd[random.below(odd.len() as u64) as usize],
                _ => random.mixed(10, 10),
            },
        })
        .collect()
}

/// A scale as the encoding gives them, or any pattern.
fn scale(random: &mut Random) -> u32 {
    match random.below(8) {
        0 => random.pattern(),
        _ => random.unit().to_bits(),
    }
}

// ---- the fixed list

pub fn list() -> List {
    set_hook(Box::new(|_| ()));
    let mut list = List::default();
    small(&mut list);
    large(&mut list);
    working(&mut list);
    shapes(&mut list);
    faults(&mut list);
    on_boundaries(&mut list);
    at_floor(&mut list);
    spare_bits(&mut list);
    queries(&mut list);
    scores(&mut list);
    score_edges(&mut list);
    one_trait_scores(&mut list);
    orders(&mut list);
    language(&mut list);
    list
}

fn small(list: &mut List) {
    list.section("encode: dims 1 to 40, each width and the residual, entries of one size and of sizes far apart, by the Rust");
    let mut random = Random::new(11);
    for dim in 1..=40 {
        for mode in MODES {
            for kind in [Kind::Units, Kind::Mixed] {
                encode(list, Header::new(mode, dim, random.word()), &entries(dim, &mut random, kind));
            }
        }
    }
}

fn large(list: &mut List) {
    list.section("encode: dims 64, 100, 255, 256, 768, 1000 and 4096, by the Rust");
    let mut random = Random::new(12);
    for dim in [64, 100, 255, 256, 768, 1000] {
        for mode in MODES {
            encode(list, Header::new(mode, dim, random.word()), &entries(dim, &mut random, Kind::Units));
        }
    }
    for mode in [(6, false), (4, true)] {
        encode(list, Header::new(mode, 4096, random.word()), &entries(4096, &mut random, Kind::Units));
    }
}

fn working(list: &mut List) {
    list.section("encode: fewer working dimensions than entries; past them zeros, infinities, NaNs and large entries, by the Rust");
    let mut random = Random::new(13);
    for (dim, working) in [(2, 1), (3, 2), (4, 1), (5, 4), (9, 8), (16, 5), (33, 17), (40, 32), (100, 64), (100, 65)] {
        for mode in MODES {
            for past in [0.0, f32::INFINITY, f32::NAN, 1.0e30] {
                let mut v = entries(dim, &mut random, Kind::Units);
                v[working..].fill(past);
                encode(list, Header { working, ..Header::new(mode, dim, random.word()) }, &v);
            }
        }
    }
}

fn shapes(list: &mut List) {
    list.section("encode: all entries equal, one entry that is not 0, small integers, by the Rust");
    let mut random = Random::new(14);
    for dim in [1, 2, 3, 4, 7, 8, 16, 31, 32] {
        for mode in MODES {
            for x in [1.0, -1.0, 0.1, 1.0e-18, 3.0e18] {
                encode(list, Header::new(mode, dim, 0), &vec![x; dim]);
            }
            let mut v = vec![0.0; dim];
            v[dim / 2] = -7.5;
            encode(list, Header::new(mode, dim, u64::MAX), &v);
            encode(list, Header::new(mode, dim, 1), &entries(dim, &mut random, Kind::Integers));
        }
    }
}

/// Vectors that are refused, and neighbours that are not.
fn faulty(dim: usize) -> Vec<Vec<f32>> {
    let first = |x: f32| {
        let mut v = vec![0.0; dim];
        v[0] = x;
        v
    };
    let mut lists: Vec<Vec<f32>> = [0.0, -0.0, 2f32.powi(-75), -(2f32.powi(-75)), 2f32.powi(-74), f32::from_bits(1), f32::from_bits(0x1A35_04F3)]
        .into_iter()
        .flat_map(|x| [first(x), vec![x; dim]])
        .collect();
    lists.extend([1.0e30, 1.8e19, 1.85e19, f32::MAX, f32::INFINITY, f32::NEG_INFINITY, f32::NAN].into_iter().flat_map(|x| [first(x), vec![x; dim]]));
    let mut both = vec![f32::INFINITY; dim];
    both[0] = f32::NAN;
    lists.push(both);
    lists.extend([vec![], vec![1.0; dim - 1], vec![1.0; dim + 1], vec![0.0; dim + 1], vec![f32::NAN; 2 * dim]]);
    lists
}

fn faults(list: &mut List) {
    list.section("encode, prepare: other lengths (1), sums of squares that are 0 or a NaN (2), as the Rust stops; infinite sums (3), which the Rust stores: there the answer is document 01's");
    for (dim, working) in [(1, 1), (2, 2), (3, 3), (4, 4), (4, 2), (8, 8)] {
        for v in faulty(dim) {
            for mode in MODES {
                encode(list, Header { working, ..Header::new(mode, dim, 5) }, &v);
            }
            prepare(list, Header { working, ..Header::new((5, false), dim, 5) }, &v);
        }
    }
}

/// The rotated entries that an encoding quantizes.
fn rotated(v: &[f32], seed: u64) -> Vec<f32> {
    let norm = v.iter().map(|x| x * x).sum::<f32>().sqrt();
    let unit: Vec<f32> = v.iter().map(|x| x / norm).collect();
    let mut out = Vec::new();
    Rhdh::new(v.len(), seed).apply(&unit, &mut out);
    out
}

fn on_boundaries(list: &mut List) {
    list.section("encode: a rotated entry equal to a boundary (found among vectors of integers up to 1000), which takes the lower code, by the Rust");
    for (width, residual) in MODES {
        let mut random = Random::new(15 + width as u64);
        let mut found = 0;
        while found < 8 {
            let dim = 2 + random.below(15) as usize;
            let v: Vec<f32> = (0..dim).map(|_| random.below(2001) as f32 - 1000.0).collect();
            let seed = random.below(100);
            if rotated(&v, seed).iter().any(|x| lloyd::boundaries(width).contains(x)) {
                encode(list, Header::new((width, residual), dim, seed), &v);
                found += 1;
            }
        }
    }
}

/// The vector whose rotated entries are these, if their squares sum to their count.
fn turned_back(xs: &[f32], seed: u64) -> Vec<f32> {
    let mut v = xs.to_vec();
    fwht(&mut v);
    let mut stream = SignStream::new(seed);
    v.iter().map(|x| x * stream.next_sign() / xs.len() as f32).collect()
}

/// The mean square of what the codes of 4 bits leave of the rotated entries.
fn left_over(v: &[f32], seed: u64) -> f32 {
    let squares = rotated(v, seed).iter().map(|&x| (x - lloyd::dequantize_4bit(lloyd::quantize_4bit(x))).powi(2)).sum::<f32>();
    squares / padded_dim(v.len()) as f32
}

fn at_floor(list: &mut List) {
    list.section("encode: residual of a vector whose rotated entries are nearly centroids, so that the floor of 1e-12 counts (found by search), and near it, by the Rust");
    let mut random = Random::new(19);
    let (mut below, mut above) = (0, 0);
    while below < 12 || above < 12 {
        let n = 32 << random.below(2);
        let xs: Vec<f32> = (0..n).map(|_| lloyd::centroids(4)[random.below(14) as usize]).collect();
        let sum: f64 = xs.iter().map(|&x| x as f64 * x as f64).sum();
        if (sum / n as f64 - 1.0).abs() > 4.0e-6 {
            continue;
        }
        let seed = random.word();
        let v = turned_back(&xs, seed);
        let count = if left_over(&v, seed) < 1.0e-12 { &mut below } else { &mut above };
        *count += 1;
        if *count <= 12 {
            encode(list, Header::new((4, true), n, seed), &v);
        }
    }
}

fn spare_bits(list: &mut List) {
    list.section("over: blocks with every spare bit set, none, and any (the Rust's add_keyed twice, its codes set between)");
    let mut random = Random::new(20);
    for dim in [1, 2, 3, 4, 5, 8, 9, 40] {
        for mode in MODES {
            let h = Header::new(mode, dim, random.word());
            let n = h.block_length();
            let v = entries(dim, &mut random, Kind::Units);
            over(list, h, &vec![0xFF; n], &vec![0xFF; n], &v);
            over(list, h, &vec![0; n], &vec![0; n], &v);
            for _ in 0..3 {
                over(list, h, &h.block(&mut random), &h.block(&mut random), &entries(dim, &mut random, Kind::Mixed));
            }
            over(list, h, &vec![0xFF; n], &vec![0xFF; n], &vec![0.0; dim]);
        }
    }
}

fn queries(list: &mut List) {
    list.section("prepare: dims 1 to 40, 64, 100, 255, 256, 768, 1000 and 4096, also with fewer working dimensions, by the Rust");
    let mut random = Random::new(21);
    for dim in (1..=40).chain([64, 100, 255, 256, 768, 1000, 4096]) {
        let h = Header::new((5, false), dim, random.word());
        prepare(list, h, &entries(dim, &mut random, Kind::Units));
        if dim <= 40 {
            prepare(list, h, &entries(dim, &mut random, Kind::Mixed));
            let mut v = entries(dim, &mut random, Kind::Units);
            let working = dim.div_ceil(2);
            v[working..].fill(f32::NAN);
            prepare(list, Header { working, ..h }, &v);
        }
    }
}

fn scores(list: &mut List) {
    list.section("score, score2: any blocks and scales, dims 1 to 40, 64, 100, 255, 256, 1000 and 4096, by the Rust");
    let mut random = Random::new(22);
    for dim in (1..=40).chain([64, 100, 255, 256, 1000, 4096]) {
        for mode in MODES {
            // A game with one trait at 4 bits has a section of its own.
            if mode.0 == 4 && dim == 1 || dim == 4096 && mode.0 == 5 {
                continue;
            }
            for _ in 0..if dim <= 40 { 2 } else { 1 } {
                any_score(list, Header::new(mode, dim, random.word()), Kind::Units, &mut random);
            }
        }
    }
    list.section("score, score2: of what the Rust stores of one vector, under another as query, also with fewer working dimensions, by the Rust");
    for dim in (2..=40).step_by(3) {
        for mode in MODES {
            let h = Header { working: 1 + (dim + 1) / 2, ..Header::new(mode, dim, random.word()) };
            let mut index = h.index();
            index.add(&entries(dim, &mut random, Kind::Units));
            let stage2 = if h.residual { (index.scales2[0].to_bits(), &index.codes2[..]) } else { (0, &[][..]) };
            score(list, h, (index.scales[0].to_bits(), &index.codes), stage2, &entries(dim, &mut random, Kind::Units));
        }
    }
}

fn any_score(list: &mut List, h: Header, kind: Kind, random: &mut Random) {
    let (block, block2) = (h.block(random), h.block(random));
    let v = entries(h.dim, random, kind);
    score(list, h, (scale(random), &block), (scale(random), &block2), &v);
}

fn scale_edges() -> impl Iterator<Item = u32> {
    [0, 1, 0x007F_FFFF, 0x0080_0000, 0x3F80_0000, 0x7F7F_FFFF, 0x7F80_0000, 0x7F80_0001, 0x7FC0_0000].into_iter().flat_map(|p: u32| [p, p | 0x8000_0000])
}

fn score_edges(list: &mut List) {
    list.section("score, score2: scales that are zeros, infinities, NaNs, subnormal or large (12 where the Rust's score is a NaN); queries that are refused");
    let mut random = Random::new(23);
    for mode in MODES {
        let h = Header::new(mode, 6, 3);
        for p in scale_edges() {
            let (block, block2) = (h.block(&mut random), h.block(&mut random));
            let v = entries(6, &mut random, Kind::Units);
            score(list, h, (p, &block), (p, &block2), &v);
            score(list, h, (0x3F80_0000, &block), (p, &block2), &v);
            score(list, h, (p, &block), (p ^ 0x8000_0000, &block), &v);
        }
        let block = h.block(&mut random);
        for v in faulty(6) {
            score(list, h, (0x7FC0_0000, &block), (0, &block), &v);
        }
    }
}

fn one_trait_scores(list: &mut List) {
    list.section("score, score2: games with one trait at 4 bits, where the Rust stops, by document 02 (Req 05): every code, high four bits set, any scales and queries, edges");
    let mut random = Random::new(26);
    for (dim, seed) in [(1, 2), (1, 1), (2, 2), (3, 1), (17, 0)] {
        for mode in [(4, false), (4, true)] {
            let h = Header { working: 1, ..Header::new(mode, dim, seed) };
            let mut v = vec![f32::NAN; dim];
            v[0] = -2.5;
            for byte in (0..16).flat_map(|code| [code, 0x10 + code, 0xF0 + code]) {
                score(list, h, (0x3F80_0000, &[byte]), (0x3F00_0000, &[!byte]), &v);
            }
            for kind in KINDS {
                for _ in 0..3 {
                    v[0] = entries(1, &mut random, kind)[0];
                    score(list, h, (scale(&mut random), &h.block(&mut random)), (scale(&mut random), &h.block(&mut random)), &v);
                }
            }
        }
    }
    for mode in [(4, false), (4, true)] {
        let h = Header { working: 1, ..Header::new(mode, 2, 2) };
        for p in scale_edges() {
            for byte in [0x1F, 6] {
                score(list, h, (p, &[byte]), (p, &[byte]), &[1.0, f32::NAN]);
                score(list, h, (p, &[byte]), (p ^ 0x8000_0000, &[byte]), &[-1.0, 0.0]);
            }
        }
        for v in faulty(2) {
            score(list, h, (0x7FC0_0000, &[0xF]), (0, &[0xF]), &v);
        }
    }
}

fn orders(list: &mut List) {
    list.section("order: by the sentences of documents 01 and 02 (the Rust's is inside its search); of any two numbers one is the lower where f32's < has its score so");
    let mut random = Random::new(24);
    let edges = [0, 1, 0x007F_FFFF, 0x0080_0000, 0x3F7F_FFFF, 0x3F80_0000, 0x3F80_0001, 0x7F7F_FFFF, 0x7F80_0000];
    let others = (0..200).map(|_| random.pattern()).filter(|&p| pattern(f32::from_bits(p)) == p).collect::<Vec<_>>();
    let mut all: Vec<u32> = edges.into_iter().flat_map(|p: u32| [p, p | 0x8000_0000]).chain(others).collect();
    all.sort_by(|&a, &b| f32::from_bits(a).total_cmp(&f32::from_bits(b)));
    let by_value = |a: f32, b: f32| a.partial_cmp(&b) == Some(order_number(a).cmp(&order_number(b)));
    assert!(all.iter().all(|&a| all.iter().all(|&b| by_value(f32::from_bits(a), f32::from_bits(b)))));
    for p in all {
        order(list, p);
    }
}

fn language(list: &mut List) {
    list.section("lines that cannot be read, and empty ones");
    list.ask(String::new(), String::new());
    let v = vector(&[1.0, 2.0]);
    let unreadable = [
        "encode", "encode 4 0 2 2 1", "encode 4 0 2 2 1 ", "nonsense 1", "order", "order 100000000", "order 01", "order 1 1", "order -",
    ];
    for line in unreadable {
        list.ask(line.to_string(), "?".to_string());
    }
    let with_vector = [
        "encode 3 0 2 2 1", "encode 7 0 2 2 1", "encode 0 0 2 2 1", "encode 104 0 2 2 1", "encode 4 2 2 2 1", "encode 4 0 2 3 1", "encode 4 0 1001 2 1",
        "encode 4 0 2 2 10000000000000000", "encode 4 0 2 2 1 0", "encode 4 0 2 2  1", "encode 4 0 2 2 g", "over 4 0 2 2 1", "over 4 0 2 2 1 00", "over 4 0 2 2 1 0 -",
        "over 4 0 2 2 1 00 0g", "over 4 0 2 2 1 00  -", "prepare 2 2", "prepare 1001 2 1", "prepare 2 3 1", "prepare 2 2 1 1", "score 4 2 2 1 0", "score 3 2 2 1 0 00",
        "score 4 2 2 1 100000000 00", "score 4 2 2 1 0 0", "score2 4 2 2 1 0 00", "score2 4 2 2 1 0 00 0", "score2 4 2 2 1 0 00 100000000 00", "Encode 4 0 2 2 1",
    ];
    for line in with_vector {
        list.ask(format!("{line} {v}"), "?".to_string());
    }
    for v in ["3f80000", "3F800000", "3f800000 3f800000", "3f800000-"] {
        list.ask(format!("encode 4 0 1 1 1 {v}"), "?".to_string());
    }
    list.ask(format!("prepare 2 2 1 {}", vector(&vec![1.0; 4097])), "?".to_string());
    // Ours alone: the Rust's index has no such blocks.
    list.section("blocks of another length than the header's, which an encoding leaves as they are and a score takes for +0");
    list.ask(format!("over 4 0 2 2 1 0102 - {v}"), "0102 00000000".to_string());
    list.ask(format!("over 4 1 2 2 1 01 - {v}"), "01 00000000 - 00000000".to_string());
    list.ask(format!("over 5 0 2 2 1 - - {v}"), "- 00000000".to_string());
    list.ask(format!("score 6 2 2 1 3f800000 01 {v}"), "score 00000000".to_string());
    list.ask("score 4 1 1 1 3f800000 - 3f800000".to_string(), "score 00000000".to_string());
    list.ask("score 4 1 1 1 3f800000 0f0f 3f800000".to_string(), "score 00000000".to_string());
}

// ---- a list of random lines

pub fn random_list(count: usize) -> List {
    set_hook(Box::new(|_| ()));
    let mut list = List::default();
    let mut random = Random::new(25);
    list.section("random lines: encode, over, prepare, score, score2");
    for _ in 0..count {
        random_line(&mut list, &mut random);
    }
    list
}

/// Mostly small, so that sizes without a power of two and spare bits are met often.
fn random_dim(random: &mut Random) -> usize {
    let most = match random.below(1000) {
        0 => 4096,
        1..=20 => 300,
        _ => 40,
    };
    1 + random.below(most) as usize
}

fn random_line(list: &mut List, random: &mut Random) {
    let dim = random_dim(random);
    let mode = MODES[random.below(4) as usize];
    let working = if random.below(3) == 0 { 1 + random.below(dim as u64) as usize } else { dim };
    let h = Header { working, ..Header::new(mode, dim, random.word()) };
    let kind = KINDS[random.below(6) as usize];
    match random.below(8) {
        0 | 1 => encode(list, h, &entries(dim, random, kind)),
        2 | 3 => over(list, h, &h.block(random), &h.block(random), &entries(dim, random, kind)),
        4 => prepare(list, h, &entries(dim, random, kind)),
        5 => encode(list, h, &entries(random_dim(random).min(41), random, kind)),
        _ => any_score(list, h, kind, random),
    }
}
