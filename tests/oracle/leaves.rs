//! The list of the program `leaves`: every leaf of the index against the Rust.
use crate::halves::{reading, subnormal, value};
use crate::list::List;
use crate::random::Random;
use crate::text::{eight, vector};
use vecq::format::f32_to_f16_bits;
use vecq::lloyd;
use vecq::rhdh::{fwht, padded_dim, Rhdh, SignStream};

pub fn list() -> List {
    let mut list = List::default();
    read_halves(&mut list);
    narrows(&mut list);
    roots(&mut list);
    signs(&mut list);
    padded(&mut list);
    transforms(&mut list);
    rotations(&mut list);
    codes(&mut list);
    language(&mut list);
    list
}

/// How many halves a line of `halves` or `narrows` has.
const RUN: u32 = 0x1000;

// ---- halves

fn read_halves(list: &mut List) {
    list.section("halves: all patterns read; the 2046 subnormal ones by their IEEE value, the others by the Rust");
    assert_eq!((0..=u16::MAX).filter(|&h| subnormal(h)).count(), 2046);
    for from in (0..0x10000).step_by(RUN as usize) {
        let answer = (from..from + RUN).map(|h| format!("{:08x}", reading(h as u16))).collect();
        list.ask(format!("halves {from:x} {:x}", from + RUN), answer);
    }
    list.section("half: single patterns, among them zeros, subnormals, infinities and NaNs");
    for h in [0, 1, 2, 3, 0x1FF, 0x200, 0x3FF, 0x400, 0x3C00, 0x3C01, 0x7BFF, 0x7C00, 0x7C01, 0x7DFF, 0x7E00, 0x7FFF] {
        for h in [h, h | 0x8000] {
            list.ask(format!("half {h:x}"), format!("{:08x}", reading(h)));
        }
    }
}

fn narrowed(p: u32) -> u16 {
    f32_to_f16_bits(f32::from_bits(p))
}

/// The binary32 pattern of the value between a finite half and the next one of larger magnitude: past the largest the next is 65536.
fn midpoint(h: u16) -> u32 {
    let next = if h & 0x7FFF == 0x7BFF { value(h).signum() * 65536.0 } else { value(h + 1) };
    let middle = (value(h) + next) / 2.0;
    assert_eq!(middle as f32 as f64, middle);
    (middle as f32).to_bits()
}

fn around(p: u32) -> String {
    [p, p.wrapping_sub(1), p.wrapping_add(1)].map(|p| format!("{:04x}", narrowed(p))).concat()
}

fn narrows(list: &mut List) {
    list.section("narrows: at every half's reading, its midpoint to the next half, and their neighbours");
    for from in (0..0x10000).step_by(RUN as usize) {
        let answer = (from..from + RUN)
            .map(|h| h as u16)
            .map(|h| match h & 0x7FFF {
                0..=0x7BFF => around(reading(h)) + &around(midpoint(h)),
                0x7C00 => around(reading(h)),
                _ => format!("{:04x}", narrowed(reading(h))),
            })
            .collect();
        list.ask(format!("narrows {from:x} {:x}", from + RUN), answer);
    }
    list.section("narrow: edges of the format, of binary32 and of rounding, and random patterns");
    let edges = [
        0x0000_0000, 0x0000_0001, 0x007F_FFFF, 0x0080_0000, 0x32FF_FFFF, 0x3300_0000, 0x3300_0001, 0x337F_FFFF, 0x3380_0000, 0x387F_DFFF,
        0x387F_E000, 0x387F_F000, 0x387F_FFFF, 0x3880_0000, 0x3F80_0000, 0x3F80_1000, 0x3F80_1001, 0x3F80_3000, 0x477F_E000, 0x477F_EFFF,
        0x477F_F000, 0x4780_0000, 0x7F7F_FFFF, 0x7F80_0000, 0x7F80_0001, 0x7FBF_FFFF, 0x7FC0_0000, 0x7FFF_FFFF,
    ];
    let mut random = Random::new(1);
    let others = (0..1000).map(|_| random.pattern());
    for p in edges.into_iter().flat_map(|p: u32| [p, p | 0x8000_0000]).chain(others) {
        list.ask(format!("narrow {p:x}"), format!("{:04x}", narrowed(p)));
    }
}

// ---- roots

fn root(list: &mut List, p: u32) {
    list.ask(format!("sqrt {p:x}"), eight(f32::from_bits(p).sqrt()));
}

fn roots_near(list: &mut List, p: u32) {
    for p in [p - 1, p, p + 1] {
        root(list, p);
    }
}

fn roots(list: &mut List) {
    list.section("sqrt: powers of two and their neighbours");
    for exponent in -149..=127 {
        roots_near(list, (2f64.powi(exponent) as f32).to_bits());
    }
    list.section("sqrt: zeros, infinities, NaNs, values below 0, the ends of the subnormal numbers");
    for p in [0, 1, 0x007F_FFFF, 0x0080_0000, 0x3F80_0000, 0x7F7F_FFFF, 0x7F80_0000, 0x7F80_0001, 0x7FC0_0000] {
        root(list, p);
        root(list, p | 0x8000_0000);
    }
    list.section("sqrt: squares of the numbers of 12 bits, and the neighbours of the odd ones");
    for n in 1..4096u32 {
        let p = ((n * n) as f32).to_bits();
        if n % 2 == 1 {
            roots_near(list, p);
        } else {
            root(list, p);
        }
    }
    list.section("sqrt: random patterns, half of them subnormal");
    let mut random = Random::new(2);
    for _ in 0..1000 {
        root(list, random.pattern() & 0x7FFF_FFFF);
        root(list, random.pattern() & 0x007F_FFFF);
    }
}

// ---- signs and rotation

fn signs(list: &mut List) {
    list.section("signs: of the seeds 0, 1, 2^64-1 and others");
    let mut random = Random::new(3);
    let seeds = [0, 1, 2, 42, 0x8000_0000_0000_0000, u64::MAX, 0x9E37_79B9_7F4A_7C15];
    for seed in seeds.into_iter().chain((0..20).map(|_| random.word())) {
        let mut stream = SignStream::new(seed);
        let answer: String = (0..256).map(|_| if stream.next_sign() < 0.0 { '-' } else { '+' }).collect();
        for n in [1, 256] {
            list.ask(format!("signs {seed:x} {n:x}"), answer[..n].to_string());
        }
    }
}

fn padded(list: &mut List) {
    list.section("padded: 0 to 40, powers of two up to 2^63 and their neighbours");
    let powers = (6..64).flat_map(|k| [(1usize << k) - 1, 1 << k, (1 << k) + 1]);
    for dim in (0..=40).chain(powers).filter(|&dim| dim <= 1 << 63) {
        list.ask(format!("padded {dim:x}"), format!("{:x}", padded_dim(dim)));
    }
}

/// Entries of one size, of sizes far apart, or with zeros, infinities, NaNs and subnormal numbers among them.
fn entries(n: usize, random: &mut Random, kind: usize) -> Vec<f32> {
    let odd = [0.0, -0.0, f32::INFINITY, f32::NEG_INFINITY, f32::NAN, f32::MAX, -f32::MAX, f32::from_bits(1), 1.0e-40];
    (0..n)
        .map(|_| match kind {
            0 => random.unit(),
            1 => random.mixed(60, 60),
            2 => random.mixed(149, 127),
            _ => match random.below(2 * n as u64) {
                i if i < 3 => odd[random.below(odd.len() as u64) as usize],
                _ => random.unit(),
            },
        })
        .collect()
}

fn transform(list: &mut List, v: &[f32]) {
    let mut out = v.to_vec();
    fwht(&mut out);
    list.ask(format!("fwht {}", vector(v)), vector(&out));
}

fn transforms(list: &mut List) {
    list.section("fwht: lengths that are powers of two; mixed sizes, zeros of both signs, infinities, NaNs");
    transform(list, &[1.0, 2.0, 3.0, 4.0]);
    transform(list, &[-0.0]);
    transform(list, &[f32::NAN]);
    transform(list, &[0.0, -0.0]);
    transform(list, &[-0.0, -0.0]);
    transform(list, &[f32::INFINITY, f32::INFINITY]);
    transform(list, &[f32::INFINITY, f32::NEG_INFINITY, 1.0, 0.0]);
    transform(list, &[f32::MAX, f32::MAX, -f32::MAX, f32::MAX]);
    let mut random = Random::new(4);
    for n in [1, 2, 4, 8, 16, 32, 64, 128] {
        for kind in [0, 1, 2, 3, 3] {
            transform(list, &entries(n, &mut random, kind));
        }
    }
    transform(list, &entries(1024, &mut random, 1));
    transform(list, &entries(4096, &mut random, 1));
}

fn rotation(list: &mut List, dim: usize, seed: u64, v: &[f32]) {
    let mut out = Vec::new();
    Rhdh::new(dim, seed).apply(v, &mut out);
    list.ask(format!("apply {dim:x} {seed:x} {}", vector(v)), vector(&out));
}

fn rotations(list: &mut List) {
    list.section("apply: dims 1 to 40, 64, 100, 255, 256, 768, 1000, 4096, with several seeds; whole vectors, and shorter ones that are padded");
    let mut random = Random::new(5);
    for dim in 1..=40 {
        rotation(list, dim, 0, &entries(dim, &mut random, 0));
        rotation(list, dim, random.word(), &entries(dim, &mut random, 1));
        rotation(list, dim, u64::MAX, &entries(dim / 2, &mut random, 3));
    }
    for dim in [64, 100, 255, 256] {
        rotation(list, dim, 1, &entries(dim, &mut random, 1));
        rotation(list, dim, random.word(), &entries(dim, &mut random, 3));
    }
    rotation(list, 768, 42, &entries(768, &mut random, 0));
    rotation(list, 1000, 42, &entries(1000, &mut random, 2));
    rotation(list, 4096, 42, &entries(4096, &mut random, 1));
}

// ---- codes

fn codes(list: &mut List) {
    for bits in [4u8, 5, 6] {
        list.section(&format!("levels, dequantize of every code, quantize at every boundary and its neighbours and elsewhere: {bits} bits"));
        list.ask(format!("levels {bits:x}"), format!("{:x}", lloyd::levels(bits)));
        for code in 0..lloyd::levels(bits) {
            list.ask(format!("dequantize {bits:x} {code:x}"), eight(lloyd::dequantize(code as u8, bits)));
        }
        let mut random = Random::new(6);
        let boundaries = lloyd::boundaries(bits).iter().flat_map(|b| [b.to_bits() - 1, b.to_bits(), b.to_bits() + 1]);
        let odd = [0, 1, 0x7F7F_FFFF, 0x7F80_0000, 0x7F80_0001, 0x7FC0_0000].into_iter().flat_map(|p: u32| [p, p | 0x8000_0000]);
        let near = (0..400).map(|_| (random.unit() * 4.0).to_bits()).collect::<Vec<_>>();
        let any = (0..100).map(|_| random.pattern()).collect::<Vec<_>>();
        for p in boundaries.chain(odd).chain(near).chain(any) {
            let code = lloyd::quantize(f32::from_bits(p), bits);
            list.ask(format!("quantize {bits:x} {p:x}"), format!("{code:x}"));
        }
    }
}

// ---- the language itself

fn language(list: &mut List) {
    list.section("lines that cannot be read, empty ones, the longest that is read and one byte more");
    list.ask(String::new(), String::new());
    list.ask("#".repeat(140_000), String::new());
    list.ask("#".repeat(140_001), "?".to_string());
    let unreadable = [
        " ", "nonsense", "half", "half ", "half  1", "half 1 ", " half 1", "half 1 1", "half 01", "half 00", "half 0x1", "half A", "half g",
        "half -", "half 10000", "narrow 100000000", "narrow 10000000000000000", "sqrt 3f800000.", "signs 1", "signs 1 1001",
        "signs 10000000000000000 1", "padded 10000000000000000", "fwht", "fwht 3f80000", "fwht 3f8000003", "fwht 3F800000",
        "fwht 3f800000 3f800000", "apply 1001 0 -", "apply 4 0", "halves 0 1001", "halves 1 0", "halves 10000 10001", "narrows 0 10001",
        "levels 100", "levels 4 4", "quantize 4", "quantize 100 0", "dequantize 4 100", "half\t1", "Half 1",
    ];
    for line in unreadable {
        list.ask(line.to_string(), "?".to_string());
    }
    list.ask("halves 10000 10000".to_string(), String::new());
    list.ask("signs 1 0".to_string(), String::new());
    // Ours alone: the Rust's function is for powers of two, and its apply for vectors that fit.
    list.section("fwht of other lengths, which leaves the entries as they are");
    for v in [&[][..], &[1.0, 2.0, 3.0], &[1.0, -0.0, 2.0, 3.0, 4.0]] {
        list.ask(format!("fwht {}", vector(v)), vector(v));
    }
}
