//! SHA-256 by FIPS 180-4. A list names the bytes it was made from, and sha256sum tells the same.

/// The first 32 bits of the fractions of the cube roots of the first 64 primes (4.2.2).
const K: [u32; 64] = [
    0x428a2f98, 0x71374491, 0xb5c0fbcf, 0xe9b5dba5, 0x3956c25b, 0x59f111f1, 0x923f82a4, 0xab1c5ed5, 0xd807aa98, 0x12835b01, 0x243185be, 0x550c7dc3, 0x72be5d74,
    0x80deb1fe, 0x9bdc06a7, 0xc19bf174, 0xe49b69c1, 0xefbe4786, 0x0fc19dc6, 0x240ca1cc, 0x2de92c6f, 0x4a7484aa, 0x5cb0a9dc, 0x76f988da, 0x983e5152, 0xa831c66d,
    0xb00327c8, 0xbf597fc7, 0xc6e00bf3, 0xd5a79147, 0x06ca6351, 0x14292967, 0x27b70a85, 0x2e1b2138, 0x4d2c6dfc, 0x53380d13, 0x650a7354, 0x766a0abb, 0x81c2c92e,
    0x92722c85, 0xa2bfe8a1, 0xa81a664b, 0xc24b8b70, 0xc76c51a3, 0xd192e819, 0xd6990624, 0xf40e3585, 0x106aa070, 0x19a4c116, 0x1e376c08, 0x2748774c, 0x34b0bcb5,
    0x391c0cb3, 0x4ed8aa4a, 0x5b9cca4f, 0x682e6ff3, 0x748f82ee, 0x78a5636f, 0x84c87814, 0x8cc70208, 0x90befffa, 0xa4506ceb, 0xbef9a3f7, 0xc67178f2,
];

/// The first 32 bits of the fractions of the square roots of the first 8 primes (5.3.3).
const FIRST: [u32; 8] = [0x6a09e667, 0xbb67ae85, 0x3c6ef372, 0xa54ff53a, 0x510e527f, 0x9b05688c, 0x1f83d9ab, 0x5be0cd19];

type Block = [u8; 64];

/// The hash of a message, as sha256sum prints it.
pub fn of(message: &[u8]) -> String {
    let mut hash = FIRST;
    let (blocks, rest) = message.as_chunks::<64>();
    blocks.iter().for_each(|block| hash = compressed(hash, block));
    let (last, one_more) = padded(rest, message.len());
    hash = compressed(hash, &last);
    if let Some(last) = one_more {
        hash = compressed(hash, &last);
    }
    hash.iter().map(|word| format!("{word:08x}")).collect()
}

/// The hash of a vector: of its entries as binary32, little-endian.
pub fn of_entries(entries: &[f32]) -> String {
    let bytes: Vec<u8> = entries.iter().flat_map(|entry| entry.to_le_bytes()).collect();
    of(&bytes)
}

/// The end of a message with a one bit, zeros and the message's length in bits (5.1.1): a block, or two where the length doesn't fit the first.
fn padded(rest: &[u8], length: usize) -> (Block, Option<Block>) {
    let mut first = [0; 64];
    first.iter_mut().zip(rest.iter().chain(&[0x80])).for_each(|(place, byte)| *place = *byte);
    let bits = (length as u64).wrapping_mul(8).to_be_bytes();
    if rest.len() < 56 {
        first[56..].copy_from_slice(&bits);
        return (first, None);
    }
    let mut second = [0; 64];
    second[56..].copy_from_slice(&bits);
    (first, Some(second))
}

/// The hash after one more block (6.2.2).
fn compressed(hash: [u32; 8], block: &Block) -> [u32; 8] {
    let mut w = words(block);
    let (constants, _) = K.as_chunks::<16>();
    let mut state = hash;
    for (turn, k) in constants.iter().enumerate() {
        if turn > 0 {
            w = next_words(w);
        }
        state = sixteen_rounds(state, &w, k);
    }
    std::array::from_fn(|i| hash[i].wrapping_add(state[i]))
}

fn words(block: &Block) -> [u32; 16] {
    let bytes = block.as_chunks::<4>().0;
    std::array::from_fn(|i| u32::from_be_bytes(bytes[i]))
}

/// The next 16 words of the message schedule; each is made of the 16 before it.
#[inline(always)]
fn next_words(mut w: [u32; 16]) -> [u32; 16] {
    macro_rules! words { ($($i:literal)*) => { $(w[$i] = next_word(w[$i], w[($i + 1) % 16], w[($i + 9) % 16], w[($i + 14) % 16]);)* } }
    words!(0 1 2 3 4 5 6 7 8 9 10 11 12 13 14 15);
    w
}

#[inline(always)]
fn next_word(w16: u32, w15: u32, w7: u32, w2: u32) -> u32 {
    let s0 = w15.rotate_right(7) ^ w15.rotate_right(18) ^ (w15 >> 3);
    let s1 = w2.rotate_right(17) ^ w2.rotate_right(19) ^ (w2 >> 10);
    w16.wrapping_add(s0).wrapping_add(w7).wrapping_add(s1)
}

/// Each round moves the eight words on by one place. After eight they are back, so eight rounds written in a row move none.
#[inline(always)]
fn sixteen_rounds(state: [u32; 8], w: &[u32; 16], k: &[u32; 16]) -> [u32; 8] {
    let [mut a, mut b, mut c, mut d, mut e, mut f, mut g, mut h] = state;
    macro_rules! eight_rounds {
        ($i:literal) => {
            round((a, b, c), &mut d, (e, f, g), &mut h, k[$i].wrapping_add(w[$i]));
            round((h, a, b), &mut c, (d, e, f), &mut g, k[$i + 1].wrapping_add(w[$i + 1]));
            round((g, h, a), &mut b, (c, d, e), &mut f, k[$i + 2].wrapping_add(w[$i + 2]));
            round((f, g, h), &mut a, (b, c, d), &mut e, k[$i + 3].wrapping_add(w[$i + 3]));
            round((e, f, g), &mut h, (a, b, c), &mut d, k[$i + 4].wrapping_add(w[$i + 4]));
            round((d, e, f), &mut g, (h, a, b), &mut c, k[$i + 5].wrapping_add(w[$i + 5]));
            round((c, d, e), &mut f, (g, h, a), &mut b, k[$i + 6].wrapping_add(w[$i + 6]));
            round((b, c, d), &mut e, (f, g, h), &mut a, k[$i + 7].wrapping_add(w[$i + 7]));
        };
    }
    eight_rounds!(0);
    eight_rounds!(8);
    [a, b, c, d, e, f, g, h]
}

/// One round: `d` and `h` change.
#[inline(always)]
fn round((a, b, c): (u32, u32, u32), d: &mut u32, (e, f, g): (u32, u32, u32), h: &mut u32, added: u32) {
    let s1 = e.rotate_right(6) ^ e.rotate_right(11) ^ e.rotate_right(25);
    let chosen = g ^ (e & (f ^ g));
    let t1 = h.wrapping_add(s1).wrapping_add(chosen).wrapping_add(added);
    let s0 = a.rotate_right(2) ^ a.rotate_right(13) ^ a.rotate_right(22);
    let most = (a & b) | (c & (a | b));
    *d = d.wrapping_add(t1);
    *h = t1.wrapping_add(s0).wrapping_add(most);
}
