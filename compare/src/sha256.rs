//! SHA-256, as FIPS 180-4 has it, of bytes that are all there.

/// A block, and where in the last one the length stands.
const BLOCK: usize = 64;
const LENGTH_AT: usize = 56;
/// What the first byte behind the message is: a bit 1, then zeros.
const END_OF_MESSAGE: u8 = 0x80;

/// The first 32 bits of the fractional parts of the square roots of the first 8 primes.
const START: [u32; 8] =
    [0x6a09e667, 0xbb67ae85, 0x3c6ef372, 0xa54ff53a, 0x510e527f, 0x9b05688c, 0x1f83d9ab, 0x5be0cd19];

/// Those of the cube roots of the first 64.
const ROUNDS: [u32; 64] = [
    0x428a2f98, 0x71374491, 0xb5c0fbcf, 0xe9b5dba5, 0x3956c25b, 0x59f111f1, 0x923f82a4, 0xab1c5ed5, 0xd807aa98,
    0x12835b01, 0x243185be, 0x550c7dc3, 0x72be5d74, 0x80deb1fe, 0x9bdc06a7, 0xc19bf174, 0xe49b69c1, 0xefbe4786,
    0x0fc19dc6, 0x240ca1cc, 0x2de92c6f, 0x4a7484aa, 0x5cb0a9dc, 0x76f988da, 0x983e5152, 0xa831c66d, 0xb00327c8,
    0xbf597fc7, 0xc6e00bf3, 0xd5a79147, 0x06ca6351, 0x14292967, 0x27b70a85, 0x2e1b2138, 0x4d2c6dfc, 0x53380d13,
    0x650a7354, 0x766a0abb, 0x81c2c92e, 0x92722c85, 0xa2bfe8a1, 0xa81a664b, 0xc24b8b70, 0xc76c51a3, 0xd192e819,
    0xd6990624, 0xf40e3585, 0x106aa070, 0x19a4c116, 0x1e376c08, 0x2748774c, 0x34b0bcb5, 0x391c0cb3, 0x4ed8aa4a,
    0x5b9cca4f, 0x682e6ff3, 0x748f82ee, 0x78a5636f, 0x84c87814, 0x8cc70208, 0x90befffa, 0xa4506ceb, 0xbef9a3f7,
    0xc67178f2,
];

/// The words of a block, and those that follow from them.
fn schedule(block: &[u8]) -> [u32; 64] {
    let mut w = [0; 64];
    for (word, bytes) in w.iter_mut().zip(block.chunks(4)) {
        *word = u32::from_be_bytes(bytes.try_into().expect("a word's length"));
    }
    for t in 16..64 {
        let (x, y) = (w[t - 15], w[t - 2]);
        let small = x.rotate_right(7) ^ x.rotate_right(18) ^ (x >> 3);
        let large = y.rotate_right(17) ^ y.rotate_right(19) ^ (y >> 10);
        w[t] = w[t - 16].wrapping_add(small).wrapping_add(w[t - 7]).wrapping_add(large);
    }
    w
}

fn round([a, b, c, d, e, f, g, h]: [u32; 8], constant: u32, word: u32) -> [u32; 8] {
    let of_e = e.rotate_right(6) ^ e.rotate_right(11) ^ e.rotate_right(25);
    let chosen = (e & f) ^ (!e & g);
    let first = h.wrapping_add(of_e).wrapping_add(chosen).wrapping_add(constant).wrapping_add(word);
    let of_a = a.rotate_right(2) ^ a.rotate_right(13) ^ a.rotate_right(22);
    let majority = (a & b) ^ (a & c) ^ (b & c);
    [first.wrapping_add(of_a.wrapping_add(majority)), a, b, c, d.wrapping_add(first), e, f, g]
}

fn compress(state: &mut [u32; 8], block: &[u8]) {
    let words = schedule(block);
    let after = ROUNDS.into_iter().zip(words).fold(*state, |s, (constant, word)| round(s, constant, word));
    for (mine, add) in state.iter_mut().zip(after) {
        *mine = mine.wrapping_add(add);
    }
}

/// What stands behind the whole blocks: the rest of the message, its end, zeros and its length in bits.
fn padded(rest: &[u8], bytes: usize) -> Vec<u8> {
    let mut last = [rest, &[END_OF_MESSAGE]].concat();
    while last.len() % BLOCK != LENGTH_AT {
        last.push(0);
    }
    last.extend((8 * bytes as u64).to_be_bytes());
    last
}

/// The digest in hexadecimal.
pub fn sha256(message: &[u8]) -> String {
    let (whole, mut state) = (message.chunks_exact(BLOCK), START);
    let last = padded(whole.remainder(), message.len());
    for block in whole.chain(last.chunks_exact(BLOCK)) {
        compress(&mut state, block);
    }
    state.iter().map(|word| format!("{word:08x}")).collect()
}
