//! SHA-1 as FIPS 180-4 has it, with the eighty-word schedule of section 6.1.2.

pub const LONGEST: usize = 65_536;

/// The five words of the digest, or 2 for more than 65,536 bytes.
pub fn digest(message: &[u8]) -> Result<[u32; 5], u32> {
    if message.len() > LONGEST {
        return Err(2);
    }
    // 5.3.1
    let mut hash = [0x67452301, 0xefcdab89, 0x98badcfe, 0x10325476, 0xc3d2e1f0];
    for block in padded(message).chunks_exact(64) {
        hash = compress(hash, block);
    }
    Ok(hash)
}

// 5.1.1: a one bit, zeros, and the length in bits in the last 64.
fn padded(message: &[u8]) -> Vec<u8> {
    let mut bytes = message.to_vec();
    bytes.push(0x80);
    while bytes.len() % 64 != 56 {
        bytes.push(0);
    }
    bytes.extend((8 * message.len() as u64).to_be_bytes());
    bytes
}

// 6.1.2
fn compress(hash: [u32; 5], block: &[u8]) -> [u32; 5] {
    let mut w = [0u32; 80];
    for t in 0..16 {
        w[t] = u32::from_be_bytes(block[4 * t..4 * t + 4].try_into().unwrap());
    }
    for t in 16..80 {
        w[t] = (w[t - 3] ^ w[t - 8] ^ w[t - 14] ^ w[t - 16]).rotate_left(1);
    }
    let [mut a, mut b, mut c, mut d, mut e] = hash;
    for (t, word) in w.into_iter().enumerate() {
        // 4.1.1 and 4.2.1
        let (f, k) = match t {
            0..=19 => ((b & c) ^ (!b & d), 0x5a827999),
            20..=39 => (b ^ c ^ d, 0x6ed9eba1),
            40..=59 => ((b & c) ^ (b & d) ^ (c & d), 0x8f1bbcdc),
            _ => (b ^ c ^ d, 0xca62c1d6u32),
        };
        let temporary = a.rotate_left(5).wrapping_add(f).wrapping_add(e).wrapping_add(k).wrapping_add(word);
        e = d;
        d = c;
        c = b.rotate_left(30);
        b = a;
        a = temporary;
    }
    [
        hash[0].wrapping_add(a),
        hash[1].wrapping_add(b),
        hash[2].wrapping_add(c),
        hash[3].wrapping_add(d),
        hash[4].wrapping_add(e),
    ]
}
