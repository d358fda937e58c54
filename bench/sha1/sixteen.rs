// The first word of the digest of twelve bytes in Rust by the steps that crates/sha1_blocks had before Wish 3: the
// schedule of sixteen words of section 6.1.3, each written over in the round that takes it.

#[derive(Clone, Copy)]
struct Hash {
    a: u32,
    b: u32,
    c: u32,
    d: u32,
    e: u32,
}

fn rotl(n: u32, x: u32) -> u32 {
    (x << n) | (x >> (32 - n))
}

fn logical(t: usize, x: u32, y: u32, z: u32) -> u32 {
    if t < 20 {
        return (x & y) ^ (!x & z);
    }
    if t < 40 {
        return x ^ y ^ z;
    }
    if t < 60 {
        return (x & y) ^ (x & z) ^ (y & z);
    }
    x ^ y ^ z
}

fn constant(t: usize) -> u32 {
    if t < 20 {
        return 0x5a827999;
    }
    if t < 40 {
        return 0x6ed9eba1;
    }
    if t < 60 {
        return 0x8f1bbcdc;
    }
    0xca62c1d6
}

fn scheduled(w: &mut [u32; 16], t: usize) -> u32 {
    let s = t % 16;
    if t >= 16 {
        w[s] = rotl(1, w[(t + 13) % 16] ^ w[(t + 8) % 16] ^ w[(t + 2) % 16] ^ w[s]);
    }
    w[s]
}

fn round(v: Hash, f: u32, k: u32, word: u32) -> Hash {
    let kept = rotl(5, v.a).wrapping_add(f).wrapping_add(v.e);
    Hash { a: kept.wrapping_add(k).wrapping_add(word), b: v.a, c: rotl(30, v.b), d: v.c, e: v.d }
}

fn rounds(w: &mut [u32; 16], start: Hash, first: usize) -> Hash {
    let k = constant(first);
    let end = first + 20;
    let mut v = start;
    let mut t = first;
    while t < end {
        let word = scheduled(w, t);
        v = round(v, logical(first, v.b, v.c, v.d), k, word);
        t += 1;
    }
    v
}

pub fn first_word(high: u64, low: u32) -> u32 {
    let mut w = [0u32; 16];
    w[0] = (high / 4294967296) as u32;
    w[1] = (high % 4294967296) as u32;
    w[2] = low;
    w[3] = 0x80000000;
    w[15] = 96;
    let h = Hash { a: 0x67452301, b: 0xefcdab89, c: 0x98badcfe, d: 0x10325476, e: 0xc3d2e1f0 };
    let v20 = rounds(&mut w, h, 0);
    let v40 = rounds(&mut w, v20, 20);
    let v60 = rounds(&mut w, v40, 40);
    let v = rounds(&mut w, v60, 60);
    v.a.wrapping_add(h.a)
}
