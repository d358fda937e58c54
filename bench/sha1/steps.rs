// The first word of the digest of twelve bytes by the steps of crates/sha1_blocks and crates/sha1, in Rust.

const K0: u32 = 0x5a827999;
const K20: u32 = 0x6ed9eba1;
const K40: u32 = 0x8f1bbcdc;
const K60: u32 = 0xca62c1d6;

const INITIAL: [u32; 5] = [0x67452301, 0xefcdab89, 0x98badcfe, 0x10325476, 0xc3d2e1f0];

#[derive(Clone, Copy)]
struct Hash {
    h0: u32,
    h1: u32,
    h2: u32,
    h3: u32,
    h4: u32,
}

#[derive(Clone, Copy)]
struct Variables {
    a: u32,
    b: u32,
    c: u32,
    d: u32,
    e: u32,
}

fn initial() -> Hash {
    let h = INITIAL;
    Hash { h0: h[0], h1: h[1], h2: h[2], h3: h[3], h4: h[4] }
}

fn rotl(n: u32, x: u32) -> u32 {
    (x << n) | (x >> (32 - n))
}

fn ch(x: u32, y: u32, z: u32) -> u32 {
    (x & y) ^ (!x & z)
}

fn parity(x: u32, y: u32, z: u32) -> u32 {
    x ^ y ^ z
}

fn maj(x: u32, y: u32, z: u32) -> u32 {
    (x & y) ^ (x & z) ^ (y & z)
}

fn f(t: usize, x: u32, y: u32, z: u32) -> u32 {
    if t < 20 {
        return ch(x, y, z);
    }
    if t < 40 {
        return parity(x, y, z);
    }
    if t < 60 {
        return maj(x, y, z);
    }
    parity(x, y, z)
}

fn k(t: usize) -> u32 {
    if t < 20 {
        return K0;
    }
    if t < 40 {
        return K20;
    }
    if t < 60 {
        return K40;
    }
    K60
}

fn schedule(m: &[u32; 16]) -> [u32; 80] {
    let mut w = [0u32; 80];
    let mut t = 0;
    while t < 16 {
        w[t] = m[t];
        t += 1;
    }
    extend(&mut w, 16);
    extend(&mut w, 32);
    extend(&mut w, 48);
    extend(&mut w, 64);
    w
}

fn extend(w: &mut [u32; 80], first: usize) {
    let end = first + 16;
    let mut t = first;
    while t < end {
        w[t] = rotl(1, w[t - 3] ^ w[t - 8] ^ w[t - 14] ^ w[t - 16]);
        t += 1;
    }
}

fn working(h: Hash) -> Variables {
    Variables { a: h.h0, b: h.h1, c: h.h2, d: h.h3, e: h.h4 }
}

fn rounds(w: &[u32; 80], start: Variables) -> Variables {
    let v20 = twenty(w, start, 0);
    let v40 = twenty(w, v20, 20);
    let v60 = twenty(w, v40, 40);
    twenty(w, v60, 60)
}

fn twenty(w: &[u32; 80], start: Variables, first: usize) -> Variables {
    let end = first + 20;
    let mut v = start;
    let mut t = first;
    while t < end {
        v = round(v, t, w[t]);
        t += 1;
    }
    v
}

fn round(mut v: Variables, t: usize, word: u32) -> Variables {
    let mut sum = rotl(5, v.a);
    sum = sum.wrapping_add(f(t, v.b, v.c, v.d));
    sum = sum.wrapping_add(v.e);
    sum = sum.wrapping_add(k(t));
    sum = sum.wrapping_add(word);
    v.e = v.d;
    v.d = v.c;
    v.c = rotl(30, v.b);
    v.b = v.a;
    v.a = sum;
    v
}

fn intermediate(v: Variables, h: Hash) -> Hash {
    Hash {
        h0: v.a.wrapping_add(h.h0),
        h1: v.b.wrapping_add(h.h1),
        h2: v.c.wrapping_add(h.h2),
        h3: v.d.wrapping_add(h.h3),
        h4: v.e.wrapping_add(h.h4),
    }
}

fn compress(h: Hash, m: &[u32; 16]) -> Hash {
    let w = schedule(m);
    let start = working(h);
    let v = rounds(&w, start);
    intermediate(v, h)
}

pub fn first_word(high: u64, low: u32) -> u32 {
    let mut m = [0u32; 16];
    m[0] = (high / 4294967296) as u32;
    m[1] = (high % 4294967296) as u32;
    m[2] = low;
    m[3] = 0x80000000;
    m[15] = 96;
    let h = compress(initial(), &m);
    h.h0
}
