// The first word of the digest of twelve bytes in Rust written for speed alone: every round and every place is written
// out, the variables change their parts in place of their values, and a word is formed in the round that takes it.

macro_rules! word {
    ($w:ident, $t:expr) => {{
        const T: usize = $t;
        if T >= 16 {
            $w[T % 16] = ($w[(T + 13) % 16] ^ $w[(T + 8) % 16] ^ $w[(T + 2) % 16] ^ $w[T % 16]).rotate_left(1);
        }
        $w[T % 16]
    }};
}

macro_rules! round {
    ($f:ident, $k:expr, $word:expr, $a:ident, $b:ident, $c:ident, $d:ident, $e:ident) => {
        $e = $e.wrapping_add($a.rotate_left(5).wrapping_add($f($b, $c, $d)).wrapping_add($word.wrapping_add($k)));
        $b = $b.rotate_left(30);
    };
}

// Five rounds: after them each variable has its own part again.
macro_rules! five {
    ($f:ident, $k:expr, $w:ident, $t:expr, $a:ident, $b:ident, $c:ident, $d:ident, $e:ident) => {
        round!($f, $k, word!($w, $t), $a, $b, $c, $d, $e);
        round!($f, $k, word!($w, $t + 1), $e, $a, $b, $c, $d);
        round!($f, $k, word!($w, $t + 2), $d, $e, $a, $b, $c);
        round!($f, $k, word!($w, $t + 3), $c, $d, $e, $a, $b);
        round!($f, $k, word!($w, $t + 4), $b, $c, $d, $e, $a);
    };
}

macro_rules! twenty {
    ($f:ident, $k:expr, $w:ident, $t:expr, $a:ident, $b:ident, $c:ident, $d:ident, $e:ident) => {
        five!($f, $k, $w, $t, $a, $b, $c, $d, $e);
        five!($f, $k, $w, $t + 5, $a, $b, $c, $d, $e);
        five!($f, $k, $w, $t + 10, $a, $b, $c, $d, $e);
        five!($f, $k, $w, $t + 15, $a, $b, $c, $d, $e);
    };
}

#[inline(always)]
fn ch(x: u32, y: u32, z: u32) -> u32 {
    z ^ (x & (y ^ z))
}

#[inline(always)]
fn parity(x: u32, y: u32, z: u32) -> u32 {
    x ^ y ^ z
}

#[inline(always)]
fn maj(x: u32, y: u32, z: u32) -> u32 {
    (x & y) | (z & (x | y))
}

pub fn first_word(high: u64, low: u32) -> u32 {
    let mut w = [(high >> 32) as u32, high as u32, low, 0x80000000, 0, 0, 0, 0, 0, 0, 0, 0, 0, 0, 0, 96];
    let (mut a, mut b, mut c, mut d, mut e): (u32, u32, u32, u32, u32) =
        (0x67452301, 0xefcdab89, 0x98badcfe, 0x10325476, 0xc3d2e1f0);
    twenty!(ch, 0x5a827999, w, 0, a, b, c, d, e);
    twenty!(parity, 0x6ed9eba1, w, 20, a, b, c, d, e);
    twenty!(maj, 0x8f1bbcdc, w, 40, a, b, c, d, e);
    twenty!(parity, 0xca62c1d6, w, 60, a, b, c, d, e);
    let _ = (b, c, d, e);
    a.wrapping_add(0x67452301)
}
