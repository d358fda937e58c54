// `slices` of document 01 in Rust, written for speed alone, with steps of its own and no proof. See `run`.
use std::fs::File;
use std::io::{Read, Write};
use std::mem::ManuallyDrop;
use std::os::fd::FromRawFd;

mod divisors;
include!("pool.rs");
include!("history.rs");

// a line gives at most "65536 0 4294967296 4096\n" (24) but at least 1 byte of input each; a refused
// line gives 12; an accepted one needs at least 9 bytes of input. 65,536 * 12 bounds both.
const OUT: usize = MOST * 12 + 4096 * 32 + 64;

static mut TEXT: [u8; MOST + 128] = [0; MOST + 128];
static mut OUTB: [u8; OUT] = [0; OUT];
static mut POOL: Pool = Pool::ZERO;

static PAIRS: [u8; 200] = {
    let mut t = [0u8; 200];
    let mut i = 0;
    while i < 100 {
        t[2 * i] = b'0' + (i / 10) as u8;
        t[2 * i + 1] = b'0' + (i % 10) as u8;
        i += 1;
    }
    t
};

/// v < 2^33, decimal, returns the place after it
#[inline(always)]
unsafe fn decimal(mut o: *mut u8, v: u64) -> *mut u8 {
    let p = PAIRS.as_ptr();
    if v < 10 {
        *o = b'0' + v as u8;
        return o.add(1);
    }
    if v < 100 {
        std::ptr::copy_nonoverlapping(p.add(2 * v as usize), o, 2);
        return o.add(2);
    }
    let mut buf = [0u8; 12];
    let b = buf.as_mut_ptr();
    let mut at = 12usize;
    let mut x = v;
    while x >= 100 {
        let r = (x % 100) as usize;
        x /= 100;
        at -= 2;
        std::ptr::copy_nonoverlapping(p.add(2 * r), b.add(at), 2);
    }
    if x >= 10 {
        at -= 2;
        std::ptr::copy_nonoverlapping(p.add(2 * x as usize), b.add(at), 2);
    } else {
        at -= 1;
        *b.add(at) = b'0' + x as u8;
    }
    let n = 12 - at;
    let mut i = at;
    while i < 12 {
        *o = *b.add(i);
        o = o.add(1);
        i += 1;
    }
    let _ = n;
    o
}

/// the next line number, in ASCII, first digit in the lowest byte
struct Counter {
    digits: u64,
    len: u32,
    ones: u8,
    upper: u64,
}

impl Counter {
    #[inline(always)]
    fn next(&mut self) {
        if self.ones < 9 {
            self.ones += 1;
            self.digits += 1 << (8 * (self.len - 1));
        } else {
            self.ones = 0;
            self.upper += 1;
            let mut buf = [0u8; 16];
            unsafe {
                let e = decimal(buf.as_mut_ptr(), self.upper * 10);
                self.len = e.offset_from(buf.as_ptr()) as u32;
                self.digits = (buf.as_ptr() as *const u64).read_unaligned();
            }
        }
    }
}

fn main() {
    unsafe {
        let mut stdin = ManuallyDrop::new(File::from_raw_fd(0));
        let mut stdout = ManuallyDrop::new(File::from_raw_fd(1));
        let text = &mut *(&raw mut TEXT);
        let pool = &mut *(&raw mut POOL);
        let mut len = 0usize;
        while len <= MOST {
            match stdin.read(&mut text[len..MOST + 1]) {
                Ok(0) => break,
                Ok(k) => len += k,
                Err(e) if e.kind() == std::io::ErrorKind::Interrupted => {}
                Err(_) => std::process::exit(1),
            }
        }
        if len > MOST {
            let _ = stdout.write_all(b"too long\n");
            return;
        }
        text[len] = 0;
        text[len + 1] = 10;
        let base = text.as_ptr();
        let end = base.add(len);
        let out = (&raw mut OUTB) as *mut u8;
        let mut o = out;
        let mut p = base;
        let mut count = Counter { digits: b'0' as u64, len: 1, ones: 0, upper: 0 };
        while p < end {
            count.next();
            (o as *mut u64).write_unaligned(count.digits);
            o = o.add(count.len as usize);
            let (refusal, moved, moves) = line(pool, &mut p);
            if refusal == 0 {
                (o as *mut u32).write_unaligned(u32::from_le_bytes(*b" 0  "));
                o = decimal(o.add(3), moved);
                *o = b' ';
                o = decimal(o.add(1), moves as u64);
                *o = 10;
                o = o.add(1);
            } else {
                if refusal == 1 {
                    p = line_end(p);
                }
                (o as *mut u64).write_unaligned(letters(b" 0 0 0\n") + ((refusal as u64) << 8));
                o = o.add(7);
            }
            p = p.add(1);
        }
        std::ptr::copy_nonoverlapping(b"table\n".as_ptr(), o, 6);
        o = o.add(6);
        let t = &pool.table[pool.cur];
        for i in 0..pool.q {
            let e = *t.get_unchecked(i);
            let next = *t.get_unchecked(i + 1);
            o = decimal(o, e >> 8);
            *o = b' ';
            o = decimal(o.add(1), (next >> 8) - (e >> 8));
            *o = b' ';
            o = decimal(o.add(1), pool.id_of_slot[e as u8 as usize] as u64);
            *o = 10;
            o = o.add(1);
        }
        let _ = stdout.write_all(std::slice::from_raw_parts(out, o.offset_from(out) as usize));
    }
}
