// A free (unverified) recorder pool: document 01, "Shares" and "One change".
// Included by free.rs.
//
// Devices stand by rising id in dense arrays of n entries; each has a stable slot (0..255) which
// the table uses as owner. A table entry is start << 8 | slot in one u64; entry q is R << 8.

const MAXT: usize = 2 * 4096 + 256 + 8; // pieces before the check against M
const PLACES: usize = 4096;

#[derive(Clone, Copy)]
pub struct Move {
    pub start: u32,
    pub old: u8,
    pub new: u8,
    pub len: u64,
}

pub struct Pool {
    r: u64,
    m: usize,
    n: usize,
    q: usize,
    cur: usize,
    sum: u64,
    nfree: usize,
    id: [u16; 257],
    cap: [u32; 257],
    slot: [u8; 257],
    share: [u64; 257],
    next: [u64; 257],
    id_of_slot: [u16; 256],
    free: [u8; 256],
    rel: [u64; 256],
    need_slot: [u8; 264],
    need: [u64; 264],
    moves: [Move; PLACES + 264],
    table: [[u64; MAXT]; 2],
}

impl Pool {
    const ZERO: Pool = Pool {
        r: 0,
        m: 0,
        n: 0,
        q: 0,
        cur: 0,
        sum: 0,
        nfree: 0,
        id: [0; 257],
        cap: [0; 257],
        slot: [0; 257],
        share: [0; 257],
        next: [0; 257],
        id_of_slot: [0; 256],
        free: [0; 256],
        rel: [0; 256],
        need_slot: [0; 264],
        need: [0; 264],
        moves: [Move { start: 0, old: 0, new: 0, len: 0 }; PLACES + 264],
        table: [[0; MAXT]; 2],
    };

    fn begin(&mut self, r: u64, m: usize) {
        self.r = r;
        self.m = m;
    }

    #[inline(always)]
    fn rank(&self, id: u16) -> (usize, bool) {
        // branch-light halving over n dense u16s
        let mut base = 0usize;
        let mut len = self.n;
        unsafe {
            while len > 1 {
                let half = len >> 1;
                if *self.id.get_unchecked(base + half - 1) < id {
                    base += half;
                }
                len -= half;
            }
            if len == 1 && *self.id.get_unchecked(base) < id {
                base += 1;
            }
            (base, base < self.n && *self.id.get_unchecked(base) == id)
        }
    }

    /// New shares of the n devices into `next`.
    #[inline(always)]
    fn shares(&mut self) {
        divisors::shares(self.r, &self.cap[..self.n], self.sum, &mut self.next[..self.n]);
    }

    /// Steps 1 to 6. `gone` is (slot, old share) of a removed device.
    /// Shares of the devices present now are in `next`, the old ones in `share`.
    /// Returns (refusal, moved, moves).
    #[inline(always)]
    fn recut(&mut self, gone: Option<(u8, u64)>) -> (u32, u64, usize) {
        let n = self.n;
        let mut total = 0u64;
        let mut needs = 0usize;
        unsafe {
            for i in 0..n {
                let s = *self.share.get_unchecked(i);
                let t = *self.next.get_unchecked(i);
                let o = *self.slot.get_unchecked(i);
                let d = s.wrapping_sub(t);
                let rel = if s > t { d } else { 0 };
                self.rel[o as usize] = rel;
                total += rel;
                *self.need_slot.get_unchecked_mut(needs) = o;
                *self.need.get_unchecked_mut(needs) = d.wrapping_neg();
                needs += (t > s) as usize;
            }
            if let Some((o, s)) = gone {
                self.rel[o as usize] = s;
                total += s;
            }
            if total == 0 {
                return (0, 0, 0);
            }
            let (t0, t1) = self.table.split_at_mut(1);
            let (src, dst) = if self.cur == 0 {
                (t0[0].as_ptr(), t1[0].as_mut_ptr())
            } else {
                (t1[0].as_ptr(), t0[0].as_mut_ptr())
            };
            let rel = &mut self.rel;
            let moves = self.moves.as_mut_ptr();
            let mut nm = 0usize;
            let mut i = 0usize;
            let mut j = 0usize;
            let mut last_owner = 256u32;
            let mut gap_end = u64::MAX;
            let mut at_start = false;
            let mut left = total;
            let mut w = 0usize;
            let mut w_slot = self.need_slot[0];
            let mut w_left = self.need[0];
            loop {
                // pass by; only the first may join with a filled gap before it
                let mut e = *src.add(i);
                let mut o = e as u8;
                let mut have = rel[o as usize];
                if have == 0 {
                    *dst.add(j) = e;
                    j += (o as u32 != last_owner) as usize;
                    loop {
                        i += 1;
                        e = *src.add(i);
                        let before = o;
                        o = e as u8;
                        have = rel[o as usize];
                        if have != 0 {
                            last_owner = before as u32;
                            break;
                        }
                        *dst.add(j) = e;
                        j += 1;
                    }
                }
                let start = e >> 8;
                let end = *src.add(i + 1) >> 8;
                i += 1;
                let len = end - start;
                let mut a;
                let b;
                let mut keep_after = false;
                let take;
                if len <= have {
                    take = len;
                    a = start;
                    b = end;
                    at_start = true;
                } else {
                    take = have;
                    if gap_end == start {
                        a = start;
                        b = start + have;
                        keep_after = true;
                    } else {
                        if at_start {
                            a = start;
                            b = start + have;
                            keep_after = true;
                        } else {
                            a = end - have;
                            b = end;
                            *dst.add(j) = e;
                            j += 1;
                            last_owner = o as u32;
                        }
                        at_start = !at_start;
                    }
                }
                rel[o as usize] = have - take;
                left -= take;
                gap_end = b;
                loop {
                    let t = if w_left < b - a { w_left } else { b - a };
                    *dst.add(j) = a << 8 | w_slot as u64;
                    j += (w_slot as u32 != last_owner) as usize;
                    last_owner = w_slot as u32;
                    *moves.add(nm) = Move { start: a as u32, old: o, new: w_slot, len: t };
                    nm += 1;
                    a += t;
                    w_left -= t;
                    if w_left == 0 {
                        w += 1;
                        w_slot = *self.need_slot.get_unchecked(w);
                        w_left = *self.need.get_unchecked(w);
                    }
                    if a == b {
                        break;
                    }
                }
                if keep_after {
                    *dst.add(j) = b << 8 | o as u64;
                    j += 1;
                    last_owner = o as u32;
                }
                if left == 0 {
                    break;
                }
            }
            // the rest stays, sentinel included
            let q = self.q;
            if i < q {
                let e = *src.add(i);
                *dst.add(j) = e;
                j += (e as u8 as u32 != last_owner) as usize;
                i += 1;
            }
            std::ptr::copy_nonoverlapping(src.add(i), dst.add(j), q + 1 - i);
            j += q - i;
            if j > self.m {
                return (8, 0, 0);
            }
            if nm > PLACES {
                return (9, 0, 0);
            }
            self.q = j;
            self.cur ^= 1;
            (0, total, nm)
        }
    }

    #[inline(always)]
    fn settle(&mut self) {
        let n = self.n;
        self.share[..n].copy_from_slice(&self.next[..n]);
    }

    fn add(&mut self, id: u16, cap: u32) -> (u32, u64, usize) {
        let (at, found) = self.rank(id);
        if found {
            return (4, 0, 0);
        }
        let n = self.n;
        if n == 256 {
            return (6, 0, 0);
        }
        if n == 0 {
            self.n = 1;
            self.id[0] = id;
            self.cap[0] = cap;
            self.sum = cap as u64;
            self.slot[0] = 0;
            self.share[0] = self.r;
            self.id_of_slot[0] = id;
            self.table[0][0] = 0;
            self.table[0][1] = self.r << 8;
            self.q = 1;
            return (0, 0, 0);
        }
        let o = if self.nfree > 0 { self.free[self.nfree - 1] } else { n as u8 };
        self.id.copy_within(at..n, at + 1);
        self.cap.copy_within(at..n, at + 1);
        self.slot.copy_within(at..n, at + 1);
        self.share.copy_within(at..n, at + 1);
        self.id[at] = id;
        self.cap[at] = cap;
        self.slot[at] = o;
        self.share[at] = 0;
        self.n = n + 1;
        self.sum += cap as u64;
        self.id_of_slot[o as usize] = id;
        self.shares();
        let ans = self.recut(None);
        if ans.0 == 0 {
            if self.nfree > 0 {
                self.nfree -= 1;
            }
            self.settle();
        } else {
            self.strike(at);
        }
        ans
    }

    #[inline(always)]
    fn strike(&mut self, at: usize) {
        let n = self.n;
        self.sum -= self.cap[at] as u64;
        self.id.copy_within(at + 1..n, at);
        self.cap.copy_within(at + 1..n, at);
        self.slot.copy_within(at + 1..n, at);
        self.share.copy_within(at + 1..n, at);
        self.n = n - 1;
    }

    fn remove(&mut self, id: u16) -> (u32, u64, usize) {
        let (at, found) = self.rank(id);
        if !found {
            return (5, 0, 0);
        }
        if self.n == 1 {
            return (7, 0, 0);
        }
        let (cap, o, s) = (self.cap[at], self.slot[at], self.share[at]);
        self.strike(at);
        self.shares();
        let ans = self.recut(Some((o, s)));
        if ans.0 == 0 {
            self.free[self.nfree] = o;
            self.nfree += 1;
            self.settle();
        } else {
            let n = self.n;
            self.id.copy_within(at..n, at + 1);
            self.cap.copy_within(at..n, at + 1);
            self.slot.copy_within(at..n, at + 1);
            self.share.copy_within(at..n, at + 1);
            self.id[at] = id;
            self.cap[at] = cap;
            self.slot[at] = o;
            self.share[at] = s;
            self.n = n + 1;
            self.sum += cap as u64;
        }
        ans
    }

    fn resize(&mut self, id: u16, cap: u32) -> (u32, u64, usize) {
        let (at, found) = self.rank(id);
        if !found {
            return (5, 0, 0);
        }
        let old = self.cap[at];
        if old == cap {
            return (0, 0, 0);
        }
        self.cap[at] = cap;
        self.sum = self.sum - old as u64 + cap as u64;
        self.shares();
        let ans = self.recut(None);
        if ans.0 == 0 {
            self.settle();
        } else {
            self.cap[at] = old;
            self.sum = self.sum + old as u64 - cap as u64;
        }
        ans
    }
}
