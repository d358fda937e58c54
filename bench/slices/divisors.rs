// The shares of document 02, Wish 4, written for speed alone: floors, then the points left over, fewer than there are
// devices, from a heap of the next quotients. Rows stand by rising id.

/// The shares of the devices with the capacities `cap`, whose sum is `c`, into `next`.
#[inline(always)]
pub fn shares(range: u64, cap: &[u32], c: u64, next: &mut [u64]) {
    let n = cap.len();
    let mut left = range;
    for i in 0..n {
        let s = range * cap[i] as u64 / c;
        next[i] = s;
        left -= s;
    }
    if left == 0 {
        return;
    }
    let mut heap = [0u8; 256];
    for i in 0..n {
        heap[i] = i as u8;
    }
    // whether row a's next quotient goes before row b's
    let before = |next: &[u64], a: u8, b: u8| {
        let x = cap[a as usize] as u64 * (next[b as usize] + 1);
        let y = cap[b as usize] as u64 * (next[a as usize] + 1);
        x > y || (x == y && a < b)
    };
    for k in (0..n / 2).rev() {
        sift(&mut heap, n, k, |a, b| before(next, a, b));
    }
    while left > 0 {
        next[heap[0] as usize] += 1;
        left -= 1;
        sift(&mut heap, n, 0, |a, b| before(next, a, b));
    }
}

#[inline(always)]
fn sift(heap: &mut [u8], n: usize, mut k: usize, before: impl Fn(u8, u8) -> bool) {
    loop {
        let mut m = 2 * k + 1;
        if m >= n {
            return;
        }
        if m + 1 < n && before(heap[m + 1], heap[m]) {
            m += 1;
        }
        if !before(heap[m], heap[k]) {
            return;
        }
        heap.swap(m, k);
        k = m;
    }
}
