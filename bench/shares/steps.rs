// The share rule with the steps of the crate shares: lower quotas, then a tournament for the points left over.
const NODES: usize = 512;

fn floors(into: &mut [u64; 256], range: u64, capacities: &[u64; 256], n: usize, c: u64) -> u64 {
    let mut left = range;
    for i in 0..n {
        let quota = range * capacities[i] / c;
        into[i] = quota;
        left -= quota;
    }
    left
}

fn winner(points: &[u64; 256], capacities: &[u64; 256], a: usize, b: usize) -> usize {
    let x = capacities[a] * (points[b] + 1);
    let y = capacities[b] * (points[a] + 1);
    if y < x {
        return a;
    }
    if x < y {
        return b;
    }
    if b < a {
        return b;
    }
    a
}

fn leaves(tree: &mut [usize; NODES], n: usize) {
    for i in 0..n {
        tree[n + i] = i;
    }
}

fn play(tree: &mut [usize; NODES], points: &[u64; 256], capacities: &[u64; 256], n: usize) {
    let mut k = n - 1;
    while 0 < k {
        tree[k] = winner(points, capacities, tree[2 * k], tree[2 * k + 1]);
        k -= 1;
    }
}

fn replay(tree: &mut [usize; NODES], points: &[u64; 256], capacities: &[u64; 256], n: usize, w: usize) {
    let mut k = (n + w) / 2;
    while 0 < k {
        tree[k] = winner(points, capacities, tree[2 * k], tree[2 * k + 1]);
        k /= 2;
    }
}

pub fn shares(range: u64, capacities: &[u64; 256], n: usize) -> [u64; 256] {
    let mut c = 0;
    for i in 0..n {
        c += capacities[i];
    }
    let mut points = [0; 256];
    let mut left = floors(&mut points, range, capacities, n, c);
    let mut tree = [0; NODES];
    leaves(&mut tree, n);
    play(&mut tree, &points, capacities, n);
    while 0 < left {
        let w = tree[1];
        points[w] += 1;
        replay(&mut tree, &points, capacities, n, w);
        left -= 1;
    }
    points
}
