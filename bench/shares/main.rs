// Measures the share rule of crates/shares, by way of `bench_shares`, against the same steps in Rust (steps.rs) and a
// Rust program written for speed alone (bench/slices/divisors.rs), and beside them the rule before Wish 4, largest
// remainder, by way of `bench_shares_before`. Capacities are random. See `run` for how this is built and called.
//
//   check N ROUNDS         ours, steps and free give the same shares of N devices, ROUNDS times
//   NAME N ROUNDS          one of them alone, for an instruction counter: ours, steps, free, before; none makes the rounds only
//   time N ROUNDS OTHER    ours and another, each five times, in turn, all rounds 50 times: the best of the five
use std::hint::black_box;
use std::process::exit;
use std::time::Instant;

#[path = "../slices/divisors.rs"]
mod free;
mod steps;

type Row = [u64; 256];

extern "C" {
    fn bench_shares(into: *mut Row, range: u64, ids: *const Row, capacities: *const Row, n: usize);
    fn bench_shares_before(into: *mut Row, range: u64, ids: *const Row, capacities: *const Row, n: usize);
}

// The devices of a round: ids 1 to n, capacities from 1 to 16,000,000, a range near the largest.
struct Pool {
    range: u64,
    ids: Row,
    capacities: Row,
    small: [u32; 256],
    n: usize,
}

fn pool(n: usize, round: u64) -> Pool {
    let mut seed = 12_345 + round;
    let mut random = || {
        seed = seed * 48_271 % 2_147_483_647;
        seed
    };
    let mut p = Pool { range: 4_294_967_296 - random() % 65_536, ids: [0; 256], capacities: [0; 256], small: [0; 256], n };
    for i in 0..n {
        p.ids[i] = i as u64 + 1;
        p.capacities[i] = 1 + random() % 16_000_000;
        p.small[i] = p.capacities[i] as u32;
    }
    p
}

fn ours(p: &Pool, into: &mut Row) {
    // What it requires: 1 to 256 devices within their limits, ids that rise, a range of at most 2^32.
    unsafe { bench_shares(into, p.range, &p.ids, &p.capacities, p.n) }
}

fn before(p: &Pool, into: &mut Row) {
    unsafe { bench_shares_before(into, p.range, &p.ids, &p.capacities, p.n) }
}

#[inline(never)]
fn steps(p: &Pool, into: &mut Row) {
    *into = steps::shares(p.range, &p.capacities, p.n);
}

#[inline(never)]
fn free(p: &Pool, into: &mut Row) {
    let sum = p.small[..p.n].iter().map(|c| *c as u64).sum();
    free::shares(p.range, &p.small[..p.n], sum, &mut into[..p.n]);
}

fn none(_: &Pool, _: &mut Row) {}

const PROGRAMS: [(&str, fn(&Pool, &mut Row)); 5] =
    [("ours", ours), ("steps", steps), ("free", free), ("before", before), ("none", none)];

fn program(name: &str) -> Option<fn(&Pool, &mut Row)> {
    PROGRAMS.iter().find(|p| p.0 == name).map(|p| p.1)
}

fn run(f: fn(&Pool, &mut Row), pools: &[Pool]) {
    let mut into = [0; 256];
    for p in pools {
        f(black_box(p), &mut into);
        black_box(&into);
    }
}

fn seconds(f: fn(&Pool, &mut Row), pools: &[Pool]) -> f64 {
    let start = Instant::now();
    for _ in 0..50 {
        run(f, pools);
    }
    start.elapsed().as_secs_f64()
}

fn check(pools: &[Pool]) {
    let (mut x, mut y, mut z) = ([0; 256], [0; 256], [0; 256]);
    for p in pools {
        ours(p, &mut x);
        steps(p, &mut y);
        free(p, &mut z);
        if x[..p.n] != y[..p.n] || x[..p.n] != z[..p.n] || x[..p.n].iter().sum::<u64>() != p.range {
            eprintln!("the shares differ");
            exit(1);
        }
    }
}

fn main() {
    let args: Vec<String> = std::env::args().collect();
    let usage = || -> ! {
        eprintln!("usage: shares check|ours|steps|free|before|none N ROUNDS, shares time N ROUNDS OTHER");
        exit(2);
    };
    if args.len() < 4 {
        usage();
    }
    let (Ok(n), Ok(rounds)) = (args[2].parse::<usize>(), args[3].parse::<u64>()) else { usage() };
    if n < 1 || n > 256 {
        usage();
    }
    let pools: Vec<Pool> = (0..rounds).map(|r| pool(n, r)).collect();
    match (args[1].as_str(), args.len()) {
        ("check", 4) => check(&pools),
        ("time", 5) => {
            let Some(other) = program(&args[4]) else { usage() };
            let (mut a, mut b) = (f64::MAX, f64::MAX);
            for _ in 0..5 {
                a = a.min(seconds(ours, &pools));
                b = b.min(seconds(other, &pools));
            }
            println!("{:.4} {:.4} {:.3}", a, b, a / b);
        }
        (name, 4) => match program(name) {
            Some(f) => run(f, &pools),
            None => usage(),
        },
        _ => usage(),
    }
}
