// Measures `Table::copies` of crates/lookups, by way of `bench_lookups_run`, against the same steps
// in Rust. See `run` for how this is built and called.
//
//   check N         both give the same checksum of the copies of N blocks
//   ours N, rust N  one of the two alone, for an instruction counter
//   time N          each five times, in turn, and the best of the five
use std::hint::black_box;
use std::process::exit;
use std::time::Instant;

#[path = "../sha1/steps.rs"]
mod steps;

extern "C" {
    fn bench_lookups_run(
        starts: *const u32,
        owners: *const u16,
        intervals: usize,
        devices: usize,
        range: u64,
        count: u64,
    ) -> u64;
}

struct Table {
    starts: [u32; 4096],
    owners: [u16; 4096],
    intervals: usize,
    devices: usize,
    range: u64,
}

// 4,096 intervals of one size, of 200 devices.
fn table() -> Table {
    let mut starts = [0; 4096];
    let mut owners = [0; 4096];
    for i in 0..4096 {
        starts[i] = i as u32 * 1048576;
        owners[i] = 1 + (i * 7919 % 200) as u16;
    }
    Table { starts, owners, intervals: 4096, devices: 200, range: 4294967296 }
}

fn ours_run(t: &Table, count: u64) -> u64 {
    // It reads 4,096 numbers from each pointer, takes any, and has no other effect than its result.
    unsafe { bench_lookups_run(t.starts.as_ptr(), t.owners.as_ptr(), t.intervals, t.devices, t.range, count) }
}

fn rust_run(t: &Table, count: u64) -> u64 {
    rust::run(&t.starts, &t.owners, t.intervals, t.devices, t.range, count)
}

mod rust {
    use crate::steps::first_word;

    // The stages of a lookup.

    fn place(starts: &[u32; 4096], n: usize, point: u64) -> usize {
        let mut lo = 0;
        let mut hi = n;
        while lo + 1 < hi {
            let middle = (lo + hi) / 2;
            if starts[middle] as u64 <= point {
                lo = middle;
            } else {
                hi = middle;
            }
        }
        lo
    }

    fn owner_found(starts: &[u32; 4096], owners: &[u16; 4096], n: usize, point: u64) -> u64 {
        let mut most = n;
        if n > 4096 {
            most = 4096;
        }
        if most == 0 {
            return 0;
        }
        let i = place(starts, most, point);
        owners[i] as u64
    }

    fn probe_point(block: u64, probe: u32, range: u64) -> u64 {
        let h = first_word(block, probe) as u64;
        h * range / 4294967296
    }

    fn chosen(owners: &[u16; 8], n: usize, owner: u16) -> bool {
        let mut i = 0;
        while i < n {
            if owners[i] == owner {
                return true;
            }
            i += 1;
        }
        false
    }

    struct Walk {
        owners: [u16; 8],
        found: usize,
        probes: u32,
    }

    fn walk_probes(
        starts: &[u32; 4096],
        owners: &[u16; 4096],
        n: usize,
        range: u64,
        block: u64,
        k: usize,
    ) -> Walk {
        let mut list = [0; 8];
        let mut found = 0;
        let mut t = 0;
        while t < 256 {
            let owner = owner_found(starts, owners, n, probe_point(block, t, range)) as u16;
            t += 1;
            if !chosen(&list, found, owner) {
                list[found] = owner;
                found += 1;
                if found == k {
                    return Walk { owners: list, found, probes: t };
                }
            }
        }
        Walk { owners: list, found, probes: t }
    }

    // The call.

    #[derive(Clone, Copy)]
    struct Counters {
        lookups: u32,
        probes: u32,
    }

    struct CopiesAnswer {
        refusal: u32,
        owners: [u16; 8],
        probes: u32,
        counters: Counters,
    }

    fn raised(x: u32, y: u32) -> u32 {
        if x <= u32::MAX - y { x + y } else { u32::MAX }
    }

    fn refused(refusal: u32, probes: u32, counters: Counters) -> CopiesAnswer {
        CopiesAnswer { refusal, owners: [0; 8], probes, counters }
    }

    fn copies_in(
        starts: &[u32; 4096],
        owners: &[u16; 4096],
        intervals: usize,
        devices: usize,
        range: u64,
        block: u64,
        k: u64,
        counters: Counters,
    ) -> CopiesAnswer {
        if k < 1 {
            return refused(11, 0, counters);
        }
        if k > 8 {
            return refused(11, 0, counters);
        }
        if devices == 0 {
            return refused(10, 0, counters);
        }
        let mut most = range;
        if range > 4294967296 {
            most = 4294967296;
        }
        let walk = walk_probes(starts, owners, intervals, most, block, k as usize);
        if walk.found < k as usize {
            return refused(12, 256, counters);
        }
        let after = Counters {
            lookups: raised(counters.lookups, 1),
            probes: raised(counters.probes, walk.probes),
        };
        CopiesAnswer { refusal: 0, owners: walk.owners, probes: walk.probes, counters: after }
    }

    // Many lookups, with their checksum.

    fn mix(x: u64, y: u64) -> u64 {
        ((x % 72057594037927936) * 251) ^ y
    }

    fn mix_owners(x: u64, owners: &[u16; 8]) -> u64 {
        mix(mix(mix(x, owners[0] as u64), owners[1] as u64), owners[2] as u64)
    }

    #[inline(never)]
    pub fn run(
        starts: &[u32; 4096],
        owners: &[u16; 4096],
        intervals: usize,
        devices: usize,
        range: u64,
        count: u64,
    ) -> u64 {
        let mut counters = Counters { lookups: 0, probes: 0 };
        let mut sum = 0;
        let mut block = 0;
        while block < count {
            let answer = copies_in(starts, owners, intervals, devices, range, block, 3, counters);
            counters = answer.counters;
            sum = mix(sum, answer.refusal as u64);
            sum = mix_owners(sum, &answer.owners);
            sum = mix(sum, answer.probes as u64);
            block += 1;
        }
        mix(mix(sum, counters.lookups as u64), counters.probes as u64)
    }
}

fn seconds(f: fn(&Table, u64) -> u64, t: &Table, count: u64) -> f64 {
    let start = Instant::now();
    black_box(f(black_box(t), black_box(count)));
    start.elapsed().as_secs_f64()
}

fn main() {
    let args: Vec<String> = std::env::args().collect();
    let usage = || -> ! {
        eprintln!("usage: {} check|ours|rust|time N", args[0]);
        exit(2)
    };
    if args.len() != 3 {
        usage();
    }
    let count: u64 = args[2].parse().unwrap_or_else(|_| usage());
    let t = black_box(table());
    match args[1].as_str() {
        "check" => {
            let (ours, rust) = (ours_run(&t, count), rust_run(&t, count));
            if ours != rust {
                println!("{count} blocks: ours {ours:016x}, Rust {rust:016x}: DIFFERENT");
                exit(1);
            }
            println!("{count} blocks: both give {ours:016x}");
        }
        "ours" => println!("{:016x}", ours_run(black_box(&t), black_box(count))),
        "rust" => println!("{:016x}", rust_run(black_box(&t), black_box(count))),
        "time" => {
            let (mut ours, mut rust) = (f64::INFINITY, f64::INFINITY);
            for _ in 0..5 {
                ours = ours.min(seconds(ours_run, &t, count));
                rust = rust.min(seconds(rust_run, &t, count));
            }
            println!("{count} blocks, best of five: ours {ours:.3} s, Rust {rust:.3} s, ours/Rust {:.3}", ours / rust);
        }
        _ => usage(),
    }
}
