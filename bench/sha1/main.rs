// Measures `sha1::first_word` of crates/sha1, by way of `bench_sha1_chain`, against the same steps in Rust
// (steps.rs), a Rust program written for speed alone (free.rs) and the steps before Wish 3 (sixteen.rs). Each digest
// is of a message that has the word before it, so that none can begin before the one before it has ended. See `run`
// for how this is built and called.
//
//   check N          all give the same word after N digests
//   NAME N           one of them alone, for an instruction counter: ours, steps, free, sixteen
//   time N OTHER     ours and another, each five times, in turn: the best of the five
use std::hint::black_box;
use std::process::exit;
use std::time::Instant;

mod free;
mod sixteen;
mod steps;

extern "C" {
    fn bench_sha1_chain(count: u64) -> u32;
}

fn ours(count: u64) -> u32 {
    // It takes any number and has no other effect than its result.
    unsafe { bench_sha1_chain(count) }
}

// As `bench_sha1_chain` has it.
macro_rules! chain {
    ($name:ident) => {
        #[inline(never)]
        fn $name(count: u64) -> u32 {
            let mut word = 0;
            let mut i = 0;
            while i < count {
                word = $name::first_word(i, word);
                i += 1;
            }
            word
        }
    };
}

chain!(steps);
chain!(free);
chain!(sixteen);

const PROGRAMS: [(&str, fn(u64) -> u32); 4] = [("ours", ours), ("steps", steps), ("free", free), ("sixteen", sixteen)];

fn program(name: &str) -> Option<fn(u64) -> u32> {
    PROGRAMS.iter().find(|p| p.0 == name).map(|p| p.1)
}

fn seconds(f: fn(u64) -> u32, count: u64) -> f64 {
    let start = Instant::now();
    black_box(f(black_box(count)));
    start.elapsed().as_secs_f64()
}

fn main() {
    let args: Vec<String> = std::env::args().collect();
    let usage = || -> ! {
        eprintln!("usage: {} check N | ours|steps|free|sixteen N | time N steps|free|sixteen", args[0]);
        exit(2)
    };
    if args.len() < 3 {
        usage();
    }
    let count: u64 = args[2].parse().unwrap_or_else(|_| usage());
    match (args[1].as_str(), args.len()) {
        ("check", 3) => {
            let word = ours(count);
            for (name, f) in PROGRAMS {
                let other = f(count);
                if other != word {
                    println!("{count} digests: ours {word:08x}, {name} {other:08x}: DIFFERENT");
                    exit(1);
                }
            }
            println!("{count} digests: all give {word:08x}");
        }
        ("time", 4) => {
            let other = program(&args[3]).unwrap_or_else(|| usage());
            let (mut best, mut best_other) = (f64::INFINITY, f64::INFINITY);
            for _ in 0..5 {
                best = best.min(seconds(ours, count));
                best_other = best_other.min(seconds(other, count));
            }
            println!("{best:.3} {best_other:.3} {:.3}", best / best_other);
        }
        (name, 3) => println!("{:08x}", program(name).unwrap_or_else(|| usage())(black_box(count))),
        _ => usage(),
    }
}
