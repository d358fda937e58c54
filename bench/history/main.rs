// Measures `history::transcript` of crates/history, by way of `bench_history_run`, against the same
// steps in Rust. See `run` for how this is built and called. H is a history: `changes`, `refused` or `none`,
// which is empty.
//
//   check H          both print the same bytes; the lines by their refusals, the intervals at the end
//   ours H, rust H   one of the two alone, for an instruction counter
//   time H           each five times, in turn, and the best of the five
//   text H           the history
mod plans;
mod rules;
#[path = "../shares/steps.rs"]
mod shares;

use std::hint::black_box;
use std::io::Write;
use std::process::exit;
use std::time::Instant;

extern "C" {
    fn bench_history_run(text: *const u8, text_len: usize, out: *mut u8, out_len: usize) -> usize;
}

// The most bytes of a history, and the least of a buffer.
const LONGEST: usize = 65536;
const ROOM: usize = 3145728;

fn ours_run(text: &[u8], out: &mut [u8]) -> usize {
    // It reads the bytes of `text`, takes any, and writes none but those of `out`.
    unsafe { bench_history_run(text.as_ptr(), text.len(), out.as_mut_ptr(), out.len()) }
}

fn rust_run(text: &[u8], out: &mut [u8]) -> usize {
    match rust::transcript(text, out) {
        Ok(n) => n,
        Err(_) => 0,
    }
}

mod text {
    use super::LONGEST;

    // A linear congruential generator modulo 2^64.
    struct Numbers(u64);

    impl Numbers {
        // A number within low to high.
        fn within(&mut self, low: u64, high: u64) -> u64 {
            self.0 = self.0.wrapping_mul(6364136223846793005).wrapping_add(1442695040888963407);
            low + (self.0 >> 33) % (high - low + 1)
        }
    }

    // How many devices are large. With few large ones and small others a change cuts few devices, so that
    // a table does not soon reach its limit.
    const LARGE: usize = 3;

    // The text so far, and the ids of the devices, the large ones first.
    struct Writer {
        numbers: Numbers,
        ids: Vec<u64>,
        text: String,
        refused: usize,
    }

    impl Writer {
        fn line(&mut self, line: &str) {
            self.text.push_str(line);
            self.text.push('\n');
        }

        // A capacity in TB, without a point or with one to three digits behind it.
        fn large(&mut self) -> String {
            let whole = self.numbers.within(500, 999);
            match self.numbers.within(0, 3) {
                0 => format!("{whole}"),
                1 => format!("{whole}.{}", self.numbers.within(0, 9)),
                2 => format!("{whole}.{:02}", self.numbers.within(0, 99)),
                _ => format!("{whole}.{:03}", self.numbers.within(0, 999)),
            }
        }

        fn small(&mut self) -> String {
            format!("0.00{}", self.numbers.within(1, 4))
        }

        fn place(&mut self, low: usize, high: usize) -> usize {
            self.numbers.within(low as u64, high as u64) as usize
        }

        fn absent(&mut self) -> u64 {
            loop {
                let id = self.numbers.within(1, 65535);
                if !self.ids.contains(&id) {
                    return id;
                }
            }
        }

        fn add(&mut self) {
            let id = self.absent();
            let capacity = if self.ids.len() < LARGE { self.large() } else { self.small() };
            self.ids.push(id);
            self.line(&format!("add {id} {capacity}"));
        }

        // Removes a small device, or the last where none is small.
        fn remove(&mut self) {
            let last = self.ids.len() - 1;
            let place = self.place(LARGE.min(last), last);
            let id = self.ids.remove(place);
            self.line(&format!("remove {id}"));
        }

        fn resize(&mut self) {
            let place = self.place(LARGE, self.ids.len() - 1);
            let (id, capacity) = (self.ids[place], self.small());
            self.line(&format!("resize {id} {capacity}"));
        }

        fn resize_large(&mut self) {
            let place = self.place(0, LARGE - 1);
            let (id, capacity) = (self.ids[place], self.large());
            self.line(&format!("resize {id} {capacity}"));
        }

        // A line that is refused, each time another: without a shape, outside the limits, a second range,
        // an id that is present, an id that is absent.
        fn refused(&mut self) {
            let place = self.place(0, self.ids.len() - 1);
            let (present, absent, capacity) = (self.ids[place], self.absent(), self.large());
            let line = match self.refused % 14 {
                0 => format!("add {absent}"),
                1 => format!("add 65536 {capacity}"),
                2 => "range 4294967296 4096".to_string(),
                3 => format!("add {present} {capacity}"),
                4 => format!("resize {absent} {capacity}"),
                5 => format!("resize {present} 1.2345"),
                6 => format!("resize {present} 16000.001"),
                7 => format!("remove {absent}"),
                8 => format!("grow {present} {capacity}"),
                9 => format!("add {absent} 0.000"),
                10 => format!("remove 0{present}"),
                11 => format!("add  {absent} {capacity}"),
                12 => "remove 0".to_string(),
                _ => String::new(),
            };
            self.line(&line);
            self.refused += 1;
        }

        // A line of any kind, that leaves 190 to 210 devices.
        fn any(&mut self) {
            match self.numbers.within(0, 399) {
                0 => self.resize_large(),
                1..=10 => self.refused(),
                11..=90 if self.ids.len() < 210 => self.add(),
                91..=170 if self.ids.len() > 190 => self.remove(),
                _ => self.resize(),
            }
        }

        fn full(&self) -> bool {
            self.text.len() + 1000 > LONGEST
        }

        fn adds(&mut self, high: usize) {
            while self.ids.len() < high && !self.full() {
                self.add();
            }
        }

        fn removes(&mut self, low: usize) {
            while self.ids.len() > low && !self.full() {
                self.remove();
            }
        }

        fn anys(&mut self, count: usize) {
            for _ in 0..count {
                if !self.full() {
                    self.any();
                }
            }
        }
    }

    // A range; adds up to 256 devices, and one more that is refused, and removes down to 200; lines of all
    // kinds; then in turn removes down to one device, adds up to 200 and lines of all kinds; then new
    // capacities of large devices, which soon make too many intervals; then short lines without a shape.
    // 65,536 bytes.
    pub fn changes() -> Vec<u8> {
        let mut w = Writer { numbers: Numbers(9), ids: Vec::new(), text: String::new(), refused: 0 };
        w.line("add 1 1");
        w.line("range 0 4096");
        w.line("range 4294967296 4096");
        w.add();
        let only = w.ids[0];
        w.line(&format!("remove {only}"));
        w.adds(256);
        w.add();
        w.ids.pop();
        w.removes(200);
        w.anys(700);
        while !w.full() {
            w.removes(1);
            w.adds(200);
            w.anys(700);
        }
        while w.text.len() + 21 <= LONGEST {
            w.resize_large();
        }
        while w.text.len() + 4 <= LONGEST {
            w.line("add");
        }
        while w.text.len() < LONGEST {
            w.line("");
        }
        w.text.into_bytes()
    }

    // A range, one device, and empty lines, each refused with 1. 65,536 bytes.
    pub fn refused() -> Vec<u8> {
        let mut text = b"range 4294967296 4096\nadd 1 1\n".to_vec();
        text.resize(LONGEST, b'\n');
        text
    }
}

mod rust {
    use super::{LONGEST, ROOM};
    use crate::plans::{self, fresh, plan, renew, Call, Opened};
    use crate::rules::outside;

    // Numbers and capacities.

    fn find(text: &[u8], byte: u8) -> usize {
        text.iter().position(|&b| b == byte).unwrap_or(text.len())
    }

    fn digits(word: &[u8]) -> Option<u64> {
        let mut value = 0;
        for &byte in word {
            if !byte.is_ascii_digit() {
                return None;
            }
            value = 10 * value + (byte - b'0') as u64;
        }
        Some(value)
    }

    fn number(word: &[u8]) -> Option<u64> {
        let n = word.len();
        if n < 1 || n > 10 || (n > 1 && word[0] == b'0') {
            return None;
        }
        digits(word)
    }

    fn fraction(word: &[u8]) -> Option<u64> {
        let n = word.len();
        if n < 1 || n > 3 {
            return None;
        }
        let value = digits(word)?;
        Some(match n {
            1 => 100 * value,
            2 => 10 * value,
            _ => value,
        })
    }

    fn thousandths(word: &[u8]) -> Option<u64> {
        let end = find(word, b'.');
        let whole = number(&word[..end])?;
        if end == word.len() {
            return Some(1000 * whole);
        }
        Some(1000 * whole + fraction(&word[end + 1..])?)
    }

    fn capacity(word: &[u8]) -> Result<u64, u32> {
        let value = thousandths(word).ok_or(1u32)?;
        if outside(16_000_000, value) {
            return Err(2);
        }
        Ok(value)
    }

    // Lines.

    enum Line {
        Range(u64, u64),
        Add(u64, u64),
        Remove(u64),
        Resize(u64, u64),
    }

    fn range_line(first: &[u8], second: &[u8]) -> Result<Line, u32> {
        let range = number(first).ok_or(1u32)?;
        let limit = number(second).ok_or(1u32)?;
        if outside(4294967296, range) || outside(4096, limit) {
            return Err(2);
        }
        Ok(Line::Range(range, limit))
    }

    fn device_words(first: &[u8], second: &[u8]) -> Result<(u64, u64), u32> {
        let id = number(first).ok_or(1u32)?;
        let value = capacity(second)?;
        if outside(65535, id) {
            return Err(2);
        }
        Ok((id, value))
    }

    fn remove_line(word: &[u8]) -> Result<Line, u32> {
        let id = number(word).ok_or(1u32)?;
        if outside(65535, id) {
            return Err(2);
        }
        Ok(Line::Remove(id))
    }

    fn three_words(key: &[u8], first: &[u8], second: &[u8]) -> Result<Line, u32> {
        match key {
            b"range" => range_line(first, second),
            b"add" => device_words(first, second).map(|(id, value)| Line::Add(id, value)),
            b"resize" => device_words(first, second).map(|(id, value)| Line::Resize(id, value)),
            _ => Err(1),
        }
    }

    fn line(text: &[u8]) -> Result<Line, u32> {
        let end = find(text, b' ');
        if end == text.len() {
            return Err(1);
        }
        let rest = &text[end + 1..];
        let middle = find(rest, b' ');
        if middle == rest.len() {
            if &text[..end] == b"remove" {
                return remove_line(rest);
            }
            return Err(1);
        }
        let tail = &rest[middle + 1..];
        if find(tail, b' ') != tail.len() {
            return Err(1);
        }
        three_words(&text[..end], &rest[..middle], tail)
    }

    // A line, applied.

    // An opened pool, its table, and scratch.
    struct History {
        begun: bool,
        pool: Opened,
        table: [u64; plans::ROOM],
        work: [u64; plans::ROOM],
        next: [u64; plans::ROOM],
    }

    struct LineResult {
        refusal: u32,
        moved: u64,
        count: usize,
    }

    fn refused(refusal: u32) -> LineResult {
        LineResult { refusal, moved: 0, count: 0 }
    }

    fn range_read(history: &mut History, range: u64, limit: u64) -> LineResult {
        if history.begun {
            return refused(3);
        }
        history.begun = true;
        history.pool = fresh(range, limit);
        refused(0)
    }

    fn changed(history: &mut History, call: Call) -> LineResult {
        if !history.begun {
            return refused(3);
        }
        let made = plan(&history.pool, call, 4096, &history.table, &mut history.work, &mut history.next);
        if made.refusal == 0 {
            renew(&mut history.table, &history.next, made.after.intervals);
        }
        history.pool = made.after;
        LineResult { refusal: made.refusal, moved: made.moved, count: made.count }
    }

    fn apply(history: &mut History, text: &[u8]) -> LineResult {
        match line(text) {
            Ok(Line::Range(range, limit)) => range_read(history, range, limit),
            Ok(Line::Add(id, value)) => changed(history, Call::Add(id, value)),
            Ok(Line::Remove(id)) => changed(history, Call::Remove(id)),
            Ok(Line::Resize(id, value)) => changed(history, Call::Resize(id, value)),
            Err(refusal) => refused(refusal),
        }
    }

    // Printing.

    fn put_decimal(out: &mut [u8], place: usize, n: u64) -> usize {
        if n < 10 {
            out[place] = b'0' + n as u8;
            return place + 1;
        }
        let last = put_decimal(out, place, n / 10);
        out[last] = b'0' + (n % 10) as u8;
        last + 1
    }

    // The numbers with a space between each two, and a line end.
    fn put_line<const N: usize>(out: &mut [u8], place: usize, numbers: [u64; N]) -> usize {
        let mut last = place;
        for (i, n) in numbers.into_iter().enumerate() {
            last = put_decimal(out, last, n);
            out[last] = if i + 1 < N { b' ' } else { b'\n' };
            last += 1;
        }
        last
    }

    fn put_text(out: &mut [u8], place: usize, text: &[u8]) -> usize {
        out[place..place + text.len()].copy_from_slice(text);
        place + text.len()
    }

    fn put_table(out: &mut [u8], place: usize, history: &History) -> usize {
        let mut last = put_text(out, place, b"table\n");
        let mut start = 0;
        for i in 0..history.pool.intervals {
            let size = history.table[i] / 65536;
            let row = (history.table[i] % 65536) as usize;
            last = put_line(out, last, [start, size, history.pool.ids[row]]);
            start += size;
        }
        last
    }

    // The transcript.

    fn replay(text: &[u8], out: &mut [u8]) -> usize {
        let mut history = History {
            begun: false,
            pool: fresh(1, 1),
            table: [0; plans::ROOM],
            work: [0; plans::ROOM],
            next: [0; plans::ROOM],
        };
        let mut line = 1;
        let mut from = 0;
        let mut place = 0;
        while from < text.len() {
            let rest = &text[from..];
            let end = find(rest, b'\n');
            let result = if end < rest.len() { apply(&mut history, &rest[..end]) } else { refused(1) };
            place = put_line(out, place, [line, result.refusal as u64, result.moved, result.count as u64]);
            line += 1;
            from += end + 1;
        }
        put_table(out, place, &history)
    }

    #[inline(never)]
    pub fn transcript(text: &[u8], out: &mut [u8]) -> Result<usize, u32> {
        if out.len() < ROOM {
            return Err(17);
        }
        if text.len() > LONGEST {
            return Ok(put_text(out, 0, b"too long\n"));
        }
        Ok(replay(text, out))
    }
}

// A checksum of bytes.
fn checksum(bytes: &[u8]) -> u64 {
    bytes.iter().fold(0, |x, &byte| ((x % 72057594037927936) * 251) ^ byte as u64)
}

// What the lines of a transcript say: how many have each refusal number, accepted lines at 0, and how
// many intervals the table has.
fn counted(printed: &[u8]) -> ([u64; 10], usize) {
    let printed = std::str::from_utf8(printed).unwrap();
    let (lines, table) = printed.split_once("table\n").unwrap();
    let mut refusals = [0; 10];
    for line in lines.lines() {
        let refusal: usize = line.split(' ').nth(1).unwrap().parse().unwrap();
        refusals[refusal] += 1;
    }
    (refusals, table.lines().count())
}

fn check(text: &[u8]) {
    let (mut ours, mut rust) = (vec![0xaa; ROOM], vec![0xaa; ROOM]);
    let (n, m) = (ours_run(text, &mut ours), rust_run(text, &mut rust));
    if n != m || ours != rust {
        println!("{} bytes: ours prints {n} bytes, Rust {m}: DIFFERENT", text.len());
        exit(1);
    }
    let (refusals, intervals) = counted(&rust[..m]);
    let lines: u64 = refusals.iter().sum();
    print!("{} bytes, {lines} lines, {} accepted;", text.len(), refusals[0]);
    for (refusal, count) in refusals.iter().enumerate().skip(1) {
        print!(" {count} refused with {refusal}{}", if refusal < 9 { "," } else { ";" });
    }
    println!(" {intervals} intervals at the end");
    println!("both print the same {n} bytes, checksum {:016x}", checksum(&ours[..n]));
}

fn seconds(f: fn(&[u8], &mut [u8]) -> usize, text: &[u8], out: &mut [u8]) -> f64 {
    let start = Instant::now();
    black_box(f(black_box(text), black_box(out)));
    start.elapsed().as_secs_f64()
}

fn main() {
    let args: Vec<String> = std::env::args().collect();
    let usage = || -> ! {
        eprintln!("usage: {} check|ours|rust|time|text changes|refused|none", args[0]);
        exit(2)
    };
    if args.len() != 3 {
        usage();
    }
    let text = match args[2].as_str() {
        "changes" => text::changes(),
        "refused" => text::refused(),
        "none" => Vec::new(),
        _ => usage(),
    };
    let mut out = vec![0; ROOM];
    match args[1].as_str() {
        "check" => check(&text),
        "ours" => println!("{}", ours_run(black_box(&text), black_box(&mut out))),
        "rust" => println!("{}", rust_run(black_box(&text), black_box(&mut out))),
        "time" => {
            let (mut ours, mut rust) = (f64::INFINITY, f64::INFINITY);
            for _ in 0..5 {
                ours = ours.min(seconds(ours_run, &text, &mut out));
                rust = rust.min(seconds(rust_run, &text, &mut out));
            }
            println!("{}, best of five: ours {ours:.3} s, Rust {rust:.3} s, ours/Rust {:.3}", args[2], ours / rust);
        }
        "text" => std::io::stdout().write_all(&text).unwrap(),
        _ => usage(),
    }
}
