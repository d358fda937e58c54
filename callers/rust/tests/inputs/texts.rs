//! Histories with valid and damaged lines, short and long.

use super::pools::{Change, Plan};
use super::Random;
use crate::reference::pool::id_allowed;

pub const LONGEST: usize = 65_536;

/// A history of at most some hundred lines.
pub fn text(random: &mut Random) -> Vec<u8> {
    match random.below(16) {
        0 => {
            let length = random.index(60);
            random.bytes(length)
        }
        1 => {
            let length = random.index(200);
            (0..length).map(|_| random.pick(b"range add remove resize 0123456789 .,\n\n")).collect()
        }
        2 => {
            let plan = Plan::crowded(random);
            let damage = random.pick(&[0, 30]);
            ended(random, &plan, 450, damage)
        }
        _ => {
            let plan = Plan::new(random);
            let lines = random.pick(&[0, 1, 2, 3, 8, 20, 60, 150]);
            let damage = random.pick(&[0, 30, 8, 2, 1]);
            ended(random, &plan, lines, damage)
        }
    }
}

/// A history whose length is about the longest, or exactly at its edge.
pub fn long_text(random: &mut Random) -> Vec<u8> {
    let size = match random.below(8) {
        0 => LONGEST - 1,
        1 | 2 => LONGEST + 1,
        3 => LONGEST + 1 + random.index(5000),
        4 => 3 * LONGEST,
        _ => LONGEST,
    };
    let plan = Plan::new(random);
    let damage = random.pick(&[0, 30, 8]);
    let mut text = lines(random, &plan, 20_000, damage, size - 40);
    while text.len() < size - 1 {
        text.push(b'x');
    }
    text.push(if random.one_in(4) { b'x' } else { b'\n' });
    text
}

/// Lines of a history; now and then the text is cut or some of its bytes are changed.
fn ended(random: &mut Random, plan: &Plan, count: usize, damage: u64) -> Vec<u8> {
    let mut text = lines(random, plan, count, damage, LONGEST);
    match random.below(8) {
        0 => {
            text.pop();
        }
        1 => {
            let length = random.index(text.len() + 1);
            text.truncate(length);
        }
        2 if !text.is_empty() => {
            for _ in 0..random.between(1, 4) {
                let place = random.index(text.len());
                text[place] = random.next() as u8;
            }
        }
        _ => {}
    }
    text
}

/// So many lines, or as many as fit. Of every `damage` lines one is damaged, of 0 none.
fn lines(random: &mut Random, plan: &Plan, count: usize, damage: u64, size: usize) -> Vec<u8> {
    // A line that lacks its range line is refused, so this is rare.
    let range_line = if random.one_in(20) { random.index(count + 1) } else { 0 };
    let mut ids: Vec<u64> = Vec::new();
    let mut text = Vec::new();
    for i in 0..count {
        let mut line = if i == range_line || random.one_in(100) {
            format!("range {} {}", plan.range, plan.limit).into_bytes()
        } else {
            // The ids are those that would be present if every line were accepted.
            let change = plan.change(random, &ids);
            match change {
                Change::Add(id, _) if id_allowed(id) && !ids.contains(&id) && ids.len() < 256 => ids.push(id),
                Change::Remove(id) if ids.len() > 1 => ids.retain(|&present| present != id),
                _ => {}
            }
            change_line(random, change)
        };
        if damage > 0 && random.one_in(damage) && (i != range_line || random.one_in(4)) {
            line = damaged(random, line);
        }
        if text.len() + line.len() + 1 > size {
            break;
        }
        text.extend(line);
        text.push(b'\n');
    }
    text
}

fn change_line(random: &mut Random, change: Change) -> Vec<u8> {
    match change {
        Change::Add(id, capacity) => format!("add {id} {}", terabytes(random, capacity)),
        Change::Remove(id) => format!("remove {id}"),
        Change::Resize(id, capacity) => format!("resize {id} {}", terabytes(random, capacity)),
    }
    .into_bytes()
}

/// A capacity as text, with or without zeros that it can lack.
fn terabytes(random: &mut Random, capacity: u64) -> String {
    let whole = capacity / 1000;
    let mut fraction = format!("{:03}", capacity % 1000);
    while random.one_in(2) && fraction.ends_with('0') {
        fraction.pop();
    }
    if fraction.is_empty() {
        format!("{whole}")
    } else {
        format!("{whole}.{fraction}")
    }
}

fn damaged(random: &mut Random, mut line: Vec<u8>) -> Vec<u8> {
    let place = random.index(line.len());
    let words: Vec<Vec<u8>> = line.split(|&byte| byte == b' ').map(<[u8]>::to_vec).collect();
    match random.below(15) {
        0 => line[place] = random.next() as u8,
        1 => {
            line.remove(place);
        }
        2 => line.insert(place, random.next() as u8),
        3 => line.truncate(place),
        4 => line = replaced(random, &words, |_, word| [b" ", word].concat()),
        5 => line = replaced(random, &words, |_, word| [b"0", word].concat()),
        6 => {
            for byte in line.iter_mut().filter(|byte| **byte == b'.') {
                *byte = b',';
            }
        }
        7 | 8 => line = replaced(random, &words, |random, _| random.pick(NUMBERS).as_bytes().to_vec()),
        9 | 10 => line = replaced(random, &words, |random, _| random.pick(CAPACITIES).as_bytes().to_vec()),
        11 => {
            let more = random.pick(&[" ", "\t", "\r", "\0", " 1", ".", ".5", "e", "\u{e9}"]);
            line.extend(more.as_bytes());
        }
        12 => line.insert(0, random.pick(b" \t\rx+")),
        13 => line = random.pick(LINES).as_bytes().to_vec(),
        _ => {
            let length = random.index(30);
            line = random.bytes(length);
        }
    }
    line
}

/// The line with one word replaced, seldom the first.
fn replaced(
    random: &mut Random,
    words: &[Vec<u8>],
    with: impl FnOnce(&mut Random, &[u8]) -> Vec<u8>,
) -> Vec<u8> {
    let which = if random.one_in(6) { 0 } else { random.index(words.len()) };
    let mut words = words.to_vec();
    words[which] = with(random, &words[which]);
    words.join(&b' ')
}

#[rustfmt::skip]
const NUMBERS: &[&str] = &[
    "0", "00", "1", "01", "4096", "4097", "65535", "65536", "65537", "4294967295", "4294967296", "4294967297",
    "9999999999", "10000000000", "4294967297000", "18446744073709551615", "18446744073709551617",
    "99999999999999999999999999", "-1", "+1", "1.0", "1,0", "0x1", "1e3", "one", "",
];

#[rustfmt::skip]
const CAPACITIES: &[&str] = &[
    "0", "0.0", "0.000", "0.001", "0.0001", "0.01", "00.1", "01", ".5", "5.", "5..5", "5.5.5", "1.2e", "1,5",
    "1000", "1000.0", "1000.000", "1000.001", "1001", "999.999", "15999.999", "16000", "16000.0", "16000.000",
    "16000.001", "16000.01", "16001", "9999999999", "9999999999.999", "10000000000",
    "4294967.296", "4294967.297", "18446744073709551.617", "+1", "-1", "1 ", "1.5 ", "1.5\r", "1.0000", "1.-5",
];

#[rustfmt::skip]
const LINES: &[&str] = &[
    "", " ", "range", "range ", "range 1", "range 1 1 1", "range  1 1", "range 0 1", "range 1 0",
    "range 4294967296 4096", "range 4294967297 1", "range 1 4097", "Range 100 16", "RANGE 100 16", "add", "add 1",
    "add 1 1 1", "add 0 1", "add 65536 1", "add 1 0", "Add 1 1", "add\t1\t1", "remove", "remove 0", "remove 65536",
    "remove 1 1", "resize", "resize 1", "resize 1 0", "resize 0 1", "ranges 1 1", "adding 1 1", "removed 1", "table",
];
