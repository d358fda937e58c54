//! History text: its lines, what they change, and what `slices` prints.

use super::pool::{capacity_allowed, id_allowed, Changed, Pool};

pub const LONGEST: usize = 65_536;
pub const PLACES: usize = 4_096;

/// A line with its numbers inside their limits.
#[derive(Clone, Debug, PartialEq, Eq)]
pub enum Line {
    Range(Pool),
    Add(u64, u64),
    Remove(u64),
    Resize(u64, u64),
}

/// What became of a line.
#[derive(Clone, Copy, Debug, PartialEq, Eq)]
pub struct Outcome {
    pub number: u32,
    pub moved: u64,
    pub moves: usize,
}

/// A history of at most 65,536 bytes, gone through.
pub struct Replayed {
    pub outcomes: Vec<Outcome>,
    pub pool: Pool,
}

/// A number of the text, or 1.
pub fn number(word: &[u8]) -> Result<u64, u32> {
    let digits = (1..=10).contains(&word.len()) && word.iter().all(u8::is_ascii_digit);
    if !digits || (word[0] == b'0' && word.len() > 1) {
        return Err(1);
    }
    Ok(decimal(word))
}

/// The thousandths that a capacity's text names, or 1.
fn thousandths(word: &[u8]) -> Result<u64, u32> {
    let Some(place) = word.iter().position(|&byte| byte == b'.') else {
        return Ok(1000 * number(word)?);
    };
    let whole = number(&word[..place])?;
    let fraction = &word[place + 1..];
    if !(1..=3).contains(&fraction.len()) || !fraction.iter().all(u8::is_ascii_digit) {
        return Err(1);
    }
    Ok(1000 * whole + decimal(fraction) * 10u64.pow(3 - fraction.len() as u32))
}

/// A capacity in thousandths of a TB, or 1 or 2.
pub fn capacity(word: &[u8]) -> Result<u64, u32> {
    let capacity = thousandths(word)?;
    if capacity_allowed(capacity) {
        Ok(capacity)
    } else {
        Err(2)
    }
}

fn decimal(digits: &[u8]) -> u64 {
    digits.iter().fold(0, |sum, &digit| 10 * sum + u64::from(digit - b'0'))
}

fn id(number: u64) -> Result<u64, u32> {
    if id_allowed(number) {
        Ok(number)
    } else {
        Err(2)
    }
}

/// A line without its line end, or 1 or 2. The shapes of all words come before the limits of any.
pub fn line(bytes: &[u8]) -> Result<Line, u32> {
    let words: Vec<&[u8]> = bytes.split(|&byte| byte == b' ').collect();
    match words[..] {
        [b"range", range, limit] => {
            let (range, limit) = (number(range)?, number(limit)?);
            Ok(Line::Range(Pool::fresh(range, limit)?))
        }
        [b"add", device, size] => {
            let device = number(device)?;
            thousandths(size)?;
            Ok(Line::Add(id(device)?, capacity(size)?))
        }
        [b"remove", device] => Ok(Line::Remove(id(number(device)?)?)),
        [b"resize", device, size] => {
            let device = number(device)?;
            thousandths(size)?;
            Ok(Line::Resize(id(device)?, capacity(size)?))
        }
        _ => Err(1),
    }
}

/// The outcome of each line and the pool at the end, or 2 for more than 65,536 bytes. Before a range line is
/// accepted the pool is the one with R = 1 and M = 1.
pub fn replay(text: &[u8]) -> Result<Replayed, u32> {
    if text.len() > LONGEST {
        return Err(2);
    }
    let mut pool = None;
    let mut outcomes = Vec::new();
    for piece in text.split_inclusive(|&byte| byte == b'\n') {
        let result = match piece.strip_suffix(b"\n") {
            Some(bytes) => line(bytes).and_then(|line| apply(&pool, line)),
            None => Err(1),
        };
        outcomes.push(match result {
            Ok(changed) => {
                pool = Some(changed.pool);
                Outcome { number: 0, moved: changed.moved, moves: changed.moves.len() }
            }
            Err(number) => Outcome { number, moved: 0, moves: 0 },
        });
    }
    Ok(Replayed { outcomes, pool: pool.unwrap_or_else(Pool::least) })
}

fn apply(pool: &Option<Pool>, line: Line) -> Result<Changed, u32> {
    match (line, pool) {
        (Line::Range(pool), None) => Ok(Changed { pool, moves: Vec::new(), moved: 0 }),
        (Line::Range(_), Some(_)) | (_, None) => Err(3),
        (Line::Add(id, capacity), Some(pool)) => pool.add(id, capacity, PLACES),
        (Line::Remove(id), Some(pool)) => pool.remove(id, PLACES),
        (Line::Resize(id, capacity), Some(pool)) => pool.resize(id, capacity, PLACES),
    }
}

/// What `slices` prints.
pub fn transcript(text: &[u8]) -> String {
    let Ok(Replayed { outcomes, pool }) = replay(text) else {
        return "too long\n".to_string();
    };
    let mut out = String::new();
    for (i, Outcome { number, moved, moves }) in outcomes.iter().enumerate() {
        out += &format!("{} {number} {moved} {moves}\n", i + 1);
    }
    out += "table\n";
    for interval in &pool.table {
        out += &format!("{} {} {}\n", interval.start, interval.length, interval.owner);
    }
    out
}
