//! The calls of `gorvyts.h`: what each returns and leaves in the buffers lent to it.
//!
//! 17 for too few places of an answer, a row or a tally comes first and writes nothing; then 14 to 16; then the
//! call's own numbers; then 17 for a buffer that the result does not fit in.

use super::history;
use super::image;
use super::lookup::{self, Copies, Tally};
use super::pool::{shares, Changed, Pool, Report};

pub const TRANSCRIPT_ROOM: usize = 3_145_728;

const ROW: usize = 10;

pub fn check(bytes: &[u8]) -> u32 {
    image::read(bytes).err().unwrap_or(0)
}

pub fn fresh(range: u64, limit: u64, image: &mut [u8], answer: &mut [u64]) -> u32 {
    answered(answer, || {
        let written = image::write(&Pool::fresh(range, limit)?);
        Ok([put(&written, image)?])
    })
}

pub fn replay(text: &[u8], image: &mut [u8], answer: &mut [u64]) -> u32 {
    answered(answer, || {
        let written = image::write(&history::replay(text)?.pool);
        Ok([put(&written, image)?])
    })
}

pub fn transcript(text: &[u8], out: &mut [u8], answer: &mut [u64]) -> u32 {
    answered(answer, || {
        if out.len() < TRANSCRIPT_ROOM {
            return Err(17);
        }
        Ok([put(history::transcript(text).as_bytes(), out)?])
    })
}

pub fn numbers(bytes: &[u8], answer: &mut [u64]) -> u32 {
    answered(answer, || {
        let pool = image::read(bytes)?;
        Ok([pool.range, pool.limit, pool.devices.len() as u64, pool.table.len() as u64])
    })
}

pub fn share(bytes: &[u8], id: u64, answer: &mut [u64]) -> u32 {
    answered(answer, || Ok([image::read(bytes)?.share(id)?]))
}

pub fn report(bytes: &[u8], id: u64, answer: &mut [u64], difference: &mut i64) -> u32 {
    if answer.len() < 2 {
        return 17;
    }
    let (number, report) = match image::read(bytes).and_then(|pool| pool.report(id)) {
        Ok(report) => (0, report),
        Err(number) => (number, Report { whole: 0, remainder: 0, difference: 0 }),
    };
    answer[..2].copy_from_slice(&[report.whole, report.remainder]);
    *difference = report.difference;
    number
}

pub fn devices(bytes: &[u8], rows: &mut [u64]) -> u32 {
    listed(bytes, rows, |pool| {
        let shares = shares(pool.range, &pool.devices);
        pool.devices.iter().zip(shares).flat_map(|(d, share)| [d.id, d.capacity, share]).collect()
    })
}

pub fn intervals(bytes: &[u8], rows: &mut [u64]) -> u32 {
    listed(bytes, rows, |pool| pool.table.iter().flat_map(|i| [i.start, i.length, i.owner]).collect())
}

/// The rows of a pool, or a number; then the rows stay.
fn listed(bytes: &[u8], rows: &mut [u64], of: impl FnOnce(&Pool) -> Vec<u64>) -> u32 {
    let numbers = match image::read(bytes) {
        Ok(pool) => of(&pool),
        Err(number) => return number,
    };
    if rows.len() < numbers.len() {
        return 17;
    }
    rows[..numbers.len()].copy_from_slice(&numbers);
    0
}

pub fn add(
    bytes: &[u8],
    id: u64,
    capacity: u64,
    next: &mut [u8],
    list: &mut [u64],
    answer: &mut [u64],
) -> u32 {
    change(bytes, |pool, places| pool.add(id, capacity, places), next, list, answer)
}

pub fn remove(bytes: &[u8], id: u64, next: &mut [u8], list: &mut [u64], answer: &mut [u64]) -> u32 {
    change(bytes, |pool, places| pool.remove(id, places), next, list, answer)
}

pub fn resize(
    bytes: &[u8],
    id: u64,
    capacity: u64,
    next: &mut [u8],
    list: &mut [u64],
    answer: &mut [u64],
) -> u32 {
    change(bytes, |pool, places| pool.resize(id, capacity, places), next, list, answer)
}

fn change(
    bytes: &[u8],
    of: impl FnOnce(&Pool, usize) -> Result<Changed, u32>,
    next: &mut [u8],
    list: &mut [u64],
    answer: &mut [u64],
) -> u32 {
    answered(answer, || {
        let pool = image::read(bytes)?;
        let changed = of(&pool, list.len() / 4)?;
        let length = put(&image::write(&changed.pool), next)?;
        for (place, m) in list.chunks_exact_mut(4).zip(&changed.moves) {
            place.copy_from_slice(&[m.start, m.length, m.from, m.to]);
        }
        Ok([length, changed.moved, changed.moves.len() as u64])
    })
}

pub fn owner(bytes: &[u8], point: u64, answer: &mut [u64]) -> u32 {
    answered(answer, || Ok([lookup::owner(&image::read(bytes)?, point)?]))
}

pub fn copies(bytes: &[u8], block: u64, k: u64, tally: &mut [u32], row: &mut [u32]) -> u32 {
    if tally.len() < 2 || row.len() < ROW {
        return 17;
    }
    let copies = match image::read(bytes) {
        Ok(pool) => looked_up(&pool, block, k, tally),
        Err(number) => Copies { number, owners: [0; 8], tries: 0 },
    };
    put_row(copies, &mut row[..ROW]);
    copies.number
}

pub fn copies_of_many(bytes: &[u8], blocks: &[u64], k: u64, tally: &mut [u32], rows: &mut [u32]) -> u32 {
    if tally.len() < 2 || rows.len() / ROW < blocks.len() {
        return 17;
    }
    let pool = match image::read(bytes) {
        Ok(pool) => pool,
        Err(number) => return number,
    };
    for (&block, row) in blocks.iter().zip(rows.chunks_exact_mut(ROW)) {
        put_row(looked_up(&pool, block, k, tally), row);
    }
    0
}

/// The places of the arrays of an opened pool.
const PLACES: usize = 4_096;

pub fn open(bytes: &[u8], starts: &mut [u32], owners: &mut [u16], numbers: &mut [u64]) -> u32 {
    if starts.len() < PLACES || owners.len() < PLACES {
        return 17;
    }
    answered(numbers, || {
        let pool = image::read(bytes)?;
        starts[..PLACES].fill(0);
        owners[..PLACES].fill(0);
        for (i, interval) in pool.table.iter().enumerate() {
            starts[i] = interval.start as u32;
            owners[i] = interval.owner as u16;
        }
        Ok([pool.range, pool.table.len() as u64, pool.devices.len() as u64])
    })
}

fn looked_up(pool: &Pool, block: u64, k: u64, tally: &mut [u32]) -> Copies {
    let mut counters = Tally { lookups: tally[0], tries: tally[1] };
    let copies = lookup::copies(pool, block, k, &mut counters);
    tally[0] = counters.lookups;
    tally[1] = counters.tries;
    copies
}

fn put_row(copies: Copies, row: &mut [u32]) {
    row[0] = copies.number;
    for (place, owner) in row[1..9].iter_mut().zip(copies.owners) {
        *place = owner as u32;
    }
    row[9] = copies.tries;
}

/// The first places of the answer: the results, or zeros on a refusal.
fn answered<const N: usize>(answer: &mut [u64], call: impl FnOnce() -> Result<[u64; N], u32>) -> u32 {
    if answer.len() < N {
        return 17;
    }
    let (number, results) = match call() {
        Ok(results) => (0, results),
        Err(number) => (number, [0; N]),
    };
    answer[..N].copy_from_slice(&results);
    number
}

/// Writes bytes to the beginning of a buffer and gives their number, or 17 where they do not fit.
fn put(bytes: &[u8], buffer: &mut [u8]) -> Result<u64, u32> {
    if bytes.len() > buffer.len() {
        return Err(17);
    }
    buffer[..bytes.len()].copy_from_slice(bytes);
    Ok(bytes.len() as u64)
}
