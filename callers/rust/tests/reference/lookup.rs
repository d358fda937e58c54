//! Owners of points, and the copies of a block.

use super::pool::Pool;
use super::sha1;

pub const TRIES: u32 = 256;
pub const COPIES_MOST: u64 = 8;

/// Accepted lookups of copies and their tries.
#[derive(Clone, Copy, Debug, PartialEq, Eq)]
pub struct Tally {
    pub lookups: u32,
    pub tries: u32,
}

/// What a lookup of copies answers.
#[derive(Clone, Copy, Debug, PartialEq, Eq)]
pub struct Copies {
    pub number: u32,
    pub owners: [u64; 8],
    pub tries: u32,
}

pub fn owner(pool: &Pool, point: u64) -> Result<u64, u32> {
    if point >= pool.range {
        return Err(13);
    }
    if pool.devices.is_empty() {
        return Err(10);
    }
    Ok(holder(pool, point))
}

/// The point of a try of a block.
pub fn point(block: u64, try_number: u32, range: u64) -> u64 {
    let mut message = block.to_be_bytes().to_vec();
    message.extend(try_number.to_be_bytes());
    let h = sha1::digest(&message).unwrap()[0];
    point_of_word(h, range)
}

pub fn point_of_word(h: u32, range: u64) -> u64 {
    (u128::from(h) * u128::from(range) / 4_294_967_296) as u64
}

pub fn copies(pool: &Pool, block: u64, k: u64, tally: &mut Tally) -> Copies {
    let refused = |number, tries| Copies { number, owners: [0; 8], tries };
    if k == 0 || k > COPIES_MOST {
        return refused(11, 0);
    }
    if pool.devices.is_empty() {
        return refused(10, 0);
    }
    let mut chosen = Vec::new();
    for t in 0..TRIES {
        let id = holder(pool, point(block, t, pool.range));
        if chosen.contains(&id) {
            continue;
        }
        chosen.push(id);
        if chosen.len() as u64 == k {
            let tries = t + 1;
            tally.lookups = tally.lookups.saturating_add(1);
            tally.tries = tally.tries.saturating_add(tries);
            chosen.resize(8, 0);
            return Copies { number: 0, owners: chosen.try_into().unwrap(), tries };
        }
    }
    refused(12, TRIES)
}

/// The owner of the interval that holds a point of the range: the last that starts at or before it.
fn holder(pool: &Pool, point: u64) -> u64 {
    let begun = pool.table.partition_point(|interval| interval.start <= point);
    pool.table[begun - 1].owner
}
