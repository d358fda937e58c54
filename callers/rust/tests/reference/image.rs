//! The bytes of a pool, in version 2, which Wish 4 brought.

use std::collections::BTreeMap;

use super::pool::{
    capacity_allowed, id_allowed, Device, Interval, Pool, DEVICES_MOST, LIMIT_MOST, RANGE_MOST,
};

pub const MARK: &[u8] = b"RSL";
pub const VERSION: u64 = 2;
pub const HEAD: usize = 19;

/// The image of a pool. Values past the width of their place lose their highest bytes, which no valid pool has.
pub fn write(pool: &Pool) -> Vec<u8> {
    let mut bytes = MARK.to_vec();
    let mut put = |number: u64, width: usize| bytes.extend(&number.to_be_bytes()[8 - width..]);
    put(VERSION, 2);
    put(pool.range, 8);
    put(pool.limit, 2);
    put(pool.devices.len() as u64, 2);
    put(pool.table.len() as u64, 2);
    for device in &pool.devices {
        put(device.id, 2);
        put(device.capacity, 4);
    }
    for interval in &pool.table {
        put(interval.start, 4);
        put(interval.owner, 2);
    }
    bytes
}

/// The pool that an image describes, or 14, 15 or 16.
pub fn read(bytes: &[u8]) -> Result<Pool, u32> {
    if bytes.len() < HEAD || &bytes[..3] != MARK {
        return Err(14);
    }
    if number(&bytes[3..5]) != VERSION {
        return Err(15);
    }
    let range = number(&bytes[5..13]);
    let limit = number(&bytes[13..15]);
    let n = number(&bytes[15..17]) as usize;
    let q = number(&bytes[17..19]) as usize;
    if bytes.len() != HEAD + 6 * n + 6 * q {
        return Err(16);
    }
    let (device_rows, interval_rows) = bytes[HEAD..].split_at(6 * n);
    let devices: Vec<Device> = device_rows
        .chunks_exact(6)
        .map(|row| Device { id: number(&row[..2]), capacity: number(&row[2..]) })
        .collect();
    let starts: Vec<u64> = interval_rows.chunks_exact(6).map(|row| number(&row[..4])).collect();
    let owners = interval_rows.chunks_exact(6).map(|row| number(&row[4..]));

    // An interval runs to the next start, the last one to R, and has at least one point.
    let ends: Vec<u64> = starts.iter().skip(1).copied().chain([range]).collect();
    if starts.iter().zip(&ends).any(|(start, end)| start >= end) {
        return Err(16);
    }
    let table = starts
        .iter()
        .zip(&ends)
        .zip(owners)
        .map(|((&start, &end), owner)| Interval { start, length: end - start, owner })
        .collect();
    let pool = Pool { range, limit, devices, table };
    if valid(&pool) {
        Ok(pool)
    } else {
        Err(16)
    }
}

/// The rules of pool and shares, for intervals that follow one another up to R.
fn valid(pool: &Pool) -> bool {
    let Pool { range, limit, devices, table } = pool;
    let limits = (1..=RANGE_MOST).contains(range)
        && (1..=LIMIT_MOST).contains(limit)
        && devices.len() <= DEVICES_MOST
        && table.len() as u64 <= *limit;
    let devices_right = devices.iter().all(|d| id_allowed(d.id) && capacity_allowed(d.capacity))
        && devices.windows(2).all(|two| two[0].id < two[1].id);
    if !limits || !devices_right {
        return false;
    }
    if devices.is_empty() {
        return table.is_empty();
    }
    let covered = table.first().is_some_and(|interval| interval.start == 0);
    let joined = table.windows(2).all(|two| two[0].owner != two[1].owner);
    let mut owned: BTreeMap<u64, u64> = devices.iter().map(|d| (d.id, 0)).collect();
    for interval in table {
        let Some(points) = owned.get_mut(&interval.owner) else {
            return false;
        };
        *points += interval.length;
    }
    covered && joined && owned == pool.share_of_id()
}

/// A number with its highest byte first.
fn number(bytes: &[u8]) -> u64 {
    bytes.iter().fold(0, |sum, &byte| 256 * sum + u64::from(byte))
}
