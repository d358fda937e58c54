//! Images that are damaged, or changed so that the rules may still allow them.

use super::pools::{alternating, composed};
use super::Random;
use crate::reference::image;
use crate::reference::pool::{Device, Interval, Pool, CAPACITY_MOST, LIMIT_MOST, RANGE_MOST};

/// The image of a pool, damaged in one of many ways.
pub fn damaged(random: &mut Random, pool: &Pool) -> Vec<u8> {
    let mut bytes = image::write(pool);
    match random.below(14) {
        0 | 1 => {
            let place = random.index(bytes.len());
            bytes[place] ^= random.between(1, 255) as u8;
        }
        2 => {
            let place = random.index(image::HEAD);
            bytes[place] ^= 1 << random.below(8);
        }
        3 => {
            let length = random.index(bytes.len());
            bytes.truncate(length);
        }
        4 => {
            bytes.pop();
        }
        5 => {
            let count = random.pick(&[1, 6, 12, 300]);
            bytes.extend(random.bytes(count));
        }
        6 => {
            bytes[3..5].copy_from_slice(&random.pick(&[[0, 0], [0, 1], [0, 3], [1, 0], [2, 1], [255, 255]]));
        }
        7 => {
            let length = random.index(100);
            bytes = random.bytes(length);
        }
        8 => {
            let length = 5 + random.index(100);
            bytes = random.bytes(length);
            bytes[..5].copy_from_slice(b"RSL\0\x02");
        }
        9 => {
            // Counts that do not go with the length, or that trade devices for intervals.
            let place = random.pick(&[15, 17]);
            let more = random.pick(&[1, 65_535, 256, 43_690]);
            add_at(&mut bytes, place, more);
            if random.one_in(2) {
                add_at(&mut bytes, 32 - place, 65_536 - more);
            }
        }
        _ => bytes = image::write(&faulty(random, pool)),
    }
    bytes
}

fn add_at(bytes: &mut [u8], place: usize, more: u64) {
    let number = u16::from_be_bytes([bytes[place], bytes[place + 1]]).wrapping_add(more as u16);
    bytes[place..place + 2].copy_from_slice(&number.to_be_bytes());
}

/// A pool with one thing changed that a rule is about.
fn faulty(random: &mut Random, pool: &Pool) -> Pool {
    let mut pool = pool.clone();
    if pool.devices.is_empty() {
        match random.below(4) {
            0 => pool.table.push(Interval { start: 0, length: pool.range, owner: 1 }),
            1 => pool.devices.push(Device { id: 1, capacity: 1 }),
            2 => pool.range = random.pick(&[0, 1, RANGE_MOST, RANGE_MOST + 1, 1 << 33, u64::MAX]),
            _ => pool.limit = random.pick(&[0, 1, LIMIT_MOST, LIMIT_MOST + 1, 65_535]),
        }
        return pool;
    }
    let device = random.index(pool.devices.len());
    let interval = random.index(pool.table.len());
    let other = random.index(pool.table.len());
    match random.below(22) {
        0 => pool.range = random.pick(&[0, pool.range + 1, pool.range - 1, pool.range ^ (1 << 32), 1 << 40]),
        1 => pool.limit = random.pick(&[0, pool.table.len() as u64 - 1, LIMIT_MOST + 1, 65_535]),
        2 => pool.limit = pool.table.len() as u64,
        3 => pool.table[interval].start += 1,
        4 => pool.table[interval].start = pool.table[interval].start.wrapping_sub(1),
        5 => {
            let Interval { start, length, owner } = pool.table[interval];
            let cut = length / 2;
            pool.table.insert(interval + 1, Interval { start: start + cut, length: length - cut, owner });
        }
        6 => {
            let with = random.index(pool.devices.len());
            pool.devices.swap(device, with);
        }
        7 => pool.devices.insert(device, pool.devices[device]),
        8 => pool.devices[device].id = random.pick(&[0, 1, 65_535]),
        9 => {
            pool.devices[device].capacity =
                random.pick(&[0, 1, CAPACITY_MOST, CAPACITY_MOST + 1, 0xffff_ffff])
        }
        10 => pool.devices[device].capacity += 1,
        11 => pool.table[interval].owner = pool.devices[device].id,
        12 => pool.table[interval].owner = random.below(65_536),
        13 => {
            pool.devices.remove(device);
        }
        14 => {
            pool.table.remove(interval);
        }
        15 => pool.table.clear(),
        16 => pool.devices.clear(),
        17 => {
            // Two intervals of equal length may change owners.
            let owner = pool.table[interval].owner;
            pool.table[interval].owner = pool.table[other].owner;
            pool.table[other].owner = owner;
        }
        18 => {
            let start = pool.table[interval].start;
            pool.table[interval].start = pool.table[other].start;
            pool.table[other].start = start;
        }
        19 => {
            // Shares stay if no capacity passes its limit.
            for device in &mut pool.devices {
                device.capacity *= 2;
            }
        }
        20 => pool.table[interval].start = random.pick(&[pool.range - 1, pool.range, pool.range + 1]),
        // Right but for 257 devices, or for 4,097 intervals.
        _ if random.one_in(2) => pool = composed(random, 257),
        _ => {
            pool = alternating(LIMIT_MOST + 1);
            pool.limit -= random.below(2);
        }
    }
    pool
}
