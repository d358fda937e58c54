//! Pools: their limits, lists of changes, and pools of any table that the rules allow.

use std::collections::BTreeMap;

use super::Random;
use crate::reference::pool::{
    shares, Device, Interval, Pool, CAPACITY_MOST, DEVICES_MOST, ID_MOST, LIMIT_MOST, RANGE_MOST,
};

pub fn range(random: &mut Random) -> u64 {
    match random.below(9) {
        0 => random.between(1, 2),
        1 => random.between(3, 16),
        2 => random.between(17, 300),
        3 | 4 => random.between(301, 6000),
        5 => RANGE_MOST,
        6 => RANGE_MOST - random.below(4),
        7 => 1 << random.below(33),
        _ => random.between(1, RANGE_MOST),
    }
}

pub fn limit(random: &mut Random) -> u64 {
    match random.below(7) {
        0 => random.between(1, 3),
        1 => random.between(4, 40),
        2 => random.between(41, 500),
        3 => random.between(1, LIMIT_MOST),
        _ => LIMIT_MOST,
    }
}

/// How capacities are drawn.
#[derive(Clone, Copy, Debug)]
pub enum Sizes {
    Equal,
    Tiny,
    WholeTerabytes,
    Any,
    LeastOrMost,
    /// Few of the most among many of the least, whose shares are 0 in a small range.
    FewLarge,
}

pub const SIZES: [Sizes; 6] =
    [Sizes::Equal, Sizes::Tiny, Sizes::WholeTerabytes, Sizes::Any, Sizes::LeastOrMost, Sizes::FewLarge];

impl Sizes {
    pub fn capacity(self, random: &mut Random) -> u64 {
        match self {
            Sizes::Equal => 1000,
            Sizes::Tiny => random.between(1, 10),
            Sizes::WholeTerabytes => 1000 * random.between(1, 20),
            Sizes::Any => random.between(1, CAPACITY_MOST),
            Sizes::LeastOrMost => random.pick(&[1, CAPACITY_MOST]),
            Sizes::FewLarge if random.one_in(30) => CAPACITY_MOST,
            Sizes::FewLarge => random.between(1, 3),
        }
    }
}

#[derive(Clone, Copy, Debug)]
pub enum Change {
    Add(u64, u64),
    Remove(u64),
    Resize(u64, u64),
}

/// What a list of changes aims at.
pub struct Plan {
    pub range: u64,
    pub limit: u64,
    /// The number of devices that adds lead to; above 256, adds are tried with 256 present.
    pub devices: usize,
    pub sizes: Sizes,
    pub id_most: u64,
}

impl Plan {
    pub fn new(random: &mut Random) -> Plan {
        if random.one_in(5) {
            return Plan::crowded(random);
        }
        Plan {
            range: range(random),
            limit: limit(random),
            devices: random.pick(&[1, 2, 3, 5, 8, 20, 60, 100]),
            sizes: random.pick(&SIZES),
            id_most: random.pick(&[12, 300, ID_MOST]),
        }
    }

    /// Hundreds of devices. A table has no more intervals than points, so that the limit lets them be present.
    pub fn crowded(random: &mut Random) -> Plan {
        Plan {
            range: random.between(1, LIMIT_MOST + 300),
            limit: LIMIT_MOST - random.pick(&[0, 0, 0, 100]),
            devices: random.pick(&[200, DEVICES_MOST, 300]),
            sizes: random.pick(&SIZES),
            id_most: random.pick(&[300, ID_MOST]),
        }
    }

    /// A change of a pool with these ids, with arguments that are now and then wrong.
    pub fn change(&self, random: &mut Random, ids: &[u64]) -> Change {
        let capacity = self.sizes.capacity(random);
        if ids.is_empty() || (ids.len() < self.devices && !random.one_in(5)) {
            let id = if random.one_in(40) { odd_id(random, ids) } else { self.absent(random, ids) };
            return Change::Add(id, odd_capacity(random, capacity));
        }
        let id = match random.below(24) {
            0 => odd_id(random, ids),
            1 => self.absent(random, ids),
            _ => random.pick(ids),
        };
        match random.below(5) {
            0 => Change::Add(id, odd_capacity(random, capacity)),
            1 if self.devices > DEVICES_MOST => Change::Add(self.absent(random, ids), capacity),
            1 | 2 => Change::Remove(id),
            _ => Change::Resize(id, odd_capacity(random, capacity)),
        }
    }

    /// An id that is absent, unless none is found soon.
    fn absent(&self, random: &mut Random, ids: &[u64]) -> u64 {
        let mut id = random.between(1, self.id_most);
        for _ in 0..20 {
            if !ids.contains(&id) {
                break;
            }
            id = random.between(1, self.id_most);
        }
        id
    }
}

/// An id outside its limits or at their ends; the high bits of some come before an allowed one.
fn odd_id(random: &mut Random, ids: &[u64]) -> u64 {
    let id = if ids.is_empty() { 1 } else { random.pick(ids) };
    random.pick(&[0, 1, ID_MOST, ID_MOST + 1, ID_MOST + 1 + id, (1 << 32) + id, id << 32, u64::MAX])
}

/// Nearly always the capacity given.
fn odd_capacity(random: &mut Random, capacity: u64) -> u64 {
    if random.one_in(30) {
        let high = random.pick(&[1 << 32, 1 << 63]);
        random.pick(&[0, 1, CAPACITY_MOST, CAPACITY_MOST + 1, high + capacity, u64::MAX])
    } else {
        capacity
    }
}

/// A pool of any table that the rules allow, with as many devices.
pub fn composed(random: &mut Random, count: usize) -> Pool {
    let sizes = random.pick(&SIZES);
    let range = range(random);
    let id_most = random.pick(&[300, ID_MOST]);
    let mut by_id = BTreeMap::new();
    while by_id.len() < count {
        by_id.insert(random.between(1, id_most), sizes.capacity(random));
    }
    let devices: Vec<Device> = by_id.into_iter().map(|(id, capacity)| Device { id, capacity }).collect();
    let table = pieces(random, &devices, &shares(range, &devices));
    let intervals = table.len() as u64;
    let limit = match random.below(3) {
        0 => intervals.max(1),
        1 => intervals + random.below(LIMIT_MOST - intervals + 1).max(1),
        _ => LIMIT_MOST,
    };
    Pool { range, limit: limit.min(LIMIT_MOST), devices, table }
}

/// A pool of two devices whose points change hands at each point.
pub fn alternating(intervals: u64) -> Pool {
    let devices = vec![Device { id: 1, capacity: 7 }, Device { id: 2, capacity: 7 }];
    let table = (0..intervals).map(|start| Interval { start, length: 1, owner: 1 + start % 2 }).collect();
    Pool { range: intervals, limit: intervals, devices, table }
}

/// A pool of 4,096 intervals and an add that takes from each of them: a device's short intervals come first, the
/// long rest of its share last. So it has as many moves as intervals, and no change has more: what takes from several
/// devices gives to one, and what gives to several takes from one, which owns at most every second interval.
pub fn swept(random: &mut Random) -> (Pool, Change) {
    let range = random.between(200_000, 400_000);
    let capacity = random.between(2_000, 4_000);
    let devices: Vec<Device> =
        (1..=240).map(|i| Device { id: 200 * i + random.below(200), capacity }).collect();
    let mut left: BTreeMap<u64, u64> =
        devices.iter().map(|device| device.id).zip(shares(range, &devices)).collect();
    let mut ids: Vec<u64> = left.keys().copied().collect();
    random.shuffle(&mut ids);
    let mut pieces: Vec<(u64, u64)> = Vec::new();
    for &owner in ids.iter().cycle().take(LIMIT_MOST as usize - ids.len()) {
        let length = random.between(1, 8);
        pieces.push((owner, length));
        *left.get_mut(&owner).unwrap() -= length;
    }
    // After a piece of another device, so that no two are joined.
    let next = pieces.len() % ids.len();
    ids.rotate_left(next);
    pieces.extend(ids.iter().map(|&owner| (owner, left[&owner])));
    let sum: u64 = devices.iter().map(|device| device.capacity).sum();
    let id = random.pick(&[7, 60_000]);
    let pool = Pool { range, limit: LIMIT_MOST, devices, table: in_a_row(pieces) };
    (pool, Change::Add(id, sum * random.between(30, 40) / 100))
}

/// A pool, and what it is with a table of the shares of before Wish 4; these are others.
pub fn by_both_rules(random: &mut Random) -> (Pool, Pool) {
    loop {
        let count = random.pick(&[2, 3, 4, 6, 12, 60, 256]);
        let pool = Pool { limit: LIMIT_MOST, ..composed(random, count) };
        let before = largest_remainder(pool.range, &pool.devices);
        if before != shares(pool.range, &pool.devices) {
            let table = pieces(random, &pool.devices, &before);
            return (pool.clone(), Pool { table, ..pool });
        }
    }
}

/// The share rule of document 01, which Wish 4 replaced: R × c / C rounded down, and the points left over one each to
/// the devices with the largest R × c mod C, equal ones to the lower id.
fn largest_remainder(range: u64, devices: &[Device]) -> Vec<u64> {
    let sum: u64 = devices.iter().map(|d| d.capacity).sum();
    let mut shares: Vec<u64> = devices.iter().map(|d| range * d.capacity / sum).collect();
    let left_over = range - shares.iter().sum::<u64>();
    let mut order: Vec<usize> = (0..devices.len()).collect();
    order.sort_by_key(|&i| {
        let remainder = range * devices[i].capacity % sum;
        (std::cmp::Reverse(remainder), devices[i].id)
    });
    for &i in order.iter().take(left_over as usize) {
        shares[i] += 1;
    }
    shares
}

/// Shares of the devices in pieces of any length and order, at most 4,096 of them.
fn pieces(random: &mut Random, devices: &[Device], shares: &[u64]) -> Vec<Interval> {
    if devices.is_empty() {
        return Vec::new();
    }
    let most = LIMIT_MOST / devices.len() as u64;
    let each = random.pick(&[1, 2, most / 3 + 1, most]).min(most);
    let single_points = random.one_in(3);
    let mut pieces = Vec::new();
    for (device, &share) in devices.iter().zip(shares) {
        let mut left = share;
        for _ in 1..each {
            let length = if single_points { 1 } else { random.between(1, share / each + 1) };
            if left > length {
                pieces.push((device.id, length));
                left -= length;
            }
        }
        if left > 0 {
            pieces.push((device.id, left));
        }
    }
    random.shuffle(&mut pieces);
    in_a_row(pieces)
}

/// The table of owners and lengths from point 0 on, neighbours with one owner joined.
fn in_a_row(pieces: Vec<(u64, u64)>) -> Vec<Interval> {
    let mut table: Vec<Interval> = Vec::new();
    let mut start = 0;
    for (owner, length) in pieces {
        match table.last_mut() {
            Some(last) if last.owner == owner => last.length += length,
            _ => table.push(Interval { start, length, owner }),
        }
        start += length;
    }
    table
}
