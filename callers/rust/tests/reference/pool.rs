//! Pools, shares and the six steps of a change; the share rule is that of Wish 4.

use std::collections::BTreeMap;

pub const RANGE_MOST: u64 = 4_294_967_296;
pub const LIMIT_MOST: u64 = 4_096;
pub const ID_MOST: u64 = 65_535;
pub const CAPACITY_MOST: u64 = 16_000_000;
pub const DEVICES_MOST: usize = 256;

#[derive(Clone, Debug, PartialEq, Eq)]
pub struct Pool {
    pub range: u64,
    pub limit: u64,
    /// By rising id.
    pub devices: Vec<Device>,
    /// By rising start.
    pub table: Vec<Interval>,
}

#[derive(Clone, Copy, Debug, PartialEq, Eq)]
pub struct Device {
    pub id: u64,
    /// In thousandths of a TB.
    pub capacity: u64,
}

#[derive(Clone, Copy, Debug, PartialEq, Eq)]
pub struct Interval {
    pub start: u64,
    pub length: u64,
    pub owner: u64,
}

#[derive(Clone, Copy, Debug, PartialEq, Eq)]
pub struct Move {
    pub start: u64,
    pub length: u64,
    pub from: u64,
    pub to: u64,
}

/// An accepted change.
#[derive(Clone, Debug)]
pub struct Changed {
    pub pool: Pool,
    pub moves: Vec<Move>,
    pub moved: u64,
}

/// What a device is exactly due, R × c / C, and how far its share lies from that.
#[derive(Clone, Copy, Debug, PartialEq, Eq)]
pub struct Report {
    pub whole: u64,
    pub remainder: u64,
    pub difference: i64,
}

/// The share of each device, in the order of the devices: how many of its quotients c / 1, c / 2, c / 3 .. are among
/// the first R of all quotients.
///
/// Those that are C / R or more are, of each device, the first R × c / C rounded down. They are at most R and every
/// other is smaller, so that all of them are among the first R. The others are found one by one.
pub fn shares(range: u64, devices: &[Device]) -> Vec<u64> {
    if devices.is_empty() {
        return Vec::new();
    }
    let sum: u64 = devices.iter().map(|d| d.capacity).sum();
    let mut shares: Vec<u64> = devices.iter().map(|d| range * d.capacity / sum).collect();
    let found: u64 = shares.iter().sum();
    for _ in found..range {
        let mut next = 0;
        for i in 1..devices.len() {
            if precedes(devices[i], shares[i] + 1, devices[next], shares[next] + 1) {
                next = i;
            }
        }
        shares[next] += 1;
    }
    shares
}

/// Whether the quotient of one device's capacity by i stands before that of another's by j: the larger one, and of
/// equal ones that of the lower id.
fn precedes(one: Device, i: u64, other: Device, j: u64) -> bool {
    let (crosswise, counterpart) = (one.capacity * j, other.capacity * i);
    crosswise > counterpart || (crosswise == counterpart && one.id < other.id)
}

impl Pool {
    /// A pool without a device, or 2.
    pub fn fresh(range: u64, limit: u64) -> Result<Pool, u32> {
        if !(1..=RANGE_MOST).contains(&range) || !(1..=LIMIT_MOST).contains(&limit) {
            return Err(2);
        }
        Ok(Pool { range, limit, devices: Vec::new(), table: Vec::new() })
    }

    /// The pool that a refused call gives where it makes one.
    pub fn least() -> Pool {
        Pool { range: 1, limit: 1, devices: Vec::new(), table: Vec::new() }
    }

    pub fn has(&self, id: u64) -> bool {
        self.devices.iter().any(|d| d.id == id)
    }

    /// The share of each id.
    pub fn share_of_id(&self) -> BTreeMap<u64, u64> {
        let ids = self.devices.iter().map(|d| d.id);
        ids.zip(shares(self.range, &self.devices)).collect()
    }

    /// The share of one device, or 2 or 5.
    pub fn share(&self, id: u64) -> Result<u64, u32> {
        if !id_allowed(id) {
            return Err(2);
        }
        self.share_of_id().get(&id).copied().ok_or(5)
    }

    /// The report on one device, or 2 or 5.
    pub fn report(&self, id: u64) -> Result<Report, u32> {
        let share = i128::from(self.share(id)?);
        let sum: i128 = self.devices.iter().map(|d| i128::from(d.capacity)).sum();
        let capacity = self.devices.iter().find(|d| d.id == id).ok_or(5u32)?.capacity;
        let due = i128::from(self.range) * i128::from(capacity);
        Ok(Report {
            whole: u64::try_from(due / sum).unwrap(),
            remainder: u64::try_from(due % sum).unwrap(),
            difference: i64::try_from(share * sum - due).unwrap(),
        })
    }

    pub fn add(&self, id: u64, capacity: u64, places: usize) -> Result<Changed, u32> {
        if !id_allowed(id) || !capacity_allowed(capacity) {
            return Err(2);
        }
        if self.has(id) {
            return Err(4);
        }
        if self.devices.len() == DEVICES_MOST {
            return Err(6);
        }
        let mut devices = self.devices.clone();
        devices.push(Device { id, capacity });
        devices.sort_by_key(|d| d.id);
        if self.devices.is_empty() {
            let table = vec![Interval { start: 0, length: self.range, owner: id }];
            let pool = Pool { devices, table, ..*self };
            return Ok(Changed { pool, moves: Vec::new(), moved: 0 });
        }
        self.sliced(devices, places)
    }

    pub fn remove(&self, id: u64, places: usize) -> Result<Changed, u32> {
        if !id_allowed(id) {
            return Err(2);
        }
        if !self.has(id) {
            return Err(5);
        }
        if self.devices.len() == 1 {
            return Err(7);
        }
        let mut devices = self.devices.clone();
        devices.retain(|d| d.id != id);
        self.sliced(devices, places)
    }

    pub fn resize(&self, id: u64, capacity: u64, places: usize) -> Result<Changed, u32> {
        if !id_allowed(id) || !capacity_allowed(capacity) {
            return Err(2);
        }
        if !self.has(id) {
            return Err(5);
        }
        let mut devices = self.devices.clone();
        for device in devices.iter_mut().filter(|d| d.id == id) {
            device.capacity = capacity;
        }
        self.sliced(devices, places)
    }

    /// The six steps from these devices to those given, then 8 and 9.
    fn sliced(&self, devices: Vec<Device>, places: usize) -> Result<Changed, u32> {
        let mut pool = Pool { devices, table: Vec::new(), ..*self };
        let (old, new) = (self.share_of_id(), pool.share_of_id());
        let parts = filled(parts(&self.table, reductions(&old, &new)), reductions(&new, &old));
        pool.table = joined(&parts);
        let moves = moves(&parts);
        if pool.table.len() as u64 > pool.limit {
            return Err(8);
        }
        if moves.len() > places {
            return Err(9);
        }
        let moved = moves.iter().map(|m| m.length).sum();
        Ok(Changed { pool, moves, moved })
    }
}

pub fn id_allowed(id: u64) -> bool {
    (1..=ID_MOST).contains(&id)
}

pub fn capacity_allowed(capacity: u64) -> bool {
    (1..=CAPACITY_MOST).contains(&capacity)
}

#[derive(Clone, Copy, PartialEq, Eq)]
enum Side {
    Start,
    End,
}

impl Side {
    fn other(self) -> Side {
        match self {
            Side::Start => Side::End,
            Side::End => Side::Start,
        }
    }
}

/// A run of points, with its owner before the change and, where it is kept or filled, after it.
#[derive(Clone, Copy)]
struct Part {
    start: u64,
    end: u64,
    old: u64,
    new: Option<u64>,
}

impl Part {
    fn kept(start: u64, end: u64, owner: u64) -> Part {
        Part { start, end, old: owner, new: Some(owner) }
    }

    fn taken(start: u64, end: u64, owner: u64) -> Part {
        Part { start, end, old: owner, new: None }
    }
}

/// Step 1: by how much a device has more by the first shares than by the second. From old to new it is what
/// each must release, from new to old what each needs.
fn reductions(first: &BTreeMap<u64, u64>, second: &BTreeMap<u64, u64>) -> BTreeMap<u64, u64> {
    let by_the_second = |id| second.get(id).copied().unwrap_or(0);
    first.iter().map(|(id, share)| (*id, share.saturating_sub(by_the_second(id)))).collect()
}

/// Steps 2 to 4: the table in parts that are taken or kept.
fn parts(table: &[Interval], mut release: BTreeMap<u64, u64>) -> Vec<Part> {
    let mut flag = Side::End;
    let mut last_gap_end = None;
    let mut parts = Vec::new();
    for &Interval { start, length, owner } in table {
        let left = release.get_mut(&owner).unwrap();
        let end = start + length;
        if *left == 0 {
            parts.push(Part::kept(start, end, owner));
        } else if length <= *left {
            parts.push(Part::taken(start, end, owner));
            *left -= length;
            flag = Side::Start;
            last_gap_end = Some(end);
        } else {
            let cut = *left;
            *left = 0;
            let side = if last_gap_end == Some(start) {
                Side::Start
            } else {
                let named = flag;
                flag = flag.other();
                named
            };
            match side {
                Side::Start => {
                    parts.push(Part::taken(start, start + cut, owner));
                    parts.push(Part::kept(start + cut, end, owner));
                    last_gap_end = Some(start + cut);
                }
                Side::End => {
                    parts.push(Part::kept(start, end - cut, owner));
                    parts.push(Part::taken(end - cut, end, owner));
                    last_gap_end = Some(end);
                }
            }
        }
    }
    parts
}

/// Step 5: the taken points, from the lowest, go to the devices in need, each until it has what it needs.
fn filled(parts: Vec<Part>, needs: BTreeMap<u64, u64>) -> Vec<Part> {
    let mut needs = needs.into_iter().filter(|&(_, need)| need > 0);
    let mut now = needs.next();
    let mut out = Vec::new();
    for part in parts {
        if part.new.is_some() {
            out.push(part);
            continue;
        }
        let mut start = part.start;
        while start < part.end {
            let (id, need) = now.unwrap();
            let given = need.min(part.end - start);
            out.push(Part { start, end: start + given, old: part.old, new: Some(id) });
            start += given;
            now = if given == need { needs.next() } else { Some((id, need - given)) };
        }
    }
    assert!(now.is_none());
    out
}

/// Step 6.
fn joined(parts: &[Part]) -> Vec<Interval> {
    let mut table: Vec<Interval> = Vec::new();
    for part in parts {
        let owner = part.new.unwrap();
        let length = part.end - part.start;
        match table.last_mut() {
            Some(last) if last.owner == owner => last.length += length,
            _ => table.push(Interval { start: part.start, length, owner }),
        }
    }
    table
}

/// The parts whose owner changed, touching ones of equal owners joined.
fn moves(parts: &[Part]) -> Vec<Move> {
    let mut moves: Vec<Move> = Vec::new();
    for part in parts {
        let (from, to) = (part.old, part.new.unwrap());
        if from == to {
            continue;
        }
        let length = part.end - part.start;
        match moves.last_mut() {
            Some(last) if last.start + last.length == part.start && (last.from, last.to) == (from, to) => {
                last.length += length
            }
            _ => moves.push(Move { start: part.start, length, from, to }),
        }
    }
    moves
}
