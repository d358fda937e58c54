// The steps of crates/six_steps, opened and plans: a change of an opened pool, worked out by device row.
// A run is one number, size × 65,536 + row; a piece has 256 more where it is taken; a turn is old × 256 +
// new.
use crate::rules::{cut_interval, delete_row, insert_row, outside};
use crate::shares::shares;

// Two runs for each of 4,096 intervals, and one for each of 256 devices.
pub const ROOM: usize = 8448;

#[derive(Clone, Copy)]
pub struct Opened {
    pub range: u64,
    pub limit: u64,
    pub devices: usize,
    pub ids: [u64; 256],
    pub capacities: [u64; 256],
    pub has: [u64; 256],
    pub intervals: usize,
}

pub enum Call {
    Add(u64, u64),
    Remove(u64),
    Resize(u64, u64),
}

pub struct Plan {
    pub refusal: u32,
    pub moved: u64,
    pub count: usize,
    pub after: Opened,
}

// The rows that take part in a change, what each is to have, and the row that goes, or 256.
struct Rows {
    count: usize,
    gone: usize,
    has: [u64; 256],
    due: [u64; 256],
}

pub fn fresh(range: u64, limit: u64) -> Opened {
    Opened { range, limit, devices: 0, ids: [0; 256], capacities: [0; 256], has: [0; 256], intervals: 0 }
}

// The six steps.

fn put(into: &mut [u64; ROOM], n: usize, size: u64, label: u64) -> usize {
    if size == 0 {
        return n;
    }
    into[n] = size * 65536 + label;
    n + 1
}

fn push(into: &mut [u64; ROOM], n: usize, size: u64, label: u64) -> usize {
    if size == 0 {
        return n;
    }
    if n > 0 && into[n - 1] % 65536 == label {
        into[n - 1] += size * 65536;
        return n;
    }
    into[n] = size * 65536 + label;
    n + 1
}

fn quotas(rows: &Rows, release: &mut [u64; 256], queue: &mut [u64; 256]) -> u64 {
    let mut sum = 0;
    for i in 0..rows.count {
        let over = rows.has[i].saturating_sub(rows.due[i]);
        release[i] = over;
        queue[i] = rows.due[i].saturating_sub(rows.has[i]) * 65536 + i as u64;
        sum += over;
    }
    sum
}

fn cut(table: &[u64; ROOM], q: usize, release: &mut [u64; 256], pieces: &mut [u64; ROOM]) -> usize {
    let mut count = 0;
    let mut flag = false;
    let mut touch = false;
    for i in 0..q {
        let size = table[i] / 65536;
        let owner = table[i] % 65536;
        let row = owner as usize;
        let have = release[row];
        if have == 0 {
            count = put(pieces, count, size, owner);
            touch = false;
        } else {
            let c = cut_interval(have, size, flag, touch);
            release[row] = have - c.gap;
            count = put(pieces, count, c.front, owner);
            count = put(pieces, count, c.gap, owner + 256);
            count = put(pieces, count, c.back, owner);
            flag = c.flag;
            touch = c.touch;
        }
    }
    count
}

fn fill(pieces: &mut [u64; ROOM], p: usize, queue: &mut [u64; 256], turns: &mut [u64; ROOM]) -> usize {
    let mut count = 0;
    let mut i = 0;
    let mut j = 0;
    while i < p {
        let size = pieces[i] / 65536;
        let mark = pieces[i] % 65536;
        if mark < 256 {
            count = push(turns, count, size, mark * 257);
            i += 1;
        } else if size == 0 {
            i += 1;
        } else {
            let need = queue[j] / 65536;
            let turn = (mark - 256) * 256 + queue[j] % 65536;
            if need < size {
                count = push(turns, count, need, turn);
                pieces[i] -= need * 65536;
                j += 1;
            } else {
                count = push(turns, count, size, turn);
                queue[j] -= size * 65536;
                i += 1;
            }
        }
    }
    count
}

fn new_table(turns: &[u64; ROOM], t: usize, table: &mut [u64; ROOM]) -> usize {
    let mut count = 0;
    for i in 0..t {
        count = push(table, count, turns[i] / 65536, turns[i] % 256);
    }
    count
}

fn count_moves(turns: &[u64; ROOM], t: usize) -> usize {
    let mut count = 0;
    for i in 0..t {
        let turn = turns[i] % 65536;
        if turn / 256 != turn % 256 {
            count += 1;
        }
    }
    count
}

// The rows that a table names.

fn raise(table: &[u64; ROOM], q: usize, p: usize, into: &mut [u64; ROOM]) {
    for i in 0..q {
        into[i] = if table[i] % 65536 < p as u64 { table[i] } else { table[i] + 1 };
    }
}

fn lower(table: &mut [u64; ROOM], q: usize, p: usize) {
    for i in 0..q {
        if table[i] % 65536 > p as u64 {
            table[i] -= 1;
        }
    }
}

pub fn renew(table: &mut [u64; ROOM], next: &[u64; ROOM], q: usize) {
    for i in 0..q {
        table[i] = next[i];
    }
}

// A change.

fn refused(before: &Opened, refusal: u32) -> Plan {
    Plan { refusal, moved: 0, count: 0, after: *before }
}

fn settle(
    before: &Opened,
    after: Opened,
    rows: Rows,
    places: usize,
    work: &mut [u64; ROOM],
    next: &mut [u64; ROOM],
) -> Plan {
    let mut release = [0; 256];
    let mut queue = [0; 256];
    let moved = quotas(&rows, &mut release, &mut queue);
    let pieces = cut(work, before.intervals, &mut release, next);
    let turns = fill(next, pieces, &mut queue, work);
    let intervals = new_table(work, turns, next);
    let count = count_moves(work, turns);
    if intervals as u64 > before.limit {
        return refused(before, 8);
    }
    if count > places {
        return refused(before, 9);
    }
    lower(next, intervals, rows.gone);
    Plan { refusal: 0, moved, count, after: Opened { intervals, ..after } }
}

// The row of an id by halving, and whether it is present.
fn find(ids: &[u64; 256], n: usize, id: u64) -> (usize, bool) {
    let mut low = 0;
    let mut high = n;
    while low < high {
        let middle = low + (high - low) / 2;
        if ids[middle] < id {
            low = middle + 1;
        } else {
            high = middle;
        }
    }
    (low, low < n && ids[low] == id)
}

fn shared(before: &Opened, n: usize, ids: &[u64; 256], capacities: &[u64; 256]) -> Opened {
    let has = shares(before.range, capacities, n);
    Opened { devices: n, ids: *ids, capacities: *capacities, has, ..*before }
}

fn first(before: &Opened, id: u64, capacity: u64, next: &mut [u64; ROOM]) -> Plan {
    next[0] = before.range * 65536;
    let mut after = *before;
    after.devices = 1;
    after.ids[0] = id;
    after.capacities[0] = capacity;
    after.has[0] = before.range;
    after.intervals = 1;
    Plan { refusal: 0, moved: 0, count: 0, after }
}

type Arrays<'a> = (&'a [u64; ROOM], &'a mut [u64; ROOM], &'a mut [u64; ROOM]);

fn add(before: &Opened, id: u64, capacity: u64, places: usize, (table, work, next): Arrays) -> Plan {
    if outside(65535, id) || outside(16_000_000, capacity) {
        return refused(before, 2);
    }
    let n = before.devices;
    let (row, present) = find(&before.ids, n, id);
    if present {
        return refused(before, 4);
    }
    if n >= 256 {
        return refused(before, 6);
    }
    if n == 0 {
        return first(before, id, capacity, next);
    }
    let names = insert_row(&before.ids, row, id);
    let grown = insert_row(&before.capacities, row, capacity);
    let after = shared(before, n + 1, &names, &grown);
    raise(table, before.intervals, row, work);
    let rows = Rows { count: n + 1, gone: 256, has: insert_row(&before.has, row, 0), due: after.has };
    settle(before, after, rows, places, work, next)
}

fn remove(before: &Opened, id: u64, places: usize, (table, work, next): Arrays) -> Plan {
    if outside(65535, id) {
        return refused(before, 2);
    }
    let n = before.devices;
    let (row, present) = find(&before.ids, n, id);
    if !present {
        return refused(before, 5);
    }
    if n <= 1 {
        return refused(before, 7);
    }
    let ids = delete_row(&before.ids, row);
    let fewer = delete_row(&before.capacities, row);
    let after = shared(before, n - 1, &ids, &fewer);
    raise(table, before.intervals, 256, work);
    let rows = Rows { count: n, gone: row, has: before.has, due: insert_row(&after.has, row, 0) };
    settle(before, after, rows, places, work, next)
}

fn resize(before: &Opened, id: u64, capacity: u64, places: usize, (table, work, next): Arrays) -> Plan {
    if outside(65535, id) || outside(16_000_000, capacity) {
        return refused(before, 2);
    }
    let n = before.devices;
    let (row, present) = find(&before.ids, n, id);
    if !present {
        return refused(before, 5);
    }
    let mut capacities = before.capacities;
    capacities[row] = capacity;
    let after = shared(before, n, &before.ids, &capacities);
    raise(table, before.intervals, 256, work);
    let rows = Rows { count: n, gone: 256, has: before.has, due: after.has };
    settle(before, after, rows, places, work, next)
}

pub fn plan(
    before: &Opened,
    call: Call,
    places: usize,
    table: &[u64; ROOM],
    work: &mut [u64; ROOM],
    next: &mut [u64; ROOM],
) -> Plan {
    match call {
        Call::Add(id, capacity) => add(before, id, capacity, places, (table, work, next)),
        Call::Remove(id) => remove(before, id, places, (table, work, next)),
        Call::Resize(id, capacity) => resize(before, id, capacity, places, (table, work, next)),
    }
}
