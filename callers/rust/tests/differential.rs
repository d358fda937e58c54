//! Every call of the library against the reference, on random and damaged inputs and buffers of any size.
//!
//! A call is made twice with equal buffers, by the library and by the reference. The numbers returned must be
//! equal, and so must every place of every buffer, with the places around it that are not lent. Which numbers
//! occurred is counted for each call, and the test fails where one that the call can return did not occur. The moves
//! of each accepted change must go only to an added device, only from a removed one, and only to or only from one that
//! is resized.
//!
//! GORVYTS_SEED (a number) gives other inputs and GORVYTS_ROUNDS (default 150) more or fewer. A difference is
//! printed with its seed and round; GORVYTS_ONLY runs that round alone.

mod inputs;
mod reference;

use std::collections::BTreeMap;
use std::env;
use std::fmt::Debug;

use gorvyts::{calls, DeviceRow, Image, IntervalRow};
use inputs::pools::{alternating, by_both_rules, composed, swept, Change, Plan};
use inputs::{images, pools, texts, Random};
use reference::calls as expected;
use reference::history;
use reference::image;
use reference::pool::{Pool, DEVICES_MOST, LIMIT_MOST, RANGE_MOST};

const SEED: u64 = 20_180_401;
const ROUNDS: u64 = 150;

/// The least number of times that each number must occur, for so many rounds at least.
const FEW: u64 = 5;
const ROUNDS_FOR_ALL: u64 = 100;

/// Differences are told one by one up to this many, and above it counted.
const TOLD: usize = 30;

#[test]
fn every_call_is_the_reference() {
    let seed = number("GORVYTS_SEED").unwrap_or(SEED);
    let rounds = match number("GORVYTS_ONLY") {
        Some(only) => only..only + 1,
        None => 0..number("GORVYTS_ROUNDS").unwrap_or(ROUNDS),
    };
    let all = rounds.end - rounds.start >= ROUNDS_FOR_ALL;
    let mut trial = Trial::default();
    for round in rounds {
        trial.place = format!("seed {seed}, round {round}");
        let random = &mut Random::new(seed, round);
        trial.fresh_pools(random);
        trial.list_of_changes(random);
        trial.given_pools(random);
        trial.swept_pools(random);
        trial.pools_by_both_rules(random);
        trial.histories(random);
    }
    trial.print();
    assert!(trial.differences.is_empty(), "{} differences", trial.differences.len());
    if all {
        trial.assert_all_occurred();
    } else {
        println!("differential: too few rounds to ask for every number");
    }
}

fn number(variable: &str) -> Option<u64> {
    env::var(variable).ok().map(|text| text.parse().unwrap_or_else(|_| panic!("{variable} is no number")))
}

/// What each call can return, and what can stand in a row and in a line of a transcript. A move list of 4,096
/// places, as transcripts have it, is enough for every change (`swept`), so that no line gets 9.
const CAN_OCCUR: [(&str, &[u32]); 20] = [
    ("check", &[0, 14, 15, 16]),
    ("fresh", &[0, 2, 17]),
    ("replay", &[0, 2, 17]),
    ("transcript", &[0, 17]),
    ("line", &[0, 1, 2, 3, 4, 5, 6, 7, 8]),
    ("add", &[0, 2, 4, 6, 8, 9, 14, 15, 16, 17]),
    ("remove", &[0, 2, 5, 7, 8, 9, 14, 15, 16, 17]),
    ("resize", &[0, 2, 5, 8, 9, 14, 15, 16, 17]),
    ("owner", &[0, 10, 13, 14, 15, 16, 17]),
    ("copies", &[0, 10, 11, 12, 14, 15, 16, 17]),
    ("copies_of_many", &[0, 14, 15, 16, 17]),
    ("row", &[0, 10, 11, 12]),
    ("open", &[0, 14, 15, 16, 17]),
    ("owner_in", &[0, 10, 13, 17]),
    ("copies_in", &[0, 10, 11, 12, 17]),
    ("numbers", &[0, 14, 15, 16, 17]),
    ("share", &[0, 2, 5, 14, 15, 16, 17]),
    ("report", &[0, 2, 5, 14, 15, 16, 17]),
    ("devices", &[0, 14, 15, 16, 17]),
    ("intervals", &[0, 14, 15, 16, 17]),
];

/// A buffer with a pattern in it, of which the middle is lent.
#[derive(Clone)]
struct Lent<T> {
    places: Vec<T>,
    size: usize,
}

/// The places before and after those that are lent.
const EDGE: usize = 16;

/// The places after which a pattern begins again.
const PATTERN: usize = 1009;

trait Place: Copy + PartialEq + Debug {
    fn of(number: u64) -> Self;
}

impl Place for u8 {
    fn of(number: u64) -> u8 {
        number as u8
    }
}

impl Place for u16 {
    fn of(number: u64) -> u16 {
        number as u16
    }
}

impl Place for u32 {
    fn of(number: u64) -> u32 {
        number as u32
    }
}

impl Place for u64 {
    fn of(number: u64) -> u64 {
        number
    }
}

impl Place for i64 {
    fn of(number: u64) -> i64 {
        number as i64
    }
}

impl<T: Place> Lent<T> {
    fn new(random: &mut Random, size: usize) -> Lent<T> {
        let length = size + 2 * EDGE;
        let pattern: Vec<T> = (0..length.min(PATTERN)).map(|_| T::of(random.next())).collect();
        let mut places = Vec::with_capacity(length);
        while places.len() < length {
            places.extend_from_slice(&pattern[..pattern.len().min(length - places.len())]);
        }
        Lent { places, size }
    }

    fn lend(&mut self) -> &mut [T] {
        &mut self.places[EDGE..EDGE + self.size]
    }

    /// Nothing where all places are equal, else the first that is not. A place before the lent ones is below 0.
    fn apart(&self, name: &str, expected: &Lent<T>) -> Option<String> {
        if self.places == expected.places {
            return None;
        }
        let mut both = self.places.iter().zip(&expected.places).enumerate();
        let (i, (ours, theirs)) = both.find(|(_, (ours, theirs))| ours != theirs).unwrap();
        let place = i as i64 - EDGE as i64;
        Some(format!("{name}[{place}] of {} is {ours:?}, by the reference {theirs:?}", self.size))
    }
}

/// The sizes of the buffers of a change.
#[derive(Clone, Copy, Debug)]
struct Sizes {
    next: usize,
    list: usize,
    answer: usize,
}

#[derive(Default)]
struct Trial {
    /// The seed and round that are tried.
    place: String,
    /// How many calls were compared.
    made: u64,
    /// How often the reference gave a number for a call.
    occurred: BTreeMap<(&'static str, u32), u64>,
    most_devices: usize,
    most_intervals: usize,
    most_moves: usize,
    differences: Vec<String>,
}

// What is tried.
impl Trial {
    fn fresh_pools(&mut self, random: &mut Random) {
        for _ in 0..6 {
            let range = match random.below(6) {
                0 => random.pick(&[0, 1, RANGE_MOST, RANGE_MOST + 1, 1 << 33, u64::MAX]),
                1 => random.next(),
                _ => pools::range(random),
            };
            let limit = match random.below(6) {
                0 => random.pick(&[0, 1, LIMIT_MOST, LIMIT_MOST + 1, 65_536, (1 << 32) + 1, u64::MAX]),
                1 => random.next(),
                _ => pools::limit(random),
            };
            let (image, answer) = (random.size_near(image::HEAD), answer_size(random, 1));
            self.fresh(random, range, limit, image, answer);
        }
    }

    /// A list of changes from a fresh pool, each of the pool that the last one left.
    fn list_of_changes(&mut self, random: &mut Random) {
        let plan = Plan::new(random);
        let mut pool = Pool::fresh(plan.range, plan.limit).unwrap();
        let steps = 2 * plan.devices + 30;
        for _ in 0..steps {
            if let Some(after) = self.step(random, &plan, &pool) {
                pool = after;
            }
            if random.one_in(20) {
                self.lookups(random, &pool);
                self.told_whole(random, &pool);
            }
            if random.one_in(8) {
                let bytes = images::damaged(random, &pool);
                self.any_call(random, &bytes, &pool);
            }
        }
    }

    /// Pools that no list of changes need lead to.
    fn given_pools(&mut self, random: &mut Random) {
        for _ in 0..6 {
            let count = match random.below(10) {
                0 => 0,
                1 => 1,
                2 | 3 => 2,
                4..=6 => random.between(3, 9),
                7 => random.between(10, 60),
                8 => random.between(61, 256),
                _ => 256,
            };
            let mut pool = composed(random, count as usize);
            if random.one_in(40) {
                pool = alternating(LIMIT_MOST);
            }
            assert_eq!(self.check(&image::write(&pool)), 0);
            self.lookups(random, &pool);
            self.told_whole(random, &pool);
            for _ in 0..12 {
                let bytes = images::damaged(random, &pool);
                self.check(&bytes);
                self.any_call(random, &bytes, &pool);
            }
            let plan = Plan { devices: random.pick(&[1, 10, 300]), ..Plan::new(random) };
            for _ in 0..12 {
                if let Some(after) = self.step(random, &plan, &pool) {
                    pool = after;
                }
            }
        }
    }

    /// A change that has as many moves as the pool has intervals.
    fn swept_pools(&mut self, random: &mut Random) {
        let (pool, change) = swept(random);
        assert_eq!(self.check(&image::write(&pool)), 0);
        self.change_near(random, &pool, change);
    }

    /// A pool, and what it is with the shares of before Wish 4, each in an image of version 2, 1 and 3.
    fn pools_by_both_rules(&mut self, random: &mut Random) {
        let (pool, before) = by_both_rules(random);
        for (pool, expected) in [(pool, 0), (before, 16)] {
            let mut bytes = image::write(&pool);
            assert_eq!(self.check(&bytes), expected);
            self.any_call(random, &bytes, &pool);
            for version in [1u16, 3] {
                bytes[3..5].copy_from_slice(&version.to_be_bytes());
                assert_eq!(self.check(&bytes), 15);
                self.any_call(random, &bytes, &pool);
            }
        }
    }

    fn histories(&mut self, random: &mut Random) {
        for _ in 0..10 {
            let text = texts::text(random);
            self.history(random, &text);
        }
        if random.one_in(4) {
            let text = texts::long_text(random);
            self.history(random, &text);
        }
    }

    fn history(&mut self, random: &mut Random, text: &[u8]) {
        let needed = history::replay(text).map_or(image::HEAD, |replayed| image::write(&replayed.pool).len());
        let (image, answer) = (random.size_near(needed), answer_size(random, 1));
        self.replay(random, text, image, answer);
        let room = expected::TRANSCRIPT_ROOM;
        let out = match random.below(12) {
            0 => random.pick(&[0, 9, 1000, room - 1]),
            1 => room + 1 + random.index(40),
            _ => room,
        };
        let answer = answer_size(random, 1);
        self.transcript(random, text, out, answer);
    }

    /// A change of the plan. The pool after it, if it is another.
    fn step(&mut self, random: &mut Random, plan: &Plan, pool: &Pool) -> Option<Pool> {
        let ids: Vec<u64> = pool.devices.iter().map(|device| device.id).collect();
        let change = plan.change(random, &ids);
        self.change_near(random, pool, change)
    }

    /// A change, with buffers of a size near that needed; where one was too short, now and then with long ones.
    /// The pool after it, if it is another.
    fn change_near(&mut self, random: &mut Random, pool: &Pool, change: Change) -> Option<Pool> {
        let bytes = image::write(pool);
        self.most(pool, 0);
        let places = usize::MAX;
        let result = match change {
            Change::Add(id, capacity) => pool.add(id, capacity, places),
            Change::Remove(id) => pool.remove(id, places),
            Change::Resize(id, capacity) => pool.resize(id, capacity, places),
        };
        let (image, list) = match &result {
            Ok(changed) => {
                self.most(&changed.pool, changed.moves.len());
                (image::write(&changed.pool).len(), 4 * changed.moves.len())
            }
            Err(_) => (bytes.len(), 8),
        };
        let near = Sizes {
            next: random.size_near(image),
            list: random.size_near(list),
            answer: answer_size(random, 3),
        };
        let long = Sizes { next: calls::IMAGE_MOST, list: 4 * calls::MOVES_MOST, answer: 3 };
        let number = self.change(random, &bytes, change, near);
        if (number == 9 || number == 17) && random.one_in(3) {
            self.change(random, &bytes, change, long);
        }
        result.ok().map(|changed| changed.pool)
    }

    fn lookups(&mut self, random: &mut Random, pool: &Pool) {
        let bytes = image::write(pool);
        let inside = random.below(pool.range);
        let start = if pool.table.is_empty() { 0 } else { random.pick(&pool.table).start };
        let points = [
            0,
            pool.range - 1,
            pool.range,
            pool.range + 1,
            inside,
            inside + (1 << 32),
            u64::MAX,
            random.next(),
        ];
        let starts = [start, start.saturating_sub(1)];
        for point in points.into_iter().chain(starts) {
            let answer = answer_size(random, 1);
            self.owner(random, &bytes, point, answer);
            self.owner_in(random, &bytes, point, answer);
        }
        for _ in 0..4 {
            self.one_block(random, &bytes);
            self.one_block_in(random, &bytes);
        }
        self.many_blocks(random, &bytes);
        self.any_opening(random, &bytes);
    }

    /// What a pool is, by the calls and by the safe functions.
    fn told_whole(&mut self, random: &mut Random, pool: &Pool) {
        let bytes = image::write(pool);
        for _ in 0..4 {
            self.told_of(random, &bytes, pool);
        }
        let image = Image::check(bytes).unwrap();
        let numbers = image.numbers();
        assert_eq!((numbers.range, numbers.limit), (pool.range, pool.limit));
        let (devices, intervals) = (image.devices(), image.intervals());
        assert_eq!((numbers.devices, numbers.intervals), (devices.len() as u64, intervals.len() as u64));
        let shares = pool.share_of_id();
        let rows =
            pool.devices.iter().map(|d| DeviceRow { id: d.id, capacity: d.capacity, share: shares[&d.id] });
        assert!(rows.eq(devices.iter().copied()));
        let table = pool.table.iter();
        let rows = table.map(|i| IntervalRow { start: i.start, length: i.length, owner: i.owner });
        assert!(rows.eq(intervals.iter().copied()));
        let count = devices.len() as i64;
        let capacities: i64 = devices.iter().map(|row| row.capacity as i64).sum();
        let mut sum = 0;
        for row in devices {
            assert_eq!(image.share(row.id), Ok(row.share));
            let (report, due) = (image.report(row.id).unwrap(), pool.report(row.id).unwrap());
            assert_eq!((report.whole, report.remainder), (due.whole, due.remainder));
            assert_eq!(report.difference, due.difference);
            assert!(report.difference != 0 || report.remainder == 0);
            assert!(-capacities < report.difference && report.difference < count * capacities);
            sum += report.difference;
        }
        assert_eq!(sum, 0);
    }

    /// The calls that tell of a pool, with any bytes in the place of its image; the pool is that from which they
    /// come.
    fn told_of(&mut self, random: &mut Random, bytes: &[u8], pool: &Pool) {
        let answer = answer_size(random, 4);
        self.numbers(random, bytes, answer);
        let id = match random.below(4) {
            0 => random.pick(&[0, 1, 65_535, 65_536, (1 << 16) + 1, (1 << 32) + 1, u64::MAX]),
            1 => random.between(1, 65_535),
            _ if pool.devices.is_empty() => random.below(3),
            _ => random.pick(&pool.devices).id,
        };
        let answer = answer_size(random, 1);
        self.share(random, bytes, id, answer);
        let answer = answer_size(random, 2);
        self.report(random, bytes, id, answer);
        let rows = random.size_near(3 * pool.devices.len());
        self.devices(random, bytes, rows);
        let rows = random.size_near(3 * pool.table.len());
        self.intervals(random, bytes, rows);
    }

    fn one_block_in(&mut self, random: &mut Random, bytes: &[u8]) {
        let (block, k) = (block(random), copies_asked(random));
        let (tally, row) = (tally(random), random.size_near(10));
        self.copies_in(bytes, block, k, tally, Lent::new(random, row));
    }

    fn any_opening(&mut self, random: &mut Random, bytes: &[u8]) {
        let mut places = || match random.below(16) {
            0 => random.index(calls::PLACES),
            1 => calls::PLACES - 1,
            2 => calls::PLACES + random.index(9),
            _ => calls::PLACES,
        };
        let (starts, owners) = (places(), places());
        let numbers = answer_size(random, 3);
        self.open(random, bytes, starts, owners, numbers);
    }

    fn one_block(&mut self, random: &mut Random, bytes: &[u8]) {
        let (block, k) = (block(random), copies_asked(random));
        let (tally, row) = (tally(random), random.size_near(10));
        self.copies(bytes, block, k, tally, Lent::new(random, row));
    }

    fn many_blocks(&mut self, random: &mut Random, bytes: &[u8]) {
        let count = match random.below(8) {
            0 => 0,
            1 | 2 => 1,
            3 => random.between(200, 700),
            _ => random.between(2, 30),
        };
        let blocks: Vec<u64> = (0..count).map(|_| block(random)).collect();
        let k = copies_asked(random);
        let (tally, rows) = (tally(random), random.size_near(10 * blocks.len()));
        self.copies_of_many(bytes, &blocks, k, tally, Lent::new(random, rows));
    }

    /// One of the calls on an image, with any bytes in its place; the pool is that from which they come.
    fn any_call(&mut self, random: &mut Random, bytes: &[u8], pool: &Pool) {
        let ids: Vec<u64> = pool.devices.iter().map(|device| device.id).collect();
        match random.below(8) {
            0 => {
                self.check(bytes);
            }
            6 => self.any_opening(random, bytes),
            7 => self.told_of(random, bytes, pool),
            1 => {
                let (point, answer) = (random.below(pool.range), answer_size(random, 1));
                self.owner(random, bytes, point, answer);
            }
            2 => self.one_block(random, bytes),
            3 => self.many_blocks(random, bytes),
            _ => {
                let change = Plan::new(random).change(random, &ids);
                let sizes = Sizes {
                    next: random.size_near(bytes.len()),
                    list: random.size_near(400),
                    answer: answer_size(random, 3),
                };
                self.change(random, bytes, change, sizes);
            }
        }
    }
}

/// Often enough places, else too few.
fn answer_size(random: &mut Random, needed: usize) -> usize {
    match random.below(16) {
        0 => 0,
        1 => needed - 1,
        2 => needed + random.index(9),
        _ => needed,
    }
}

fn block(random: &mut Random) -> u64 {
    match random.below(5) {
        0 => random.pick(&[0, 1, u64::from(u32::MAX), 1 << 32, u64::MAX]),
        1 => random.below(1000),
        _ => random.next(),
    }
}

fn copies_asked(random: &mut Random) -> u64 {
    match random.below(20) {
        0 => random.pick(&[1 << 32, (1 << 32) + 3, u64::MAX]),
        1 => random.pick(&[0, 9]),
        _ => random.between(0, 9),
    }
}

/// Two counters, now and then near their end; seldom fewer or more places.
fn tally(random: &mut Random) -> Lent<u32> {
    let size = match random.below(20) {
        0 => random.index(2),
        1 => 2 + random.index(5),
        _ => 2,
    };
    let mut tally = Lent::new(random, size);
    for place in tally.lend() {
        *place = match random.below(4) {
            0 => 0,
            1 => u32::MAX - random.below(3) as u32,
            2 => u32::MAX - random.below(2000) as u32,
            _ => random.next() as u32,
        };
    }
    tally
}

// Each call by both.
impl Trial {
    fn check(&mut self, bytes: &[u8]) -> u32 {
        let lent = bytes.to_vec();
        let number = (calls::check(&lent), expected::check(bytes));
        self.told("check", number, [changed("image", &lent, bytes)], || hex(bytes))
    }

    fn fresh(&mut self, random: &mut Random, range: u64, limit: u64, image: usize, answer: usize) -> u32 {
        let (mut image, mut answer) = (Lent::new(random, image), Lent::new(random, answer));
        let (mut image2, mut answer2) = (image.clone(), answer.clone());
        let number = (
            calls::fresh(range, limit, image.lend(), answer.lend()),
            expected::fresh(range, limit, image2.lend(), answer2.lend()),
        );
        let apart = [image.apart("image", &image2), answer.apart("answer", &answer2)];
        self.told("fresh", number, apart, || format!("range {range}, limit {limit}"))
    }

    fn replay(&mut self, random: &mut Random, text: &[u8], image: usize, answer: usize) -> u32 {
        let lent = text.to_vec();
        let (mut image, mut answer) = (Lent::new(random, image), Lent::new(random, answer));
        let (mut image2, mut answer2) = (image.clone(), answer.clone());
        let number = (
            calls::replay(&lent, image.lend(), answer.lend()),
            expected::replay(text, image2.lend(), answer2.lend()),
        );
        let apart =
            [image.apart("image", &image2), answer.apart("answer", &answer2), changed("text", &lent, text)];
        self.told("replay", number, apart, || format!("text {}", hex(text)))
    }

    fn transcript(&mut self, random: &mut Random, text: &[u8], out: usize, answer: usize) -> u32 {
        let lent = text.to_vec();
        let (mut out, mut answer) = (Lent::new(random, out), Lent::new(random, answer));
        let (mut out2, mut answer2) = (out.clone(), answer.clone());
        let number = (
            calls::transcript(&lent, out.lend(), answer.lend()),
            expected::transcript(text, out2.lend(), answer2.lend()),
        );
        if number.1 == 0 {
            for outcome in history::replay(text).map_or(Vec::new(), |replayed| replayed.outcomes) {
                self.count("line", outcome.number);
            }
        }
        let apart = [out.apart("out", &out2), answer.apart("answer", &answer2), changed("text", &lent, text)];
        self.told("transcript", number, apart, || format!("text {}", hex(text)))
    }

    fn change(&mut self, random: &mut Random, bytes: &[u8], change: Change, sizes: Sizes) -> u32 {
        let lent = bytes.to_vec();
        let mut next = Lent::new(random, sizes.next);
        let mut list = Lent::new(random, sizes.list);
        let mut answer = Lent::new(random, sizes.answer);
        let (mut next2, mut list2, mut answer2) = (next.clone(), list.clone(), answer.clone());
        let (n, l, a) = (next.lend(), list.lend(), answer.lend());
        let (n2, l2, a2) = (next2.lend(), list2.lend(), answer2.lend());
        let (call, number) = match change {
            Change::Add(id, capacity) => (
                "add",
                (calls::add(&lent, id, capacity, n, l, a), expected::add(bytes, id, capacity, n2, l2, a2)),
            ),
            Change::Remove(id) => {
                ("remove", (calls::remove(&lent, id, n, l, a), expected::remove(bytes, id, n2, l2, a2)))
            }
            Change::Resize(id, capacity) => (
                "resize",
                (
                    calls::resize(&lent, id, capacity, n, l, a),
                    expected::resize(bytes, id, capacity, n2, l2, a2),
                ),
            ),
        };
        let moves = if number == (0, 0) { 4 * answer2.lend()[2] as usize } else { 0 };
        let apart = [
            next.apart("next", &next2),
            list.apart("list", &list2),
            answer.apart("answer", &answer2),
            changed("image", &lent, bytes),
            astray(change, &list.lend()[..moves]),
        ];
        self.told(call, number, apart, || format!("{change:?}, {sizes:?}, image {}", hex(bytes)))
    }

    fn owner(&mut self, random: &mut Random, bytes: &[u8], point: u64, answer: usize) -> u32 {
        let lent = bytes.to_vec();
        let mut answer = Lent::new(random, answer);
        let mut answer2 = answer.clone();
        let number =
            (calls::owner(&lent, point, answer.lend()), expected::owner(bytes, point, answer2.lend()));
        let apart = [answer.apart("answer", &answer2), changed("image", &lent, bytes)];
        self.told("owner", number, apart, || format!("point {point}, image {}", hex(bytes)))
    }

    fn copies(&mut self, bytes: &[u8], block: u64, k: u64, mut tally: Lent<u32>, mut row: Lent<u32>) {
        let lent = bytes.to_vec();
        let before = tally.lend().to_vec();
        let (mut tally2, mut row2) = (tally.clone(), row.clone());
        let number = (
            calls::copies(&lent, block, k, tally.lend(), row.lend()),
            expected::copies(bytes, block, k, tally2.lend(), row2.lend()),
        );
        let apart = [tally.apart("tally", &tally2), row.apart("row", &row2), changed("image", &lent, bytes)];
        self.told("copies", number, apart, || {
            format!("block {block}, k {k}, tally {before:?}, image {}", hex(bytes))
        });
    }

    fn copies_of_many(
        &mut self,
        bytes: &[u8],
        blocks: &[u64],
        k: u64,
        mut tally: Lent<u32>,
        mut rows: Lent<u32>,
    ) {
        let (lent, lent_blocks) = (bytes.to_vec(), blocks.to_vec());
        let before = tally.lend().to_vec();
        let (mut tally2, mut rows2) = (tally.clone(), rows.clone());
        let number = (
            calls::copies_of_many(&lent, &lent_blocks, k, tally.lend(), rows.lend()),
            expected::copies_of_many(bytes, blocks, k, tally2.lend(), rows2.lend()),
        );
        if number.1 == 0 {
            for row in rows2.lend().chunks_exact(10).take(blocks.len()) {
                self.count("row", row[0]);
            }
        }
        let apart = [
            tally.apart("tally", &tally2),
            rows.apart("rows", &rows2),
            changed("image", &lent, bytes),
            changed("blocks", &lent_blocks, blocks),
        ];
        self.told("copies_of_many", number, apart, || {
            format!("blocks {blocks:?}, k {k}, tally {before:?}, image {}", hex(bytes))
        });
    }
}

// What a pool is.
impl Trial {
    fn numbers(&mut self, random: &mut Random, bytes: &[u8], answer: usize) {
        let lent = bytes.to_vec();
        let mut answer = Lent::new(random, answer);
        let mut answer2 = answer.clone();
        let number = (calls::numbers(&lent, answer.lend()), expected::numbers(bytes, answer2.lend()));
        let apart = [answer.apart("answer", &answer2), changed("image", &lent, bytes)];
        self.told("numbers", number, apart, || format!("image {}", hex(bytes)));
    }

    fn share(&mut self, random: &mut Random, bytes: &[u8], id: u64, answer: usize) {
        let lent = bytes.to_vec();
        let mut answer = Lent::new(random, answer);
        let mut answer2 = answer.clone();
        let number = (calls::share(&lent, id, answer.lend()), expected::share(bytes, id, answer2.lend()));
        let apart = [answer.apart("answer", &answer2), changed("image", &lent, bytes)];
        self.told("share", number, apart, || format!("id {id}, image {}", hex(bytes)));
    }

    fn report(&mut self, random: &mut Random, bytes: &[u8], id: u64, answer: usize) {
        let lent = bytes.to_vec();
        let mut answer = Lent::new(random, answer);
        let mut answer2 = answer.clone();
        let mut difference = Lent::new(random, 1);
        let mut difference2 = difference.clone();
        let number = (
            calls::report(&lent, id, answer.lend(), &mut difference.lend()[0]),
            expected::report(bytes, id, answer2.lend(), &mut difference2.lend()[0]),
        );
        let apart = [
            answer.apart("answer", &answer2),
            difference.apart("difference", &difference2),
            changed("image", &lent, bytes),
        ];
        self.told("report", number, apart, || format!("id {id}, image {}", hex(bytes)));
    }

    fn devices(&mut self, random: &mut Random, bytes: &[u8], rows: usize) {
        let lent = bytes.to_vec();
        let mut rows = Lent::new(random, rows);
        let mut rows2 = rows.clone();
        let number = (calls::devices(&lent, rows.lend()), expected::devices(bytes, rows2.lend()));
        let apart = [rows.apart("rows", &rows2), changed("image", &lent, bytes)];
        self.told("devices", number, apart, || format!("image {}", hex(bytes)));
    }

    fn intervals(&mut self, random: &mut Random, bytes: &[u8], rows: usize) {
        let lent = bytes.to_vec();
        let mut rows = Lent::new(random, rows);
        let mut rows2 = rows.clone();
        let number = (calls::intervals(&lent, rows.lend()), expected::intervals(bytes, rows2.lend()));
        let apart = [rows.apart("rows", &rows2), changed("image", &lent, bytes)];
        self.told("intervals", number, apart, || format!("image {}", hex(bytes)));
    }
}

/// The arrays and numbers of an opened pool.
struct Arrays {
    starts: Box<[u32; calls::PLACES]>,
    owners: Box<[u16; calls::PLACES]>,
    numbers: [u64; 3],
}

fn opened(bytes: &[u8]) -> Arrays {
    let mut arrays = Arrays {
        starts: Box::new([0; calls::PLACES]),
        owners: Box::new([0; calls::PLACES]),
        numbers: [0; 3],
    };
    let number = calls::open(bytes, &mut arrays.starts[..], &mut arrays.owners[..], &mut arrays.numbers);
    assert_eq!(number, 0);
    arrays
}

// Opened pools: the reference looks up in the pool of the image.
impl Trial {
    fn open(&mut self, random: &mut Random, bytes: &[u8], starts: usize, owners: usize, numbers: usize) {
        let lent = bytes.to_vec();
        let mut starts = Lent::new(random, starts);
        let mut owners = Lent::new(random, owners);
        let mut numbers = Lent::new(random, numbers);
        let (mut starts2, mut owners2, mut numbers2) = (starts.clone(), owners.clone(), numbers.clone());
        let number = (
            calls::open(&lent, starts.lend(), owners.lend(), numbers.lend()),
            expected::open(bytes, starts2.lend(), owners2.lend(), numbers2.lend()),
        );
        let apart = [
            starts.apart("starts", &starts2),
            owners.apart("owners", &owners2),
            numbers.apart("numbers", &numbers2),
            changed("image", &lent, bytes),
        ];
        self.told("open", number, apart, || format!("image {}", hex(bytes)));
    }

    fn owner_in(&mut self, random: &mut Random, bytes: &[u8], point: u64, answer: usize) {
        let pool = opened(bytes);
        let mut answer = Lent::new(random, answer);
        let mut answer2 = answer.clone();
        let number = (
            calls::owner_in(&pool.starts, &pool.owners, &pool.numbers, point, answer.lend()),
            expected::owner(bytes, point, answer2.lend()),
        );
        let apart = [answer.apart("answer", &answer2)];
        self.told("owner_in", number, apart, || format!("point {point}, image {}", hex(bytes)));
    }

    fn copies_in(&mut self, bytes: &[u8], block: u64, k: u64, mut tally: Lent<u32>, mut row: Lent<u32>) {
        let pool = opened(bytes);
        let before = tally.lend().to_vec();
        let (mut tally2, mut row2) = (tally.clone(), row.clone());
        let number = (
            calls::copies_in(&pool.starts, &pool.owners, &pool.numbers, block, k, tally.lend(), row.lend()),
            expected::copies(bytes, block, k, tally2.lend(), row2.lend()),
        );
        let apart = [tally.apart("tally", &tally2), row.apart("row", &row2)];
        self.told("copies_in", number, apart, || {
            format!("block {block}, k {k}, tally {before:?}, image {}", hex(bytes))
        });
    }
}

/// Says so where one of the moves, four numbers each, is not only to an added device, only from a removed one, or
/// only to or only from the one that is resized.
fn astray(change: Change, moves: &[u64]) -> Option<String> {
    let only_from = |id| moves.chunks_exact(4).all(|one| one[2] == id);
    let only_to = |id| moves.chunks_exact(4).all(|one| one[3] == id);
    let right = match change {
        Change::Add(id, _) => only_to(id),
        Change::Remove(id) => only_from(id),
        Change::Resize(id, _) => only_to(id) || only_from(id),
    };
    (!right).then(|| "moves between other devices".to_string())
}

/// Says so where a call changed what it only reads.
fn changed<T: PartialEq>(name: &str, lent: &[T], before: &[T]) -> Option<String> {
    (lent != before).then(|| format!("{name} is changed"))
}

fn hex(bytes: &[u8]) -> String {
    bytes.iter().map(|byte| format!("{byte:02x}")).collect()
}

// What is seen.
impl Trial {
    /// Counts the reference's number and notes where the two are apart.
    fn told<const N: usize>(
        &mut self,
        call: &'static str,
        (ours, theirs): (u32, u32),
        apart: [Option<String>; N],
        input: impl FnOnce() -> String,
    ) -> u32 {
        self.made += 1;
        self.count(call, theirs);
        let mut apart: Vec<String> = apart.into_iter().flatten().collect();
        if ours != theirs {
            apart.insert(0, format!("returns {ours}, the reference {theirs}"));
        }
        if !apart.is_empty() {
            let told = if self.differences.len() < TOLD { input() } else { String::new() };
            self.differences.push(format!("{call} ({}): {}. {told}", self.place, apart.join("; ")));
        }
        theirs
    }

    fn most(&mut self, pool: &Pool, moves: usize) {
        self.most_devices = self.most_devices.max(pool.devices.len());
        self.most_intervals = self.most_intervals.max(pool.table.len());
        self.most_moves = self.most_moves.max(moves);
    }

    fn count(&mut self, call: &'static str, number: u32) {
        *self.occurred.entry((call, number)).or_default() += 1;
    }

    fn print(&self) {
        for (call, _) in CAN_OCCUR {
            let of_call = self.occurred.iter().filter(|((name, _), _)| *name == call);
            let counts: Vec<String> =
                of_call.map(|((_, number), count)| format!("{number}: {count}")).collect();
            println!("differential, {call}: {}", counts.join(", "));
        }
        let mut each = BTreeMap::new();
        for ((_, number), count) in &self.occurred {
            *each.entry(number).or_insert(0) += count;
        }
        let counts: Vec<String> = each.iter().map(|(number, count)| format!("{number}: {count}")).collect();
        println!("differential, all: {}", counts.join(", "));
        println!(
            "differential, at most: {} devices, {} intervals, {} moves",
            self.most_devices, self.most_intervals, self.most_moves
        );
        println!("differential: {} calls compared, {} differences", self.made, self.differences.len());
        for difference in self.differences.iter().take(TOLD) {
            println!("differs: {difference}");
        }
    }

    fn assert_all_occurred(&self) {
        assert_eq!(self.most_devices, DEVICES_MOST);
        assert_eq!(self.most_intervals as u64, LIMIT_MOST);
        assert_eq!(self.most_moves as u64, LIMIT_MOST);
        for (call, numbers) in CAN_OCCUR {
            for &number in numbers {
                let count = self.occurred.get(&(call, number)).copied().unwrap_or(0);
                assert!(count >= FEW, "{call}: {number} occurred {count} times");
            }
            for (&(name, number), _) in self.occurred.iter().filter(|((name, _), _)| *name == call) {
                assert!(numbers.contains(&number), "{name}: {number} is not one of its numbers");
            }
        }
    }
}
