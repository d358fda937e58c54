//! The cases that document 01 names, and the published vectors of SHA-1, by the reference; the calls among
//! them by the safe functions too.

mod reference;

use gorvyts::calls::CAPACITY_MOST;
use gorvyts::{Copies, DeviceRow, Image, IntervalRow, Move, Numbers, Refusal, Report, Tally};
use reference::history;
use reference::image;
use reference::lookup::point_of_word;
use reference::pool::{self, shares, Device, Pool};
use reference::sha1;

const EXAMPLE: &[u8] = b"range 100 16
add 1 1.000
add 2 1
add 3 1.0
add 3 3,2
remove 2
resize 3 3
";

const PRINTED: &str = "1 0 0 0
2 0 0 0
3 0 50 1
4 0 33 2
5 1 0 0
6 0 33 2
7 0 25 1
table
0 9 1
9 58 3
67 16 1
83 17 3
";

fn built(range: u64, limit: u64, devices: &[(u64, u64)]) -> Pool {
    devices.iter().fold(Pool::fresh(range, limit).unwrap(), |pool, &(id, capacity)| {
        pool.add(id, capacity, 4096).unwrap().pool
    })
}

fn table(pool: &Pool) -> Vec<(u64, u64, u64)> {
    pool.table.iter().map(|i| (i.start, i.start + i.length - 1, i.owner)).collect()
}

#[test]
fn k1_to_k4_capacities() {
    assert_eq!(history::capacity(b"3.2"), Ok(3_200));
    assert_eq!(history::capacity(b"3,2"), Err(1));
    assert_eq!(history::capacity(b"3.2e"), Err(1));
    assert_eq!(history::capacity(b"0.000"), Err(2));
    assert_eq!(history::capacity(b"16000.000"), Ok(16_000_000));
    assert_eq!(history::capacity(b"16000.001"), Err(2));
}

#[test]
fn k5_shares_of_three_equal() {
    let devices = [1, 2, 3].map(|id| Device { id, capacity: 1_000 });
    assert_eq!(shares(100, &devices), [34, 33, 33]);
}

#[test]
fn k6_to_k8_tables_of_the_example() {
    let three = built(100, 16, &[(1, 1_000), (2, 1_000), (3, 1_000)]);
    assert_eq!(table(&three), [(0, 33, 1), (34, 66, 3), (67, 99, 2)]);
    let two = three.remove(2, 4096).unwrap().pool;
    assert_eq!(table(&two), [(0, 33, 1), (34, 66, 3), (67, 82, 1), (83, 99, 3)]);
    let resized = two.resize(3, 3_000, 4096).unwrap().pool;
    assert_eq!(table(&resized), [(0, 8, 1), (9, 66, 3), (67, 82, 1), (83, 99, 3)]);
}

#[test]
fn k9_and_k10_small_limits() {
    assert_eq!(built(100, 1, &[(1, 1)]).add(2, 1, 4096).unwrap_err(), 8);
    assert!(built(100, 2, &[(1, 1)]).add(2, 1, 4096).is_ok());
    let higher = built(1, 1, &[(5, 1)]).add(6, 1, 4096).unwrap();
    assert_eq!((higher.moves.len(), higher.moved), (0, 0));
    let lower = built(1, 1, &[(5, 1)]).add(4, 1, 4096).unwrap();
    assert_eq!(lower.moves, [pool::Move { start: 0, length: 1, from: 5, to: 4 }]);
}

#[test]
fn k11_old_devices_swap_no_point() -> Result<(), Refusal> {
    let before = built(10, 16, &[(1, 143), (2, 857)]);
    assert_eq!(shares(10, &before.devices), [1, 9]);
    let after = before.add(3, 30, 4096).unwrap();
    assert_eq!(shares(10, &after.pool.devices), [1, 9, 0]);
    assert_eq!((after.moves, after.moved), (vec![], 0));

    let change = Image::replay(b"range 10 16\nadd 1 0.143\nadd 2 0.857\n")?.add(3, 30)?;
    assert_eq!([1, 2, 3].map(|id| change.image.share(id)), [1, 9, 0].map(Ok));
    assert_eq!((change.moves, change.moved), (vec![], 0));
    Ok(())
}

/// Wish 4 as it is worded: the quotients of all devices in one list, from the largest, equal ones by lower id, and of
/// the first R those of each device. No device has more than R among them.
fn by_quotients(range: u64, devices: &[Device]) -> Vec<u64> {
    let mut quotients: Vec<(u64, u64, u64)> =
        devices.iter().flat_map(|d| (1..=range).map(|i| (d.capacity, i, d.id))).collect();
    quotients.sort_by(|&(c, i, a), &(d, j, b)| (d * i).cmp(&(c * j)).then(a.cmp(&b)));
    quotients.truncate(range as usize);
    devices.iter().map(|d| quotients.iter().filter(|q| q.2 == d.id).count() as u64).collect()
}

#[test]
fn shares_are_those_of_the_quotients() {
    let mut lists =
        vec![vec![1_000; 7], vec![16_000_000, 1, 1], vec![5_000, 1_000, 1_000, 1_000, 1_000, 1_000]];
    for a in 1..=9 {
        for b in 1..=9 {
            lists.extend([vec![a, b], vec![a, b, 4], vec![4, a, b], vec![1, a, b, a, 30]]);
        }
    }
    for capacities in lists {
        let devices: Vec<Device> =
            (1..).zip(capacities).map(|(place, capacity)| Device { id: 5 * place, capacity }).collect();
        for range in 1..=60 {
            assert_eq!(shares(range, &devices), by_quotients(range, &devices), "{range} {devices:?}");
        }
    }
}

#[test]
fn k12_points_of_words() {
    assert_eq!(point_of_word(2_147_483_648, 100), 50);
    assert_eq!(point_of_word(4_294_967_295, 100), 99);
}

#[test]
fn published_digests() {
    let hex = |message: &[u8]| sha1::digest(message).unwrap().map(|word| format!("{word:08x}")).concat();
    assert_eq!(hex(b""), "da39a3ee5e6b4b0d3255bfef95601890afd80709");
    assert_eq!(hex(b"abc"), "a9993e364706816aba3e25717850c26c9cd0d89d");
    let two_blocks = b"abcdbcdecdefdefgefghfghighijhijkijkljklmklmnlmnomnopnopq";
    assert_eq!(hex(two_blocks), "84983e441c3bd26ebaae4aa1f95129e5e54670f1");
}

#[test]
fn the_example_history() {
    assert_eq!(history::transcript(EXAMPLE), PRINTED);
    assert_eq!(history::transcript(b""), "table\n");
    assert_eq!(gorvyts::transcript(EXAMPLE), PRINTED.as_bytes());
    assert_eq!(gorvyts::transcript(b""), b"table\n");
    assert_eq!(gorvyts::transcript(&[b'\n'; 65_537]), b"too long\n");
}

#[test]
fn capacities_at_the_limit() -> Result<(), Refusal> {
    assert_eq!(CAPACITY_MOST, pool::CAPACITY_MOST);
    let largest = Image::fresh(100, 16)?.add(1, CAPACITY_MOST)?.image;
    let halves = largest.add(2, CAPACITY_MOST)?.image;
    assert_eq!([1, 2].map(|id| halves.share(id)), [50, 50].map(Ok));
    for capacity in [0, CAPACITY_MOST + 1, (1 << 32) + 1, u64::MAX] {
        assert_eq!(largest.add(2, capacity), Err(Refusal::OutsideLimits));
        assert_eq!(largest.resize(1, capacity), Err(Refusal::OutsideLimits));
    }
    for (capacity, expected) in [(1, 0), (16_000_000u32, 0), (0, 16), (16_000_001, 16), (u32::MAX, 16)] {
        let mut bytes = largest.as_bytes().to_vec();
        bytes[21..25].copy_from_slice(&capacity.to_be_bytes());
        assert_eq!(gorvyts::calls::check(&bytes), expected);
    }
    for (line, expected) in [("16000.000", "0"), ("16000.001", "2"), ("1000.001", "0")] {
        let text = format!("range 100 16\nadd 1 {line}\n");
        let printed = String::from_utf8(gorvyts::transcript(text.as_bytes())).unwrap();
        assert_eq!(printed.lines().nth(1), Some(format!("2 {expected} 0 0").as_str()));
    }
    Ok(())
}

#[test]
fn reports_on_three_equal() -> Result<(), Refusal> {
    let three = Image::replay(b"range 100 16\nadd 1 1\nadd 2 1\nadd 3 1\n")?;
    let due = |difference| Report { whole: 33, remainder: 1_000, difference };
    assert_eq!([1, 2, 3].map(|id| three.report(id)), [2_000, -1_000, -1_000].map(|x| Ok(due(x))));
    assert_eq!(three.report(4), Err(Refusal::IdAbsent));
    assert_eq!([0, 65_536, u64::MAX].map(|id| three.report(id)), [Err(Refusal::OutsideLimits); 3]);

    let (mut answer, mut difference) = ([7; 3], -7);
    let bytes = three.as_bytes();
    assert_eq!(gorvyts::calls::report(bytes, 1, &mut answer[..1], &mut difference), 17);
    assert_eq!((answer, difference), ([7; 3], -7));
    for (bytes, id, expected) in [(bytes, 4, 5), (bytes, 0, 2), (&bytes[1..], 1, 14)] {
        (answer, difference) = ([7; 3], -7);
        assert_eq!(gorvyts::calls::report(bytes, id, &mut answer, &mut difference), expected);
        assert_eq!((answer, difference), ([0, 0, 7], 0));
    }
    Ok(())
}

/// A device whose exact due is a whole number may have more.
#[test]
fn reports_with_no_remainder() -> Result<(), Refusal> {
    let six = Image::replay(b"range 4 16\nadd 1 5\nadd 2 1\nadd 3 1\nadd 4 1\nadd 5 1\nadd 6 1\n")?;
    assert_eq!(six.report(1), Ok(Report { whole: 2, remainder: 0, difference: 20_000 }));
    for id in 2..=6 {
        assert_eq!(six.report(id), Ok(Report { whole: 0, remainder: 4_000, difference: -4_000 }));
    }
    Ok(())
}

#[test]
fn versions_of_images() -> Result<(), Refusal> {
    let bytes = Image::replay(EXAMPLE)?.into_bytes();
    assert_eq!(bytes[3..5], [0, 2]);
    for (version, expected) in [(2u16, 0), (0, 15), (1, 15), (3, 15), (256, 15), (513, 15), (65_535, 15)] {
        let mut other = bytes.clone();
        other[3..5].copy_from_slice(&version.to_be_bytes());
        assert_eq!(image::read(&other).err().unwrap_or(0), expected);
        assert_eq!(gorvyts::calls::check(&other), expected);
    }
    Ok(())
}

/// K11's pool after the add, with the shares of before Wish 4 (2, 8, 0) and with its own.
#[test]
fn shares_of_before_wish_4() {
    let pool = built(10, 16, &[(1, 143), (2, 857), (3, 30)]);
    assert_eq!(table(&pool), [(0, 0, 1), (1, 9, 2)]);
    let mut before = pool.clone();
    before.table[0].length = 2;
    before.table[1].start = 2;
    for (pool, expected) in [(pool, 0), (before, 16)] {
        let bytes = image::write(&pool);
        assert_eq!(image::read(&bytes).err().unwrap_or(0), expected);
        assert_eq!(gorvyts::calls::check(&bytes), expected);
    }
}

#[test]
fn safe_functions() -> Result<(), Refusal> {
    let pool = Image::replay(EXAMPLE)?;
    assert_eq!(Image::check(pool.as_bytes()), Ok(pool.clone()));
    assert_eq!(pool.clone().into_bytes(), pool.as_ref());
    assert_eq!([8, 9, 66, 67, 99].map(|point| pool.owner(point)), [1, 3, 3, 1, 3].map(Ok));
    assert_eq!(pool.owner(100), Err(Refusal::PointPastRange));

    assert_eq!(pool.numbers(), Numbers { range: 100, limit: 16, devices: 2, intervals: 4 });
    assert_eq!([1, 3].map(|id| pool.share(id)), [25, 75].map(Ok));
    assert_eq!(pool.share(2), Err(Refusal::IdAbsent));
    assert_eq!([0, 65_536].map(|id| pool.share(id)), [Err(Refusal::OutsideLimits); 2]);
    let devices = [(1, 1_000, 25), (3, 3_000, 75)];
    assert_eq!(pool.devices(), devices.map(|(id, capacity, share)| DeviceRow { id, capacity, share }));
    let intervals = [(0, 9, 1), (9, 58, 3), (67, 16, 1), (83, 17, 3)];
    assert_eq!(
        pool.intervals(),
        intervals.map(|(start, length, owner)| IntervalRow { start, length, owner })
    );
    let empty = Image::fresh(7, 5)?;
    assert_eq!(empty.numbers(), Numbers { range: 7, limit: 5, devices: 0, intervals: 0 });
    assert_eq!((empty.devices(), empty.intervals()), (vec![], vec![]));

    let three = Image::fresh(100, 16)?.add(1, 1_000)?.image.add(2, 1_000)?.image.add(3, 1_000)?.image;
    let two = three.remove(2)?;
    assert_eq!(two.moved, 33);
    let expected =
        [Move { start: 67, length: 16, from: 2, to: 1 }, Move { start: 83, length: 17, from: 2, to: 3 }];
    assert_eq!(two.moves, expected);
    assert_eq!(two.image.resize(3, 3_000)?.image, pool);
    assert_eq!(pool.remove(1)?.image.remove(3), Err(Refusal::OnlyDevice));

    let mut tally = Tally { lookups: 0, probes: u32::MAX };
    let copies: Copies = pool.copies(5, 2, &mut tally)?;
    assert_eq!(copies.owners.len(), 2);
    assert_eq!(tally, Tally { lookups: 1, probes: u32::MAX });
    let many = pool.copies_of_many(&[5, 6, 5], 2, &mut tally);
    assert_eq!((many.len(), &many[0], &many[2]), (3, &Ok(copies.clone()), &Ok(copies)));
    assert_eq!(tally.lookups, 4);
    assert_eq!(pool.copies(5, 3, &mut tally), Err(Refusal::TooFewOwners));
    assert_eq!(pool.copies_of_many(&[5], 9, &mut tally), [Err(Refusal::CopiesCount)]);
    assert_eq!(tally.lookups, 4);
    Ok(())
}

#[test]
fn refusals() {
    for number in 0..30 {
        match Refusal::of(number) {
            Some(refusal) => assert_eq!(refusal.number(), number),
            None => assert!(number == 0 || number > 17),
        }
    }
    let sentences: std::collections::BTreeSet<String> = Refusal::ALL.iter().map(Refusal::to_string).collect();
    assert_eq!(sentences.len(), 17);
    assert_eq!(Image::check(*b"RSL"), Err(Refusal::NoImage));
    assert_eq!(Image::fresh(0, 1), Err(Refusal::OutsideLimits));
    assert_eq!(Image::replay(&[b'\n'; 65_537]), Err(Refusal::OutsideLimits));
    let error: Box<dyn std::error::Error> = Image::fresh(1, 4_097).unwrap_err().into();
    assert_eq!(error.to_string(), "a number is outside its limits, or there are more than 65,536 bytes");
}
