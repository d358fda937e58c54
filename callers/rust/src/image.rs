use crate::calls::{self, DEVICES_MOST, IMAGE_MOST, INTERVALS_MOST, MOVES_MOST, PLACES, TRANSCRIPT_ROOM};
use crate::Refusal;

/// The image of a pool: bytes that the library made or accepted.
#[derive(Clone, Debug, PartialEq, Eq, Hash)]
pub struct Image {
    bytes: Vec<u8>,
}

/// The pool of an image, opened for many lookups: the image was read and checked once.
#[derive(Clone, Debug, PartialEq, Eq)]
pub struct Opened {
    starts: Box<[u32; PLACES]>,
    owners: Box<[u16; PLACES]>,
    numbers: [u64; 3],
}

/// An accepted change.
#[derive(Clone, Debug, PartialEq, Eq, Hash)]
pub struct Change {
    /// The changed pool.
    pub image: Image,
    /// What to move, lowest start first: exactly the points whose owner changed.
    pub moves: Vec<Move>,
    /// The number of points in the moves.
    pub moved: u64,
}

/// Points that go from one device to another.
#[derive(Clone, Copy, Debug, PartialEq, Eq, Hash)]
pub struct Move {
    /// The first point.
    pub start: u64,
    /// The number of points, at least 1.
    pub length: u64,
    /// The id of the old owner.
    pub from: u64,
    /// The id of the new owner.
    pub to: u64,
}

/// The numbers of a pool.
#[derive(Clone, Copy, Debug, PartialEq, Eq, Hash)]
pub struct Numbers {
    /// The range R: the points are those below it.
    pub range: u64,
    /// The interval limit M.
    pub limit: u64,
    /// The number of devices.
    pub devices: u64,
    /// The number of intervals.
    pub intervals: u64,
}

/// A device of a pool.
#[derive(Clone, Copy, Debug, PartialEq, Eq, Hash)]
pub struct DeviceRow {
    /// The id.
    pub id: u64,
    /// The capacity, in thousandths of a TB.
    pub capacity: u64,
    /// The number of points that it owns.
    pub share: u64,
}

/// How far the share of a device lies from what it is exactly due: R × c / C, where c is its capacity and C the sum of
/// all capacities.
#[derive(Clone, Copy, Debug, PartialEq, Eq, Hash)]
pub struct Report {
    /// R × c divided by C, as a whole number.
    pub whole: u64,
    /// The remainder of that division.
    pub remainder: u64,
    /// share × C − R × c: strictly between −C and n × C for n devices, and 0 only where the remainder is 0. Those of
    /// all devices of a pool add up to 0.
    pub difference: i64,
}

/// An interval of a pool's table.
#[derive(Clone, Copy, Debug, PartialEq, Eq, Hash)]
pub struct IntervalRow {
    /// The first point.
    pub start: u64,
    /// The number of points, at least 1.
    pub length: u64,
    /// The id of the device that owns them.
    pub owner: u64,
}

/// Where the copies of a block are.
#[derive(Clone, Debug, PartialEq, Eq, Hash)]
pub struct Copies {
    /// The ids of as many different devices as copies were asked for, in the order of the tries.
    pub owners: Vec<u64>,
    /// The tries made.
    pub probes: u32,
}

/// Accepted lookups of copies and their tries; each number stays at 4,294,967,295.
#[derive(Clone, Copy, Debug, Default, PartialEq, Eq, Hash)]
pub struct Tally {
    /// The lookups.
    pub lookups: u32,
    /// Their tries.
    pub probes: u32,
}

impl Image {
    /// The bytes as an image. Refusals: 14, 15 for a version other than 2, 16.
    pub fn check(bytes: impl Into<Vec<u8>>) -> Result<Image, Refusal> {
        let bytes = bytes.into();
        Refusal::unless_accepted(calls::check(&bytes))?;
        Ok(Image { bytes })
    }

    /// A pool without a device, of range R (1 to 4,294,967,296) and interval limit M (1 to 4,096).
    /// Refusals: 2.
    pub fn fresh(range: u64, limit: u64) -> Result<Image, Refusal> {
        Image::made(|image, answer| calls::fresh(range, limit, image, answer))
    }

    /// The pool that a history leaves. Lines that are refused change nothing; [`transcript`] names them.
    /// Refusals: 2 for more than 65,536 bytes.
    pub fn replay(text: &[u8]) -> Result<Image, Refusal> {
        Image::made(|image, answer| calls::replay(text, image, answer))
    }

    /// The bytes.
    pub fn as_bytes(&self) -> &[u8] {
        &self.bytes
    }

    /// The bytes.
    pub fn into_bytes(self) -> Vec<u8> {
        self.bytes
    }

    /// Range, limit, number of devices and number of intervals.
    pub fn numbers(&self) -> Numbers {
        let mut answer = [0; 4];
        let number = calls::numbers(&self.bytes, &mut answer);
        assert_eq!(number, 0, "an image was refused, or its answer");
        let [range, limit, devices, intervals] = answer;
        Numbers { range, limit, devices, intervals }
    }

    /// The number of points that a device owns. Refusals: 2, 5.
    pub fn share(&self, id: u64) -> Result<u64, Refusal> {
        let mut answer = [0];
        Refusal::unless_accepted(calls::share(&self.bytes, id, &mut answer))?;
        Ok(answer[0])
    }

    /// What a device is exactly due, and how far its share lies from that. Refusals: 2, 5.
    pub fn report(&self, id: u64) -> Result<Report, Refusal> {
        let (mut answer, mut difference) = ([0; 2], 0);
        Refusal::unless_accepted(calls::report(&self.bytes, id, &mut answer, &mut difference))?;
        let [whole, remainder] = answer;
        Ok(Report { whole, remainder, difference })
    }

    /// The devices, by rising id.
    pub fn devices(&self) -> Vec<DeviceRow> {
        let rows = self.rows(DEVICES_MOST, calls::devices);
        // Past the last row the places are still 0, and no id is.
        let rows = rows.chunks_exact(3).take_while(|row| row[0] != 0);
        rows.map(|row| DeviceRow { id: row[0], capacity: row[1], share: row[2] }).collect()
    }

    /// The intervals, by rising start.
    pub fn intervals(&self) -> Vec<IntervalRow> {
        let rows = self.rows(INTERVALS_MOST, calls::intervals);
        // Past the last row the places are still 0, and no length is.
        let rows = rows.chunks_exact(3).take_while(|row| row[1] != 0);
        rows.map(|row| IntervalRow { start: row[0], length: row[1], owner: row[2] }).collect()
    }

    /// The pool with a further device; the capacity is in thousandths of a TB, 1 to [`calls::CAPACITY_MOST`].
    /// Refusals: 2, 4, 6, 8.
    pub fn add(&self, id: u64, capacity: u64) -> Result<Change, Refusal> {
        Image::changed(|next, list, answer| calls::add(&self.bytes, id, capacity, next, list, answer))
    }

    /// The pool without a device. Refusals: 2, 5, 7, 8.
    pub fn remove(&self, id: u64) -> Result<Change, Refusal> {
        Image::changed(|next, list, answer| calls::remove(&self.bytes, id, next, list, answer))
    }

    /// The pool with another capacity of a device, in thousandths of a TB, 1 to [`calls::CAPACITY_MOST`].
    /// Refusals: 2, 5, 8.
    pub fn resize(&self, id: u64, capacity: u64) -> Result<Change, Refusal> {
        Image::changed(|next, list, answer| calls::resize(&self.bytes, id, capacity, next, list, answer))
    }

    /// The id of the device that owns a point. Refusals: 13, 10.
    pub fn owner(&self, point: u64) -> Result<u64, Refusal> {
        let mut answer = [0];
        Refusal::unless_accepted(calls::owner(&self.bytes, point, &mut answer))?;
        Ok(answer[0])
    }

    /// The k devices (1 to 8) that hold the copies of a block. Refusals: 11, 10, 12; then the tally stays.
    pub fn copies(&self, block: u64, k: u64, tally: &mut Tally) -> Result<Copies, Refusal> {
        let mut row = [0; ROW];
        tally.lend(|tally| calls::copies(&self.bytes, block, k, tally, &mut row));
        Copies::of_row(&row)
    }

    /// The same for each of many blocks, in their order.
    pub fn copies_of_many(&self, blocks: &[u64], k: u64, tally: &mut Tally) -> Vec<Result<Copies, Refusal>> {
        let mut rows = vec![0; ROW * blocks.len()];
        let number = tally.lend(|tally| calls::copies_of_many(&self.bytes, blocks, k, tally, &mut rows));
        assert_eq!(number, 0, "an image was refused, or its rows");
        rows.chunks_exact(ROW).map(Copies::of_row).collect()
    }

    /// The pool, opened: its lookups answer as those of the image do.
    pub fn open(&self) -> Opened {
        let (mut starts, mut owners) = (Box::new([0; PLACES]), Box::new([0; PLACES]));
        let mut numbers = [0; 3];
        let number = calls::open(&self.bytes, &mut starts[..], &mut owners[..], &mut numbers);
        assert_eq!(number, 0, "an image was refused, or its arrays");
        Opened { starts, owners, numbers }
    }

    fn rows(&self, most: usize, call: impl FnOnce(&[u8], &mut [u64]) -> u32) -> Vec<u64> {
        let mut rows = vec![0; 3 * most];
        let number = call(&self.bytes, &mut rows);
        assert_eq!(number, 0, "an image was refused, or its rows");
        rows
    }

    fn made(call: impl FnOnce(&mut [u8], &mut [u64]) -> u32) -> Result<Image, Refusal> {
        let mut bytes = vec![0; IMAGE_MOST];
        let mut answer = [0];
        Refusal::unless_accepted(call(&mut bytes, &mut answer))?;
        bytes.truncate(answer[0] as usize);
        Ok(Image { bytes })
    }

    fn changed(call: impl FnOnce(&mut [u8], &mut [u64], &mut [u64]) -> u32) -> Result<Change, Refusal> {
        let mut bytes = vec![0; IMAGE_MOST];
        let mut list = vec![0; 4 * MOVES_MOST];
        let mut answer = [0; 3];
        Refusal::unless_accepted(call(&mut bytes, &mut list, &mut answer))?;
        let [length, moved, moves] = answer;
        bytes.truncate(length as usize);
        let moves = list.chunks_exact(4).take(moves as usize).map(|place| Move {
            start: place[0],
            length: place[1],
            from: place[2],
            to: place[3],
        });
        Ok(Change { image: Image { bytes }, moves: moves.collect(), moved })
    }
}

impl Opened {
    /// The id of the device that owns a point. Refusals: 13, 10.
    pub fn owner(&self, point: u64) -> Result<u64, Refusal> {
        let mut answer = [0];
        let number = calls::owner_in(&self.starts, &self.owners, &self.numbers, point, &mut answer);
        Refusal::unless_accepted(number)?;
        Ok(answer[0])
    }

    /// The k devices (1 to 8) that hold the copies of a block. Refusals: 11, 10, 12; then the tally stays.
    pub fn copies(&self, block: u64, k: u64, tally: &mut Tally) -> Result<Copies, Refusal> {
        let mut row = [0; ROW];
        tally.lend(|tally| {
            calls::copies_in(&self.starts, &self.owners, &self.numbers, block, k, tally, &mut row)
        });
        Copies::of_row(&row)
    }
}

impl AsRef<[u8]> for Image {
    fn as_ref(&self) -> &[u8] {
        &self.bytes
    }
}

/// What `slices` prints of a history: for each line its number, its refusal number or 0, the moved points and
/// the number of moves; then the table. Of more than 65,536 bytes it prints `too long` alone.
pub fn transcript(text: &[u8]) -> Vec<u8> {
    let mut out = vec![0; TRANSCRIPT_ROOM];
    let mut answer = [0];
    let number = calls::transcript(text, &mut out, &mut answer);
    assert_eq!(number, 0, "a buffer with room for every transcript was refused");
    out.truncate(answer[0] as usize);
    out
}

/// The numbers of a row: the refusal number or 0, eight owners, the probes.
const ROW: usize = 10;

impl Copies {
    fn of_row(row: &[u32]) -> Result<Copies, Refusal> {
        Refusal::unless_accepted(row[0])?;
        let owners = row[1..9].iter().take_while(|&&id| id != 0).map(|&id| u64::from(id));
        Ok(Copies { owners: owners.collect(), probes: row[9] })
    }
}

impl Tally {
    fn lend<T>(&mut self, call: impl FnOnce(&mut [u32]) -> T) -> T {
        let mut numbers = [self.lookups, self.probes];
        let result = call(&mut numbers);
        [self.lookups, self.probes] = numbers;
        result
    }
}
