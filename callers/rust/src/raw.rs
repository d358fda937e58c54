//! The calls of libgorvyts.a, declared as `gorvyts.h` has them, and for each a function over slices. No
//! other module has unsafe code.
//!
//! The header asks that pointers are not null, that a count is not above the elements behind its pointer,
//! and that the buffers of a call do not overlap. The pointer of a slice is never null, even of an empty one;
//! a `&mut` slice overlaps with no other; and the library holds no pointer after a call.

#![allow(unsafe_code)]

use crate::calls::PLACES;

extern "C" {
    fn gorvyts_check(image: *const u8, image_size: usize) -> u32;

    fn gorvyts_fresh(
        range: u64,
        limit: u64,
        image: *mut u8,
        image_size: usize,
        answer: *mut u64,
        answer_size: usize,
    ) -> u32;

    fn gorvyts_replay(
        text: *const u8,
        text_size: usize,
        image: *mut u8,
        image_size: usize,
        answer: *mut u64,
        answer_size: usize,
    ) -> u32;

    fn gorvyts_transcript(
        text: *const u8,
        text_size: usize,
        out: *mut u8,
        out_size: usize,
        answer: *mut u64,
        answer_size: usize,
    ) -> u32;

    fn gorvyts_numbers(image: *const u8, image_size: usize, answer: *mut u64, answer_size: usize) -> u32;

    fn gorvyts_share(
        image: *const u8,
        image_size: usize,
        id: u64,
        answer: *mut u64,
        answer_size: usize,
    ) -> u32;

    fn gorvyts_report(
        image: *const u8,
        image_size: usize,
        id: u64,
        answer: *mut u64,
        answer_size: usize,
        difference: *mut i64,
    ) -> u32;

    fn gorvyts_devices(image: *const u8, image_size: usize, rows: *mut u64, rows_size: usize) -> u32;

    fn gorvyts_intervals(image: *const u8, image_size: usize, rows: *mut u64, rows_size: usize) -> u32;

    fn gorvyts_add(
        image: *const u8,
        image_size: usize,
        id: u64,
        capacity: u64,
        next: *mut u8,
        next_size: usize,
        list: *mut u64,
        list_size: usize,
        answer: *mut u64,
        answer_size: usize,
    ) -> u32;

    fn gorvyts_remove(
        image: *const u8,
        image_size: usize,
        id: u64,
        next: *mut u8,
        next_size: usize,
        list: *mut u64,
        list_size: usize,
        answer: *mut u64,
        answer_size: usize,
    ) -> u32;

    fn gorvyts_resize(
        image: *const u8,
        image_size: usize,
        id: u64,
        capacity: u64,
        next: *mut u8,
        next_size: usize,
        list: *mut u64,
        list_size: usize,
        answer: *mut u64,
        answer_size: usize,
    ) -> u32;

    fn gorvyts_owner(
        image: *const u8,
        image_size: usize,
        point: u64,
        answer: *mut u64,
        answer_size: usize,
    ) -> u32;

    fn gorvyts_copies(
        image: *const u8,
        image_size: usize,
        block: u64,
        k: u64,
        tally: *mut u32,
        tally_size: usize,
        row: *mut u32,
        row_size: usize,
    ) -> u32;

    fn gorvyts_copies_of_many(
        image: *const u8,
        image_size: usize,
        blocks: *const u64,
        blocks_size: usize,
        k: u64,
        tally: *mut u32,
        tally_size: usize,
        rows: *mut u32,
        rows_size: usize,
    ) -> u32;

    fn gorvyts_open(
        image: *const u8,
        image_size: usize,
        starts: *mut u32,
        starts_size: usize,
        owners: *mut u16,
        owners_size: usize,
        numbers: *mut u64,
        numbers_size: usize,
    ) -> u32;

    fn gorvyts_owner_in(
        starts: *const u32,
        owners: *const u16,
        numbers: *const u64,
        point: u64,
        answer: *mut u64,
        answer_size: usize,
    ) -> u32;

    fn gorvyts_copies_in(
        starts: *const u32,
        owners: *const u16,
        numbers: *const u64,
        block: u64,
        k: u64,
        tally: *mut u32,
        tally_size: usize,
        row: *mut u32,
        row_size: usize,
    ) -> u32;
}

/// Whether the bytes are the image of a pool: 0, 14, 15 or 16.
pub fn check(image: &[u8]) -> u32 {
    // SAFETY: pointer and count are those of one slice, which is only read.
    unsafe { gorvyts_check(image.as_ptr(), image.len()) }
}

/// Writes the image of a fresh pool; `answer[0]` is its length. Refusals: 2, 17.
pub fn fresh(range: u64, limit: u64, image: &mut [u8], answer: &mut [u64]) -> u32 {
    // SAFETY: each pointer and count are those of one slice, and both slices are exclusive.
    unsafe { gorvyts_fresh(range, limit, image.as_mut_ptr(), image.len(), answer.as_mut_ptr(), answer.len()) }
}

/// Writes the image of the pool that a history leaves; `answer[0]` is its length. Refusals: 2, 17.
pub fn replay(text: &[u8], image: &mut [u8], answer: &mut [u64]) -> u32 {
    // SAFETY: each pointer and count are those of one slice; the text is only read, the others are exclusive.
    unsafe {
        gorvyts_replay(
            text.as_ptr(),
            text.len(),
            image.as_mut_ptr(),
            image.len(),
            answer.as_mut_ptr(),
            answer.len(),
        )
    }
}

/// Writes what `slices` prints of a history; `answer[0]` is its length. Refusals: 17, also for a buffer of
/// less than [`TRANSCRIPT_ROOM`](crate::calls::TRANSCRIPT_ROOM) bytes.
pub fn transcript(text: &[u8], out: &mut [u8], answer: &mut [u64]) -> u32 {
    // SAFETY: each pointer and count are those of one slice; the text is only read, the others are exclusive.
    unsafe {
        gorvyts_transcript(
            text.as_ptr(),
            text.len(),
            out.as_mut_ptr(),
            out.len(),
            answer.as_mut_ptr(),
            answer.len(),
        )
    }
}

/// Writes the numbers of a pool: `answer[0]` is the range, `answer[1]` the interval limit, `answer[2]` the number
/// of devices, `answer[3]` the number of intervals. Refusals: 14, 15, 16, 17.
pub fn numbers(image: &[u8], answer: &mut [u64]) -> u32 {
    // SAFETY: each pointer and count are those of one slice; the image is only read, the answer is exclusive.
    unsafe { gorvyts_numbers(image.as_ptr(), image.len(), answer.as_mut_ptr(), answer.len()) }
}

/// Writes the share of a device to `answer[0]`. Refusals: 14, 15, 16, 2, 5, 17.
pub fn share(image: &[u8], id: u64, answer: &mut [u64]) -> u32 {
    // SAFETY: each pointer and count are those of one slice; the image is only read, the answer is exclusive.
    unsafe { gorvyts_share(image.as_ptr(), image.len(), id, answer.as_mut_ptr(), answer.len()) }
}

/// Writes the report on a device: to `answer[0]` what it is exactly due, R × c divided by C as a whole number, to
/// `answer[1]` the remainder, to `difference` share × C − R × c. Refusals: 14, 15, 16, 2, 5, then all three are 0;
/// 17 for an answer of under two places, then the difference stays as well.
pub fn report(image: &[u8], id: u64, answer: &mut [u64], difference: &mut i64) -> u32 {
    // SAFETY: each pointer and count are those of one slice; the image is only read, the answer and the difference
    // are exclusive.
    unsafe { gorvyts_report(image.as_ptr(), image.len(), id, answer.as_mut_ptr(), answer.len(), difference) }
}

/// Writes three numbers for each device, by rising id: id, capacity, share. Refusals: 14, 15, 16, 17; then the
/// rows stay.
pub fn devices(image: &[u8], rows: &mut [u64]) -> u32 {
    // SAFETY: each pointer and count are those of one slice; the image is only read, the rows are exclusive.
    unsafe { gorvyts_devices(image.as_ptr(), image.len(), rows.as_mut_ptr(), rows.len()) }
}

/// Writes three numbers for each interval, by rising start: start, length, owner. Refusals: 14, 15, 16, 17; then
/// the rows stay.
pub fn intervals(image: &[u8], rows: &mut [u64]) -> u32 {
    // SAFETY: each pointer and count are those of one slice; the image is only read, the rows are exclusive.
    unsafe { gorvyts_intervals(image.as_ptr(), image.len(), rows.as_mut_ptr(), rows.len()) }
}

/// Adds a device: the image of the changed pool goes to `next` and the moves, four numbers each (start,
/// length, old owner, new owner), to `list`. `answer[0]` is the length of the image, `answer[1]` the moved
/// points, `answer[2]` the number of moves. Refusals: 14, 15, 16, 2, 4, 6, 8, 9, 17.
pub fn add(
    image: &[u8],
    id: u64,
    capacity: u64,
    next: &mut [u8],
    list: &mut [u64],
    answer: &mut [u64],
) -> u32 {
    // SAFETY: each pointer and count are those of one slice; the image is only read, the others are exclusive.
    unsafe {
        gorvyts_add(
            image.as_ptr(),
            image.len(),
            id,
            capacity,
            next.as_mut_ptr(),
            next.len(),
            list.as_mut_ptr(),
            list.len(),
            answer.as_mut_ptr(),
            answer.len(),
        )
    }
}

/// Removes a device; buffers as of [`add`]. Refusals: 14, 15, 16, 2, 5, 7, 8, 9, 17.
pub fn remove(image: &[u8], id: u64, next: &mut [u8], list: &mut [u64], answer: &mut [u64]) -> u32 {
    // SAFETY: each pointer and count are those of one slice; the image is only read, the others are exclusive.
    unsafe {
        gorvyts_remove(
            image.as_ptr(),
            image.len(),
            id,
            next.as_mut_ptr(),
            next.len(),
            list.as_mut_ptr(),
            list.len(),
            answer.as_mut_ptr(),
            answer.len(),
        )
    }
}

/// Gives a device another capacity; buffers as of [`add`]. Refusals: 14, 15, 16, 2, 5, 8, 9, 17.
pub fn resize(
    image: &[u8],
    id: u64,
    capacity: u64,
    next: &mut [u8],
    list: &mut [u64],
    answer: &mut [u64],
) -> u32 {
    // SAFETY: each pointer and count are those of one slice; the image is only read, the others are exclusive.
    unsafe {
        gorvyts_resize(
            image.as_ptr(),
            image.len(),
            id,
            capacity,
            next.as_mut_ptr(),
            next.len(),
            list.as_mut_ptr(),
            list.len(),
            answer.as_mut_ptr(),
            answer.len(),
        )
    }
}

/// Writes the owner of a point to `answer[0]`. Refusals: 14, 15, 16, 13, 10, 17.
pub fn owner(image: &[u8], point: u64, answer: &mut [u64]) -> u32 {
    // SAFETY: each pointer and count are those of one slice; the image is only read, the answer is exclusive.
    unsafe { gorvyts_owner(image.as_ptr(), image.len(), point, answer.as_mut_ptr(), answer.len()) }
}

/// Writes the k devices that hold the copies of a block: `row[0]` is the number that is returned, `row[1]` to
/// `row[8]` are the owners and then zeros, `row[9]` is the probes made. An accepted lookup is added to the
/// tally, two numbers. Refusals: 14, 15, 16, 11, 10, 12, 17.
pub fn copies(image: &[u8], block: u64, k: u64, tally: &mut [u32], row: &mut [u32]) -> u32 {
    // SAFETY: each pointer and count are those of one slice; the image is only read, the others are exclusive.
    unsafe {
        gorvyts_copies(
            image.as_ptr(),
            image.len(),
            block,
            k,
            tally.as_mut_ptr(),
            tally.len(),
            row.as_mut_ptr(),
            row.len(),
        )
    }
}

/// Writes ten numbers for each block, as [`copies`] does, one block after another. Returns 0 though rows may
/// hold refusals. Refusals: 14, 15, 16, 17; then rows and tally stay.
pub fn copies_of_many(image: &[u8], blocks: &[u64], k: u64, tally: &mut [u32], rows: &mut [u32]) -> u32 {
    // SAFETY: each pointer and count are those of one slice; image and blocks are only read, the others are
    // exclusive.
    unsafe {
        gorvyts_copies_of_many(
            image.as_ptr(),
            image.len(),
            blocks.as_ptr(),
            blocks.len(),
            k,
            tally.as_mut_ptr(),
            tally.len(),
            rows.as_mut_ptr(),
            rows.len(),
        )
    }
}

/// Opens an image for many lookups: the first [`PLACES`] places of `starts` and `owners` become those of its
/// intervals and then zeros; `numbers[0]` is the range, `numbers[1]` the intervals, `numbers[2]` the devices.
/// Refusals: 17; 14, 15, 16, then the numbers are zeros and the arrays stay.
pub fn open(image: &[u8], starts: &mut [u32], owners: &mut [u16], numbers: &mut [u64]) -> u32 {
    // SAFETY: each pointer and count are those of one slice; the image is only read, the others are exclusive.
    unsafe {
        gorvyts_open(
            image.as_ptr(),
            image.len(),
            starts.as_mut_ptr(),
            starts.len(),
            owners.as_mut_ptr(),
            owners.len(),
            numbers.as_mut_ptr(),
            numbers.len(),
        )
    }
}

/// Writes the owner of a point of an opened pool to `answer[0]`. Refusals: 13, 10, 17.
pub fn owner_in(
    starts: &[u32; PLACES],
    owners: &[u16; PLACES],
    numbers: &[u64; 3],
    point: u64,
    answer: &mut [u64],
) -> u32 {
    // SAFETY: the arrays have the places that the header asks, and are only read; the answer is one exclusive slice.
    unsafe {
        gorvyts_owner_in(
            starts.as_ptr(),
            owners.as_ptr(),
            numbers.as_ptr(),
            point,
            answer.as_mut_ptr(),
            answer.len(),
        )
    }
}

/// Writes the copies of a block of an opened pool; tally and row as of [`copies`]. Refusals: 11, 10, 12, 17.
pub fn copies_in(
    starts: &[u32; PLACES],
    owners: &[u16; PLACES],
    numbers: &[u64; 3],
    block: u64,
    k: u64,
    tally: &mut [u32],
    row: &mut [u32],
) -> u32 {
    // SAFETY: the arrays have the places that the header asks, and are only read; tally and row are exclusive slices.
    unsafe {
        gorvyts_copies_in(
            starts.as_ptr(),
            owners.as_ptr(),
            numbers.as_ptr(),
            block,
            k,
            tally.as_mut_ptr(),
            tally.len(),
            row.as_mut_ptr(),
            row.len(),
        )
    }
}
