// The cut of an interval and rows of devices, with the steps of the crate slicing_core.
pub fn insert_row(rows: &[u64; 256], p: usize, value: u64) -> [u64; 256] {
    let mut into = [0; 256];
    for i in 0..256 {
        into[i] = if i < p {
            rows[i]
        } else if i == p {
            value
        } else {
            rows[i - 1]
        };
    }
    into
}

pub fn delete_row(rows: &[u64; 256], p: usize) -> [u64; 256] {
    let mut into = [0; 256];
    for i in 0..255 {
        into[i] = if i < p { rows[i] } else { rows[i + 1] };
    }
    into
}

// The points kept in front, taken and kept behind; the flag afterwards; whether the gap ends where
// the next interval begins.
pub struct Cut {
    pub front: u64,
    pub gap: u64,
    pub back: u64,
    pub flag: bool,
    pub touch: bool,
}

pub fn cut_interval(release: u64, size: u64, flag: bool, touch: bool) -> Cut {
    if release == 0 {
        return Cut { front: size, gap: 0, back: 0, flag, touch: false };
    }
    if size <= release {
        return Cut { front: 0, gap: size, back: 0, flag: true, touch: true };
    }
    if touch {
        return Cut { front: 0, gap: release, back: size - release, flag, touch: false };
    }
    if flag {
        return Cut { front: 0, gap: release, back: size - release, flag: false, touch: false };
    }
    Cut { front: size - release, gap: release, back: 0, flag: true, touch: true }
}

pub fn outside(most: u64, x: u64) -> bool {
    x < 1 || most < x
}
