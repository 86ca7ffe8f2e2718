//! Lists that ascend by their atoms, each row packed into one number: its atoms high, the rest low.

/// What became of a row.
pub enum Put {
    Added,
    /// The row that stands there with the same atoms.
    Found(i32),
    Full,
}

/// Lower and higher atom as one number.
#[inline]
pub fn two(one: i32, other: i32) -> i32 {
    1024 * one.min(other) + one.max(other)
}

/// Puts a row at its place; the lowest `bits` of a row are not part of its atoms.
#[inline]
pub fn put(list: &mut [i32], count: &mut usize, row: i32, bits: u32) -> Put {
    let used = *count;
    let key = row >> bits;
    if used == 0 || list[used - 1] >> bits < key {
        if used == list.len() {
            return Put::Full;
        }
        list[used] = row;
        *count += 1;
        return Put::Added;
    }
    put_among(list, count, row, bits)
}

fn put_among(list: &mut [i32], count: &mut usize, row: i32, bits: u32) -> Put {
    let used = *count;
    match list[..used].binary_search_by_key(&(row >> bits), |other| other >> bits) {
        Ok(found) => Put::Found(list[found]),
        Err(_) if used == list.len() => Put::Full,
        Err(place) => {
            list.copy_within(place..used, place + 1);
            list[place] = row;
            *count += 1;
            Put::Added
        }
    }
}
