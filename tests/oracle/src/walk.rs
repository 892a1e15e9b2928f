//! The page walk: document 01, "Page walk".

use crate::entry::get;

/// What a walk found: for each page the address and the byte count, and how many list
/// entries were read, pointers included.
pub struct Walk {
    pub pages: Vec<(u64, u64)>,
    pub reads: u64,
}

/// The bytes of room for addresses and for counts.
pub struct Rooms {
    pub addresses: u64,
    pub counts: u64,
}

/// "page walk 20, 22, then 18 for PRP1, 21, then 18 before 19 at each later pointer or entry
/// in reading order".
pub fn walk(
    memory: &[u8],
    prp1: u64,
    prp2: u64,
    length: u64,
    page_number: u64,
    rooms: Rooms,
) -> Result<Walk, u64> {
    if !(1..=1_048_576).contains(&length) {
        return Err(20);
    }
    if page_number > 4 {
        return Err(22);
    }
    // "PRP1 is a multiple of 4."
    if prp1 % 4 != 0 {
        return Err(18);
    }
    let page = 4096u64 << page_number;
    let n = touched(prp1, length, page);
    // "21 if either buffer has room for fewer; for the rig 8 and 4 bytes each".
    if rooms.addresses < 8 * n || rooms.counts < 4 * n {
        return Err(21);
    }
    let mut addresses = vec![prp1];
    let mut entries = Vec::new();
    match n {
        // "N = 1 ignores PRP2".
        1 => {}
        // "N = 2 takes PRP2 as a page with offset 0".
        2 => addresses.push(at_offset_0(prp2, page)?),
        _ => read_list(memory, prp2, page, n, &mut entries)?,
    };
    addresses.extend(entries.iter().filter(|entry| !entry.points).map(|entry| entry.value));
    Ok(Walk { pages: counted(addresses, length, page), reads: entries.len() as u64 })
}

/// The number of pages that so many bytes from an address on touch.
pub fn touched(address: u64, length: u64, page: u64) -> u64 {
    (address % page + length).div_ceil(page)
}

/// Gives each address its byte count: the first as far as its page goes, the others a page
/// each, the last what is left.
fn counted(addresses: Vec<u64>, length: u64, page: u64) -> Vec<(u64, u64)> {
    let mut left = length;
    let mut room = page - addresses[0] % page;
    let mut pages = Vec::with_capacity(addresses.len());
    for address in addresses {
        let count = left.min(room);
        pages.push((address, count));
        left -= count;
        room = page;
    }
    pages
}

fn at_offset_0(address: u64, page: u64) -> Result<u64, u64> {
    if address % page == 0 {
        Ok(address)
    } else {
        Err(18)
    }
}

/// "PRP list entry not wholly in memory": 19.
fn entry(memory: &[u8], at: u64) -> Result<u64, u64> {
    let at = usize::try_from(at).map_err(|_| 19u64)?;
    let end = at.checked_add(8).ok_or(19u64)?;
    if end > memory.len() {
        return Err(19);
    }
    Ok(get(memory, at, 8))
}

/// An entry of a list: where it stands, what stands in it, and whether it points to the next
/// list.
pub struct Listed {
    pub at: u64,
    pub value: u64,
    pub points: bool,
}

/// Reads the list for `n` pages of data, entry by entry, up to the first that is refused.
/// "N of 3 or more takes it as a list address, a multiple of 8, any offset in its page."
pub fn read_list(
    memory: &[u8],
    list: u64,
    page: u64,
    n: u64,
    entries: &mut Vec<Listed>,
) -> Result<(), u64> {
    if list % 8 != 0 {
        return Err(18);
    }
    let mut at = list;
    let mut left = n - 1;
    // "The walk ends at the entry that covers the last byte."
    while left > 0 {
        let value = entry(memory, at)?;
        // "The last entry of a list page points to the next list, at offset 0, exactly if
        // more than one page of data is left."
        let points = at % page == page - 8 && left > 1;
        entries.push(Listed { at, value, points });
        // "List entries have offset 0."
        at_offset_0(value, page)?;
        if points {
            at = value;
        } else {
            at += 8;
            left -= 1;
        }
    }
    Ok(())
}
