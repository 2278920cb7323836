//! A change set over a frozen table (document 02, Req 12): when it is refused, the table with its rows written in, and
//! the row shown.
use crate::net::{self, Refused};

/// A change set's first bytes: the letters, version 1, sort 1. By themselves they are a set that changes nothing.
pub const HEAD: [u8; 6] = *b"RTN\x01\x00\x01";

/// An entry: a row number, and the row's 12 bytes.
pub fn entry(row: u16, bytes: &[u8]) -> Vec<u8> {
    [&row.to_le_bytes()[..], bytes].concat()
}

/// The entries, each a row number and 12 bytes, as far as they stand there whole: of any bytes.
fn entries(set: &[u8]) -> impl Iterator<Item = (usize, &[u8])> {
    let number = |e: &[u8]| u16::from_le_bytes([e[0], e[1]]) as usize;
    set.get(6..).unwrap_or(&[]).chunks_exact(14).map(move |e| (number(e), &e[2..]))
}

/// The changed table, after 1 to 6 of the table, 33, and 34; none of these names a row. Its header and size are the
/// table's, so that of 1 to 6 nothing can be said of it again.
pub fn changed(table: &[u8], set: &[u8]) -> Result<Vec<u8>, Refused> {
    let (n, _) = net::open(table)?;
    let refused = |number| Err(Refused { number, row: 0, ring: 0 });
    if !set.starts_with(&HEAD) || (set.len() - 6) % 14 != 0 {
        return refused(33);
    }
    let mut table = table.to_vec();
    let mut before = None;
    for (row, bytes) in entries(set) {
        if before.is_some_and(|before| row <= before) || row >= n - 1 {
            return refused(34);
        }
        before = Some(row);
        table[12 + 12 * row..24 + 12 * row].copy_from_slice(bytes);
    }
    Ok(table)
}

/// The row shown, of any bytes: the set's own where it has an entry, of several the first, else the table's own; none
/// where the table has no such row, whatever the set says.
pub fn shown<'a>(table: &'a [u8], set: &'a [u8], row: u64) -> &'a [u8] {
    let own = net::part(table, row);
    match entries(set).find(|(number, _)| *number as u64 == row) {
        Some((_, bytes)) if !own.is_empty() => bytes,
        _ => own,
    }
}
