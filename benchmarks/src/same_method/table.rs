//! Checks that octets are a table, and searches it.

pub const HEAD: usize = 32;
pub const ROW: usize = 32;

pub fn u32_at(octets: &[u8], at: usize) -> u32 {
    u32::from_le_bytes(octets[at..at + 4].try_into().unwrap())
}

pub fn u64_at(octets: &[u8], at: usize) -> u64 {
    u64::from_le_bytes(octets[at..at + 8].try_into().unwrap())
}

/// Returns an address as a little-endian number of 48 bits.
pub fn address(octets: &[u8]) -> u64 {
    let low = u32::from_le_bytes(octets[..4].try_into().unwrap());
    let high = u16::from_le_bytes(octets[4..6].try_into().unwrap());
    u64::from(low) | u64::from(high) << 32
}

pub fn individual(address: u64) -> bool {
    address & 1 == 0 && address != 0
}

pub fn length_fits(length: usize) -> bool {
    (HEAD + ROW..=HEAD + 128 * ROW).contains(&length) && length.is_multiple_of(ROW)
}

fn head_fits(head: &[u8]) -> bool {
    individual(address(head))
        && head[6] | head[7] == 0
        && u64_at(head, 16) < 1 << 48
        && u64_at(head, 24) == 0
}

fn held_row_fits(row: &[u8], own: u64) -> bool {
    let destination = address(&row[4..]);
    let next_hop = address(&row[10..]);
    let unknown_fits =
        row[1] == 1 || u32_at(row, 16) == 0 && row[2] == 1 && next_hop == destination;
    row[0] <= 2
        && row[1] <= 1
        && row[3] == 0
        && individual(destination)
        && destination != own
        && individual(next_hop)
        && next_hop != own
        && u32_at(row, 20) >= 1
        && u64_at(row, 24) <= (1 << 48) + (1 << 32)
        && unknown_fits
}

fn is_free(row: &[u8]) -> bool {
    (0..4).all(|part| u64_at(row, 8 * part) == 0)
}

/// A free row has destination 0, so a search for an individual address passes over it.
pub fn row_for(rows: &[u8], destination: u64) -> Option<usize> {
    rows.chunks_exact(ROW)
        .position(|row| address(&row[4..]) == destination)
}

/// Returns the mark of a destination. `marks` is how many there are, a power of two.
fn mark_of(destination: u64, marks: usize) -> usize {
    (destination * 40503 >> 40) as usize & (marks - 1)
}

fn rows_fit(rows: &[u8], own: u64, marks: &mut [u8]) -> bool {
    for (place, row) in rows.chunks_exact(ROW).enumerate() {
        if row[0] == 0 {
            if !is_free(row) {
                return false;
            }
            continue;
        }
        if !held_row_fits(row, own) {
            return false;
        }
        let destination = address(&row[4..]);
        let mark = &mut marks[mark_of(destination, marks.len())];
        if *mark != 0 && row_for(&rows[..place * ROW], destination).is_some() {
            return false;
        }
        *mark = 1;
    }
    true
}

/// A table of few rows uses few marks, because all of them must be cleared first.
pub fn is_table(table: &[u8]) -> bool {
    if !head_fits(table) {
        return false;
    }
    let own = address(table);
    let rows = &table[HEAD..];
    match rows.len() / ROW {
        ..=4 => rows_fit(rows, own, &mut [0; 64]),
        5..=16 => rows_fit(rows, own, &mut [0; 256]),
        _ => rows_fit(rows, own, &mut [0; 1024]),
    }
}
