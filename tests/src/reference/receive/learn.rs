//! Steps 1 and 2 of docs/PROTOCOL.md, 'Learning': the rows of the subject (`path.end`) and of the
//! transmitter.

use std::iter;

use super::Reception;
use super::path::Path;
use crate::answers::{ABOUT_ITSELF, NO_ROOM, STALE};
use crate::reference::refusal::ensure;
use crate::reference::table::{FREE, Head, Row, Table, VALID, write_head, write_row};
use crate::reference::{HopCount, Refusal, checks};

/// A row and its place.
type Placed = (usize, Row);

impl Reception<'_> {
    /// Judges the path by the state, stores rows and clock, and returns the head.
    pub(super) fn learn(&mut self, path: &Path) -> Result<Head, Refusal> {
        let head = checks::head_at(self.clock, self.transmitter, &self.table())?;
        ensure(path.end != head.own, ABOUT_ITSELF)?;
        let (end, transmitter) = self.rows_learnt(path)?;
        for (place, row) in iter::once(end).chain(transmitter) {
            write_row(self.octets, place, &row);
        }
        write_head(self.octets, &head);
        Ok(head)
    }

    /// Returns the subject's row, and the transmitter's row unless it stays as it is. A new row of
    /// the subject takes its free place before a new row of the transmitter.
    fn rows_learnt(&self, path: &Path) -> Result<(Placed, Option<Placed>), Refusal> {
        let table = self.table();
        let held = table.row_for(path.end);
        let stale = held.is_some_and(|(_, row)| is_stale(path, &row));
        ensure(!stale, STALE)?;
        let mut free = table.free_places();
        let (place, row) = held_or_free(held, &mut free)?;
        let end = self.towards_end(&row, path);
        let transmitter = self.row_of_transmitter(path, &table, &mut free)?;
        Ok(((place, end), transmitter))
    }

    /// Step 1.
    fn towards_end(&self, row: &Row, path: &Path) -> Row {
        Row {
            status: VALID,
            number_known: 1,
            hop_count: path.hop_count,
            zero: 0,
            destination: path.end,
            next_hop: self.transmitter,
            number: path.number,
            metric: path.metric,
            expiry: self.expiry(row, path.lifetime),
        }
    }

    /// Step 2. Returns none if the transmitter is the subject or its row is left alone.
    fn row_of_transmitter(
        &self,
        path: &Path,
        table: &Table,
        free: &mut impl Iterator<Item = usize>,
    ) -> Result<Option<Placed>, Refusal> {
        if self.transmitter == path.end {
            return Ok(None);
        }
        let (place, row) = held_or_free(table.row_for(self.transmitter), free)?;
        let row = self
            .link_counts_for(&row)
            .then(|| self.towards_transmitter(&row, path.lifetime));
        Ok(row.map(|row| (place, row)))
    }

    /// Reports whether the link replaces what the transmitter's row says. At an equal metric an
    /// active row stays as it is, its expiry too.
    fn link_counts_for(&self, row: &Row) -> bool {
        if row.status == FREE {
            true
        } else if row.is_active(self.clock) {
            self.link < row.metric
        } else {
            !row.has_known_number() || self.link <= row.metric
        }
    }

    /// Returns a row straight to the transmitter. A known number stays; a free row has none.
    fn towards_transmitter(&self, row: &Row, lifetime: u32) -> Row {
        Row {
            status: VALID,
            hop_count: HopCount(1),
            destination: self.transmitter,
            next_hop: self.transmitter,
            metric: self.link,
            expiry: self.expiry(row, lifetime),
            ..*row
        }
    }

    /// Returns the new expiry, which is no earlier than the expiry of a row that is still active.
    fn expiry(&self, row: &Row, lifetime: u32) -> u64 {
        let expiry = self.clock + u64::from(lifetime);
        if row.is_active(self.clock) {
            expiry.max(row.expiry)
        } else {
            expiry
        }
    }
}

/// Refusal 25, for rows of any status. The draft has no test of the metric for a RREP;
/// docs/PROTOCOL.md has it for all three types ('Departures from the draft').
fn is_stale(path: &Path, row: &Row) -> bool {
    let same = path.number == row.number;
    row.has_known_number()
        && (path.number.is_older_than(row.number) || same && path.metric >= row.metric)
}

/// Returns the held row of an address, or the next free one.
fn held_or_free(
    held: Option<Placed>,
    free: &mut impl Iterator<Item = usize>,
) -> Result<Placed, Refusal> {
    let free_row = || free.next().map(|place| (place, Row::default()));
    held.or_else(free_row).ok_or(NO_ROOM)
}
