use crate::random::Random;
use crate::reference::table::{CLOCK_MAX, Head, Row, Table};
use crate::tables::{boundary32, individual};

/// What a table tells about operands that suit it. Octets that are not a table tell little.
pub(super) struct Known {
    pub head: Head,
    pub rows: Vec<Row>,
}

impl Known {
    pub fn of(octets: &[u8]) -> Known {
        let table = Table::cut(octets);
        Known {
            head: table.as_ref().map(Table::head).unwrap_or_default(),
            rows: table.map_or(Vec::new(), |table| {
                table.rows().filter(Row::is_held).collect()
            }),
        }
    }

    /// Returns a held row, or the zeros of a free row if there is none.
    pub fn some_row(&self, random: &mut Random) -> Row {
        match self.rows[..] {
            [] => Row::default(),
            _ => random.pick(&self.rows),
        }
    }

    pub fn row_for(&self, destination: [u8; 6]) -> Option<&Row> {
        self.rows
            .iter()
            .find(|row| row.destination.0 == destination)
    }

    /// Returns the number that the table holds for an address, or 0.
    pub fn number_for(&self, address: [u8; 6]) -> u32 {
        if address == self.head.own.0 {
            self.head.number.0
        } else {
            self.row_for(address).map_or(0, |row| row.number.0)
        }
    }

    /// Returns a clock at the latest clock or soon after it, or close to the expiry of a row.
    pub fn some_clock(&self, random: &mut Random) -> u64 {
        let latest = self.head.latest_clock;
        let expiry = self.some_row(random).expiry;
        let at = random.pick(&[latest, latest, latest, expiry]);
        let just_before = at.saturating_sub(1);
        let clock = just_before.saturating_add(random.pick(&[0, 0, 1, 2]));
        clock.clamp(latest.min(CLOCK_MAX), CLOCK_MAX)
    }

    /// Returns a neighbour that rows lead through, one with its own row, or a new one.
    pub fn some_transmitter(&self, random: &mut Random) -> [u8; 6] {
        let (next_hop, destination) = (
            self.some_row(random).next_hop,
            self.some_row(random).destination,
        );
        let new = individual(random);
        let transmitter = random.pick(&[next_hop, next_hop, next_hop, destination, new]);
        if transmitter.is_individual() {
            transmitter.0
        } else {
            new.0
        }
    }

    /// Returns a link metric that is small, or near the metric of the transmitter's own row, or at
    /// an edge of the range.
    pub fn some_link_metric(&self, transmitter: [u8; 6], random: &mut Random) -> u32 {
        let own_row = self.row_for(transmitter).map_or(1, |row| row.metric.0);
        let (near, edge) = (
            own_row.wrapping_add(random.pick(&[0, 1, u32::MAX])),
            boundary32(random),
        );
        random.pick(&[1, 7, near, near, near, edge]).max(1)
    }

    /// Returns the source of a reply: this point, one that a row leads to, the transmitter, or a
    /// stranger.
    pub fn some_source(&self, transmitter: [u8; 6], random: &mut Random) -> [u8; 6] {
        let row = self.some_row(random);
        let new = individual(random).0;
        let own = if self.head.own.is_individual() {
            self.head.own.0
        } else {
            new
        };
        let held = if row.is_held() {
            row.destination.0
        } else {
            new
        };
        random.pick(&[held, held, held, own, transmitter, new])
    }
}

/// Returns a number that is equal, newer, older, about half the circle away, or any.
pub(super) fn near(number: u32, random: &mut Random) -> u32 {
    let half = 1 << 31;
    let steps = [0, 0, 0, 1, 1, u32::MAX, half, half - 1, half + 1];
    let stepped = number.wrapping_add(random.pick(&steps));
    let any = random.number() as u32;
    random.pick(&[stepped, stepped, stepped, any])
}
