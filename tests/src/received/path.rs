use super::Received;
use super::known::{Known, near};
use crate::elements::{Kind, path_fields};
use crate::random::Random;
use crate::tables::{boundary32, individual, not_individual};

/// The path that an element other than a RERR tells of. `end` is the subject.
pub(super) struct Path {
    pub end: [u8; 6],
    number: u32,
    lifetime: u32,
    metric: u32,
    hop_count: u8,
}

impl Path {
    /// Draws a path to the destination of some row, to the transmitter, or to a new address.
    pub fn draw(known: &Known, received: &Received, random: &mut Random) -> Path {
        let row = known.some_row(random);
        let new = individual(random).0;
        let transmitter = received.transmitter;
        let end = match random.below(8) {
            0..5 if row.is_held() => row.destination.0,
            5 => transmitter,
            _ => new,
        };
        let row = known.row_for(end).copied().unwrap_or_default();
        Path {
            end,
            number: near(row.number.0, random),
            lifetime: some_lifetime(received.clock, row.expiry, random),
            metric: some_metric(received.link_metric, row.metric.0, random),
            hop_count: random.octet().min(254),
        }
    }

    /// Returns flags, hop count and TTL.
    pub fn head(&self, flags: u8, random: &mut Random) -> [u8; 3] {
        [
            flags,
            self.hop_count,
            random.pick(&[0, 1, 2, 2, 3, 31, 255]),
        ]
    }

    pub fn body(&self) -> Vec<u8> {
        path_fields(self.end, self.number, self.lifetime, self.metric)
    }
}

/// Returns a lifetime that brings the new expiry near the stored one, where that is possible.
fn some_lifetime(clock: u64, expiry: u64, random: &mut Random) -> u32 {
    let edge = boundary32(random).max(1);
    let just_before = expiry.saturating_sub(clock).saturating_sub(1);
    let until_then = just_before.saturating_add(random.pick(&[0, 1, 2]));
    let until_then = u32::try_from(until_then).unwrap_or(edge);
    random.pick(&[until_then, until_then, edge, 5000]).max(1)
}

/// Returns a metric that, with the link added, is near the row's metric or near the largest of a
/// path.
fn some_metric(link: u32, row: u32, random: &mut Random) -> u32 {
    let most = u32::MAX - 1;
    let below = random.pick(&[0, 0, 1, 1, 2]);
    let near_row = row
        .saturating_add(1)
        .saturating_sub(link)
        .saturating_sub(below);
    let near_most = most.saturating_sub(link).saturating_sub(below);
    let small = random.below(1000) as u32;
    let metric = random.pick(&[near_row, near_row, near_row, small, small, near_most]);
    metric.min(most.saturating_sub(link))
}

/// Changes one field, in most cases so that the point refuses the element. A RERR stays as it is,
/// because it has only flags before its list.
pub(super) fn spoil(element: &mut [u8], own: [u8; 6], random: &mut Random) {
    let Some((end_at, lifetime_at)) = places(element) else {
        return;
    };
    match random.below(7) {
        0 => element[lifetime_at..][..4].fill(0),
        1 => element[3] = 255,
        2 => element[lifetime_at + 4..][..4].fill(0xFF),
        3 => element[4] = random.pick(&[0, 1]),
        4 => element[end_at..][..6].copy_from_slice(&not_individual(random).0),
        5 => element[end_at..][..6].copy_from_slice(&own),
        // In a RREP these octets are the source. In other types they are another field.
        _ => {
            let end: [u8; 6] = element[end_at..][..6].try_into().unwrap();
            let at = (lifetime_at + 8).min(element.len() - 6);
            let bad = not_individual(random).0;
            let source = random.pick(&[end, bad]);
            element[at..][..6].copy_from_slice(&source);
        }
    }
}

/// Returns the places of the subject and the lifetime.
fn places(element: &[u8]) -> Option<(usize, usize)> {
    match Kind::of(element)?.name {
        "RANN" | "RREP" => Some((5, 15)),
        "RREQ" => Some((9, 19)),
        _ => None,
    }
}
