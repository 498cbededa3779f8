//! The elements that a point originates: docs/PROTOCOL.md, 'Originating'. Each takes the next own
//! number and goes to all ones.

use super::element::{Destination, Element, Rann, Rreq};
use super::frames::{Emitted, Frames};
use super::items::Items;
use super::refusal::ensure;
use super::table::{Head, write_head};
use super::{Address, HopCount, Metric, Refusal, checks};
use crate::answers::{ABOUT_ITSELF, BAD_LIST};

/// The TTL of a new element.
pub(super) const TTL: u8 = 31;

pub fn ask(
    octets: &mut [u8],
    output: &mut [u8],
    lifetime: u32,
    items: &[u8],
) -> Result<Emitted, Refusal> {
    let table = checks::table_length(octets)?;
    let mut frames = Frames::start(output)?;
    let items = Items::cut(items)?;
    items.check()?;
    checks::lifetime(lifetime)?;
    checks::is_table(&table)?;
    let head = table.head();
    let names_own = items.addresses().any(|address| address == head.own);
    ensure(!names_own, ABOUT_ITSELF)?;
    let head = head.requested();
    let destinations = items.destinations(&table);
    request(&mut frames, &head, 0, lifetime, destinations.as_slice());
    write_head(octets, &head);
    Ok(frames.emitted())
}

pub fn announce(
    octets: &mut [u8],
    output: &mut [u8],
    flags: u8,
    lifetime: u32,
) -> Result<Emitted, Refusal> {
    let flags_fit = matches!(flags, 0 | 1);
    let (head, mut frames) = start_as_root(octets, output, flags_fit, lifetime)?;
    let head = head.numbered();
    let announcement = Rann {
        flags,
        hop_count: HopCount(0),
        ttl: TTL,
        originator: head.own,
        number: head.number,
        lifetime,
        metric: Metric(0),
    };
    frames.emit(Address::ALL_ONES, Element::Rann(announcement));
    write_head(octets, &head);
    Ok(frames.emitted())
}

pub fn root_request(
    octets: &mut [u8],
    output: &mut [u8],
    flags: u8,
    lifetime: u32,
) -> Result<Emitted, Refusal> {
    let flags_fit = matches!(flags, 0 | 1 | 4 | 5);
    let (head, mut frames) = start_as_root(octets, output, flags_fit, lifetime)?;
    let head = head.requested();
    let everyone = Destination::new(Destination::DO | Destination::RF, Address::ALL_ONES, None);
    request(&mut frames, &head, flags, lifetime, &[everyone.encode()]);
    write_head(octets, &head);
    Ok(frames.emitted())
}

/// Makes the checks of an announcement or a root request, which differ only in the flags allowed.
fn start_as_root<'a>(
    octets: &[u8],
    output: &'a mut [u8],
    flags_fit: bool,
    lifetime: u32,
) -> Result<(Head, Frames<'a>), Refusal> {
    let table = checks::table_length(octets)?;
    let frames = Frames::start(output)?;
    ensure(flags_fit, BAD_LIST)?;
    checks::lifetime(lifetime)?;
    checks::is_table(&table)?;
    Ok((table.head(), frames))
}

/// Emits a request with the counters of a head that was already stepped.
fn request(
    frames: &mut Frames,
    head: &Head,
    flags: u8,
    lifetime: u32,
    destinations: &[[u8; Destination::OCTETS]],
) {
    let request = Rreq {
        flags,
        hop_count: HopCount(0),
        ttl: TTL,
        request_id: head.request_id,
        originator: head.own,
        number: head.number,
        lifetime,
        metric: Metric(0),
        destinations,
    };
    frames.emit(Address::ALL_ONES, Element::Rreq(request));
}
