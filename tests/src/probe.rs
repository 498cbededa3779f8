//! Reads, writes and judges elements, by the library and by the reference. The library's functions
//! come from a test-only archive, `libprobe.a`. The reference gets the same C signatures, so that a
//! comparison of times is fair.

use std::slice;

use crate::reference::element::{Destinations, Element, Numbers};
use crate::reference::{Address, answer};

pub mod raw {
    unsafe extern "C" {
        pub fn probe_read(element: *const u8, element_len: usize, numbers: *mut u64) -> u32;
        pub fn probe_write(
            element: *const u8,
            element_len: usize,
            to: *const u8,
            out: *mut u8,
            out_len: usize,
            at: usize,
            singly: u32,
        ) -> u32;
        pub fn probe_faults(element: *const u8, element_len: usize, address: *const u8) -> u32;
    }
}

type Read = unsafe extern "C" fn(*const u8, usize, *mut u64) -> u32;
type Write = unsafe extern "C" fn(*const u8, usize, *const u8, *mut u8, usize, usize, u32) -> u32;
type Faults = unsafe extern "C" fn(*const u8, usize, *const u8) -> u32;

pub struct Probe {
    pub name: &'static str,
    read: Read,
    write: Write,
    faults: Faults,
}

pub const LIBRARY: Probe = Probe {
    name: "library",
    read: raw::probe_read,
    write: raw::probe_write,
    faults: raw::probe_faults,
};

pub const REFERENCE: Probe = Probe {
    name: "reference",
    read: reference_read,
    write: reference_write,
    faults: reference_faults,
};

// SAFETY, for all three: each pointer comes from a reference that lives through the call, lengths
// are those of the slices, and Rust's borrows keep the buffers apart.
impl Probe {
    /// Returns 0 and fills the first places with the element's numbers, or returns a refusal.
    pub fn read(&self, element: &[u8], numbers: &mut Numbers) -> u32 {
        unsafe { (self.read)(element.as_ptr(), element.len(), numbers.as_mut_ptr()) }
    }

    /// Returns 0 and writes receiver and element into the output from place `at` on, or returns a
    /// refusal.
    pub fn write(
        &self,
        element: &[u8],
        to: &[u8; 6],
        out: &mut [u8],
        at: usize,
        singly: u32,
    ) -> u32 {
        let (out, out_len) = (out.as_mut_ptr(), out.len());
        let (element, element_len) = (element.as_ptr(), element.len());
        unsafe { (self.write)(element, element_len, to.as_ptr(), out, out_len, at, singly) }
    }

    /// Returns the faults of the element's list, as a sum.
    pub fn faults(&self, element: &[u8], address: &[u8; 6]) -> u32 {
        unsafe { (self.faults)(element.as_ptr(), element.len(), address.as_ptr()) }
    }
}

// SAFETY, for all three: the caller, as in C, hands over pointers to as many octets as it says.

#[inline(never)]
unsafe extern "C" fn reference_read(
    element: *const u8,
    element_len: usize,
    numbers: *mut u64,
) -> u32 {
    let element = unsafe { slice::from_raw_parts(element, element_len) };
    let numbers: &mut Numbers = unsafe { &mut *numbers.cast() };
    answer(Element::read(element).map(|element| element.numbers(numbers)))
}

#[inline(never)]
unsafe extern "C" fn reference_write(
    element: *const u8,
    element_len: usize,
    to: *const u8,
    out: *mut u8,
    out_len: usize,
    at: usize,
    singly: u32,
) -> u32 {
    let element = unsafe { slice::from_raw_parts(element, element_len) };
    let to = Address(unsafe { *to.cast() });
    let out = unsafe { slice::from_raw_parts_mut(out, out_len) };
    let destinations = match singly {
        0 => Destinations::AsOnePart,
        _ => Destinations::Singly,
    };
    answer(Element::read(element).and_then(|element| element.write(to, out, at, destinations)))
}

#[inline(never)]
unsafe extern "C" fn reference_faults(
    element: *const u8,
    element_len: usize,
    address: *const u8,
) -> u32 {
    let element = unsafe { slice::from_raw_parts(element, element_len) };
    let address = Address(unsafe { *address.cast() });
    let faults = |element: Element| element.faults(address);
    Element::read(element).map_or(0, faults)
}
