//! The library's C interface, `include/hwmp.h`, behind safe functions.

/// `struct hwmp_hop`
#[repr(C)]
#[derive(Clone, Copy, Debug, PartialEq, Eq)]
pub struct Hop {
    pub answer: u32,
    pub address: [u8; 6],
}

/// `struct hwmp_outcome`
#[repr(C)]
#[derive(Clone, Copy, Debug, PartialEq, Eq)]
pub struct Outcome {
    pub answer: u32,
    pub frames: u32,
    pub octets: u32,
}

/// `struct hwmp_walked`
#[repr(C)]
#[derive(Clone, Copy, Debug, PartialEq, Eq)]
pub struct Walked {
    pub answer: u32,
    pub hops: u32,
}

pub mod raw {
    use super::{Hop, Outcome, Walked};

    unsafe extern "C" {
        pub fn hwmp_fresh(table: *mut u8, table_len: usize, own: *const u8, number: u32) -> u32;
        pub fn hwmp_next_hop(
            table: *const u8,
            table_len: usize,
            clock: u64,
            destination: *const u8,
        ) -> Hop;
        pub fn hwmp_forget(table: *mut u8, table_len: usize, destination: *const u8) -> u32;
        pub fn hwmp_ask(
            table: *mut u8,
            table_len: usize,
            output: *mut u8,
            output_len: usize,
            lifetime: u32,
            items: *const u8,
            items_len: usize,
        ) -> Outcome;
        pub fn hwmp_announce(
            table: *mut u8,
            table_len: usize,
            output: *mut u8,
            output_len: usize,
            flags: u8,
            lifetime: u32,
        ) -> Outcome;
        pub fn hwmp_root_request(
            table: *mut u8,
            table_len: usize,
            output: *mut u8,
            output_len: usize,
            flags: u8,
            lifetime: u32,
        ) -> Outcome;
        pub fn hwmp_break(
            table: *mut u8,
            table_len: usize,
            output: *mut u8,
            output_len: usize,
            clock: u64,
            neighbour: *const u8,
        ) -> Outcome;
        pub fn hwmp_receive(
            table: *mut u8,
            table_len: usize,
            output: *mut u8,
            output_len: usize,
            clock: u64,
            transmitter: *const u8,
            link_metric: u32,
            element: *const u8,
            element_len: usize,
        ) -> Outcome;
        pub fn hwmp_walk(
            tables: *const u8,
            tables_len: usize,
            count: u32,
            clock: u64,
            start: *const u8,
            destination: *const u8,
        ) -> Walked;
    }
}

// SAFETY, for every function below: each pointer comes from a reference that lives through the
// call, lengths are those of the slices, and Rust's borrows keep the buffers apart.

pub fn fresh(table: &mut [u8], own: &[u8; 6], number: u32) -> u32 {
    unsafe { raw::hwmp_fresh(table.as_mut_ptr(), table.len(), own.as_ptr(), number) }
}

pub fn next_hop(table: &[u8], clock: u64, destination: &[u8; 6]) -> Hop {
    unsafe { raw::hwmp_next_hop(table.as_ptr(), table.len(), clock, destination.as_ptr()) }
}

pub fn forget(table: &mut [u8], destination: &[u8; 6]) -> u32 {
    unsafe { raw::hwmp_forget(table.as_mut_ptr(), table.len(), destination.as_ptr()) }
}

pub fn ask(table: &mut [u8], output: &mut [u8], lifetime: u32, items: &[u8]) -> Outcome {
    let (table, table_len) = (table.as_mut_ptr(), table.len());
    let (output, output_len) = (output.as_mut_ptr(), output.len());
    let (items, items_len) = (items.as_ptr(), items.len());
    unsafe {
        raw::hwmp_ask(
            table, table_len, output, output_len, lifetime, items, items_len,
        )
    }
}

pub fn announce(table: &mut [u8], output: &mut [u8], flags: u8, lifetime: u32) -> Outcome {
    let (table, table_len) = (table.as_mut_ptr(), table.len());
    let (output, output_len) = (output.as_mut_ptr(), output.len());
    unsafe { raw::hwmp_announce(table, table_len, output, output_len, flags, lifetime) }
}

pub fn root_request(table: &mut [u8], output: &mut [u8], flags: u8, lifetime: u32) -> Outcome {
    let (table, table_len) = (table.as_mut_ptr(), table.len());
    let (output, output_len) = (output.as_mut_ptr(), output.len());
    unsafe { raw::hwmp_root_request(table, table_len, output, output_len, flags, lifetime) }
}

pub fn report_break(
    table: &mut [u8],
    output: &mut [u8],
    clock: u64,
    neighbour: &[u8; 6],
) -> Outcome {
    let (table, table_len) = (table.as_mut_ptr(), table.len());
    let (output, output_len) = (output.as_mut_ptr(), output.len());
    let neighbour = neighbour.as_ptr();
    unsafe { raw::hwmp_break(table, table_len, output, output_len, clock, neighbour) }
}

pub fn receive(
    table: &mut [u8],
    output: &mut [u8],
    clock: u64,
    transmitter: &[u8; 6],
    link_metric: u32,
    element: &[u8],
) -> Outcome {
    let (table, table_len) = (table.as_mut_ptr(), table.len());
    let (output, output_len) = (output.as_mut_ptr(), output.len());
    let transmitter = transmitter.as_ptr();
    let (element, element_len) = (element.as_ptr(), element.len());
    unsafe {
        raw::hwmp_receive(
            table,
            table_len,
            output,
            output_len,
            clock,
            transmitter,
            link_metric,
            element,
            element_len,
        )
    }
}

pub fn walk(
    tables: &[u8],
    count: u32,
    clock: u64,
    start: &[u8; 6],
    destination: &[u8; 6],
) -> Walked {
    let (tables, tables_len) = (tables.as_ptr(), tables.len());
    let (start, destination) = (start.as_ptr(), destination.as_ptr());
    unsafe { raw::hwmp_walk(tables, tables_len, count, clock, start, destination) }
}
