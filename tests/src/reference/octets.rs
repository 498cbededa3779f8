//! Fields at fixed places. The places are constants, so neither function can fail.

/// Returns the N octets of a field.
pub fn field<const N: usize, const M: usize>(octets: &[u8; M], at: usize) -> [u8; N] {
    octets[at..at + N].try_into().unwrap()
}

pub fn put<const N: usize, const M: usize>(octets: &mut [u8; M], at: usize, value: [u8; N]) {
    octets[at..at + N].copy_from_slice(&value);
}
