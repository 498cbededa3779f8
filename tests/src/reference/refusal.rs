use crate::answers::ACCEPTED;

/// A refusal by its number in docs/PROTOCOL.md, 'Refusals'.
pub type Refusal = u32;

/// Returns 0 for an acceptance, otherwise the refusal.
pub fn answer<T>(outcome: Result<T, Refusal>) -> u32 {
    outcome.err().unwrap_or(ACCEPTED)
}

pub(super) fn ensure(holds: bool, refusal: Refusal) -> Result<(), Refusal> {
    if holds { Ok(()) } else { Err(refusal) }
}
