//! What a call emits: frames in the output, one after another from its start.

use super::element::{Destinations, Element};
use super::refusal::ensure;
use super::{Address, Refusal};
use crate::answers::SHORT_OUTPUT;

/// Room for everything that one call can emit.
pub const LEAST_OUTPUT: usize = 1560;

/// What an acceptance reports.
#[derive(Clone, Copy, Debug, Default, PartialEq, Eq)]
pub struct Emitted {
    pub frames: usize,
    pub octets: usize,
}

/// A lent output, and how much of it is written.
pub struct Frames<'a> {
    output: &'a mut [u8],
    emitted: Emitted,
}

impl<'a> Frames<'a> {
    /// Refuses with 2 unless the output holds what any call can emit.
    pub fn start(output: &'a mut [u8]) -> Result<Frames<'a>, Refusal> {
        ensure(output.len() >= LEAST_OUTPUT, SHORT_OUTPUT)?;
        Ok(Frames {
            output,
            emitted: Emitted::default(),
        })
    }

    pub fn emit(&mut self, to: Address, element: Element) {
        let at = self.emitted.octets;
        let octets = element
            .write(to, self.output, at, Destinations::AsOnePart)
            .expect("the least output has room for every call");
        self.emitted.octets += octets;
        self.emitted.frames += 1;
    }

    pub fn emitted(&self) -> Emitted {
        self.emitted
    }
}

/// Cuts what was emitted into receivers and elements, by the elements' Length octets.
pub fn cut_frames(emitted: &[u8]) -> impl Iterator<Item = ([u8; 6], &[u8])> {
    let mut rest = emitted;
    std::iter::from_fn(move || {
        let (receiver, after) = rest.split_first_chunk()?;
        let (element, others) = after.split_at(2 + usize::from(after[1]));
        rest = others;
        Some((*receiver, element))
    })
}
