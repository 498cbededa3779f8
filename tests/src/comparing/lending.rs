//! Operands lent next to a fence, on either side of it.

use crate::fence::{Fence, Side};
use crate::random::Random;

pub fn lend<'a>(octets: &[u8], fence: &'a mut Fence, random: &mut Random) -> &'a [u8] {
    fence.lend(octets, random.pick(&Side::BOTH))
}

pub fn lend_address<'a>(
    address: [u8; 6],
    fence: &'a mut Fence,
    random: &mut Random,
) -> &'a [u8; 6] {
    let lent = lend(&address, fence, random);
    lent.try_into().expect("as many octets as were lent")
}
