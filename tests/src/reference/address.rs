#[derive(Clone, Copy, Debug, Default, PartialEq, Eq)]
pub struct Address(pub [u8; 6]);

impl Address {
    pub const ZERO: Address = Address([0; 6]);
    pub const ALL_ONES: Address = Address([0xFF; 6]);

    /// The lowest bit of the first octet marks a group. All ones is a group too.
    pub fn is_individual(self) -> bool {
        self.0[0] & 1 == 0 && self != Address::ZERO
    }

    /// Returns the address as one number whose lowest octet is the first.
    pub fn number(self) -> u64 {
        let [a, b, c, d, e, f] = self.0;
        u64::from_le_bytes([a, b, c, d, e, f, 0, 0])
    }
}
