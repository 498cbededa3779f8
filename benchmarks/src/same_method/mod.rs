//! Safe Rust by the library's method. It reads fields straight from the octets, and finds a
//! destination that stands twice through marks. A row whose mark is not yet set has no equal before
//! it. Only where the mark is set does the check search the earlier rows.

mod lookups;
mod table;

use hwmp_tests::implementation::{Implementation, REFERENCE};

/// Only the calls that emit nothing use this method. The others are the reference's, and are not
/// timed under this name.
pub const SAME_METHOD: Implementation = Implementation {
    name: "same method",
    fresh: lookups::fresh,
    next_hop: lookups::next_hop,
    forget: lookups::forget,
    ..REFERENCE
};

#[cfg(test)]
mod tests {
    use super::SAME_METHOD;
    use hwmp_tests::implementation::{Implementation, REFERENCE};
    use hwmp_tests::random::Random;
    use hwmp_tests::reference::table::MAX_ROWS;
    use hwmp_tests::tables;

    const ROUNDS: usize = 100_000;

    fn some_table(random: &mut Random) -> Vec<u8> {
        let rows = 1 + random.below(MAX_ROWS);
        match random.below(8) {
            0 => tables::resized(rows, random),
            1..4 => tables::damaged(rows, random),
            4 => tables::leaning(rows, random),
            _ => tables::legal(rows, random),
        }
    }

    /// Makes one call by both, each on a copy of the table.
    fn agree<A: PartialEq + std::fmt::Debug>(
        table: &[u8],
        call: impl Fn(&Implementation, &mut [u8]) -> A,
    ) {
        let [found, expected] = [SAME_METHOD, REFERENCE].map(|by| {
            let mut table = table.to_vec();
            (call(&by, &mut table), table)
        });
        assert_eq!(found, expected);
    }

    /// A version that did less work would make the comparison worthless.
    #[test]
    fn does_the_same_as_the_reference() {
        let random = &mut Random::announced("same method", 1021);
        for _ in 0..ROUNDS {
            let table = &some_table(random);
            let destination = &tables::some_destination(table, random);
            let clock = tables::some_clock(table, random);
            agree(table, |by, table| (by.next_hop)(table, clock, destination));
            agree(table, |by, table| (by.forget)(table, destination));
            agree(table, |by, table| (by.fresh)(table, destination, 7));
        }
    }
}
