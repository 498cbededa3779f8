use crate::answers::{ACCEPTED, NO_ROUTE, TOO_LONG};
use crate::fence::Fence;
use crate::library::Walked;
use crate::random::Random;
use crate::stand_ins::both;

use super::lending::{lend, lend_address};
use super::tally::Tally;

/// The operands of a walk.
#[derive(Clone, Debug)]
pub struct Walk {
    /// Tables side by side.
    pub tables: Vec<u8>,
    pub count: u32,
    pub clock: u64,
    pub start: [u8; 6],
    pub destination: [u8; 6],
}

/// What the comparisons of walks share. Each buffer is lent next to its own fence.
pub struct Walks {
    pub random: Random,
    pub answers: Tally,
    tables: Fence,
    start: Fence,
    destination: Fence,
}

impl Walks {
    pub fn announced(purpose: &str, seed: u64) -> Walks {
        Walks::new(Random::announced(purpose, seed))
    }

    pub fn new(random: Random) -> Walks {
        Walks {
            random,
            answers: Tally::default(),
            tables: Fence::build(),
            start: Fence::build(),
            destination: Fence::build(),
        }
    }

    /// Makes one walk by both implementations, which must agree. Without the reference it also
    /// checks that nothing is changed, that a refusal carries no hops, and that there are at most
    /// as many hops as tables.
    pub fn compare(&mut self, walk: &Walk) -> Walked {
        let random = &mut self.random;
        let tables = lend(&walk.tables, &mut self.tables, random);
        let start = lend_address(walk.start, &mut self.start, random);
        let destination = lend_address(walk.destination, &mut self.destination, random);
        let [found, expected] =
            both().map(|by| (by.walk)(tables, walk.count, walk.clock, start, destination));
        assert_eq!(found, expected, "{walk:?}");
        assert!(tables == walk.tables, "tables changed: {walk:?}");
        let addresses = (*start, *destination);
        assert_eq!(addresses, (walk.start, walk.destination), "{walk:?}");
        let most = if [ACCEPTED, NO_ROUTE, TOO_LONG].contains(&found.answer) {
            walk.count
        } else {
            0
        };
        assert!(found.hops <= most, "{found:?} for {walk:?}");
        self.answers.count("walk", found.answer);
        found
    }
}
