use crate::random::Random;
use crate::reference::walk::MOST_POINTS;

/// Points along a drive. Each has a link to the next, which makes walks long. A few have a link
/// farther on, so that paths compete.
pub const LINKS: [(usize, usize); 20] = [
    (0, 1),
    (1, 2),
    (2, 3),
    (3, 4),
    (4, 5),
    (5, 6),
    (6, 7),
    (7, 8),
    (8, 9),
    (9, 10),
    (10, 11),
    (11, 12),
    (12, 13),
    (13, 14),
    (14, 15),
    (0, 2),
    (3, 6),
    (5, 8),
    (9, 11),
    (12, 15),
];

/// The link metrics at present, 0 where there is no link.
pub struct Drive([[u32; MOST_POINTS]; MOST_POINTS]);

impl Drive {
    /// Returns a drive that has all its links.
    pub fn whole(random: &mut Random) -> Drive {
        let mut drive = Drive([[0; MOST_POINTS]; MOST_POINTS]);
        drive.restore(random);
        drive
    }

    pub fn restore(&mut self, random: &mut Random) {
        for link in 0..LINKS.len() {
            self.renew(link, random);
        }
    }

    /// Gives the link some metric from now on, whether or not it was there before. A longer link is
    /// worse, but often still better than the path along the line.
    pub fn renew(&mut self, link: usize, random: &mut Random) {
        let (one, other) = LINKS[link];
        let most = 40 * (other - one);
        self.set(link, 5 + random.below(most) as u32);
    }

    pub fn lose(&mut self, link: usize) {
        self.set(link, 0);
    }

    fn set(&mut self, link: usize, metric: u32) {
        let (one, other) = LINKS[link];
        self.0[one][other] = metric;
        self.0[other][one] = metric;
    }

    pub fn has(&self, link: usize) -> bool {
        let (one, other) = LINKS[link];
        self.metric(one, other) != 0
    }

    pub fn metric(&self, from: usize, to: usize) -> u32 {
        self.0[from][to]
    }

    /// Returns the points that can hear a point now.
    pub fn neighbours(&self, of: usize) -> Vec<usize> {
        let metrics = self.0[of].iter().enumerate();
        metrics
            .filter(|(_, metric)| **metric != 0)
            .map(|(neighbour, _)| neighbour)
            .collect()
    }
}
