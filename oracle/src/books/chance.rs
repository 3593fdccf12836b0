//! What is drawn by chance.

use crate::splitmix::Chance;

impl Chance {
    pub fn one_in(&mut self, n: u64) -> bool {
        self.below(n) == 0
    }

    /// A listing over so many sessions, cut somewhere: the store's order, seldom backwards; some entries by chance, so repeated.
    pub fn listing(&mut self, sessions: u64) -> Vec<u64> {
        let most = if self.one_in(4) { sessions + 1 } else { sessions.min(200) + 1 };
        let n = self.below(most);
        let odd = self.one_in(2);
        let mut listing: Vec<u64> =
            (0..n).map(|k| if odd && self.one_in(8) { self.below(sessions) } else { k }).collect();
        if self.one_in(3) {
            listing.reverse();
        }
        listing
    }
}
