//! Several lines of a clerk that belong together.

use super::Clerk;

impl Clerk {
    /// Every row but one loaded and dealt, and every triple loaded.
    pub(super) fn furnish(&mut self) -> Vec<Vec<u8>> {
        let mut lines = vec![];
        for &row in &self.rows.clone()[1..] {
            lines.extend([self.raw_row_of(row), self.deal_of(row)]);
        }
        for first in self.firsts.clone() {
            lines.push(self.triple_of(first));
        }
        lines
    }

    /// A triple, its masks, the masks of most other posts, the finish, and the product opened.
    pub(super) fn product(&mut self) -> Vec<Vec<u8>> {
        let first = self.some_first();
        let mut lines = vec![self.triple_of(first), self.make_masks_of(first)];
        for post in self.most_posts() {
            let lie = self.rng.one_in(60);
            lines.push(self.mask_line_of(first, post, lie));
        }
        lines.push(self.finish_of(first));
        lines.extend(self.openings_of(first + 2));
        lines
    }

    /// The messages of most other posts for a held row, and its opening.
    pub(super) fn opening_burst(&mut self) -> Vec<Vec<u8>> {
        let row = self.some_held_row();
        self.openings_of(row)
    }

    fn openings_of(&mut self, row: usize) -> Vec<Vec<u8>> {
        let mut lines = vec![];
        for post in self.most_posts() {
            let lie = self.rng.one_in(60);
            lines.push(self.opening_of(row, post, lie));
        }
        lines.push(format!("G,{row}\n").into_bytes());
        lines
    }

    /// Most other posts, now and then from the last to the first.
    fn most_posts(&mut self) -> Vec<usize> {
        let mut posts: Vec<usize> = (1..=self.shape.posts()).collect();
        posts.retain(|_| !self.rng.one_in(60));
        if self.rng.one_in(4) {
            posts.reverse();
        }
        posts
    }
}
