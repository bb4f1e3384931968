//! Sets of posts.

use core::fmt;

use crate::{Session, MAX_POSTS, ROWS, SET_LEN};

/// A set of posts, made from their numbers.
///
/// Any other number than 1 to [`MAX_POSTS`] is no post, and in no set.
///
/// ```
/// # use gantsorol::Posts;
/// let posts = Posts::of(&[1, 3, 255]);
/// assert!(posts.has(3) && !posts.has(2) && !posts.has(0));
/// assert_eq!(posts.iter().collect::<Vec<_>>(), [1, 3, 255]);
/// assert_eq!(posts.shared(Posts::all(3)), Posts::of(&[1, 3]));
/// assert_eq!(format!("{posts:?}"), "{1, 3, 255}");
/// ```
#[derive(Clone, Copy, Default, PartialEq, Eq, Hash)]
pub struct Posts([u32; SET_LEN]);

impl Posts {
    /// No post.
    pub const NONE: Self = Self([0; SET_LEN]);

    /// These posts, in any order.
    pub fn of(posts: &[usize]) -> Self {
        posts.iter().copied().collect()
    }

    /// The posts 1 to n.
    pub fn all(n: usize) -> Self {
        (1..=n.min(MAX_POSTS)).collect()
    }

    /// Whether a post is one of them.
    pub fn has(self, post: usize) -> bool {
        place(post).is_some_and(|(word, bit)| self.0[word] & bit != 0)
    }

    /// Their numbers, rising.
    pub fn iter(self) -> impl Iterator<Item = usize> {
        (1..=MAX_POSTS).filter(move |&post| self.has(post))
    }

    /// The posts that both sets have.
    pub fn shared(self, other: Self) -> Self {
        Self(core::array::from_fn(|word| self.0[word] & other.0[word]))
    }
}

/// The number and the bit of a post.
fn place(post: usize) -> Option<(usize, u32)> {
    (1..=MAX_POSTS).contains(&post).then(|| ((post - 1) / 32, 1 << ((post - 1) % 32)))
}

impl FromIterator<usize> for Posts {
    fn from_iter<I: IntoIterator<Item = usize>>(posts: I) -> Self {
        let mut set = Self::NONE;
        for (word, bit) in posts.into_iter().filter_map(place) {
            set.0[word] |= bit;
        }
        set
    }
}

/// As a set of numbers.
impl fmt::Debug for Posts {
    fn fmt(&self, f: &mut fmt::Formatter) -> fmt::Result {
        f.debug_set().entries(self.iter()).finish()
    }
}

/// The rows that not every post may call for, each with the posts that may.
pub(crate) struct Limited<'a>(pub &'a Session);

impl fmt::Debug for Limited<'_> {
    fn fmt(&self, f: &mut fmt::Formatter) -> fmt::Result {
        let rows = (0..ROWS).map(|row| (row, self.0.callers(row)));
        f.debug_map().entries(rows.filter(|&(_, posts)| posts != Posts::all(self.0.n))).finish()
    }
}

impl Session {
    /// The posts that may call for a row's opening: those of 1 to n that the row does not bar. A row
    /// above 95 has none, and none has any in a session of more posts than there may be.
    pub fn callers(&self, row: usize) -> Posts {
        if row >= ROWS || self.n > MAX_POSTS {
            return Posts::NONE;
        }
        let free = core::array::from_fn(|word| !self.barred[SET_LEN * row + word]);
        Posts(free).shared(Posts::all(self.n))
    }
}
