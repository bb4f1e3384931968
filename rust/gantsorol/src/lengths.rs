//! Bounds, and the lengths of lists, lines and files that follow from n, t and the number of check points of a post:
//! those of the C header.

/// p, the number of elements: an element is 0 to p − 1.
pub const MODULUS: u32 = 2_147_483_647;

/// The largest number of posts; the smallest is 2.
pub const MAX_POSTS: usize = 255;

/// The most check points of a post; the least is 1.
pub const MAX_POINTS: usize = 2;

/// The rows of a session.
pub const ROWS: usize = 96;

/// The numbers of a row's set of posts: 32 posts each.
pub const SET_LEN: usize = 8;

/// The numbers of all rows' sets.
pub const SETS_LEN: usize = ROWS * SET_LEN;

/// The most terms of a relation.
pub const MAX_TERMS: usize = 32;

/// The second row of a term that is no product.
pub const NO_ROW: u8 = 255;

/// The kind of an empty row, and of the second and the third row of a triple.
pub const KIND_EMPTY: u8 = 0;

/// The kind of a raw row.
pub const KIND_RAW: u8 = 1;

/// The kind of a triple's first row.
pub const KIND_TRIPLE: u8 = 3;

/// The most dealers of a station.
pub const DEALERS: usize = 8;

/// The bytes of the dealers' state: the last dealer served, then each dealer's place, a length and 16 bytes.
pub const DEALERS_LEN: usize = 1 + DEALERS * (1 + DEAL_LINE_LEN);

/// More bytes of stack than any call takes, beside its arguments and its answer.
pub const MOST_STACK: usize = 35_000;

/// The bytes of the longest broadcast line of any station, its line feed included.
pub const LONGEST_LINE: usize = 11_207;

/// The bytes of the longest `D` line, its line feed included; a dealer's place holds one.
pub const DEAL_LINE_LEN: usize = 16;

/// The numbers of all posts' check points: both points of a post follow one another.
pub const fn check_points_len(n: usize, points: usize) -> usize {
    points * n
}

/// The numbers of a row: a message's coefficients, the check values of each sender, n public sums.
pub const fn row_len(n: usize, t: usize, points: usize) -> usize {
    message_len(t, points) + check_points_len(n, points) + n
}

/// The numbers of a session's rows.
pub const fn rows_len(n: usize, t: usize, points: usize) -> usize {
    ROWS * row_len(n, t, points)
}

/// The numbers of an opening message: t+1 coefficients, or 2t+1 where a post has two check points.
pub const fn message_len(t: usize, points: usize) -> usize {
    points * t + 1
}

/// The numbers of a record's block: a mark and a message.
pub const fn block_len(t: usize, points: usize) -> usize {
    1 + message_len(t, points)
}

/// The numbers of a record: a block for each post.
pub const fn record_len(n: usize, t: usize, points: usize) -> usize {
    n * block_len(t, points)
}

/// The numbers of a product's masks: a message for each factor.
pub const fn masks_len(t: usize, points: usize) -> usize {
    2 * message_len(t, points)
}

/// The numbers of the masks of a relation with k product terms.
pub const fn relation_masks_len(t: usize, points: usize, k: usize) -> usize {
    k * masks_len(t, points)
}

/// The numbers of the records of a relation with k product terms: two records each.
pub const fn relation_records_len(n: usize, t: usize, points: usize, k: usize) -> usize {
    k * 2 * record_len(n, t, points)
}

/// The numbers of the list that a line read fills.
pub const fn line_list_len(t: usize, points: usize) -> usize {
    2 * message_len(t, points)
}

/// The drawn numbers of a row: the t+1 coefficients of f, then those of v1 to vn, a message's each.
pub const fn row_draw_len(n: usize, t: usize, points: usize) -> usize {
    t + 1 + n * message_len(t, points)
}

/// The drawn numbers of a triple: three draws of a row, the third without f's constant.
pub const fn triple_draw_len(n: usize, t: usize, points: usize) -> usize {
    3 * row_draw_len(n, t, points) - 1
}

/// The drawn numbers of a station with so many raw rows and triples.
pub const fn draws_len(n: usize, t: usize, points: usize, raw: usize, triples: usize) -> usize {
    raw * row_draw_len(n, t, points) + triples * triple_draw_len(n, t, points)
}

/// The numbers of all posts' packs of a row.
pub const fn packs_len(n: usize, t: usize, points: usize) -> usize {
    n * row_len(n, t, points)
}

/// The numbers of one post's pack of a triple: its rows of l, l' and l''.
pub const fn triple_pack_len(n: usize, t: usize, points: usize) -> usize {
    3 * row_len(n, t, points)
}

/// The numbers of all posts' packs of a triple.
pub const fn triple_packs_len(n: usize, t: usize, points: usize) -> usize {
    n * triple_pack_len(n, t, points)
}

/// The digits of a number of posts, of a post or of t.
pub const fn digits(n: usize) -> usize {
    match n {
        0..=9 => 1,
        10..=99 => 2,
        _ => 3,
    }
}

/// The bytes of the longest `O` line of a station, its line feed included.
pub const fn opening_line_len(n: usize, t: usize, points: usize) -> usize {
    6 + digits(n) + 11 * message_len(t, points)
}

/// The bytes of the longest `M` line, longer than an `O` line, its line feed included.
pub const fn masks_line_len(n: usize, t: usize, points: usize) -> usize {
    6 + digits(n) + 11 * masks_len(t, points)
}

/// The bytes of the longest `A` line, its line feed included. Where t is small beside n it is the longest of a station.
pub const fn access_line_len(n: usize) -> usize {
    5 + 2 * n + n.saturating_sub(9) + n.saturating_sub(99)
}

/// The bytes of the longest first line of a pack file, an `S` or a `W`, its line feed included.
pub const fn start_line_len(n: usize, t: usize, points: usize) -> usize {
    5 + 2 * digits(n) + digits(t) + 11 * points
}

/// The bytes of the longest `R` line of a pack file, its line feed included.
pub const fn row_line_len(n: usize, t: usize, points: usize) -> usize {
    5 + 11 * row_len(n, t, points)
}

/// The bytes of the longest `T` line of a pack file, its line feed included.
pub const fn triple_line_len(n: usize, t: usize, points: usize) -> usize {
    5 + 11 * triple_pack_len(n, t, points)
}

/// The bytes of the longest pack file with so many raw rows and triples.
pub const fn pack_file_len(n: usize, t: usize, points: usize, raw: usize, triples: usize) -> usize {
    let lines = raw * row_line_len(n, t, points) + triples * triple_line_len(n, t, points);
    start_line_len(n, t, points) + lines
}

/// Where the draw of a row stands in the list of draws of [`write_pack`](crate::write_pack); with
/// [`ROWS`] for `row`, that list's length.
pub const fn draw_place(
    n: usize,
    t: usize,
    points: usize,
    kinds: &[u8; ROWS],
    row: usize,
) -> usize {
    let (mut raw, mut triples, mut at) = (0, 0, 0);
    while at < row && at < ROWS {
        match kinds[at] {
            KIND_RAW => raw += 1,
            KIND_TRIPLE => triples += 1,
            _ => (),
        }
        at += 1;
    }
    draws_len(n, t, points, raw, triples)
}
