//! The opening. Lists are of the size of the station: up to 8 posts, up to 32, or up to the most.

use gantsorol::{block_len, message_len, record_len, row_len, rows_len};
use gantsorol::{Answer, Session, MAX_POSTS, ROWS};

use super::{any_beyond, checked_points, checked_shape, is_point, powers, product, reduced, value};
use super::{FEW, FEW_SENT, MOST_SENT, P, VERY_FEW, VERY_FEW_SENT};

const fn inverse(x: u64) -> u64 {
    let (mut power, mut base, mut exponent) = (1, x, P - 2);
    while exponent > 0 {
        if exponent % 2 == 1 {
            power = product(power, base);
        }
        base = product(base, base);
        exponent /= 2;
    }
    power
}

/// k, k!, and the inverses of both, for k up to the number of posts; those of k in 32 bits too.
struct Table {
    inverse: [u64; MAX_POSTS + 1],
    short_inverse: [u32; MAX_POSTS + 1],
    factorial: [u64; MAX_POSTS + 1],
    inverse_factorial: [u64; MAX_POSTS + 1],
}

static TABLE: Table = {
    let ones = [1; MAX_POSTS + 1];
    let short_inverse = [1; MAX_POSTS + 1];
    let mut table =
        Table { inverse: ones, short_inverse, factorial: ones, inverse_factorial: ones };
    let mut k = 1;
    while k <= MAX_POSTS {
        table.inverse[k] = inverse(k as u64);
        table.short_inverse[k] = table.inverse[k] as u32;
        table.factorial[k] = product(table.factorial[k - 1], k as u64);
        table.inverse_factorial[k] = product(table.inverse_factorial[k - 1], table.inverse[k]);
        k += 1;
    }
    table
};

/// The refusal and the number.
fn outcome(session: &Session, rows: &[u32], row: usize, record: &[u32]) -> (u8, u32) {
    let number = match session.n {
        ..=VERY_FEW => number::<VERY_FEW, VERY_FEW_SENT>,
        ..=FEW => number::<FEW, FEW_SENT>,
        _ => number::<MAX_POSTS, MOST_SENT>,
    };
    match number(session, rows, row, record) {
        Ok(value) => (0, value),
        Err(refusal) => (refusal, 0),
    }
}

/// The opening.
pub fn open(session: Session, rows: &[u32], row: usize, record: &[u32]) -> Answer {
    let (refusal, value) = outcome(&session, rows, row, record);
    Answer { refusal, value, session }
}

/// The opening as a caller of the library has it: C's rules put a session that comes by value onto the stack. Rust's own, above, pass a
/// reference to it.
#[allow(improper_ctypes_definitions)]
#[inline(never)]
pub extern "C" fn open_by_value(
    session: Session,
    rows: &[u32],
    row: usize,
    record: &[u32],
) -> Answer {
    let (refusal, value) = outcome(&session, rows, row, record);
    Answer { refusal, value, session }
}

/// Refusals 1 to 7.
fn checked(session: &Session, rows: &[u32], row: usize, record: &[u32]) -> Result<(), u8> {
    let Session { n, t, post, points, first, second, .. } = *session;
    checked_shape(n, t)?;
    if post < 1 || post > n {
        return Err(3);
    }
    checked_points(points)?;
    match () {
        () if !is_point(first) || points == 2 && !is_point(second) => Err(4),
        () if rows.len() != rows_len(n, t, points) => Err(5),
        () if record.len() != record_len(n, t, points) => Err(5),
        () if row >= ROWS => Err(6),
        () if session.marks[row] != 2 => Err(7),
        () => Ok(()),
    }
}

fn number<const N: usize, const SENT: usize>(
    session: &Session,
    rows: &[u32],
    row: usize,
    record: &[u32],
) -> Result<u32, u8> {
    checked(session, rows, row, record)?;
    let open = if session.points == 1 { opened::<N, N, 1> } else { opened::<N, SENT, 2> };
    open(session, rows, row, record)
}

/// A number opened by a post with so many check points.
fn opened<const N: usize, const SENT: usize, const POINTS: usize>(
    session: &Session,
    rows: &[u32],
    row: usize,
    record: &[u32],
) -> Result<u32, u8> {
    let Session { n, t, post, first, second, .. } = *session;
    let (width, count) = (row_len(n, t, POINTS), message_len(t, POINTS));
    let numbers = &rows[row * width..][..width];
    let (own, seen) = numbers.split_at(count);
    let (checks, sums) = seen.split_at(POINTS * n);

    let own_points = [first, second];
    let powers: [[u32; SENT]; POINTS] =
        std::array::from_fn(|which| powers::<SENT>(own_points[which], count));
    let mut beyond = any_beyond(numbers);
    let (mut nodes, mut shares, mut accepted) = ([0; N], [0; N], 0);
    for (index, block) in record.chunks_exact(block_len(t, POINTS)).enumerate() {
        let sent = match block {
            _ if index + 1 == post => own,
            [1, sent @ ..] => sent,
            [mark, ..] => {
                beyond |= *mark > 1;
                continue;
            }
            [] => continue,
        };
        beyond |= any_beyond(sent);
        let checks = &checks[index * POINTS..][..POINTS];
        if powers.iter().zip(checks).all(|(powers, &check)| value(sent, powers) == u64::from(check))
        {
            nodes[accepted] = index;
            shares[accepted] = reduced(u64::from(sums[index]) + 4 * P - u64::from(sent[0]));
            accepted += 1;
        }
    }
    match (beyond, accepted > t) {
        (true, _) => Err(8),
        (false, true) => agreed::<N>(&nodes[..accepted], &shares[..accepted], t + 1),
        _ => Err(9),
    }
}

/// The number through the first `need` shares, or 13 where a further one is off their polynomial.
fn agreed<const N: usize>(nodes: &[usize], shares: &[u64], need: usize) -> Result<u32, u8> {
    let (nodes, further) = nodes.split_at(need);
    let (shares, theirs) = shares.split_at(need);
    let (weights, all) = weighed::<N>(nodes);
    if !further.is_empty() && !fit::<N>(nodes, shares, &weights, further, theirs) {
        return Err(13);
    }
    let mut sum = 0;
    for ((&index, &share), &weight) in nodes.iter().zip(shares).zip(&weights) {
        sum += product(product(share, TABLE.inverse[index + 1]), weight);
    }
    Ok(product(all, reduced(sum)) as u32)
}

/// Whether each further share y at z has the sum of w y' / (z - x) equal to y times that of w / (z - x), over the nodes
/// x with their shares y' and weights w. These lie dense and from the last node down, 0 where no node is, so that the
/// inverses are one part of the table.
fn fit<const N: usize>(
    nodes: &[usize],
    shares: &[u64],
    weights: &[u64],
    further: &[usize],
    theirs: &[u64],
) -> bool {
    let (first, last) = (nodes[0], nodes[nodes.len() - 1]);
    let (mut above, mut below) = ([0; N], [0; N]);
    for ((&index, &share), &weight) in nodes.iter().zip(shares).zip(weights) {
        above[last - index] = product(weight, share) as u32;
        below[last - index] = weight as u32;
    }
    let span = last - first + 1;
    further.iter().zip(theirs).all(|(&z, &y)| {
        let inverses = &TABLE.short_inverse[z - last..][..span];
        value(&above[..span], inverses) == product(y, value(&below[..span], inverses))
    })
}

/// The weights of these nodes, k for post k + 1, which rise, and the factor of all of them at 0.
///
/// A share's factor at 0 is the product of k / (k − j) over the other nodes k. Over all posts from the
/// first node to the last it is made of factorials; those that are no nodes are taken out of it.
fn weighed<const N: usize>(nodes: &[usize]) -> ([u64; N], u64) {
    let (first, last) = (nodes[0], nodes[nodes.len() - 1]);
    let (mut list, mut count, mut next) = ([0; N], 0, 0);
    for index in first..=last {
        if nodes[next] == index {
            next += 1;
        } else {
            list[count] = index as i64;
            count += 1;
        }
    }
    let gaps = &list[..count];
    let all = product(TABLE.factorial[last + 1], TABLE.inverse_factorial[first]);
    let all = gaps.iter().fold(all, |all, &gap| product(all, TABLE.inverse[gap as usize + 1]));
    // Distances are at most 31 or 254; twelve of the first and seven of the others are below 2^62.
    let together = if N <= FEW { 12 } else { 7 };
    let mut weights = [0; N];
    for (weight, &index) in weights.iter_mut().zip(nodes) {
        let below = TABLE.inverse_factorial[index - first];
        let above = TABLE.inverse_factorial[last - index];
        let mut term = product(below, above);
        let mut minus = (index - first) % 2 == 1;
        for part in gaps.chunks(together) {
            let away: i64 = part.iter().map(|gap| gap - index as i64).product();
            minus ^= away < 0;
            term = product(term, reduced(away.unsigned_abs()));
        }
        *weight = if minus { P - term } else { term };
    }
    (weights, all)
}
